//! Each file damaged, and the command that reads it run as a process: it must do what the library says, the page's row must name
//! that, and a refusal must leave every file as it was.

use super::claims::{Row, Seen};
use super::page::Step;
use super::readers::{files, Done, Files, Reader};
use super::rows::{row_of_byte, row_of_length, MISSING};
use super::typed::place;
use crate::program::due;
use crate::program::folder::{difference, Folder};
use crate::program::process::{run, Ended, PROGRAM};
use crate::program::random::{variable, Random};
use std::process::Command;
use std::thread;
use weighhare::Refusal;

/// A file, by its path, with other bytes than it should have, and the row of the page that says what happens.
struct Damage {
    reader: Reader,
    path: &'static str,
    bytes: Vec<u8>,
    row: Row,
    part: usize,
}

/// A file's name without its side.
fn name(path: &str) -> &str {
    path.split_once('/').expect("a side and a file").1
}

/// One bit of a byte, chosen at random.
fn flip(random: &mut Random, reader: Reader, path: &'static str, byte: usize) -> Damage {
    let bit = random.below(8);
    let (row, part) = row_of_byte(name(path), byte);
    let mut bytes = files()[path].clone();
    bytes[byte] ^= 1 << bit;
    Damage {
        reader,
        path,
        bytes,
        row,
        part,
    }
}

/// A file that was emptied, or has a byte too few or too many.
fn other_lengths(reader: Reader, path: &'static str) -> impl Iterator<Item = Damage> {
    let right = &files()[path];
    let lengths = [
        Vec::new(),
        right[..right.len() - 1].to_vec(),
        [&right[..], &[0]].concat(),
    ];
    lengths.into_iter().map(move |bytes| Damage {
        reader,
        path,
        bytes,
        row: row_of_length(name(path)),
        part: 0,
    })
}

/// All that is tried: other lengths, and a bit of every byte. Of the garbler's lists, which are read twice, every fourth byte.
fn damages() -> Vec<Damage> {
    let mut random = Random::new(variable("WEIGHHARE_SEED", 1));
    let mut damages = Vec::new();
    for reader in Reader::ALL {
        for path in reader.reads() {
            let step = if ["zeros", "ones"].contains(&name(path)) { 4 } else { 1 };
            damages.extend(other_lengths(reader, path));
            for start in (0..files()[*path].len()).step_by(step) {
                let byte = start + random.below(step);
                damages.push(flip(&mut random, reader, path, byte));
            }
        }
    }
    damages
}

/// The place before a command of the page.
fn place_before(reader: Reader) -> Folder {
    let place = place();
    let writes = reader.due(files()).expect("nothing is damaged").written;
    for (path, bytes) in files() {
        if writes.iter().all(|written| written.0 != path) {
            place.write(path, bytes);
        }
    }
    place
}

/// A command of the page, as a process without a shell.
fn run_step(place: &Folder, step: &Step) -> Ended {
    let words = step.command.strip_prefix("weighhare ").expect("the program");
    let mut command = Command::new(PROGRAM);
    command.args(words.split(' ')).current_dir(place.path(step.side));
    run(&mut command, b"")
}

/// Runs the command of a damage that is there, and looks at all that it did. Takes away again what it wrote.
fn try_as_process(place: &Folder, damage: &Damage, step: &Step, due: &Result<Done, Refusal>) {
    let before = place.listing();
    let ended = run_step(place, step);
    let mut after = place.listing();
    match due {
        Err(refusal) => ended.is_refused(&due::said(*refusal)),
        Ok(done) => {
            ended.is_done(done.printed.as_bytes());
            for (path, bytes) in &done.written {
                let found = after
                    .remove(std::ffi::OsStr::new(path))
                    .expect("a file that was written");
                assert!(&found.bytes == bytes, "{path}");
                let secret = name(path) != "material";
                assert!(found.mode & 0o7777 == 0o600 || !secret, "{path}");
                place.remove(path);
            }
        }
    }
    assert_eq!(difference(&before, &after), None, "{} at {}", step.command, damage.path);
}

/// Whether an answer or tokens are as they would be with nothing damaged.
fn is_right(reader: Reader, done: &Done) -> bool {
    Ok(done) == reader.due(files()).as_ref()
}

/// What the page's row says of what the library does with a damage, and then the decoding of what came out of an evaluation.
fn outcome(damage: &Damage, given: &Files, due: &Result<Done, Refusal>) -> Option<Result<bool, u8>> {
    match (due, damage.reader) {
        (Err(refusal), _) => Some(Err(refusal.number())),
        (Ok(done), Reader::Decode) if damage.path == "desk/circuit" => {
            // The page speaks of a desk that evaluates with it too. Decode goes by the sizes and the codes alone.
            assert!(is_right(damage.reader, done), "{:?}", damage.row);
            None
        }
        (Ok(done), Reader::Decode | Reader::PickPrice | Reader::PickCeiling) => Some(Ok(is_right(damage.reader, done))),
        (Ok(done), Reader::Evaluate) => {
            let mut given = given.clone();
            given.insert("desk/outputs".to_owned(), done.written[0].1.clone());
            let decoded = Reader::Decode.due(&given);
            Some(
                decoded
                    .map(|done| is_right(Reader::Decode, &done))
                    .map_err(Refusal::number),
            )
        }
        (Ok(_), Reader::Garble) => None,
    }
}

/// Tries one damage: writes the file, runs the command, and puts the right bytes back.
fn try_damage(place: &Folder, damage: &Damage, step: &Step) {
    let mut given = files().clone();
    given.insert(damage.path.to_owned(), damage.bytes.clone());
    place.write(damage.path, &damage.bytes);
    let due = damage.reader.due(&given);
    try_as_process(place, damage, step, &due);
    place.write(damage.path, &files()[damage.path]);
    if let Some(outcome) = outcome(damage, &given, &due) {
        let mut seen = Seen::default();
        seen.add(outcome);
        let claims = damage.row.claims();
        assert!(seen.is_within(&claims[damage.part]), "{:?}: {seen:?}", damage.row);
    }
}

/// Tries damages, of all readers, each in a place before its command.
fn try_all<'a>(damages: impl Iterator<Item = &'a Damage>) {
    let ready = Reader::ALL.map(|reader| (place_before(reader), reader.step()));
    for damage in damages {
        let index = Reader::ALL.iter().position(|reader| *reader == damage.reader);
        let (place, step) = &ready[index.expect("a reader")];
        try_damage(place, damage, step);
    }
}

#[test]
fn a_damaged_file_does_what_the_page_says() {
    let damages = damages();
    assert!(damages.len() > 6000, "{} damages", damages.len());
    thread::scope(|scope| {
        for worker in 0..2 {
            let own = damages.iter().skip(worker).step_by(2);
            scope.spawn(move || try_all(own));
        }
    });
}

/// What came out of an evaluation of damaged material, decoded by the program or refused: row bits, tokens' bits, bits
/// of the hashes, and the other scheme.
#[test]
fn what_comes_of_damage_is_decoded() {
    let (evaluate, decode) = (Reader::Evaluate, Reader::Decode);
    let place = place_before(evaluate);
    let mut random = Random::new(variable("WEIGHHARE_SEED", 2));
    let mut changes: Vec<(&str, usize, u8)> = vec![
        ("desk/material", 2, 3 ^ 4),
        ("desk/material", 1163, 1),
        ("desk/material", 1194, 0x80),
    ];
    let mut seen = [0, 0];
    for path in [
        "desk/material",
        "desk/price.tokens",
        "desk/ceiling.tokens",
        "desk/circuit",
    ] {
        let bytes = files()[path].len();
        changes.extend((0..64).map(|_| (path, random.below(bytes), 1 << random.below(8))));
    }
    for (path, byte, mask) in changes {
        let mut given = files().clone();
        given.get_mut(path).expect("a file")[byte] ^= mask;
        place.write(path, &given[path]);
        if let Ok(done) = evaluate.due(&given) {
            run_step(&place, &evaluate.step()).is_done(b"");
            assert!(place.read("desk/outputs") == done.written[0].1, "{path}, byte {byte}");
            given.insert("desk/outputs".to_owned(), done.written[0].1.clone());
            let (due, ended) = (decode.due(&given), run_step(&place, &decode.step()));
            seen[usize::from(due.is_err())] += 1;
            match due {
                Ok(done) => ended.is_done(done.printed.as_bytes()),
                Err(refusal) => ended.is_refused(&due::said(refusal)),
            }
            place.remove("desk/outputs");
        }
        place.write(path, &files()[path]);
    }
    assert!(seen[0] > 10 && seen[1] > 10, "decoded and refused: {seen:?}");
}

/// The whole exchange from a seed with a bit flipped: every command after the seed, as a process.
#[test]
fn another_seed_gives_the_right_answer() {
    let before = super::page::split_at("5. What is secret goes").0;
    for bit in [0, 37, 127] {
        let place = place();
        for step in &before {
            super::typed::type_all(&place, std::slice::from_ref(step));
            if step.command == "weighhare seed --out seed" {
                let mut seed = place.read("seller/seed");
                seed[bit / 8] ^= 1 << (bit % 8);
                place.write("seller/seed", seed);
            }
        }
    }
}

#[test]
fn a_missing_file_is_named() {
    assert_eq!(MISSING.happens(), "status 2, and the name of the file");
    for reader in Reader::ALL {
        let (place, step) = (place_before(reader), reader.step());
        for path in reader.reads() {
            place.remove(path);
            let before = place.listing();
            run_step(&place, &step).is_trouble(&[name(path), "No such file"]);
            assert_eq!(difference(&before, &place.listing()), None, "{path}");
            place.write(path, &files()[*path]);
        }
    }
}
