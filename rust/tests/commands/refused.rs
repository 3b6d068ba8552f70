//! Refusals: status 1, `refused NUMBER PLACE: WORDS`, and no file written. The number and the place are those of FORMATS.md, and
//! those that the library's functions on slices give.

use super::places::{filled, run_in, run_untouched, world};
use crate::program::calls::{calls, Call};
use crate::program::due;
use crate::program::folder::Folder;
use crate::program::world::World;
use weighhare::Refusal;

/// Wire 3 is wire 1 AND wire 2.
const AND: [u8; 15] = [0x43, 0x48, 0, 2, 0, 1, 0, 1, 0x43, 0x47, 0, 1, 0, 2, 8];

/// The same gate with three outputs by name: wire 3, wire 1, wire 3.
const NAMED: &[u8; 27] = include_bytes!("../../../examples/named-outputs.circuit");

/// A circuit with some bytes put in another's place.
fn with(circuit: &[u8], at: usize, bytes: &[u8]) -> Vec<u8> {
    let mut circuit = circuit.to_vec();
    circuit[at..at + bytes.len()].copy_from_slice(bytes);
    circuit
}

/// Circuits that are refused, with number and place.
fn circuits() -> Vec<(Vec<u8>, (u8, usize))> {
    vec![
        (vec![], (1, 0)),
        (AND[..7].to_vec(), (1, 7)),
        (with(&AND, 1, &[0x50]), (2, 0)),
        (with(&AND, 2, &[0, 1]), (3, 2)),
        (with(&AND, 2, &[0x10, 1]), (3, 2)),
        (with(&AND, 4, &[0, 0]), (3, 2)),
        (with(&AND, 4, &[0, 2]), (3, 2)),
        (with(&AND, 6, &[0, 0]), (3, 2)),
        (with(&AND, 6, &[0xFF, 0xFE]), (3, 2)),
        (AND[..14].to_vec(), (4, 14)),
        ([&AND[..], &[0]].concat(), (4, 16)),
        (with(&AND, 1, &[0x49]), (4, 15)),
        (NAMED[..26].to_vec(), (4, 26)),
        (with(&AND, 8, &[0x44]), (5, 3)),
        (with(&AND, 9, &[0x48]), (5, 3)),
        (with(&AND, 10, &[0, 0]), (6, 3)),
        (with(&AND, 10, &[0, 2]), (6, 3)),
        (with(&AND, 12, &[0, 3]), (6, 3)),
        (with(&AND, 14, &[0]), (7, 3)),
        (with(&AND, 14, &[15]), (7, 3)),
        (with(&AND, 14, &[16]), (7, 3)),
        (with(NAMED, 19, &[0x44]), (25, 2)),
        (with(NAMED, 21, &[0, 0]), (26, 2)),
        (with(NAMED, 25, &[0, 4]), (26, 3)),
    ]
}

/// Looks at a refusal: it has this number and place, and the program says it.
fn is_refused(folder: &Folder, words: &[impl AsRef<std::ffi::OsStr> + std::fmt::Debug], due: Refusal, at: (u8, usize)) {
    assert_eq!((due.number(), due.place()), at, "{words:?}");
    run_untouched(folder, words).is_refused(&due::said(due));
}

#[test]
fn circuits_by_each_command_that_reads_one() {
    let world = world();
    let folder = filled(&world);
    let calls = calls(&world);
    let readers: Vec<&Call> = calls
        .iter()
        .filter(|call| call.all_read().iter().any(|read| read.1 == "circuit"))
        .collect();
    for (circuit, at) in circuits() {
        folder.write("circuit", &circuit);
        let due = weighhare::check(&circuit).unwrap_err();
        for call in &readers {
            is_refused(&folder, &call.words(), due, at);
        }
    }
    let mut commands: Vec<&str> = readers.iter().map(|call| call.command).collect();
    commands.dedup();
    assert_eq!(commands, ["sizes", "garble", "encode", "evaluate", "decode", "plain"]);
}

#[test]
fn the_example_of_a_refused_code() {
    let folder = Folder::new();
    folder.write(
        "refused-code.circuit",
        include_bytes!("../../../examples/refused-code.circuit"),
    );
    let said = "refused 7 3: gate 3 has a code that is neither charged nor free\n";
    run_untouched(&folder, &["sizes", "refused-code.circuit"]).is_refused(said);
}

#[test]
fn widths() {
    let folder = Folder::new();
    for width in [0, 65, 66, 255, 256, 1 << 16, 1 << 32, usize::MAX] {
        let due = due::comparator(width).unwrap_err();
        let word = width.to_string();
        is_refused(
            &folder,
            &["comparator", "--bits", &word, "--out", "circuit"],
            due,
            (21, width),
        );
        is_refused(&folder, &["compare", "1", "2", "--bits", &word], due, (21, width));
    }
}

const GARBLE: [&str; 10] = [
    "garble",
    "circuit",
    "--seed",
    "seed",
    "--material",
    "m",
    "--zeros",
    "z",
    "--ones",
    "o",
];

#[test]
fn seeds_and_schemes() {
    let world = world();
    let folder = filled(&world);
    let circuit = world.file("circuit");
    for scheme in [0, 5, 6, 255] {
        let due = due::garble(circuit, world.file("seed"), 0, scheme)
            .err()
            .expect("refused");
        let word = scheme.to_string();
        is_refused(
            &folder,
            &[&GARBLE[..], &["--scheme", &word]].concat(),
            due,
            (14, scheme.into()),
        );
        is_refused(
            &folder,
            &["compare", "1", "2", "--bits", "8", "--scheme", &word],
            due,
            (14, scheme.into()),
        );
    }
    for length in [0, 1, 15, 17, 32, 1000] {
        let seed = vec![7; length];
        folder.write("seed", &seed);
        // A wrong scheme is found after a wrong seed.
        for scheme in [3, 5] {
            let due = due::garble(circuit, &seed, 0, scheme).err().expect("refused");
            let word = scheme.to_string();
            is_refused(&folder, &[&GARBLE[..], &["--scheme", &word]].concat(), due, (8, length));
            let hashed = [&GARBLE[..], &["--hashed", "--scheme", &word]].concat();
            is_refused(&folder, &hashed, due, (8, length));
            let compare = ["compare", "1", "2", "--bits", "8", "--seed", "seed", "--scheme", &word];
            is_refused(&folder, &compare, due, (8, length));
        }
    }
}

/// A case: the files that have other bytes, and the number and place that are due.
type Case<'a> = (&'a [(&'a str, Vec<u8>)], (u8, usize));

/// Runs each call of a command that reads the changed files.
fn refuses(world: &World, command: &str, cases: &[Case], due: impl Fn(&dyn Fn(&str) -> Vec<u8>) -> Option<Refusal>) {
    for (changed, at) in cases {
        let folder = filled(world);
        changed.iter().for_each(|(name, bytes)| folder.write(name, bytes));
        let due = due(&|name| folder.read(name)).expect("the library refuses");
        let all_changed = |call: &Call| {
            changed
                .iter()
                .all(|change| call.all_read().iter().any(|read| read.1 == change.0))
        };
        let calls: Vec<Call> = calls(world)
            .into_iter()
            .filter(|call| call.command == command && all_changed(call))
            .collect();
        assert!(!calls.is_empty(), "{command}: {at:?}");
        for call in calls {
            is_refused(&folder, &call.words(), due, *at);
        }
    }
}

/// A list without its last bytes, or with more.
fn resized(bytes: &[u8], by: isize) -> Vec<u8> {
    let mut bytes = bytes.to_vec();
    bytes.resize(bytes.len().checked_add_signed(by).expect("a length"), 0);
    bytes
}

/// Values of 8 bits twice: of a wrong number, and not 0 or 1.
#[test]
fn values() {
    let world = world();
    let right = world.file("values");
    let bad = |index| with(right, index, &[2]);
    let cases: &[Case] = &[
        (&[("values", vec![])], (9, 0)),
        (&[("values", resized(right, -1))], (9, 15)),
        (&[("values", resized(right, 1))], (9, 17)),
        (&[("values", bad(0))], (10, 0)),
        (&[("values", bad(15))], (10, 15)),
        (&[("values", vec![255; 16])], (10, 0)),
    ];
    refuses(&world, "plain", cases, |file| {
        due::plain(&file("circuit"), &file("values")).err()
    });
    let encode = |file: &dyn Fn(&str) -> Vec<u8>| {
        due::encode(&file("circuit"), &file("values"), &file("zeros"), &file("ones")).err()
    };
    refuses(&world, "encode", cases, encode);
    // Values are looked at before the lists.
    let both: &[Case] = &[(&[("values", bad(3)), ("zeros", vec![])], (10, 3))];
    refuses(&world, "encode", both, encode);
}

#[test]
fn lists_of_tokens() {
    let world = world();
    let (zeros, ones) = (world.file("zeros"), world.file("ones"));
    let all = world.file("all-zeros").to_vec();
    let length = all.len();
    let encode: &[Case] = &[
        (&[("zeros", resized(zeros, -1))], (11, 255)),
        (&[("ones", resized(ones, 16))], (11, 272)),
        (&[("zeros", vec![]), ("ones", vec![])], (11, 0)),
        (&[("zeros", all)], (11, length)),
    ];
    refuses(&world, "encode", encode, |file| {
        due::encode(&file("circuit"), &file("values"), &file("zeros"), &file("ones")).err()
    });
    let pick: &[Case] = &[
        (&[("zeros", resized(zeros, -1))], (11, 255)),
        (&[("zeros", resized(zeros, 16))], (11, 272)),
        (&[("ones", resized(ones, -16))], (11, 256)),
        (&[("zeros", resized(zeros, 1)), ("ones", resized(ones, 1))], (11, 257)),
        // With no token in the lists no wire is in them: each call begins at one of them.
    ];
    refuses(&world, "pick", pick, |file| {
        due::pick(&file("zeros"), &file("ones"), 1, &[0]).err()
    });
}

const PICK: [&str; 7] = ["pick", "--zeros", "zeros", "--ones", "ones", "--out", "x"];

#[test]
fn picks() {
    let world = world();
    let folder = filled(&world);
    let (zeros, ones) = (world.file("zeros"), world.file("ones"));
    let pick = |wire: u16, bit: u8| weighhare::pick(zeros, ones, wire, bit).unwrap_err();
    for bit in [2, 3, 255] {
        let word = bit.to_string();
        let words = [&PICK[..], &["--wire", "1", "--bit", &word]].concat();
        is_refused(&folder, &words, pick(1, bit), (10, 0));
    }
    for wire in [0, 17, 18, 65_535] {
        let word = wire.to_string();
        let words = [&PICK[..], &["--wire", &word, "--bit", "1"]].concat();
        is_refused(&folder, &words, pick(wire, 1), (20, wire.into()));
    }
    // A figure whose last bits are past the lists: the first wire that is not there.
    let words = [&PICK[..], &["--wire", "9", "--figure", "150:9"]].concat();
    is_refused(&folder, &words, pick(17, 0), (20, 17));
    folder.write("zeros", b"");
    folder.write("ones", b"");
    let words = [&PICK[..], &["--wire", "1", "--bit", "0"]].concat();
    is_refused(&folder, &words, weighhare::pick(&[], &[], 1, 0).unwrap_err(), (20, 1));
}

/// Material of 8 charged gates by half-gates, 300 bytes: row records at 9 and so on, the last record at 297.
fn material_cases(right: &[u8]) -> Vec<(Vec<u8>, (u8, usize))> {
    vec![
        (vec![], (12, 0)),
        (right[..8].to_vec(), (12, 8)),
        (with(right, 0, &[0x48]), (13, 0)),
        (with(right, 2, &[0]), (14, 0)),
        (with(right, 2, &[5]), (14, 5)),
        (with(right, 2, &[255]), (14, 255)),
        (with(right, 3, &[0, 17]), (15, 3)),
        (with(right, 5, &[0, 2]), (15, 3)),
        (with(right, 7, &[0, 28]), (15, 3)),
        (resized(right, -1), (16, 299)),
        (resized(right, 1), (16, 301)),
        (with(right, 2, &[2]), (16, 300)),
        (with(right, 9, &[0]), (17, 17)),
        (with(right, 12, &[18]), (17, 17)),
        (with(right, 9 + 36, &[0x46]), (17, 20)),
        (with(right, 297, &[0x46]), (18, 297)),
        (with(right, 299, &[2]), (18, 297)),
        (with(right, 299, &[255]), (18, 297)),
    ]
}

#[test]
fn tokens_and_material() {
    let world = world();
    let evaluate =
        |file: &dyn Fn(&str) -> Vec<u8>| due::evaluate(&file("circuit"), &file("tokens"), &file("material")).err();
    let parts = |file: &dyn Fn(&str) -> Vec<u8>| {
        let tokens = [file("price.tokens"), file("ceiling.tokens")].concat();
        due::evaluate(&file("circuit"), &tokens, &file("material")).err()
    };
    let decode =
        |file: &dyn Fn(&str) -> Vec<u8>| due::decode(&file("circuit"), &file("outputs"), &file("material")).err();
    for (material, at) in material_cases(world.file("material")) {
        let change = [("material", material.clone())];
        refuses(&world, "evaluate", &[(&change, at)], evaluate);
        refuses(&world, "decode", &[(&change, at)], decode);
        // Tokens are looked at before the material.
        let tokens = [("material", material), ("tokens", vec![0; 255])];
        refuses(&world, "evaluate", &[(&tokens, (11, 255))], evaluate);
    }
    for length in [0, 127, 129, 144] {
        let change = [("price.tokens", vec![0; length])];
        refuses(&world, "evaluate", &[(&change, (11, length + 128))], parts);
    }
    for length in [0, 15, 17, 32] {
        let change = [("outputs", vec![0; length])];
        refuses(&world, "decode", &[(&change, (11, length))], decode);
    }
}

/// Material of mark 47 4A of the same circuit, 331 bytes: its length and its last record's mark go by its own mark.
#[test]
fn material_with_hashes() {
    let world = World::hashed(8, [120, 150], due::SEED, 0, 3);
    let right = world.file("material");
    let cases = [
        (with(right, 1, &[0x4B]), (13, 0)),
        (with(right, 1, &[0x48]), (16, 331)),
        (resized(right, -31), (16, 300)),
        (with(right, 9, &[0]), (17, 17)),
        (with(right, 298, &[0x44]), (18, 297)),
    ];
    for (material, at) in cases {
        let change = [("material", material)];
        refuses(&world, "evaluate", &[(&change, at)], |file| {
            due::evaluate(&file("circuit"), &file("tokens"), &file("material")).err()
        });
        refuses(&world, "decode", &[(&change, at)], |file| {
            due::decode(&file("circuit"), &file("outputs"), &file("material")).err()
        });
    }
}

/// A token that is none of its output's two: mistyped, and another wire's. The message says which output, and what it
/// may mean.
#[test]
fn an_output_token_that_the_material_does_not_know() {
    let world = World::hashed(8, [120, 150], due::SEED, 0, 3);
    let right = world.file("outputs");
    let said = "refused 29 1: the token of output 1 has neither of its hashes in the material: \
                something is mistyped, mixed up, damaged or of another garbling\n";
    for tokens in [with(right, 7, &[!right[7]]), world.file("first-zero").to_vec()] {
        let change = [("outputs", tokens)];
        refuses(&world, "decode", &[(&change, (29, 1))], |file| {
            let refusal = due::decode(&file("circuit"), &file("outputs"), &file("material")).err();
            assert_eq!(refusal.map(due::said).as_deref(), Some(said));
            refusal
        });
    }
}

/// Standard output has nothing where something is refused, though it was to have the output.
#[test]
fn nothing_goes_to_standard_output() {
    let world = world();
    for call in calls(&world) {
        for (out, _) in call.all_written() {
            for (_, file) in call
                .all_read()
                .into_iter()
                .filter(|read| !["price", "ceiling"].contains(&read.1))
            {
                let folder = filled(&world);
                folder.write(file, b"");
                let ended = run_in(&folder, &call.over_streams(out).words());
                assert_eq!((ended.status, ended.stdout()), (Some(1), String::new()), "{call:?}");
            }
        }
    }
}
