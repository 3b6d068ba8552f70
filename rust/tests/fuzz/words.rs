//! The words of a case.

use super::cases::Case;
use crate::program::calls::{calls, Call, Value};
use crate::program::random::Random;
use crate::program::world::World;

/// Options of all commands, and such as there are none.
const OPTIONS: [&str; 25] = [
    "--bits",
    "--out",
    "--seed",
    "--run",
    "--scheme",
    "--material",
    "--zeros",
    "--ones",
    "--all-zeros",
    "--values",
    "--figure",
    "--wire",
    "--bit",
    "--tokens",
    "--wires",
    "--outputs",
    "--yes-no",
    "--hashed",
    "--force",
    "--colour",
    "-x",
    "---",
    "--out=",
    "--ones=",
    "-",
];

/// Words that stand for numbers, at the ends of what is taken and past them.
const NUMBERS: [&str; 18] = [
    "0",
    "1",
    "2",
    "3",
    "4",
    "5",
    "63",
    "64",
    "65",
    "255",
    "256",
    "65535",
    "65536",
    "-1",
    "1.5",
    "",
    "00000000000000000000000008",
    "99999999999999999999",
];

/// Words for files: standard input and output, none, a folder, and names that no file has.
const NAMES: [&str; 14] = [
    "-",
    "-",
    "nowhere",
    "nowhere/file",
    "nowhere/file",
    "nowhere/file",
    "folder",
    ".",
    "..",
    "",
    "slash/",
    "folder/new",
    "./new.seed",
    "new.material",
];

/// Words for figures.
const FIGURES: [&str; 10] = [
    "0:1",
    "1:64",
    "7:0",
    "7:4097",
    "x:8",
    "7",
    ":",
    "@-:64",
    "@nowhere:8",
    "@price:40",
];

/// A right call of the world, of every command.
pub fn give(case: &mut Case, world: &World, random: &mut Random) {
    let mut all = calls(world);
    let compare = Call::of("compare").text("", world.price).text("", world.ceiling);
    let compare = compare.text("--bits", world.width).text("--scheme", world.scheme);
    all.extend([
        compare.clone(),
        compare.reads("--seed", "seed").text("--run", world.run),
    ]);
    all.push(Call::of("seed").with("--out", Value::Text("new.seed".to_owned())));
    // Garbling writes most files, and so has the most that can go wrong.
    all.extend([all[2].clone(), all[3].clone()]);
    let mut call = all[random.below(all.len())].clone();
    let read = call.all_read();
    if !read.is_empty() && random.chance(20) {
        let (index, file) = random.one_of(&read);
        call = call.over_streams(index);
        case.stdin = world.file(file).to_vec();
    }
    let written = call.all_written();
    if !written.is_empty() && random.chance(20) {
        call = call.over_streams(random.one_of(&written).0);
    }
    let words = if random.chance(30) {
        call.joined_words()
    } else {
        call.words()
    };
    case.words = words.into_iter().map(String::into_bytes).collect();
    if !written.is_empty() && random.chance(25) {
        case.words.push(b"--force".to_vec());
    }
}

/// A change of the words, or two.
pub fn change(case: &mut Case, random: &mut Random) {
    case.right = false;
    for _ in 0..1 + random.below(2) {
        let length = case.words.len();
        let at = random.below(length);
        match random.below(16) {
            _ if length == 0 => case.words.push(b"compare".to_vec()),
            0 => _ = case.words.remove(at),
            1 => case.words.insert(at, case.words[at].clone()),
            2 => case.words.swap(at, random.below(length)),
            3 => cut(&mut case.words[at], random),
            4 | 5 => exchange_number(&mut case.words, random),
            6 => case.words[at] = random.one_of(&NAMES).as_bytes().to_vec(),
            7 => rename_an_output(&mut case.words, random),
            8 => case.words[at] = some_bytes(random),
            9 => case.words.insert(at, random.one_of(&OPTIONS).as_bytes().to_vec()),
            10 => case.words.push(random.one_of(&OPTIONS).as_bytes().to_vec()),
            11 => case.words[at] = random.one_of(&FIGURES).as_bytes().to_vec(),
            12 => name_a_file(case, at, random),
            13 => join(&mut case.words, at),
            14 => _ = case.words[at].splice(..0, *b"--"),
            _ => add_a_rare_word(&mut case.words, at, random),
        }
    }
}

/// A word without its end or its beginning.
fn cut(word: &mut Vec<u8>, random: &mut Random) {
    let end = random.below(word.len() + 1);
    if random.chance(70) {
        word.truncate(end);
    } else {
        word.drain(..end);
    }
}

/// Another number in place of one, but not of a figure.
fn exchange_number(words: &mut [Vec<u8>], random: &mut Random) {
    let numbers: Vec<usize> = (0..words.len())
        .filter(|index| words[*index].len() < 10 && words[*index].iter().all(u8::is_ascii_digit))
        .collect();
    if !numbers.is_empty() {
        words[random.one_of(&numbers)] = random.one_of(&NUMBERS).as_bytes().to_vec();
    }
}

/// Another name, mostly a bad one, for a file that is to be written.
fn rename_an_output(words: &mut [Vec<u8>], random: &mut Random) {
    let outputs: Vec<usize> = (0..words.len())
        .filter(|index| words[*index].starts_with(b"new."))
        .collect();
    if !outputs.is_empty() {
        words[random.one_of(&outputs)] = random.one_of(&NAMES).as_bytes().to_vec();
    }
}

/// Bytes that a word can have: none is 0, and none a slash, which would lead out of the folder. Few are very many.
fn some_bytes(random: &mut Random) -> Vec<u8> {
    let length = if random.chance(10) { 300 } else { random.below(12) };
    let bytes = random.bytes(length).into_iter();
    bytes.filter(|byte| !b"\0/".contains(byte)).collect()
}

/// A word becomes the name of a file of the folder.
fn name_a_file(case: &mut Case, at: usize, random: &mut Random) {
    let names: Vec<&Vec<u8>> = case.files.keys().collect();
    case.words[at] = random.one_of(&names).clone();
}

/// A word and the one after it, with an equals sign between them.
fn join(words: &mut Vec<Vec<u8>>, at: usize) {
    if at + 1 < words.len() {
        let next = words.remove(at + 1);
        words[at].push(b'=');
        words[at].extend(next);
    }
}

fn add_a_rare_word(words: &mut Vec<Vec<u8>>, at: usize, random: &mut Random) {
    let word: &[u8] = random.one_of(&[&b"--"[..], b"--help", b"-h", b"--version", b"--force", b"--force"]);
    words.insert(at, word.to_vec());
}
