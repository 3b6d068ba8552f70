//! The files of a case.

use super::cases::{Case, Files};
use crate::program::calls::new_name;
use crate::program::random::Random;
use crate::program::world::World;

/// The files that commands read.
const READ: [&str; 12] = [
    "circuit",
    "seed",
    "material",
    "zeros",
    "ones",
    "tokens",
    "price.tokens",
    "ceiling.tokens",
    "outputs",
    "values",
    "price",
    "ceiling",
];

/// The files that a call may write, and one that none does.
const WRITTEN: [&str; 13] = [
    "circuit",
    "material",
    "zeros",
    "ones",
    "all-zeros",
    "tokens",
    "price.tokens",
    "ceiling.tokens",
    "first-zero",
    "outputs",
    "wires",
    "bits",
    "seed",
];

/// A circuit with outputs by name.
const NAMED: &[u8] = include_bytes!("../../../examples/named-outputs.circuit");

pub fn right(world: &World) -> Files {
    let file = |name: &str| (name.as_bytes().to_vec(), world.file(name).to_vec());
    READ.map(file).into()
}

/// Up to three files are no longer what they were.
pub fn damage(case: &mut Case, worlds: &[World], random: &mut Random) {
    case.right = false;
    for _ in 0..1 + random.below(3) {
        let name = choose(case, random);
        let other = random.one_of(&READ).as_bytes().to_vec();
        let Some(bytes) = case.files.remove(&name) else {
            continue;
        };
        let bytes = match random.below(10) {
            0 => continue,
            1 => Vec::new(),
            2 => {
                let length = random.below(200);
                random.bytes(length)
            }
            3 => {
                let world = &worlds[random.below(worlds.len())];
                world.file(std::str::from_utf8(&name).expect("a plain name")).to_vec()
            }
            4 => NAMED.to_vec(),
            5 => case.files.insert(other, bytes.clone()).unwrap_or(bytes),
            6 | 7 => flipped(bytes, random),
            _ => resized(bytes, random),
        };
        case.files.insert(name, bytes);
    }
}

/// Mostly a file that the words name.
fn choose(case: &Case, random: &mut Random) -> Vec<u8> {
    let named: Vec<&Vec<u8>> = case
        .words
        .iter()
        .filter(|word| case.files.contains_key(*word))
        .collect();
    if named.is_empty() || random.chance(20) {
        return random.one_of(&READ).as_bytes().to_vec();
    }
    random.one_of(&named).clone()
}

/// A few bits flipped.
fn flipped(mut bytes: Vec<u8>, random: &mut Random) -> Vec<u8> {
    for _ in 0..1 + random.below(4) {
        let index = random.below(bytes.len());
        if let Some(byte) = bytes.get_mut(index) {
            *byte ^= 1 << random.below(8);
        }
    }
    bytes
}

/// Cut, or with a few bytes more.
fn resized(mut bytes: Vec<u8>, random: &mut Random) -> Vec<u8> {
    if random.chance(50) {
        bytes.truncate(random.below(bytes.len()));
    } else {
        let more = 1 + random.below(40);
        bytes.extend(random.bytes(more));
    }
    bytes
}

/// Files that are there already under names of outputs.
pub fn put_in_the_way(case: &mut Case, random: &mut Random) {
    case.right = false;
    for _ in 0..1 + random.below(3) {
        let name = new_name(random.one_of(&WRITTEN));
        let length = random.below(30);
        case.files.insert(name.into_bytes(), random.bytes(length));
    }
}
