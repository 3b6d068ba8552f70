//! Cases of the search for an output whose two hashes are equal, which is refusal 30 (02, job 12), and of zeros
//! at the front of a buffer, which that refusal leaves. No garbling is known that meets it: so these have the
//! bytes alone.

use crate::block::{Block, BLOCK};
use crate::lines;
use crate::material::Last;
use crate::random::Random;

/// How many pairs there are, and which of them, counted from 0, are equal: none; the first, a middle one and
/// the last; two, of which the first counts; and all.
const EQUALS: [(usize, &[usize]); 13] = [
    (1, &[]),
    (1, &[0]),
    (2, &[]),
    (2, &[0]),
    (2, &[1]),
    (5, &[]),
    (5, &[0]),
    (5, &[2]),
    (5, &[4]),
    (5, &[1, 3]),
    (5, &[0, 4]),
    (5, &[0, 1, 2, 3, 4]),
    (300, &[258]),
];

/// Any pairs, and some of them equal.
fn pairs(random: &mut Random, count: usize, equals: &[usize]) -> Vec<[Block; 2]> {
    let pair = |index: usize| {
        let any = Block::list(&random.bytes(2 * BLOCK));
        let second = if equals.contains(&index) { 0 } else { 1 };
        [any[0], any[second]]
    };
    (0..count).map(pair).collect()
}

/// The line of a search: bytes with the hashes of these outputs among them, where these start and how many
/// outputs there are (4 bytes each), and the answer. An equal pair stands before them, and one after them.
fn search(random: &mut Random, before: usize, hashes: Vec<[Block; 2]>) -> String {
    let m = hashes.len();
    let around = [0xA5; 2 * BLOCK];
    let blocks = hashes.iter().flatten().flat_map(|hash| hash.0);
    let mut bytes = random.bytes(before);
    bytes.extend(around);
    let start = bytes.len();
    bytes.extend(blocks);
    bytes.extend(around);
    let asked = [start, m].map(|number| (number as u32).to_be_bytes());
    let found = Last::Hashes(hashes).clash();
    let answer = lines::answer(&found.map(|()| Vec::new()));
    lines::line(&[bytes, asked.concat(), answer])
}

/// The lines of searches: of each kind; pairs that differ in one bit alone, at each byte; a hash that is that
/// of another output; and no outputs.
pub fn searches() -> String {
    let mut random = Random::new(12_006);
    let random = &mut random;
    let mut text = String::new();
    for (index, (count, equals)) in EQUALS.into_iter().enumerate() {
        let hashes = pairs(random, count, equals);
        text += &search(random, index * 7 % 20, hashes);
    }
    for byte in 0..BLOCK {
        let mut hashes = pairs(random, 2, &[0, 1]);
        hashes[byte % 2][1].0[byte] ^= 1 << (byte % 8);
        text += &search(random, byte, hashes.clone());
        hashes[1 - byte % 2][0].0[byte] ^= 0x80 >> (byte % 8);
        text += &search(random, byte, hashes);
    }
    let mut hashes = pairs(random, 3, &[]);
    (hashes[1][0], hashes[2][1]) = (hashes[0][1], hashes[0][0]);
    text += &search(random, 0, hashes);
    text + &search(random, 0, Vec::new())
}

/// The lines of zeros: a buffer, how many of its first bytes become zero (4 bytes), and the buffer after it.
pub fn zeros() -> String {
    let mut random = Random::new(12_007);
    let mut text = String::new();
    for length in [0, 1, 16, 17, 100] {
        for count in [0, 1, 15, 16, 17, 99, 100] {
            if count > length {
                continue;
            }
            // No byte of it is zero before.
            let byte = |_| random.between(1, 255) as u8;
            let before: Vec<u8> = (0..length).map(byte).collect();
            let mut after = before.clone();
            after[..count].fill(0);
            let count = (count as u32).to_be_bytes().to_vec();
            text += &lines::line(&[before, count, after]);
        }
    }
    text
}
