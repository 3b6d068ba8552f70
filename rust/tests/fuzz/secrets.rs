//! What must not be shown: seeds, tokens and figures.

use super::cases::Case;
use super::oracle::WRITES;
use crate::program::world::World;
use std::collections::HashSet;

/// All secrets of 16 bytes: the seeds and every token of every exchange.
pub struct Secrets(HashSet<[u8; 16]>);

impl Secrets {
    pub fn of(worlds: &[World]) -> Self {
        let mut secrets = HashSet::new();
        for world in worlds {
            for name in ["seed", "all-zeros", "ones", "tokens", "wires"] {
                let blocks = world.file(name).chunks(16);
                secrets.extend(blocks.map(|block| <[u8; 16]>::try_from(block).expect("16 bytes")));
            }
        }
        Self(secrets)
    }

    /// Whether bytes have a secret somewhere, as it is or in hexadecimal.
    pub fn is_in(&self, bytes: &[u8]) -> bool {
        let block = |window: &[u8]| <[u8; 16]>::try_from(window).expect("16 bytes");
        bytes.windows(16).any(|window| self.0.contains(&block(window)))
            || bytes
                .windows(32)
                .any(|window| from_hex(window).is_some_and(|block| self.0.contains(&block)))
    }
}

fn from_hex(digits: &[u8]) -> Option<[u8; 16]> {
    let digit = |byte: u8| char::from(byte).to_digit(16);
    let mut block = [0; 16];
    for (byte, pair) in block.iter_mut().zip(digits.chunks(2)) {
        *byte = (16 * digit(pair[0])? + digit(pair[1])?) as u8;
    }
    Some(block)
}

/// Whether the words name standard output for something that is secret.
pub fn may_be_printed(case: &Case) -> bool {
    let Some(command) = case.words.first() else {
        return false;
    };
    let secret = WRITES.iter().filter(|write| write.0.as_bytes() == command && write.2);
    secret.into_iter().any(|(_, option, _)| {
        let joined = format!("{option}=-").into_bytes();
        let apart = |pair: &[Vec<u8>]| pair[0] == option.as_bytes() && pair[1] == b"-";
        case.words.contains(&joined) || case.words.windows(2).any(apart)
    })
}

/// Whether a figure stands in the words where none belongs: as a file's name, a width or a run number, which messages do have. It
/// belongs after `--figure`, and in `compare` after anything that is no option.
pub fn is_out_of_place(case: &Case, figure: &str) -> bool {
    let compare = case.words.first().is_some_and(|word| word == b"compare");
    (0..case.words.len()).any(|index| {
        let word = &case.words[index];
        let before = index.checked_sub(1).map_or(&b""[..], |before| &case.words[before]);
        let belongs =
            before == b"--figure" || word.starts_with(b"--figure=") || (compare && !before.starts_with(b"--"));
        has(word, figure.as_bytes()) && (!belongs || word.contains(&b'@'))
    })
}

/// Whether bytes have others in them.
pub fn has(bytes: &[u8], part: &[u8]) -> bool {
    bytes.windows(part.len()).any(|window| window == part)
}
