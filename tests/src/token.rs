//! Tokens made from the seed (01, Tokens; 02, job 4).

use crate::aes::Key;
use crate::block::{Block, BLOCK};
use crate::circuit::Truth;

/// The block enciphered under the seed for a wire: the run number in the first 8 bytes and the wire
/// number (0 for R) in the last 8, both big-endian.
pub fn run_block(run: u64, wire: usize) -> Block {
    let mut block = Block::ZERO;
    let (first, last) = block.0.split_at_mut(BLOCK / 2);
    first.copy_from_slice(&run.to_be_bytes());
    last.copy_from_slice(&(wire as u64).to_be_bytes());
    block
}

/// AES under the seed, for one of its runs.
#[derive(Clone, Debug)]
pub struct Seed {
    key: Key,
    run: u64,
}

impl Seed {
    /// The seed of 16 bytes, and the run number.
    pub fn new(seed: &[u8; BLOCK], run: u64) -> Seed {
        let key = Key::expand(seed);
        Seed { key, run }
    }

    /// AES under the seed of the block of a number: the one place where the seed is used.
    fn encrypted(&self, number: usize) -> Block {
        self.key.encrypt(run_block(self.run, number))
    }

    /// R, the run's offset: that of number 0, with its colour set to 1.
    pub fn offset(&self) -> Block {
        self.encrypted(0).with_colour_set()
    }

    /// That of the wire's number: the zero token of an input, and of GaX's gates.
    pub fn zero_token(&self, wire: usize) -> Block {
        self.encrypted(wire)
    }
}

/// The token of a wire for a truth value: the zero token, or that ⊕ R.
pub fn token(zero: Block, offset: Block, value: Truth) -> Block {
    zero ^ offset.times(value.0)
}
