//! AES as the schemes call it, with a count of the encryptions: each call is handed its key (01, AES and
//! doubling; Operations; 02, job 7).

use crate::aes::Key;
use crate::block::{Block, BLOCK};

/// The key of π, 00 01 02 .. 0F: that of every call in schemes 1 to 3.
pub const FIXED_KEY: Block = {
    let mut key = [0; BLOCK];
    let mut i = 0;
    while i < BLOCK {
        key[i] = i as u8;
        i += 1;
    }
    Block(key)
};

/// AES under the key of each call.
#[derive(Clone, Debug)]
pub struct Cipher {
    /// The key of the last call, which is expanded once where calls in turn have the same.
    key: Block,
    expanded: Key,
    calls: u64,
}

impl Default for Cipher {
    fn default() -> Cipher {
        Cipher {
            key: FIXED_KEY,
            expanded: Key::expand(&FIXED_KEY.0),
            calls: 0,
        }
    }
}

impl Cipher {
    /// AES under the key of the block; under the fixed key this is π.
    pub fn encrypt(&mut self, key: Block, block: Block) -> Block {
        if key != self.key {
            (self.key, self.expanded) = (key, Key::expand(&key.0));
        }
        self.calls += 1;
        self.expanded.encrypt(block)
    }

    /// AES under the key of the block ⊕ the block, the part that E and H have in common; one encryption.
    pub fn hash(&mut self, key: Block, block: Block) -> Block {
        self.encrypt(key, block) ^ block
    }

    /// The encryptions made so far. A key's expansion is none.
    pub fn calls(&self) -> u64 {
        self.calls
    }
}
