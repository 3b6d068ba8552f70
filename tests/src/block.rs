//! Blocks of 16 bytes: exclusive or, doubling, σ and colour (01, AES and doubling; Tokens; 02, job 7).

use std::ops::BitXor;

/// The bytes of a block.
pub const BLOCK: usize = 16;

/// A block; a token is a block.
#[derive(Clone, Copy, Debug, Default, PartialEq, Eq)]
pub struct Block(pub [u8; BLOCK]);

/// A colour, which is not a truth value.
#[derive(Clone, Copy, Debug, PartialEq, Eq)]
pub struct Colour(pub bool);

impl Block {
    /// Block 0.
    pub const ZERO: Block = Block([0; BLOCK]);

    /// A number used as a block: its 16-byte big-endian form.
    pub fn number(number: usize) -> Block {
        Block((number as u128).to_be_bytes())
    }

    /// The blocks of a list of bytes, one after the other.
    pub fn list(bytes: &[u8]) -> Vec<Block> {
        let mut blocks = Vec::with_capacity(bytes.len() / BLOCK);
        for chunk in bytes.chunks_exact(BLOCK) {
            let mut block = Block::ZERO;
            block.0.copy_from_slice(chunk);
            blocks.push(block);
        }
        blocks
    }

    /// 2A: shifted left by one bit as one number, hex 87 into the last byte if a 1 was shifted out.
    pub fn double(self) -> Block {
        let number = u128::from_be_bytes(self.0);
        let shifted_out = number >> 127 == 1;
        let reduction = if shifted_out { 0x87 } else { 0 };
        Block(((number << 1) ^ reduction).to_be_bytes())
    }

    /// 4A: twice doubled.
    pub fn double_twice(self) -> Block {
        self.double().double()
    }

    /// σ of the left and right 8-byte halves: (left ⊕ right, left) (02, job 7).
    pub fn sigma(self) -> Block {
        let (left, right) = self.0.split_at(BLOCK / 2);
        let sums = left.iter().zip(right).map(|(l, r)| l ^ r);
        let mut made = Block::ZERO;
        for (byte, from) in made.0.iter_mut().zip(sums.chain(left.iter().copied())) {
            *byte = from;
        }
        made
    }

    /// The colour of a token: the lowest bit of its last byte.
    pub fn colour(self) -> Colour {
        Colour(self.0[BLOCK - 1] & 1 == 1)
    }

    /// The block with its colour set to 1.
    pub fn with_colour_set(mut self) -> Block {
        self.0[BLOCK - 1] |= 1;
        self
    }

    /// A bit times a block is the block or zero (01, Scheme 3).
    pub fn times(self, bit: bool) -> Block {
        if bit {
            self
        } else {
            Block::ZERO
        }
    }
}

impl BitXor for Block {
    type Output = Block;

    fn bitxor(self, other: Block) -> Block {
        let mut sum = self;
        for (byte, with) in sum.0.iter_mut().zip(other.0) {
            *byte ^= with;
        }
        sum
    }
}
