//! AES-128 encryption, FIPS 197 (01, AES and doubling). Byte by byte, the S-box from its rule.

use crate::block::{Block, BLOCK};

const ROUNDS: usize = 10;

/// The S-box: its rule, computed for all 256 entries.
static S_BOX: [u8; 256] = s_box_table();

/// Twice a byte in GF(2^8) modulo hex 11B.
const fn twice(a: u8) -> u8 {
    let reduction = if a & 0x80 != 0 { 0x1B } else { 0 };
    (a << 1) ^ reduction
}

/// The product in GF(2^8) modulo hex 11B.
const fn multiply(mut a: u8, mut b: u8) -> u8 {
    let mut product = 0;
    while b != 0 {
        if b & 1 == 1 {
            product ^= a;
        }
        a = twice(a);
        b >>= 1;
    }
    product
}

/// The inverse in GF(2^8), 0 to 0: the power 254 = 2 + 4 + 8 + 16 + 32 + 64 + 128.
const fn inverse(a: u8) -> u8 {
    let mut square = a;
    let mut product = 1;
    let mut step = 0;
    while step < 7 {
        square = multiply(square, square);
        product = multiply(product, square);
        step += 1;
    }
    product
}

/// Output bit i is the exclusive or of bits i, i+4, i+5, i+6, i+7 and bit i of hex 63.
const fn affine(a: u8) -> u8 {
    // A rotation to the right by k brings bit i+k to place i.
    let rotated = a.rotate_right(4) ^ a.rotate_right(5) ^ a.rotate_right(6) ^ a.rotate_right(7);
    a ^ rotated ^ 0x63
}

const fn s_box_table() -> [u8; 256] {
    let mut table = [0; 256];
    let mut entry = 0;
    while entry < 256 {
        table[entry] = affine(inverse(entry as u8));
        entry += 1;
    }
    table
}

/// One entry of the S-box.
pub fn s_box(byte: u8) -> u8 {
    S_BOX[byte as usize]
}

/// A key of 16 bytes, expanded to the eleven round keys.
#[derive(Clone, Debug)]
pub struct Key {
    round_keys: [[u8; BLOCK]; ROUNDS + 1],
}

impl Key {
    /// KeyExpansion of FIPS 197, section 5.2.
    pub fn expand(key: &[u8; BLOCK]) -> Key {
        let mut round_keys = [*key; ROUNDS + 1];
        let mut constant = 1;
        for round in 1..=ROUNDS {
            let before = round_keys[round - 1];
            let mut word = [before[13], before[14], before[15], before[12]].map(s_box);
            word[0] ^= constant;
            constant = twice(constant);
            for (i, byte) in round_keys[round].iter_mut().enumerate() {
                word[i % 4] ^= before[i];
                *byte = word[i % 4];
            }
        }
        Key { round_keys }
    }

    /// The 44 words of the schedule, in order: each round key has four.
    pub fn words(&self) -> Vec<[u8; 4]> {
        let bytes = self.round_keys.as_flattened();
        bytes
            .chunks_exact(4)
            .map(|w| [w[0], w[1], w[2], w[3]])
            .collect()
    }

    /// Cipher of FIPS 197, section 5.1.
    pub fn encrypt(&self, block: Block) -> Block {
        let mut state = block.0;
        add_round_key(&mut state, &self.round_keys[0]);
        for round_key in &self.round_keys[1..ROUNDS] {
            sub_bytes(&mut state);
            shift_rows(&mut state);
            mix_columns(&mut state);
            add_round_key(&mut state, round_key);
        }
        sub_bytes(&mut state);
        shift_rows(&mut state);
        add_round_key(&mut state, &self.round_keys[ROUNDS]);
        Block(state)
    }
}

fn add_round_key(state: &mut [u8; BLOCK], round_key: &[u8; BLOCK]) {
    for (byte, key) in state.iter_mut().zip(round_key) {
        *byte ^= key;
    }
}

fn sub_bytes(state: &mut [u8; BLOCK]) {
    for byte in state {
        *byte = s_box(*byte);
    }
}

/// Row r, the bytes r, r+4, r+8, r+12, turns left by r places.
fn shift_rows(state: &mut [u8; BLOCK]) {
    let before = *state;
    for (i, byte) in state.iter_mut().enumerate() {
        let (row, column) = (i % 4, i / 4);
        *byte = before[row + 4 * ((column + row) % 4)];
    }
}

/// Each column is multiplied by 3x^3 + x^2 + x + 2 modulo x^4 + 1.
fn mix_columns(state: &mut [u8; BLOCK]) {
    for column in state.chunks_exact_mut(4) {
        let before = [column[0], column[1], column[2], column[3]];
        for (row, byte) in column.iter_mut().enumerate() {
            let (own, next) = (before[row], before[(row + 1) % 4]);
            let others = before[(row + 2) % 4] ^ before[(row + 3) % 4];
            *byte = twice(own) ^ (twice(next) ^ next) ^ others;
        }
    }
}
