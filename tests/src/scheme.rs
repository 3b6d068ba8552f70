//! The four schemes: garbling one gate and evaluating one gate (01, Tokens; Schemes 1 to 3; 02, jobs 2
//! and 7).

use crate::block::{Block, Colour};
use crate::cipher::{Cipher, FIXED_KEY};
use crate::circuit::{Gate, Kind, Truth, TRUTH_PAIRS};
use crate::token::{token, Seed};

/// A scheme.
#[derive(Clone, Copy, Debug, PartialEq, Eq)]
pub enum Scheme {
    /// Scheme 1.
    GaX,
    /// Scheme 2.
    GaXR,
    /// Scheme 3.
    HalfGates,
    /// Scheme 4: scheme 3's steps and rows, and a hash whose key changes with each tweak.
    RekeyedHalfGates,
}

impl Scheme {
    /// All schemes.
    pub const ALL: [Scheme; 4] = [
        Scheme::GaX,
        Scheme::GaXR,
        Scheme::HalfGates,
        Scheme::RekeyedHalfGates,
    ];

    /// The scheme of a scheme byte, if there is one.
    pub fn from_byte(byte: u8) -> Option<Scheme> {
        match byte {
            1 => Some(Scheme::GaX),
            2 => Some(Scheme::GaXR),
            3 => Some(Scheme::HalfGates),
            4 => Some(Scheme::RekeyedHalfGates),
            _ => None,
        }
    }

    /// The scheme byte.
    pub fn byte(self) -> u8 {
        match self {
            Scheme::GaX => 1,
            Scheme::GaXR => 2,
            Scheme::HalfGates => 3,
            Scheme::RekeyedHalfGates => 4,
        }
    }

    /// r, the rows of a charged gate (01, Material).
    pub fn rows(self) -> usize {
        match self {
            Scheme::GaX => 4,
            Scheme::GaXR => 3,
            Scheme::HalfGates | Scheme::RekeyedHalfGates => 2,
        }
    }
}

/// The row of a pair of colours c and d: 2c+d.
fn row_of(c: Colour, d: Colour) -> usize {
    2 * usize::from(c.0) + usize::from(d.0)
}

/// E(A,B,T,Z) = π(K) ⊕ K ⊕ Z, K = 2A ⊕ 4B ⊕ T (01, Scheme 1).
fn encrypt(cipher: &mut Cipher, a: Block, b: Block, tweak: usize, z: Block) -> Block {
    let k = a.double() ^ b.double_twice() ^ Block::number(tweak);
    cipher.hash(FIXED_KEY, k) ^ z
}

/// H of a half-gates scheme.
type Hash = fn(&mut Cipher, Block, usize) -> Block;

/// H(x,i) = π(2x ⊕ i) ⊕ 2x ⊕ i (01, Scheme 3).
fn fixed_key_hash(cipher: &mut Cipher, x: Block, i: usize) -> Block {
    cipher.hash(FIXED_KEY, x.double() ^ Block::number(i))
}

/// H(x,i) = AES under key i of σ(x), ⊕ σ(x) (02, job 7). Key i is the number as a block.
fn rekeyed_hash(cipher: &mut Cipher, x: Block, i: usize) -> Block {
    cipher.hash(Block::number(i), x.sigma())
}

/// What material with hashes has of the k-th output's token, k from 1: H(token, 2(65,536+k)), with the H of
/// scheme 3 whatever the scheme is (02, job 12).
pub fn output_hash(cipher: &mut Cipher, token: Block, k: usize) -> Block {
    fixed_key_hash(cipher, token, 2 * (65_536 + k))
}

/// α, β and γ of a charged code (01, Scheme 3).
#[derive(Clone, Copy, Debug, PartialEq, Eq)]
pub struct HalfGateBits {
    /// α = 1-u.
    pub alpha: bool,
    /// β = 1-v.
    pub beta: bool,
    /// γ = 1 if the pair's own value is 0.
    pub gamma: bool,
}

/// α, β, γ from the pair (u,v) that has a value of its own; nothing where no single pair has one.
pub fn half_gate_bits(gate: Gate) -> Option<HalfGateBits> {
    let values = TRUTH_PAIRS.map(|(u, v)| gate.value(u, v));
    for (&(u, v), own) in TRUTH_PAIRS.iter().zip(values) {
        if values.iter().filter(|&&value| value == own).count() == 1 {
            return Some(HalfGateBits {
                alpha: !u.0,
                beta: !v.0,
                gamma: !own.0,
            });
        }
    }
    None
}

/// A pair of operand tokens and the gate's value for it.
#[derive(Clone, Copy)]
struct Pair {
    a: Block,
    b: Block,
    value: Truth,
}

/// What garbling a gate makes: the zero token X, and the rows to be stored.
#[derive(Clone, Debug, PartialEq, Eq)]
pub struct GarbledGate {
    /// X of the gate.
    pub zero: Block,
    /// The rows in rising number, G before E; none for a free gate.
    pub rows: Vec<Block>,
}

/// Garbles gates by one scheme from one run of a seed.
#[derive(Clone, Debug)]
pub struct Garbler {
    scheme: Scheme,
    seed: Seed,
    offset: Block,
    cipher: Cipher,
}

impl Garbler {
    /// A garbler that has made no encryption yet.
    pub fn new(scheme: Scheme, seed: Seed) -> Garbler {
        Garbler {
            scheme,
            offset: seed.offset(),
            seed,
            cipher: Cipher::default(),
        }
    }

    /// The zero token of an input wire.
    pub fn input(&self, wire: usize) -> Block {
        self.seed.zero_token(wire)
    }

    /// The token of a wire for a truth value, from its zero token.
    pub fn token(&self, zero: Block, value: Truth) -> Block {
        token(zero, self.offset, value)
    }

    /// The encryptions made so far, those under the seed not counted.
    pub fn calls(&self) -> u64 {
        self.cipher.calls()
    }

    /// The hashes of the k-th output's zero token and one token: two encryptions, which count (02, job 12).
    pub fn output_hashes(&mut self, zero: Block, k: usize) -> [Block; 2] {
        let tokens = [false, true].map(|value| self.token(zero, Truth(value)));
        tokens.map(|token| output_hash(&mut self.cipher, token, k))
    }

    /// Garbles the gate on wire g, whose operands have the zero tokens xa and xb.
    pub fn gate(&mut self, g: usize, gate: Gate, xa: Block, xb: Block) -> GarbledGate {
        if gate.kind() == Some(Kind::Free) {
            let zero = self.free(gate, xa, xb);
            let rows = Vec::new();
            return GarbledGate { zero, rows };
        }
        match self.scheme {
            Scheme::GaX => self.gax(g, self.pairs(gate, xa, xb)),
            Scheme::GaXR => self.gaxr(g, self.pairs(gate, xa, xb)),
            Scheme::HalfGates => self.half_gates(fixed_key_hash, g, gate, xa, xb),
            Scheme::RekeyedHalfGates => self.half_gates(rekeyed_hash, g, gate, xa, xb),
        }
    }

    /// X of a free gate: Xa ⊕ Xb for code 6, and ⊕ R more for code 9; 12 and 10 pass on the token of
    /// a and of b, 3 and 5 the same with the zero token ⊕ R.
    fn free(&self, gate: Gate, xa: Block, xb: Block) -> Block {
        match gate.code {
            6 => xa ^ xb,
            9 => xa ^ xb ^ self.offset,
            12 => xa,
            10 => xb,
            3 => xa ^ self.offset,
            5 => xb ^ self.offset,
            code => panic!("code {code} is not free"),
        }
    }

    /// The four pairs of operand tokens, each at the row 2c+d of its colours c and d.
    fn pairs(&self, gate: Gate, xa: Block, xb: Block) -> [Pair; 4] {
        let mut by_row = [Pair {
            a: xa,
            b: xb,
            value: Truth(false),
        }; 4];
        for (u, v) in TRUTH_PAIRS {
            let (a, b) = (self.token(xa, u), self.token(xb, v));
            let value = gate.value(u, v);
            by_row[row_of(a.colour(), b.colour())] = Pair { a, b, value };
        }
        by_row
    }

    /// The row of that number: E(A,B,4g+row, the gate's token for its value).
    fn row(&mut self, g: usize, row: usize, pair: Pair, zero: Block) -> Block {
        let z = self.token(zero, pair.value);
        encrypt(&mut self.cipher, pair.a, pair.b, 4 * g + row, z)
    }

    /// Scheme 1: X from the seed, four rows.
    fn gax(&mut self, g: usize, pairs: [Pair; 4]) -> GarbledGate {
        let zero = self.seed.zero_token(g);
        let rows = (0..4).map(|row| self.row(g, row, pairs[row], zero));
        let rows = rows.collect();
        GarbledGate { zero, rows }
    }

    /// Scheme 2: X from the pair of colours 0,0, then rows 1 to 3.
    fn gaxr(&mut self, g: usize, pairs: [Pair; 4]) -> GarbledGate {
        let first = pairs[0];
        let made = encrypt(&mut self.cipher, first.a, first.b, 4 * g, Block::ZERO);
        // `made` is the token for the pair's value, so X is that ⊕ R exactly if the value is 1.
        let zero = self.token(made, first.value);
        let rows = (1..4).map(|row| self.row(g, row, pairs[row], zero));
        let rows = rows.collect();
        GarbledGate { zero, rows }
    }

    /// Schemes 3 and 4, which differ in H alone: rows G and E.
    fn half_gates(
        &mut self,
        hash: Hash,
        g: usize,
        gate: Gate,
        xa: Block,
        xb: Block,
    ) -> GarbledGate {
        let bits = half_gate_bits(gate).expect("a charged code has a pair of its own");
        let r = self.offset;
        let (a, b) = (xa ^ r.times(bits.alpha), xb ^ r.times(bits.beta));
        let (Colour(s), Colour(t)) = (a.colour(), b.colour());
        let (j, k) = (2 * g, 2 * g + 1);
        let cipher = &mut self.cipher;
        let (hash_a, other_a) = (hash(cipher, a, j), hash(cipher, a ^ r, j));
        let (hash_b, other_b) = (hash(cipher, b, k), hash(cipher, b ^ r, k));
        let row_g = hash_a ^ other_a ^ r.times(t);
        let row_e = hash_b ^ other_b ^ a;
        let halves = hash_a ^ row_g.times(s) ^ hash_b ^ (row_e ^ a).times(t);
        GarbledGate {
            zero: halves ^ r.times(bits.gamma),
            rows: vec![row_g, row_e],
        }
    }
}

/// Evaluates gates by one scheme.
#[derive(Clone, Debug)]
pub struct Evaluator {
    scheme: Scheme,
    cipher: Cipher,
}

impl Evaluator {
    /// An evaluator that has made no encryption yet.
    pub fn new(scheme: Scheme) -> Evaluator {
        let cipher = Cipher::default();
        Evaluator { scheme, cipher }
    }

    /// The encryptions made so far.
    pub fn calls(&self) -> u64 {
        self.cipher.calls()
    }

    /// The token of a free gate, from the operand tokens held: R is not known here, so 3 and 5 pass on
    /// what they get, as 12 and 10 do.
    pub fn free(&self, gate: Gate, a: Block, b: Block) -> Block {
        match gate.code {
            6 | 9 => a ^ b,
            12 | 3 => a,
            10 | 5 => b,
            code => panic!("code {code} is not free"),
        }
    }

    /// The token of the charged gate on wire g, from the operand tokens held and its stored rows.
    pub fn charged(&mut self, g: usize, rows: &[Block], a: Block, b: Block) -> Block {
        let (c, d) = (a.colour(), b.colour());
        let row = row_of(c, d);
        match self.scheme {
            Scheme::GaX => encrypt(&mut self.cipher, a, b, 4 * g + row, rows[row]),
            Scheme::GaXR => {
                let stored = if row == 0 { Block::ZERO } else { rows[row - 1] };
                encrypt(&mut self.cipher, a, b, 4 * g + row, stored)
            }
            Scheme::HalfGates => self.half_gates(fixed_key_hash, g, rows, a, b),
            Scheme::RekeyedHalfGates => self.half_gates(rekeyed_hash, g, rows, a, b),
        }
    }

    /// Schemes 3 and 4: H(A,j) ⊕ sG ⊕ H(B,k) ⊕ t(E⊕A).
    fn half_gates(&mut self, hash: Hash, g: usize, rows: &[Block], a: Block, b: Block) -> Block {
        let (Colour(s), Colour(t)) = (a.colour(), b.colour());
        let hash_a = hash(&mut self.cipher, a, 2 * g);
        let hash_b = hash(&mut self.cipher, b, 2 * g + 1);
        hash_a ^ rows[0].times(s) ^ hash_b ^ (rows[1] ^ a).times(t)
    }
}
