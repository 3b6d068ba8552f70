//! Garblings of large circuits: the circuit is given by a rule, and what must come of it by
//! fingerprints.

use crate::block::{Block, Colour, BLOCK};
use crate::call::{Call, Operation};
use crate::cipher::{Cipher, FIXED_KEY};
use crate::circuit::{to_bytes, Gate};
use crate::generate::{self, room};
use crate::lines;
use crate::random::Random;
use crate::token::Seed;

const CHARGED: [u8; 8] = [1, 2, 4, 7, 8, 11, 13, 14];
const FREE: [u8; 2] = [6, 9];

/// A circuit's sizes and what its gates are made from.
#[derive(Clone, Copy, Debug)]
pub struct Rule {
    /// Inputs.
    pub n: u16,
    /// Outputs.
    pub m: u16,
    /// Gates.
    pub q: u16,
    /// Every so many gates, from the first on, one is charged; 0 for none.
    pub period: u16,
    /// Where the generator of the operands starts.
    pub start: u32,
}

/// The next number of the generator: times 48,271 modulo 2^31 - 1.
fn next(number: u64) -> u64 {
    number * 48_271 % 2_147_483_647
}

/// The code of gate i, counted from 0: the charged codes in turn, and of the free ones the first
/// where i/2 is even.
fn code(i: u16, period: u16) -> u8 {
    match i.checked_rem(period) {
        Some(0) => CHARGED[usize::from(i / period % 8)],
        _ => FREE[usize::from(i / 2 % 2)],
    }
}

impl Rule {
    /// The circuit's bytes.
    pub fn circuit(self) -> Vec<u8> {
        let mut number = u64::from(self.start);
        let mut gates = Vec::with_capacity(usize::from(self.q));
        for i in 0..self.q {
            let wire = u64::from(self.n) + 1 + u64::from(i);
            number = next(number);
            let a = 1 + number % (wire - 2);
            number = next(number);
            let b = a + 1 + number % (wire - 1 - a);
            let (a, b) = (a as u16, b as u16);
            let code = code(i, self.period);
            gates.push(Gate { a, b, code });
        }
        to_bytes(self.n, self.m, &gates)
    }

    fn to_bytes(self) -> Vec<u8> {
        let numbers = [self.n, self.m, self.q, self.period].map(u16::to_be_bytes);
        [numbers.concat(), self.start.to_be_bytes().to_vec()].concat()
    }
}

/// A chain over the blocks of the bytes, the last block padded with zeros: from block 0 on, each
/// block is exclusive-ored in, and π taken.
pub fn fingerprint(bytes: &[u8]) -> Block {
    let mut cipher = Cipher::default();
    let mut chain = Block::ZERO;
    for chunk in bytes.chunks(BLOCK) {
        let mut block = Block::ZERO;
        block.0[..chunk.len()].copy_from_slice(chunk);
        chain = cipher.encrypt(FIXED_KEY, chain ^ block);
    }
    chain
}

/// A seed for which the zero tokens of inputs 1 and 2 have these colours in run 0.
pub fn coloured_seed(random: &mut Random, colours: [Colour; 2]) -> Vec<u8> {
    loop {
        let seed = generate::seed(random);
        let bytes: [u8; BLOCK] = seed[..].try_into().expect("16 bytes");
        let tokens = Seed::new(&bytes, 0);
        if [1, 2].map(|wire| tokens.zero_token(wire).colour()) == colours {
            return seed;
        }
    }
}

/// The line of a garbling of run 0: rule, seed, scheme, answer, and the fingerprints of the material, the
/// zero tokens and the one tokens.
pub fn case(rule: Rule, seed: Vec<u8>, scheme: u8) -> String {
    let mut call = Call {
        operation: Operation::Garble,
        circuit: rule.circuit(),
        seed,
        scheme,
        ..Call::default()
    };
    call.lens = room(&call).expect("a rule that gives an accepted circuit");
    assert!(
        call.lens[0] <= 1 << 20,
        "more material than there is room for"
    );
    let outcome = call.run();
    assert!(outcome.answer.is_ok(), "{rule:?} is not refused");
    let prints = outcome.buffers.iter().map(|buffer| fingerprint(buffer));
    let answer = lines::answer(&outcome.answer);
    let mut fields = vec![rule.to_bytes(), call.seed, vec![scheme], answer];
    fields.extend(prints.map(|print| print.0.to_vec()));
    lines::line(&fields)
}
