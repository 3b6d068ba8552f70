//! Scheme 4, by the words of 02, job 7, on the second implementation and on the archive. Tokens and rows are
//! worked out here once more, from AES alone: half-gates over any hash, once with that of scheme 3 and once
//! with that of scheme 4. Rows G and E and the zero token are compared for each code and each pair of
//! colours, on wires up to the last, the opened token on rows of any bytes, and σ with blocks worked by hand.
//! Further: what schemes 3 and 4 have in common; the chain on every list of values; which scheme bytes are
//! refused, and that 3 and 4 exchanged are not; that the stored large garblings have charged gates where a
//! wire number or a tweak gets longer.

mod sides;

use std::collections::BTreeSet;

use second::aes::Key;
use second::block::{Block, BLOCK};
use second::call::{Call, Operation};
use second::circuit::{to_bytes, Gate};
use second::evaluator::value_lists;
use second::generate::{self, room};
use second::hex;
use second::interface::Answer;
use second::large::coloured_seed;
use second::random::Random;
use sides::{Side, SIDES};

/// Charged codes, each with the pair u, v that has a value of its own, and that value.
const CHARGED: [(u8, bool, bool, bool); 8] = [
    (1, false, false, true),
    (2, false, true, true),
    (4, true, false, true),
    (7, true, true, false),
    (8, true, true, true),
    (11, true, false, false),
    (13, false, true, false),
    (14, false, false, false),
];

/// σ of the left and right 8-byte halves is (left ⊕ right, left).
fn sigma(x: Block) -> Block {
    let number = u128::from_be_bytes(x.0);
    let (left, right) = ((number >> 64) as u64, number as u64);
    Block((u128::from(left ^ right) << 64 | u128::from(left)).to_be_bytes())
}

/// H of schemes 3 and 4: AES under a key of a block, ⊕ the block. In scheme 3 the key is 00 01 .. 0F and
/// the block 2x ⊕ i, in scheme 4 the key is i and the block σ(x).
fn hash(scheme: u8, x: Block, i: usize) -> Block {
    let tweak = (i as u128).to_be_bytes();
    let (key, block) = match scheme {
        3 => (std::array::from_fn(|i| i as u8), x.double() ^ Block(tweak)),
        _ => (tweak, sigma(x)),
    };
    Key::expand(&key).encrypt(block) ^ block
}

/// A charged gate: its code, its wire, and its operands' wires.
#[derive(Clone, Copy)]
struct Charged {
    code: u8,
    wire: usize,
    a: usize,
    b: usize,
}

/// Rows G and E and the zero token of a gate, from its operands' zero tokens and R.
fn garbled_gate(scheme: u8, gate: Charged, xa: Block, xb: Block, r: Block) -> [Block; 3] {
    let found = CHARGED.iter().find(|charged| charged.0 == gate.code);
    let &(_, u, v, own) = found.expect("a charged code");
    let (a, b) = (xa ^ r.times(!u), xb ^ r.times(!v));
    let (s, t) = (a.0[15] & 1 == 1, b.0[15] & 1 == 1);
    let (j, k) = (2 * gate.wire, 2 * gate.wire + 1);
    let row_g = hash(scheme, a, j) ^ hash(scheme, a ^ r, j) ^ r.times(t);
    let row_e = hash(scheme, b, k) ^ hash(scheme, b ^ r, k) ^ a;
    let zero = hash(scheme, a, j) ^ row_g.times(s) ^ hash(scheme, b, k) ^ (row_e ^ a).times(t);
    [row_g, row_e, zero ^ r.times(!own)]
}

/// The token of a gate on a wire, from the tokens held and its rows.
fn opened_gate(scheme: u8, wire: usize, rows: [Block; 2], a: Block, b: Block) -> Block {
    let (s, t) = (a.0[15] & 1 == 1, b.0[15] & 1 == 1);
    let hashes = hash(scheme, a, 2 * wire) ^ hash(scheme, b, 2 * wire + 1);
    hashes ^ rows[0].times(s) ^ (rows[1] ^ a).times(t)
}

/// A call's answer, which must not be a refusal, in buffers of the bytes named.
fn done(side: Side, mut call: Call) -> Answer {
    call.lens = room(&call).expect("an accepted circuit");
    let answer = side(&call);
    assert_eq!(answer.number, 0, "{call:?}");
    answer
}

/// A garbling: its three buffers, and the two words of its answer.
struct Garbling {
    material: Vec<u8>,
    zeros: Vec<u8>,
    ones: Vec<u8>,
    length: u64,
    calls: u64,
}

impl Garbling {
    fn zero(&self, wire: usize) -> Block {
        Block::list(&self.zeros[BLOCK * (wire - 1)..BLOCK * wire])[0]
    }

    fn offset(&self) -> Block {
        self.zero(1) ^ Block::list(&self.ones[..BLOCK])[0]
    }
}

fn garbling(side: Side, circuit: &[u8], seed: &[u8], scheme: u8) -> Garbling {
    let call = Call {
        operation: Operation::Garble,
        circuit: circuit.to_vec(),
        seed: seed.to_vec(),
        scheme,
        ..Call::default()
    };
    let answer = done(side, call);
    let [material, zeros, ones] = answer.buffers.try_into().expect("three buffers");
    let [length, calls, ..] = answer.words;
    Garbling {
        material,
        zeros,
        ones,
        length,
        calls,
    }
}

/// The rows of the charged gate of that number, counted from 0, of schemes 3 and 4.
fn rows(material: &[u8], number: usize) -> [Block; 2] {
    let start = 9 + (4 + 2 * BLOCK) * number + 4;
    let rows = Block::list(&material[start..start + 2 * BLOCK]);
    [rows[0], rows[1]]
}

/// A circuit of two inputs: charged gates on the wires named, of each code in turn, and XOR or a gate that
/// uses one operand on all others, up to the last. The charged gates' operands are inputs, then the
/// wires just before.
fn on_wires(wires: &[usize]) -> (Vec<u8>, Vec<Charged>) {
    let mut gates = Vec::new();
    let mut charged = Vec::new();
    let last = *wires.last().expect("a wire");
    for wire in 3..=last {
        let mut gate = Gate {
            a: (wire - 2) as u16,
            b: (wire - 1) as u16,
            code: [6, 12, 6, 3, 10][wire % 5],
        };
        if wires.contains(&wire) {
            let (code, ..) = CHARGED[charged.len() % 8];
            if charged.len() < 8 {
                (gate.a, gate.b) = (1, 2);
            }
            let (a, b) = (usize::from(gate.a), usize::from(gate.b));
            gate.code = code;
            charged.push(Charged { code, wire, a, b });
        }
        gates.push(gate);
    }
    (to_bytes(2, 1, &gates), charged)
}

/// Wires on both sides of where a wire number, or a tweak, passes 8 and 16 bits, and the last there is.
const WIRES: [usize; 19] = [
    3, 4, 5, 6, 7, 8, 9, 10, 127, 128, 255, 256, 257, 32_766, 32_767, 32_768, 32_769, 65_534,
    65_535,
];

/// Seeds with each pair of colours of the inputs' zero tokens.
fn seeds() -> Vec<Vec<u8>> {
    let mut random = Random::new(71);
    let pairs = value_lists(2).map(|pair| [pair[0] == 1, pair[1] == 1]);
    let colours = pairs.map(|pair| pair.map(second::block::Colour));
    colours
        .map(|pair| coloured_seed(&mut random, pair))
        .collect()
}

/// Worked by hand: 0 to 15; all bits 1; equal halves; the lowest bit of each half.
#[test]
fn sigma_by_hand() {
    for (from, due) in [
        (
            "000102030405060708090a0b0c0d0e0f",
            "08080808080808080001020304050607",
        ),
        (
            "ffffffffffffffffffffffffffffffff",
            "0000000000000000ffffffffffffffff",
        ),
        (
            "0123456789abcdef0123456789abcdef",
            "00000000000000000123456789abcdef",
        ),
        (
            "00000000000000010000000000000000",
            "00000000000000010000000000000001",
        ),
        (
            "00000000000000000000000000000001",
            "00000000000000010000000000000000",
        ),
    ] {
        let block = Block::list(&hex::bytes(from).expect("hexadecimal"))[0];
        assert_eq!(
            hex::text(&block.sigma().0),
            due,
            "the second implementation"
        );
        assert_eq!(hex::text(&sigma(block).0), due, "this test");
    }
}

/// The cases of σ that the test program `vectors` has.
#[test]
fn sigma_of_the_stored_blocks() {
    let text = include_str!("../../crates/vectors/data/sigma");
    assert_eq!(text.lines().count(), 16);
    for line in text.lines() {
        let (from, due) = line.split_once(' ').expect("two blocks");
        let block = Block::list(&hex::bytes(from).expect("hexadecimal"))[0];
        assert_eq!(hex::text(&sigma(block).0), due, "{from}");
    }
}

/// The large garblings that the test program `garblings` has: n, m, q and the period of each, and that a gate
/// is charged on both sides of where a wire number or a tweak gets longer, and on the last wire.
#[test]
fn large_garblings_reach_the_last_wires() {
    let text = include_str!("../../crates/garblings/data/garble-large-rekeyed");
    let mut charged = BTreeSet::new();
    for line in text.lines() {
        let rule = hex::bytes(line.split(' ').next().expect("a rule")).expect("hexadecimal");
        let number = |at: usize| 256 * usize::from(rule[at]) + usize::from(rule[at + 1]);
        let (n, q, period) = (number(0), number(4), number(6));
        charged.extend((0..q).step_by(period).map(|i| n + 1 + i));
    }
    for wire in [255, 256, 32_767, 32_768, 65_535] {
        assert!(charged.contains(&wire), "wire {wire}");
    }
}

/// Every code and every pair of colours, on wires of every size: both rows, and the zero token.
#[test]
fn rows_and_zero_tokens_from_aes() {
    let (circuit, charged) = on_wires(&WIRES);
    for (name, side) in SIDES {
        for (scheme, seed) in seeds().iter().flat_map(|seed| [(3, seed), (4, seed)]) {
            let garbling = garbling(side, &circuit, seed, scheme);
            let r = garbling.offset();
            for (number, &gate) in charged.iter().enumerate() {
                let (xa, xb) = (garbling.zero(gate.a), garbling.zero(gate.b));
                let [row_g, row_e, zero] = garbled_gate(scheme, gate, xa, xb, r);
                let name = format!("{name}, scheme {scheme}, wire {}", gate.wire);
                assert_eq!(rows(&garbling.material, number), [row_g, row_e], "{name}");
                assert_eq!(garbling.zero(gate.wire), zero, "{name}");
            }
        }
    }
}

/// The token that is held, on any rows and any tokens, of each pair of colours.
#[test]
fn opened_tokens_from_aes() {
    let mut random = Random::new(72);
    let (circuit, charged) = on_wires(&WIRES);
    for (scheme, colours) in [3, 4]
        .into_iter()
        .flat_map(|s| value_lists(2).map(move |c| (s, c)))
    {
        let mut material = garbling(SIDES[0].1, &circuit, &seeds()[0], scheme).material;
        for record in material[9..9 + 36 * charged.len()].chunks_exact_mut(36) {
            record[4..].copy_from_slice(&random.bytes(2 * BLOCK));
        }
        let mut tokens = generate::tokens(&mut random, 2);
        for (last, colour) in [15, 31].into_iter().zip(colours) {
            tokens[last] = tokens[last] & !1 | colour;
        }
        let call = Call {
            operation: Operation::Evaluate,
            circuit: circuit.clone(),
            tokens,
            material: material.clone(),
            ..Call::default()
        };
        for (name, side) in SIDES {
            let answer = done(side, call.clone());
            assert_eq!(answer.words, [2 * charged.len() as u64, 0, 0, 0], "{name}");
            let held = Block::list(&answer.buffers[0]);
            for (number, gate) in charged.iter().enumerate() {
                let (a, b) = (held[gate.a - 1], held[gate.b - 1]);
                let due = opened_gate(scheme, gate.wire, rows(&material, number), a, b);
                let wire = gate.wire;
                assert_eq!(held[wire - 1], due, "{name}, scheme {scheme}, wire {wire}");
            }
        }
    }
}

/// R, the inputs' tokens and free gates are those of scheme 3, and so are the length and the count; the
/// rows are not.
#[test]
fn what_schemes_3_and_4_have_in_common() {
    // Wires 3 and 4 are free and on inputs; 5 and 6 are charged.
    let gates = [(1, 2, 9), (1, 3, 5), (1, 2, 8), (4, 5, 11)];
    let circuit = to_bytes(2, 2, &gates.map(|(a, b, code)| Gate { a, b, code }));
    let seed = &seeds()[2];
    for (name, side) in SIDES {
        let [third, fourth] = [3, 4].map(|scheme| garbling(side, &circuit, seed, scheme));
        assert_eq!(third.ones, fourth.ones, "{name}");
        assert_eq!(
            third.zeros[..4 * BLOCK],
            fourth.zeros[..4 * BLOCK],
            "{name}"
        );
        assert_ne!(
            third.zeros[4 * BLOCK..],
            fourth.zeros[4 * BLOCK..],
            "{name}"
        );
        for garbling in [&third, &fourth] {
            assert_eq!(garbling.length, 11 + 2 + 2 * (4 + 32), "{name}");
            assert_eq!(garbling.calls, 4 * 2, "{name}");
        }
        for number in 0..2 {
            let [third, fourth] = [&third, &fourth].map(|one| rows(&one.material, number));
            assert!(third[0] != fourth[0] && third[1] != fourth[1], "{name}");
        }
    }
}

/// Without charged gates all four schemes write the same, but for the scheme byte.
#[test]
fn without_charged_gates_only_the_scheme_byte_differs() {
    let gates = [(1, 2, 6), (2, 3, 9), (1, 4, 3), (4, 5, 10)];
    let circuit = to_bytes(2, 3, &gates.map(|(a, b, code)| Gate { a, b, code }));
    for (name, side) in SIDES {
        let garblings = [1, 2, 3, 4].map(|scheme| garbling(side, &circuit, &seeds()[1], scheme));
        for (scheme, garbling) in (1..).zip(&garblings) {
            let mut due = garblings[0].material.clone();
            due[2] = scheme;
            assert_eq!(garbling.material, due, "{name}, scheme {scheme}");
            assert_eq!(
                garbling.zeros, garblings[0].zeros,
                "{name}, scheme {scheme}"
            );
            assert_eq!(garbling.ones, garblings[0].ones, "{name}, scheme {scheme}");
            assert_eq!(garbling.calls, 0, "{name}, scheme {scheme}");
        }
    }
}

/// Every code once, and gates of every kind on them.
fn every_code() -> Vec<u8> {
    let codes = (1..=14).map(|code| (1 + code % 2, 3, code));
    let further = [(4, 9, 8), (5, 18, 6), (10, 19, 13), (18, 20, 7), (6, 21, 2)];
    let gates = codes
        .map(|(a, b, code)| (u16::from(a), b, code))
        .chain(further);
    let gates: Vec<Gate> = gates.map(|(a, b, code)| Gate { a, b, code }).collect();
    to_bytes(3, 19, &gates)
}

/// Demand 3 by scheme 4, on every list of values: on every wire the distance is R where the plain circuit
/// carries 1, and the decoded bits are the plain circuit's.
#[test]
fn the_chain_gives_the_plain_values() {
    let circuit = every_code();
    for (name, side) in SIDES {
        for (seed, values) in seeds()
            .iter()
            .flat_map(|seed| value_lists(3).map(move |v| (seed, v)))
        {
            let garbling = garbling(side, &circuit, seed, 4);
            check_chain(side, &circuit, &garbling, &values, name);
        }
    }
}

/// The same on the largest wire numbers.
#[test]
fn the_chain_on_the_last_wires() {
    let (mut circuit, charged) = on_wires(&WIRES);
    // All gates from wire 32,760 on are outputs.
    circuit[4..6].copy_from_slice(&(65_535u16 - 32_759).to_be_bytes());
    assert_eq!(charged.len(), WIRES.len());
    for (name, side) in SIDES {
        let garbling = garbling(side, &circuit, &seeds()[3], 4);
        for values in value_lists(2) {
            check_chain(side, &circuit, &garbling, &values, name);
        }
    }
}

fn check_chain(side: Side, circuit: &[u8], garbling: &Garbling, values: &[u8], name: &str) {
    let inputs = BLOCK * values.len();
    let call = |operation, tokens: &[u8]| Call {
        operation,
        circuit: circuit.to_vec(),
        values: values.to_vec(),
        zero: garbling.zeros[..inputs].to_vec(),
        one: garbling.ones.clone(),
        tokens: tokens.to_vec(),
        material: garbling.material.clone(),
        ..Call::default()
    };
    let carried = &done(side, call(Operation::Plain, &[])).buffers[0];
    let tokens = &done(side, call(Operation::Encode, &[])).buffers[0];
    let evaluated = done(side, call(Operation::Evaluate, tokens));
    assert_eq!(2 * evaluated.words[0], garbling.calls, "{name}: 2p of 4p");
    let held = Block::list(&evaluated.buffers[0]);
    for (index, &value) in carried.iter().enumerate() {
        let wire = index + 1;
        let due = garbling.zero(wire) ^ garbling.offset().times(value == 1);
        assert_eq!(held[index], due, "{name}, {values:?}, wire {wire}");
    }
    let outputs = usize::from(circuit[4]) * 256 + usize::from(circuit[5]);
    let first = carried.len() - outputs;
    let outputs = &evaluated.buffers[0][BLOCK * first..];
    let bits = &done(side, call(Operation::Decode, outputs)).buffers[0];
    assert_eq!(bits[..], carried[first..], "{name}, {values:?}");
}

/// The scheme byte of the other: material of schemes 3 and 4 has one length. It is evaluated, to other
/// tokens on charged gates, and to the same on free ones that depend on none.
#[test]
fn an_exchanged_scheme_byte_is_not_refused() {
    let gates = [(1, 2, 6), (1, 3, 14), (2, 3, 9), (4, 5, 7)];
    let circuit = to_bytes(2, 1, &gates.map(|(a, b, code)| Gate { a, b, code }));
    for (name, side) in SIDES {
        for scheme in [3, 4] {
            let garbling = garbling(side, &circuit, &seeds()[0], scheme);
            let held = |scheme: u8| {
                let mut material = garbling.material.clone();
                material[2] = scheme;
                let call = Call {
                    operation: Operation::Evaluate,
                    circuit: circuit.clone(),
                    tokens: garbling.ones.clone(),
                    material,
                    ..Call::default()
                };
                let answer = done(side, call);
                assert_eq!(answer.words, [4, 0, 0, 0], "{name}");
                Block::list(&answer.buffers[0])
            };
            let (own, others) = (held(scheme), held(7 - scheme));
            let differ: Vec<bool> = own.iter().zip(&others).map(|(a, b)| a != b).collect();
            assert_eq!(differ, [false, false, false, true, false, true], "{name}");
        }
    }
}

/// 14 for every scheme but 1 to 4, as argument and in the material, with the scheme as its place.
#[test]
fn which_schemes_are_refused() {
    for (name, side) in SIDES {
        for scheme in 0..=255 {
            let length = [80, 64, 48, 48].get(usize::from(scheme).wrapping_sub(1));
            for operation in WITH_SCHEME {
                let answer = side(&and_call(operation, scheme, *length.unwrap_or(&48)));
                let due = if length.is_none() { 14 } else { 0 };
                assert_eq!(answer.number, due, "{name}, {operation:?}, {scheme}");
                if due == 14 {
                    let words = [u64::from(scheme), 0, 0, 0];
                    assert_eq!(answer.words, words, "{name}, {operation:?}");
                }
            }
        }
    }
}

/// The operations that have a scheme.
const WITH_SCHEME: [Operation; 4] = [
    Operation::Garble,
    Operation::Evaluate,
    Operation::EvaluateGates,
    Operation::Decode,
];

/// A call on one AND gate, with material of that scheme and length whose rows are any bytes.
fn and_call(operation: Operation, scheme: u8, length: usize) -> Call {
    let (a, b, code) = (1, 2, 8);
    let gates = vec![Gate { a, b, code }];
    let mut material = vec![0x77; length];
    material[..9].copy_from_slice(&[0x47, 0x48, scheme, 0, 2, 0, 1, 0, 1]);
    material[9..13].copy_from_slice(&[0x47, 0x54, 0, 3]);
    material[length - 3..].copy_from_slice(&[0x47, 0x44, 1]);
    let (tokens, lens) = match operation {
        Operation::Garble => (0, vec![length, 3 * BLOCK, 2 * BLOCK]),
        Operation::Decode => (BLOCK, vec![1]),
        _ => (2 * BLOCK, vec![3 * BLOCK]),
    };
    Call {
        operation,
        circuit: to_bytes(2, 1, &gates),
        n: 2,
        m: 1,
        gates,
        seed: vec![9; BLOCK],
        scheme,
        tokens: vec![3; tokens],
        material,
        lens,
        ..Call::default()
    }
}
