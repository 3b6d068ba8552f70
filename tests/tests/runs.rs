//! Run numbers, by the words of 02, job 4, on the second implementation and on the archive: which blocks are
//! enciphered under the seed, whose R is the distance, and that no run is refused. Run 0 gives what 01 says
//! of R, of the inputs' tokens and of scheme 1's zero tokens, and every run what 02 says, both worked out
//! here from AES. Two runs of one seed differ in R and in each input's tokens, and no block is enciphered
//! twice. The chain holds in each run on every list of values, and a refusal is the same in every run.

mod sides;

use std::collections::BTreeSet;

use second::aes::Key;
use second::block::{Block, BLOCK};
use second::call::{Call, Operation};
use second::circuit::{to_bytes, Gate};
use second::evaluator::value_lists;
use second::generate::damage::any_damaged_call;
use second::generate::{room, RUNS};
use second::interface;
use second::random::Random;
use sides::{Side, SIDES};

/// Both sides, with each scheme.
fn sides_and_schemes() -> impl Iterator<Item = (&'static str, Side, u8)> {
    let with_schemes = |(name, side)| [1, 2, 3, 4].map(|scheme| (name, side, scheme));
    SIDES.into_iter().flat_map(with_schemes)
}

const SEED: [u8; BLOCK] = *b"a seed: 16 bytes";
const INPUTS: usize = 3;
const WIRES: usize = 9;
const OUTPUTS: usize = 3;

/// The wires of the charged gates.
const CHARGED: [usize; 3] = [4, 7, 9];

/// Wires 4 to 9: AND, XOR, NOT b, OR, a, NAND.
fn circuit() -> Vec<u8> {
    let gates = [
        (1, 2, 8),
        (3, 4, 6),
        (1, 5, 5),
        (4, 6, 14),
        (2, 7, 12),
        (7, 8, 7),
    ];
    let gates = gates.map(|(a, b, code)| Gate { a, b, code });
    to_bytes(INPUTS as u16, OUTPUTS as u16, &gates)
}

/// The output buffers of a call on the circuit, which must not be refused, in buffers of the bytes named.
fn buffers(side: Side, mut call: Call) -> Vec<Vec<u8>> {
    call.circuit = circuit();
    call.lens = room(&call).expect("an accepted circuit");
    let answer = side(&call);
    assert_eq!(answer.number, 0, "{call:?}");
    answer.buffers
}

/// A garbling from the one seed: its three buffers, the zero tokens of all wires, and R.
struct Garbling {
    material: Vec<u8>,
    zero: Vec<u8>,
    one: Vec<u8>,
    tokens: Vec<Block>,
    offset: Block,
}

/// Garbles the circuit in a run. Each input's tokens must differ by the same R.
fn garbling(side: Side, run: u64, scheme: u8) -> Garbling {
    let call = Call {
        operation: Operation::Garble,
        seed: SEED.to_vec(),
        run,
        scheme,
        ..Call::default()
    };
    let [material, zeros, one] = buffers(side, call).try_into().expect("three buffers");
    let tokens = Block::list(&zeros);
    let ones = Block::list(&one);
    let offset = tokens[0] ^ ones[0];
    assert!((0..INPUTS).all(|i| tokens[i] ^ ones[i] == offset));
    Garbling {
        material,
        zero: zeros[..BLOCK * INPUTS].to_vec(),
        one,
        tokens,
        offset,
    }
}

/// AES under the seed of a number, in its 16-byte big-endian form.
fn enciphered(number: u128) -> Block {
    Key::expand(&SEED).encrypt(Block(number.to_be_bytes()))
}

/// R, the inputs' zero tokens and those of scheme 1's charged gates are of the numbers `first` + 0 and
/// `first` + the wire.
fn check_numbers(run: u64, first: u128) {
    for (name, side, scheme) in sides_and_schemes() {
        let Garbling { tokens, offset, .. } = garbling(side, run, scheme);
        let mut due = enciphered(first);
        due.0[BLOCK - 1] |= 1;
        assert_eq!(offset, due, "{name}, run {run}, scheme {scheme}: R");
        let gates = if scheme == 1 { &CHARGED[..] } else { &[] };
        for wire in (1..=INPUTS).chain(gates.iter().copied()) {
            let due = enciphered(first + wire as u128);
            assert_eq!(tokens[wire - 1], due, "{name}, run {run}, wire {wire}");
        }
    }
}

/// The rule of 01: AES under the seed of block i, and of block 0 for R.
#[test]
fn run_0_gives_the_bytes_of_01() {
    check_numbers(0, 0);
}

#[test]
fn the_run_number_stands_before_the_wire_number() {
    for run in RUNS {
        check_numbers(run, u128::from(run) << 64);
    }
}

#[test]
fn two_runs_of_one_seed_have_other_tokens_and_another_r() {
    for (name, side, scheme) in sides_and_schemes() {
        let garblings = RUNS.map(|run| (run, garbling(side, run, scheme)));
        for (index, (run, one)) in garblings.iter().enumerate() {
            for (other_run, other) in &garblings[..index] {
                let name = format!("{name}, scheme {scheme}, runs {other_run} and {run}");
                assert_ne!(one.offset, other.offset, "{name}");
                for i in 0..INPUTS {
                    assert_ne!(one.tokens[i], other.tokens[i], "{name}, wire {}", i + 1);
                }
            }
        }
    }
}

/// Run 1 and wire 0 is not run 0 and wire 1, and no half of a run number is lost: what is enciphered
/// under the seed, R's colour set in all of it, is never the same twice.
#[test]
fn run_and_wire_do_not_mix() {
    let others = (1..=WIRES as u64).flat_map(|number| [number, number << 32, number << 56]);
    let runs: Vec<u64> = [0].into_iter().chain(others).collect();
    for (name, side) in SIDES {
        let mut seen = BTreeSet::new();
        for &run in &runs {
            let Garbling { tokens, offset, .. } = garbling(side, run, 1);
            let wires = (1..=INPUTS).chain(CHARGED);
            let made = wires.map(|wire| tokens[wire - 1].with_colour_set());
            for (index, block) in [offset].into_iter().chain(made).enumerate() {
                assert!(seen.insert(block.0), "{name}, run {run}, block {index}");
            }
        }
    }
}

/// Demand 3 in each run: on every wire the distance is R of that run where the plain circuit carries 1,
/// and the decoded bits are the plain circuit's.
#[test]
fn a_garbling_of_any_run_decodes_to_the_plain_values() {
    for (name, side, scheme) in sides_and_schemes() {
        for run in RUNS {
            let garbling = garbling(side, run, scheme);
            let name = format!("{name}, run {run}, scheme {scheme}");
            for values in value_lists(INPUTS) {
                check_chain(side, &garbling, &values, &name);
            }
        }
    }
}

fn check_chain(side: Side, garbling: &Garbling, values: &[u8], name: &str) {
    let Garbling { material, .. } = garbling;
    let call = |operation, tokens: &[u8]| Call {
        operation,
        values: values.to_vec(),
        zero: garbling.zero.clone(),
        one: garbling.one.clone(),
        tokens: tokens.to_vec(),
        material: material.clone(),
        ..Call::default()
    };
    let carried = &buffers(side, call(Operation::Plain, &[]))[0];
    let inputs = &buffers(side, call(Operation::Encode, &[]))[0];
    let held = &buffers(side, call(Operation::Evaluate, inputs))[0];
    for (index, &value) in carried.iter().enumerate() {
        let distance = Block::list(held)[index] ^ garbling.tokens[index];
        let due = garbling.offset.times(value == 1);
        assert_eq!(distance, due, "{name}, wire {}", index + 1);
    }
    let outputs = &held[BLOCK * (WIRES - OUTPUTS)..];
    let bits = &buffers(side, call(Operation::Decode, outputs))[0];
    assert_eq!(bits[..], carried[WIRES - OUTPUTS..], "{name}");
}

/// A refusal has the number and the place that it has in run 0, and leaves the buffers as they were.
#[test]
fn no_run_changes_a_refusal() {
    let mut random = Random::new(61);
    for &number in Operation::Garble.refusals() {
        let mut call = any_damaged_call(&mut random, Operation::Garble, &[number]);
        call.run = 0;
        for (name, side) in SIDES {
            let due = side(&call);
            assert_eq!(due.number, number, "{name}");
            assert_eq!(due.buffers, interface::buffers(&call), "{name}: written");
            for run in RUNS {
                let mut call = call.clone();
                call.run = run;
                assert_eq!(side(&call), due, "{name}, run {run}");
            }
        }
    }
}
