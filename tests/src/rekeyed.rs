//! Cases of scheme 4, half-gates whose hash has another key for each tweak (02, job 7).

use crate::block::{Block, BLOCK};
use crate::call::{Call, Operation};
use crate::chained::{chain_on, spoil, Chain, ENDS};
use crate::circuit::{to_bytes, Gate};
use crate::evaluator::{around, own, own_from, refused, strange, tampered, value_lists};
use crate::generate::{self, damage, RUNS};
use crate::lines;
use crate::listed::listed;
use crate::one_operand::{every_code, nots, seeds};
use crate::random::Random;
use crate::runs;
use crate::scheme::Scheme;

const REKEYED: Scheme = Scheme::RekeyedHalfGates;

/// Scheme bytes that are refused.
const UNKNOWN: [u8; 3] = [5, 0, 255];

/// Three inputs, and free and charged gates in turn; three outputs.
fn mixed_circuit() -> Vec<u8> {
    let gates = [
        (1, 2, 9),
        (2, 4, 13),
        (1, 5, 2),
        (3, 6, 6),
        (5, 7, 4),
        (6, 8, 8),
    ];
    to_bytes(3, 3, &gates.map(|(a, b, code)| Gate { a, b, code }))
}

/// Charged gates alone, on wires from 251 on: past 255 a wire number has two bytes.
fn past_255(random: &mut Random) -> Vec<u8> {
    generate::circuit(random, 250, 12, 100)
}

/// All calls made here of evaluate in either form, or of decode.
pub fn calls(operation: Operation) -> Vec<Call> {
    if operation == Operation::EvaluateGates {
        return calls(Operation::Evaluate).iter().map(listed).collect();
    }
    let mut random = Random::new(7_001);
    let random = &mut random;
    let mut calls = Vec::new();
    for seed in seeds(random) {
        let bytes = every_code();
        calls.extend(own_from(random, operation, &bytes, REKEYED, &seed));
    }
    calls.extend(own(random, operation, &nots(), REKEYED));
    for charged in [0, 50, 100] {
        let bytes = generate::circuit(random, 3, 7, charged);
        calls.push(strange(random, operation, &bytes, REKEYED));
    }
    for _ in 0..6 {
        let bytes = generate::any_small_circuit(random);
        calls.push(strange(random, operation, &bytes, REKEYED));
    }
    let bytes = past_255(random);
    calls.push(strange(random, operation, &bytes, REKEYED));
    calls.extend(changed_rows(random, operation));
    calls.extend(exchanged(random, operation));
    let call = strange(random, operation, &mixed_circuit(), REKEYED);
    calls.extend(tampered(&call));
    calls.extend(around(&call));
    calls
}

/// Calls on a garbling made here with a bit of one row changed, in rows G and E of each charged gate: it
/// is not refused, and gives the tokens that the changed row gives.
fn changed_rows(random: &mut Random, operation: Operation) -> Vec<Call> {
    let own = own(random, operation, &mixed_circuit(), REKEYED);
    let mut calls = Vec::new();
    for (index, row) in (0..8).enumerate() {
        let mut call = own[index].clone();
        // After the header, a record of 4 bytes and two rows for each gate.
        let start = 9 + 4 + (4 + 2 * BLOCK) * (row / 2) + BLOCK * (row % 2);
        call.material[start + random.below(BLOCK)] ^= 1 << random.below(8);
        assert!(call.run().answer.is_ok(), "rows may be of any bytes");
        calls.push(call);
    }
    calls
}

/// Calls on garblings of schemes 3 and 4, each with its own scheme byte and with the other's, which fits
/// as well; and with those of schemes 1 and 2, which need more rows.
fn exchanged(random: &mut Random, operation: Operation) -> Vec<Call> {
    let mut calls = Vec::new();
    for scheme in [Scheme::HalfGates, REKEYED] {
        let own = own(random, operation, &mixed_circuit(), scheme);
        for call in &own[2..5] {
            calls.push(call.clone());
            calls.push(with_scheme(call, 7 - scheme.byte()));
        }
        calls.extend([1, 2].map(|byte| refused(with_scheme(&own[5], byte), 16)));
    }
    calls
}

/// The call with another scheme byte in its material.
fn with_scheme(call: &Call, byte: u8) -> Call {
    let mut call = call.clone();
    call.material[2] = byte;
    call
}

/// The lines of garblings: every code with each pair of colours of its operands; one circuit and one seed
/// in every run, and by scheme 3 beside them; circuits of any kind; wire numbers of two bytes; and calls
/// that are refused.
pub fn garblings() -> String {
    let mut random = Random::new(7_004);
    let random = &mut random;
    let mut calls = Vec::new();
    for seed in seeds(random) {
        let mut call = runs::garbling(random, &every_code(), 0, REKEYED);
        call.seed = seed;
        calls.push(call);
    }
    let seed = generate::seed(random);
    let by_runs = RUNS.map(|run| (run, REKEYED));
    for (run, scheme) in by_runs.into_iter().chain([(0, Scheme::HalfGates)]) {
        let mut call = runs::garbling(random, &runs::every_code(), run, scheme);
        call.seed = seed.clone();
        calls.push(call);
    }
    for run in RUNS {
        let bytes = generate::any_small_circuit(random);
        calls.push(runs::garbling(random, &bytes, run, REKEYED));
    }
    let no_charged = generate::circuit(random, 3, 4, 0);
    calls.push(runs::garbling(random, &no_charged, 0, REKEYED));
    let bytes = past_255(random);
    for run in [0, 1, u64::MAX] {
        calls.push(runs::garbling(random, &bytes, run, REKEYED));
    }
    calls.extend(refused_garblings(random));
    let line = |call: &Call| lines::case_with_run(call, &call.run());
    calls.iter().map(line).collect()
}

/// For each refusal of garble a call that it is due to; for 14 one with each scheme byte.
fn refused_garblings(random: &mut Random) -> Vec<Call> {
    let mut calls = Vec::new();
    for (index, &number) in Operation::Garble.refusals_of_01().iter().enumerate() {
        let run = RUNS[index % RUNS.len()];
        if number == 14 {
            let call = runs::garbling(random, &mixed_circuit(), run, REKEYED);
            let unknown = UNKNOWN.map(|scheme| Call {
                scheme,
                ..call.clone()
            });
            calls.extend(unknown.map(|call| refused(call, number)));
        } else {
            let call = damaged_garbling(random, run, number);
            calls.push(refused(call, number));
        }
    }
    calls
}

/// A garbling by scheme 4 with one condition met, on 01's codes.
fn damaged_garbling(random: &mut Random, run: u64, number: u8) -> Call {
    loop {
        let bytes = generate::small_circuit(random);
        let mut call = runs::garbling(random, &bytes, run, REKEYED);
        if damage::damage(random, &mut call, number) {
            return damage::refused_still(call, &[number]);
        }
    }
}

/// The lines of chains: every code with each pair of colours of its operands, on each list of values; one
/// circuit and one seed in every run; gates that use one operand, on each list of values; circuits of any
/// kind; wire numbers of two bytes; and each refusal that a call can give.
pub fn chains() -> String {
    let mut random = Random::new(7_005);
    let random = &mut random;
    let mut text = String::new();
    for seed in seeds(random) {
        for values in value_lists(2) {
            let mut chain = chain_on(random, REKEYED, every_code());
            (chain.seed, chain.values) = (seed.clone(), values);
            text += &chain.case_with_run(None);
        }
    }
    let seed = generate::seed(random);
    for (run, values) in RUNS.into_iter().zip(value_lists(3)) {
        let mut chain = chain_on(random, REKEYED, runs::every_code());
        (chain.seed, chain.run) = (seed.clone(), run);
        chain.values = values.clone();
        text += &chain.case_with_run(None);
        let mut chain = chain_on(random, REKEYED, nots());
        chain.values = values;
        text += &chain.case_with_run(None);
        text += &any_chain(random, run).case_with_run(None);
    }
    let circuit = past_255(random);
    text += &chain_on(random, REKEYED, circuit).case_with_run(None);
    text + &refused_chains(random)
}

/// A chain on any circuit.
fn any_chain(random: &mut Random, run: u64) -> Chain {
    let circuit = generate::any_small_circuit(random);
    let mut chain = chain_on(random, REKEYED, circuit);
    chain.run = run;
    chain
}

/// Chains that end by each refusal that a call can give; by 14 with each scheme byte.
fn refused_chains(random: &mut Random) -> String {
    let mut text = String::new();
    for (index, (call, number)) in ENDS.into_iter().enumerate() {
        let mut chain = any_chain(random, RUNS[index % RUNS.len()]);
        spoil(&mut chain, call, number);
        text += &chain.case_with_run(Some((call, number)));
    }
    for scheme in &UNKNOWN[1..] {
        let mut chain = any_chain(random, 0);
        chain.scheme = *scheme;
        text += &chain.case_with_run(Some((1, 14)));
    }
    text
}

/// The lines of σ, each a block and σ of it: the bytes 0 to 15; all bits 0 and all 1; equal halves; one
/// half alone; a single bit at each end of each half; and any blocks.
pub fn sigmas() -> String {
    let mut random = Random::new(7_006);
    let mut blocks: Vec<[u8; BLOCK]> = vec![std::array::from_fn(|i| i as u8)];
    blocks.extend([0x00, 0xFF].map(|byte| [byte; BLOCK]));
    blocks.push(std::array::from_fn(|i| 0x21 + (i % 8) as u8));
    blocks.push(std::array::from_fn(|i| if i < 8 { 0xA5 } else { 0 }));
    blocks.push(std::array::from_fn(|i| if i < 8 { 0 } else { 0x5A }));
    for (index, bit) in [(0, 0x80), (7, 0x01), (8, 0x80), (15, 0x01)] {
        blocks.push(std::array::from_fn(|i| if i == index { bit } else { 0 }));
    }
    let any = generate::tokens(&mut random, 6);
    let any = Block::list(&any).into_iter();
    let line = |block: Block| lines::line(&[block.0.to_vec(), block.sigma().0.to_vec()]);
    blocks.into_iter().map(Block).chain(any).map(line).collect()
}
