//! Cases of circuits whose outputs are named (02, job 8): outputs that are inputs, middle wires and last
//! wires, in any order and more than once; and output records with a fault.

use crate::block::BLOCK;
use crate::call::{Call, Operation};
use crate::chained::{chain_on, spoil, Chain, ENDS};
use crate::circuit::{named_bytes, to_bytes, Circuit, Gate};
use crate::evaluator::{own_from, refused, strange, value_lists};
use crate::generate::damage::{any_damaged_call, damaged_call_on};
use crate::generate::{self, outputs, RUNS};
use crate::lines;
use crate::random::Random;
use crate::runs;
use crate::scheme::Scheme;

/// Three inputs, and wires 4 to 9: AND, XOR, NOT of wire 1, OR, a copy of wire 7, a < b.
const GATES: [(u16, u16, u8); 6] = [
    (1, 2, 8),
    (3, 4, 6),
    (1, 5, 3),
    (4, 6, 14),
    (2, 7, 10),
    (5, 8, 2),
];

/// Outputs over these wires: inputs; middle wires; last wires; the same in falling order; repeats; all
/// wires, in rising and in falling order; one wire as often as there may be outputs; more outputs than
/// gates.
pub const LISTS: [&[u16]; 12] = [
    &[1],
    &[3, 2, 1],
    &[5, 7],
    &[9],
    &[7, 8, 9],
    &[9, 8, 7],
    &[6, 6, 6, 6],
    &[1, 9, 1, 9, 4],
    &[1, 2, 3, 4, 5, 6, 7, 8, 9],
    &[9, 8, 7, 6, 5, 4, 3, 2, 1],
    &[7, 7, 7, 7, 7, 7, 7, 7, 7],
    &[2, 5, 9, 3, 7, 5, 8],
];

fn gates() -> [Gate; 6] {
    GATES.map(|(a, b, code)| Gate { a, b, code })
}

/// The three inputs and six gates with these outputs.
pub fn mixed(outputs: &[u16]) -> Vec<u8> {
    named_bytes(3, outputs, &gates())
}

/// Each list of outputs with each scheme, and how many came before.
fn lists_and_schemes() -> impl Iterator<Item = (usize, &'static [u16], Scheme)> {
    let each = LISTS
        .into_iter()
        .flat_map(|list| Scheme::ALL.map(|scheme| (list, scheme)));
    let each = each.enumerate();
    each.map(|(index, (list, scheme))| (index, list, scheme))
}

/// A small circuit of 01's codes.
fn little(random: &mut Random) -> Vec<u8> {
    let (n, q) = (random.between(2, 4), random.between(1, 7));
    let charged = random.one_of(&[30, 60, 100]);
    generate::circuit(random, n as u16, q as u16, charged)
}

/// The same with its outputs named.
fn little_by_name(random: &mut Random) -> Vec<u8> {
    let bytes = little(random);
    outputs::named(random, &bytes)
}

/// A circuit whose wire numbers have two bytes, with outputs on both sides of 255.
fn past_255(random: &mut Random) -> Vec<u8> {
    let bytes = generate::circuit(random, 250, 12, 50);
    let circuit = Circuit::read(&bytes).expect("an accepted circuit");
    outputs::with_outputs(&circuit, &[256, 255, 250, 262, 1, 257, 256])
}

/// A circuit whose outputs are its last wires, and the same with these named: nothing else must differ.
fn stands_for(random: &mut Random) -> [Vec<u8>; 2] {
    let bytes = generate::circuit(random, 3, 5, 60);
    let circuit = Circuit::read(&bytes).expect("an accepted circuit");
    [bytes, circuit.with_named_outputs().to_bytes()]
}

/// A faulty circuit, and the refusal due.
type Fault = (Vec<u8>, u8);

/// The circuit with outputs 9, 1, 9 and some of their records, counted from 0, changed: each to a mark and a
/// wire.
fn with_records(changes: &[(usize, [u8; 2], u16)]) -> Vec<u8> {
    let mut bytes = mixed(&[9, 1, 9]);
    let start = bytes.len() - 3 * 4;
    for (k, mark, wire) in changes {
        let record = [*mark, wire.to_be_bytes()].concat();
        bytes[start + 4 * k..start + 4 * k + 4].copy_from_slice(&record);
    }
    bytes
}

/// The right mark of an output record, and wrong ones.
const OUTPUT: [u8; 2] = [0x43, 0x4F];
const WRONG: [[u8; 2]; 4] = [[0x43, 0x47], [0x42, 0x4F], [0x4F, 0x43], [0, 0]];

/// One faulty record, its mark and its wire; and two, of which the first decides.
fn faulty_records() -> Vec<Fault> {
    let mut faults = Vec::new();
    for (k, other) in WRONG.into_iter().take(3).enumerate() {
        faults.extend(WRONG.map(|mark| (with_records(&[(k, mark, 9)]), 25)));
        for wire in [0, 10, 256 + 9, 65_535] {
            faults.push((with_records(&[(k, OUTPUT, wire)]), 26));
            // Both in one record: the lower number.
            faults.push((with_records(&[(k, other, wire)]), 25));
        }
    }
    for (first, second) in [(0, 1), (0, 2), (1, 2)] {
        let [mark, wire] = [(WRONG[0], 1), (OUTPUT, 0)];
        for (one, other, due) in [
            (mark, wire, 25),
            (wire, mark, 26),
            (mark, mark, 25),
            (wire, wire, 26),
        ] {
            let changes = [(first, one.0, one.1), (second, other.0, other.1)];
            faults.push((with_records(&changes), due));
        }
    }
    faults
}

/// Another length than 8+7q+4m; output records after a circuit of mark 43 48, and none after one of 43 49.
fn faulty_lengths() -> Vec<Fault> {
    let whole = mixed(&[9, 1, 9]);
    let length = whole.len();
    let lengths = [
        8,
        8 + 7 * 6,
        length - 7,
        length - 4,
        length - 1,
        length + 1,
        length + 4,
        length + 7,
    ];
    let mut faults: Vec<Fault> = lengths
        .iter()
        .map(|&other| {
            let mut bytes = whole.clone();
            bytes.resize(other, 0x43);
            (bytes, 4)
        })
        .collect();
    let mut others = to_bytes(3, 3, &gates());
    others.extend(&whole[8 + 7 * 6..]);
    faults.push((others, 4));
    // A header alone, with as many outputs as there may be.
    faults.push((vec![0x43, 0x49, 0, 2, 0, 3, 0, 1], 4));
    faults.push((whole[..7].to_vec(), 1));
    faults
}

/// The sizes of a header, for a mark, out of their limits; m has as many records as it says.
fn faulty_sizes() -> Vec<Fault> {
    let many = |m: usize| (mixed(&vec![4; m]), 3);
    let mut faults = vec![many(0), many(10), (to_bytes(3, 7, &gates()), 3)];
    for (n, m, q) in [
        (1, 1, 6),
        (0, 1, 6),
        (4_097, 1, 6),
        (65_535, 1, 6),
        (3, 3, 0),
        (3, 65_535, 6),
        (2, 1, 65_534),
        (4_096, 1, 61_440),
    ] {
        let mut bytes = mixed(&[9, 1, 9]);
        let sizes: [u16; 3] = [n, m, q];
        bytes[2..8].copy_from_slice(&sizes.map(u16::to_be_bytes).concat());
        faults.push((bytes, 3));
    }
    for mark in [[0x43, 0x4A], [0x42, 0x49], [0x49, 0x43], OUTPUT] {
        let mut bytes = mixed(&[9, 1, 9]);
        bytes[..2].copy_from_slice(&mark);
        faults.push((bytes, 2));
    }
    faults
}

/// A faulty gate beside a faulty output record: the gate comes first, also where it is the last.
fn faulty_gates() -> Vec<Fault> {
    let mut faults = Vec::new();
    for (k, at, due) in [(0, 1, 5), (5, 1, 5), (5, 5, 6), (0, 6, 7), (5, 6, 7)] {
        for record in [(0, WRONG[0], 9), (0, OUTPUT, 0)] {
            let mut bytes = with_records(&[record]);
            bytes[8 + 7 * k + at] = 0x4F;
            faults.push((bytes, due));
        }
    }
    faults
}

/// All calls made here of an operation that takes a circuit's bytes, but for garble's.
pub fn calls(operation: Operation) -> Vec<Call> {
    let mut random = Random::new(8_001);
    let random = &mut random;
    let mut calls = match operation {
        Operation::Check => LISTS.map(|list| on(random, operation, &mixed(list))).into(),
        Operation::Plain => plain(random),
        Operation::Encode => LISTS.map(|list| on(random, operation, &mixed(list))).into(),
        Operation::OutputTokens => gathered(random),
        _ => garbled(random, operation),
    };
    let bytes = past_255(random);
    calls.push(on(random, operation, &bytes));
    for bytes in stands_for(random) {
        calls.push(on(&mut Random::new(8_888), operation, &bytes));
    }
    calls.extend(faults(random, operation));
    calls.extend(damaged(random, operation));
    calls
}

/// A call that is not refused, in buffers with no byte to spare.
fn on(random: &mut Random, operation: Operation, bytes: &[u8]) -> Call {
    let mut call = generate::call_on(random, operation, bytes);
    call.lens = generate::room(&call).expect("an accepted circuit");
    call
}

/// Plain on each list of outputs, and on each list of values: the outputs change nothing.
fn plain(random: &mut Random) -> Vec<Call> {
    let values: Vec<Vec<u8>> = value_lists(3).collect();
    let lists = LISTS.into_iter().zip(values.iter().cycle());
    let call = |(list, values): (&[u16], &Vec<u8>)| {
        let mut call = on(random, Operation::Plain, &mixed(list));
        call.values = values.clone();
        call.lens[0] += random.below(3);
        call
    };
    lists.map(call).collect()
}

/// Evaluate on each list of outputs by one scheme, and decode on each by every scheme; both on a garbling
/// made here, on one list of values after the other, and on a stranger's material.
fn garbled(random: &mut Random, operation: Operation) -> Vec<Call> {
    let mut calls = Vec::new();
    for (index, list, scheme) in lists_and_schemes() {
        let round = index / 4;
        if operation == Operation::Evaluate && round % 4 != index % 4 {
            continue;
        }
        let (bytes, seed) = (mixed(list), generate::seed(random));
        let mut own = own_from(random, operation, &bytes, scheme, &seed);
        calls.push(own.swap_remove((index + round) % 8));
        if round % 4 == index % 4 {
            calls.push(strange(random, operation, &bytes, scheme));
        }
    }
    calls
}

/// The outputs' tokens, of each list and of circuits of mark 43 48; in buffers of any length, and from lists
/// of wires of any length.
fn gathered(random: &mut Random) -> Vec<Call> {
    let operation = Operation::OutputTokens;
    let mut calls: Vec<Call> = LISTS.map(|list| on(random, operation, &mixed(list))).into();
    calls.extend([1, 3, 6].map(|m| on(random, operation, &to_bytes(3, m, &gates()))));
    for bytes in [mixed(&[9, 1, 9, 4]), to_bytes(3, 4, &gates())] {
        let call = on(random, operation, &bytes);
        let (wires, room) = (call.tokens.len(), call.lens[0]);
        for length in [room + 1, room + 100, 16 * 9] {
            calls.push(with_room(&call, length));
        }
        for length in [0, 1, room - BLOCK, room - 1] {
            calls.push(refused(with_room(&call, length), 19));
        }
        for length in [0, room, wires - BLOCK, wires - 1, wires + 1, wires + BLOCK] {
            let mut call = call.clone();
            call.tokens.resize(length, 1);
            calls.push(refused(call.clone(), 11));
            calls.push(refused(with_room(&call, room - 1), 11));
        }
    }
    calls
}

/// The call with a buffer of another length.
fn with_room(call: &Call, length: usize) -> Call {
    Call {
        lens: vec![length],
        ..call.clone()
    }
}

/// Calls with a faulty circuit: check has each fault, the others one in seven.
fn faults(random: &mut Random, operation: Operation) -> Vec<Call> {
    let mut faults = faulty_records();
    faults.extend(faulty_lengths());
    faults.extend(faulty_sizes());
    faults.extend(faulty_gates());
    let step = if operation == Operation::Check { 1 } else { 7 };
    let call = |(circuit, due): Fault| {
        let mut call = on(random, operation, &mixed(&[9, 1, 9]));
        call.circuit = circuit;
        refused(call, due)
    };
    faults.into_iter().step_by(step).map(call).collect()
}

/// Every condition of the operation alone, and 25 and 26 each with every other; of the outputs' tokens, which
/// no other file has, every two.
fn damaged(random: &mut Random, operation: Operation) -> Vec<Call> {
    let numbers = operation.refusals_of_job_8();
    let mut calls = Vec::new();
    for (index, &first) in numbers.iter().enumerate() {
        for &second in &numbers[index..] {
            let mut due = vec![first, second];
            due.dedup();
            let is_new = due.iter().any(|number| [25, 26].contains(number));
            if is_new || due.len() == 1 {
                calls.push(damaged_call_on(random, operation, &due, little_by_name));
            } else if operation == Operation::OutputTokens {
                calls.push(any_damaged_call(random, operation, &due));
            }
        }
    }
    calls
}

/// The lines of garblings: each list of outputs by each scheme, in one run after the other, and on one seed;
/// circuits of any kind; a circuit and the same with its outputs named; wire numbers of two bytes; and
/// faults.
pub fn garblings() -> String {
    let mut random = Random::new(8_004);
    let random = &mut random;
    let mut calls = Vec::new();
    let seed = generate::seed(random);
    for (index, list, scheme) in lists_and_schemes() {
        let mut call = runs::garbling(random, &mixed(list), RUNS[index % 8], scheme);
        call.seed = seed.clone();
        calls.push(call);
    }
    for (run, scheme) in RUNS.into_iter().zip(Scheme::ALL.into_iter().cycle()) {
        let bytes = little(random);
        let bytes = generate::with_one_operand(random, bytes);
        let bytes = outputs::named(random, &bytes);
        calls.push(runs::garbling(random, &bytes, run, scheme));
    }
    let both = stands_for(random);
    for (scheme, bytes) in Scheme::ALL
        .into_iter()
        .flat_map(|scheme| both.each_ref().map(|bytes| (scheme, bytes)))
    {
        let mut call = runs::garbling(random, bytes, 0, scheme);
        call.seed = seed.clone();
        calls.push(call);
    }
    let bytes = past_255(random);
    calls.push(runs::garbling(random, &bytes, 1, Scheme::GaXR));
    calls.extend(faults(random, Operation::Garble));
    calls.extend(damaged(random, Operation::Garble));
    let line = |call: &Call| lines::case_with_run(call, &call.run());
    calls.iter().map(line).collect()
}

/// The lines of chains: each list of outputs by each scheme, in one run after the other, on one list of
/// values after the other; circuits of any kind; wire numbers of two bytes; room for the outputs' tokens
/// of any length; and faults.
pub fn chains() -> String {
    let mut random = Random::new(8_005);
    let random = &mut random;
    let mut text = String::new();
    for (index, list, scheme) in lists_and_schemes() {
        let mut chain = exact(random, scheme, mixed(list));
        chain.run = RUNS[index % 8];
        chain.values = value_lists(3).nth((index + index / 8) % 8).expect("a list");
        text += &chain.case_with_room(None);
    }
    for (run, scheme) in RUNS.into_iter().zip(Scheme::ALL.into_iter().cycle()) {
        let bytes = generate::any_small_circuit(random);
        let bytes = outputs::named(random, &bytes);
        let mut chain = exact(random, scheme, bytes);
        chain.run = run;
        text += &chain.case_with_room(None);
    }
    let bytes = past_255(random);
    text += &exact(random, Scheme::HalfGates, bytes).case_with_room(None);
    text + &rooms(random) + &refused_chains(random)
}

/// A chain of run 0 that runs, with just the room that the outputs' tokens need.
fn exact(random: &mut Random, scheme: Scheme, circuit: Vec<u8>) -> Chain {
    let circuit_read = Circuit::read(&circuit).expect("an accepted circuit");
    let mut chain = chain_on(random, scheme, circuit);
    chain.output_room = BLOCK * circuit_read.sizes().m;
    chain
}

/// Chains with other room for the outputs' tokens, on either mark: longer, and shorter, which refuses; with
/// the bits' room short too, which comes after it; and with the wires' room short, which comes before.
fn rooms(random: &mut Random) -> String {
    let mut text = String::new();
    for circuit in [mixed(&[9, 1, 9, 4]), to_bytes(3, 4, &gates())] {
        for (room, due) in [
            (65, None),
            (300, None),
            (65_536, None),
            (0, Some((5, 19))),
            (1, Some((5, 19))),
            (48, Some((5, 19))),
            (63, Some((5, 19))),
        ] {
            let mut chain = exact(random, Scheme::GaX, circuit.clone());
            chain.output_room = room;
            text += &chain.case_with_room(due);
            chain.lens[5] = 3;
            text += &chain.case_with_room(due.or(Some((4, 19))));
        }
        let mut chain = exact(random, Scheme::HalfGates, circuit);
        (chain.lens[4], chain.output_room) = (16 * 9 - 1, 63);
        text += &chain.case_with_room(Some((3, 19)));
    }
    text
}

/// Chains ended by each refusal that a call can give, on a named circuit.
fn refused_chains(random: &mut Random) -> String {
    let mut text = String::new();
    let ends = ENDS.into_iter().chain([(5, 19), (1, 25), (1, 26)]);
    for (index, (call, number)) in ends.enumerate() {
        let mut chain = exact(random, Scheme::ALL[index % 4], mixed(&[9, 1, 9, 4]));
        chain.run = RUNS[index % 8];
        match (call, number) {
            (5, 19) => chain.output_room = 63,
            (1, 25) => chain.circuit = with_records(&[(2, WRONG[1], 0)]),
            (1, 26) => chain.circuit = with_records(&[(1, OUTPUT, 10), (2, WRONG[0], 9)]),
            _ => spoil(&mut chain, call, number),
        }
        text += &chain.case_with_room(Some((call, number)));
    }
    text
}
