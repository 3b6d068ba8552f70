//! Calls of evaluate's list form, each on ten gates.

use crate::call::{Call, Operation};
use crate::circuit::{to_bytes, Circuit, Gate, Sizes};
use crate::evaluator::{around, own, refused, strange, tampered, SCHEMES};
use crate::generate::{self, damage};
use crate::random::Random;
use crate::scheme::Scheme;

/// The gates of each call.
pub const GATES: usize = 10;

/// All calls made here.
pub fn calls(random: &mut Random) -> Vec<Call> {
    let mut calls = Vec::new();
    for scheme in SCHEMES {
        for bytes in circuits(random) {
            calls.extend(own(random, Operation::Evaluate, &bytes, scheme));
            calls.push(strange(random, Operation::Evaluate, &bytes, scheme));
        }
        let call = strange(random, Operation::Evaluate, &mixed_circuit(), scheme);
        calls.extend(tampered(&call));
        calls.extend(around(&call));
    }
    // The most inputs that there may be.
    let bytes = generate::circuit(random, 4_096, GATES as u16, 50);
    let call = strange(random, Operation::Evaluate, &bytes, Scheme::HalfGates);
    calls.push(call);
    let mut calls: Vec<Call> = calls.iter().map(listed).collect();
    calls.extend(faults(random));
    calls.extend(limits(random));
    calls.extend(damaged(random));
    calls
}

/// A call of evaluate, in the list form.
pub fn listed(call: &Call) -> Call {
    let circuit = Circuit::read(&call.circuit).expect("an accepted circuit");
    let Sizes { n, m, .. } = circuit.sizes();
    Call {
        operation: Operation::EvaluateGates,
        circuit: Vec::new(),
        n: n as u16,
        m: m as u16,
        gates: circuit.gates().map(|(_, gate)| gate).collect(),
        ..call.clone()
    }
}

/// Every code of 01 on two inputs; and circuits with free gates alone, with charged gates alone, and with
/// both.
fn circuits(random: &mut Random) -> Vec<Vec<u8>> {
    let codes = [1, 2, 4, 6, 7, 8, 9, 11, 13, 14];
    let gates: [Gate; GATES] = codes.map(|code| Gate { a: 1, b: 2, code });
    let q = GATES as u16;
    vec![
        to_bytes(2, 10, &gates),
        generate::circuit(random, 2, q, 0),
        generate::circuit(random, 3, q, 100),
        generate::circuit(random, 3, q, 60),
        mixed_circuit(),
    ]
}

/// Three inputs, and free and charged gates in turn; three outputs.
fn mixed_circuit() -> Vec<u8> {
    let gates: [(u16, u16, u8); GATES] = [
        (1, 2, 6),
        (3, 4, 8),
        (1, 5, 14),
        (2, 6, 9),
        (4, 7, 11),
        (6, 8, 9),
        (8, 9, 6),
        (1, 10, 1),
        (10, 11, 9),
        (11, 12, 7),
    ];
    to_bytes(3, 3, &gates.map(|(a, b, code)| Gate { a, b, code }))
}

/// A sound call on `mixed_circuit`.
fn sound(random: &mut Random) -> Call {
    generate::call_on(random, Operation::EvaluateGates, &mixed_circuit())
}

/// At every gate each fault of its operands, and of its code; with each, the gate after it has a
/// fault of the other kind, which is not the one given.
fn faults(random: &mut Random) -> Vec<Call> {
    let codes = [0, 19, 21, 26, 28, 15, 16, 128, 134, 255];
    let mut calls = Vec::new();
    for (k, code) in codes.into_iter().enumerate() {
        let call = sound(random);
        let (gate, own) = (call.gates[k], call.n + k as u16 + 1);
        let (a, b) = (gate.a, gate.b);
        for (a, b) in [(0, b), (b, b), (b, a), (a, own), (a, 65_535)] {
            calls.push(with_fault(&call, k, Gate { a, b, ..gate }, 6));
        }
        calls.push(with_fault(&call, k, Gate { code, ..gate }, 7));
    }
    calls
}

/// The call with a faulty gate, and another fault at the gate after it.
fn with_fault(call: &Call, k: usize, gate: Gate, number: u8) -> Call {
    let mut call = call.clone();
    call.gates[k] = gate;
    if let Some(next) = call.gates.get_mut(k + 1) {
        match number {
            6 => next.code = 0,
            _ => next.a = 0,
        }
    }
    refused(call, number)
}

/// n and m out of their limits.
fn limits(random: &mut Random) -> Vec<Call> {
    let call = sound(random);
    let (n, m) = (call.n, call.m);
    let sizes = [
        (0, m),
        (1, m),
        (4_097, m),
        (65_535, m),
        (n, 0),
        (n, GATES as u16 + 1),
        (n, 65_535),
        (0, 0),
    ];
    let bad = |(n, m)| {
        let call = Call {
            n,
            m,
            ..call.clone()
        };
        refused(call, 3)
    };
    sizes.map(bad).to_vec()
}

/// A call for each refusal alone and for each two, as far as ten gates allow.
fn damaged(random: &mut Random) -> Vec<Call> {
    let numbers = Operation::EvaluateGates.refusals();
    let mut calls = Vec::new();
    for (index, &first) in numbers.iter().enumerate() {
        for &second in &numbers[index..] {
            let mut due = vec![second, first];
            due.dedup();
            calls.push(damaged_call(random, &due));
        }
    }
    calls
}

/// A call on ten gates with every condition of `falling` met at once.
fn damaged_call(random: &mut Random, falling: &[u8]) -> Call {
    loop {
        let mut call = sound(random);
        let met = |&number: &u8| damage::damage(random, &mut call, number);
        if falling.iter().all(met) && call.gates.len() == GATES {
            return damage::refused_still(call, falling);
        }
    }
}
