//! Right cases in which the buffers are the same whether a call is refused or not: what is written is the
//! fill, or there is no byte to write to. The answer alone tells. And buffers after calls, for the comparison
//! of a buffer alone.

use crate::call::{Call, Operation};
use crate::circuit::{to_bytes, Circuit, Gate};
use crate::evaluator::refused;
use crate::generate::{self, damage, room};
use crate::lines;
use crate::random::Random;
use crate::scheme::Scheme;

const SCHEMES: [Scheme; 4] = [
    Scheme::GaX,
    Scheme::GaXR,
    Scheme::HalfGates,
    Scheme::RekeyedHalfGates,
];

/// Two inputs, and gates of these codes on them.
fn circuit(codes: &[u8]) -> Circuit {
    let gate = |&code: &u8| Gate { a: 1, b: 2, code };
    let gates: Vec<Gate> = codes.iter().map(gate).collect();
    let bytes = to_bytes(2, gates.len() as u16, &gates);
    Circuit::read(&bytes).expect("an accepted circuit")
}

/// The call, which must leave every byte of its buffers as it was, and not be refused.
fn filled(call: Call) -> Call {
    let outcome = call.run();
    assert!(outcome.answer.is_ok(), "{call:?}");
    assert_eq!(outcome.buffers, call.buffers());
    call
}

/// Calls of encode on lists whose tokens are the fill, in buffers with and without bytes to spare.
pub fn encodings() -> Vec<Call> {
    let call = |(fill, spare): (u8, usize)| {
        let circuit = circuit(&[8, 6]).to_bytes();
        let mut call = Call {
            operation: Operation::Encode,
            circuit,
            values: vec![0, 1],
            zero: vec![fill; 32],
            one: vec![fill; 32],
            fill,
            ..Call::default()
        };
        call.lens = room(&call).expect("an accepted circuit");
        call.lens[0] += spare;
        filled(call)
    };
    [(0x00, 0), (0xA5, 3)].map(call).to_vec()
}

/// Calls of evaluate on free gates, by each scheme. XOR and XNOR of tokens of zeros are zeros, and so the
/// fill; gates that use one operand hand on its token, whatever fill that is.
pub fn evaluations() -> Vec<Call> {
    let mut random = Random::new(9_001);
    let mut calls = Vec::new();
    for scheme in SCHEMES {
        for (codes, fill) in [([6, 9, 6], 0x00), ([12, 5, 3], 0xA5)] {
            let circuit = circuit(&codes);
            let mut call = Call {
                operation: Operation::Evaluate,
                circuit: circuit.to_bytes(),
                tokens: vec![fill; 32],
                material: generate::stranger(&mut random, &circuit, scheme),
                fill,
                ..Call::default()
            };
            call.lens = room(&call).expect("an accepted circuit");
            calls.push(filled(call));
        }
    }
    calls
}

/// Calls of garble in buffers of no byte, by each scheme.
pub fn garblings() -> Vec<Call> {
    let mut random = Random::new(9_002);
    let call = |scheme: Scheme| {
        let call = Call {
            operation: Operation::Garble,
            circuit: circuit(&[8, 6]).to_bytes(),
            seed: generate::seed(&mut random),
            scheme: scheme.byte(),
            lens: vec![0; 3],
            ..Call::default()
        };
        refused(call, 19)
    };
    SCHEMES.map(call).to_vec()
}

/// The lines of buffers after calls of decode: the answer, the fill, what the buffer must hold where nothing is
/// refused, and what it holds.
pub fn buffers() -> String {
    let mut random = Random::new(9_003);
    let random = &mut random;
    let mut calls = Vec::new();
    for _ in 0..12 {
        calls.push(generate::call(random, Operation::Decode));
    }
    for number in [7, 11, 13, 15, 17, 18] {
        calls.push(damage::damaged_call(random, Operation::Decode, &[number]));
    }
    calls.push(damage::damaged_call(random, Operation::Decode, &[19]));
    let line = |call: &Call| {
        let outcome = call.run();
        let held = outcome.buffers.concat();
        let due = match outcome.answer {
            Ok(_) => held.clone(),
            Err(_) => Vec::new(),
        };
        lines::line(&[lines::answer(&outcome.answer), vec![call.fill], due, held])
    };
    calls.iter().map(line).collect()
}
