//! Cases with gates that use one operand (02, job 2): codes 3, 5, 10 and 12 beside all others.

use crate::block::Colour;
use crate::call::{Call, Operation};
use crate::chained::chain_on;
use crate::circuit::{to_bytes, Gate};
use crate::evaluator::{own_from, refused, strange, value_lists, SCHEMES};
use crate::generate;
use crate::large::coloured_seed;
use crate::listed::listed;
use crate::operations as op;
use crate::random::Random;
use crate::scheme::Scheme;

/// Every code on two inputs, each gate an output.
pub fn every_code() -> Vec<u8> {
    let gates: Vec<Gate> = (1..=14).map(|code| Gate { a: 1, b: 2, code }).collect();
    to_bytes(2, 14, &gates)
}

/// Gates that use one operand and no others, so that p is 0: copies and NOTs of inputs and of each
/// other.
fn alone() -> Vec<u8> {
    let gates = [
        (1, 2, 12),
        (1, 4, 10),
        (2, 3, 3),
        (1, 6, 5),
        (3, 7, 12),
        (3, 8, 5),
        (7, 9, 3),
        (4, 10, 10),
    ];
    to_bytes(3, 8, &gates.map(|(a, b, code)| Gate { a, b, code }))
}

/// A NOT of an input, of a free gate and of a charged gate, each as the first and as the second
/// operand; and gates on these wires, where two operands have the same tokens, or one has the other's
/// exchanged.
pub fn nots() -> Vec<u8> {
    let gates = [
        // Wire 4, and from here one wire a line: NOT of an input.
        (1, 2, 3),
        (1, 3, 5),
        // An XOR, and its NOT.
        (1, 2, 6),
        (3, 6, 5),
        // An AND, wire 8, and its NOT.
        (2, 3, 8),
        (1, 8, 5),
        // The same NOTs as the first operand.
        (6, 9, 3),
        (8, 10, 3),
        // Charged gates: on two NOTs, on a wire and its NOT, on two wires of the same tokens.
        (4, 9, 13),
        (8, 9, 14),
        (7, 10, 2),
        // XOR and XNOR of such wires: the token held is block 0. A charged gate on these two.
        (6, 7, 6),
        (7, 10, 9),
        (15, 16, 7),
        // Copies of charged gates, and a charged gate on a copy.
        (12, 17, 10),
        (13, 18, 12),
        (5, 19, 11),
    ];
    to_bytes(3, 5, &gates.map(|(a, b, code)| Gate { a, b, code }))
}

/// All calls made here of an operation: plain, garble, evaluate in either form, or decode.
pub fn calls(operation: Operation) -> Vec<Call> {
    let mut random = Random::new(2_002);
    let random = &mut random;
    let mut calls = accepted(random, operation);
    for _ in 0..12 {
        let bytes = generate::any_small_circuit(random);
        calls.push(generate::call_on(random, operation, &bytes));
    }
    for fault in faults() {
        let mut call = generate::call_on(random, operation, &nots());
        fault.put_in_list(&mut call.gates);
        fault.put_in_bytes(&mut call.circuit);
        calls.push(refused(call, fault.number));
    }
    calls
}

/// The lines of chains: each list of input values on each circuit above, with each pair of colours
/// for every code; circuits of any kind; and each fault.
pub fn chains() -> String {
    let mut random = Random::new(2_003);
    let random = &mut random;
    let mut text = String::new();
    for scheme in SCHEMES {
        for seed in seeds(random) {
            for values in value_lists(2) {
                let mut chain = chain_on(random, scheme, every_code());
                (chain.seed, chain.values) = (seed.clone(), values);
                text += &chain.case(None);
            }
        }
        for circuit in [alone(), nots()] {
            for values in value_lists(3) {
                let mut chain = chain_on(random, scheme, circuit.clone());
                chain.values = values;
                text += &chain.case(None);
            }
        }
        for _ in 0..6 {
            let circuit = generate::any_small_circuit(random);
            text += &chain_on(random, scheme, circuit).case(None);
        }
    }
    for fault in faults() {
        let mut chain = chain_on(random, Scheme::HalfGates, nots());
        fault.put_in_bytes(&mut chain.circuit);
        text += &chain.case(Some((1, fault.number)));
    }
    text
}

/// Calls on the circuits above that are not refused: each list of input values; by each scheme; and,
/// of every code, each pair of colours of the operands' zero tokens.
fn accepted(random: &mut Random, operation: Operation) -> Vec<Call> {
    let circuits = [every_code(), alone(), nots()];
    if operation == Operation::Plain {
        return circuits.iter().flat_map(|bytes| plain(bytes)).collect();
    }
    let mut calls = Vec::new();
    for scheme in SCHEMES {
        for seed in seeds(random) {
            calls.extend(garblings(random, operation, &circuits[0], scheme, &seed));
        }
        for bytes in &circuits[1..] {
            let seed = generate::seed(random);
            calls.extend(garblings(random, operation, bytes, scheme, &seed));
        }
    }
    calls
}

/// Seeds with each pair of colours of the zero tokens of inputs 1 and 2.
pub fn seeds(random: &mut Random) -> [Vec<u8>; 4] {
    let pairs = [[false, false], [false, true], [true, false], [true, true]];
    pairs.map(|colours| coloured_seed(random, colours.map(Colour)))
}

/// Calls of plain, one for each list of values.
fn plain(bytes: &[u8]) -> Vec<Call> {
    let sizes = op::check(bytes).expect("an accepted circuit");
    let call = |values: Vec<u8>| Call {
        operation: Operation::Plain,
        circuit: bytes.to_vec(),
        lens: vec![sizes.wires() + usize::from(values[0])],
        values,
        fill: 0xA5,
        ..Call::default()
    };
    value_lists(sizes.n).map(call).collect()
}

/// Calls on one garbling: garble makes it, the others take it, one call for each list of values, and
/// evaluate takes a stranger's material as well.
fn garblings(
    random: &mut Random,
    operation: Operation,
    bytes: &[u8],
    scheme: Scheme,
    seed: &[u8],
) -> Vec<Call> {
    match operation {
        Operation::Garble => {
            let mut call = generate::call_on(random, operation, bytes);
            (call.seed, call.scheme) = (seed.to_vec(), scheme.byte());
            call.lens = generate::room(&call).expect("an accepted circuit");
            vec![call]
        }
        Operation::EvaluateGates => {
            let by_bytes = garblings(random, Operation::Evaluate, bytes, scheme, seed);
            by_bytes.iter().map(listed).collect()
        }
        _ => {
            let mut calls = own_from(random, operation, bytes, scheme, seed);
            calls.push(strange(random, operation, bytes, scheme));
            calls
        }
    }
}

/// A faulty gate of `nots`.
struct Fault {
    /// Which gate, counted from 0.
    k: usize,
    /// The gate in its place.
    gate: Gate,
    /// The refusal due.
    number: u8,
}

/// Faults of the first gate and of the last. An operand that breaks its limit is 6 though the code
/// does not use it, and also where the code is refused. Codes are 7: the constant ones, and those
/// above 15, though the low bits of some are a code that uses one operand.
fn faults() -> Vec<Fault> {
    let mut faults = Vec::new();
    for (k, own) in [(0, 4), (16, 20)] {
        let fault = |a, b, code, number| {
            let gate = Gate { a, b, code };
            Fault { k, gate, number }
        };
        for code in [3, 12, 15] {
            faults.extend([0, 1, own, 65_535].map(|b| fault(1, b, code, 6)));
        }
        for code in [5, 10, 15] {
            faults.extend([0, 2, own, 65_535].map(|a| fault(a, 2, code, 6)));
        }
        let codes = [0, 15, 16, 19, 21, 26, 28, 131, 133, 138, 140, 255];
        faults.extend(codes.map(|code| fault(1, 2, code, 7)));
    }
    faults
}

impl Fault {
    /// A fault of the other number, for the gate after it, which is not the one given.
    fn after(&self) -> Gate {
        let (a, code) = if self.number == 6 { (1, 15) } else { (0, 5) };
        Gate { a, b: 2, code }
    }

    /// Puts both gates in a list, as far as it has them.
    fn put_in_list(&self, gates: &mut [Gate]) {
        for (k, gate) in [(self.k, self.gate), (self.k + 1, self.after())] {
            if let Some(place) = gates.get_mut(k) {
                *place = gate;
            }
        }
    }

    /// Puts both gates in circuit bytes, as far as these have them.
    fn put_in_bytes(&self, circuit: &mut [u8]) {
        for (k, gate) in [(self.k, self.gate), (self.k + 1, self.after())] {
            if let Some(record) = circuit.get_mut(8 + 7 * k..15 + 7 * k) {
                record.copy_from_slice(&to_bytes(2, 1, &[gate])[8..]);
            }
        }
    }
}
