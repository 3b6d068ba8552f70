//! Circuits whose outputs are named (02, job 8). The list is drawn apart from the gates: the stored cases that
//! were there before have the mark 43 48.

use crate::call::Operation;
use crate::circuit::{named_bytes, Circuit, Gate, Sizes};
use crate::random::Random;

/// The accepted circuit with outputs of any kind, by name.
pub fn named(random: &mut Random, bytes: &[u8]) -> Vec<u8> {
    let circuit = Circuit::read(bytes).expect("an accepted circuit");
    let outputs = outputs(random, circuit.sizes());
    with_outputs(&circuit, &outputs)
}

/// The circuit with the outputs named.
pub fn with_outputs(circuit: &Circuit, outputs: &[u16]) -> Vec<u8> {
    let gates: Vec<Gate> = circuit.gates().map(|(_, gate)| gate).collect();
    named_bytes(circuit.sizes().n as u16, outputs, &gates)
}

/// The wires of outputs: the last m; all, in rising order and in falling; inputs alone; one wire as often as
/// there may be outputs; and in half of the draws any wires, of which some may come again.
fn outputs(random: &mut Random, sizes: Sizes) -> Vec<u16> {
    let (n, wires) = (sizes.n, sizes.wires());
    let mut any = |count: usize, most: usize| -> Vec<usize> {
        (0..count).map(|_| random.between(1, most)).collect()
    };
    let kind = any(1, 10)[0];
    let count = any(1, wires)[0];
    let list = match kind {
        1 => (wires - sizes.m + 1..=wires).collect(),
        2 => (1..=wires).collect(),
        3 => (1..=wires).rev().collect(),
        4 => any(count.min(n), n),
        5 => vec![any(1, wires)[0]; wires],
        _ => any(count, wires),
    };
    list.into_iter().map(|wire| wire as u16).collect()
}

/// In half of the draws the circuit with named outputs, where the operation takes a circuit's bytes.
pub fn any_outputs(random: &mut Random, operation: Operation, bytes: Vec<u8>) -> Vec<u8> {
    match operation.takes_bytes() && random.chance(50) {
        true => named(random, &bytes),
        false => bytes,
    }
}
