//! Calls of evaluate and decode: on this implementation's own garblings, on a stranger's material,
//! and on material tampered with byte by byte.

use crate::block::BLOCK;
use crate::call::{Call, Operation};
use crate::circuit::{to_bytes, Circuit, Gate, Sizes};
use crate::generate;
use crate::material::{self, Mark};
use crate::operations::{self as op, Wanted};
use crate::random::Random;
use crate::scheme::Scheme;

/// The schemes of 01: the stored files without `-rekeyed` in their name are made from this list.
pub const SCHEMES: [Scheme; 3] = [Scheme::GaX, Scheme::GaXR, Scheme::HalfGates];

/// All calls made here, of evaluate or of decode.
pub fn calls(random: &mut Random, operation: Operation) -> Vec<Call> {
    let mut calls = Vec::new();
    for scheme in SCHEMES {
        for bytes in small_circuits(random) {
            calls.extend(own(random, operation, &bytes, scheme));
        }
        for _ in 0..4 {
            let bytes = generate::small_circuit(random);
            calls.push(strange(random, operation, &bytes, scheme));
        }
        let bytes = mixed_circuit();
        let call = strange(random, operation, &bytes, scheme);
        calls.extend(tampered(&call));
        calls.extend(around(&call));
    }
    calls
}

/// Every code of 01 on the two inputs of a circuit; a circuit without charged gates; chains of gates.
fn small_circuits(random: &mut Random) -> Vec<Vec<u8>> {
    let codes = [1, 2, 4, 6, 7, 8, 9, 11, 13, 14];
    let gates = codes.map(|code| Gate { a: 1, b: 2, code });
    vec![
        to_bytes(2, 10, &gates),
        generate::circuit(random, 3, 4, 0),
        generate::circuit(random, 3, 6, 100),
        generate::circuit(random, 4, 9, 60),
        mixed_circuit(),
    ]
}

/// Three inputs, and free and charged gates in turn; three outputs.
fn mixed_circuit() -> Vec<u8> {
    let gates = [
        (1, 2, 6),
        (3, 4, 8),
        (1, 5, 14),
        (2, 6, 9),
        (4, 7, 11),
        (6, 8, 9),
    ];
    let gates = gates.map(|(a, b, code)| Gate { a, b, code });
    to_bytes(3, 3, &gates)
}

/// A call with exactly the room needed.
fn exact(
    random: &mut Random,
    operation: Operation,
    circuit: &[u8],
    tokens: Vec<u8>,
    material: Vec<u8>,
) -> Call {
    let mut call = Call {
        operation,
        circuit: circuit.to_vec(),
        tokens,
        material,
        fill: random.byte(),
        ..Call::default()
    };
    call.lens = generate::room(&call).expect("an accepted circuit");
    call
}

/// The lists of n values.
pub fn value_lists(n: usize) -> impl Iterator<Item = Vec<u8>> {
    (0..1 << n).map(move |list: u32| (0..n).map(|i| (list >> i & 1) as u8).collect())
}

/// Calls on a garbling made here from any seed.
pub fn own(random: &mut Random, operation: Operation, bytes: &[u8], scheme: Scheme) -> Vec<Call> {
    let seed = generate::seed(random);
    own_from(random, operation, bytes, scheme, &seed)
}

/// Calls on a garbling of run 0 made here, with colours.
pub fn own_from(
    random: &mut Random,
    operation: Operation,
    bytes: &[u8],
    scheme: Scheme,
    seed: &[u8],
) -> Vec<Call> {
    own_by(random, operation, bytes, (scheme, Mark::Colours), seed)
}

/// Calls on a garbling of run 0 made here by a scheme and with a mark, one for each list of input values:
/// evaluate on the tokens of the inputs, decode on those of the outputs that come of it.
pub fn own_by(
    random: &mut Random,
    operation: Operation,
    bytes: &[u8],
    (scheme, mark): (Scheme, Mark),
    seed: &[u8],
) -> Vec<Call> {
    let sizes = op::check(bytes).expect("an accepted circuit");
    let Sizes { n, m, .. } = sizes;
    let wires = BLOCK * sizes.wires();
    let mut material = vec![0; material::length(sizes, scheme, mark)];
    let (mut zeros, mut ones) = (vec![0; wires], vec![0; BLOCK * n]);
    let wanted = Wanted {
        run: 0,
        scheme: scheme.byte(),
        mark: mark.number(),
    };
    op::garble(bytes, seed, wanted, &mut material, &mut zeros, &mut ones).expect("room");
    let call = |values: Vec<u8>| {
        let (mut tokens, mut held) = (vec![0; BLOCK * n], vec![0; wires]);
        op::encode(bytes, &values, &zeros[..BLOCK * n], &ones, &mut tokens).expect("room");
        if operation == Operation::Decode {
            op::evaluate(bytes, &tokens, &material, &mut held).expect("room");
            tokens = vec![0; BLOCK * m];
            op::output_tokens(bytes, &held, &mut tokens).expect("room");
        }
        let mut call = exact(random, operation, bytes, tokens, material.clone());
        call.lens[0] += random.below(3);
        call
    };
    value_lists(n).map(call).collect()
}

/// A call on a stranger's material and any tokens.
pub fn strange(random: &mut Random, operation: Operation, bytes: &[u8], scheme: Scheme) -> Call {
    let circuit = Circuit::read(bytes).expect("an accepted circuit");
    let Sizes { n, m, .. } = circuit.sizes();
    let count = if operation == Operation::Decode { m } else { n };
    let tokens = generate::tokens(random, count);
    let material = generate::stranger(random, &circuit, scheme);
    exact(random, operation, bytes, tokens, material)
}

/// The call with one byte of its material changed, which must be refused with a number.
fn changed(call: &Call, at: usize, byte: u8, number: u8) -> Call {
    let mut changed = call.clone();
    assert!(changed.material[at] != byte, "no change");
    changed.material[at] = byte;
    refused(changed, number)
}

/// The call, which must be refused with a number.
pub fn refused(call: Call, number: u8) -> Call {
    let given = call.run().answer.map_err(|refused| refused.number);
    assert_eq!(given, Err(number), "{call:?}");
    call
}

/// The call with its material's length changed, by a cut or by zeros after it.
fn with_length(call: &Call, length: usize, number: u8) -> Call {
    let mut changed = call.clone();
    changed.material.resize(length, 0);
    refused(changed, number)
}

/// Calls on the material tampered with: every length and every byte that a refusal looks at.
pub fn tampered(call: &Call) -> Vec<Call> {
    let material = &call.material;
    let sizes = op::check(&call.circuit).expect("an accepted circuit");
    let length = material.len();
    let mark = Mark::of(material).expect("a mark");
    let last = length - mark.last_length(sizes.m);
    let record = (last - 9) / sizes.p;
    let mut calls: Vec<Call> = (0..9).map(|length| with_length(call, length, 12)).collect();
    calls.extend((0..2).map(|at| changed(call, at, material[at] ^ 1, 13)));
    calls.extend([0, 5, 255].map(|byte| changed(call, 2, byte, 14)));
    calls.extend((3..9).map(|at| changed(call, at, material[at] ^ 1, 15)));
    let lengths = [9, last, length - 1, length + 1, length + record];
    calls.extend(lengths.map(|length| with_length(call, length, 16)));
    for start in (9..last).step_by(record) {
        calls.extend((start..start + 4).map(|at| changed(call, at, material[at] ^ 1, 17)));
    }
    calls.extend((last..last + 2).map(|at| changed(call, at, material[at] ^ 1, 18)));
    // Hashes are of any bytes.
    let colours = match mark {
        Mark::Colours => last + 2..length,
        Mark::Hashes => length..length,
    };
    for at in colours {
        calls.extend([2, 255].map(|byte| changed(call, at, byte, 18)));
    }
    calls
}

/// The call itself; its tokens and its buffer a byte shorter, a byte longer and empty; and each of
/// these tokens and buffers with material of an unknown scheme, which comes after 11 and before 19.
pub fn around(call: &Call) -> Vec<Call> {
    let tokens = call.tokens.len();
    let room = call.lens[0];
    // 01 refused 4. Beside tokens of a wrong length, which come first, stored cases have it still.
    let unknown = if call.material[2] == 4 { 5 } else { 4 };
    let mut calls = vec![call.clone()];
    for length in [0, tokens - 1, tokens + 1] {
        let mut changed = call.clone();
        changed.tokens.resize(length, 0);
        calls.push(refused(changed.clone(), 11));
        changed.material[2] = unknown;
        calls.push(refused(changed.clone(), 11));
        changed.lens[0] = room - 1;
        calls.push(refused(changed, 11));
    }
    for length in [0, room - 1] {
        let mut changed = call.clone();
        changed.lens[0] = length;
        calls.push(refused(changed.clone(), 19));
        changed.material[2] = 5;
        calls.push(refused(changed, 14));
    }
    let mut longer = call.clone();
    longer.lens[0] = room + 1;
    calls.push(longer);
    calls
}
