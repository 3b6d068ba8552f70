//! Gates that use one operand: NOTs and copies, from garble to the decoded bits.

use weighhare::{Gate, Sizes};

/// 2 inputs, 5 outputs, 5 gates: NOT wire 1, NOT wire 2, wire 2, wire 1, and NOT of the first gate's wire, which is wire 3.
#[rustfmt::skip]
const CIRCUIT: [u8; 43] = [
    0x43, 0x48, 0, 2, 0, 5, 0, 5,
    0x43, 0x47, 0, 1, 0, 2, 3,
    0x43, 0x47, 0, 1, 0, 2, 5,
    0x43, 0x47, 0, 1, 0, 2, 10,
    0x43, 0x47, 0, 1, 0, 2, 12,
    0x43, 0x47, 0, 1, 0, 3, 5,
];

/// The same gates, already read.
const GATES: [Gate; 5] = [
    Gate { a: 1, b: 2, code: 3 },
    Gate { a: 1, b: 2, code: 5 },
    Gate { a: 1, b: 2, code: 10 },
    Gate { a: 1, b: 2, code: 12 },
    Gate { a: 1, b: 3, code: 5 },
];

/// The values of the outputs.
fn outputs(u: u8, v: u8) -> [u8; 5] {
    [1 - u, 1 - v, v, u, u]
}

#[test]
fn no_gate_is_charged() {
    let sizes = weighhare::check(&CIRCUIT).expect("accepted");
    assert_eq!(sizes, Sizes { n: 2, m: 5, q: 5, p: 0 });
}

#[test]
fn plain_negates_and_copies() {
    for (u, v) in [(0, 0), (0, 1), (1, 0), (1, 1)] {
        let mut wires = [9; 7];
        weighhare::plain(&CIRCUIT, &[u, v], &mut wires).expect("evaluated");
        assert_eq!(wires[..2], [u, v]);
        assert_eq!(wires[2..], outputs(u, v));
    }
}

#[test]
fn a_garbling_negates_and_copies() {
    for scheme in 1..=4 {
        let (mut material, mut zeros, mut ones) = ([0; 16], [0; 7 * 16], [0; 2 * 16]);
        let garbled = weighhare::garble(
            &CIRCUIT,
            &[7; 16],
            0,
            scheme,
            0x4748,
            &mut material,
            &mut zeros,
            &mut ones,
        );
        let garbled = garbled.expect("garbled");
        assert_eq!((garbled.length, garbled.calls), (16, 0), "no rows, and no calls");
        for (u, v) in [(0, 0), (0, 1), (1, 0), (1, 1)] {
            let (mut inputs, mut tokens, mut by_list, mut bits) = ([0; 32], [0; 7 * 16], [1; 7 * 16], [9; 5]);
            weighhare::encode(&CIRCUIT, &[u, v], &zeros[..32], &ones, &mut inputs).expect("encoded");
            assert_eq!(weighhare::evaluate(&CIRCUIT, &inputs, &material, &mut tokens), Ok(0));
            let answer = weighhare::evaluate_gates(2, 5, &GATES, &inputs, &material, &mut by_list);
            assert_eq!((answer, by_list), (Ok(0), tokens));
            weighhare::decode(&CIRCUIT, &tokens[32..], &material, &mut bits).expect("decoded");
            assert_eq!(bits, outputs(u, v), "scheme {scheme}");
        }
    }
}
