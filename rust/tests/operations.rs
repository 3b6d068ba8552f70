//! Each operation on the AND gate of document 01's examples.

mod common;

use common::{garbling, Garbling, AND, COLOURS, FILL, GATES, SEED};
use weighhare::Sizes;

/// The bytes of the circuit that has the gates `GATES`: 3 inputs, 2 outputs, 3 gates.
#[rustfmt::skip]
const THREE: [u8; 29] = [
    0x43, 0x48, 0, 3, 0, 2, 0, 3,
    0x43, 0x47, 0, 1, 0, 2, 8,
    0x43, 0x47, 0, 3, 0, 4, 6,
    0x43, 0x47, 0, 4, 0, 5, 1,
];

#[test]
fn check_gives_the_sizes() {
    let sizes = weighhare::check(&AND).expect("accepted");
    assert_eq!(sizes, Sizes { n: 2, m: 1, q: 1, p: 1 });
}

#[test]
fn plain_gives_every_wire_and_leaves_the_rest() {
    for (u, v) in [(0, 0), (0, 1), (1, 0), (1, 1)] {
        let mut wires = [FILL; 5];
        weighhare::plain(&AND, &[u, v], &mut wires).expect("evaluated");
        assert_eq!(wires, [u, v, u & v, FILL, FILL]);
    }
}

#[test]
fn garble_leaves_what_is_past_its_bytes() {
    for scheme in 1..=4 {
        let exact = garbling(scheme);
        let (mut material, mut zeros, mut ones) = ([FILL; 100], [FILL; 100], [FILL; 100]);
        let garbled =
            weighhare::garble(&AND, &SEED, 0, scheme, COLOURS, &mut material, &mut zeros, &mut ones).expect("garbled");
        assert_eq!(&material[..garbled.length], exact.material);
        assert_eq!(zeros[..48], exact.zeros);
        assert_eq!(ones[..32], exact.ones);
        for rest in [&material[garbled.length..], &zeros[48..], &ones[32..]] {
            assert!(rest.iter().all(|byte| *byte == FILL));
        }
    }
}

#[test]
fn encode_takes_zero_tokens_for_0_and_one_tokens_for_1() {
    let Garbling { zeros, ones, .. } = garbling(1);
    let mut tokens = [FILL; 33];
    weighhare::encode(&AND, &[1, 0], &zeros[..32], &ones, &mut tokens).expect("encoded");
    assert_eq!(tokens[..16], ones[..16]);
    assert_eq!(tokens[16..32], zeros[16..32]);
    assert_eq!(tokens[32], FILL);
}

/// The output's token for a bit: its zero token, and for 1 that ⊕ R. R is what the tokens of wire 1 differ by.
fn output_token(zeros: &[u8; 48], ones: &[u8; 32], bit: u8) -> [u8; 16] {
    std::array::from_fn(|i| zeros[32 + i] ^ bit * (zeros[i] ^ ones[i]))
}

#[test]
fn evaluate_and_decode_give_the_plain_bit() {
    for scheme in 1..=4 {
        let Garbling { material, zeros, ones } = garbling(scheme);
        for (u, v) in [(0, 0), (0, 1), (1, 0), (1, 1)] {
            let (mut inputs, mut tokens, mut bits) = ([0; 32], [FILL; 49], [FILL; 2]);
            weighhare::encode(&AND, &[u, v], &zeros[..32], &ones, &mut inputs).expect("encoded");
            let calls = weighhare::evaluate(&AND, &inputs, &material, &mut tokens).expect("evaluated");
            assert_eq!(calls, [1, 1, 2, 2][usize::from(scheme) - 1]);
            assert_eq!(tokens[..32], inputs);
            assert_eq!(tokens[32..48], output_token(&zeros, &ones, u & v));
            assert_eq!(tokens[48], FILL);
            weighhare::decode(&AND, &tokens[32..48], &material, &mut bits).expect("decoded");
            assert_eq!(bits, [u & v, FILL]);
        }
    }
}

#[test]
fn evaluate_gates_answers_as_evaluate_does_to_the_bytes() {
    for (scheme, rows, calls) in [(1, 4, 2), (2, 3, 2), (3, 2, 4), (4, 2, 4)] {
        let (mut material, mut zeros, mut ones) = (vec![0; 13 + 2 * (4 + 16 * rows)], [0; 96], [0; 48]);
        let garbled = weighhare::garble(&THREE, &SEED, 0, scheme, COLOURS, &mut material, &mut zeros, &mut ones)
            .expect("garbled");
        assert_eq!(garbled.length, material.len());
        for values in 0..8 {
            let values = [values >> 2, values >> 1 & 1, values & 1];
            let (mut inputs, mut by_bytes, mut by_list) = ([0; 48], [FILL; 97], [FILL; 97]);
            weighhare::encode(&THREE, &values, &zeros[..48], &ones, &mut inputs).expect("encoded");
            let answer = weighhare::evaluate(&THREE, &inputs, &material, &mut by_bytes);
            assert_eq!(answer, Ok(calls));
            assert_eq!(
                weighhare::evaluate_gates(3, 2, &GATES, &inputs, &material, &mut by_list),
                answer
            );
            assert_eq!(by_list, by_bytes, "every token, and the byte past them");

            let (mut bits, mut wires) = ([FILL; 2], [FILL; 6]);
            weighhare::decode(&THREE, &by_list[64..96], &material, &mut bits).expect("decoded");
            weighhare::plain(&THREE, &values, &mut wires).expect("evaluated");
            assert_eq!(bits, wires[4..]);
        }
    }
}

#[test]
fn pick_hands_back_a_part_of_the_list() {
    let Garbling { zeros, ones, .. } = garbling(2);
    let zeros = &zeros[..32];
    for wire in 1..=2 {
        let part = 16 * (usize::from(wire) - 1)..16 * usize::from(wire);
        for (bit, list) in [(0, zeros), (1, &ones[..])] {
            let picked = weighhare::pick(zeros, &ones, wire, bit).expect("picked");
            assert!(
                std::ptr::eq(picked, &list[part.clone()]),
                "the list's own bytes, not a copy"
            );
        }
    }
}
