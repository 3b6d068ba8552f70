//! Circuits whose outputs are named: from garble to the decoded bits, and what is refused of their output records.

mod common;

use common::{garbling, Garbling, AND, COLOURS, FILL, GATES, NAMED, SEED};
use weighhare::{Refusal, Sizes};

/// The AND gate with its last wire named.
#[rustfmt::skip]
const LAST: [u8; 19] = [
    0x43, 0x49, 0, 2, 0, 1, 0, 1,
    0x43, 0x47, 0, 1, 0, 2, 8,
    0x43, 0x4F, 0, 3,
];

/// Why check refuses `NAMED` with these bytes changed.
fn refusal_with(changes: &[(usize, u8)]) -> Option<Refusal> {
    let mut circuit = NAMED;
    for (index, byte) in changes {
        circuit[*index] = *byte;
    }
    weighhare::check(&circuit).err()
}

#[test]
fn check_gives_the_sizes() {
    let sizes = weighhare::check(&NAMED).expect("accepted");
    assert_eq!(sizes, Sizes { n: 2, m: 3, q: 1, p: 1 });
}

#[test]
fn of_an_output_record() {
    assert_eq!(refusal_with(&[]), None);
    for (output, start) in [(1, 15), (2, 19), (3, 23)] {
        let mark = Some(Refusal::OutputMark { output });
        assert_eq!(refusal_with(&[(start, 0x42)]), mark);
        assert_eq!(refusal_with(&[(start + 1, 0x47)]), mark);
        assert_eq!(refusal_with(&[(start + 1, 0x47), (start + 3, 0)]), mark, "25 before 26");
        let wire = Some(Refusal::OutputWire { output });
        for byte in [0, 4, 255] {
            assert_eq!(refusal_with(&[(start + 3, byte)]), wire);
        }
        assert_eq!(refusal_with(&[(start + 2, 1)]), wire, "two bytes");
    }
    let first = refusal_with(&[(18, 0), (20, 0x47)]);
    assert_eq!(first, Some(Refusal::OutputWire { output: 1 }), "the first record");
    let gate = refusal_with(&[(14, 0), (16, 0x47)]);
    assert_eq!(gate, Some(Refusal::Code { wire: 3 }), "gates come first");
}

#[test]
fn of_the_sizes() {
    assert_eq!(
        refusal_with(&[(5, 4)]),
        Some(Refusal::Limits),
        "more outputs than wires"
    );
    assert_eq!(refusal_with(&[(5, 0)]), Some(Refusal::Limits), "no outputs");
    assert_eq!(refusal_with(&[(5, 2)]), Some(Refusal::CircuitLength { length: 27 }));
    let short = weighhare::check(&NAMED[..26]).err();
    assert_eq!(short, Some(Refusal::CircuitLength { length: 26 }));
    assert_eq!(
        refusal_with(&[(1, 0x48)]),
        Some(Refusal::Limits),
        "m is at most q there"
    );
    assert_eq!(refusal_with(&[(1, 0x4A)]), Some(Refusal::CircuitMark));
    let by_list = weighhare::evaluate_gates(2, 3, &GATES[..1], &[], &[], &mut []).err();
    assert_eq!(by_list, Some(Refusal::Limits), "a list of gates has no named outputs");
}

#[test]
fn decoded_bits_are_in_the_order_of_the_outputs() {
    for (scheme, length) in [(1, 82), (2, 66), (3, 50), (4, 50)] {
        let (mut material, mut zeros, mut ones) = (vec![FILL; length], [FILL; 48], [FILL; 32]);
        let garbled = weighhare::garble(&NAMED, &SEED, 0, scheme, COLOURS, &mut material, &mut zeros, &mut ones);
        assert_eq!(garbled.expect("garbled").length, length);
        let colours = [zeros[47] & 1, zeros[15] & 1, zeros[47] & 1];
        assert_eq!(material[length - 3..], colours, "of the outputs' zero tokens");
        for (u, v) in [(0, 0), (0, 1), (1, 0), (1, 1)] {
            let (mut inputs, mut wires) = ([0; 32], [0; 48]);
            let (mut tokens, mut bits) = ([FILL; 49], [FILL; 4]);
            weighhare::encode(&NAMED, &[u, v], &zeros[..32], &ones, &mut inputs).expect("encoded");
            weighhare::evaluate(&NAMED, &inputs, &material, &mut wires).expect("evaluated");
            weighhare::output_tokens(&NAMED, &wires, &mut tokens).expect("gathered");
            assert_eq!(tokens[..48], [&wires[32..], &wires[..16], &wires[32..]].concat());
            assert_eq!(tokens[48], FILL, "past them");
            weighhare::decode(&NAMED, &tokens[..48], &material, &mut bits).expect("decoded");
            assert_eq!(bits, [u & v, u, u & v, FILL], "scheme {scheme}");
        }
    }
}

#[test]
fn of_the_outputs_tokens() {
    let gathered = |circuit: &[u8], wires: &[u8], room: usize| {
        let mut tokens = [FILL; 48];
        let refusal = weighhare::output_tokens(circuit, wires, &mut tokens[..room]).err();
        assert!(refusal.is_none() || tokens == [FILL; 48], "untouched");
        refusal
    };
    let wires = [7; 64];
    assert_eq!(gathered(&NAMED, &wires[..48], 48), None);
    for length in [0, 47, 49, 64] {
        let refusal = gathered(&NAMED, &wires[..length], 0);
        assert_eq!(refusal, Some(Refusal::TokensLength { length }));
    }
    for room in [0, 16, 47] {
        let refusal = gathered(&NAMED, &wires[..48], room);
        assert_eq!(refusal, Some(Refusal::Room { needed: 48 }));
    }
    assert_eq!(gathered(&AND, &wires[..48], 15), Some(Refusal::Room { needed: 16 }));
    let mut faulty = NAMED;
    faulty[26] = 4;
    assert_eq!(gathered(&faulty, &[], 0), Some(Refusal::OutputWire { output: 3 }));
}

/// The last wire, named: the same material, tokens and bits as with the mark 43 48.
#[test]
fn the_old_mark_stands_for_the_last_wires() {
    for scheme in 1..=4 {
        let Garbling { material, zeros, ones } = garbling(scheme);
        let (mut named, mut named_zeros, mut named_ones) = (vec![FILL; material.len()], [FILL; 48], [FILL; 32]);
        let garbled = weighhare::garble(
            &LAST,
            &SEED,
            0,
            scheme,
            COLOURS,
            &mut named,
            &mut named_zeros,
            &mut named_ones,
        );
        assert_eq!(garbled.expect("garbled").length, material.len());
        assert_eq!((&named, named_zeros, named_ones), (&material, zeros, ones));
        let mut held = [[FILL; 48]; 2];
        let mut outputs = [[FILL; 16]; 2];
        let mut bits = [[FILL]; 2];
        for (k, circuit) in [&AND[..], &LAST[..]].into_iter().enumerate() {
            weighhare::evaluate(circuit, &ones, &material, &mut held[k]).expect("evaluated");
            weighhare::output_tokens(circuit, &held[k], &mut outputs[k]).expect("gathered");
            assert_eq!(outputs[k], held[k][32..], "the last 16 bytes");
            weighhare::decode(circuit, &outputs[k], &material, &mut bits[k]).expect("decoded");
        }
        assert_eq!((held[0], bits[0]), (held[1], bits[1]), "scheme {scheme}");
        assert_eq!(bits[0], [1]);
    }
}
