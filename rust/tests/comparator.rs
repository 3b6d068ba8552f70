//! The comparator by width, and figures as the values of its inputs.

use weighhare::{figure_values, values_figure, Refusal, Sizes};

/// The seed of every garbling here.
const SEED: [u8; 16] = [7; 16];

/// A byte that buffers are filled with, to see what is written.
const FILL: u8 = 0xA5;

/// The circuit for a width, in a buffer of just its bytes.
fn circuit(width: usize) -> Vec<u8> {
    let mut circuit = vec![FILL; 28 * width - 13];
    assert_eq!(weighhare::comparator(width, &mut circuit), Ok(circuit.len()));
    circuit
}

/// The values of a price and a ceiling.
fn values(width: usize, price: u64, ceiling: u64) -> Vec<u8> {
    let mut values = vec![FILL; 2 * width];
    let (low, high) = values.split_at_mut(width);
    figure_values(price, low).expect("a price that fits");
    figure_values(ceiling, high).expect("a ceiling that fits");
    values
}

/// Pairs of figures at the ends of a width and within it.
fn pairs(width: usize) -> Vec<(u64, u64)> {
    let most = u64::MAX >> (64 - width);
    let figures = [0, 1, most / 3, most / 2, most / 2 + 1, most - 1, most];
    figures
        .iter()
        .flat_map(|&price| figures.map(|ceiling| (price, ceiling)))
        .collect()
}

#[test]
fn every_width_has_its_sizes() {
    for width in 1..=64 {
        let sizes = weighhare::check(&circuit(width)).expect("accepted");
        let (n, q) = (2 * width, 4 * width - 3);
        assert_eq!(sizes, Sizes { n, m: 1, q, p: width });
    }
}

/// 2 inputs, 1 output, 1 gate: wire 3 is wire 1 <= wire 2.
#[test]
fn one_bit_is_one_gate() {
    let due = [0x43, 0x48, 0, 2, 0, 1, 0, 1, 0x43, 0x47, 0, 1, 0, 2, 11];
    assert_eq!(circuit(1), due);
}

#[test]
fn the_plain_output_says_whether_the_price_is_at_most_the_ceiling() {
    for width in 1..=64 {
        let circuit = circuit(width);
        for (price, ceiling) in pairs(width) {
            let mut wires = vec![FILL; 6 * width - 3];
            weighhare::plain(&circuit, &values(width, price, ceiling), &mut wires).expect("evaluated");
            let due = u8::from(price <= ceiling);
            assert_eq!(wires.last(), Some(&due), "{width} bits: {price}, {ceiling}");
        }
    }
}

/// The decoded bit of a garbling from one seed.
fn garbled_bit(circuit: &[u8], values: &[u8], run: u64, scheme: u8) -> u8 {
    let Sizes { n, q, p, .. } = weighhare::check(circuit).expect("accepted");
    let rows = [4, 3, 2, 2][usize::from(scheme) - 1];
    let (mut material, mut zeros, mut ones) = (
        vec![0; 12 + p * (4 + 16 * rows)],
        vec![0; 16 * (n + q)],
        vec![0; 16 * n],
    );
    let garbled = weighhare::garble(
        circuit,
        &SEED,
        run,
        scheme,
        0x4748,
        &mut material,
        &mut zeros,
        &mut ones,
    );
    assert_eq!(garbled.expect("garbled").length, material.len());
    let (mut inputs, mut wires, mut output, mut bits) = (vec![0; 16 * n], vec![0; 16 * (n + q)], [0; 16], [FILL]);
    weighhare::encode(circuit, values, &zeros[..16 * n], &ones, &mut inputs).expect("encoded");
    weighhare::evaluate(circuit, &inputs, &material, &mut wires).expect("evaluated");
    weighhare::output_tokens(circuit, &wires, &mut output).expect("gathered");
    weighhare::decode(circuit, &output, &material, &mut bits).expect("decoded");
    bits[0]
}

#[test]
fn a_garbled_comparison_decodes_to_the_answer() {
    for width in [1, 2, 8, 32, 63, 64] {
        let circuit = circuit(width);
        for (run, (price, ceiling)) in (0..).zip(pairs(width)) {
            for scheme in 1..=4 {
                let bit = garbled_bit(&circuit, &values(width, price, ceiling), run, scheme);
                let due = u8::from(price <= ceiling);
                assert_eq!(bit, due, "scheme {scheme}, {width} bits: {price}, {ceiling}");
            }
        }
    }
}

/// The refusal of a width and a buffer of that length, which is seen to be as it was.
fn refusal(width: usize, length: usize) -> Option<Refusal> {
    let mut circuit = vec![FILL; length];
    let refusal = weighhare::comparator(width, &mut circuit).err();
    let untouched = circuit.iter().all(|byte| *byte == FILL);
    assert!(refusal.is_none() || untouched, "{width} bits: written");
    refusal
}

#[test]
fn of_a_width_and_then_of_room() {
    for width in [0, 65, 66, 255, 256, 257, (1 << 32) + 8, usize::MAX] {
        for length in [0, 15, 1779, 1807, 5000] {
            assert_eq!(refusal(width, length), Some(Refusal::Width { width }));
        }
    }
    for width in 1..=64 {
        let needed = 28 * width - 13;
        for length in [0, needed / 2, needed - 1] {
            assert_eq!(refusal(width, length), Some(Refusal::Room { needed }));
        }
        assert_eq!(refusal(width, needed), None);
    }
}

#[test]
fn what_is_past_the_circuit_is_untouched() {
    for width in 1..=64 {
        let due = circuit(width);
        let mut longer = vec![FILL; due.len() + 50];
        assert_eq!(weighhare::comparator(width, &mut longer), Ok(due.len()));
        assert_eq!(longer[..due.len()], due);
        assert_eq!(longer[due.len()..], [FILL; 50]);
    }
}

#[test]
fn a_figure_has_its_lowest_bit_first() {
    let mut values = [FILL; 8];
    assert_eq!(figure_values(0b1101, &mut values), Ok(()));
    assert_eq!(values, [1, 0, 1, 1, 0, 0, 0, 0]);
    assert_eq!(values_figure(&values), Some(0b1101));
    assert_eq!(values_figure(&[]), Some(0));
    assert_eq!(figure_values(0, &mut []), Ok(()));
}

#[test]
fn a_figure_goes_to_values_and_back() {
    for bits in 1..=64 {
        for (figure, _) in pairs(bits) {
            for more in [0, 1, 64] {
                let mut values = vec![FILL; bits + more];
                assert_eq!(figure_values(figure, &mut values), Ok(()));
                assert!(values.iter().all(|value| *value <= 1));
                assert!(values[bits..].iter().all(|value| *value == 0), "{bits} bits");
                assert_eq!(values_figure(&values), Some(figure));
            }
        }
    }
}

#[test]
fn a_figure_that_does_not_fit_writes_nothing() {
    for bits in 0..64 {
        for figure in [1 << bits, u64::MAX] {
            let mut values = vec![FILL; bits];
            let refused = figure_values(figure, &mut values).unwrap_err();
            assert_eq!(refused.bits, bits);
            assert_eq!(values, vec![FILL; bits], "untouched");
        }
    }
    let said = |figure, bits| figure_values(figure, &mut vec![FILL; bits]).unwrap_err().to_string();
    assert_eq!(said(256, 8), "the figure does not fit in 8 bits");
    assert_eq!(said(2, 1), "the figure does not fit in 1 bit");
}

#[test]
fn values_that_are_no_figure() {
    for value in [2, FILL, 255] {
        assert_eq!(values_figure(&[0, value, 0]), None);
    }
    let mut long = [0; 66];
    long[63] = 1;
    assert_eq!(values_figure(&long), Some(1 << 63));
    for index in [64, 65] {
        let mut past = long;
        past[index] = 1;
        assert_eq!(values_figure(&past), None, "bit {index}");
        past[index] = 2;
        assert_eq!(values_figure(&past), None, "byte {index} is no bit");
    }
}
