//! The lengths that the crate and the C header say are those that the library asks for.

use weighhare::{Circuit, Mark, Refusal, Scheme, Seed, Sizes};

/// The length that the crate says of material with a mark.
fn material_length(sizes: Sizes, scheme: Scheme, mark: Mark) -> usize {
    match mark {
        Mark::Hashes => sizes.hashed_material_length(scheme),
        _ => sizes.material_length(scheme),
    }
}

/// A buffer that is a byte short is refusal 19, with the bytes needed.
#[test]
fn a_byte_less_is_too_short() {
    let circuit = Circuit::comparator(9).expect("a width");
    let (sizes, bytes, seed) = (circuit.sizes(), circuit.bytes(), [7; 16]);
    for (scheme, mark) in Scheme::ALL
        .into_iter()
        .flat_map(|scheme| Mark::ALL.map(|mark| (scheme, mark)))
    {
        let lengths = [
            material_length(sizes, scheme, mark),
            sizes.wire_tokens_length(),
            sizes.input_tokens_length(),
        ];
        for short in 0..3 {
            let mut buffers = lengths.map(|length| vec![0; length]);
            buffers[short].pop();
            let [material, zeros, ones] = &mut buffers;
            let refused = weighhare::garble(bytes, &seed, 0, scheme.number(), mark.number(), material, zeros, ones);
            assert_eq!(refused, Err(Refusal::Room { needed: lengths[short] }));
        }
    }
    let wires = vec![0; sizes.wire_tokens_length()];
    let mut short = vec![0; sizes.output_tokens_length() - 1];
    let needed = sizes.output_tokens_length();
    assert_eq!(
        weighhare::output_tokens(bytes, &wires, &mut short),
        Err(Refusal::Room { needed })
    );
    let mut short = vec![0; sizes.wires() - 1];
    let needed = sizes.wires();
    assert_eq!(
        weighhare::plain(bytes, &vec![0; sizes.n], &mut short),
        Err(Refusal::Room { needed })
    );
}

/// With buffers of just these lengths nothing is refused, at every width.
#[test]
fn they_are_enough() {
    let seed = Seed::from_bytes(&[7; 16]).expect("16 bytes");
    for width in 1..=64 {
        let circuit = Circuit::comparator(width).expect("a width");
        assert_eq!(weighhare::comparator_length(width), Some(circuit.bytes().len()));
        for scheme in Scheme::ALL {
            let garbling = circuit.garble(&seed, width as u64, scheme);
            assert_eq!(garbling.material().len(), circuit.sizes().material_length(scheme));
            let hashed = circuit.garble_hashed(&seed, width as u64, scheme).expect("garbled");
            assert_eq!(hashed.material().len(), circuit.sizes().hashed_material_length(scheme));
        }
    }
    for width in [0, 65, usize::MAX] {
        assert_eq!(weighhare::comparator_length(width), None);
    }
}

/// Sizes that no circuit has: a length all the same, and no overflow.
#[test]
fn sizes_that_no_circuit_has() {
    let largest = usize::MAX;
    let sizes = Sizes {
        n: largest,
        m: largest,
        q: largest,
        p: largest,
    };
    assert_eq!(sizes.wires(), largest);
    assert_eq!(sizes.wire_tokens_length(), largest);
    assert_eq!(sizes.input_tokens_length(), largest);
    assert_eq!(sizes.output_tokens_length(), largest);
    assert_eq!(sizes.material_length(Scheme::Gax), largest);
    assert_eq!(sizes.hashed_material_length(Scheme::Gax), largest);
}
