//! The layer that allocates gives what the functions on slices give, and what is secret does not show.

use weighhare::{figures_to_values, Circuit, Garbling, Mark, Refusal, Scheme, Secret, Seed, Sizes};

/// Wire 3 is wire 1 AND wire 2.
const AND: [u8; 15] = [0x43, 0x48, 0, 2, 0, 1, 0, 1, 0x43, 0x47, 0, 1, 0, 2, 8];

const SEED: [u8; 16] = [7; 16];

/// The same gate. The outputs, by name: wire 3, wire 1, and wire 3 again.
#[rustfmt::skip]
const NAMED: [u8; 27] = [
    0x43, 0x49, 0, 2, 0, 3, 0, 1,
    0x43, 0x47, 0, 1, 0, 2, 8,
    0x43, 0x4F, 0, 3, 0x43, 0x4F, 0, 1, 0x43, 0x4F, 0, 3,
];

fn seed() -> Seed {
    Seed::from_bytes(&SEED).expect("16 bytes")
}

/// Circuits of both marks, and comparators of several widths.
fn circuits() -> Vec<Circuit> {
    let mut circuits = vec![
        Circuit::new(AND).expect("accepted"),
        Circuit::new(NAMED).expect("accepted"),
    ];
    circuits.extend([1, 2, 7, 32, 64].map(|width| Circuit::comparator(width).expect("a width")));
    circuits
}

/// Values for a circuit's inputs, another list for each `which`.
fn values(sizes: Sizes, which: usize) -> Vec<u8> {
    (0..sizes.n)
        .map(|index| ((index * 7 + which * 5) % 3 % 2) as u8)
        .collect()
}

/// The layer's garbling with a mark.
fn garbling(circuit: &Circuit, run: u64, scheme: Scheme, mark: Mark) -> Garbling {
    match mark {
        Mark::Hashes => circuit.garble_hashed(&seed(), run, scheme).expect("garbled"),
        _ => circuit.garble(&seed(), run, scheme),
    }
}

/// Each scheme with each mark.
fn kinds() -> impl Iterator<Item = (Scheme, Mark)> {
    let schemes = Scheme::ALL.into_iter();
    schemes.flat_map(|scheme| Mark::ALL.map(|mark| (scheme, mark)))
}

/// That the layer's garbling is what the function on slices writes, in buffers of the lengths that are defined.
fn is_what_garble_writes(circuit: &Circuit, run: u64, scheme: Scheme, mark: Mark) {
    let garbling = garbling(circuit, run, scheme, mark);
    let sizes = weighhare::check(circuit.bytes()).expect("accepted");
    let outputs = if mark == Mark::Hashes { 32 * sizes.m } else { sizes.m };
    let mut material = vec![0; 11 + outputs + sizes.p * (4 + 16 * [4, 3, 2, 2][scheme as usize - 1])];
    let (mut zeros, mut ones) = (vec![0; 16 * (sizes.n + sizes.q)], vec![0; 16 * sizes.n]);
    let garbled = weighhare::garble(
        circuit.bytes(),
        &SEED,
        run,
        scheme as u8,
        mark as u16,
        &mut material,
        &mut zeros,
        &mut ones,
    )
    .expect("garbled");
    assert_eq!(garbling.material(), material);
    assert_eq!((garbling.zeros(), garbling.ones()), (&zeros[..], &ones[..]));
    assert_eq!(garbling.input_zeros(), &zeros[..16 * sizes.n]);
    assert_eq!((garbling.calls(), garbled.length), (garbled.calls, material.len()));
}

#[test]
fn a_garbling_is_what_garble_writes() {
    for circuit in circuits() {
        for (scheme, mark) in kinds() {
            for run in [0, 1, u64::MAX] {
                is_what_garble_writes(&circuit, run, scheme, mark);
            }
        }
    }
}

#[test]
fn the_chain_gives_the_plain_bits() {
    for circuit in circuits() {
        for (scheme, mark) in kinds() {
            for which in 0..4 {
                let values = values(circuit.sizes(), which);
                let garbling = garbling(&circuit, which as u64, scheme, mark);
                let tokens = circuit
                    .encode(&values, garbling.input_zeros(), garbling.ones())
                    .expect("encoded");
                let evaluation = circuit.evaluate(&tokens, garbling.material()).expect("evaluated");
                assert_eq!(evaluation.calls, circuit.sizes().p * [1, 1, 2, 2][scheme as usize - 1]);
                let outputs = circuit.output_tokens(&evaluation.wires).expect("gathered");
                let bits = circuit.decode(&outputs, garbling.material()).expect("decoded");
                assert_eq!(bits, circuit.plain_outputs(&values).expect("evaluated"));
            }
        }
    }
}

/// The outputs are the last m wires, or those that the circuit names.
#[test]
fn plain_outputs_are_the_outputs_wires() {
    for (u, v) in [(0, 0), (0, 1), (1, 0), (1, 1)] {
        let and = Circuit::new(AND).expect("accepted");
        assert_eq!(and.plain(&[u, v]).expect("evaluated")[..], [u, v, u & v]);
        assert_eq!(and.plain_outputs(&[u, v]), Ok(vec![u & v]));
        let named = Circuit::new(NAMED).expect("accepted");
        assert_eq!(named.plain_outputs(&[u, v]), Ok(vec![u & v, u, u & v]));
    }
}

/// For either mark, and for lists of another length.
#[test]
fn the_outputs_tokens_are_those_that_the_library_gathers() {
    for circuit in circuits() {
        let sizes = circuit.sizes();
        for length in [
            0,
            16,
            sizes.wire_tokens_length() - 1,
            sizes.wire_tokens_length(),
            sizes.wire_tokens_length() + 16,
        ] {
            let wires: Vec<u8> = (0..length).map(|index| (index * 31 % 251) as u8).collect();
            let mut due = vec![0; sizes.output_tokens_length()];
            let answer = weighhare::output_tokens(circuit.bytes(), &wires, &mut due);
            let found = circuit.output_tokens(&wires);
            assert_eq!(found.map(Secret::into_vec), answer.map(|()| due));
        }
    }
}

#[test]
fn encode_is_pick_for_each_input() {
    for circuit in circuits() {
        let garbling = circuit.garble(&seed(), 0, Scheme::HalfGates);
        let values = values(circuit.sizes(), 1);
        let picked: Vec<u8> = (1..)
            .zip(&values)
            .flat_map(|(wire, bit)| garbling.pick(wire, *bit).expect("picked").to_vec())
            .collect();
        let tokens = circuit
            .encode(&values, garbling.input_zeros(), garbling.ones())
            .expect("encoded");
        assert_eq!(tokens[..], picked);
    }
}

#[test]
fn comparators_are_what_comparator_writes() {
    for width in 1..=64 {
        let circuit = Circuit::comparator(width).expect("a width");
        let mut bytes = [0; 28 * 64 - 13];
        let length = weighhare::comparator(width, &mut bytes).expect("a width");
        assert_eq!(circuit.bytes(), &bytes[..length]);
    }
    for width in [0, 65, 66, usize::MAX] {
        assert_eq!(Circuit::comparator(width).unwrap_err(), Refusal::Width { width });
    }
}

/// Each refusal that the layer can give, at its place.
#[test]
fn refusals() {
    let circuit = Circuit::new(AND).expect("accepted");
    let garbling = circuit.garble(&seed(), 0, Scheme::HalfGates);
    let (zeros, ones) = (garbling.input_zeros(), garbling.ones());
    assert_eq!(
        Circuit::new(&AND[..14]).unwrap_err(),
        Refusal::CircuitLength { length: 14 }
    );
    assert_eq!(circuit.plain(&[0]).unwrap_err(), Refusal::ValuesLength { length: 1 });
    assert_eq!(circuit.plain_outputs(&[0, 2]), Err(Refusal::Value { index: 1 }));
    assert_eq!(
        circuit.encode(&[0, 2], zeros, ones).unwrap_err(),
        Refusal::Value { index: 1 }
    );
    let whole = garbling.zeros();
    assert_eq!(
        circuit.encode(&[0, 0], whole, ones).unwrap_err(),
        Refusal::TokensLength { length: 48 }
    );
    let short = &garbling.material()[..47];
    assert_eq!(
        circuit.evaluate(zeros, short).unwrap_err(),
        Refusal::MaterialLength { length: 47 }
    );
    assert_eq!(
        circuit.output_tokens(zeros).unwrap_err(),
        Refusal::TokensLength { length: 32 }
    );
    assert_eq!(
        circuit.decode(&[0; 16], short),
        Err(Refusal::MaterialLength { length: 47 })
    );
    assert_eq!(garbling.pick(3, 0), Err(Refusal::PickWire { wire: 3 }));
    assert_eq!(garbling.pick(1, 2), Err(Refusal::Value { index: 0 }));
    for scheme in (0..=255).filter(|number| !(1..=4).contains(number)) {
        assert_eq!(Scheme::try_from(scheme), Err(Refusal::Scheme { scheme }));
    }
    for mark in (0..=u16::MAX).filter(|mark| ![0x4748, 0x474A].contains(mark)) {
        assert_eq!(Mark::try_from(mark), Err(Refusal::MaterialMark));
    }
    for length in [0, 15, 17, 32] {
        assert_eq!(
            Seed::from_bytes(&vec![0; length]).unwrap_err(),
            Refusal::SeedLength { length }
        );
    }
}

#[test]
fn figures() {
    assert_eq!(figures_to_values(&[], 4).expect("none")[..], []);
    assert_eq!(figures_to_values(&[0, 0], 0).expect("no bits")[..], []);
    assert_eq!(figures_to_values(&[0, 1], 0).unwrap_err().bits, 0);
    assert_eq!(figures_to_values(&[5, 2], 3).expect("they fit")[..], [1, 0, 1, 0, 1, 0]);
    assert_eq!(figures_to_values(&[5, 8], 3).unwrap_err().bits, 3);
    assert_eq!(figures_to_values(&[u64::MAX], 64).expect("it fits")[..], [1; 64]);
}

/// What is printed of what holds a secret has none of its bytes.
#[test]
fn debug_shows_no_secret() {
    let circuit = Circuit::new(AND).expect("accepted");
    let garbling = circuit.garble(&seed(), 0, Scheme::HalfGates);
    let evaluation = circuit
        .evaluate(garbling.input_zeros(), garbling.material())
        .expect("evaluated");
    assert_eq!(format!("{:?}", seed()), "Seed(16 bytes)");
    assert_eq!(format!("{:?}", Secret::from(vec![1, 2, 3])), "Secret(3 bytes)");
    assert_eq!(
        format!("{evaluation:?}"),
        "Evaluation { wires: Secret(48 bytes), calls: 2 }"
    );
    let shown = format!("{garbling:?}");
    assert!(
        shown.contains("zeros: Secret(48 bytes), ones: Secret(32 bytes)"),
        "{shown}"
    );
}

/// Two draws are not the same, and neither is zero, but with a chance of 2^-128.
#[test]
fn seeds_are_drawn() {
    let (one, other) = (Seed::draw().expect("a seed"), Seed::draw().expect("a seed"));
    assert_ne!(one.bytes(), other.bytes());
    assert_ne!(one.bytes(), [0; 16]);
}

/// The allocator hands a small block that a thread gave back to that thread again: what is found there is what was left. It keeps
/// two words of its own at the front.
#[test]
fn a_secret_is_wiped() {
    let secret = Secret::from(vec![0xA5; 1000]);
    let place = secret.as_ptr();
    drop(secret);
    let mut again = Vec::<u8>::with_capacity(1000);
    assert_eq!(again.as_ptr(), place, "the same block");
    // SAFETY: the block has 1000 bytes, all written to before it was given back.
    unsafe { again.set_len(1000) };
    assert!(again[16..].iter().all(|byte| *byte == 0), "not wiped");
}
