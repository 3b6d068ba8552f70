//! The circuits of ../examples: what the program prints of each; of the two comparators of 8 bits the plain
//! output for every price and ceiling, by the second implementation and by the archive, and the bit that the
//! archive's garble, encode, evaluate and decode give for some; that those of 8, 16, 32 and 64 bits are what
//! the comparator writes; of the named outputs the bits that the archive gives, and the answer to each fault.

#[path = "../src/archive.rs"]
mod archive;

use std::fs;

use second::call::{Call, Operation};
use second::generate;
use second::operations::plain;
use second::program;
use second::random::Random;

/// An example's bytes.
fn example(name: &str) -> Vec<u8> {
    let top = concat!(env!("CARGO_MANIFEST_DIR"), "/..");
    fs::read(format!("{top}/examples/{name}.circuit")).expect("an example")
}

/// When a comparator's output is 1, for a price and a ceiling.
type Holds = fn(&u8, &u8) -> bool;

/// The comparators: the name, the wires, and when the output is 1.
const COMPARATORS: [(&str, usize, Holds); 2] = [
    ("price-at-most-ceiling-8", 45, u8::le),
    ("price-over-ceiling-8", 46, u8::gt),
];

/// The input values: the price and then the ceiling, lowest bit first.
fn values(price: u8, ceiling: u8) -> Vec<u8> {
    let bits = |number: u8| (0..8).map(move |i| number >> i & 1);
    bits(price).chain(bits(ceiling)).collect()
}

/// The output buffers of a call, which the archive must not refuse.
fn by_archive(call: &Call) -> Vec<Vec<u8>> {
    let answer =
        archive::run(call, &call.buffers(), 0).expect("nothing written beside the buffers");
    assert_eq!(answer.number, 0, "{:?}", call.operation);
    answer.buffers
}

/// A call of an operation on a circuit, with buffers of these lengths.
fn call(operation: Operation, circuit: &[u8], lens: &[usize]) -> Call {
    Call {
        operation,
        circuit: circuit.to_vec(),
        lens: lens.to_vec(),
        ..Call::default()
    }
}

/// With n, m, q, p: lengths of 11+m+p(4+16r) bytes, r = 4, 3, 2.
#[test]
fn what_the_program_prints_of_them() {
    let printed = |name: &str| program::output(&example(name));
    assert_eq!(printed("and"), "2 1 1 1\n80 64 48\n");
    assert_eq!(printed("refused-code"), "refused 7 3\n");
    assert_eq!(printed("named-outputs"), "2 3 1 1\n82 66 50\n");
    let at_most = printed("price-at-most-ceiling-8");
    assert_eq!(at_most, "16 1 29 8\n556 428 300\n");
    let over = printed("price-over-ceiling-8");
    assert_eq!(over, "16 1 30 8\n556 428 300\n");
    for (width, due) in [
        (16, "32 1 61 16\n1100 844 588\n"),
        (32, "64 1 125 32\n2188 1676 1164\n"),
        (64, "128 1 253 64\n4364 3340 2316\n"),
    ] {
        assert_eq!(printed(&format!("price-at-most-ceiling-{width}")), due);
    }
}

/// 02, job 1: the circuits of these widths, by both.
#[test]
fn the_comparator_writes_those_of_its_widths() {
    for (width, length) in [(8, 211), (16, 435), (32, 883), (64, 1779)] {
        let due = example(&format!("price-at-most-ceiling-{width}"));
        assert_eq!(due.len(), length);
        let mut call = call(Operation::Comparator, &[], &[length]);
        call.width = width;
        assert_eq!(call.run().buffers, [&due[..]], "width {width}");
        assert_eq!(by_archive(&call), [due], "width {width}");
    }
}

#[test]
fn every_price_and_ceiling() {
    for (name, wires, holds) in COMPARATORS {
        let circuit = example(name);
        let mut call = call(Operation::Plain, &circuit, &[wires]);
        for (price, ceiling) in (0..=255).flat_map(|price| (0..=255).map(move |c| (price, c))) {
            let mut carried = vec![0; wires];
            call.values = values(price, ceiling);
            assert_eq!(plain(&circuit, &call.values, &mut carried), Ok(()));
            let due = u8::from(holds(&price, &ceiling));
            assert_eq!(carried[wires - 1], due, "{name}: {price}, {ceiling}");
            assert_eq!(by_archive(&call), [carried], "{name}: {price}, {ceiling}");
        }
    }
}

/// The bit that the archive's garble, encode, evaluate and decode give.
fn garbled_bit(circuit: &[u8], wires: usize, seed: &[u8], scheme: u8, values: Vec<u8>) -> u8 {
    let length = 12 + 8 * (4 + 16 * [4, 3, 2, 2][usize::from(scheme) - 1]);
    let mut garble = call(Operation::Garble, circuit, &[length, 16 * wires, 16 * 16]);
    (garble.seed, garble.scheme) = (seed.to_vec(), scheme);
    let [material, zeros, ones] = by_archive(&garble).try_into().expect("three buffers");
    let mut encode = call(Operation::Encode, circuit, &[16 * 16]);
    (encode.values, encode.zero, encode.one) = (values, zeros[..16 * 16].to_vec(), ones);
    let mut evaluate = call(Operation::Evaluate, circuit, &[16 * wires]);
    (evaluate.tokens, evaluate.material) = (by_archive(&encode).concat(), material.clone());
    let held = by_archive(&evaluate).concat();
    let mut decode = call(Operation::Decode, circuit, &[1]);
    (decode.tokens, decode.material) = (held[16 * (wires - 1)..].to_vec(), material);
    by_archive(&decode)[0][0]
}

#[test]
fn garbled_by_each_scheme() {
    let mut random = Random::new(51);
    let pairs = [
        (0, 0),
        (0, 255),
        (255, 0),
        (255, 255),
        (127, 128),
        (128, 127),
    ];
    let others = (0..60).map(|_| (random.byte(), random.byte()));
    let pairs: Vec<(u8, u8)> = pairs.into_iter().chain(others).collect();
    for (name, wires, holds) in COMPARATORS {
        let circuit = example(name);
        for (scheme, &(price, ceiling)) in (1..=4).flat_map(|s| pairs.iter().map(move |p| (s, p))) {
            let seed = generate::seed(&mut random);
            let bit = garbled_bit(&circuit, wires, &seed, scheme, values(price, ceiling));
            let due = u8::from(holds(&price, &ceiling));
            assert_eq!(bit, due, "{name}, scheme {scheme}: {price}, {ceiling}");
        }
    }
}

/// The named outputs with a fault: a record's mark, a record's wire, an output too many, a byte less.
#[test]
fn named_outputs_with_a_fault() {
    let changed = |at: usize, byte: u8| {
        let mut bytes = example("named-outputs");
        bytes[at] = byte;
        bytes
    };
    let short = example("named-outputs")[..26].to_vec();
    for (bytes, number, place) in [
        (changed(20, 0x47), 25, 2),
        (changed(26, 4), 26, 3),
        (changed(5, 4), 3, 2),
        (short, 4, 26),
    ] {
        let printed = program::output(&bytes);
        assert_eq!(printed, format!("refused {number} {place}\n"));
        let check = call(Operation::Check, &bytes, &[]);
        let answer = archive::run(&check, &[], 0).expect("nothing written");
        assert_eq!((answer.number, answer.words), (number, [place, 0, 0, 0]));
    }
}

/// By the archive, by each scheme: the AND, the first input's own bit, and the AND again.
#[test]
fn what_named_outputs_decode_to() {
    let circuit = example("named-outputs");
    let mut random = Random::new(52);
    for (scheme, length) in (1..).zip([82, 66, 50, 50]) {
        for (u, v) in [(0, 0), (0, 1), (1, 0), (1, 1)] {
            let mut garble = call(Operation::Garble, &circuit, &[length, 48, 32]);
            (garble.seed, garble.scheme) = (generate::seed(&mut random), scheme);
            let [material, zeros, ones] = by_archive(&garble).try_into().expect("three buffers");
            let mut encode = call(Operation::Encode, &circuit, &[32]);
            (encode.values, encode.zero, encode.one) = (vec![u, v], zeros[..32].to_vec(), ones);
            let mut evaluate = call(Operation::Evaluate, &circuit, &[48]);
            (evaluate.tokens, evaluate.material) = (by_archive(&encode).concat(), material.clone());
            let mut outputs = call(Operation::OutputTokens, &circuit, &[48]);
            outputs.tokens = by_archive(&evaluate).concat();
            let mut decode = call(Operation::Decode, &circuit, &[3]);
            (decode.tokens, decode.material) = (by_archive(&outputs).concat(), material);
            assert_eq!(by_archive(&decode), [[u & v, u, u & v]], "scheme {scheme}");
        }
    }
}
