//! The chain garble, encode, evaluate, the outputs' tokens, decode of demand 3, on one circuit (01,
//! Operations; 02, jobs 4, 7, 8 and 12): compared with the plain circuit at every wire and every output bit, by
//! each of the four schemes and with both marks of material, in run 0 and in others, with outputs that are the
//! last wires and with named ones.

use std::collections::BTreeSet;

use second::block::{Block, Colour, BLOCK};
use second::circuit::{Circuit, Sizes};
use second::generate;
use second::generate::outputs::named;
use second::large::coloured_seed;
use second::material::Mark;
use second::operations::{decode, encode, evaluate, evaluate_gates, garble, output_tokens, plain};
use second::operations::{Garbled, Wanted};
use second::random::Random;
use second::scheme::Scheme;
use second::token::Seed;

const SCHEMES: [Scheme; 4] = Scheme::ALL;

/// The codes that are not refused.
const CODES: [u8; 14] = [1, 2, 3, 4, 5, 6, 7, 8, 9, 10, 11, 12, 13, 14];

/// What the calls of the chain leave.
struct Chain {
    zeros: Vec<u8>,
    held: Vec<u8>,
    decoded: Vec<u8>,
}

/// The rows of a charged gate, and the encryptions that evaluate makes for it.
fn rows_and_calls(scheme: Scheme) -> (usize, usize) {
    match scheme {
        Scheme::GaX => (4, 1),
        Scheme::GaXR => (3, 1),
        Scheme::HalfGates | Scheme::RekeyedHalfGates => (2, 2),
    }
}

/// A seed, and which of its garblings is meant.
#[derive(Clone, Copy)]
struct Source {
    seed: [u8; BLOCK],
    run: u64,
}

/// The wires of the outputs, from the circuit's bytes: those named, or the last m.
fn outputs(bytes: &[u8]) -> Vec<usize> {
    let number = |at: usize| 256 * usize::from(bytes[at]) + usize::from(bytes[at + 1]);
    let (n, m, q) = (number(2), number(4), number(6));
    match bytes[1] {
        0x49 => (0..m).map(|k| number(8 + 7 * q + 4 * k + 2)).collect(),
        _ => (n + q - m + 1..=n + q).collect(),
    }
}

/// What garble returns: 9+p(4+16r)+2+m bytes and 4p encryptions, and with hashes 32m for m and 2m encryptions
/// more.
fn garbled_to(sizes: Sizes, scheme: Scheme, mark: Mark) -> Garbled {
    let (m, p) = (sizes.m, sizes.p);
    let (last, hashes) = match mark {
        Mark::Colours => (m, 0),
        Mark::Hashes => (32 * m, 2 * m),
    };
    let (rows, _) = rows_and_calls(scheme);
    Garbled {
        length: (9 + p * (4 + BLOCK * rows) + 2 + last) as u64,
        calls: (4 * p + hashes) as u64,
    }
}

/// Runs the chain in buffers of exactly the bytes named, and checks what the calls return.
fn run(bytes: &[u8], (scheme, mark): (Scheme, Mark), source: Source, values: &[u8]) -> Chain {
    let circuit = Circuit::read(bytes).expect("an accepted circuit");
    let sizes = circuit.sizes();
    let Sizes { n, m, p, .. } = sizes;
    let due = garbled_to(sizes, scheme, mark);
    let length = due.length as usize;
    let (mut material, mut zeros) = (vec![0; length], vec![0; BLOCK * sizes.wires()]);
    let (mut ones, mut tokens) = (vec![0; BLOCK * n], vec![0; BLOCK * n]);
    let (mut held, mut decoded) = (vec![0; BLOCK * sizes.wires()], vec![0; m]);
    let Source { seed, run } = source;
    let wanted = Wanted {
        run,
        scheme: scheme.byte(),
        mark: mark.number(),
    };
    let garbled = garble(bytes, &seed, wanted, &mut material, &mut zeros, &mut ones);
    assert_eq!(garbled, Ok(due));
    assert_eq!(
        encode(bytes, values, &zeros[..BLOCK * n], &ones, &mut tokens),
        Ok(())
    );
    let calls = (rows_and_calls(scheme).1 * p) as u64;
    let evaluated = evaluate(bytes, &tokens, &material, &mut held);
    assert_eq!(evaluated, Ok(calls));
    let mut chosen = vec![0; BLOCK * m];
    assert_eq!(output_tokens(bytes, &held, &mut chosen), Ok(()));
    assert_eq!(decode(bytes, &chosen, &material, &mut decoded), Ok(()));
    if m <= sizes.q {
        check_list_form(&circuit, &tokens, &material, calls, &held);
    }
    Chain {
        zeros,
        held,
        decoded,
    }
}

/// The list form gets the answer of the bytes, which do not depend on which wires are outputs, but for their
/// number: it has at most as many as gates.
fn check_list_form(circuit: &Circuit, tokens: &[u8], material: &[u8], calls: u64, held: &[u8]) {
    let Sizes { n, m, .. } = circuit.sizes();
    let gates: Vec<_> = circuit.gates().map(|(_, gate)| gate).collect();
    let mut by_list = vec![0; held.len()];
    let (n, m) = (n as u16, m as u16);
    let answer = evaluate_gates(n, m, &gates, tokens, material, &mut by_list);
    assert_eq!(answer, Ok(calls), "list form");
    assert!(by_list == held, "list form: other tokens");
}

/// Demand 3 with both marks.
fn check_chain(bytes: &[u8], scheme: Scheme, source: Source, values: &[u8], name: &str) {
    for mark in Mark::ALL {
        check_chain_by(bytes, (scheme, mark), source, values, name);
    }
}

/// Demand 3: the distance on every wire, which is R of the run, and the decoded bits.
fn check_chain_by(bytes: &[u8], by: (Scheme, Mark), source: Source, values: &[u8], name: &str) {
    let Sizes { n, q, .. } = Circuit::read(bytes).expect("an accepted circuit").sizes();
    let mut carried = vec![0; n + q];
    assert_eq!(plain(bytes, values, &mut carried), Ok(()));
    let chain = run(bytes, by, source, values);
    let offset = Seed::new(&source.seed, source.run).offset();
    assert!(offset.colour().0 && offset != Block::ZERO);
    let (zeros, held) = (Block::list(&chain.zeros), Block::list(&chain.held));
    for (index, &value) in carried.iter().enumerate() {
        let distance = zeros[index] ^ held[index];
        let expected = if value == 1 { offset } else { Block::ZERO };
        let wire = index + 1;
        assert_eq!(distance, expected, "{name}, {by:?}, wire {wire}");
    }
    let due: Vec<u8> = outputs(bytes)
        .iter()
        .map(|wire| carried[wire - 1])
        .collect();
    assert_eq!(chain.decoded, due, "{name}, {by:?}");
}

/// Any seed and any run.
fn source(random: &mut Random) -> Source {
    let seed = Block::list(&generate::seed(random))[0].0;
    let run = generate::run(random);
    Source { seed, run }
}

/// And with every pair of colours of the operands' zero tokens, in run 0.
#[test]
fn every_code_on_every_pair_of_values() {
    let mut random = Random::new(11);
    for code in CODES {
        let mut bytes = generate::circuit(&mut random, 2, 1, 0);
        bytes[14] = code;
        for (round, scheme) in (0..16).flat_map(|round| SCHEMES.map(|scheme| (round, scheme))) {
            let values = [round / 2 % 2, round % 2];
            let colours = [round / 8 == 1, round / 4 % 2 == 1].map(Colour);
            let name = format!("code {code}, values {values:?}, {colours:?}");
            let seed = Block::list(&coloured_seed(&mut random, colours))[0].0;
            check_chain(&bytes, scheme, Source { seed, run: 0 }, &values, &name);
        }
    }
}

#[test]
fn random_circuits() {
    let mut random = Random::new(12);
    let mut codes = BTreeSet::new();
    for round in 0..400 {
        let bytes = generate::any_small_circuit(&mut random);
        let circuit = Circuit::read(&bytes).expect("an accepted circuit");
        codes.extend(circuit.gates().map(|(_, gate)| gate.code));
        let values = generate::values(&mut random, circuit.sizes().n);
        let source = source(&mut random);
        let name = format!("round {round}, run {}", source.run);
        for scheme in SCHEMES {
            check_chain(&bytes, scheme, source, &values, &name);
        }
    }
    assert_eq!(codes.into_iter().collect::<Vec<u8>>(), CODES);
}

/// The same with named outputs of every kind.
#[test]
fn random_circuits_with_named_outputs() {
    let mut random = Random::new(15);
    for round in 0..400 {
        let bytes = generate::any_small_circuit(&mut random);
        let bytes = named(&mut random, &bytes);
        let n = Circuit::read(&bytes)
            .expect("an accepted circuit")
            .sizes()
            .n;
        let values = generate::values(&mut random, n);
        let source = source(&mut random);
        let name = format!(
            "round {round}, run {}, outputs {:?}",
            source.run,
            outputs(&bytes)
        );
        for scheme in SCHEMES {
            check_chain(&bytes, scheme, source, &values, &name);
        }
    }
}

#[test]
fn largest_circuits() {
    let mut random = Random::new(13);
    for (n, q, charged) in [(4096, 61_439, 50), (2, 65_533, 100), (2, 65_533, 0)] {
        let bytes = generate::circuit(&mut random, n, q, charged);
        let bytes = generate::with_one_operand(&mut random, bytes);
        let by_name = named(&mut random, &bytes);
        let values = generate::values(&mut random, usize::from(n));
        let source = source(&mut random);
        let name = format!("n {n}, q {q}, charged {charged}, run {}", source.run);
        for scheme in SCHEMES {
            check_chain(&bytes, scheme, source, &values, &name);
            check_chain(&by_name, scheme, source, &values, &name);
        }
    }
}

#[test]
fn seed_that_is_the_key_of_pi() {
    let mut random = Random::new(14);
    let bytes = generate::circuit(&mut random, 5, 30, 70);
    let values = generate::values(&mut random, 5);
    let seed = std::array::from_fn(|i| i as u8);
    for run in generate::RUNS {
        for scheme in SCHEMES {
            let source = Source { seed, run };
            check_chain(&bytes, scheme, source, &values, "the key of π as seed");
        }
    }
}
