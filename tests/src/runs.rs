//! Cases of run numbers (02, job 4): every run of a list by each scheme, on one seed and one circuit, so
//! that nothing but the run makes their tokens differ, and on others.

use crate::call::{Call, Operation};
use crate::chained::{chain_on, spoil, ENDS};
use crate::circuit::{to_bytes, Gate};
use crate::evaluator::{refused, value_lists, SCHEMES};
use crate::generate::{self, damage, RUNS};
use crate::lines;
use crate::random::Random;
use crate::scheme::Scheme;

/// Three inputs and every code once, on inputs and on gates of each kind; five outputs.
pub fn every_code() -> Vec<u8> {
    let gates = [
        (1, 2, 8),
        (2, 3, 6),
        (2, 4, 3),
        (1, 5, 5),
        (4, 6, 14),
        (3, 7, 10),
        (8, 9, 12),
        (3, 10, 9),
        (9, 11, 1),
        (5, 12, 2),
        (11, 13, 4),
        (10, 14, 7),
        (7, 15, 11),
        (12, 16, 13),
    ];
    to_bytes(3, 5, &gates.map(|(a, b, code)| Gate { a, b, code }))
}

/// Every run with each scheme of 01.
fn runs_and_schemes() -> impl Iterator<Item = (u64, Scheme)> {
    RUNS.into_iter()
        .flat_map(|run| SCHEMES.map(|scheme| (run, scheme)))
}

/// A call of garble that is not refused, in a run and by a scheme, in buffers with no byte to spare.
pub fn garbling(random: &mut Random, bytes: &[u8], run: u64, scheme: Scheme) -> Call {
    let mut call = generate::call_on(random, Operation::Garble, bytes);
    (call.run, call.scheme) = (run, scheme.byte());
    call.lens = generate::room(&call).expect("an accepted circuit");
    call
}

/// The lines of garblings: one circuit and one seed in every run by each scheme; circuits of any kind;
/// wire numbers of two bytes; and calls that are refused.
pub fn garblings() -> String {
    let mut random = Random::new(4_004);
    let random = &mut random;
    let mut calls = Vec::new();
    let seed = generate::seed(random);
    for (run, scheme) in runs_and_schemes() {
        let mut call = garbling(random, &every_code(), run, scheme);
        call.seed = seed.clone();
        calls.push(call);
    }
    for (run, scheme) in runs_and_schemes() {
        let bytes = generate::any_small_circuit(random);
        calls.push(garbling(random, &bytes, run, scheme));
    }
    let bytes = generate::circuit(random, 258, 6, 100);
    for run in [0, 1, u64::MAX] {
        let mut call = garbling(random, &bytes, run, Scheme::GaX);
        call.seed = seed.clone();
        calls.push(call);
    }
    calls.extend(refused_garblings(random));
    let line = |call: &Call| lines::case_with_run(call, &call.run());
    calls.iter().map(line).collect()
}

/// For each refusal of garble a call that it is due to, in run 0 and in two others: a run changes no
/// refusal.
fn refused_garblings(random: &mut Random) -> Vec<Call> {
    let mut calls = Vec::new();
    for (index, &number) in Operation::Garble.refusals_of_01().iter().enumerate() {
        let call = damage::damaged_call(random, Operation::Garble, &[number]);
        for run in [0, RUNS[1 + index % 7], u64::MAX] {
            let call = Call {
                run,
                ..call.clone()
            };
            calls.push(refused(call, number));
        }
    }
    calls
}

/// The lines of chains: one circuit and one seed in every run by each scheme, on two lists of values,
/// which go through all of them; circuits of any kind; and each refusal that a call can give, in a run
/// other than 0.
pub fn chains() -> String {
    let mut random = Random::new(4_005);
    let random = &mut random;
    let mut text = String::new();
    let seed = generate::seed(random);
    let lists: Vec<Vec<u8>> = value_lists(3).collect();
    for (index, (run, scheme)) in runs_and_schemes().enumerate() {
        for values in [&lists[index % 8], &lists[7 - index % 8]] {
            let mut chain = chain_on(random, scheme, every_code());
            (chain.seed, chain.run) = (seed.clone(), run);
            chain.values = values.clone();
            text += &chain.case_with_run(None);
        }
    }
    for (run, scheme) in runs_and_schemes() {
        let circuit = generate::any_small_circuit(random);
        let mut chain = chain_on(random, scheme, circuit);
        chain.run = run;
        text += &chain.case_with_run(None);
    }
    for (index, (call, number)) in ENDS.into_iter().enumerate() {
        let circuit = generate::any_small_circuit(random);
        let mut chain = chain_on(random, SCHEMES[index % 3], circuit);
        chain.run = RUNS[1 + index % 7];
        spoil(&mut chain, call, number);
        text += &chain.case_with_run(Some((call, number)));
    }
    text
}
