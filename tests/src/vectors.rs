//! The files of cases that the test programs `vectors` and `garblings` read, and those that the test
//! `lists` hands to the archive: cases of the third reading of 01, and cases made here; and beside them
//! cases that are wrong on purpose. The same files come out of every run.

use crate::block::Colour;
use crate::call::{Call, Operation};
use crate::cases::{self, Asked};
use crate::chained;
use crate::clash;
use crate::compared;
use crate::evaluator;
use crate::filled;
use crate::generate::{self, damage};
use crate::hashed;
use crate::large::{self, Rule};
use crate::lines;
use crate::listed;
use crate::named;
use crate::one_operand;
use crate::random::Random;
use crate::rekeyed;
use crate::runs;
use crate::scheme::Scheme;
use crate::wrong;

/// A file of cases, a line each.
#[derive(Clone, Debug)]
pub struct File {
    /// Its name, which a program that reads it prints.
    pub name: &'static str,
    /// Its lines.
    pub text: String,
}

impl File {
    /// The folder that it is stored in, from the repository's top: that of the test program that
    /// reads it, of which garble has one of its own, or, of a list of gates, that of the tests here.
    pub fn folder(&self) -> &'static str {
        match self.name.trim_start_matches("wrong-") {
            name if name.starts_with("evaluate-gates") => "tests/data",
            name if name.starts_with("garble") => "crates/garblings/data",
            _ => "crates/vectors/data",
        }
    }
}

/// The files of stored cases.
const STORED: [(&str, Operation); 7] = [
    ("check", Operation::Check),
    ("plain", Operation::Plain),
    ("garble", Operation::Garble),
    ("encode", Operation::Encode),
    ("pick", Operation::Pick),
    ("evaluate", Operation::Evaluate),
    ("decode", Operation::Decode),
];

/// The files of new cases with 01's codes.
const GENERATED: [(&str, Operation); 5] = [
    ("garble-generated", Operation::Garble),
    ("encode-generated", Operation::Encode),
    ("pick-generated", Operation::Pick),
    ("evaluate-generated", Operation::Evaluate),
    ("decode-generated", Operation::Decode),
];

/// The files of new cases with gates that use one operand.
const ONE_OPERAND: [(&str, Operation); 5] = [
    ("plain-one-operand", Operation::Plain),
    ("garble-one-operand", Operation::Garble),
    ("evaluate-one-operand", Operation::Evaluate),
    ("evaluate-gates-one-operand", Operation::EvaluateGates),
    ("decode-one-operand", Operation::Decode),
];

/// The files of new cases of scheme 4.
const REKEYED: [(&str, Operation); 3] = [
    ("evaluate-rekeyed", Operation::Evaluate),
    ("evaluate-gates-rekeyed", Operation::EvaluateGates),
    ("decode-rekeyed", Operation::Decode),
];

/// The files of new cases of circuits whose outputs are named.
const NAMED: [(&str, Operation); 6] = [
    ("check-named", Operation::Check),
    ("plain-named", Operation::Plain),
    ("encode-named", Operation::Encode),
    ("evaluate-named", Operation::Evaluate),
    ("output-tokens", Operation::OutputTokens),
    ("decode-named", Operation::Decode),
];

/// The files of new cases of material that ends in hashes.
const HASHED: [(&str, Operation); 3] = [
    ("evaluate-hashed", Operation::Evaluate),
    ("evaluate-gates-hashed", Operation::EvaluateGates),
    ("decode-hashed", Operation::Decode),
];

/// All files of material that ends in hashes, with those of refusal 30.
fn hashed_cases() -> Vec<(&'static str, String)> {
    let of = |(name, operation)| (name, cases_of(&hashed::calls(operation)));
    let mut files: Vec<_> = HASHED.into_iter().map(of).collect();
    files.extend([
        ("chain-hashed", hashed::chains()),
        ("garble-hashed", hashed::garblings()),
        ("clash", clash::searches()),
        ("zeroed", clash::zeros()),
    ]);
    files
}

/// The files of new cases whose buffers say nothing of whether a call is refused.
fn filled_cases() -> [(&'static str, String); 4] {
    [
        ("encode-fill", cases_of(&filled::encodings())),
        ("evaluate-fill", cases_of(&filled::evaluations())),
        ("garble-no-room", cases_of(&filled::garblings())),
        ("fill", filled::buffers()),
    ]
}

/// All files made here.
pub fn files() -> Vec<File> {
    let mut files = Vec::new();
    let mut add = |name, text| files.push(File { name, text });
    for (name, operation) in STORED {
        add(name, stored_cases(operation));
    }
    for (name, operation) in GENERATED {
        add(name, generated_cases(operation));
    }
    for (name, operation) in ONE_OPERAND {
        add(name, cases_of(&one_operand::calls(operation)));
    }
    add("evaluate-gates", stored_lists());
    add("evaluate-gates-generated", generated_lists());
    add("chain-generated", chained::cases());
    add("chain-one-operand", one_operand::chains());
    add("garble-large", large_cases());
    add("garble-runs", runs::garblings());
    add("chain-runs", runs::chains());
    for (name, operation) in REKEYED {
        add(name, cases_of(&rekeyed::calls(operation)));
    }
    add("chain-rekeyed", rekeyed::chains());
    add("garble-rekeyed", rekeyed::garblings());
    add("garble-large-rekeyed", large_rekeyed());
    add("sigma", rekeyed::sigmas());
    for (name, operation) in NAMED {
        add(name, cases_of(&named::calls(operation)));
    }
    add("chain-named", named::chains());
    add("garble-named", named::garblings());
    add("chain-comparator", compared::chains());
    for (name, text) in hashed_cases().into_iter().chain(filled_cases()) {
        add(name, text);
    }
    files.extend(wrong::files(&files));
    files
}

/// The lines of calls, with what comes of them here.
fn cases_of(calls: &[Call]) -> String {
    let line = |call: &Call| lines::case(call, &call.run());
    calls.iter().map(line).collect()
}

/// The stored cases of an operation, with the answers stored.
fn stored_cases(operation: Operation) -> String {
    stored_with(|call| call.operation == operation)
}

/// The stored cases that are asked for, with the answers stored.
fn stored_with(asked: impl Fn(&Call) -> bool) -> String {
    let cases = cases::read(include_str!("../data/base.jsonl")).expect("readable cases");
    let line = |case: &cases::Case| match &case.asked {
        Asked::Call { call, expected } if asked(call) => Some(lines::case(call, expected)),
        _ => None,
    };
    cases.iter().filter_map(line).collect()
}

/// New cases of an operation: accepted ones, and a case for each refusal alone and for each two; of
/// evaluate and decode also those of module `evaluator`.
fn generated_cases(operation: Operation) -> String {
    let mut random = Random::new(1_001);
    let mut calls = Vec::new();
    for _ in 0..20 {
        calls.push(generate::call(&mut random, operation));
    }
    let numbers = operation.refusals_of_01();
    for (index, &first) in numbers.iter().enumerate() {
        for &second in &numbers[index..] {
            let due = if first == second {
                vec![first]
            } else {
                vec![first, second]
            };
            calls.push(damage::damaged_call(&mut random, operation, &due));
        }
    }
    if matches!(operation, Operation::Evaluate | Operation::Decode) {
        calls.extend(evaluator::calls(&mut random, operation));
    }
    cases_of(&calls)
}

/// The stored cases of the list form on as many gates as those made here.
fn stored_lists() -> String {
    stored_with(|call| {
        call.operation == Operation::EvaluateGates && call.gates.len() == listed::GATES
    })
}

/// New cases of the list form.
fn generated_lists() -> String {
    cases_of(&listed::calls(&mut Random::new(1_010)))
}

/// n, m, q and the period of large garblings, which each scheme makes.
const LARGE: [(u16, u16, u16, u16); 14] = [
    (2, 1, 1, 1),
    (2, 1, 2, 0),
    (3, 40, 40, 2),
    (2, 17, 254, 3),
    (254, 1, 2, 1),
    (255, 300, 300, 1),
    (300, 1, 700, 7),
    (2, 4_000, 4_000, 1),
    (4_094, 3, 3, 1),
    (4_096, 4_096, 5_000, 2),
    (2, 100, 15_000, 1),
    (4_096, 61_439, 61_439, 8),
    (2, 1, 65_533, 5),
    (2, 65_533, 65_533, 4_096),
];

/// Large garblings by each scheme of 01; and, for each pair of colours of the first two inputs' zero
/// tokens, a garbling that has every code of 01.
fn large_cases() -> String {
    let mut random = Random::new(65_535);
    let mut text = String::new();
    for scheme in 1..=3 {
        for colours in [[false, false], [false, true], [true, false], [true, true]] {
            let seed = large::coloured_seed(&mut random, colours.map(Colour));
            let rule = rule(&mut random, (2, 32, 32, 2));
            text += &large::case(rule, seed, scheme);
        }
        for sizes in LARGE {
            let seed = generate::seed(&mut random);
            let rule = rule(&mut random, sizes);
            text += &large::case(rule, seed, scheme);
        }
    }
    text
}

/// n, m, q and the period of large garblings by scheme 4: charged gates on wires 255 and 256; on 32,767 and
/// 32,768, where the tweak 2g passes 16 bits; on 65,535, the last wire that there may be; and few among
/// free ones.
const LARGE_REKEYED: [(u16, u16, u16, u16); 4] = [
    (250, 20, 20, 1),
    (4_096, 4_096, 29_000, 1),
    (2, 65_533, 65_533, 3),
    (300, 1, 700, 7),
];

/// Large garblings by scheme 4.
fn large_rekeyed() -> String {
    let mut random = Random::new(7_007);
    let mut text = String::new();
    for sizes in LARGE_REKEYED {
        let seed = generate::seed(&mut random);
        let rule = rule(&mut random, sizes);
        text += &large::case(rule, seed, Scheme::RekeyedHalfGates.byte());
    }
    text
}

fn rule(random: &mut Random, (n, m, q, period): (u16, u16, u16, u16)) -> Rule {
    let start = random.between(1, 2_147_483_646) as u32;
    Rule {
        n,
        m,
        q,
        period,
        start,
    }
}
