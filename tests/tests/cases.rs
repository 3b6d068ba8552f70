//! Every stored case of a third reading of 01 (`data/base.jsonl`, 500 cases), of 01 with 02's job 2
//! (`job02.jsonl`, 300), with its jobs 2 and 4 (`job04.jsonl`, 300), with its jobs 2, 4 and 7 (`job07.jsonl`,
//! 300), with its jobs 2, 4, 7 and 8 (`job08.jsonl`, 400), and with job 12 too, which has cases of garble, evaluate
//! and decode alone (`job12.jsonl`, 500): answers and whole buffers.

use std::collections::BTreeMap;

use second::cases::{self, Asked, Case};
use second::program;

/// The cases that a file has for each operation.
type Counts<'a> = &'a [(&'static str, usize)];

const BASE: Counts = &[
    ("check", 63),
    ("decode", 62),
    ("encode", 63),
    ("evaluate", 93),
    ("evaluate_list", 31),
    ("garble", 63),
    ("pick", 31),
    ("plain", 63),
    ("program", 31),
];

/// Of 01 with jobs of 02 before job 8: each of these files has as many.
const AMENDED: Counts = &[
    ("check", 38),
    ("decode", 38),
    ("encode", 37),
    ("evaluate", 56),
    ("evaluate_list", 19),
    ("garble", 38),
    ("pick", 19),
    ("plain", 37),
    ("program", 18),
];

/// Of 01 with 02's jobs 2, 4, 7 and 8.
const NAMED: Counts = &[
    ("check", 50),
    ("decode", 50),
    ("encode", 50),
    ("evaluate", 75),
    ("evaluate_list", 25),
    ("garble", 50),
    ("pick", 25),
    ("plain", 50),
    ("program", 25),
];

/// Of 01 with 02's jobs 2, 4, 7, 8 and 12.
const HASHED: Counts = &[
    ("decode", 125),
    ("evaluate", 187),
    ("evaluate_list", 63),
    ("garble", 125),
];

fn compare(case: &Case) {
    let name = format!("case {} ({}, {})", case.id, case.op, case.aim);
    match &case.asked {
        Asked::Call { call, expected } => {
            let outcome = call.run();
            assert_eq!(outcome.answer, expected.answer, "answer of {name}");
            let same = outcome.buffers == expected.buffers;
            assert!(same, "buffers of {name}: {outcome:02x?}");
        }
        Asked::Program { input, output } => {
            assert_eq!(&program::output(input), output, "output of {name}");
        }
    }
}

/// Compares every case of a file, which has so many of each operation.
fn compare_all(text: &str, due: Counts) {
    let cases = cases::read(text).expect("readable cases");
    let mut counts = BTreeMap::new();
    for case in &cases {
        compare(case);
        *counts.entry(case.op.as_str()).or_insert(0) += 1;
    }
    println!("cases per operation: {counts:?}");
    assert_eq!(counts.into_iter().collect::<Vec<_>>(), due);
}

#[test]
fn all_cases_agree() {
    compare_all(include_str!("../data/base.jsonl"), BASE);
}

#[test]
fn all_cases_with_one_operand_agree() {
    compare_all(include_str!("../data/job02.jsonl"), AMENDED);
}

#[test]
fn all_cases_with_runs_agree() {
    compare_all(include_str!("../data/job04.jsonl"), AMENDED);
}

#[test]
fn all_cases_with_scheme_4_agree() {
    compare_all(include_str!("../data/job07.jsonl"), AMENDED);
}

#[test]
fn all_cases_with_named_outputs_agree() {
    compare_all(include_str!("../data/job08.jsonl"), NAMED);
}

#[test]
fn all_cases_with_hashes_agree() {
    compare_all(include_str!("../data/job12.jsonl"), HASHED);
}
