//! The second implementation against the proved library's archive, through the C interface: edges of every
//! refusal, every two refusals at once, circuits at the limits, stored cases, and random calls for a time.
//! What must come back is the second implementation's answer: the number, the four words, and the output
//! buffers whole.
//!
//! Of the random calls about a quarter of those with a scheme are by scheme 4, half of those that make or read
//! material have hashes in it, half of those on a circuit's bytes have named outputs, and half of garble's are in
//! run 0. The longest circuit, of 720,879 bytes, is handed to every operation that takes bytes; every width up to
//! 70 and some far past 64 to the comparator.
//!
//! The last part, coverage, prints how often each was met, and fails where one of these was not: every
//! refusal of every operation; codes 1 to 14 taken and all others refused; every answer of garble in runs of
//! each kind, which are 0, with bits in the low half alone, in the high half alone, in both; each operation
//! that has a scheme done by each of the four on a circuit with charged gates, each of its refusals after 14
//! by each, and all other schemes refused; each operation that takes bytes done with each mark, each kind of
//! named outputs and the longest circuit; 25 and 26 at the first output, at the last and between; widths 1 to
//! 64 taken and no other, with 0, 65, 2^32+8 and 2^64-1 refused; each operation that has a mark of material done
//! with both, each of its refusals after 13 with both, other marks refused, 29 at the first output, at the last
//! and between, and outputs decoded by either hash. It fails too where an operation gave a number that it does
//! not have, 22 to 24, 27, 28 and 30 among them. A part without a call fails.

#[path = "../../src/archive.rs"]
mod archive;
mod compare;
mod coverage;
mod marks;
mod options;
mod outputs;

use std::env;
use std::fs::File;
use std::os::unix::fs::FileExt;
use std::path::Path;
use std::process::ExitCode;
use std::time::Instant;

use second::call::{Call, Operation};
use second::cases::{self, Asked};
use second::generate::damage::any_damaged_call;
use second::generate::{edges, limits, mixed};
use second::random::Random;

use coverage::Coverage;
use options::Options;

/// A part prints so many of its failures at most.
const MOST_SHOWN: usize = 5;

/// The run so far.
struct Run {
    options: Options,
    operations: Vec<Operation>,
    coverage: Coverage,
    failures: usize,
    passed: usize,
    failed: usize,
}

impl Run {
    /// Compares one call; where the sides differ, prints how to run it again.
    fn call(&mut self, call: &Call, skew: usize, again: impl Fn() -> String) {
        match compare::compare(call, skew) {
            Ok(answer) => self.coverage.count(call, &answer),
            Err(difference) => {
                self.failures += 1;
                if self.failures <= MOST_SHOWN {
                    println!("DIFFERS: {}: {difference}", again());
                    println!("{}", compare::arguments(call));
                }
            }
        }
    }

    /// Runs a part that makes calls. One that makes none has compared nothing, and fails.
    fn calls(&mut self, name: &str, work: impl FnOnce(&mut Run)) {
        self.part(name, |run| {
            let before = run.coverage.calls();
            work(run);
            if run.failures == 0 && run.coverage.calls() == before {
                println!("NOTHING COMPARED: {name} made no call");
                run.failures += 1;
            }
        });
    }

    /// Runs a part, says what came of it and counts it.
    fn part(&mut self, name: &str, work: impl FnOnce(&mut Run)) {
        let (before, start) = (self.coverage.calls(), Instant::now());
        self.failures = 0;
        work(self);
        let calls = self.coverage.calls() - before;
        let (failures, time) = (self.failures, start.elapsed().as_secs_f32());
        let verdict = if failures == 0 { "ok" } else { "FAILED" };
        println!("test {name} ... {verdict} ({calls} calls agree, {failures} differ, {time:.1} s)");
        self.passed += usize::from(failures == 0);
        self.failed += usize::from(failures > 0);
    }

    /// Every argument across each of its limits, on small circuits.
    fn edges(&mut self) {
        for operation in self.operations.clone() {
            for (index, edge) in edges::edges(&mut Random::new(41), operation)
                .iter()
                .enumerate()
            {
                self.call(&edge.call, index % 16, || format!("edge {}", edge.name));
            }
        }
    }

    /// Every two refusals of an operation at once.
    fn pairs(&mut self) {
        let mut random = Random::new(43);
        for operation in self.operations.clone() {
            for &first in operation.refusals() {
                for &second in operation.refusals() {
                    for skew in 0..4 {
                        let call = any_damaged_call(&mut random, operation, &[first, second]);
                        let again = || format!("pair {first} and {second}");
                        self.call(&call, skew, again);
                    }
                }
            }
        }
    }

    /// Circuits of the smallest and the largest sizes.
    fn limits(&mut self) {
        let mut random = Random::new(42);
        for operation in self.operations.clone() {
            for shape in 0.. {
                let Some(calls) = limits::calls(&mut random, operation, shape) else {
                    break;
                };
                for edge in calls {
                    self.call(&edge.call, shape, || format!("limit {}", edge.name));
                }
            }
        }
    }

    /// The stored cases of a third reading of 01, of 01 with 02's job 2, with its jobs 2 and 4, with its jobs
    /// 2, 4 and 7, with its jobs 2, 4, 7 and 8, and with job 12 too. The second implementation agrees with all
    /// of them.
    fn stored(&mut self) {
        let base = include_str!("../../data/base.jsonl");
        let job02 = include_str!("../../data/job02.jsonl");
        let job04 = include_str!("../../data/job04.jsonl");
        let job07 = include_str!("../../data/job07.jsonl");
        let job08 = include_str!("../../data/job08.jsonl");
        let job12 = include_str!("../../data/job12.jsonl");
        let files = [
            ("base", base),
            ("job02", job02),
            ("job04", job04),
            ("job07", job07),
            ("job08", job08),
            ("job12", job12),
        ];
        for (name, text) in files {
            for case in &cases::read(text).expect("readable cases") {
                if let Asked::Call { call, .. } = &case.asked {
                    self.call(call, 0, || format!("stored case {} of {name}", case.id));
                }
            }
        }
    }

    /// Random calls until the time is over.
    fn random(&mut self) {
        let Options { seed, time, .. } = self.options;
        // Should the archive end the process, this file has the case that it was at.
        let under_way = Path::new(env!("CARGO_TARGET_TMPDIR")).join("differential-case");
        let under_way = File::create(under_way).expect("a file to write to");
        let (start, mut number) = (Instant::now(), 0);
        while start.elapsed() < time {
            let again = format!("--seed {seed} --case {number}");
            let noted = under_way.write_all_at(format!("{again:<50}\n").as_bytes(), 0);
            noted.expect("a file that can be written");
            self.random_case(number, &again);
            number += 1;
        }
        println!("random: {number} cases of seed {seed}");
    }

    /// One random case.
    fn random_case(&mut self, number: u64, again: &str) {
        let call = mixed::case(self.options.seed, number);
        let again = || format!("random case, run again by {again}");
        self.call(&call, number as usize % 16, again);
    }

    /// The random case asked for, with its arguments.
    fn one_case(&mut self, number: u64) {
        let seed = self.options.seed;
        println!("{}", compare::arguments(&mixed::case(seed, number)));
        self.random_case(number, &format!("--seed {seed} --case {number}"));
    }

    /// Every refusal that an operation can give was met, and no other; every code, every scheme and every width,
    /// taken or refused as is due, runs of every kind, both marks of a circuit, with outputs of every kind, and
    /// both marks of material.
    fn all_met(&mut self) {
        let mut missing = self.coverage.report(&self.operations);
        missing.extend(self.coverage.report_codes());
        missing.extend(self.coverage.report_runs());
        missing.extend(self.coverage.report_schemes());
        missing.extend(self.coverage.report_outputs());
        missing.extend(self.coverage.report_widths());
        missing.extend(self.coverage.report_marks());
        missing.extend(self.coverage.report_others());
        for missing in missing {
            println!("NOT MET: {missing}");
            self.failures += 1;
        }
    }
}

fn main() -> ExitCode {
    let Some(options) = options::read(env::args()) else {
        eprintln!("{}", options::USAGE);
        return ExitCode::from(2);
    };
    let mut run = Run {
        options,
        operations: Operation::ALL.to_vec(),
        coverage: Coverage::default(),
        failures: 0,
        passed: 0,
        failed: 0,
    };
    if let Some(number) = options.case {
        run.calls("one random case", |run| run.one_case(number));
    } else if options.chosen {
        run.calls("edges", Run::edges);
        run.calls("pairs", Run::pairs);
        run.calls("limits", Run::limits);
        run.calls("stored cases", Run::stored);
        run.calls("random", Run::random);
        run.part("coverage", Run::all_met);
    }
    let Run { passed, failed, .. } = run;
    let verdict = if failed == 0 { "ok" } else { "FAILED" };
    println!(
        "\ntest result: {verdict}. {passed} passed; {failed} failed; {} calls agree\n",
        run.coverage.calls()
    );
    ExitCode::from(u8::from(failed > 0))
}
