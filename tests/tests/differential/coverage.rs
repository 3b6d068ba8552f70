//! How often each refusal of each operation was met, which codes of gates, which runs, which schemes, which
//! outputs, which widths, and which marks of material.

use std::collections::{BTreeMap, BTreeSet};

use second::call::{Call, Operation};
use second::interface::{self, Answer};

use crate::marks::Marks;
use crate::outputs;

/// What was met.
#[derive(Default)]
pub struct Coverage {
    /// The calls of each operation that gave each number; 0 is for those not refused.
    numbers: BTreeMap<(Operation, u8), u64>,
    /// The codes of circuits that were not refused.
    taken: BTreeSet<u8>,
    /// The codes at the places of refusal 7.
    refused: BTreeSet<u8>,
    /// The calls of garble that gave each number, by the kind of their run.
    runs: BTreeMap<(&'static str, u8), u64>,
    /// The calls of each operation that has a scheme, by this and by the number given. Those not refused
    /// count where a gate is charged: else the scheme has no effect.
    schemes: BTreeMap<(Operation, u8, u8), u64>,
    /// The schemes at refusal 14.
    refused_schemes: BTreeSet<u64>,
    /// The calls of each operation that were not refused, by what its circuit's outputs are: a circuit may
    /// count for several kinds.
    outputs: BTreeMap<(Operation, &'static str), u64>,
    /// The calls with named outputs that were refused by 25 or 26, by which of the outputs was at fault.
    refused_outputs: BTreeMap<(u8, &'static str), u64>,
    /// The longest circuit of each operation that was not refused.
    longest: BTreeMap<Operation, usize>,
    /// The widths of comparators that were written.
    widths: BTreeSet<u64>,
    /// The widths at refusal 21.
    refused_widths: BTreeSet<u64>,
    /// The marks of material.
    marks: Marks,
}

/// The operations that have a scheme.
const WITH_SCHEME: [Operation; 4] = [
    Operation::Garble,
    Operation::Evaluate,
    Operation::EvaluateGates,
    Operation::Decode,
];

/// The codes that have rows.
const CHARGED: [u8; 8] = [1, 2, 4, 7, 8, 11, 13, 14];

/// The scheme of a call: garble's argument, or the material's byte.
fn scheme(call: &Call) -> Option<u8> {
    match call.operation {
        Operation::Garble => Some(call.scheme),
        _ => call.material.get(2).copied(),
    }
}

/// The kinds of run numbers.
const KINDS: [&str; 4] = ["0", "in the low half", "in the high half", "in both halves"];

/// Which kind a run number is of: where it has bits.
fn kind(run: u64) -> &'static str {
    match (run >> 32, run as u32) {
        (0, 0) => KINDS[0],
        (0, _) => KINDS[1],
        (_, 0) => KINDS[2],
        _ => KINDS[3],
    }
}

/// The codes of the gates handed in, in order, and the wire number of the first.
fn codes(call: &Call) -> (Vec<u8>, u64) {
    if call.operation == Operation::EvaluateGates {
        let codes = call.gates.iter().map(|gate| gate.code);
        return (codes.collect(), u64::from(call.n) + 1);
    }
    let [n, _, q] = outputs::header(&call.circuit);
    let records = call.circuit.get(8..).unwrap_or_default().chunks_exact(7);
    let codes = records.take(q).map(|record| record[6]);
    (codes.collect(), n as u64 + 1)
}

impl Coverage {
    /// Counts a call that was answered so.
    pub fn count(&mut self, call: &Call, answer: &Answer) {
        let of_number = (call.operation, answer.number);
        *self.numbers.entry(of_number).or_insert(0) += 1;
        if call.operation == Operation::Garble {
            let of_run = (kind(call.run), answer.number);
            *self.runs.entry(of_run).or_insert(0) += 1;
        }
        if answer.number == 0 {
            self.taken.extend(codes(call).0);
        }
        self.count_scheme(call, answer);
        self.count_outputs(call, answer);
        self.count_width(call, answer);
        self.marks.count(call, answer);
        if answer.number == 7 {
            let (codes, first) = codes(call);
            let index = answer.words[0] - first;
            self.refused.insert(codes[index as usize]);
        }
    }

    /// Counts the scheme of a call that was answered so.
    fn count_scheme(&mut self, call: &Call, answer: &Answer) {
        if answer.number == 14 {
            self.refused_schemes.insert(answer.words[0]);
        }
        let charged = || codes(call).0.iter().any(|code| CHARGED.contains(code));
        if let Some(scheme) = scheme(call).filter(|_| answer.number > 0 || charged()) {
            let of_scheme = (call.operation, scheme, answer.number);
            *self.schemes.entry(of_scheme).or_insert(0) += 1;
        }
    }

    /// Counts the outputs of a call on a circuit's bytes that was answered so.
    fn count_outputs(&mut self, call: &Call, answer: &Answer) {
        if !outputs::WITH_BYTES.contains(&call.operation) {
            return;
        }
        match answer.number {
            0 => {
                for kind in outputs::kinds(&call.circuit) {
                    *self.outputs.entry((call.operation, kind)).or_insert(0) += 1;
                }
                let longest = self.longest.entry(call.operation).or_insert(0);
                *longest = call.circuit.len().max(*longest);
            }
            25 | 26 => {
                let place = outputs::place(&call.circuit, answer.words[0]);
                let of_place = (answer.number, place);
                *self.refused_outputs.entry(of_place).or_insert(0) += 1;
            }
            _ => {}
        }
    }

    /// Counts the width of a call of the comparator that was answered so.
    fn count_width(&mut self, call: &Call, answer: &Answer) {
        match (call.operation, answer.number) {
            (Operation::Comparator, 0) => self.widths.insert(call.width),
            (_, 21) => self.refused_widths.insert(answer.words[0]),
            _ => false,
        };
    }

    /// The calls counted.
    pub fn calls(&self) -> u64 {
        self.numbers.values().sum()
    }

    fn met(&self, operation: Operation, number: u8) -> u64 {
        let met = self.numbers.get(&(operation, number));
        met.copied().unwrap_or(0)
    }

    /// Codes 1 to 14 were taken, and all others refused (01, Circuit; 02, job 2): prints which were,
    /// and gives where it is not so.
    pub fn report_codes(&self) -> Vec<String> {
        let (taken, refused) = (&self.taken, &self.refused);
        let count = refused.len();
        println!("coverage: codes taken: {taken:?}; codes refused: {count}");
        let due: BTreeSet<u8> = (1..=14).collect();
        let others: BTreeSet<u8> = (0..=255).filter(|code| !due.contains(code)).collect();
        let mut missing = Vec::new();
        if *taken != due {
            missing.push(format!("codes taken {taken:?}, not 1 to 14"));
        }
        if *refused != others {
            missing.push(format!("codes refused {refused:?}, not 0 and 15 to 255"));
        }
        missing
    }

    /// Garble gave every answer in runs of each kind (02, job 4): prints how often it was done, and
    /// gives what was not met.
    pub fn report_runs(&self) -> Vec<String> {
        let met = |kind, number| self.runs.get(&(kind, number)).copied().unwrap_or(0);
        let mut missing = Vec::new();
        for kind in KINDS {
            println!("coverage: garble, run {kind}: done {}", met(kind, 0));
            for &number in [0].iter().chain(Operation::Garble.refusals()) {
                if met(kind, number) == 0 {
                    missing.push(format!("garble, run {kind}, never gave {number}"));
                }
            }
        }
        missing
    }

    /// Each operation that has a scheme was done by schemes 1 to 4 and gave every refusal that comes after
    /// 14 by each of them, and all others were refused (01, Turned down; 02, job 7): prints how often it was
    /// done, and gives what was not met.
    pub fn report_schemes(&self) -> Vec<String> {
        let mut missing = Vec::new();
        for operation in WITH_SCHEME {
            let name = interface::name(operation);
            let met = |scheme, number| {
                let met = self.schemes.get(&(operation, scheme, number));
                met.copied().unwrap_or(0)
            };
            let done = [1, 2, 3, 4].map(|scheme| met(scheme, 0));
            println!("coverage: {name}, schemes 1 to 4: done {done:?}");
            let after = &operation.refusals()[operation.tried_before(14) + 1..];
            for (scheme, &number) in [0]
                .iter()
                .chain(after)
                .flat_map(|n| (1..=4).map(move |s| (s, n)))
            {
                if met(scheme, number) == 0 {
                    missing.push(format!("{name}, scheme {scheme}, never gave {number}"));
                }
            }
        }
        let others: BTreeSet<u64> = (0..=255)
            .filter(|scheme| !(1..=4).contains(scheme))
            .collect();
        if self.refused_schemes != others {
            let refused = &self.refused_schemes;
            missing.push(format!("schemes refused {refused:?}, not 0 and 5 to 255"));
        }
        missing
    }

    /// Each operation that takes a circuit's bytes was done on both marks, with outputs of every kind, and on
    /// the longest circuit that there is; 25 and 26 were met at the first output, at the last, and between (02,
    /// job 8): prints how often, and gives what was not met.
    pub fn report_outputs(&self) -> Vec<String> {
        let mut missing = Vec::new();
        for operation in outputs::WITH_BYTES {
            let name = interface::name(operation);
            let mut line = format!("coverage: {name}, outputs:");
            for kind in outputs::KINDS {
                let met = self.outputs.get(&(operation, kind)).copied().unwrap_or(0);
                line += &format!(" {kind} {met},");
                if met == 0 {
                    missing.push(format!("{name}, outputs: {kind}, never done"));
                }
            }
            let longest = self.longest.get(&operation).copied().unwrap_or(0);
            println!("{line} longest circuit of {longest} bytes");
            if longest != outputs::LONGEST {
                missing.push(format!("{name} never done on the longest circuit"));
            }
        }
        for (number, place) in [25, 26]
            .into_iter()
            .flat_map(|number| outputs::PLACES.map(|place| (number, place)))
        {
            let met = self.refused_outputs.get(&(number, place)).copied();
            println!("coverage: refusal {number}, {place}: {}", met.unwrap_or(0));
            if met.is_none() {
                missing.push(format!("refusal {number} never given for {place}"));
            }
        }
        missing
    }

    /// The comparators of every width from 1 to 64 were written and no other; 0, 65, and a width of more than
    /// 32 bits were refused, with their own number as the place (02, job 1): prints how many, and gives what was
    /// not met.
    pub fn report_widths(&self) -> Vec<String> {
        let (taken, refused) = (&self.widths, &self.refused_widths);
        let (count, others) = (taken.len(), refused.len());
        println!("coverage: comparator: widths taken: {count}; widths refused: {others}");
        let mut missing = Vec::new();
        if !taken.iter().copied().eq(1..=64) {
            missing.push(format!("widths taken {taken:?}, not 1 to 64"));
        }
        for width in [0, 65, (1 << 32) + 8, u64::MAX] {
            if !refused.contains(&width) {
                missing.push(format!("width {width} never refused"));
            }
        }
        if refused.iter().any(|width| (1..=64).contains(width)) {
            missing.push("a width from 1 to 64 refused".to_string());
        }
        missing
    }

    /// Both marks of material were met as is due: gives what was not.
    pub fn report_marks(&self) -> Vec<String> {
        self.marks.report()
    }

    /// No operation gave a number that it has no argument for: none gave 22 to 24, which are kept for a reader of
    /// texts (02, job 5), 27 and 28, which are kept for a board (job 11), and 30, which no run is known to meet
    /// (job 12). Gives what was.
    pub fn report_others(&self) -> Vec<String> {
        let mut others = Vec::new();
        for (operation, number) in self.numbers.keys() {
            if *number > 0 && !operation.refusals().contains(number) {
                let name = interface::name(*operation);
                others.push(format!("{name} gave {number}, which it does not have"));
            }
        }
        others
    }

    /// Prints a line for each operation, and gives what it should have met and did not.
    pub fn report(&self, operations: &[Operation]) -> Vec<String> {
        let mut missing = Vec::new();
        for &operation in operations {
            let name = interface::name(operation);
            let mut line = format!("coverage: {name}: done {}", self.met(operation, 0));
            for &number in [0].iter().chain(operation.refusals()) {
                let met = self.met(operation, number);
                if number > 0 {
                    line += &format!(", {number}: {met}");
                }
                if met == 0 {
                    missing.push(format!("{name} never gave {number}"));
                }
            }
            println!("{line}");
        }
        missing
    }
}
