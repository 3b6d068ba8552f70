//! Which marks of material were met, garble's argument or the material's own (02, job 12).

use std::collections::{BTreeMap, BTreeSet};

use second::call::{Call, Operation};
use second::generate::hashes::{has_mark, BAD_MARKS};
use second::interface::{self, Answer};

use crate::outputs;

/// The two marks.
const COLOURS: u16 = 0x4748;
const HASHES: u16 = 0x474A;

/// What a token was by its output's two hashes, where decode was done.
const KNOWN: [&str; 3] = ["by the first hash", "by the second", "by equal hashes"];

/// What was met.
#[derive(Default)]
pub struct Marks {
    /// The calls of each operation that has a mark, by this and by the number given; 0 is for those not refused.
    met: BTreeMap<(Operation, u16, u8), u64>,
    /// Garble's marks at refusal 13.
    refused: BTreeSet<u16>,
    /// The calls refused by 29, by which of the outputs was at fault.
    unknown: BTreeMap<&'static str, u64>,
    /// The outputs decoded by hashes, by what the token was.
    known: BTreeMap<&'static str, u64>,
}

/// The mark of a call: garble's argument, or the material's first bytes.
fn mark(call: &Call) -> Option<u16> {
    match call.operation {
        Operation::Garble => Some(call.mark),
        _ => {
            let bytes = call.material.get(..2)?;
            Some(u16::from_be_bytes([bytes[0], bytes[1]]))
        }
    }
}

impl Marks {
    /// Counts a call that was answered so.
    pub fn count(&mut self, call: &Call, answer: &Answer) {
        let Some(mark) = mark(call).filter(|_| has_mark(call.operation)) else {
            return;
        };
        let of_mark = (call.operation, mark, answer.number);
        *self.met.entry(of_mark).or_insert(0) += 1;
        match (call.operation, answer.number) {
            (Operation::Garble, 13) => drop(self.refused.insert(mark)),
            (Operation::Decode, 29) => {
                let place = outputs::place(&call.circuit, answer.words[0]);
                *self.unknown.entry(place).or_insert(0) += 1;
            }
            (Operation::Decode, 0) if mark == HASHES => self.count_known(call, answer),
            _ => {}
        }
    }

    /// Counts the outputs of a call of decode that was done by hashes.
    fn count_known(&mut self, call: &Call, answer: &Answer) {
        let [_, m, _] = outputs::header(&call.circuit);
        let hashes = &call.material[call.material.len() - 32 * m..];
        for (pair, bit) in hashes.chunks_exact(32).zip(&answer.buffers[0]) {
            let kind = match (pair[..16] == pair[16..], bit) {
                (true, 0) => KNOWN[2],
                (false, 0) => KNOWN[0],
                _ => KNOWN[1],
            };
            *self.known.entry(kind).or_insert(0) += 1;
        }
    }

    /// Each operation that has a mark was done with both, and gave every refusal that comes after 13 with each;
    /// 29 came with hashes alone, at the first output, at the last and between; garble refused the marks of the
    /// list and neither of the two; and decode found tokens by either hash: prints how often, and gives what was
    /// not met.
    pub fn report(&self) -> Vec<String> {
        let mut missing = Vec::new();
        for operation in Operation::ALL.into_iter().filter(|&op| has_mark(op)) {
            let name = interface::name(operation);
            let met = |mark, number| {
                let met = self.met.get(&(operation, mark, number));
                met.copied().unwrap_or(0)
            };
            let done = [COLOURS, HASHES].map(|mark| met(mark, 0));
            println!("coverage: {name}, marks 47 48 and 47 4A: done {done:?}");
            let after = &operation.refusals()[operation.tried_before(13) + 1..];
            for &number in [0].iter().chain(after) {
                for mark in [COLOURS, HASHES] {
                    let due = number != 29 || mark == HASHES;
                    if due != (met(mark, number) > 0) {
                        let times = met(mark, number);
                        missing.push(format!("{name}, mark {mark:04x}: {number} {times} times"));
                    }
                }
            }
        }
        missing.extend(self.report_refused());
        missing.extend(all_met("refusal 29", &outputs::PLACES, &self.unknown));
        missing.extend(all_met("an output decoded", &KNOWN, &self.known));
        missing
    }

    /// Garble refused the marks of the list and neither of the two.
    fn report_refused(&self) -> Vec<String> {
        let refused = &self.refused;
        println!("coverage: garble: marks refused: {}", refused.len());
        let mut missing = Vec::new();
        for mark in BAD_MARKS.into_iter().filter(|mark| !refused.contains(mark)) {
            missing.push(format!("mark {mark:04x} never refused"));
        }
        if [COLOURS, HASHES].iter().any(|mark| refused.contains(mark)) {
            missing.push("the mark 47 48 or 47 4A refused".to_string());
        }
        missing
    }
}

/// Prints how often each kind was met, and gives those that were not.
fn all_met(name: &str, kinds: &[&str], met: &BTreeMap<&'static str, u64>) -> Vec<String> {
    let times = |kind: &str| met.get(kind).copied().unwrap_or(0);
    for kind in kinds {
        println!("coverage: {name}, {kind}: {}", times(kind));
    }
    let missing = kinds.iter().filter(|kind| times(kind) == 0);
    missing
        .map(|kind| format!("{name}, {kind}: never"))
        .collect()
}
