//! What the C interface is handed for a call, and what it must hand back. This implementation alone
//! says what must come back.

use crate::call::{Call, Operation, Outcome};
use crate::circuit::Gate;
use crate::operations;
use crate::refused::Refused;

/// The words of an answer.
pub const WORDS: usize = 4;

/// What a call through the C interface leaves.
#[derive(Clone, Debug, PartialEq, Eq)]
pub struct Answer {
    /// The refusal's number, 0 if none.
    pub number: u8,
    /// The place if refused, else the results; words not used are 0.
    pub words: [u64; WORDS],
    /// The whole output buffers.
    pub buffers: Vec<Vec<u8>>,
}

/// The operation's name, as in its C function.
pub fn name(operation: Operation) -> &'static str {
    match operation {
        Operation::Check => "check",
        Operation::Plain => "plain",
        Operation::Garble => "garble",
        Operation::Encode => "encode",
        Operation::Evaluate => "evaluate",
        Operation::EvaluateGates => "evaluate_gates",
        Operation::OutputTokens => "output_tokens",
        Operation::Decode => "decode",
        Operation::Pick => "pick",
        Operation::Comparator => "comparator",
    }
}

/// The lists handed in, each with its name, in the order of the C function's arguments.
pub fn inputs(call: &Call) -> Vec<(&'static str, Vec<u8>)> {
    let (circuit, values) = (("circuit", &call.circuit), ("values", &call.values));
    let (zero, one) = (("zeros", &call.zero), ("ones", &call.one));
    let (tokens, material) = (("tokens", &call.tokens), ("material", &call.material));
    let gates = gate_bytes(&call.gates);
    let lists = match call.operation {
        Operation::Check => vec![circuit],
        Operation::Plain => vec![circuit, values],
        Operation::Garble => vec![circuit, ("seed", &call.seed)],
        Operation::Encode => vec![circuit, values, zero, one],
        Operation::Evaluate | Operation::Decode => vec![circuit, tokens, material],
        Operation::EvaluateGates => vec![("gates", &gates), tokens, material],
        Operation::OutputTokens => vec![circuit, ("wires", &call.tokens)],
        Operation::Pick => vec![zero, one],
        Operation::Comparator => vec![],
    };
    let owned = |(name, list): (&'static str, &Vec<u8>)| (name, list.clone());
    lists.into_iter().map(owned).collect()
}

/// The bytes of a gate record of the list form.
pub const GATE: usize = 6;

/// Gate records as they lie in memory: two numbers of 16 bits, a code, and a byte that nobody reads.
fn gate_bytes(gates: &[Gate]) -> Vec<u8> {
    let bytes = |gate: &Gate| {
        let ([a0, a1], [b0, b1]) = (gate.a.to_ne_bytes(), gate.b.to_ne_bytes());
        [a0, a1, b0, b1, gate.code, 0xEE]
    };
    gates.iter().flat_map(bytes).collect()
}

/// The output buffers before a call: a pattern that differs from byte to byte and, by the call's
/// fill, from call to call.
pub fn buffers(call: &Call) -> Vec<Vec<u8>> {
    let byte = |index: usize| call.fill ^ (index.wrapping_mul(167) >> 3) as u8;
    let buffer = |&len: &usize| (0..len).map(byte).collect();
    call.lens.iter().map(buffer).collect()
}

/// What must come back from the call.
pub fn expected(call: &Call) -> Answer {
    if call.operation == Operation::Pick {
        return picked(call);
    }
    answer(call.run_in(buffers(call)))
}

/// What the C interface hands back where this came of a call, of any operation but pick.
pub fn answer(outcome: Outcome) -> Answer {
    let (number, words) = match outcome.answer {
        Ok(results) => (0, words(&results)),
        Err(Refused { number, place }) => (number, words(&[place])),
    };
    let buffers = outcome.buffers;
    Answer {
        number,
        words,
        buffers,
    }
}

/// The numbers, and 0 in the words not used.
fn words(numbers: &[u64]) -> [u64; WORDS] {
    let mut words = [0; WORDS];
    words[..numbers.len()].copy_from_slice(numbers);
    words
}

/// Pick's answer: which list (0 or 1), where in it the part starts, and the part's length.
fn picked(call: &Call) -> Answer {
    let Call {
        zero,
        one,
        wire,
        bit,
        ..
    } = call;
    let answer = operations::check_pick(zero, one, *wire, *bit);
    let part = operations::pick(zero, one, *wire, *bit).as_ptr_range();
    let within = |list: &[u8]| list.as_ptr_range().contains(&part.start);
    let list = usize::from(within(one));
    let start = if list == 1 { one } else { zero }.as_ptr() as usize;
    let (offset, length) = (
        (part.start as usize).wrapping_sub(start),
        part.end as usize - part.start as usize,
    );
    let results = [list, offset, length].map(|number| number as u64);
    let (number, words) = match answer {
        Ok(()) => (0, words(&results)),
        Err(Refused { number, place }) => (number, words(&[place])),
    };
    Answer {
        number,
        words,
        buffers: Vec::new(),
    }
}
