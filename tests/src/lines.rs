//! Cases as the test programs `vectors` and `garblings` read them: a line each, fields in hexadecimal.
//! Those of evaluate's list form are read here.

use crate::call::{Call, Operation, Outcome};
use crate::circuit::Gate;
use crate::hex;
use crate::material::Mark;
use crate::refused::Refused;

/// A line of fields, one space between two; "--" stands for no byte.
pub fn line(fields: &[Vec<u8>]) -> String {
    let field = |bytes: &Vec<u8>| match bytes.is_empty() {
        true => "--".to_string(),
        false => hex::text(bytes),
    };
    let fields: Vec<String> = fields.iter().map(field).collect();
    fields.join(" ") + "\n"
}

/// A number as 4 bytes, big-endian.
fn word(number: u64) -> [u8; 4] {
    let number = u32::try_from(number).expect("a number of 4 bytes");
    number.to_be_bytes()
}

/// 00 and the numbers returned, 4 bytes each; or the refusal's number and its place in 4 bytes.
pub fn answer(answer: &Result<Vec<u64>, Refused>) -> Vec<u8> {
    let (first, numbers) = match answer {
        Ok(numbers) => (0, numbers.clone()),
        Err(refused) => (refused.number, vec![refused.place]),
    };
    let words = numbers.into_iter().flat_map(word);
    [first].into_iter().chain(words).collect()
}

/// Some bytes, and after them the lengths of the output buffers.
fn setting(first: &[u8], call: &Call) -> Vec<u8> {
    // What the program has room for.
    let room = match call.operation {
        Operation::Garble => 1 << 16,
        _ => 1 << 17,
    };
    let mut bytes = first.to_vec();
    for &length in &call.lens {
        assert!(length <= room, "more room than the program has");
        bytes.extend(word(length as u64));
    }
    bytes
}

/// n, m and the gates of the list form, 2 bytes each, 5 bytes each gate.
fn gate_list(call: &Call) -> Vec<u8> {
    let gate = |gate: &Gate| {
        let ([a0, a1], [b0, b1]) = (gate.a.to_be_bytes(), gate.b.to_be_bytes());
        [a0, a1, b0, b1, gate.code]
    };
    let sizes = [call.n.to_be_bytes(), call.m.to_be_bytes()].concat();
    let gates = call.gates.iter().flat_map(gate);
    sizes.into_iter().chain(gates).collect()
}

/// The one output buffer before the call.
fn before(call: &Call) -> Vec<u8> {
    let buffer = call.buffers().concat();
    assert!(buffer.len() <= 1 << 17, "more room than the program has");
    buffer
}

/// The arguments of a call, as fields.
fn arguments(call: &Call) -> Vec<Vec<u8>> {
    let circuit = call.circuit.clone();
    let (zero, one) = (call.zero.clone(), call.one.clone());
    match call.operation {
        Operation::Check => vec![circuit],
        Operation::Plain => vec![circuit, call.values.clone(), before(call)],
        Operation::OutputTokens => vec![circuit, call.tokens.clone(), before(call)],
        Operation::Garble => {
            let setting = setting(&[call.scheme, call.fill], call);
            vec![circuit, call.seed.clone(), setting]
        }
        Operation::Encode => {
            let setting = setting(&[call.fill], call);
            vec![circuit, call.values.clone(), zero, one, setting]
        }
        Operation::Evaluate | Operation::Decode => {
            let setting = setting(&[call.fill], call);
            vec![circuit, call.tokens.clone(), call.material.clone(), setting]
        }
        Operation::EvaluateGates => {
            let (list, setting) = (gate_list(call), setting(&[call.fill], call));
            vec![list, call.tokens.clone(), call.material.clone(), setting]
        }
        Operation::Pick => {
            let asked = [&call.wire.to_be_bytes()[..], &[call.bit]].concat();
            vec![zero, one, asked]
        }
        Operation::Comparator => panic!("no file has lines of comparators"),
    }
}

/// The fields of a call and of what must come of it: the arguments, the answer, the buffers after the
/// call. Those of garble, encode, evaluate and decode are left out after a refusal, which leaves
/// them as they were.
fn fields(call: &Call, expected: &Outcome) -> Vec<Vec<u8>> {
    let mut fields = arguments(call);
    fields.push(answer(&expected.answer));
    let left_out = matches!(
        call.operation,
        Operation::Garble
            | Operation::Encode
            | Operation::Evaluate
            | Operation::EvaluateGates
            | Operation::Decode
    );
    if !(left_out && expected.answer.is_err()) {
        fields.extend(expected.buffers.clone());
    }
    fields
}

/// The mark of a line that has none: 47 48.
const NO_MARK: u16 = Mark::Colours.number();

/// The line of a call and of what must come of it. One of garble is of run 0 and of mark 47 48.
pub fn case(call: &Call, expected: &Outcome) -> String {
    assert_eq!(call.run, 0, "a line that has no run number");
    assert_eq!(call.mark, NO_MARK, "a line that has no mark");
    line(&fields(call, expected))
}

/// The line of a garbling that has its run number. It is of mark 47 48.
pub fn case_with_run(call: &Call, expected: &Outcome) -> String {
    assert_eq!(call.operation, Operation::Garble, "no other has a run");
    assert_eq!(call.mark, NO_MARK, "a line that has no mark");
    let mut fields = fields(call, expected);
    add_run(&mut fields[GARBLE_SETTING], call.run);
    line(&fields)
}

/// The line of a garbling that has its run number and its mark.
pub fn case_with_mark(call: &Call, expected: &Outcome) -> String {
    assert_eq!(call.operation, Operation::Garble, "no other has a mark");
    let mut fields = fields(call, expected);
    add_run(&mut fields[GARBLE_SETTING], call.run);
    add_mark(&mut fields[GARBLE_SETTING], call.mark);
    line(&fields)
}

/// Which field of a garbling's line is the setting.
const GARBLE_SETTING: usize = 2;

/// Adds the run number to the setting of a garbling or of a chain: 8 bytes, big-endian, at its end (02,
/// job 4). A setting without these is of run 0.
pub fn add_run(setting: &mut Vec<u8>, run: u64) {
    setting.extend(run.to_be_bytes());
}

/// Adds the mark to the setting of a garbling or of a chain, after the run number and all else: 2 bytes,
/// big-endian (02, job 12). A setting without these is of mark 47 48.
pub fn add_mark(setting: &mut Vec<u8>, mark: u16) {
    setting.extend(mark.to_be_bytes());
}

/// The case of evaluate's list form on a line: the call, and what must come of it. Nothing where the
/// line has none.
pub fn list_case(line: &str) -> Option<(Call, Outcome)> {
    let fields = fields_of(line)?;
    let [list, tokens, material, setting, answer, after @ ..] = &fields[..] else {
        return None;
    };
    let (sizes, gates) = list.split_at_checked(4)?;
    let (&fill, lens) = setting.split_first()?;
    let (&first, numbers) = answer.split_first()?;
    let numbers = words(numbers);
    let call = Call {
        operation: Operation::EvaluateGates,
        n: half(sizes, 0),
        m: half(sizes, 2),
        gates: gates.chunks_exact(5).map(gate).collect(),
        tokens: tokens.clone(),
        material: material.clone(),
        lens: words(lens).iter().map(|&len| len as usize).collect(),
        fill,
        ..Call::default()
    };
    let outcome = match first {
        0 => Outcome {
            answer: Ok(numbers),
            buffers: after.to_vec(),
        },
        number => Outcome {
            answer: Err(Refused {
                number,
                place: *numbers.first()?,
            }),
            buffers: call.buffers(),
        },
    };
    Some((call, outcome))
}

/// The fields of a line; nothing where one is not hexadecimal.
pub fn fields_of(line: &str) -> Option<Vec<Vec<u8>>> {
    line.split(' ').map(bytes).collect()
}

/// The bytes of a field.
fn bytes(field: &str) -> Option<Vec<u8>> {
    match field {
        "--" => Some(Vec::new()),
        _ => hex::bytes(field),
    }
}

/// The number of the two bytes at an index.
fn half(bytes: &[u8], at: usize) -> u16 {
    u16::from_be_bytes([bytes[at], bytes[at + 1]])
}

/// The gate of a record of 5 bytes.
pub fn gate(record: &[u8]) -> Gate {
    Gate {
        a: half(record, 0),
        b: half(record, 2),
        code: record[4],
    }
}

/// The numbers of 4 bytes each.
fn words(bytes: &[u8]) -> Vec<u64> {
    let word = |four: &[u8]| u64::from(half(four, 0)) << 16 | u64::from(half(four, 2));
    bytes.chunks_exact(4).map(word).collect()
}
