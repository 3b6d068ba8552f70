//! The forms of comparison of the test programs, each with the changes that make its wrong cases: one at least
//! for each thing that is compared.

use super::{At, Damage, Form, Right};
use crate::call::Operation;

/// Right files that are written by hand, from FIPS 197 and RFC 4493.
pub const BY_HAND: [(&str, &str); 5] = [
    (
        "fips197-encryption",
        include_str!("../../../crates/vectors/data/fips197-encryption"),
    ),
    (
        "fips197-key-expansion",
        include_str!("../../../crates/vectors/data/fips197-key-expansion"),
    ),
    (
        "fips197-words",
        include_str!("../../../crates/vectors/data/fips197-words"),
    ),
    (
        "fips197-fixed-key",
        include_str!("../../../crates/vectors/data/fips197-fixed-key"),
    ),
    (
        "doubling",
        include_str!("../../../crates/vectors/data/doubling"),
    ),
];

/// Wrong cases.
type Cases = Vec<(Right, Damage)>;

/// All forms.
pub fn all() -> Vec<Form> {
    vec![
        encryption(),
        key_expansion(),
        words(),
        fixed_key(),
        doubling(),
        sigma(),
        check(),
        plain(),
        encode(),
        pick(),
        evaluate(),
        output_tokens(),
        decode(),
        chain(),
        fill(),
        clash(),
        zeroed(),
        garble(),
        garble_large(),
    ]
}

/// What every refusal has.
fn refusal() -> Cases {
    let damages = [Damage::Number, Damage::Place, Damage::FarPlace];
    damages.map(|damage| (Right::Refused, damage)).to_vec()
}

/// Each of so many numbers that are answered.
fn counts(numbers: usize) -> Cases {
    let count = |number| (Right::Counted, Damage::Count(number));
    (0..numbers).map(count).collect()
}

/// A case that is done as a refused one, and one that is refused as done.
fn either(done: Right, refused: Right) -> Cases {
    vec![(done, Damage::Answer), (refused, Damage::Answer)]
}

/// Bytes of a field, of the right case at an index.
fn bytes<const N: usize>(line: usize, field: usize, at: [At; N]) -> Cases {
    let byte = |at| (Right::Line(line), Damage::Byte(field, at));
    at.map(byte).to_vec()
}

/// What a call writes to each buffer, and what it leaves after that.
fn buffers(fields: &[usize]) -> Cases {
    let of = |&field: &usize| {
        let byte = |at| (Right::Spare, Damage::Byte(field, at));
        [At::First, At::LastWritten, At::Past].map(byte)
    };
    fields.iter().flat_map(of).collect()
}

/// What a refused call leaves in each buffer, where lines have that.
fn kept(fields: &[usize]) -> Cases {
    let of = |&field: &usize| {
        let byte = |at| (Right::Kept, Damage::Byte(field, at));
        [At::First, At::Last].map(byte)
    };
    fields.iter().flat_map(of).collect()
}

/// A form whose lines are blocks and words that follow from each other, and no calls.
fn of_bytes(file: &'static str, right: &'static [&'static str], cases: Cases) -> Form {
    Form {
        file,
        right,
        answer: None,
        setting: None,
        buffers: &[],
        writers: &[],
        cases,
    }
}

/// Key, plaintext, ciphertext: the examples of appendices B and C.1.
fn encryption() -> Form {
    let at = [At::First, At::Index(7), At::Last];
    let cases = [bytes(0, 2, at), bytes(1, 2, at)].concat();
    of_bytes("wrong-fips197-encryption", &["fips197-encryption"], cases)
}

/// Bytes of a schedule: the first, which is the key's; the first that is made; one between; the last.
const OF_SCHEDULE: [At; 4] = [At::First, At::Index(16), At::Index(90), At::Last];

/// Key, schedule.
fn key_expansion() -> Form {
    let right = &["fips197-key-expansion"];
    let cases = bytes(0, 1, OF_SCHEDULE);
    of_bytes("wrong-fips197-key-expansion", right, cases)
}

/// Key, i, word i: each byte of a word; and the next word in its place.
fn words() -> Form {
    let byte = |(word, at)| (Right::Line(word), Damage::Byte(2, At::Index(at)));
    let damaged = [(0, 0), (4, 0), (22, 1), (33, 2), (43, 3)].map(byte);
    let moved = [4, 42].map(|word| (Right::Line(word), Damage::Exchanged(2)));
    let cases = damaged.into_iter().chain(moved).collect();
    of_bytes("wrong-fips197-words", &["fips197-words"], cases)
}

/// Key, schedule. Here the key is compared as well: the constant is the schedule of one key.
fn fixed_key() -> Form {
    let key = bytes(0, 0, [At::First, At::Last]);
    let cases = [key, bytes(0, 1, OF_SCHEDULE)].concat();
    of_bytes("wrong-fips197-fixed-key", &["fips197-fixed-key"], cases)
}

/// A, 2A, 4A: the block of RFC 4493, and one that is reduced.
fn doubling() -> Form {
    let at = [At::First, At::Last];
    let of = |line| [bytes(line, 1, at), bytes(line, 2, at)].concat();
    of_bytes("wrong-doubling", &["doubling"], [of(0), of(3)].concat())
}

/// A block, and σ of it: both ends of each half.
fn sigma() -> Form {
    let at = [At::First, At::Index(7), At::Index(8), At::Last];
    let cases = [bytes(0, 1, at), bytes(15, 1, at)].concat();
    of_bytes("wrong-sigma", &["sigma"], cases)
}

/// Circuit, answer. The first byte of an answer that has four numbers says that they are such.
fn check() -> Form {
    let mark = vec![(Right::Done, Damage::Mark)];
    let either = either(Right::Done, Right::Refused);
    Form {
        file: "wrong-check",
        right: &["check", "check-named"],
        answer: Some(1),
        setting: None,
        buffers: &[],
        writers: &[],
        cases: [refusal(), counts(4), mark, either].concat(),
    }
}

/// Circuit, values, the buffer before, answer, and the buffer.
fn plain() -> Form {
    Form {
        file: "wrong-plain",
        right: &["plain", "plain-named", "plain-one-operand"],
        writers: &[Operation::Plain],
        ..listed()
    }
}

/// Circuit, the tokens of all wires, the buffer before, answer, and the buffer.
fn output_tokens() -> Form {
    Form {
        file: "wrong-output-tokens",
        right: &["output-tokens"],
        writers: &[Operation::OutputTokens],
        ..listed()
    }
}

/// What these two have in common: after a refusal too the line has the buffer.
fn listed() -> Form {
    let either = either(Right::Done, Right::Refused);
    Form {
        file: "",
        right: &[],
        answer: Some(3),
        setting: None,
        buffers: &[4],
        writers: &[],
        cases: [refusal(), either, buffers(&[4]), kept(&[4])].concat(),
    }
}

/// Circuit, values, zero list, one list, setting, answer, and the buffer.
fn encode() -> Form {
    let either = either(Right::Fill, Right::NoRoom);
    Form {
        file: "wrong-encode",
        right: &["encode", "encode-generated", "encode-named", "encode-fill"],
        answer: Some(5),
        setting: Some((4, 0)),
        buffers: &[6],
        writers: &[Operation::Encode],
        cases: [refusal(), either, buffers(&[6])].concat(),
    }
}

/// Zero list, one list, wire and bit, answer, and the part, which is none after a refusal.
fn pick() -> Form {
    let either = either(Right::Done, Right::Refused);
    let part = [At::First, At::Last].map(|at| (Right::Done, Damage::Byte(4, at)));
    let none = [Right::Done, Right::Refused].map(|right| (right, Damage::Exchanged(4)));
    Form {
        file: "wrong-pick",
        right: &["pick", "pick-generated"],
        answer: Some(3),
        setting: None,
        buffers: &[],
        writers: &[],
        cases: [refusal(), either, part.to_vec(), none.to_vec()].concat(),
    }
}

/// Circuit, tokens, material, setting, answer, and the buffer. A refusal and the number of encryptions are of
/// one length: the first byte alone says which it is.
fn evaluate() -> Form {
    let mark = [Right::Fill, Right::NoRoom].map(|right| (right, Damage::Mark));
    Form {
        file: "wrong-evaluate",
        right: &["evaluate", "evaluate-generated", "evaluate-fill"],
        answer: Some(4),
        setting: Some((3, 0)),
        buffers: &[5],
        writers: &[Operation::Evaluate],
        cases: [refusal(), counts(1), mark.to_vec(), buffers(&[5])].concat(),
    }
}

/// Circuit, tokens, material, setting, answer, and the buffer.
fn decode() -> Form {
    let either = either(Right::Fill, Right::NoRoom);
    Form {
        file: "wrong-decode",
        right: &["decode", "decode-generated"],
        answer: Some(4),
        setting: Some((3, 0)),
        buffers: &[5],
        writers: &[Operation::Decode],
        cases: [refusal(), either, buffers(&[5])].concat(),
    }
}

/// Circuit, seed, values, setting, answer, and the buffers of the wires' tokens and of the bits, which a line
/// has after a refusal too. Of a refusal by each call, that it was this call.
fn chain() -> Form {
    let caller = (1..=5).map(|call| (Right::RefusedBy(call), Damage::Caller));
    let either = either(Right::Done, Right::Refused);
    let filled = [buffers(&[5, 6]), kept(&[5, 6])].concat();
    Form {
        file: "wrong-chain",
        right: &["chain-generated", "chain-comparator"],
        answer: Some(4),
        setting: Some((3, 1)),
        buffers: &[5, 6],
        writers: &[Operation::Evaluate, Operation::Decode],
        cases: [caller.collect(), refusal(), either, filled].concat(),
    }
}

/// Answer, fill, what a buffer must hold where nothing is refused, and what it holds. After a refusal it must
/// hold the fill. Lines of encode, evaluate, decode and garble leave it out then, so that no change of theirs
/// shows whether it is looked at.
fn fill() -> Form {
    let either = either(Right::Done, Right::Kept);
    let byte = |right| {
        let at = [At::First, At::Index(1), At::Last];
        at.map(|at| (right, Damage::Byte(3, at)))
    };
    let lengths = [Damage::Shorter(3), Damage::Longer(3)].map(|damage| (Right::Done, damage));
    let bytes = [byte(Right::Done), byte(Right::Kept)].concat();
    Form {
        file: "wrong-fill",
        right: &["fill"],
        answer: Some(0),
        setting: None,
        buffers: &[3],
        writers: &[],
        cases: [either, bytes, lengths.to_vec()].concat(),
    }
}

/// Bytes, where the hashes stand in them and how many outputs there are, and the answer.
fn clash() -> Form {
    let either = either(Right::Done, Right::Refused);
    Form {
        file: "wrong-clash",
        right: &["clash"],
        answer: Some(2),
        setting: None,
        buffers: &[],
        writers: &[],
        cases: [refusal(), either].concat(),
    }
}

/// A buffer before, how many of its bytes become zero, and the buffer after: the first zero, the last, and the
/// byte after that. The line at index 10 has 17 bytes, of which 16 become zero.
fn zeroed() -> Form {
    let at = [At::First, At::Index(15), At::Last];
    of_bytes("wrong-zeroed", &["zeroed"], bytes(10, 2, at))
}

/// Circuit, seed, setting, answer, and the three buffers. What garble writes is never the fill alone: as a
/// refused case, one that is done has wrong buffers too.
fn garble() -> Form {
    let either = either(Right::Spare, Right::NoRoom);
    Form {
        file: "wrong-garble",
        right: &[
            "garble",
            "garble-generated",
            "garble-one-operand",
            "garble-no-room",
        ],
        answer: Some(3),
        setting: Some((2, 1)),
        buffers: &[4, 5, 6],
        writers: &[Operation::Garble],
        cases: [refusal(), counts(2), either, buffers(&[4, 5, 6])].concat(),
    }
}

/// Rule, seed, scheme, answer, and the fingerprints of the three buffers; by each scheme of 01. No such case is
/// refused, and the first byte of the answer says so. What comes after the written bytes is no field of a line.
fn garble_large() -> Form {
    let byte = |line, field, at| (Right::Line(line), Damage::Byte(field, at));
    Form {
        file: "wrong-garble-large",
        right: &["garble-large"],
        answer: Some(3),
        setting: None,
        buffers: &[],
        writers: &[],
        // The circuits of the lines 0 to 3 from each scheme's first on have 32 gates.
        cases: vec![
            (Right::Line(0), Damage::Mark),
            (Right::Line(18), Damage::Count(0)),
            (Right::Line(36), Damage::Count(1)),
            byte(1, 4, At::First),
            byte(19, 4, At::Last),
            byte(37, 5, At::First),
            byte(2, 5, At::Last),
            byte(20, 6, At::First),
            byte(38, 6, At::Last),
        ],
    }
}
