//! Calls of the proved library through its C interface. This file is no part of library `second`,
//! which has no unsafe code and nothing of the proved library: the programs that link the archive
//! take it in by its path.

use second::call::{Call, Operation};
use second::interface::{self, Answer};

/// Bytes kept before and after every buffer, to see whether something was written beside it.
const GUARD: usize = 64;

/// What the guards are filled with.
const GUARD_BYTE: u8 = 0x5A;

/// The C functions, as the crate `weighhare` declares them.
#[path = "../../rust/src/library.rs"]
mod library;

/// A gate record as it lies in memory: what is handed on is bytes.
type Gate = [u8; interface::GATE];

/// A buffer at a chosen distance from an address that is a multiple of 16, with guards around it.
struct Lent {
    memory: Vec<u8>,
    start: usize,
    length: usize,
}

impl Lent {
    fn new(bytes: &[u8], skew: usize) -> Lent {
        let mut memory = vec![GUARD_BYTE; bytes.len() + 2 * GUARD + 16];
        let first = memory.as_ptr() as usize + GUARD;
        let start = GUARD + (skew + 16 - first % 16) % 16;
        memory[start..start + bytes.len()].copy_from_slice(bytes);
        Lent {
            memory,
            start,
            length: bytes.len(),
        }
    }

    fn pointer(&mut self) -> *mut u8 {
        self.memory[self.start..].as_mut_ptr()
    }

    /// The bytes, if nothing was written beside them.
    fn bytes(&self) -> Option<&[u8]> {
        let (before, rest) = self.memory.split_at(self.start);
        let (bytes, after) = rest.split_at(self.length);
        let mut guards = before.iter().chain(after);
        guards.all(|&byte| byte == GUARD_BYTE).then_some(bytes)
    }
}

/// Runs the call on the archive in output buffers that hold these bytes before it, or says what it
/// wrote that it must not. The buffers stand `skew` bytes past a multiple of 16.
pub fn run(call: &Call, before: &[Vec<u8>], skew: usize) -> Result<Answer, String> {
    // Gate records are aligned to 2.
    let skew = if call.operation == Operation::EvaluateGates {
        skew & !1
    } else {
        skew
    };
    let inputs = interface::inputs(call);
    let lend = |(_, bytes): &(&str, Vec<u8>)| Lent::new(bytes, skew);
    let mut lent: Vec<Lent> = inputs.iter().map(lend).collect();
    let mut outs: Vec<Lent> = before.iter().map(|bytes| Lent::new(bytes, skew)).collect();
    let mut words = [0xA5A5_A5A5_A5A5_A5A5; interface::WORDS];
    let (given, room) = (lists(&mut lent), lists(&mut outs));
    // The buffers live until the end of this function, and each has a list of its own.
    let number = unsafe { enter(call, &given, &room, &mut words) };
    for (lent, (name, bytes)) in lent.iter().zip(&inputs) {
        if lent.bytes() != Some(bytes) {
            return Err(format!("wrote to or beside the {name} handed in"));
        }
    }
    let mut buffers = Vec::new();
    for (index, out) in outs.iter().enumerate() {
        let bytes = out
            .bytes()
            .ok_or(format!("wrote beside output buffer {index}"))?;
        buffers.push(bytes.to_vec());
    }
    Ok(Answer {
        number,
        words,
        buffers,
    })
}

/// A list as a C function takes it: where it starts, and its length.
type List = (*mut u8, usize);

fn lists(lent: &mut [Lent]) -> Vec<List> {
    let list = |lent: &mut Lent| (lent.pointer(), lent.length);
    lent.iter_mut().map(list).collect()
}

/// Calls the C function, with the lists in the order of its arguments: every pointer is to as many
/// bytes as its length says, and nothing overlaps.
#[rustfmt::skip]
unsafe fn enter(call: &Call, inputs: &[List], outs: &[List], answer: &mut library::Answer) -> u8 {
    unsafe { match (call.operation, inputs, outs) {
        (Operation::Check, &[(c, cl)], []) =>
            library::weighhare_check(c, cl, answer),
        (Operation::Plain, &[(c, cl), (v, vl)], &[(w, wl)]) =>
            library::weighhare_plain(c, cl, v, vl, w, wl, answer),
        (Operation::Garble, &[(c, cl), (s, sl)], &[(m, ml), (z, zl), (o, ol)]) =>
            library::weighhare_garble(c, cl, s, sl, call.run, call.scheme, call.mark, m, ml, z, zl, o, ol, answer),
        (Operation::Encode, &[(c, cl), (v, vl), (z, zl), (o, ol)], &[(t, tl)]) =>
            library::weighhare_encode(c, cl, v, vl, z, zl, o, ol, t, tl, answer),
        (Operation::Evaluate, &[(c, cl), (t, tl), (m, ml)], &[(w, wl)]) =>
            library::weighhare_evaluate(c, cl, t, tl, m, ml, w, wl, answer),
        (Operation::EvaluateGates, &[(g, gl), (t, tl), (m, ml)], &[(w, wl)]) =>
            library::weighhare_evaluate_gates(call.n, call.m, g.cast(), gl / interface::GATE, t, tl, m, ml, w, wl, answer),
        (Operation::OutputTokens, &[(c, cl), (w, wl)], &[(t, tl)]) =>
            library::weighhare_output_tokens(c, cl, w, wl, t, tl, answer),
        (Operation::Decode, &[(c, cl), (t, tl), (m, ml)], &[(b, bl)]) =>
            library::weighhare_decode(c, cl, t, tl, m, ml, b, bl, answer),
        (Operation::Pick, &[(z, zl), (o, ol)], []) =>
            library::weighhare_pick(z, zl, o, ol, call.wire, call.bit, answer),
        (Operation::Comparator, [], &[(c, cl)]) =>
            library::weighhare_comparator(call.width, c, cl, answer),
        _ => panic!("the archive has no {}", interface::name(call.operation)),
    } }
}
