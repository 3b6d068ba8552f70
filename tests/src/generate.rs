//! Random arguments that are accepted, and calls made of them. The same generator state gives the
//! same arguments.

pub mod damage;
pub mod edges;
pub mod hashes;
pub mod limits;
pub mod mixed;
pub mod outputs;

use crate::block::{Block, Colour, BLOCK};
use crate::call::{Call, Operation};
use crate::circuit::{to_bytes, Circuit, Gate, Sizes};
use crate::comparator;
use crate::material::{self, Last, Mark, Material};
use crate::operations::{self, Wanted};
use crate::random::Random;
use crate::scheme::Scheme;

use hashes::any_mark;
use outputs::any_outputs;

// 01's codes. The stored files of cases are drawn from these two lists: a longer one would change
// every case.
const CHARGED: [u8; 8] = [1, 2, 4, 7, 8, 11, 13, 14];
const FREE: [u8; 2] = [6, 9];

/// The free codes that use one operand (02, job 2).
pub const ONE_OPERAND: [u8; 4] = [3, 5, 10, 12];

/// An accepted circuit of n inputs and q gates, of which about `charged` in a hundred are charged.
/// m is 1, q or something between. The codes are 01's.
pub fn circuit(random: &mut Random, n: u16, q: u16, charged: usize) -> Vec<u8> {
    let m = match random.below(4) {
        0 => 1,
        1 => q,
        _ => random.between(1, usize::from(q)) as u16,
    };
    let first = usize::from(n) + 1;
    let gates: Vec<Gate> = (first..first + usize::from(q))
        .map(|wire| gate(random, wire, charged))
        .collect();
    to_bytes(n, m, &gates)
}

/// A gate for a wire; half of the gates take both operands from the wires just before it.
fn gate(random: &mut Random, wire: usize, charged: usize) -> Gate {
    let last = wire - 1;
    let lowest = if random.chance(50) {
        1
    } else {
        last.saturating_sub(6).max(1)
    };
    let b = random.between(lowest + 1, last);
    let a = random.between(lowest, b - 1);
    let code = if random.chance(charged) {
        random.one_of(&CHARGED)
    } else {
        random.one_of(&FREE)
    };
    let (a, b) = (a as u16, b as u16);
    Gate { a, b, code }
}

/// A small accepted circuit of any kind, now and then without charged or without free gates.
pub fn small_circuit(random: &mut Random) -> Vec<u8> {
    let most_inputs = random.one_of(&[3, 10, 40]);
    let most_gates = random.one_of(&[2, 12, 60]);
    let n = random.between(2, most_inputs) as u16;
    let q = random.between(1, most_gates) as u16;
    let charged = random.one_of(&[0, 30, 60, 100]);
    circuit(random, n, q, charged)
}

/// Turns about half of 01's free codes into codes that use one operand.
fn use_one_operand(random: &mut Random, codes: Vec<&mut u8>) {
    for code in codes {
        if FREE.contains(code) && random.chance(50) {
            *code = random.one_of(&ONE_OPERAND);
        }
    }
}

/// The circuit, whose outputs are its last wires, with about half of its free gates turned into gates
/// that use one operand.
pub fn with_one_operand(random: &mut Random, mut bytes: Vec<u8>) -> Vec<u8> {
    let records = bytes[8..].chunks_exact_mut(7);
    use_one_operand(random, records.map(|record| &mut record[6]).collect());
    bytes
}

/// A small accepted circuit of any kind, of all codes.
pub fn any_small_circuit(random: &mut Random) -> Vec<u8> {
    let bytes = small_circuit(random);
    with_one_operand(random, bytes)
}

/// A seed of 16 bytes.
pub fn seed(random: &mut Random) -> Vec<u8> {
    random.bytes(BLOCK)
}

/// Run numbers (02, job 4): the least and the largest, those with bits in one half alone or in both,
/// and one whose bytes are all different. The stored cases of runs are made from this list.
pub const RUNS: [u64; 8] = [
    0,
    1,
    1 << 16,
    1 << 32,
    (1 << 32) + 1,
    1 << 63,
    u64::MAX,
    0x0102_0304_0506_0708,
];

/// A run number: 0 in half of the draws, else another of the list, or any.
pub fn run(random: &mut Random) -> u64 {
    match random.below(4) {
        0 | 1 => 0,
        2 => random.one_of(&RUNS[1..]),
        _ => {
            let byte = |run: u64, byte: u8| run << 8 | u64::from(byte);
            random.bytes(8).into_iter().fold(0, byte)
        }
    }
}

/// Draws a run number for a call of garble; no other operation takes one. It is drawn apart from the
/// other arguments: the stored cases of 01 and of 02's job 2 have none.
pub fn add_run(random: &mut Random, call: &mut Call) {
    if call.operation == Operation::Garble {
        call.run = run(random);
    }
}

/// A list of values, 0 or 1 each.
pub fn values(random: &mut Random, count: usize) -> Vec<u8> {
    (0..count).map(|_| random.below(2) as u8).collect()
}

/// A list of any tokens.
pub fn tokens(random: &mut Random, count: usize) -> Vec<u8> {
    random.bytes(BLOCK * count)
}

/// Any rows for each charged gate.
fn rows(random: &mut Random, circuit: &Circuit, scheme: Scheme) -> Vec<Vec<Block>> {
    let length = BLOCK * scheme.rows();
    let gates = 0..circuit.sizes().p;
    gates.map(|_| Block::list(&random.bytes(length))).collect()
}

/// A stranger's material: well-formed for the circuit, with random rows and colours.
pub fn stranger(random: &mut Random, circuit: &Circuit, scheme: Scheme) -> Vec<u8> {
    let rows = rows(random, circuit, scheme);
    let colours = (0..circuit.sizes().m).map(|_| Colour(random.chance(50)));
    let last = Last::Colours(colours.collect());
    Material { scheme, rows, last }.to_bytes(circuit)
}

/// What garbling a circuit makes.
struct Garbling {
    material: Vec<u8>,
    zeros: Vec<u8>,
    ones: Vec<u8>,
}

/// What garbling the circuit from some seed makes, in run 0.
fn garbling(random: &mut Random, circuit: &Circuit, scheme: Scheme, mark: Mark) -> Garbling {
    let sizes = circuit.sizes();
    let mut made = Garbling {
        material: vec![0; material::length(sizes, scheme, mark)],
        zeros: vec![0; BLOCK * sizes.wires()],
        ones: vec![0; BLOCK * sizes.n],
    };
    let wanted = Wanted {
        run: 0,
        scheme: scheme.byte(),
        mark: mark.number(),
    };
    let (bytes, seed) = (circuit.to_bytes(), seed(random));
    let Garbling {
        material,
        zeros,
        ones,
    } = &mut made;
    operations::garble(&bytes, &seed, wanted, material, zeros, ones)
        .expect("an accepted circuit, a seed and room");
    made
}

/// The material with colours that garbling the circuit from some seed makes, in run 0.
pub fn garbled(random: &mut Random, circuit: &Circuit, scheme: Scheme) -> Vec<u8> {
    garbling(random, circuit, scheme, Mark::Colours).material
}

/// A call of the operation that is not refused.
pub fn call(random: &mut Random, operation: Operation) -> Call {
    let bytes = small_circuit(random);
    call_on(random, operation, &bytes)
}

/// A call of the operation that is not refused, on a circuit of all codes and either mark, by any scheme and
/// with material of either mark; of garble in any run.
pub fn any_call(random: &mut Random, operation: Operation) -> Call {
    let bytes = any_small_circuit(random);
    let bytes = any_outputs(random, operation, bytes);
    let mut call = call_on(random, operation, &bytes);
    any_scheme(random, &mut call);
    any_mark(random, &mut call);
    add_run(random, &mut call);
    call
}

/// A call of the operation on an accepted circuit, not refused, by a scheme of 01 and with the mark 47 48;
/// buffers have some bytes to spare. Of garble it is in run 0.
pub fn call_on(random: &mut Random, operation: Operation, bytes: &[u8]) -> Call {
    let circuit = Circuit::read(bytes).expect("an accepted circuit");
    let Sizes { n, m, .. } = circuit.sizes();
    let mut call = Call {
        operation,
        fill: random.byte(),
        ..Call::default()
    };
    add_circuit(&mut call, &circuit);
    match operation {
        Operation::Check => {}
        Operation::Plain => call.values = values(random, n),
        Operation::Garble => {
            call.seed = seed(random);
            call.scheme = random.between(1, 3) as u8;
        }
        Operation::Encode => {
            call.values = values(random, n);
            (call.zero, call.one) = (tokens(random, n), tokens(random, n));
        }
        Operation::Evaluate | Operation::EvaluateGates => {
            add_material(random, &mut call, &circuit, n)
        }
        Operation::OutputTokens => call.tokens = tokens(random, circuit.sizes().wires()),
        Operation::Decode => add_material(random, &mut call, &circuit, m),
        Operation::Pick => add_lists(random, &mut call, n),
        Operation::Comparator => call.width = random.between(1, 64) as u64,
    }
    let needed = room(&call).expect("an accepted circuit");
    call.lens = needed.iter().map(|len| len + random.below(40)).collect();
    call
}

/// The circuit in the operation's form: bytes, a list, or nothing.
fn add_circuit(call: &mut Call, circuit: &Circuit) {
    match call.operation {
        Operation::EvaluateGates => {
            let Sizes { n, m, .. } = circuit.sizes();
            (call.n, call.m) = (n as u16, m as u16);
            call.gates = circuit.gates().map(|(_, gate)| gate).collect();
        }
        Operation::Pick | Operation::Comparator => {}
        _ => call.circuit = circuit.to_bytes(),
    }
}

/// Tokens, and material that garbling made or a stranger.
fn add_material(random: &mut Random, call: &mut Call, circuit: &Circuit, count: usize) {
    let scheme = random.one_of(&[Scheme::GaX, Scheme::GaXR, Scheme::HalfGates]);
    call.tokens = tokens(random, count);
    call.material = any_material(random, circuit, scheme);
}

/// Material that garbling made or a stranger.
fn any_material(random: &mut Random, circuit: &Circuit, scheme: Scheme) -> Vec<u8> {
    if random.chance(50) {
        garbled(random, circuit, scheme)
    } else {
        stranger(random, circuit, scheme)
    }
}

/// The sound call by scheme 4 (02, job 7), where its operation has a scheme: garble's argument, or the
/// material. It is drawn apart from the other arguments: the stored cases of 01 and of 02's jobs 2 and 4
/// have schemes 1 to 3.
pub fn rekey(random: &mut Random, call: &mut Call) {
    let before = room(call).expect("a sound call");
    let circuit = call.read_circuit();
    match (call.operation, circuit) {
        (Operation::Garble, _) => call.scheme = Scheme::RekeyedHalfGates.byte(),
        (Operation::Evaluate | Operation::EvaluateGates | Operation::Decode, Ok(circuit)) => {
            call.material = any_material(random, &circuit, Scheme::RekeyedHalfGates);
        }
        _ => {}
    }
    refit(call, before);
}

/// Gives the buffers of a sound call, which needed `before`, the room needed now: what they had to spare stays.
fn refit(call: &mut Call, before: Vec<usize>) {
    let needed = room(call).expect("a sound call");
    for ((len, before), needed) in call.lens.iter_mut().zip(before).zip(needed) {
        *len = *len - before + needed;
    }
}

/// A quarter of the sound calls are turned into such of scheme 4.
pub fn any_scheme(random: &mut Random, call: &mut Call) {
    if random.chance(25) {
        rekey(random, call);
    }
}

/// Widths of a comparator that are refused (02, job 1): on both sides of the limits, and such whose low 8,
/// 16 or 32 bits are a width.
pub const BAD_WIDTHS: [u64; 12] = [
    0,
    65,
    66,
    128,
    255,
    256,
    256 + 64,
    (1 << 16) + 1,
    (1 << 32) + 8,
    1 << 63,
    u64::MAX - 63,
    u64::MAX,
];

/// A number of 64 bits, of 33, of 9, of 7 or of 6: of the last two most are widths.
pub fn any_width(random: &mut Random) -> u64 {
    let word = random
        .bytes(8)
        .into_iter()
        .fold(0, |word, byte| word << 8 | u64::from(byte));
    word >> random.one_of(&[0, 31, 55, 57, 58])
}

/// Pick's two lists, wire and bit.
fn add_lists(random: &mut Random, call: &mut Call, count: usize) {
    (call.zero, call.one) = (tokens(random, count), tokens(random, count));
    call.wire = random.between(1, count) as u16;
    call.bit = random.below(2) as u8;
}

/// The bytes that the call's output buffers need, in 01's order; nothing where its circuit, its scheme, its
/// mark or its width is refused.
pub fn room(call: &Call) -> Option<Vec<usize>> {
    match call.operation {
        Operation::Check | Operation::Pick => return Some(Vec::new()),
        Operation::Comparator => return Some(vec![comparator::length(call.width)?]),
        _ => {}
    }
    let sizes = call.read_circuit().ok()?.sizes();
    let Sizes { n, m, .. } = sizes;
    let wires = sizes.wires();
    Some(match call.operation {
        Operation::Plain => vec![wires],
        Operation::Garble => {
            let scheme = Scheme::from_byte(call.scheme)?;
            let length = material::length(sizes, scheme, Mark::from_number(call.mark)?);
            vec![length, BLOCK * wires, BLOCK * n]
        }
        Operation::Encode => vec![BLOCK * n],
        Operation::OutputTokens => vec![BLOCK * m],
        Operation::Decode => vec![m],
        _ => vec![BLOCK * wires],
    })
}

/// Bytes for the program: noise, a right header before noise, or a circuit, sound or damaged.
pub fn program_input(random: &mut Random) -> Vec<u8> {
    let any_length = random.one_of(&[9, 60, 700]);
    let noise = random.below(any_length);
    match random.below(4) {
        0 => random.bytes(noise),
        1 => {
            let mut bytes = any_call(random, Operation::Check).circuit;
            bytes.truncate(8);
            bytes.extend(random.bytes(noise));
            bytes
        }
        2 => any_call(random, Operation::Check).circuit,
        _ => {
            let numbers: Vec<u8> = (0..random.between(1, 2))
                .map(|_| random.one_of(Operation::Check.refusals()))
                .collect();
            damage::any_damaged_call(random, Operation::Check, &numbers).circuit
        }
    }
}
