//! Outputs by name, by the words of 02, job 8, on the second implementation and on the archive. Circuits are
//! put together here byte by byte, and what is due is worked out from these bytes: which marks are taken, how
//! many outputs there may be, which length there must be; every wire and every mark of an output record,
//! every three records with any faults, and that they are searched right after the gates; the colours that
//! garble writes, the outputs' tokens and the decoded bits, in the list's order, on every list of values by
//! each scheme; what is refused of the outputs' tokens; that a circuit of mark 43 48 and the same with its
//! last wires named get the same answers and bytes from every operation; that material shows no mark; the
//! longest circuit.

mod sides;

use second::block::{Block, BLOCK};
use second::call::{Call, Operation};
use second::evaluator::value_lists;
use second::generate::damage::damaged_call;
use second::generate::{call, room};
use second::interface::{self, Answer};
use second::program;
use second::random::Random;
use sides::{Side, SIDES};

/// The operations that take a circuit's bytes, each with the first condition that it tries after the circuit's.
const WITH_BYTES: [(Operation, Option<u8>); 7] = [
    (Operation::Check, None),
    (Operation::Plain, Some(9)),
    (Operation::Garble, Some(8)),
    (Operation::Encode, Some(9)),
    (Operation::Evaluate, Some(11)),
    (Operation::OutputTokens, Some(11)),
    (Operation::Decode, Some(11)),
];

/// Three inputs, and wires 4 to 8: AND, XNOR, OR, NOT of wire 4, a < b.
const GATES: [[u8; 7]; 5] = [
    [0x43, 0x47, 0, 1, 0, 2, 8],
    [0x43, 0x47, 0, 3, 0, 4, 9],
    [0x43, 0x47, 0, 2, 0, 5, 14],
    [0x43, 0x47, 0, 4, 0, 5, 3],
    [0x43, 0x47, 0, 6, 0, 7, 2],
];
const INPUTS: usize = 3;
const WIRES: usize = 8;
const CHARGED: usize = 3;

/// The mark, the sizes and the gates.
fn header_and_gates(mark: u8, m: u16) -> Vec<u8> {
    let [high, low] = m.to_be_bytes();
    let header = vec![0x43, mark, 0, INPUTS as u8, high, low, 0, GATES.len() as u8];
    [header, GATES.concat()].concat()
}

/// The circuit with the outputs named.
fn circuit(outputs: &[u16]) -> Vec<u8> {
    let mut bytes = header_and_gates(0x49, outputs.len() as u16);
    for output in outputs {
        bytes.extend([0x43, 0x4F]);
        bytes.extend(output.to_be_bytes());
    }
    bytes
}

/// "43 48 circuits stand for the list of their last m wires": the circuit with these named.
fn named_of(bytes: &[u8]) -> Vec<u8> {
    let number = |at: usize| u16::from_be_bytes([bytes[at], bytes[at + 1]]);
    let (last, m) = (number(2) + number(6), number(4));
    let mut named = bytes.to_vec();
    named[1] = 0x49;
    for wire in last - m + 1..=last {
        named.extend([0x43, 0x4F]);
        named.extend(wire.to_be_bytes());
    }
    named
}

/// What check answers to the bytes: the number, and the words.
fn checked(side: Side, bytes: &[u8]) -> (u8, [u64; 4]) {
    let answer = side(&Call {
        circuit: bytes.to_vec(),
        ..Call::default()
    });
    (answer.number, answer.words)
}

/// A refusal as check answers it.
fn refusal(number: u8, place: usize) -> (u8, [u64; 4]) {
    (number, [place as u64, 0, 0, 0])
}

#[test]
fn two_marks_and_no_other() {
    for (name, side) in SIDES {
        for first in 0..=255 {
            for second in 0..=255 {
                let mut bytes = circuit(&[8, 1]);
                bytes[..2].copy_from_slice(&[first, second]);
                let due = match [first, second] {
                    [0x43, 0x49] => (0, [3, 2, 5, 3]),
                    // Output records after a circuit of this mark are bytes too many.
                    [0x43, 0x48] => refusal(4, bytes.len()),
                    _ => refusal(2, 0),
                };
                assert_eq!(checked(side, &bytes), due, "{name}, {first:x} {second:x}");
            }
        }
    }
}

/// "m is at most n+q", and for 43 48 at most q; 1 at least.
#[test]
fn how_many_outputs_there_may_be() {
    for (name, side) in SIDES {
        for m in 0..=WIRES + 3 {
            let due = match m {
                1..=WIRES => (0, [3, m as u64, 5, 3]),
                _ => refusal(3, 2),
            };
            let named = circuit(&vec![4; m]);
            assert_eq!(checked(side, &named), due, "{name}, {m} named");
            let due = if m > 5 { refusal(3, 2) } else { due };
            let bytes = header_and_gates(0x48, m as u16);
            assert_eq!(checked(side, &bytes), due, "{name}, the last {m}");
        }
        for m in [256, 4096, 65_534, 65_535] {
            let bytes = header_and_gates(0x49, m);
            assert_eq!(checked(side, &bytes), refusal(3, 2), "{name}, {m}");
        }
        // The other limits are the old ones.
        for (n, m, q) in [
            (1, 2, 5),
            (0, 2, 5),
            (4_097, 2, 5),
            (3, 2, 0),
            (3, 2, 65_533),
            (4_096, 2, 61_440),
        ] {
            let mut bytes = circuit(&[8, 1]);
            let sizes: [u16; 3] = [n, m, q];
            bytes[2..8].copy_from_slice(&sizes.map(u16::to_be_bytes).concat());
            assert_eq!(checked(side, &bytes), refusal(3, 2), "{name}, {sizes:?}");
        }
    }
}

/// "The length is 8+7q+4m": 1 under 8 bytes, and 4 for every other. 3 comes before it.
#[test]
fn which_length_there_must_be() {
    let whole = circuit(&[8, 1, 8]);
    assert_eq!(whole.len(), 8 + 7 * 5 + 4 * 3);
    for (name, side) in SIDES {
        for length in 0..whole.len() + 20 {
            let mut bytes = whole.clone();
            bytes.resize(length, 0);
            let due = match length {
                0..8 => refusal(1, length),
                55 => (0, [3, 3, 5, 3]),
                _ => refusal(4, length),
            };
            assert_eq!(checked(side, &bytes), due, "{name}, {length} bytes");
        }
        let header = |m| [0x43, 0x49, 0, 2, 0, m, 0, 1];
        assert_eq!(checked(side, &header(3)), refusal(4, 8), "{name}");
        assert_eq!(checked(side, &header(4)), refusal(3, 2), "{name}");
    }
}

/// The 4 bytes of an output record: its right mark and a wrong one, with a wire.
fn record(is_marked: bool, wire: u16) -> [u8; 4] {
    let [high, low] = wire.to_be_bytes();
    [0x43, if is_marked { 0x4F } else { 0x47 }, high, low]
}

/// "25 when an output record's mark differs, 26 when its wire is 0 or above n+q, the first faulty record deciding,
/// by its lower number": every record fine, or with either fault, or with both.
#[test]
fn the_first_faulty_record_decides() {
    let kinds = [(true, 8), (true, 0), (true, 9), (false, 8), (false, 65_535)];
    for (name, side) in SIDES {
        for number in 0..5usize.pow(3) {
            let chosen = [number % 5, number / 5 % 5, number / 25].map(|kind| kinds[kind]);
            let mut bytes = header_and_gates(0x49, 3);
            bytes.extend(
                chosen
                    .map(|(is_marked, wire)| record(is_marked, wire))
                    .concat(),
            );
            let faulty = chosen.iter().position(|&kind| kind != kinds[0]);
            let due = match faulty {
                None => (0, [3, 3, 5, 3]),
                Some(index) if !chosen[index].0 => refusal(25, index + 1),
                Some(index) => refusal(26, index + 1),
            };
            assert_eq!(checked(side, &bytes), due, "{name}, {chosen:?}");
        }
    }
}

/// Every wire that an output may have, and every mark that it may not.
#[test]
fn which_wires_and_marks_an_output_has() {
    for (name, side) in SIDES {
        for wire in 0..=65_535 {
            let due = match wire {
                1..=8 => (0, [3, 2, 5, 3]),
                _ => refusal(26, 2),
            };
            assert_eq!(checked(side, &circuit(&[1, wire])), due, "{name}, {wire}");
        }
        for (at, byte) in [0, 1]
            .into_iter()
            .flat_map(|at| (0..=255).map(move |b| (at, b)))
        {
            let mut bytes = circuit(&[1, 8]);
            let record = bytes.len() - 4;
            let due = match bytes[record + at] == byte {
                true => (0, [3, 2, 5, 3]),
                false => refusal(25, 2),
            };
            bytes[record + at] = byte;
            assert_eq!(checked(side, &bytes), due, "{name}, byte {at} is {byte}");
        }
    }
}

/// A call on these bytes with every list empty and no room.
fn bare(operation: Operation, bytes: &[u8]) -> Call {
    let buffers = match operation {
        Operation::Check => 0,
        Operation::Garble => 3,
        _ => 1,
    };
    Call {
        operation,
        circuit: bytes.to_vec(),
        lens: vec![0; buffers],
        ..Call::default()
    }
}

/// "Right after 7": a gate's fault comes before an output's, and an output's before all that is tried after the
/// circuit.
#[test]
fn outputs_are_searched_right_after_the_gates() {
    // The last gate's mark, operand and code.
    let last = 8 + 7 * 4;
    let gates = [(last, 5), (last + 5, 6), (last + 6, 7)];
    for (name, side) in SIDES {
        for (operation, next) in WITH_BYTES {
            let number = |bytes: &[u8]| {
                let answer = side(&bare(operation, bytes));
                (answer.number, answer.words[0])
            };
            let name = format!("{name}, {operation:?}");
            if let Some(next) = next {
                assert_eq!(number(&circuit(&[8, 1])), (next, 0), "{name}");
            }
            for (wrong, due) in [(record(false, 8), 25), (record(true, 9), 26)] {
                let mut bytes = circuit(&[8, 1]);
                let start = bytes.len() - 4;
                bytes[start..].copy_from_slice(&wrong);
                assert_eq!(number(&bytes), (due, 2), "{name}");
                for (at, due) in gates {
                    let mut bytes = bytes.clone();
                    bytes[at] = 0xFF;
                    assert_eq!(number(&bytes), (due, 8), "{name}");
                }
            }
        }
    }
}

/// Outputs: inputs, middle wires, last wires, in falling order, more than once, all, more than there are gates.
const LISTS: [&[u16]; 9] = [
    &[2],
    &[3, 1],
    &[5],
    &[6, 7, 8],
    &[8, 7, 6],
    &[4, 4, 4],
    &[8, 1, 8, 5, 1],
    &[1, 2, 3, 4, 5, 6, 7, 8],
    &[7, 3, 3, 8, 1, 5, 2],
];

/// Answers a call that must not be refused, in buffers of just the bytes named.
fn done(side: Side, mut call: Call) -> Answer {
    call.lens = room(&call).expect("an accepted circuit");
    let answer = side(&call);
    assert_eq!(answer.number, 0, "{call:02x?}");
    answer
}

/// A garbling: its three buffers.
fn garbled(side: Side, bytes: &[u8], scheme: u8) -> [Vec<u8>; 3] {
    let call = Call {
        operation: Operation::Garble,
        circuit: bytes.to_vec(),
        seed: b"a seed: 16 bytes".to_vec(),
        run: 3,
        scheme,
        ..Call::default()
    };
    let answer = done(side, call);
    let m = 256 * usize::from(bytes[4]) + usize::from(bytes[5]);
    let rows = [4, 3, 2, 2][usize::from(scheme) - 1];
    let length = 11 + m + CHARGED * (4 + BLOCK * rows);
    assert_eq!(answer.words, [length as u64, 4 * CHARGED as u64, 0, 0]);
    answer.buffers.try_into().expect("three buffers")
}

/// The material of named outputs is that of as many last wires, but for the colours, which are those of the
/// named wires' zero tokens, in the list's order. Both lists of tokens are the same.
#[test]
fn garble_writes_the_colours_of_the_named_wires() {
    for (name, side) in SIDES {
        for (scheme, list) in (1..=4).flat_map(|scheme| LISTS.map(|list| (scheme, list))) {
            let [material, zeros, ones] = garbled(side, &circuit(list), scheme);
            let name = format!("{name}, scheme {scheme}, {list:?}");
            let start = material.len() - list.len();
            let zero = Block::list(&zeros);
            for (&wire, &colour) in list.iter().zip(&material[start..]) {
                let due = zero[usize::from(wire) - 1].0[BLOCK - 1] & 1;
                assert_eq!(colour, due, "{name}, wire {wire}");
            }
            if list.len() <= GATES.len() {
                let old = header_and_gates(0x48, list.len() as u16);
                let [old_material, old_zeros, old_ones] = garbled(side, &old, scheme);
                assert_eq!(material[..start], old_material[..start], "{name}");
                assert_eq!((zeros, ones), (old_zeros, old_ones), "{name}");
            }
        }
    }
}

/// What comes of the chain on a list of values: the bits, with what is due to them.
fn check_chain(side: Side, list: &[u16], scheme: u8, values: &[u8], name: &str) {
    let bytes = circuit(list);
    let [material, zeros, ones] = garbled(side, &bytes, scheme);
    let on = |operation, tokens: &[u8]| Call {
        operation,
        circuit: bytes.clone(),
        values: values.to_vec(),
        zero: zeros[..BLOCK * INPUTS].to_vec(),
        one: ones.clone(),
        tokens: tokens.to_vec(),
        material: material.clone(),
        ..Call::default()
    };
    let carried = &done(side, on(Operation::Plain, &[])).buffers[0];
    let tokens = &done(side, on(Operation::Encode, &[])).buffers[0];
    let held = &done(side, on(Operation::Evaluate, tokens)).buffers[0];
    assert_eq!(
        (carried.len(), held.len()),
        (WIRES, BLOCK * WIRES),
        "{name}"
    );
    let chosen = done(side, on(Operation::OutputTokens, held));
    assert_eq!(chosen.words, [0; 4], "{name}");
    let bits = &done(side, on(Operation::Decode, &chosen.buffers[0])).buffers[0];
    assert_eq!(bits.len(), list.len(), "{name}");
    for (k, &wire) in list.iter().enumerate() {
        let wire = usize::from(wire);
        let due = &held[BLOCK * (wire - 1)..BLOCK * wire];
        let token = &chosen.buffers[0][BLOCK * k..BLOCK * (k + 1)];
        assert_eq!(token, due, "{name}, output {}", k + 1);
        assert_eq!(bits[k], carried[wire - 1], "{name}, output {}", k + 1);
    }
}

/// "Decoded bits follow the list's order": each is the plain value of its wire, an input's own too, and that of a
/// wire which comes again each time.
#[test]
fn decoded_bits_follow_the_order_of_the_list() {
    for (name, side) in SIDES {
        for (scheme, list) in (1..=4).flat_map(|scheme| LISTS.map(|list| (scheme, list))) {
            for values in value_lists(INPUTS) {
                let name = format!("{name}, scheme {scheme}, {list:?}, {values:?}");
                check_chain(side, list, scheme, &values, &name);
            }
        }
    }
}

/// Of a circuit of mark 43 48, the outputs' tokens are the last 16m bytes.
#[test]
fn the_tokens_of_the_last_wires_are_the_last() {
    for (name, side) in SIDES {
        for m in 1..=GATES.len() {
            let call = Call {
                operation: Operation::OutputTokens,
                circuit: header_and_gates(0x48, m as u16),
                tokens: (0..(BLOCK * WIRES) as u8).collect(),
                ..Call::default()
            };
            let due = call.tokens[BLOCK * (WIRES - m)..].to_vec();
            assert_eq!(done(side, call).buffers, [due], "{name}, the last {m}");
        }
    }
}

/// The outputs' tokens: 11 unless there are exactly 16(n+q) bytes, at their length; then 19 under 16m, at 16m.
/// Bytes past these are untouched.
#[test]
fn what_is_refused_of_the_outputs_tokens() {
    let (wires, needed) = (BLOCK * WIRES, BLOCK * 3);
    for (name, side) in SIDES {
        for length in 0..2 * wires {
            let mut call = bare(Operation::OutputTokens, &circuit(&[8, 1, 8]));
            call.tokens = vec![7; length];
            let due = match length == wires {
                true => refusal(19, needed),
                false => refusal(11, length),
            };
            let answer = side(&call);
            assert_eq!((answer.number, answer.words), due, "{name}, {length}");
        }
        for room in 0..needed + 30 {
            let mut call = bare(Operation::OutputTokens, &circuit(&[8, 1, 8]));
            (call.tokens, call.lens) = (vec![7; wires], vec![room]);
            let (before, answer) = (interface::buffers(&call), side(&call));
            let due = match room < needed {
                true => before[0].clone(),
                false => [&[7; 48], &before[0][needed..]].concat(),
            };
            assert_eq!(answer.number, if room < needed { 19 } else { 0 }, "{name}");
            assert_eq!(answer.buffers, [due], "{name}, room for {room}");
        }
    }
}

/// The call with its circuit's last wires named.
fn with_named(call: &Call) -> Call {
    Call {
        circuit: named_of(&call.circuit),
        ..call.clone()
    }
}

/// A circuit of mark 43 48 and the same with its last wires named get the same answers and the same bytes from
/// every operation, where nothing is refused and where something is that comes after the circuit.
#[test]
fn a_43_48_circuit_stands_for_its_last_wires() {
    let mut random = Random::new(81);
    for (operation, _) in WITH_BYTES {
        let numbers = operation.refusals_of_01();
        let after = numbers.iter().filter(|&&number| number > 7);
        let mut calls: Vec<Call> = (0..60).map(|_| call(&mut random, operation)).collect();
        for &number in after.cycle().take(60) {
            calls.push(damaged_call(&mut random, operation, &[number]));
        }
        for call in calls {
            for (name, side) in SIDES {
                let (old, named) = (side(&call), side(&with_named(&call)));
                assert_eq!(old, named, "{name}, {operation:?}: {call:02x?}");
            }
        }
    }
}

/// Material shows no mark: what garble writes for the one is well-formed for the other, if they have as many
/// outputs, and evaluates to the same tokens, in the list form too, which means 43 48 alone.
#[test]
fn material_does_not_show_the_mark() {
    for (name, side) in SIDES {
        for scheme in 1..=4 {
            let (named, old) = (circuit(&[8, 1, 8]), header_and_gates(0x48, 3));
            let [material, _, ones] = garbled(side, &named, scheme);
            let held = [named, old].map(|circuit| {
                let call = Call {
                    operation: Operation::Evaluate,
                    circuit,
                    tokens: ones.clone(),
                    material: material.clone(),
                    ..Call::default()
                };
                done(side, call)
            });
            assert_eq!(held[0], held[1], "{name}, scheme {scheme}");
        }
    }
}

/// The list form has no output records: more outputs than gates are 3.
#[test]
fn the_list_form_means_43_48_alone() {
    let mut random = Random::new(82);
    let sound = call(&mut random, Operation::EvaluateGates);
    let q = sound.gates.len() as u16;
    for (name, side) in SIDES {
        for m in q + 1..=sound.n + q {
            let answer = side(&Call { m, ..sound.clone() });
            assert_eq!((answer.number, answer.words), refusal(3, 2), "{name}");
        }
    }
}

/// The longest circuit there is, all its wires outputs: 720,879 bytes.
fn longest() -> Vec<u8> {
    let mut bytes = vec![0x43, 0x49, 0, 2, 0xFF, 0xFF, 0xFF, 0xFD];
    for k in 0..65_533u16 {
        let code = match k % 1000 {
            0 => 8,
            even if even % 2 == 0 => 6,
            _ => 5,
        };
        let [high, low] = (k + 2).to_be_bytes();
        bytes.extend([0x43, 0x47, 0, 1, high, low, code]);
    }
    for wire in (1..=65_535u16).rev() {
        bytes.extend([0x43, 0x4F]);
        bytes.extend(wire.to_be_bytes());
    }
    bytes
}

#[test]
fn the_longest_circuit() {
    let bytes = longest();
    assert_eq!(bytes.len(), 720_879);
    for (name, side) in SIDES {
        let sizes = [2, 65_535, 65_533, 66];
        assert_eq!(checked(side, &bytes), (0, sizes), "{name}");
        assert_eq!(checked(side, &bytes[..720_878]), refusal(4, 720_878));
        let mut faulty = bytes.clone();
        faulty[720_875 + 2..].fill(0);
        assert_eq!(checked(side, &faulty), refusal(26, 65_535), "{name}");
        faulty[720_875 + 1] = 0;
        assert_eq!(checked(side, &faulty), refusal(25, 65_535), "{name}");
        let call = Call {
            operation: Operation::OutputTokens,
            circuit: bytes.clone(),
            tokens: (0..BLOCK * 65_535)
                .map(|i| (i / BLOCK % 251) as u8)
                .collect(),
            ..Call::default()
        };
        let due: Vec<u8> = call.tokens.iter().rev().copied().collect();
        assert_eq!(done(side, call).buffers, [due], "{name}: falling");
    }
}

/// The most bytes that a buffer can need: the material of that circuit by scheme 1, with every gate charged.
#[test]
fn the_most_room() {
    let mut call = bare(Operation::Garble, &longest());
    for record in call.circuit[8..8 + 7 * 65_533].chunks_exact_mut(7) {
        record[6] = 8;
    }
    (call.seed, call.scheme) = (vec![1; BLOCK], 1);
    for (name, side) in SIDES {
        let answer = side(&call);
        let due = refusal(19, 4_521_790);
        assert_eq!((answer.number, answer.words), due, "{name}");
    }
}

/// The program takes both marks, and prints the four numbers and the lengths of schemes 1 to 3.
#[test]
fn what_the_program_prints() {
    assert_eq!(program::output(&circuit(&[8])), "3 1 5 3\n216 168 120\n");
    let seven = circuit(&[8, 1, 2, 3, 4, 5, 6]);
    assert_eq!(program::output(&seven), "3 7 5 3\n222 174 126\n");
    assert_eq!(program::output(&circuit(&[8, 9])), "refused 26 2\n");
    assert_eq!(program::output(&seven[..7]), "refused 1 7\n");
}
