//! Calls damaged so that a chosen condition holds (01, Turned down, by number; 02, jobs 1, 8 and 12).

use super::hashes::{any_mark, BAD_MARKS};
use super::outputs::any_outputs;
use super::{
    add_run, any_scheme, any_width, call, call_on, room, small_circuit, use_one_operand,
    BAD_WIDTHS, CHARGED, FREE, ONE_OPERAND,
};
use crate::block::BLOCK;
use crate::call::{Call, Operation};
use crate::circuit::{Gate, Mark};
use crate::material;
use crate::random::Random;

/// A call of the operation with every condition of `numbers` met at once. They are brought about from the
/// last that is tried to the first, so that a later one does not undo the condition that must be given; of
/// a number named twice, the second damage may undo the first. Sound circuits have the mark 43 48, sound
/// gates 01's codes, a sound scheme is one of 01's, and sound material has the mark 47 48.
pub fn damaged_call(random: &mut Random, operation: Operation, numbers: &[u8]) -> Call {
    let is_of_01 = numbers.iter().all(|&number| number <= 20);
    assert!(
        is_of_01,
        "no output record to spoil with the mark 43 48, and no width"
    );
    damaged_from(random, operation, numbers, call)
}

/// The same with sound circuits of either mark and of all codes, by any scheme, with material of either mark,
/// and of garble in any run.
pub fn any_damaged_call(random: &mut Random, operation: Operation, numbers: &[u8]) -> Call {
    let circuit = |random: &mut Random| {
        let bytes = small_circuit(random);
        any_outputs(random, operation, bytes)
    };
    damaged_call_with(random, operation, numbers, circuit, any_mark)
}

/// The same with material of the mark 47 48, on circuits that `circuit` makes of 01's codes: half of the free
/// ones become such that use one operand.
pub fn damaged_call_on(
    random: &mut Random,
    operation: Operation,
    numbers: &[u8],
    circuit: impl Fn(&mut Random) -> Vec<u8>,
) -> Call {
    damaged_call_with(random, operation, numbers, circuit, |_, _| ())
}

/// The same with the mark that `mark` gives a sound call.
pub fn damaged_call_with(
    random: &mut Random,
    operation: Operation,
    numbers: &[u8],
    circuit: impl Fn(&mut Random) -> Vec<u8>,
    mark: impl Fn(&mut Random, &mut Call),
) -> Call {
    let mut damaged = damaged_from(random, operation, numbers, |random, operation| {
        let bytes = circuit(random);
        let mut call = call_on(random, operation, &bytes);
        any_scheme(random, &mut call);
        mark(random, &mut call);
        call
    });
    use_one_operand(random, codes(&mut damaged));
    add_run(random, &mut damaged);
    damaged
}

/// Damages sound calls, which `sound` makes, until every condition of `numbers` is met.
fn damaged_from(
    random: &mut Random,
    operation: Operation,
    numbers: &[u8],
    sound: impl Fn(&mut Random, Operation) -> Call,
) -> Call {
    for number in numbers {
        let has = operation.refusals().contains(number);
        assert!(has, "{operation:?} has no argument for refusal {number}");
    }
    let mut from_last = numbers.to_vec();
    from_last.sort_by_key(|&number| operation.tried_before(number));
    from_last.reverse();
    loop {
        let mut call = sound(random, operation);
        let met = |&number: &u8| damage(random, &mut call, number);
        if from_last.iter().all(met) {
            return refused_still(call, numbers);
        }
    }
}

/// A call damaged by what 01 refuses, for the conditions of `numbers`. Where its refusal was a code that
/// is free now (02, job 2), 16 is added to that code; where it was scheme 4 (02, job 7), 5 takes its
/// place; where it was the mark 43 49 (02, job 8), 43 4A does; and where it was the material's mark 47 4A (02,
/// job 12), 47 4B does: then it is refused as it was.
pub fn refused_still(call: Call, numbers: &[u8]) -> Call {
    let call = match numbers.contains(&2) {
        true => mark_refused_still(call),
        false => call,
    };
    let call = code_refused_still(call);
    let call = match numbers.contains(&13) {
        true => material_mark_refused_still(call),
        false => call,
    };
    match numbers.contains(&14) {
        true => scheme_refused_still(call),
        false => call,
    }
}

/// The same for the mark. A call that is refused for what comes before it stays as it was drawn.
fn mark_refused_still(call: Call) -> Call {
    if Mark::of(&call.circuit).is_none() {
        return call;
    }
    let mut raised = call.clone();
    raised.circuit[1] = 0x4A;
    let refused = raised.read_circuit().err();
    match refused.is_some_and(|refused| refused.number == 2) {
        true => raised,
        false => call,
    }
}

/// The same for codes.
fn code_refused_still(call: Call) -> Call {
    let mut raised = call.clone();
    for code in codes(&mut raised) {
        *code += if ONE_OPERAND.contains(code) { 16 } else { 0 };
    }
    let refused = raised.read_circuit().err();
    match refused.is_some_and(|refused| refused.number == 7) {
        true => raised,
        false => call,
    }
}

/// The same for the material's mark, or garble's. A call that is refused for what comes before it stays as it
/// was drawn.
fn material_mark_refused_still(call: Call) -> Call {
    const REFUSED: u16 = 0x474B;
    let mut raised = call.clone();
    if call.operation == Operation::Garble {
        raised.mark = material::Mark::from_number(call.mark).map_or(call.mark, |_| REFUSED);
    } else if material::Mark::of(&call.material).is_some() {
        raised.material[..2].copy_from_slice(&REFUSED.to_be_bytes());
    }
    let refused = raised.run().answer.err();
    match refused.is_some_and(|refused| refused.number == 13) {
        true => raised,
        false => call,
    }
}

/// The same for the scheme. A call that is refused for what comes before it stays as it was drawn.
fn scheme_refused_still(call: Call) -> Call {
    let mut raised = call.clone();
    match scheme_byte(&mut raised) {
        Some(scheme @ 4) => *scheme = 5,
        _ => return call,
    }
    let refused = raised.run().answer.err();
    match refused.is_some_and(|refused| refused.number == 14) {
        true => raised,
        false => call,
    }
}

/// The scheme byte: garble's argument, or the material's.
fn scheme_byte(call: &mut Call) -> Option<&mut u8> {
    match call.operation {
        Operation::Garble => Some(&mut call.scheme),
        _ => call.material.get_mut(2),
    }
}

/// The codes of the call's gates, in the bytes or in the list.
fn codes(call: &mut Call) -> Vec<&mut u8> {
    if call.operation == Operation::EvaluateGates {
        return call.gates.iter_mut().map(|gate| &mut gate.code).collect();
    }
    let records = gate_records(call).into_iter();
    records.map(|record| &mut record[6]).collect()
}

/// Damages one argument of the call so that condition `number` holds, by 01's codes: `refused_still`
/// does the rest. False where it cannot: the operation has no such argument, there is no row record to
/// spoil, or earlier damage is in the way.
pub fn damage(random: &mut Random, call: &mut Call, number: u8) -> bool {
    if !call.operation.refusals().contains(&number) {
        return false;
    }
    match number {
        1 => cut(random, &mut call.circuit, 8),
        2 => spoil(random, call.circuit.get_mut(..2)),
        3 => spoil_sizes(random, call),
        4 => relength(random, &mut call.circuit, 8),
        5 => spoil_gate_mark(random, call),
        6 | 7 => spoil_gate(random, call, number),
        8 => relength(random, &mut call.seed, 0),
        9 => relength(random, &mut call.values, 0),
        10 => spoil_value(random, call),
        11 => spoil_token_list(random, call),
        12 => cut(random, &mut call.material, 9),
        13 if call.operation == Operation::Garble => spoil_wanted_mark(random, call),
        13 => spoil(random, call.material.get_mut(..2)),
        14 => spoil_scheme(random, call),
        15 => spoil(random, call.material.get_mut(3..9)),
        16 => spoil_material_length(random, call),
        17 => spoil_row_record(random, call),
        18 => spoil_last_record(random, call),
        19 => shorten_buffer(random, call),
        20 => spoil_wire(random, call),
        21 => spoil_width(random, call),
        25 => spoil_output_mark(random, call),
        26 => spoil_output_wire(random, call),
        29 => spoil_known_token(random, call),
        _ => false,
    }
}

/// Changes one byte, if there are bytes.
fn spoil(random: &mut Random, bytes: Option<&mut [u8]>) -> bool {
    let Some(bytes) = bytes.filter(|bytes| !bytes.is_empty()) else {
        return false;
    };
    let index = random.below(bytes.len());
    bytes[index] ^= random.between(1, 255) as u8;
    true
}

/// Cuts bytes down to under `limit`.
fn cut(random: &mut Random, bytes: &mut Vec<u8>, limit: usize) -> bool {
    bytes.truncate(random.below(limit));
    true
}

/// Gives bytes another length, not under `least`: shorter, or longer by a few zeros.
fn relength(random: &mut Random, bytes: &mut Vec<u8>, least: usize) -> bool {
    let length = bytes.len();
    if length > least && random.chance(50) {
        bytes.truncate(random.between(least, length - 1));
    } else {
        bytes.resize(length.max(least) + random.between(1, 40), 0);
    }
    true
}

/// Sizes that break a limit, from sizes within them, where m is at most `most`.
fn bad_sizes(random: &mut Random, n: u16, m: u16, q: usize, most: usize) -> (u16, u16, usize) {
    match random.below(6) {
        0 => (random.below(2) as u16, m, q),
        1 => (random.between(4097, 65_535) as u16, m, q),
        2 => (n, 0, q),
        3 => (n, random.between((most + 1).min(65_535), 65_535) as u16, q),
        4 => (n, m, 0),
        _ => (n, m, random.between(65_536 - usize::from(n.max(1)), 65_535)),
    }
}

/// Condition 3 in the list form; too many records for 16 bits are among it.
fn spoil_list_sizes(random: &mut Random, call: &mut Call) -> bool {
    let Some(&gate) = call.gates.first() else {
        return false;
    };
    let q = if random.chance(20) {
        random.between(65_536, 65_560)
    } else {
        let q = call.gates.len();
        let bad = bad_sizes(random, call.n, call.m, q, q);
        (call.n, call.m) = (bad.0, bad.1);
        bad.2
    };
    call.gates.resize(q, gate);
    true
}

/// Condition 3, in the header or in the list form.
fn spoil_sizes(random: &mut Random, call: &mut Call) -> bool {
    if call.operation == Operation::EvaluateGates {
        return spoil_list_sizes(random, call);
    }
    let is_named = Mark::of(&call.circuit) == Some(Mark::Named);
    let Some(&mut [n0, n1, m0, m1, q0, q1]) = call.circuit.get_mut(2..8) else {
        return false;
    };
    let [n, m, q] = [[n0, n1], [m0, m1], [q0, q1]].map(u16::from_be_bytes);
    let (inputs, q) = (usize::from(n), usize::from(q));
    let most = if is_named { inputs + q } else { q };
    let (n, m, q) = bad_sizes(random, n, m, q, most);
    let sizes = [n, m, q as u16].map(u16::to_be_bytes);
    call.circuit[2..8].copy_from_slice(&sizes.concat());
    true
}

/// The bytes after the header of a circuit whose outputs are named: the gate records, by the header's q, and
/// the output records. All are gate records where the outputs are not named.
fn records(call: &mut Call) -> (&mut [u8], &mut [u8]) {
    let is_named = Mark::of(&call.circuit) == Some(Mark::Named);
    let Some((header, records)) = call.circuit.split_at_mut_checked(8) else {
        return (&mut [], &mut []);
    };
    let gates = 7 * usize::from(u16::from_be_bytes([header[6], header[7]]));
    let end = if is_named { gates } else { records.len() };
    records.split_at_mut(end.min(records.len()))
}

/// The whole gate records of the circuit's bytes.
fn gate_records(call: &mut Call) -> Vec<&mut [u8]> {
    records(call).0.chunks_exact_mut(7).collect()
}

/// One of the whole output records of the circuit's bytes.
fn output_record<'a>(random: &mut Random, call: &'a mut Call) -> Option<&'a mut [u8]> {
    let records = records(call).1.chunks_exact_mut(4);
    let mut records: Vec<&mut [u8]> = records.collect();
    let index = random.below(records.len());
    (index < records.len()).then(|| records.swap_remove(index))
}

fn spoil_output_mark(random: &mut Random, call: &mut Call) -> bool {
    let record = output_record(random, call);
    spoil(random, record.map(|record| &mut record[..2]))
}

/// An output's wire that is 0 or above n+q.
fn spoil_output_wire(random: &mut Random, call: &mut Call) -> bool {
    let Some(&[n0, n1, _, _, q0, q1]) = call.circuit.get(2..8) else {
        return false;
    };
    let [n, q] = [[n0, n1], [q0, q1]].map(|two| usize::from(u16::from_be_bytes(two)));
    let past = (n + q + 1).min(65_535);
    let far = random.between(past, 65_535);
    let bad = random.one_of(&[0, past, far]) as u16;
    let record = output_record(random, call);
    record
        .map(|record| record[2..].copy_from_slice(&bad.to_be_bytes()))
        .is_some()
}

fn spoil_gate_mark(random: &mut Random, call: &mut Call) -> bool {
    let mut records = gate_records(call);
    let index = random.below(records.len());
    let record = records.get_mut(index);
    spoil(random, record.map(|record| &mut record[..2]))
}

/// Conditions 6 and 7, of a gate in the bytes or in the list.
fn spoil_gate(random: &mut Random, call: &mut Call, number: u8) -> bool {
    if call.operation == Operation::EvaluateGates {
        let index = random.below(call.gates.len());
        let wire = usize::from(call.n) + 1 + index;
        let found = call.gates.get_mut(index);
        return found
            .map(|gate| *gate = bad_gate(random, *gate, wire, number))
            .is_some();
    }
    let Some(&[high, low]) = call.circuit.get(2..4) else {
        return false;
    };
    let mut records = gate_records(call);
    let index = random.below(records.len());
    let wire = usize::from(u16::from_be_bytes([high, low])) + 1 + index;
    let Some([_, _, a0, a1, b0, b1, code]) = records.get_mut(index) else {
        return false;
    };
    let [a, b] = [[*a0, *a1], [*b0, *b1]].map(u16::from_be_bytes);
    let gate = bad_gate(random, Gate { a, b, code: *code }, wire, number);
    [*a0, *a1] = gate.a.to_be_bytes();
    [*b0, *b1] = gate.b.to_be_bytes();
    *code = gate.code;
    true
}

/// The gate with operands out of their limit (6) or a code that 01 refuses (7).
fn bad_gate(random: &mut Random, gate: Gate, wire: usize, number: u8) -> Gate {
    let Gate { a, b, .. } = gate;
    if number == 7 {
        let mut bad = gate;
        let most = random.one_of(&[15, 255]);
        while CHARGED.contains(&bad.code) || FREE.contains(&bad.code) {
            bad.code = random.between(0, most) as u8;
        }
        return bad;
    }
    let (a, b) = match random.below(5) {
        0 => (0, b),
        1 => (b, b),
        2 => (b, a),
        3 => (a, wire as u16),
        _ => (a, random.between(wire.min(65_535), 65_535) as u16),
    };
    Gate { a, b, ..gate }
}

fn spoil_value(random: &mut Random, call: &mut Call) -> bool {
    let bad = random.between(2, 255) as u8;
    if call.operation == Operation::Pick {
        call.bit = bad;
        return true;
    }
    let index = random.below(call.values.len());
    call.values
        .get_mut(index)
        .map(|value| *value = bad)
        .is_some()
}

fn spoil_token_list(random: &mut Random, call: &mut Call) -> bool {
    match (call.operation, random.below(3)) {
        (
            Operation::Evaluate
            | Operation::EvaluateGates
            | Operation::OutputTokens
            | Operation::Decode,
            _,
        ) => relength(random, &mut call.tokens, 0),
        (Operation::Pick, 0) => {
            // The same length on both sides, and no multiple of 16.
            let length = call.zero.len() / BLOCK * BLOCK + random.between(1, BLOCK - 1);
            call.zero.resize(length, 0);
            call.one.resize(length, 0);
            true
        }
        (_, 1) => relength(random, &mut call.zero, 0),
        _ => relength(random, &mut call.one, 0),
    }
}

fn spoil_scheme(random: &mut Random, call: &mut Call) -> bool {
    // By 01, which refuses 4 too: `refused_still` does the rest.
    let bad = random.one_of(&[0, 4, 5, 128, 255]);
    scheme_byte(call).map(|byte| *byte = bad).is_some()
}

/// Another length than the circuit and the scheme ask for: by the bytes, or by the scheme.
fn spoil_material_length(random: &mut Random, call: &mut Call) -> bool {
    let circuit = call.read_circuit();
    let charged = circuit.is_ok_and(|circuit| circuit.sizes().p > 0);
    match call.material.get_mut(2) {
        // To one of another number of rows: 3 and 4 have as many.
        Some(scheme @ 1..=4) if charged && random.chance(25) => {
            *scheme = *scheme % 3 + 1;
            true
        }
        _ => relength(random, &mut call.material, 9),
    }
}

/// Changes the mark or the wire number of one row record.
fn spoil_row_record(random: &mut Random, call: &mut Call) -> bool {
    let Ok(circuit) = call.read_circuit() else {
        return false;
    };
    let p = circuit.sizes().p;
    let last = last_length(call, circuit.sizes().m);
    let Some(rest) = call.material.len().checked_sub(9 + last) else {
        return false;
    };
    if p == 0 {
        return false;
    }
    let start = 9 + rest / p * random.below(p);
    spoil(random, call.material.get_mut(start..start + 4))
}

/// The bytes of the last record, by the material's mark.
fn last_length(call: &Call, m: usize) -> usize {
    let mark = material::Mark::of(&call.material).unwrap_or(material::Mark::Colours);
    mark.last_length(m)
}

/// A mark that garble refuses: one of the list, or one with a byte changed, for which `refused_still` does the
/// rest.
fn spoil_wanted_mark(random: &mut Random, call: &mut Call) -> bool {
    if random.chance(50) {
        call.mark = random.one_of(&BAD_MARKS);
        return true;
    }
    let mut bytes = call.mark.to_be_bytes();
    let spoilt = spoil(random, Some(&mut bytes));
    call.mark = u16::from_be_bytes(bytes);
    spoilt
}

/// Changes a byte of the token of one output, which the material knows by its hash.
fn spoil_known_token(random: &mut Random, call: &mut Call) -> bool {
    if material::Mark::of(&call.material) != Some(material::Mark::Hashes) {
        return false;
    }
    let mut tokens = call.tokens.chunks_exact_mut(BLOCK);
    let chosen = random.below(tokens.len());
    spoil(random, tokens.nth(chosen))
}

/// Changes the last record's mark, or sets one of its bytes over 1, where these are colours.
fn spoil_last_record(random: &mut Random, call: &mut Call) -> bool {
    let Ok(circuit) = call.read_circuit() else {
        return false;
    };
    let m = circuit.sizes().m;
    let Some(start) = call.material.len().checked_sub(last_length(call, m)) else {
        return false;
    };
    let is_hashed = material::Mark::of(&call.material) == Some(material::Mark::Hashes);
    let last = &mut call.material[start..];
    if random.chance(50) || is_hashed {
        return spoil(random, last.get_mut(..2));
    }
    last[2 + random.below(m)] = random.one_of(&[2, 3, 128, 255]);
    true
}

/// Makes one output buffer too short.
fn shorten_buffer(random: &mut Random, call: &mut Call) -> bool {
    let Some(needed) = room(call).filter(|needed| !needed.is_empty()) else {
        return false;
    };
    let index = random.below(needed.len());
    let short = [0, needed[index] - 1, random.below(needed[index])];
    call.lens[index] = random.one_of(&short);
    true
}

/// A wire of 0 or past the lists; now and then the lists are empty, and every wire is past them.
fn spoil_wire(random: &mut Random, call: &mut Call) -> bool {
    if random.chance(20) {
        (call.zero, call.one) = (Vec::new(), Vec::new());
    }
    let past = call.zero.len() / BLOCK + 1;
    let far = random.between(past, 65_535);
    call.wire = random.one_of(&[0, past, far]) as u16;
    true
}

/// A width that is not 1 to 64: one of the list, or any.
fn spoil_width(random: &mut Random, call: &mut Call) -> bool {
    let any = any_width(random);
    call.width = match any {
        0 | 65.. if random.chance(30) => any,
        _ => random.one_of(&BAD_WIDTHS),
    };
    true
}
