//! Calls of every kind, each by a seed and a case number: sound, with one condition met or several,
//! tampered with, or noise. What must come of them is not known here.

use super::damage::any_damaged_call;
use super::hashes::{any_mark, BAD_MARKS};
use super::outputs::any_outputs;
use super::{
    add_run, any_call, any_scheme, any_width, call_on, circuit, program_input, room,
    with_one_operand,
};
use crate::call::{Call, Operation};
use crate::random::Random;

/// The call of a case. It depends on the two numbers alone, so a case can be run again by itself.
pub fn case(seed: u64, number: u64) -> Call {
    let start = seed.wrapping_mul(0x9E37_79B9_7F4A_7C15);
    let mut random = Random::new(start.wrapping_add(number));
    let operation = Operation::ALL[number as usize % Operation::ALL.len()];
    let mut call = any(&mut random, operation);
    if random.chance(50) {
        fit(&mut call);
    }
    call
}

/// A call of any kind; one in a thousand is near the largest sizes.
fn any(random: &mut Random, operation: Operation) -> Call {
    match random.below(1000) {
        0 => {
            let largest = [(2, 65_533), (4096, 61_439), (2000, 63_535), (4096, 1)];
            let (n, q) = random.one_of(&largest);
            sized(random, operation, n, q)
        }
        1..=9 => {
            let n = random.between(2, 4096) as u16;
            let q = random.between(1, 3000) as u16;
            sized(random, operation, n, q)
        }
        10..=299 => any_call(random, operation),
        300..=549 => damaged(random, operation, 1),
        550..=799 => damaged(random, operation, 2),
        800..=849 => damaged(random, operation, 3),
        850..=949 => tampered(random, operation),
        _ => noise(random, operation),
    }
}

/// A sound call on a circuit of these sizes.
fn sized(random: &mut Random, operation: Operation, n: u16, q: u16) -> Call {
    let charged = random.one_of(&[5, 50, 100]);
    let bytes = circuit(random, n, q, charged);
    let bytes = with_one_operand(random, bytes);
    let bytes = any_outputs(random, operation, bytes);
    let mut call = call_on(random, operation, &bytes);
    any_scheme(random, &mut call);
    any_mark(random, &mut call);
    add_run(random, &mut call);
    call
}

/// A call with so many conditions met at once.
fn damaged(random: &mut Random, operation: Operation, count: usize) -> Call {
    let mut numbers: Vec<u8> = (0..count)
        .map(|_| random.one_of(operation.refusals()))
        .collect();
    numbers.sort_unstable();
    numbers.dedup();
    any_damaged_call(random, operation, &numbers)
}

/// Makes every output buffer that has room to spare exact.
fn fit(call: &mut Call) {
    let needed = room(call).unwrap_or_default();
    for (len, needed) in call.lens.iter_mut().zip(needed) {
        *len = (*len).min(needed);
    }
}

/// A sound call of which one to three arguments are changed somewhere.
fn tampered(random: &mut Random, operation: Operation) -> Call {
    let mut call = any_call(random, operation);
    for _ in 0..random.between(1, 3) {
        // The comparator is handed no list.
        if operation != Operation::Comparator && random.chance(85) {
            tamper_list(random, &mut call);
        } else {
            tamper_number(random, &mut call);
        }
    }
    call
}

/// Changes a byte of one list that is not empty, or the list's length.
fn tamper_list(random: &mut Random, call: &mut Call) {
    let lists = [
        &mut call.circuit,
        &mut call.seed,
        &mut call.values,
        &mut call.zero,
        &mut call.one,
        &mut call.tokens,
        &mut call.material,
    ];
    let mut lists: Vec<&mut Vec<u8>> = lists.into_iter().filter(|list| !list.is_empty()).collect();
    let chosen = random.below(lists.len());
    let Some(list) = lists.get_mut(chosen) else {
        return;
    };
    let index = random.below(list.len());
    match random.below(8) {
        0 => list.truncate(index),
        1 => list.push(random.byte()),
        2 => drop(list.remove(index)),
        3 => list.insert(index, random.byte()),
        4 => list[index] = random.byte(),
        _ => list[index] ^= 1 << random.below(8),
    }
}

/// Changes one of the numbers handed in, a gate of the list form, or an output buffer's length; the
/// comparator's one number is its width.
fn tamper_number(random: &mut Random, call: &mut Call) {
    let chosen = random.below(call.lens.len());
    if let Some(len) = call.lens.get_mut(chosen).filter(|_| random.chance(50)) {
        *len = random.below(2 * *len + 2);
        return;
    }
    let chosen = random.below(call.gates.len());
    if let Some(gate) = call.gates.get_mut(chosen).filter(|_| random.chance(70)) {
        match random.below(3) {
            0 => gate.a = gate.a.wrapping_add(random.below(5) as u16).wrapping_sub(2),
            1 => gate.b = gate.b.wrapping_add(random.below(5) as u16).wrapping_sub(2),
            _ => gate.code = random.below(16) as u8,
        }
        return;
    }
    if call.operation == Operation::Comparator {
        call.width = any_width(random);
        return;
    }
    match random.below(6) {
        0 => call.scheme = random.byte(),
        5 => call.mark = random.one_of(&BAD_MARKS) ^ random.below(4) as u16,
        1 => call.bit = random.below(3) as u8,
        2 => call.wire = random.below(12) as u16,
        3 => call.n = call.n.wrapping_add(random.below(3) as u16).wrapping_sub(1),
        _ => call.m = call.m.wrapping_add(random.below(3) as u16).wrapping_sub(1),
    }
}

/// A call whose lists are noise, but that its circuit may be sound; often of plausible lengths.
fn noise(random: &mut Random, operation: Operation) -> Call {
    let mut call = any_call(random, operation);
    if operation.takes_bytes() {
        call.circuit = program_input(random);
    }
    if operation == Operation::Comparator {
        call.width = any_width(random);
    }
    let lists = [
        &mut call.values,
        &mut call.seed,
        &mut call.zero,
        &mut call.one,
        &mut call.tokens,
        &mut call.material,
    ];
    for list in lists {
        let length = random.one_of(&[0, 1, 8, 16, 48, 300]).max(list.len());
        let length = if random.chance(70) {
            list.len()
        } else {
            random.below(length + 1)
        };
        *list = random.bytes(length);
    }
    call
}
