//! Cases of material that ends in hashes (02, job 12): with each mark, by each scheme and on circuits of either
//! mark; tokens that the material does not know; and files whose mark, length and last record do not go together.

use crate::block::{Block, BLOCK};
use crate::call::{Call, Operation};
use crate::chained::{chain_on, spoil, Chain, ENDS};
use crate::circuit::{named_bytes, Circuit, Gate, Mark as CircuitMark};
use crate::evaluator::{around, own_by, refused, tampered, value_lists};
use crate::generate::damage::damaged_call_with;
use crate::generate::hashes::{hash_outputs, hashed_stranger, BAD_MARKS};
use crate::generate::{self, outputs, RUNS};
use crate::lines;
use crate::listed::listed;
use crate::material::Mark;
use crate::named::{mixed, LISTS};
use crate::random::Random;
use crate::refused::Refused;
use crate::runs::{self, every_code};
use crate::scheme::Scheme;

/// Each scheme with each mark.
fn schemes_and_marks() -> impl Iterator<Item = (Scheme, Mark)> {
    let each = Scheme::ALL.into_iter();
    each.flat_map(|scheme| Mark::ALL.map(|mark| (scheme, mark)))
}

/// Two inputs, an AND and 297 copies of wire 1, and 300 outputs, which are the first three wires by turns: past
/// 255 the number of an output has two bytes.
fn many_outputs() -> Vec<u8> {
    let codes = [8].into_iter().chain([12; 297]);
    let gates: Vec<Gate> = codes.map(|code| Gate { a: 1, b: 2, code }).collect();
    let outputs: Vec<u16> = (0..300).map(|k| k % 3 + 1).collect();
    named_bytes(2, &outputs, &gates)
}

/// The call that garble makes, with a mark and a scheme, in buffers with no byte to spare.
pub fn garbling(random: &mut Random, bytes: &[u8], scheme: Scheme, mark: Mark) -> Call {
    let mut call = runs::garbling(random, bytes, 0, scheme);
    call.mark = mark.number();
    call.lens = generate::room(&call).expect("an accepted circuit");
    call
}

/// The lines of garblings.
pub fn garblings() -> String {
    let line = |call: &Call| lines::case_with_mark(call, &call.run());
    garbling_calls().iter().map(line).collect()
}

/// Calls of garble: one circuit and one seed by each scheme with each mark; each list of named outputs with
/// hashes, by one scheme after the other; circuits of any kind in every run; many outputs; and calls that are
/// refused.
fn garbling_calls() -> Vec<Call> {
    let mut random = Random::new(12_004);
    let random = &mut random;
    let mut calls = Vec::new();
    let seed = generate::seed(random);
    for (scheme, mark) in schemes_and_marks() {
        for bytes in [every_code(), mixed(&[9, 1, 9, 4])] {
            let mut call = garbling(random, &bytes, scheme, mark);
            call.seed = seed.clone();
            calls.push(call);
        }
    }
    for (list, scheme) in LISTS.into_iter().zip(Scheme::ALL.into_iter().cycle()) {
        calls.push(garbling(random, &mixed(list), scheme, Mark::Hashes));
    }
    for (run, scheme) in RUNS.into_iter().zip(Scheme::ALL.into_iter().cycle()) {
        let bytes = generate::any_small_circuit(random);
        let bytes = outputs::any_outputs(random, Operation::Garble, bytes);
        let mut call = garbling(random, &bytes, scheme, Mark::Hashes);
        call.run = run;
        call.lens[0] += random.below(20);
        calls.push(call);
    }
    for scheme in [Scheme::GaX, Scheme::RekeyedHalfGates] {
        calls.push(garbling(random, &many_outputs(), scheme, Mark::Hashes));
    }
    calls.extend(refused_garblings(random));
    calls
}

/// Each mark that is refused, alone, beside a scheme that is refused and without room; a buffer that has the
/// room of the other mark; and each condition of garble alone and beside 13.
fn refused_garblings(random: &mut Random) -> Vec<Call> {
    let mut calls = Vec::new();
    for mark in BAD_MARKS {
        let call = garbling(random, &every_code(), Scheme::GaXR, Mark::Hashes);
        let call = refused(Call { mark, ..call }, 13);
        let scheme = random.one_of(&[0, 5, 255]);
        let unknown = Call {
            scheme,
            ..call.clone()
        };
        calls.extend([call.clone(), refused(unknown.clone(), 13)]);
        let lens = vec![0; 3];
        calls.push(refused(Call { lens, ..unknown }, 13));
    }
    for scheme in Scheme::ALL {
        let call = garbling(random, &every_code(), scheme, Mark::Hashes);
        let other = garbling(random, &every_code(), scheme, Mark::Colours);
        for (buffer, length) in [
            (0, other.lens[0]),
            (0, call.lens[0] - 1),
            (1, call.lens[1] - 1),
            (2, call.lens[2] - 1),
        ] {
            let mut call = call.clone();
            call.lens[buffer] = length;
            calls.push(refused(call, 19));
        }
    }
    calls.extend(damaged(random, Operation::Garble, 13));
    calls
}

/// Each condition of an operation alone, and each beside the new one.
fn damaged(random: &mut Random, operation: Operation, new: u8) -> Vec<Call> {
    let mut calls = Vec::new();
    for &number in operation.refusals() {
        for mut numbers in [vec![number], vec![number, new]] {
            numbers.dedup();
            let call = damaged_call_with(random, operation, &numbers, little, hash_outputs);
            let mut tried = numbers.iter().map(|&number| operation.tried_before(number));
            let first = tried.clone().min().expect("a number");
            let index = tried.position(|tried| tried == first).expect("a number");
            calls.push(refused(call, numbers[index]));
        }
    }
    calls
}

/// A small circuit whose outputs are named: each condition of it can be met.
fn little(random: &mut Random) -> Vec<u8> {
    let bytes = generate::circuit(random, 3, 5, 60);
    outputs::named(random, &bytes)
}

/// All calls made here of garble, of evaluate in either form, or of decode.
pub fn calls(operation: Operation) -> Vec<Call> {
    if operation == Operation::Garble {
        return garbling_calls();
    }
    if operation == Operation::EvaluateGates {
        let calls = calls(Operation::Evaluate).into_iter();
        let last = |call: &Call| CircuitMark::of(&call.circuit) == Some(CircuitMark::LastWires);
        let accepted = |call: &Call| Circuit::read(&call.circuit).is_ok();
        let calls = calls.filter(|call| last(call) && accepted(call));
        return calls.map(|call| listed(&call)).collect();
    }
    let mut random = Random::new(12_001);
    let random = &mut random;
    let mut calls = own_calls(random, operation);
    for scheme in Scheme::ALL {
        for bytes in [every_code(), mixed(&[2, 5, 9, 3, 7, 5, 8])] {
            calls.push(strange(random, operation, &bytes, scheme));
        }
    }
    for scheme in [Scheme::GaXR, Scheme::HalfGates] {
        let call = strange(random, operation, &every_code(), scheme);
        calls.extend(tampered(&call));
        calls.extend(around(&call));
        calls.extend(other_marks(&call));
    }
    let bytes = many_outputs();
    calls.push(strange(random, operation, &bytes, Scheme::HalfGates));
    if operation == Operation::Decode {
        calls.extend(decodings(random));
        calls.extend(damaged(random, operation, 29));
    } else {
        calls.extend(damaged(random, operation, 13));
    }
    calls
}

/// Calls on garblings made here: by each scheme with each mark on circuits of either mark, and each list of
/// named outputs with hashes. Of every garbling half of the lists of values.
fn own_calls(random: &mut Random, operation: Operation) -> Vec<Call> {
    let mut calls = Vec::new();
    for (index, by) in schemes_and_marks().enumerate() {
        for bytes in [every_code(), mixed(&[9, 1, 9, 4])] {
            let seed = generate::seed(random);
            let own = own_by(random, operation, &bytes, by, &seed);
            calls.extend(own.into_iter().skip(index % 2).step_by(2));
        }
    }
    for (index, list) in LISTS.into_iter().enumerate() {
        let (seed, scheme) = (generate::seed(random), Scheme::ALL[index % 4]);
        let by = (scheme, Mark::Hashes);
        let mut own = own_by(random, operation, &mixed(list), by, &seed);
        calls.push(own.swap_remove((3 * index) % 8));
    }
    calls
}

/// A call on a stranger's material with hashes, and for decode on tokens that it knows, with just the room
/// needed.
fn strange(random: &mut Random, operation: Operation, bytes: &[u8], scheme: Scheme) -> Call {
    let circuit = Circuit::read(bytes).expect("an accepted circuit");
    let mut call = generate::call_on(random, operation, bytes);
    let tokens = match operation {
        Operation::Decode => Block::list(&call.tokens),
        _ => Vec::new(),
    };
    call.material = hashed_stranger(random, &circuit, scheme, &tokens);
    call.lens = generate::room(&call).expect("an accepted circuit");
    call
}

/// A call with hashes whose file has another mark: the header's, which makes the length wrong; the last
/// record's; and both, with the other mark's length, which is a file with colours.
fn other_marks(call: &Call) -> Vec<Call> {
    let m = call.read_circuit().expect("an accepted circuit").sizes().m;
    let last = call.material.len() - Mark::Hashes.last_length(m);
    let mut header = call.clone();
    header.material[1] = 0x48;
    let mut last_mark = call.clone();
    last_mark.material[last + 1] = 0x44;
    let mut colours = header.clone();
    let length = last + Mark::Colours.last_length(m);
    colours.material.truncate(length);
    colours.material[last + 2..].fill(1);
    let mut whole = colours.clone();
    whole.material[last + 1] = 0x44;
    let mut hashes = whole.clone();
    hashes.material[1] = 0x4A;
    vec![
        refused(header, 16),
        refused(last_mark, 18),
        refused(colours, 18),
        refused(hashes, 16),
        whole,
    ]
}

/// The call, which must be refused with 29 at this output.
fn unknown(call: Call, k: usize) -> Call {
    assert_eq!(call.run().answer, Err(Refused::new(29, k)), "{call:?}");
    call
}

/// The token of the output at an index.
fn token(call: &mut Call, index: usize) -> &mut [u8] {
    &mut call.tokens[BLOCK * index..][..BLOCK]
}

/// Calls of decode, by each scheme: tokens that the material does not know, or not at their place; and hashes
/// that were exchanged or made equal.
fn decodings(random: &mut Random) -> Vec<Call> {
    let mut calls = Vec::new();
    for (index, scheme) in Scheme::ALL.into_iter().enumerate() {
        let seed = generate::seed(random);
        let by = (scheme, Mark::Hashes);
        let own = own_by(random, Operation::Decode, &mixed(&[9, 1, 9, 4]), by, &seed);
        let call = &own[(2 * index + 1) % 8];
        calls.extend(unknown_tokens(call));
        calls.extend(changed_hashes(call));
    }
    calls
}

/// The call on four outputs with a bit of a token flipped, of one output and of two; with the tokens of
/// outputs exchanged; and with 29 beside what comes before it.
fn unknown_tokens(call: &Call) -> Vec<Call> {
    let mut calls = Vec::new();
    for index in 0..4 {
        for (byte, bit) in [(0, 0x80), (7, 0x10), (15, 0x01)] {
            let mut flipped = call.clone();
            token(&mut flipped, index)[byte] ^= bit;
            calls.push(unknown(flipped.clone(), index + 1));
            token(&mut flipped, 3)[9] ^= 1;
            calls.push(unknown(flipped, index + 1));
        }
    }
    for (one, other) in [(0, 1), (1, 3), (2, 3)] {
        let mut exchanged = call.clone();
        let (first, second) = exchanged.tokens.split_at_mut(BLOCK * other);
        first[BLOCK * one..][..BLOCK].swap_with_slice(&mut second[..BLOCK]);
        calls.push(unknown(exchanged, one + 1));
    }
    let mut wrong = call.clone();
    token(&mut wrong, 1).fill(0);
    let mut short = wrong.clone();
    short.lens = vec![3];
    let mut last = wrong.clone();
    let start = last.material.len() - Mark::Hashes.last_length(4);
    last.material[start] ^= 1;
    calls.extend([unknown(wrong, 2), refused(short, 19), refused(last, 18)]);
    calls
}

/// The call on four outputs with the two hashes of an output exchanged, which gives the opposite bit; both as
/// the first or both as the second; and one of them changed.
fn changed_hashes(call: &Call) -> Vec<Call> {
    let mut calls = Vec::new();
    for index in 0..4 {
        let start = call.material.len() - 2 * BLOCK * (4 - index);
        let pair = Block::list(&call.material[start..][..2 * BLOCK]);
        for [zero, one] in [[1, 0], [0, 0], [1, 1]] {
            let mut changed = call.clone();
            let hashes = [pair[zero].0, pair[one].0].concat();
            changed.material[start..][..2 * BLOCK].copy_from_slice(&hashes);
            calls.push(changed);
        }
        for at in [0, BLOCK - 1, BLOCK, 2 * BLOCK - 1] {
            let mut changed = call.clone();
            changed.material[start + at] ^= 0x40;
            calls.push(changed);
        }
    }
    calls
}

/// The lines of chains: each scheme with each mark on each list of values; each list of named outputs with
/// hashes; circuits of any kind in every run; and chains that end.
pub fn chains() -> String {
    let mut random = Random::new(12_005);
    let random = &mut random;
    let mut text = String::new();
    for (by, values) in schemes_and_marks().flat_map(|by| value_lists(3).map(move |v| (by, v))) {
        let mut chain = chain_by(random, by, every_code());
        chain.values = values;
        text += &chain.case_with_mark(None);
    }
    for (index, list) in LISTS.into_iter().enumerate() {
        let by = (Scheme::ALL[index % 4], Mark::Hashes);
        let mut chain = chain_by(random, by, mixed(list));
        chain.values = value_lists(3).nth(index % 8).expect("a list");
        text += &chain.case_with_mark(None);
    }
    for (run, scheme) in RUNS.into_iter().zip(Scheme::ALL.into_iter().cycle()) {
        let bytes = generate::any_small_circuit(random);
        let bytes = outputs::any_outputs(random, Operation::Garble, bytes);
        let mut chain = chain_by(random, (scheme, Mark::Hashes), bytes);
        chain.run = run;
        text += &chain.case_with_mark(None);
    }
    let by = (Scheme::HalfGates, Mark::Hashes);
    text += &chain_by(random, by, many_outputs()).case_with_mark(None);
    text + &refused_chains(random)
}

/// A chain of run 0 that runs, by a scheme and with a mark, with just the room that the outputs' tokens need.
fn chain_by(random: &mut Random, (scheme, mark): (Scheme, Mark), circuit: Vec<u8>) -> Chain {
    let read = Circuit::read(&circuit).expect("an accepted circuit");
    let m = read.sizes().m;
    let mut chain = chain_on(random, scheme, circuit);
    chain.mark = mark.number();
    chain.lens[0] += mark.last_length(m) - Mark::Colours.last_length(m);
    chain.output_room = BLOCK * m;
    chain
}

/// Chains ended by each refusal that a call can give, with hashes; by 13 with each mark that is refused, beside
/// the refusals after it too; and with the room that material with colours has.
fn refused_chains(random: &mut Random) -> String {
    let mut text = String::new();
    for (index, (call, number)) in ENDS.into_iter().chain([(5, 19)]).enumerate() {
        let by = (Scheme::ALL[index % 4], Mark::Hashes);
        let mut chain = chain_by(random, by, every_code());
        chain.run = RUNS[index % 8];
        match call {
            5 => chain.output_room = BLOCK * 5 - 1,
            _ => spoil(&mut chain, call, number),
        }
        text += &chain.case_with_mark(Some((call, number)));
    }
    for (index, mark) in BAD_MARKS.into_iter().enumerate() {
        let by = (Scheme::ALL[index % 4], Mark::Hashes);
        let mut chain = chain_by(random, by, every_code());
        chain.mark = mark;
        if index % 3 > 0 {
            spoil(&mut chain, 1, [14, 19][index % 3 - 1]);
        }
        text += &chain.case_with_mark(Some((1, 13)));
    }
    for scheme in Scheme::ALL {
        let mut chain = chain_by(random, (scheme, Mark::Hashes), every_code());
        let colours = garbling(random, &every_code(), scheme, Mark::Colours);
        chain.lens[0] = colours.lens[0];
        text += &chain.case_with_mark(Some((1, 19)));
    }
    text
}
