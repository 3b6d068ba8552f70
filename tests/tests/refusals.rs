//! Generated calls, sound and damaged, and what is due to each: the answer, and the output buffers. A call is
//! damaged for one refusal, or for two at once; the number and the place due are those of module `due`.
//! Evaluate's list form gets the answer that its bytes would get.

mod due;

use std::collections::BTreeSet;

use second::block::BLOCK;
use second::call::{Call, Operation};
use second::circuit::to_bytes;
use second::generate::any_call;
use second::generate::damage::any_damaged_call;
use second::random::Random;

/// The searches that look for several numbers at once.
const SEARCHES: [&[u8]; 2] = [&[5, 6, 7], &[25, 26]];

/// The numbers that may be due where both conditions hold: the one that is tried first, or, in one search,
/// that of the first gate or the first output with a fault.
fn may_be_due(operation: Operation, first: u8, second: u8) -> Vec<u8> {
    for search in SEARCHES {
        if search.contains(&first) && search.contains(&second) {
            return vec![first, second];
        }
    }
    let [one, other] = [first, second].map(|number| operation.tried_before(number));
    vec![if one < other { first } else { second }]
}

/// Runs the call. Its answer must be the one due. If that is a refusal, the buffers must be as they
/// were, and its number is given.
fn refused(call: &Call) -> Option<u8> {
    let operation = call.operation;
    let outcome = call.run();
    let answer = due::answer(call);
    assert_eq!(outcome.answer, answer, "{operation:?}");
    let number = answer.err()?.number;
    if operation == Operation::Pick {
        assert_eq!(outcome.buffers, [Vec::<u8>::new()]);
    } else {
        assert!(outcome.buffers == call.buffers(), "{operation:?}: written");
    }
    Some(number)
}

/// A sound call: the bytes named do not depend on what the buffers held before, so all of them were
/// written; past them the buffers are as they were.
fn check_written(call: &Call) {
    let operation = call.operation;
    let other = Call {
        fill: !call.fill,
        ..call.clone()
    };
    let (buffers, others, named) = (call.run().buffers, other.run().buffers, due::room(call));
    assert_eq!(buffers.len(), named.len(), "{operation:?}");
    for ((buffer, other), named) in buffers.iter().zip(&others).zip(named) {
        let written = buffer[..named] == other[..named];
        assert!(written, "{operation:?}: not all written");
        let past = &buffer[named..];
        assert!(past.iter().all(|&byte| byte == call.fill), "{operation:?}");
    }
}

/// A sound call of pick: the token of the wire, of the list of the bit.
fn check_picked(call: &Call) {
    let list = if call.bit == 1 { &call.one } else { &call.zero };
    let end = BLOCK * usize::from(call.wire);
    assert_eq!(call.run().buffers, [&list[end - BLOCK..end]]);
}

#[test]
fn sound_calls_write_the_bytes_named_and_no_more() {
    let mut random = Random::new(21);
    for operation in Operation::ALL {
        for _ in 0..300 {
            let call = any_call(&mut random, operation);
            assert_eq!(refused(&call), None, "{operation:?}: {call:02x?}");
            match operation {
                Operation::Pick => check_picked(&call),
                _ => check_written(&call),
            }
        }
    }
}

#[test]
fn each_condition_alone() {
    let mut random = Random::new(22);
    let mut met = BTreeSet::new();
    for operation in Operation::ALL {
        for &number in operation.refusals() {
            for _ in 0..60 {
                let call = any_damaged_call(&mut random, operation, &[number]);
                assert_eq!(refused(&call), Some(number), "{operation:?}");
                met.insert(number);
            }
        }
    }
    // 22 to 24, 27 and 28 are given by nothing yet (02, jobs 5 and 11), and no run is known that 30 is due to.
    assert_eq!(met, (1..=21).chain([25, 26, 29]).collect());
}

#[test]
fn two_conditions_at_once() {
    let mut random = Random::new(23);
    for operation in Operation::ALL {
        for &first in operation.refusals() {
            for &second in operation.refusals() {
                for _ in 0..10 {
                    let call = any_damaged_call(&mut random, operation, &[first, second]);
                    let number = refused(&call);
                    // Of two damages of one number, the second may undo the first.
                    if first != second {
                        let number = number.expect("a damaged call");
                        let due = may_be_due(operation, first, second);
                        assert!(due.contains(&number), "{operation:?}: {number}");
                    }
                }
            }
        }
    }
}

/// The list form gets the answer that the bytes made from it would get (01, Circuit).
#[test]
fn list_form_answers_as_its_bytes() {
    let mut random = Random::new(24);
    let numbers = Operation::EvaluateGates.refusals();
    let mut compared = 0;
    for _ in 0..2000 {
        let aims = [random.one_of(numbers), random.one_of(numbers)];
        let by_list = any_damaged_call(&mut random, Operation::EvaluateGates, &aims);
        let number = refused(&by_list);
        // No bytes have so many gates.
        if by_list.gates.len() > 65_535 {
            assert_eq!(number, Some(3));
            continue;
        }
        let mut by_bytes = by_list.clone();
        by_bytes.operation = Operation::Evaluate;
        by_bytes.circuit = to_bytes(by_list.n, by_list.m, &by_list.gates);
        assert_eq!(by_list.run(), by_bytes.run(), "aims {aims:?}");
        compared += 1;
    }
    assert!(compared > 1000, "{compared} of 2000 compared");
}
