//! Each refusal, by an operation that gives it; and the buffers, which it leaves as they were. 21 is met in
//! `comparator.rs`, 25 and 26 in `named.rs`, 29 in `hashed.rs`. Left out are 22, 23, 24, 27 and 28, which nothing gives
//! yet, and 30, for which two hashes would have to be equal: no run is known that meets it.

mod common;

use common::{garbling, Garbling, AND, COLOURS, FILL, GATES, HASHES, SEED};
use weighhare::{Gate, Refusal};

/// The AND gate with one byte changed.
fn and_with(index: usize, byte: u8) -> [u8; 15] {
    let mut circuit = AND;
    circuit[index] = byte;
    circuit
}

/// Evaluate's refusal for a circuit's AND gate, garbled by scheme 1, with one byte of its material changed.
fn material_with(index: usize, byte: u8) -> Option<Refusal> {
    let Garbling { mut material, ones, .. } = garbling(1);
    material[index] = byte;
    evaluate_refusal(&ones, &material)
}

/// Evaluate's refusal of these tokens and this material. The buffer is seen to be as it was.
fn evaluate_refusal(tokens: &[u8], material: &[u8]) -> Option<Refusal> {
    let mut wires = [FILL; 48];
    let refusal = weighhare::evaluate(&AND, tokens, material, &mut wires).err();
    assert!(refusal.is_none() || wires == [FILL; 48], "untouched");
    refusal
}

#[test]
fn of_a_circuit() {
    let check = |circuit: &[u8]| weighhare::check(circuit).err();
    assert_eq!(check(&[]), Some(Refusal::CircuitShort { length: 0 }));
    assert_eq!(check(&AND[..7]), Some(Refusal::CircuitShort { length: 7 }));
    assert_eq!(check(&and_with(1, 0x47)), Some(Refusal::CircuitMark));
    assert_eq!(check(&and_with(1, 0x4A)), Some(Refusal::CircuitMark));
    assert_eq!(
        check(&and_with(1, 0x49)),
        Some(Refusal::CircuitLength { length: 15 }),
        "no output record"
    );
    assert_eq!(check(&and_with(3, 1)), Some(Refusal::Limits));
    assert_eq!(check(&AND[..14]), Some(Refusal::CircuitLength { length: 14 }));
    assert_eq!(check(&and_with(9, 0x48)), Some(Refusal::GateMark { wire: 3 }));
    assert_eq!(check(&and_with(11, 2)), Some(Refusal::Operands { wire: 3 }));
    assert_eq!(check(&and_with(14, 0)), Some(Refusal::Code { wire: 3 }));
    assert_eq!(check(&and_with(14, 15)), Some(Refusal::Code { wire: 3 }));
    assert_eq!(check(&and_with(14, 3)), None);
}

#[test]
fn of_the_lists_handed_in() {
    let Garbling { material, zeros, ones } = garbling(1);
    let encode = |values: &[u8], zeros: &[u8], ones: &[u8]| {
        let mut tokens = [FILL; 32];
        let refusal = weighhare::encode(&AND, values, zeros, ones, &mut tokens).err();
        assert_eq!(tokens, [FILL; 32], "untouched");
        refusal
    };
    assert_eq!(
        encode(&[1], &zeros[..32], &ones),
        Some(Refusal::ValuesLength { length: 1 })
    );
    assert_eq!(encode(&[1, 2], &zeros[..32], &ones), Some(Refusal::Value { index: 1 }));
    assert_eq!(
        encode(&[1, 1], &zeros, &ones),
        Some(Refusal::TokensLength { length: 48 })
    );
    assert_eq!(
        encode(&[1, 1], &zeros[..32], &ones[1..]),
        Some(Refusal::TokensLength { length: 31 })
    );

    let mut bits = [FILL];
    let refusal = weighhare::decode(&AND, &ones, &material, &mut bits).err();
    assert_eq!(refusal, Some(Refusal::TokensLength { length: 32 }));
    assert_eq!(bits, [FILL], "untouched");
}

/// Garble's refusal of a seed, a scheme and buffers of these lengths, with the mark 47 48.
fn garble_refusal(seed: &[u8], scheme: u8, lengths: [usize; 3]) -> Option<Refusal> {
    refusal_with_mark(seed, scheme, COLOURS, lengths)
}

/// Garble's refusal, which is the same in every run. The buffers are seen to be as they were: refusal 30, which alone
/// changes them, no run is known to meet.
fn refusal_with_mark(seed: &[u8], scheme: u8, mark: u16, lengths: [usize; 3]) -> Option<Refusal> {
    let in_run = |run: u64| {
        let [mut material, mut zeros, mut ones] = lengths.map(|length| vec![FILL; length]);
        let refusal = weighhare::garble(&AND, seed, run, scheme, mark, &mut material, &mut zeros, &mut ones).err();
        for buffer in [material, zeros, ones] {
            assert!(buffer.iter().all(|byte| *byte == FILL), "untouched");
        }
        refusal
    };
    let refusal = in_run(0);
    for run in [1, 1 << 32, u64::MAX] {
        assert_eq!(in_run(run), refusal, "run {run}");
    }
    refusal
}

#[test]
fn of_garble() {
    let garble = garble_refusal;
    assert_eq!(
        garble(&SEED[1..], 1, [80, 48, 32]),
        Some(Refusal::SeedLength { length: 15 })
    );
    for scheme in [0, 5, 255] {
        assert_eq!(garble(&SEED, scheme, [80, 48, 32]), Some(Refusal::Scheme { scheme }));
    }
    assert_eq!(garble(&SEED, 1, [79, 47, 31]), Some(Refusal::Room { needed: 80 }));
    assert_eq!(garble(&SEED, 1, [80, 47, 31]), Some(Refusal::Room { needed: 48 }));
    assert_eq!(garble(&SEED, 1, [80, 48, 31]), Some(Refusal::Room { needed: 32 }));
    assert_eq!(garble(&SEED, 4, [47, 48, 32]), Some(Refusal::Room { needed: 48 }));
}

/// In the order 8, 13, 14, 19.
#[test]
fn of_garble_by_its_mark() {
    let garble = refusal_with_mark;
    for mark in [0, 0x4747, 0x4749, 0x474B, 0x4848, 0x4847, 0x4A47, 0xFFFF] {
        assert_eq!(garble(&SEED, 1, mark, [80, 48, 32]), Some(Refusal::MaterialMark));
        assert_eq!(
            garble(&SEED, 5, mark, [0, 0, 0]),
            Some(Refusal::MaterialMark),
            "13 before 14"
        );
        let seed = garble(&SEED[1..], 5, mark, [0, 0, 0]);
        assert_eq!(seed, Some(Refusal::SeedLength { length: 15 }), "8 before 13");
    }
    for scheme in [0, 5, 255] {
        assert_eq!(
            garble(&SEED, scheme, HASHES, [0, 0, 0]),
            Some(Refusal::Scheme { scheme })
        );
    }
    for (scheme, needed) in [(1, 111), (2, 95), (3, 79), (4, 79)] {
        let short = garble(&SEED, scheme, HASHES, [needed - 1, 47, 31]);
        assert_eq!(short, Some(Refusal::Room { needed }));
        let zeros = garble(&SEED, scheme, HASHES, [needed, 47, 31]);
        assert_eq!(zeros, Some(Refusal::Room { needed: 48 }));
        let ones = garble(&SEED, scheme, HASHES, [needed, 48, 31]);
        assert_eq!(ones, Some(Refusal::Room { needed: 32 }));
    }
}

#[test]
fn of_the_material() {
    let Garbling { material, ones, .. } = garbling(1);
    assert_eq!(evaluate_refusal(&ones, &material), None);
    assert_eq!(
        evaluate_refusal(&ones, &material[..8]),
        Some(Refusal::MaterialShort { length: 8 })
    );
    for byte in [0x47, 0x49, 0x4B] {
        assert_eq!(material_with(1, byte), Some(Refusal::MaterialMark));
    }
    assert_eq!(
        material_with(1, 0x4A),
        Some(Refusal::MaterialLength { length: 80 }),
        "the other mark has another length"
    );
    for scheme in [0, 5, 255] {
        assert_eq!(material_with(2, scheme), Some(Refusal::Scheme { scheme }));
    }
    for scheme in 2..=4 {
        let refusal = material_with(2, scheme);
        assert_eq!(refusal, Some(Refusal::MaterialLength { length: 80 }), "fewer rows");
    }
    assert_eq!(material_with(4, 3), Some(Refusal::MaterialSizes));
    assert_eq!(
        evaluate_refusal(&ones, &material[..79]),
        Some(Refusal::MaterialLength { length: 79 })
    );
    assert_eq!(material_with(12, 4), Some(Refusal::RowRecord { wire: 3 }));
    assert_eq!(material_with(79, 2), Some(Refusal::LastRecord { start: 77 }));
}

/// The refusal of a list of gates, with n inputs and m outputs, before its tokens and material are looked at. The buffer is
/// seen to be as it was.
fn gates_refusal(n: u16, m: u16, gates: &[Gate]) -> Option<Refusal> {
    let mut wires = [FILL; 96];
    let refusal = weighhare::evaluate_gates(n, m, gates, &[], &[], &mut wires).err();
    assert_eq!(wires, [FILL; 96], "untouched");
    refusal
}

/// `GATES` with one gate changed.
fn gates_with(index: usize, gate: Gate) -> [Gate; 3] {
    let mut gates = GATES;
    gates[index] = gate;
    gates
}

#[test]
fn of_the_sizes_of_a_list_of_gates() {
    assert_eq!(gates_refusal(2, 1, &[]), Some(Refusal::Limits), "no gates");
    assert_eq!(
        gates_refusal(2, 0, &[]),
        Some(Refusal::Limits),
        "no gates and no outputs"
    );
    assert_eq!(gates_refusal(1, 2, &GATES), Some(Refusal::Limits), "one input");
    assert_eq!(gates_refusal(4097, 2, &GATES), Some(Refusal::Limits), "4097 inputs");
    assert_eq!(gates_refusal(3, 0, &GATES), Some(Refusal::Limits), "no outputs");
    assert_eq!(
        gates_refusal(3, 4, &GATES),
        Some(Refusal::Limits),
        "more outputs than gates"
    );
    // 65,536 is 0 in 16 bits, and 65,537 is 1: neither is taken for it.
    for q in [65_534, 65_535, 65_536, 65_537] {
        let gates = vec![GATES[0]; q];
        assert_eq!(gates_refusal(2, 1, &gates), Some(Refusal::Limits), "{q} gates");
    }
    let most = vec![GATES[0]; 65_533];
    let refusal = gates_refusal(2, 1, &most);
    assert_eq!(refusal, Some(Refusal::TokensLength { length: 0 }), "65,533 gates");
}

#[test]
fn of_a_gate_in_a_list() {
    assert_eq!(gates_refusal(3, 2, &GATES), Some(Refusal::TokensLength { length: 0 }));
    for (index, wire) in [(0, 4), (1, 5), (2, 6)] {
        let refusal = |gate| gates_refusal(3, 2, &gates_with(index, gate));
        for (a, b) in [(0, 1), (1, 1), (2, 1), (1, wire), (1, 65_535)] {
            assert_eq!(refusal(Gate { a, b, code: 8 }), Some(Refusal::Operands { wire }));
        }
        for code in [0, 15, 16, 19, 21, 26, 28, 255] {
            assert_eq!(refusal(Gate { a: 1, b: 2, code }), Some(Refusal::Code { wire }));
        }
        let both = Gate { a: 1, b: 1, code: 0 };
        assert_eq!(refusal(both), Some(Refusal::Operands { wire }), "6 before 7");
    }
}

/// 3 and 12 do not use b, 5 and 10 do not use a, and 15 would use neither.
#[test]
fn of_an_operand_that_is_not_used() {
    for code in [3, 12, 15] {
        for b in [0, 1, 5, 65_535] {
            let gates = gates_with(1, Gate { a: 1, b, code });
            assert_eq!(gates_refusal(3, 2, &gates), Some(Refusal::Operands { wire: 5 }));
        }
    }
    for code in [5, 10, 15] {
        for a in [0, 4, 5, 65_535] {
            let gates = gates_with(1, Gate { a, b: 4, code });
            assert_eq!(gates_refusal(3, 2, &gates), Some(Refusal::Operands { wire: 5 }));
        }
    }
}

#[test]
fn of_the_rest_with_a_list_of_gates() {
    let Garbling { material, ones, .. } = garbling(1);
    let evaluate = |tokens: &[u8], material: &[u8], room: usize| {
        let mut wires = [FILL; 48];
        let refusal = weighhare::evaluate_gates(2, 1, &GATES[..1], tokens, material, &mut wires[..room]).err();
        assert!(refusal.is_none() || wires == [FILL; 48], "untouched");
        refusal
    };
    assert_eq!(evaluate(&ones, &material, 48), None);
    assert_eq!(
        evaluate(&ones[1..], &material, 48),
        Some(Refusal::TokensLength { length: 31 })
    );
    assert_eq!(
        evaluate(&ones, &material[..79], 48),
        Some(Refusal::MaterialLength { length: 79 })
    );
    let mut other = material.clone();
    other[12] = 4;
    assert_eq!(evaluate(&ones, &other, 48), Some(Refusal::RowRecord { wire: 3 }));
    other = material.clone();
    other[79] = 2;
    assert_eq!(evaluate(&ones, &other, 48), Some(Refusal::LastRecord { start: 77 }));
    assert_eq!(evaluate(&ones, &material, 47), Some(Refusal::Room { needed: 48 }));
}

#[test]
fn of_room() {
    let Garbling { material, ones, .. } = garbling(1);
    let mut short = [FILL; 47];
    let refusal = weighhare::evaluate(&AND, &ones, &material, &mut short).err();
    assert_eq!(refusal, Some(Refusal::Room { needed: 48 }));
    let refusal = weighhare::plain(&AND, &[1, 1], &mut short[..2]).err();
    assert_eq!(refusal, Some(Refusal::Room { needed: 3 }));
    assert_eq!(short, [FILL; 47], "untouched");
    let refusal = weighhare::decode(&AND, &ones[..16], &material, &mut []).err();
    assert_eq!(refusal, Some(Refusal::Room { needed: 1 }));
}

#[test]
fn of_pick() {
    let (zeros, ones) = ([0; 32], [1; 48]);
    let pick = |ones: &[u8], wire: u16, bit: u8| weighhare::pick(&zeros, ones, wire, bit).err();
    assert_eq!(pick(&ones[..32], 1, 2), Some(Refusal::Value { index: 0 }));
    assert_eq!(pick(&ones, 1, 1), Some(Refusal::TokensLength { length: 32 }));
    assert_eq!(pick(&ones[..32], 0, 1), Some(Refusal::PickWire { wire: 0 }));
    assert_eq!(pick(&ones[..32], 3, 1), Some(Refusal::PickWire { wire: 3 }));
}
