//! Gates that use one operand, by the words of 02, job 2: which codes are refused, that an operand which is
//! not used keeps its limit, the gate's value, its zero token, the token that it hands on, and that it has no
//! row.

use second::block::{Block, BLOCK};
use second::circuit::{to_bytes, Gate, Sizes};
use second::operations::{check, encode, evaluate, garble, plain, Wanted};
use second::refused::Refused;

/// Two inputs and one gate of a code.
fn one_gate(a: u16, b: u16, code: u8) -> Vec<u8> {
    to_bytes(2, 1, &[Gate { a, b, code }])
}

fn refused(number: u8) -> Result<Sizes, Refused> {
    Err(Refused { number, place: 3 })
}

#[test]
fn codes_0_and_15_and_all_above_15_are_refused_and_no_other() {
    for code in 0..=255 {
        let answer = check(&one_gate(1, 2, code));
        let p = match code {
            0 | 15..=255 => {
                assert_eq!(answer, refused(7), "code {code}");
                continue;
            }
            3 | 5 | 6 | 9 | 10 | 12 => 0,
            _ => 1,
        };
        let (n, m, q) = (2, 1, 1);
        assert_eq!(answer, Ok(Sizes { n, m, q, p }), "code {code}");
    }
}

#[test]
fn an_operand_keeps_its_limit_though_it_is_unused() {
    for code in [3, 12, 15] {
        for b in [0, 1, 3, 65_535] {
            assert_eq!(check(&one_gate(1, b, code)), refused(6), "{b}, code {code}");
        }
    }
    for code in [5, 10, 15] {
        for a in [0, 2, 3, 65_535] {
            assert_eq!(check(&one_gate(a, 2, code)), refused(6), "{a}, code {code}");
        }
    }
}

/// The gate's value, from its operands' values: a, b, NOT a, NOT b.
#[test]
fn what_a_gate_of_one_operand_computes() {
    for (u, v) in [(0, 0), (0, 1), (1, 0), (1, 1)] {
        for (code, value) in [(12, u), (10, v), (3, 1 - u), (5, 1 - v)] {
            let mut wires = [9; 4];
            assert_eq!(plain(&one_gate(1, 2, code), &[u, v], &mut wires), Ok(()));
            assert_eq!(wires, [u, v, value, 9], "code {code}");
        }
    }
}

/// The codes, each with the index of the operand it uses, and whether it is a NOT.
const CODES: [(u8, usize, bool); 4] = [(12, 0, false), (10, 1, false), (3, 0, true), (5, 1, true)];

/// What garbling a gate of two inputs leaves: the zero tokens of all three wires, and R.
fn garbled(circuit: &[u8], scheme: u8, material: &mut [u8; 12]) -> ([Block; 3], Block) {
    let (mut zeros, mut ones) = ([0; 3 * BLOCK], [0; 2 * BLOCK]);
    let wanted = Wanted {
        run: 0,
        scheme,
        mark: 0x4748,
    };
    let answer = garble(circuit, &[7; 16], wanted, material, &mut zeros, &mut ones);
    let answer = answer.map(|garbled| (garbled.length, garbled.calls));
    assert_eq!(answer, Ok((12, 0)), "11+m bytes, and no call");
    let blocks = Block::list(&zeros);
    let zeros = [blocks[0], blocks[1], blocks[2]];
    (zeros, zeros[0] ^ Block::list(&ones)[0])
}

/// 12 and 10 pass on the token of a and of b, 3 and 5 the same with the zero token ⊕ R.
#[test]
fn which_zero_token_a_gate_of_one_operand_has() {
    for scheme in 1..=4 {
        for (code, operand, negates) in CODES {
            let mut material = [0; 12];
            let (zeros, offset) = garbled(&one_gate(1, 2, code), scheme, &mut material);
            let due = zeros[operand] ^ offset.times(negates);
            assert_eq!(zeros[2], due, "scheme {scheme}, code {code}");
            let colour = u8::from(due.colour().0);
            let header = [0x47, 0x48, scheme, 0, 2, 0, 1, 0, 1];
            assert_eq!(material[..9], header, "no row record");
            assert_eq!(material[9..], [0x47, 0x44, colour]);
        }
    }
}

/// The evaluator hands on the token that it holds of the one operand, a NOT's too.
#[test]
fn which_token_is_handed_on() {
    for scheme in 1..=4 {
        for (code, operand, _) in CODES {
            let circuit = one_gate(1, 2, code);
            let mut material = [0; 12];
            let (zeros, offset) = garbled(&circuit, scheme, &mut material);
            for values in [[0, 0], [0, 1], [1, 0], [1, 1]] {
                let inputs = [zeros[0], zeros[1]];
                let zero: Vec<u8> = inputs.iter().flat_map(|x| x.0).collect();
                let one: Vec<u8> = inputs.iter().flat_map(|&x| (x ^ offset).0).collect();
                let (mut tokens, mut wires) = ([0; 2 * BLOCK], [0; 3 * BLOCK]);
                assert_eq!(encode(&circuit, &values, &zero, &one, &mut tokens), Ok(()));
                assert_eq!(evaluate(&circuit, &tokens, &material, &mut wires), Ok(0));
                let held = Block::list(&wires);
                assert_eq!(held[2], held[operand], "scheme {scheme}, code {code}");
            }
        }
    }
}
