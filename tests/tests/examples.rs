//! The examples of 01, Table of examples: P1 to P14, the limits of n, m and q, and what the program prints.

use second::aes::s_box;
use second::block::Block;
use second::circuit::{Gate, Sizes};
use second::operations::{check, plain};
use second::program;
use second::refused::Refused;
use second::scheme::{half_gate_bits, HalfGateBits};

const P11: [u8; 15] = [0x43, 0x48, 0, 2, 0, 1, 0, 1, 0x43, 0x47, 0, 1, 0, 2, 0x08];

fn refused(number: u8, place: u64) -> Result<Sizes, Refused> {
    Err(Refused { number, place })
}

/// P11 with other operands and another code.
fn p11_with(a: u8, b: u8, code: u8) -> [u8; 15] {
    let mut circuit = P11;
    (circuit[11], circuit[13], circuit[14]) = (a, b, code);
    circuit
}

/// A header alone.
fn header(n: u16, m: u16, q: u16) -> Vec<u8> {
    let sizes = [n, m, q].map(u16::to_be_bytes).concat();
    [vec![0x43, 0x48], sizes].concat()
}

#[test]
fn p1_to_p4_doubling() {
    assert_eq!(Block::number(0).double(), Block::number(0));
    assert_eq!(Block::number(1).double(), Block::number(2));
    let mut high = Block::ZERO;
    high.0[0] = 0x80;
    assert_eq!(high.double(), Block::number(0x87));
    assert_eq!(high.double_twice(), Block::number(0x010E));
}

#[test]
fn p5_and_p6_s_box() {
    assert_eq!((s_box(0x00), s_box(0x01)), (0x63, 0x7C));
}

#[test]
fn p7_to_p10_alpha_beta_gamma() {
    let table = [
        (8, [0, 0, 0]),
        (2, [1, 0, 0]),
        (14, [1, 1, 1]),
        (7, [0, 0, 1]),
    ];
    for (code, bits) in table {
        let [alpha, beta, gamma] = bits.map(|bit| bit == 1);
        let expected = HalfGateBits { alpha, beta, gamma };
        let gate = Gate { a: 1, b: 2, code };
        assert_eq!(half_gate_bits(gate), Some(expected), "code {code}");
    }
}

#[test]
fn p11_sizes_and_values() {
    let (n, m, q, p) = (2, 1, 1, 1);
    assert_eq!(check(&P11), Ok(Sizes { n, m, q, p }));
    let mut wires = [9; 4];
    assert_eq!(plain(&P11, &[1, 1], &mut wires), Ok(()));
    assert_eq!(wires, [1, 1, 1, 9]);
}

#[test]
fn p12_and_p13_a_gate_turned_down() {
    assert_eq!(check(&p11_with(1, 2, 0x00)), refused(7, 3));
    assert_eq!(check(&p11_with(2, 2, 0x08)), refused(6, 3));
    assert_eq!(check(&p11_with(1, 3, 0x08)), refused(6, 3));
}

#[test]
fn p14_a_circuit_cut_off() {
    assert_eq!(check(&P11[..14]), refused(4, 14));
    assert_eq!(check(&P11[..7]), refused(1, 7));
}

#[test]
fn limits_of_n_m_and_q() {
    // A header alone that passes refusal 3 comes to refusal 4.
    assert_eq!(check(&header(4096, 1, 61_439)), refused(4, 8));
    assert_eq!(check(&header(4096, 1, 61_440)), refused(3, 2));
    assert_eq!(check(&header(4096, 1, 65_535)), refused(3, 2));
    assert_eq!(check(&header(4097, 1, 1)), refused(3, 2));
    assert_eq!(check(&header(2, 1, 65_533)), refused(4, 8));
    assert_eq!(check(&header(2, 0, 1)), refused(3, 2));
    assert_eq!(check(&header(2, 0, 0)), refused(3, 2));
    let mut one_input = P11;
    one_input[3] = 1;
    assert_eq!(check(&one_input), refused(3, 2));
    let mut two_outputs = P11;
    two_outputs[5] = 2;
    assert_eq!(check(&two_outputs), refused(3, 2));
}

#[test]
fn what_the_program_prints() {
    assert_eq!(program::output(&P11), "2 1 1 1\n80 64 48\n");
    assert_eq!(program::output(&p11_with(1, 2, 0)), "refused 7 3\n");
    // 02, job 2: a gate that uses one operand has no row; 15 and 16 are refused still.
    assert_eq!(program::output(&p11_with(1, 2, 3)), "2 1 1 0\n12 12 12\n");
    assert_eq!(program::output(&p11_with(1, 2, 15)), "refused 7 3\n");
    assert_eq!(program::output(&p11_with(1, 2, 16)), "refused 7 3\n");
    assert_eq!(program::output(&[]), "refused 1 0\n");
    assert_eq!(program::output(&[0; 65_536]), "refused 2 0\n");
    assert_eq!(program::output(&[0; 65_537]), "too long\n");
}
