//! A gate that is already read.

/// A gate that is already read: two operands, which are wire numbers, and a code. Its fields lie as in C.
///
/// Limits: 1 <= a < b < the gate's own wire number, also where the code uses only one of them.
#[derive(Clone, Copy, Debug, PartialEq, Eq, Hash)]
#[repr(C)]
pub struct Gate {
    /// The first operand, from 1.
    pub a: u16,
    /// The second operand, over the first.
    pub b: u16,
    /// The code, a truth table: its bit 2u+v, bit 0 the lowest, is the gate's value for a=u and b=v. Charged are 1 (NOR),
    /// 2 (a < b), 4 (a > b), 7 (NAND), 8 (AND), 11 (a <= b), 13 (a >= b) and 14 (OR); free are 6 (XOR), 9 (XNOR), and those
    /// that use one operand: 3 (NOT a), 5 (NOT b), 10 (b) and 12 (a). Every other code is refused: 0, 15 and all above.
    pub code: u8,
}

#[cfg(test)]
mod tests {
    use super::Gate;
    use std::mem::{align_of, offset_of, size_of};

    /// As `weighhare_gate` of `include/weighhare.h`: two 16-bit fields, a byte, and a byte that is not used.
    #[test]
    fn a_gate_lies_as_in_c() {
        assert_eq!((size_of::<Gate>(), align_of::<Gate>()), (6, 2));
        assert_eq!(
            (offset_of!(Gate, a), offset_of!(Gate, b), offset_of!(Gate, code)),
            (0, 2, 4)
        );
    }
}
