//! A circuit's sizes, and the lengths that come of them.

use crate::{Mark, Scheme};

/// The bytes of a token.
const TOKEN: usize = 16;

/// A circuit's sizes, and from them the lengths of what the operations write and take.
///
/// Limits: n is 2 to 4,096, m is 1 to q, with the mark 43 49 1 to n+q, q is at least 1, and n+q is at most 65,535. Sizes that
/// no circuit has give a length too, at most [`usize::MAX`].
///
/// ```
/// use weighhare::{Circuit, Scheme};
///
/// let sizes = Circuit::comparator(32)?.sizes();
/// assert_eq!((sizes.n, sizes.m, sizes.q, sizes.p), (64, 1, 125, 32));
/// assert_eq!(sizes.material_length(Scheme::HalfGates), 1164);
/// # Ok::<(), weighhare::Refusal>(())
/// ```
#[derive(Clone, Copy, Debug, PartialEq, Eq, Hash)]
#[must_use]
pub struct Sizes {
    /// Inputs.
    pub n: usize,
    /// Outputs.
    pub m: usize,
    /// Gates.
    pub q: usize,
    /// Charged gates: those that have rows in the material.
    pub p: usize,
}

impl Sizes {
    /// The wires, n+q: also the bytes of a value list of all wires.
    ///
    /// ```
    /// assert_eq!(weighhare::Circuit::comparator(32)?.sizes().wires(), 189);
    /// # Ok::<(), weighhare::Refusal>(())
    /// ```
    #[must_use]
    pub fn wires(self) -> usize {
        self.n.saturating_add(self.q)
    }

    /// The bytes of a token for every wire, 16(n+q): garble's zero tokens, and what evaluate writes.
    ///
    /// ```
    /// assert_eq!(weighhare::Circuit::comparator(32)?.sizes().wire_tokens_length(), 16 * 189);
    /// # Ok::<(), weighhare::Refusal>(())
    /// ```
    #[must_use]
    pub fn wire_tokens_length(self) -> usize {
        self.wires().saturating_mul(TOKEN)
    }

    /// The bytes of a token for every input, 16n: garble's one tokens, what encode writes, and what evaluate takes.
    ///
    /// ```
    /// assert_eq!(weighhare::Circuit::comparator(32)?.sizes().input_tokens_length(), 16 * 64);
    /// # Ok::<(), weighhare::Refusal>(())
    /// ```
    #[must_use]
    pub fn input_tokens_length(self) -> usize {
        self.n.saturating_mul(TOKEN)
    }

    /// The bytes of a token for every output, 16m: what output_tokens writes and decode takes.
    ///
    /// ```
    /// assert_eq!(weighhare::Circuit::comparator(32)?.sizes().output_tokens_length(), 16);
    /// # Ok::<(), weighhare::Refusal>(())
    /// ```
    #[must_use]
    pub fn output_tokens_length(self) -> usize {
        self.m.saturating_mul(TOKEN)
    }

    /// The bytes of the material of mark 47 48 under a scheme, 11+m+p(4+16r), where r is the scheme's
    /// [rows](Scheme::rows).
    ///
    /// ```
    /// use weighhare::Scheme;
    ///
    /// let sizes = weighhare::Circuit::comparator(8)?.sizes();
    /// assert_eq!(Scheme::ALL.map(|scheme| sizes.material_length(scheme)), [556, 428, 300, 300]);
    /// # Ok::<(), weighhare::Refusal>(())
    /// ```
    #[must_use]
    pub fn material_length(self, scheme: Scheme) -> usize {
        self.length_with(Mark::Colours, scheme)
    }

    /// The bytes of the material of mark 47 4A under a scheme, 11+32m+p(4+16r), where r is the scheme's
    /// [rows](Scheme::rows).
    ///
    /// ```
    /// use weighhare::Scheme;
    ///
    /// let sizes = weighhare::Circuit::comparator(8)?.sizes();
    /// assert_eq!(Scheme::ALL.map(|scheme| sizes.hashed_material_length(scheme)), [587, 459, 331, 331]);
    /// # Ok::<(), weighhare::Refusal>(())
    /// ```
    #[must_use]
    pub fn hashed_material_length(self, scheme: Scheme) -> usize {
        self.length_with(Mark::Hashes, scheme)
    }

    /// The bytes of the material: its header and its last record's mark, the records of the charged gates, the outputs.
    pub(crate) fn length_with(self, mark: Mark, scheme: Scheme) -> usize {
        let records = self.p.saturating_mul(4 + TOKEN * scheme.rows());
        let outputs = self.m.saturating_mul(mark.output_length());
        records.saturating_add(outputs).saturating_add(11)
    }
}

/// The bytes of the circuit that compares figures of `width` bits, 28w-13; nothing where there is no such circuit: the width
/// is 1 to 64.
///
/// ```
/// assert_eq!(weighhare::comparator_length(32), Some(883));
/// assert_eq!(weighhare::comparator_length(65), None);
/// ```
#[must_use]
pub fn comparator_length(width: usize) -> Option<usize> {
    (1..=64).contains(&width).then(|| 28 * width - 13)
}
