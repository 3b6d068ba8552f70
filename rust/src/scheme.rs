//! The four ways to garble a gate.

use crate::Refusal;
use std::fmt;

/// A scheme: how a charged gate is garbled, and so how many rows it has in the material.
///
/// Schemes 3 and 4 differ in their hash alone, and their material has one length: where its scheme byte is changed from the
/// one to the other, nothing refuses it, and it opens to other tokens.
///
/// ```
/// use weighhare::Scheme;
///
/// assert_eq!(Scheme::try_from(3)?, Scheme::HalfGates);
/// assert_eq!(Scheme::HalfGates.number(), 3);
/// assert_eq!(Scheme::HalfGates.to_string(), "half-gates");
/// # Ok::<(), weighhare::Refusal>(())
/// ```
#[derive(Clone, Copy, Debug, PartialEq, Eq, Hash)]
#[non_exhaustive]
pub enum Scheme {
    /// Scheme 1, GaX: four rows.
    Gax = 1,
    /// Scheme 2, GaXR: three rows.
    Gaxr = 2,
    /// Scheme 3, half-gates: two rows; its hash has one fixed key.
    HalfGates = 3,
    /// Scheme 4, re-keyed half-gates: two rows; the key of its hash changes with each tweak.
    RekeyedHalfGates = 4,
}

impl Scheme {
    /// Every scheme, by rising number.
    pub const ALL: [Self; 4] = [Self::Gax, Self::Gaxr, Self::HalfGates, Self::RekeyedHalfGates];

    /// The scheme's number, 1 to 4: what [`garble`](crate::garble) takes, and the material's scheme byte.
    ///
    /// ```
    /// assert_eq!(weighhare::Scheme::ALL.map(|scheme| scheme.number()), [1, 2, 3, 4]);
    /// ```
    #[must_use]
    pub fn number(self) -> u8 {
        self as u8
    }

    /// The rows that a charged gate has in the material, each of 16 bytes.
    ///
    /// ```
    /// assert_eq!(weighhare::Scheme::ALL.map(|scheme| scheme.rows()), [4, 3, 2, 2]);
    /// ```
    #[must_use]
    pub fn rows(self) -> usize {
        match self {
            Self::Gax => 4,
            Self::Gaxr => 3,
            Self::HalfGates | Self::RekeyedHalfGates => 2,
        }
    }
}

/// The scheme of a number; another number is refusal 14.
impl TryFrom<u8> for Scheme {
    type Error = Refusal;

    fn try_from(number: u8) -> Result<Self, Refusal> {
        let found = Self::ALL.into_iter().find(|scheme| scheme.number() == number);
        found.ok_or(Refusal::Scheme { scheme: number })
    }
}

impl fmt::Display for Scheme {
    fn fmt(&self, f: &mut fmt::Formatter<'_>) -> fmt::Result {
        f.write_str(match self {
            Self::Gax => "GaX",
            Self::Gaxr => "GaXR",
            Self::HalfGates => "half-gates",
            Self::RekeyedHalfGates => "re-keyed half-gates",
        })
    }
}
