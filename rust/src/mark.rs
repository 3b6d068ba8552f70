//! The two marks that material can begin with.

use crate::Refusal;
use std::fmt;

/// A mark of the material: what its last record has for each output, and so what decoding goes by.
///
/// With hashes a token that is none of its output's two is refused, 29: one that was mistyped, that was mixed up with
/// one of another output or garbling, or that came of a damaged row. It is no help against whoever changes the
/// material, or garbles wrongly: with an output's two hashes exchanged its tokens decode to the opposite bit, and
/// nothing sees it.
///
/// ```
/// use weighhare::Mark;
///
/// assert_eq!(Mark::try_from(0x474A)?, Mark::Hashes);
/// assert_eq!(Mark::Hashes.number().to_be_bytes(), [0x47, 0x4A]);
/// assert_eq!(Mark::Hashes.to_string(), "47 4A");
/// # Ok::<(), weighhare::Refusal>(())
/// ```
#[derive(Clone, Copy, Debug, PartialEq, Eq, Hash)]
#[non_exhaustive]
pub enum Mark {
    /// 47 48: the colour of each output's zero token. Any token decodes to some bit.
    Colours = 0x4748,
    /// 47 4A: for each output the hash of its zero token and the hash of its one token.
    Hashes = 0x474A,
}

impl Mark {
    /// Both marks, by rising number.
    pub const ALL: [Self; 2] = [Self::Colours, Self::Hashes];

    /// The mark as a number: what [`garble`](crate::garble) takes, and, with its high byte first, what the material
    /// begins with.
    ///
    /// ```
    /// assert_eq!(weighhare::Mark::ALL.map(|mark| mark.number()), [0x4748, 0x474A]);
    /// ```
    #[must_use]
    pub fn number(self) -> u16 {
        self as u16
    }

    /// The bytes that the material's last record has for each output.
    ///
    /// ```
    /// assert_eq!(weighhare::Mark::ALL.map(|mark| mark.output_length()), [1, 32]);
    /// ```
    #[must_use]
    pub fn output_length(self) -> usize {
        match self {
            Self::Colours => 1,
            Self::Hashes => 32,
        }
    }
}

/// The mark of a number; another number is refusal 13.
impl TryFrom<u16> for Mark {
    type Error = Refusal;

    fn try_from(number: u16) -> Result<Self, Refusal> {
        let found = Self::ALL.into_iter().find(|mark| mark.number() == number);
        found.ok_or(Refusal::MaterialMark)
    }
}

/// Its two bytes, in hexadecimal.
impl fmt::Display for Mark {
    fn fmt(&self, f: &mut fmt::Formatter<'_>) -> fmt::Result {
        let [high, low] = self.number().to_be_bytes();
        write!(f, "{high:02X} {low:02X}")
    }
}
