//! Why an operation refuses its arguments.

use std::error::Error;
use std::fmt;

/// Why an operation refused: the first condition that holds, with its place.
///
/// Conditions are tried in rising number, 5 to 7 together as one search over the gates in file order, but that 21 to 24
/// come before all others, and 25 and 26 right after 7, together as one search over the output records in file order; an
/// operation skips what it has no argument for. A condition on several lists or buffers is tried in the order of the
/// arguments.
///
/// No operation gives 22 to 24 yet: they are kept for a reader of circuits that are text. Nor 27 and 28, for an
/// evaluator that is driven as a board.
///
/// A refusal leaves every buffer as it was, but for [30](Self::OutputHashes). Its `Display` says in words what is wrong
/// and where.
#[derive(Clone, Copy, Debug, PartialEq, Eq, Hash)]
#[must_use = "a refused operation gave nothing"]
#[non_exhaustive]
pub enum Refusal {
    /// 1: the circuit has under 8 bytes.
    CircuitShort {
        /// The circuit's length.
        length: usize,
    },
    /// 2: the circuit does not begin with the mark 43 48 or 43 49. Its place is 0.
    CircuitMark,
    /// 3: the circuit's n, m or q breaks a limit ([`Sizes`](crate::Sizes)). Its place is 2.
    Limits,
    /// 4: the circuit's length is not 8+7q, or 8+7q+4m with the mark 43 49.
    CircuitLength {
        /// The circuit's length.
        length: usize,
    },
    /// 5: a gate does not begin with the mark 43 47.
    GateMark {
        /// The gate's wire number.
        wire: u16,
    },
    /// 6: a gate's operands a and b are not 1 <= a < b < its wire number.
    Operands {
        /// The gate's wire number.
        wire: u16,
    },
    /// 7: a gate's code is neither charged nor free ([`Gate::code`](crate::Gate::code)).
    Code {
        /// The gate's wire number.
        wire: u16,
    },
    /// 8: the seed has not 16 bytes.
    SeedLength {
        /// The seed's length.
        length: usize,
    },
    /// 9: the value list has not a byte for each input.
    ValuesLength {
        /// The list's length.
        length: usize,
    },
    /// 10: a value is neither 0 nor 1; in pick, the bit.
    Value {
        /// The index of the first such value, from 0; in pick 0.
        index: usize,
    },
    /// 11: a token list has the wrong length; in pick, the two lengths differ or are no multiple of 16.
    TokensLength {
        /// The length of the first list that is wrong; in pick that of the zero list.
        length: usize,
    },
    /// 12: the material has under 9 bytes.
    MaterialShort {
        /// The material's length.
        length: usize,
    },
    /// 13: the mark, the argument or the material's, is not 47 48 or 47 4A. Its place is 0.
    MaterialMark,
    /// 14: the scheme, the argument or the material's, is not 1, 2, 3 or 4.
    Scheme {
        /// The scheme.
        scheme: u8,
    },
    /// 15: the material's n, m or q is not the circuit's. Its place is 3.
    MaterialSizes,
    /// 16: the material's length is not that of its mark, its scheme and the circuit.
    MaterialLength {
        /// The material's length.
        length: usize,
    },
    /// 17: a row record has a wrong mark or wire number.
    RowRecord {
        /// The wire number due.
        wire: u16,
    },
    /// 18: the material's last record has a wrong mark or a colour over 1.
    LastRecord {
        /// Where the record starts.
        start: usize,
    },
    /// 19: an output buffer is too short.
    Room {
        /// The bytes needed, of the first such buffer.
        needed: usize,
    },
    /// 20: pick's wire is 0 or past the lists.
    PickWire {
        /// The wire.
        wire: u16,
    },
    /// 21: the width is not 1 to 64.
    Width {
        /// The width.
        width: usize,
    },
    /// 22: a line of the text is not of its form, is missing or lacks its line feed.
    TextLine {
        /// The line, from 1.
        line: usize,
    },
    /// 23: the text's gate lines are not as many as its gate count, or its wire count is not inputs plus gates. Its place
    /// is 1, the line that has the counts.
    TextCounts,
    /// 24: a gate's output is not the next wire.
    TextOutput {
        /// The line, from 1.
        line: usize,
    },
    /// 25: an output record does not begin with the mark 43 4F.
    OutputMark {
        /// The output, from 1.
        output: u16,
    },
    /// 26: an output record's wire is 0 or above n+q.
    OutputWire {
        /// The output, from 1.
        output: u16,
    },
    /// 27: the board's command is not 1 to 4.
    Command {
        /// The command.
        command: u8,
    },
    /// 28: the board is not loaded, is done, or its next gate is outside n+1 to n+q. Its place is 0.
    NotReady,
    /// 29: the hash of an output's token is neither of its two in the material, whose mark is 47 4A
    /// ([`Mark::Hashes`](crate::Mark::Hashes)).
    OutputToken {
        /// The first such output, from 1.
        output: u16,
    },
    /// 30: an output's two hashes are equal, of garble with the mark 47 4A. The one refusal that changes buffers: the
    /// bytes that garble would have written are zero, all others as they were. No run is known that meets it.
    OutputHashes {
        /// The first such output, from 1.
        output: u16,
    },
}

impl Refusal {
    /// The refusal's number: 1 to 30. Nothing gives 22 to 24, 27 and 28 yet.
    ///
    /// ```
    /// assert_eq!(weighhare::Refusal::Code { wire: 3 }.number(), 7);
    /// ```
    pub fn number(self) -> u8 {
        self.number_and_place().0
    }

    /// The refusal's place: a length, a wire number, an output's number, an index, an offset, a width, a line or a
    /// command, by its number.
    ///
    /// ```
    /// assert_eq!(weighhare::Refusal::Code { wire: 3 }.place(), 3);
    /// ```
    pub fn place(self) -> usize {
        self.number_and_place().1
    }

    fn number_and_place(self) -> (u8, usize) {
        match self {
            Self::CircuitShort { length } => (1, length),
            Self::CircuitMark => (2, 0),
            Self::Limits => (3, 2),
            Self::CircuitLength { length } => (4, length),
            Self::GateMark { wire } => (5, wire.into()),
            Self::Operands { wire } => (6, wire.into()),
            Self::Code { wire } => (7, wire.into()),
            Self::SeedLength { length } => (8, length),
            Self::ValuesLength { length } => (9, length),
            Self::Value { index } => (10, index),
            Self::TokensLength { length } => (11, length),
            Self::MaterialShort { length } => (12, length),
            Self::MaterialMark => (13, 0),
            Self::Scheme { scheme } => (14, scheme.into()),
            Self::MaterialSizes => (15, 3),
            Self::MaterialLength { length } => (16, length),
            Self::RowRecord { wire } => (17, wire.into()),
            Self::LastRecord { start } => (18, start),
            Self::Room { needed } => (19, needed),
            Self::PickWire { wire } => (20, wire.into()),
            Self::Width { width } => (21, width),
            Self::TextLine { line } => (22, line),
            Self::TextCounts => (23, 1),
            Self::TextOutput { line } => (24, line),
            Self::OutputMark { output } => (25, output.into()),
            Self::OutputWire { output } => (26, output.into()),
            Self::Command { command } => (27, command.into()),
            Self::NotReady => (28, 0),
            Self::OutputToken { output } => (29, output.into()),
            Self::OutputHashes { output } => (30, output.into()),
        }
    }

    /// The refusal of that number at that place, if there is one: a wire number and an output's have 16 bits, a scheme
    /// and a command 8, and 2, 3, 13, 15, 23 and 28 have one place each.
    ///
    /// ```
    /// use weighhare::Refusal;
    ///
    /// let refusal = Refusal::from_number(7, 3).expect("a refusal");
    /// assert_eq!(refusal.to_string(), "gate 3 has a code that is neither charged nor free");
    /// assert_eq!(Refusal::from_number(31, 0), None);
    /// ```
    pub fn from_number(number: u8, place: usize) -> Option<Self> {
        let short = u16::try_from(place).ok();
        let byte = u8::try_from(place).ok();
        let refusal = match number {
            1 => Self::CircuitShort { length: place },
            2 => Self::CircuitMark,
            3 => Self::Limits,
            4 => Self::CircuitLength { length: place },
            5 => Self::GateMark { wire: short? },
            6 => Self::Operands { wire: short? },
            7 => Self::Code { wire: short? },
            8 => Self::SeedLength { length: place },
            9 => Self::ValuesLength { length: place },
            10 => Self::Value { index: place },
            11 => Self::TokensLength { length: place },
            12 => Self::MaterialShort { length: place },
            13 => Self::MaterialMark,
            14 => Self::Scheme { scheme: byte? },
            15 => Self::MaterialSizes,
            16 => Self::MaterialLength { length: place },
            17 => Self::RowRecord { wire: short? },
            18 => Self::LastRecord { start: place },
            19 => Self::Room { needed: place },
            20 => Self::PickWire { wire: short? },
            21 => Self::Width { width: place },
            22 => Self::TextLine { line: place },
            23 => Self::TextCounts,
            24 => Self::TextOutput { line: place },
            25 => Self::OutputMark { output: short? },
            26 => Self::OutputWire { output: short? },
            27 => Self::Command { command: byte? },
            28 => Self::NotReady,
            29 => Self::OutputToken { output: short? },
            30 => Self::OutputHashes { output: short? },
            _ => return None,
        };
        (refusal.place() == place).then_some(refusal)
    }
}

/// `7 bytes`, `1 byte`.
struct Bytes(usize);

impl fmt::Display for Bytes {
    fn fmt(&self, f: &mut fmt::Formatter<'_>) -> fmt::Result {
        let ending = if self.0 == 1 { "" } else { "s" };
        write!(f, "{} byte{ending}", self.0)
    }
}

impl fmt::Display for Refusal {
    fn fmt(&self, f: &mut fmt::Formatter<'_>) -> fmt::Result {
        match *self {
            Self::CircuitShort { length } => write!(f, "the circuit has {}, a header needs 8", Bytes(length)),
            Self::CircuitMark => write!(f, "the circuit does not begin with the mark 43 48 or 43 49"),
            Self::Limits => write!(f, "the circuit's sizes, at byte 2, break a limit: {LIMITS}"),
            Self::CircuitLength { length } => write!(f, "the circuit has {}, {NOT_WHOLE}", Bytes(length)),
            Self::GateMark { wire } => write!(f, "gate {wire} does not begin with the mark 43 47"),
            Self::Operands { wire } => write!(f, "gate {wire} has operands that are not 1 <= a < b < {wire}"),
            Self::Code { wire } => write!(f, "gate {wire} has a code that is neither charged nor free"),
            Self::SeedLength { length } => write!(f, "the seed has {}, it needs 16", Bytes(length)),
            Self::ValuesLength { length } => write!(f, "the value list has {}, not one for each input", Bytes(length)),
            Self::Value { index } => write!(f, "the value at index {index} is neither 0 nor 1"),
            Self::TokensLength { length } => write!(f, "a token list has the wrong length, {}", Bytes(length)),
            Self::MaterialShort { length } => write!(f, "the material has {}, a header needs 9", Bytes(length)),
            Self::MaterialMark => write!(f, "the mark of the material is neither 47 48 nor 47 4A"),
            Self::Scheme { scheme } => write!(f, "the scheme is {scheme}, it must be 1, 2, 3 or 4"),
            Self::MaterialSizes => write!(f, "the material's n, m or q, at byte 3, is not the circuit's"),
            Self::MaterialLength { length } => write!(f, "the material has {}, {NOT_ITS_LENGTH}", Bytes(length)),
            Self::RowRecord { wire } => write!(f, "the row record due for wire {wire} has a wrong mark or wire number"),
            Self::LastRecord { start } => write!(f, "the last record, at byte {start}, {NOT_LAST}"),
            Self::Room { needed } => write!(f, "an output buffer is too short, it needs {}", Bytes(needed)),
            Self::PickWire { wire } => write!(f, "wire {wire} is not in the token lists"),
            Self::Width { width } => write!(f, "the width is {width}, it must be 1 to 64"),
            Self::TextLine { line } => write!(f, "line {line} of the text {NOT_A_LINE}"),
            Self::TextCounts => write!(f, "the text's counts, on line 1, are not its own: {COUNTS}"),
            Self::TextOutput { line } => write!(f, "the gate on line {line} of the text {NOT_NEXT}"),
            Self::OutputMark { output } => {
                write!(f, "the record of output {output} does not begin with the mark 43 4F")
            }
            Self::OutputWire { output } => write!(f, "the record of output {output} has a wire that is 0 or above n+q"),
            Self::Command { command } => write!(f, "the board's command is {command}, it must be 1 to 4"),
            Self::NotReady => write!(
                f,
                "the board is not loaded, is done, or its next gate is outside n+1 to n+q"
            ),
            Self::OutputToken { output } => write!(f, "the token of output {output} {NEITHER}"),
            Self::OutputHashes { output } => write!(f, "the two hashes of output {output} are equal: {GARBLE_ANEW}"),
        }
    }
}

const LIMITS: &str = "n from 2 to 4096, m from 1 to q, or to n+q with the mark 43 49, q at least 1, n+q at most 65535";
const NOT_WHOLE: &str = "not 8 and 7 for each gate, and with the mark 43 49 another 4 for each output";
const NOT_ITS_LENGTH: &str = "which is not the length for its mark, its scheme and the circuit";
const NOT_LAST: &str = "has a wrong mark or a colour over 1";
const NOT_A_LINE: &str = "is not of its form, is missing or lacks its line feed";
const COUNTS: &str = "as many gates as gate lines, as many wires as inputs and gates";
const NOT_NEXT: &str = "has an output that is not the next wire";
const NEITHER: &str = "has neither of its hashes in the material: \
                       something is mistyped, mixed up, damaged or of another garbling";
const GARBLE_ANEW: &str = "garble with another seed or run number";

impl Error for Refusal {}

#[cfg(test)]
mod tests {
    use super::Refusal;

    /// What is said of each refusal, by its number, at a place that it can have.
    const SAID: [(u8, usize, &str); 30] = [
        (1, 7, "the circuit has 7 bytes, a header needs 8"),
        (2, 0, "the circuit does not begin with the mark 43 48 or 43 49"),
        (
            3,
            2,
            "the circuit's sizes, at byte 2, break a limit: \
             n from 2 to 4096, m from 1 to q, or to n+q with the mark 43 49, q at least 1, n+q at most 65535",
        ),
        (
            4,
            14,
            "the circuit has 14 bytes, not 8 and 7 for each gate, and with the mark 43 49 another 4 for each output",
        ),
        (5, 3, "gate 3 does not begin with the mark 43 47"),
        (6, 3, "gate 3 has operands that are not 1 <= a < b < 3"),
        (7, 3, "gate 3 has a code that is neither charged nor free"),
        (8, 15, "the seed has 15 bytes, it needs 16"),
        (9, 1, "the value list has 1 byte, not one for each input"),
        (10, 1, "the value at index 1 is neither 0 nor 1"),
        (11, 31, "a token list has the wrong length, 31 bytes"),
        (12, 8, "the material has 8 bytes, a header needs 9"),
        (13, 0, "the mark of the material is neither 47 48 nor 47 4A"),
        (14, 5, "the scheme is 5, it must be 1, 2, 3 or 4"),
        (15, 3, "the material's n, m or q, at byte 3, is not the circuit's"),
        (
            16,
            79,
            "the material has 79 bytes, which is not the length for its mark, its scheme and the circuit",
        ),
        (17, 3, "the row record due for wire 3 has a wrong mark or wire number"),
        (
            18,
            77,
            "the last record, at byte 77, has a wrong mark or a colour over 1",
        ),
        (19, 48, "an output buffer is too short, it needs 48 bytes"),
        (20, 0, "wire 0 is not in the token lists"),
        (21, 65, "the width is 65, it must be 1 to 64"),
        (
            22,
            4,
            "line 4 of the text is not of its form, is missing or lacks its line feed",
        ),
        (
            23,
            1,
            "the text's counts, on line 1, are not its own: \
             as many gates as gate lines, as many wires as inputs and gates",
        ),
        (
            24,
            5,
            "the gate on line 5 of the text has an output that is not the next wire",
        ),
        (25, 2, "the record of output 2 does not begin with the mark 43 4F"),
        (26, 3, "the record of output 3 has a wire that is 0 or above n+q"),
        (27, 5, "the board's command is 5, it must be 1 to 4"),
        (
            28,
            0,
            "the board is not loaded, is done, or its next gate is outside n+1 to n+q",
        ),
        (
            29,
            2,
            "the token of output 2 has neither of its hashes in the material: \
             something is mistyped, mixed up, damaged or of another garbling",
        ),
        (
            30,
            3,
            "the two hashes of output 3 are equal: garble with another seed or run number",
        ),
    ];

    #[test]
    fn each_says_what_is_wrong_and_where() {
        for (number, place, said) in SAID {
            let refusal = Refusal::from_number(number, place).expect("a refusal");
            assert_eq!(refusal.to_string(), said, "refusal {number}");
        }
    }

    #[test]
    fn each_keeps_its_number_and_place() {
        for (number, place, _) in SAID {
            let refusal = Refusal::from_number(number, place).expect("a refusal");
            assert_eq!((refusal.number(), refusal.place()), (number, place));
        }
    }

    #[test]
    fn no_other_number_and_no_other_place() {
        for number in (0..=255).filter(|number| SAID.iter().all(|said| said.0 != *number)) {
            for place in [0, 1, 2, 3] {
                assert_eq!(Refusal::from_number(number, place), None, "{number} is none");
            }
        }
        for (number, place) in [(2, 1), (3, 0), (13, 1), (15, 2), (23, 0), (23, 2), (28, 1)] {
            assert_eq!(Refusal::from_number(number, place), None, "{number} has one place");
        }
        for number in [5, 6, 7, 17, 20] {
            assert_eq!(Refusal::from_number(number, 65_536), None, "a wire has 16 bits");
        }
        for number in [25, 26, 29, 30] {
            assert_eq!(Refusal::from_number(number, 65_536), None, "an output has 16 bits");
        }
        for number in [14, 27] {
            assert_eq!(
                Refusal::from_number(number, 256),
                None,
                "a scheme and a command have 8 bits"
            );
        }
        for width in [0, usize::MAX] {
            let refusal = Refusal::from_number(21, width);
            assert_eq!(refusal, Some(Refusal::Width { width }), "every width has a place");
        }
    }
}
