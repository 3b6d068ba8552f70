//! Material: writing it, and reading it with refusals 12 to 18 (01, Material; 02, job 12).

use crate::block::{Block, Colour, BLOCK};
use crate::circuit::{Circuit, Sizes};
use crate::refused::{refuse_if, Refused};
use crate::scheme::Scheme;

const ROW_MARK: [u8; 2] = [0x47, 0x54];
const HEADER: usize = 9;

/// The header's mark, which says what the last record has of each output.
#[derive(Clone, Copy, Debug, PartialEq, Eq)]
pub enum Mark {
    /// 47 48: the colour of its zero token, a byte (01, Material).
    Colours,
    /// 47 4A: the hashes of its zero token and of its one token (02, job 12).
    Hashes,
}

impl Mark {
    /// Both marks.
    pub const ALL: [Mark; 2] = [Mark::Colours, Mark::Hashes];

    /// The mark as a number of 16 bits, as garble takes it.
    pub const fn number(self) -> u16 {
        match self {
            Mark::Colours => 0x4748,
            Mark::Hashes => 0x474A,
        }
    }

    /// The mark of a number, if it is one.
    pub fn from_number(number: u16) -> Option<Mark> {
        Mark::ALL.into_iter().find(|mark| mark.number() == number)
    }

    /// The mark that material starts with, if it is one.
    pub fn of(material: &[u8]) -> Option<Mark> {
        let &[high, low] = material.get(..2)? else {
            return None;
        };
        Mark::from_number(u16::from_be_bytes([high, low]))
    }

    /// The mark of the last record.
    fn last(self) -> [u8; 2] {
        match self {
            Mark::Colours => [0x47, 0x44],
            Mark::Hashes => [0x47, 0x41],
        }
    }

    /// The bytes that the last record has of each output.
    fn of_output(self) -> usize {
        match self {
            Mark::Colours => 1,
            Mark::Hashes => 2 * BLOCK,
        }
    }

    /// The bytes of the last record: its mark, and m outputs.
    pub fn last_length(self, m: usize) -> usize {
        self.last().len() + self.of_output() * m
    }
}

/// The bytes of one row record.
fn record_length(scheme: Scheme) -> usize {
    4 + BLOCK * scheme.rows()
}

/// Where the last record starts.
fn last_start(sizes: Sizes, scheme: Scheme) -> usize {
    HEADER + sizes.p * record_length(scheme)
}

/// The length of a circuit's material: 9+p(4+16r)+2+m with colours, and 9+p(4+16r)+2+32m with hashes.
pub fn length(sizes: Sizes, scheme: Scheme, mark: Mark) -> usize {
    last_start(sizes, scheme) + mark.last_length(sizes.m)
}

/// What the last record carries, in the order of the outputs.
#[derive(Clone, Debug, PartialEq, Eq)]
pub enum Last {
    /// The colour of each output's zero token.
    Colours(Vec<Colour>),
    /// The hash of each output's zero token, and of its one token.
    Hashes(Vec<[Block; 2]>),
}

impl Last {
    /// The header's mark that goes with it.
    pub fn mark(&self) -> Mark {
        match self {
            Last::Colours(_) => Mark::Colours,
            Last::Hashes(_) => Mark::Hashes,
        }
    }

    /// The last record's bytes.
    fn to_bytes(&self) -> Vec<u8> {
        let mut bytes = self.mark().last().to_vec();
        match self {
            Last::Colours(colours) => bytes.extend(colours.iter().map(|colour| u8::from(colour.0))),
            Last::Hashes(hashes) => bytes.extend(hashes.iter().flatten().flat_map(|hash| hash.0)),
        }
        bytes
    }

    /// Condition 30: the first output, counted from 1, whose two hashes are equal.
    pub fn clash(&self) -> Result<(), Refused> {
        let Last::Hashes(hashes) = self else {
            return Ok(());
        };
        match hashes.iter().position(|[zero, one]| zero == one) {
            Some(index) => Err(Refused::new(30, index + 1)),
            None => Ok(()),
        }
    }
}

/// What material carries for a circuit.
#[derive(Clone, Debug, PartialEq, Eq)]
pub struct Material {
    /// The scheme.
    pub scheme: Scheme,
    /// The stored rows of each charged gate, in order.
    pub rows: Vec<Vec<Block>>,
    /// What decoding needs.
    pub last: Last,
}

/// The mark and the wire number that a charged gate's record starts with.
fn record_start(wire: usize) -> [u8; 4] {
    let [high, low] = (wire as u16).to_be_bytes();
    [ROW_MARK[0], ROW_MARK[1], high, low]
}

impl Material {
    /// The material's bytes for its circuit.
    pub fn to_bytes(&self, circuit: &Circuit) -> Vec<u8> {
        let mut bytes = self.last.mark().number().to_be_bytes().to_vec();
        bytes.push(self.scheme.byte());
        bytes.extend(circuit.sizes().header_bytes());
        for (wire, rows) in circuit.charged_wires().zip(&self.rows) {
            bytes.extend(record_start(wire));
            for row in rows {
                bytes.extend(row.0);
            }
        }
        bytes.extend(self.last.to_bytes());
        bytes
    }

    /// Reads material for a circuit, or gives the refusal of conditions 12 to 18.
    pub fn read(bytes: &[u8], circuit: &Circuit) -> Result<Material, Refused> {
        refuse_if(bytes.len() < HEADER, 12, bytes.len())?;
        let mark = Mark::of(bytes).ok_or(Refused::new(13, 0))?;
        let scheme = read_scheme(bytes[2])?;
        let sizes = circuit.sizes();
        refuse_if(bytes[3..HEADER] != sizes.header_bytes(), 15, 3)?;
        let due = length(sizes, scheme, mark);
        refuse_if(bytes.len() != due, 16, bytes.len())?;
        let (records, last) = bytes.split_at(last_start(sizes, scheme));
        let records = records[HEADER..].chunks_exact(record_length(scheme));
        let mut rows = Vec::with_capacity(sizes.p);
        for (record, wire) in records.zip(circuit.charged_wires()) {
            refuse_if(!record.starts_with(&record_start(wire)), 17, wire)?;
            rows.push(Block::list(&record[4..]));
        }
        let last = read_last(mark, last, last_start(sizes, scheme))?;
        Ok(Material { scheme, rows, last })
    }
}

/// The scheme of a scheme byte; condition 14.
pub fn read_scheme(byte: u8) -> Result<Scheme, Refused> {
    Scheme::from_byte(byte).ok_or(Refused::new(14, usize::from(byte)))
}

/// The mark of a number that garble is handed; condition 13.
pub fn read_mark(number: u16) -> Result<Mark, Refused> {
    Mark::from_number(number).ok_or(Refused::new(13, 0))
}

/// What the last record carries, which starts at `start`, by the header's mark; condition 18. Hashes may be of
/// any bytes.
fn read_last(mark: Mark, record: &[u8], start: usize) -> Result<Last, Refused> {
    let (found, bytes) = record.split_at(mark.last().len());
    refuse_if(found != mark.last(), 18, start)?;
    match mark {
        Mark::Colours => {
            refuse_if(bytes.iter().any(|&byte| byte > 1), 18, start)?;
            let colours = bytes.iter().map(|&byte| Colour(byte == 1));
            Ok(Last::Colours(colours.collect()))
        }
        Mark::Hashes => {
            let hashes = Block::list(bytes);
            let pairs = hashes.chunks_exact(2).map(|pair| [pair[0], pair[1]]);
            Ok(Last::Hashes(pairs.collect()))
        }
    }
}
