//! The comparator by width (02, job 1): the circuit that compares two figures of w bits, with the gates that
//! docs/FORMATS.md lays down, since 02 leaves them free.

use crate::circuit::{to_bytes, Gate};
use crate::refused::{refuse_if, Refused};

/// The circuit for a width; nothing where it is not 1 to 64. Inputs 1 to w are the price, the next w the
/// ceiling, both lowest bit first; the one output is the last wire.
pub fn bytes(width: u64) -> Option<Vec<u8>> {
    let w = u16::try_from(width).ok()?;
    let is_a_width = (1..=64).contains(&w);
    is_a_width.then(|| to_bytes(2 * w, 1, &gates(w)))
}

/// The length of the circuit for a width, 28w-13; nothing where there is none.
pub fn length(width: u64) -> Option<usize> {
    bytes(width).map(|bytes| bytes.len())
}

/// The gates: "price ≤ ceiling" of the lowest bit, and from that of the bits below the same with each further
/// bit.
fn gates(w: u16) -> Vec<Gate> {
    let gate = |a, b, code| Gate { a, b, code };
    let mut gates = vec![gate(1, w + 1, 11)];
    for bit in 1..w {
        let (price, ceiling) = (bit + 1, w + bit + 1);
        let below = 2 * w + gates.len() as u16;
        gates.extend([
            gate(price, below, 9),
            gate(ceiling, below, 6),
            // 1 where the answer changes with this bit.
            gate(below + 1, below + 2, 8),
            gate(below, below + 3, 6),
        ]);
    }
    gates
}

/// Comparator: writes the circuit for a width and returns its length. 21 comes before 19.
pub fn comparator(width: u64, circuit: &mut [u8]) -> Result<u64, Refused> {
    let bytes = bytes(width).ok_or(Refused {
        number: 21,
        place: width,
    })?;
    refuse_if(circuit.len() < bytes.len(), 19, bytes.len())?;
    circuit[..bytes.len()].copy_from_slice(&bytes);
    Ok(bytes.len() as u64)
}
