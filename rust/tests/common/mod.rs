//! The AND gate of document 01's examples, garbled; and a list of three gates.

use weighhare::Gate;

/// 2 inputs, 1 output, 1 gate: wire 3 is wire 1 AND wire 2.
pub const AND: [u8; 15] = [0x43, 0x48, 0, 2, 0, 1, 0, 1, 0x43, 0x47, 0, 1, 0, 2, 8];

/// The AND gate with outputs by name: wire 3, wire 1, which is an input, and wire 3 again.
#[allow(dead_code)] // Few files of tests use it.
#[rustfmt::skip]
pub const NAMED: [u8; 27] = [
    0x43, 0x49, 0, 2, 0, 3, 0, 1,
    0x43, 0x47, 0, 1, 0, 2, 8,
    0x43, 0x4F, 0, 3,
    0x43, 0x4F, 0, 1,
    0x43, 0x4F, 0, 3,
];

/// With 3 inputs, wire 4 is wire 1 AND wire 2, wire 5 is wire 3 XOR wire 4, wire 6 is wire 4 NOR wire 5.
pub const GATES: [Gate; 3] = [
    Gate { a: 1, b: 2, code: 8 },
    Gate { a: 3, b: 4, code: 6 },
    Gate { a: 4, b: 5, code: 1 },
];

/// The seed of every garbling here. Their run number is 0 where nothing else is said.
pub const SEED: [u8; 16] = [7; 16];

/// A byte that buffers are filled with, to see what is written.
pub const FILL: u8 = 0xA5;

/// The marks that material can have, as numbers.
pub const COLOURS: u16 = 0x4748;
#[allow(dead_code)] // Few files of tests use it.
pub const HASHES: u16 = 0x474A;

/// The AND gate garbled by one scheme.
pub struct Garbling {
    pub material: Vec<u8>,
    pub zeros: [u8; 48],
    pub ones: [u8; 32],
}

/// The material's length for the AND gate under a scheme.
pub fn material_length(scheme: u8) -> usize {
    [80, 64, 48, 48][usize::from(scheme) - 1]
}

/// Garbles the AND gate into buffers of just the lengths needed, which held another byte before than `FILL`.
pub fn garbling(scheme: u8) -> Garbling {
    let mut garbling = Garbling {
        material: vec![!FILL; material_length(scheme)],
        zeros: [!FILL; 48],
        ones: [!FILL; 32],
    };
    let garbled = weighhare::garble(
        &AND,
        &SEED,
        0,
        scheme,
        COLOURS,
        &mut garbling.material,
        &mut garbling.zeros,
        &mut garbling.ones,
    )
    .expect("garbled");
    assert_eq!((garbled.length, garbled.calls), (material_length(scheme), 4));
    garbling
}
