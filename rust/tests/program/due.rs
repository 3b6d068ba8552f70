//! What is due of the program: what the library's functions on slices give, in buffers of the lengths that FORMATS.md says.

use weighhare::{Refusal, Sizes};

/// A seed for garblings that are the same in every run.
pub const SEED: [u8; 16] = *b"\x9d\x21\xf0\x5e\xb3\x07\xc8\x6a\x14\xee\x72\x39\xd5\x80\x4b\xa6";

/// The marks that material can have: with colours of the outputs' zero tokens, and with hashes of both tokens.
pub const COLOURS: u16 = 0x4748;
pub const HASHES: u16 = 0x474A;

/// The rows of a charged gate, by scheme.
const ROWS: [usize; 4] = [4, 3, 2, 2];

/// What garble writes.
pub struct Garbled {
    pub material: Vec<u8>,
    pub all_zeros: Vec<u8>,
    pub ones: Vec<u8>,
}

impl Garbled {
    /// The zero tokens of the inputs: the front of those of all wires.
    pub fn zeros(&self) -> &[u8] {
        &self.all_zeros[..self.ones.len()]
    }
}

/// What the program says of a refusal.
pub fn said(refusal: Refusal) -> String {
    format!("refused {} {}: {refusal}\n", refusal.number(), refusal.place())
}

/// The circuit that compares figures of so many bits.
pub fn comparator(width: usize) -> Result<Vec<u8>, Refusal> {
    let mut circuit = vec![0; 28 * width.min(64)];
    let length = weighhare::comparator(width, &mut circuit)?;
    circuit.truncate(length);
    Ok(circuit)
}

/// The bits of a figure, lowest first.
pub fn values(figure: u64, bits: usize) -> Vec<u8> {
    let bit = |index| if index < 64 { figure >> index & 1 } else { 0 };
    (0..bits).map(|index| bit(index) as u8).collect()
}

/// The material's length for a scheme from 1 to 4 and a mark that there is.
pub fn material_length(sizes: Sizes, scheme: u8, mark: u16) -> usize {
    let outputs = if mark == HASHES { 32 * sizes.m } else { sizes.m };
    11 + outputs + sizes.p * (4 + 16 * ROWS[usize::from(scheme) - 1])
}

/// With the mark 47 48.
pub fn garble(circuit: &[u8], seed: &[u8], run: u64, scheme: u8) -> Result<Garbled, Refusal> {
    garble_with(COLOURS, circuit, seed, run, scheme)
}

/// With a mark.
pub fn garble_with(mark: u16, circuit: &[u8], seed: &[u8], run: u64, scheme: u8) -> Result<Garbled, Refusal> {
    let sizes = weighhare::check(circuit)?;
    let longest = material_length(sizes, 1, HASHES);
    let mut garbled = Garbled {
        material: vec![0; longest],
        all_zeros: vec![0; 16 * (sizes.n + sizes.q)],
        ones: vec![0; 16 * sizes.n],
    };
    let Garbled {
        material,
        all_zeros,
        ones,
    } = &mut garbled;
    let length = weighhare::garble(circuit, seed, run, scheme, mark, material, all_zeros, ones)?.length;
    assert_eq!(length, material_length(sizes, scheme, mark));
    material.truncate(length);
    Ok(garbled)
}

pub fn encode(circuit: &[u8], values: &[u8], zeros: &[u8], ones: &[u8]) -> Result<Vec<u8>, Refusal> {
    let mut tokens = vec![0; 16 * weighhare::check(circuit)?.n];
    weighhare::encode(circuit, values, zeros, ones, &mut tokens)?;
    Ok(tokens)
}

/// The tokens for bits of the wires from `first` on.
pub fn pick(zeros: &[u8], ones: &[u8], first: u16, bits: &[u8]) -> Result<Vec<u8>, Refusal> {
    let mut tokens = Vec::new();
    for (index, bit) in bits.iter().enumerate() {
        let wire = usize::from(first) + index;
        tokens.extend(weighhare::pick(zeros, ones, wire as u16, *bit)?);
    }
    Ok(tokens)
}

/// The tokens of all wires.
pub fn evaluate(circuit: &[u8], tokens: &[u8], material: &[u8]) -> Result<Vec<u8>, Refusal> {
    let Sizes { n, q, .. } = weighhare::check(circuit)?;
    let mut wires = vec![0; 16 * (n + q)];
    weighhare::evaluate(circuit, tokens, material, &mut wires)?;
    Ok(wires)
}

pub fn output_tokens(circuit: &[u8], wires: &[u8]) -> Result<Vec<u8>, Refusal> {
    let mut tokens = vec![0; 16 * weighhare::check(circuit)?.m];
    weighhare::output_tokens(circuit, wires, &mut tokens)?;
    Ok(tokens)
}

pub fn decode(circuit: &[u8], outputs: &[u8], material: &[u8]) -> Result<Vec<u8>, Refusal> {
    let mut bits = vec![0; weighhare::check(circuit)?.m];
    weighhare::decode(circuit, outputs, material, &mut bits)?;
    Ok(bits)
}

/// The values of all wires.
pub fn plain(circuit: &[u8], values: &[u8]) -> Result<Vec<u8>, Refusal> {
    let Sizes { n, q, .. } = weighhare::check(circuit)?;
    let mut wires = vec![0; n + q];
    weighhare::plain(circuit, values, &mut wires)?;
    Ok(wires)
}

/// The values of the outputs, which are the last wires with the mark 43 48, and with 43 49 those that the records name.
pub fn outputs_of(circuit: &[u8], wires: &[u8]) -> Vec<u8> {
    let Sizes { m, q, .. } = weighhare::check(circuit).expect("an accepted circuit");
    if circuit[1] == 0x48 {
        return wires[wires.len() - m..].to_vec();
    }
    let records = circuit[8 + 7 * q..].chunks(4);
    let wire = |record: &[u8]| usize::from(u16::from_be_bytes([record[2], record[3]]));
    records.map(|record| wires[wire(record) - 1]).collect()
}

/// Bits as digits, on a line.
pub fn digits(bits: &[u8]) -> String {
    let digits: String = bits.iter().map(|bit| char::from(b'0' + bit)).collect();
    digits + "\n"
}

/// What is printed of a comparison.
pub fn answer(yes: bool) -> &'static str {
    if yes {
        "yes\n"
    } else {
        "no\n"
    }
}

/// The lines that `sizes` prints.
pub fn sizes(circuit: &[u8]) -> Result<String, Refusal> {
    let sizes = weighhare::check(circuit)?;
    let Sizes { n, m, q, p } = sizes;
    let [one, two, three, four] = [1, 2, 3, 4].map(|scheme| material_length(sizes, scheme, COLOURS));
    Ok(format!(
        "inputs {n}\noutputs {m}\ngates {q}\ncharged {p}\nmaterial {one} {two} {three} {four}\n"
    ))
}
