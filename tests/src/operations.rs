//! The operations on lent bytes (01, Operations; 02, jobs 4, 8 and 12). Conditions are tried in rising number, 25
//! and 26 right after 7, and nothing is written before the last of them. Garble's 30 alone changes buffers.

use crate::block::{Block, Colour, BLOCK};
use crate::cipher::Cipher;
use crate::circuit::{Circuit, Gate, Kind, Sizes, Truth};
use crate::material::{self, read_mark, read_scheme, Last, Mark, Material};
use crate::refused::{refuse_if, Refused};
use crate::scheme::{output_hash, Evaluator, Garbler};
use crate::token::Seed;

/// What garbling is asked for beside the circuit and the seed. No run number is refused.
#[derive(Clone, Copy, Debug, PartialEq, Eq)]
pub struct Wanted {
    /// The run number (02, job 4).
    pub run: u64,
    /// The scheme byte.
    pub scheme: u8,
    /// The material's mark, as a number (02, job 12).
    pub mark: u16,
}

/// What garble returns.
#[derive(Clone, Copy, Debug, PartialEq, Eq)]
pub struct Garbled {
    /// The material's length.
    pub length: u64,
    /// The encryptions that the scheme made.
    pub calls: u64,
}

/// Condition 8 of a seed.
fn read_seed(seed: &[u8]) -> Result<&[u8; BLOCK], Refused> {
    seed.try_into().map_err(|_| Refused::new(8, seed.len()))
}

/// Conditions 9 and 10 of a value list.
fn read_values(values: &[u8], n: usize) -> Result<Vec<Truth>, Refused> {
    refuse_if(values.len() != n, 9, values.len())?;
    let truth = |(index, &value): (usize, &u8)| match value {
        0 => Ok(Truth(false)),
        1 => Ok(Truth(true)),
        _ => Err(Refused::new(10, index)),
    };
    values.iter().enumerate().map(truth).collect()
}

/// Condition 11 of a token list.
fn read_tokens(list: &[u8], count: usize) -> Result<Vec<Block>, Refused> {
    refuse_if(list.len() != BLOCK * count, 11, list.len())?;
    Ok(Block::list(list))
}

/// Condition 19 of one output buffer.
fn check_room(buffer: &[u8], needed: usize) -> Result<(), Refused> {
    refuse_if(buffer.len() < needed, 19, needed)
}

/// Writes blocks to the start of a buffer.
fn write_blocks(buffer: &mut [u8], blocks: &[Block]) {
    for (place, block) in buffer.chunks_exact_mut(BLOCK).zip(blocks) {
        place.copy_from_slice(&block.0);
    }
}

/// Check: n, m, q, p.
pub fn check(circuit: &[u8]) -> Result<Sizes, Refused> {
    Ok(Circuit::read(circuit)?.sizes())
}

/// Plain: a value byte for every wire.
pub fn plain(circuit: &[u8], values: &[u8], wires: &mut [u8]) -> Result<(), Refused> {
    let circuit = Circuit::read(circuit)?;
    let inputs = read_values(values, circuit.sizes().n)?;
    check_room(wires, circuit.sizes().wires())?;
    for (byte, truth) in wires.iter_mut().zip(circuit.plain(inputs)) {
        *byte = u8::from(truth.0);
    }
    Ok(())
}

/// Garble: the material, the zero tokens of all wires, the one tokens of the inputs.
pub fn garble(
    circuit: &[u8],
    seed: &[u8],
    wanted: Wanted,
    material: &mut [u8],
    zeros: &mut [u8],
    ones: &mut [u8],
) -> Result<Garbled, Refused> {
    let circuit = Circuit::read(circuit)?;
    let sizes = circuit.sizes();
    let seed = read_seed(seed)?;
    let mark = read_mark(wanted.mark)?;
    let scheme = read_scheme(wanted.scheme)?;
    let length = material::length(sizes, scheme, mark);
    check_room(material, length)?;
    check_room(zeros, BLOCK * sizes.wires())?;
    check_room(ones, BLOCK * sizes.n)?;

    let mut garbler = Garbler::new(scheme, Seed::new(seed, wanted.run));
    let (rows, zero_tokens) = garble_wires(&circuit, &mut garbler);
    let last = garble_outputs(mark, &circuit.of_outputs(&zero_tokens), &mut garbler);
    let clash = last.clash();
    let file = Material { scheme, rows, last }.to_bytes(&circuit);
    let one_token = |&zero: &Block| garbler.token(zero, Truth(true)).0;
    let one_tokens: Vec<u8> = zero_tokens[..sizes.n].iter().flat_map(one_token).collect();
    let zero_tokens: Vec<u8> = zero_tokens.iter().flat_map(|token| token.0).collect();
    let made: [&[u8]; 3] = [&file, &zero_tokens, &one_tokens];
    leave(made, [material, zeros, ones], clash)?;
    Ok(Garbled {
        length: length as u64,
        calls: garbler.calls(),
    })
}

/// What a garbling leaves at the front of its buffers: the bytes made, or where it clashes, which is refusal 30,
/// as many zeros (02, job 12).
pub fn leave(
    made: [&[u8]; 3],
    buffers: [&mut [u8]; 3],
    clash: Result<(), Refused>,
) -> Result<(), Refused> {
    for (bytes, buffer) in made.into_iter().zip(buffers) {
        let front = &mut buffer[..bytes.len()];
        match clash {
            Ok(()) => front.copy_from_slice(bytes),
            Err(_) => front.fill(0),
        }
    }
    clash
}

/// The rows of the charged gates, and the zero tokens of all wires.
fn garble_wires(circuit: &Circuit, garbler: &mut Garbler) -> (Vec<Vec<Block>>, Vec<Block>) {
    let Sizes { n, p, .. } = circuit.sizes();
    let mut rows = Vec::with_capacity(p);
    let inputs = (1..=n).map(|wire| garbler.input(wire)).collect();
    let zeros = circuit.over_wires(inputs, |wire, gate, xa, xb| {
        let garbled = garbler.gate(wire, gate, xa, xb);
        if gate.kind() == Some(Kind::Charged) {
            rows.push(garbled.rows);
        }
        garbled.zero
    });
    (rows, zeros)
}

/// What the last record has of the outputs, by the mark, from their zero tokens.
fn garble_outputs(mark: Mark, zeros: &[Block], garbler: &mut Garbler) -> Last {
    match mark {
        Mark::Colours => Last::Colours(zeros.iter().map(|zero| zero.colour()).collect()),
        Mark::Hashes => {
            let outputs = zeros.iter().zip(1..);
            let hashes = outputs.map(|(&zero, k)| garbler.output_hashes(zero, k));
            Last::Hashes(hashes.collect())
        }
    }
}

/// Encode: for each input its token in the zero list for value 0, in the one list for value 1.
pub fn encode(
    circuit: &[u8],
    values: &[u8],
    zero: &[u8],
    one: &[u8],
    tokens: &mut [u8],
) -> Result<(), Refused> {
    let n = Circuit::read(circuit)?.sizes().n;
    let values = read_values(values, n)?;
    let zero = read_tokens(zero, n)?;
    let one = read_tokens(one, n)?;
    check_room(tokens, BLOCK * n)?;
    let lists = zero.into_iter().zip(one);
    let chosen = lists.zip(values).map(|((zero, one), value)| match value {
        Truth(false) => zero,
        Truth(true) => one,
    });
    write_blocks(tokens, &chosen.collect::<Vec<Block>>());
    Ok(())
}

/// Evaluate: the tokens of all wires; returns the encryptions made.
pub fn evaluate(
    circuit: &[u8],
    tokens: &[u8],
    material: &[u8],
    wires: &mut [u8],
) -> Result<u64, Refused> {
    evaluate_circuit(&Circuit::read(circuit)?, tokens, material, wires)
}

/// Evaluate with n, m and the gates already read (01, Circuit).
pub fn evaluate_gates(
    n: u16,
    m: u16,
    gates: &[Gate],
    tokens: &[u8],
    material: &[u8],
    wires: &mut [u8],
) -> Result<u64, Refused> {
    evaluate_circuit(&Circuit::from_gates(n, m, gates)?, tokens, material, wires)
}

fn evaluate_circuit(
    circuit: &Circuit,
    tokens: &[u8],
    material: &[u8],
    wires: &mut [u8],
) -> Result<u64, Refused> {
    let inputs = read_tokens(tokens, circuit.sizes().n)?;
    let material = Material::read(material, circuit)?;
    check_room(wires, BLOCK * circuit.sizes().wires())?;
    let mut evaluator = Evaluator::new(material.scheme);
    let mut rows = material.rows.iter();
    let held = circuit.over_wires(inputs, |wire, gate, a, b| {
        if gate.kind() == Some(Kind::Free) {
            return evaluator.free(gate, a, b);
        }
        let rows = rows.next().expect("material has a record for the gate");
        evaluator.charged(wire, rows, a, b)
    });
    write_blocks(wires, &held);
    Ok(evaluator.calls())
}

/// The outputs' tokens, in the order of the outputs, of the tokens of all wires that evaluate wrote: what
/// decode takes (02, job 8).
pub fn output_tokens(circuit: &[u8], wires: &[u8], tokens: &mut [u8]) -> Result<(), Refused> {
    let circuit = Circuit::read(circuit)?;
    let held = read_tokens(wires, circuit.sizes().wires())?;
    check_room(tokens, BLOCK * circuit.sizes().m)?;
    write_blocks(tokens, &circuit.of_outputs(&held));
    Ok(())
}

/// Decode: a bit for each output, by what the material has of it.
pub fn decode(
    circuit: &[u8],
    tokens: &[u8],
    material: &[u8],
    values: &mut [u8],
) -> Result<(), Refused> {
    let circuit = Circuit::read(circuit)?;
    let tokens = read_tokens(tokens, circuit.sizes().m)?;
    let material = Material::read(material, &circuit)?;
    check_room(values, circuit.sizes().m)?;
    let bits = match material.last {
        Last::Colours(colours) => by_colours(&tokens, &colours),
        Last::Hashes(hashes) => by_hashes(&tokens, &hashes)?,
    };
    for (byte, bit) in values.iter_mut().zip(bits) {
        *byte = u8::from(bit);
    }
    Ok(())
}

/// The token's colour ⊕ the zero token's, for each output. Any tokens decode.
fn by_colours(tokens: &[Block], colours: &[Colour]) -> Vec<bool> {
    let outputs = tokens.iter().zip(colours);
    let bit = |(token, zero): (&Block, &Colour)| token.colour().0 ^ zero.0;
    outputs.map(bit).collect()
}

/// 0 where the token's hash is the first of its output's, else 1 where it is the second; else 29, with the
/// first such output, counted from 1 (02, job 12). No count is kept of these encryptions.
fn by_hashes(tokens: &[Block], hashes: &[[Block; 2]]) -> Result<Vec<bool>, Refused> {
    let mut cipher = Cipher::default();
    let outputs = tokens.iter().zip(hashes).zip(1..);
    let bit = |((&token, stored), k): ((&Block, &[Block; 2]), usize)| {
        let hash = output_hash(&mut cipher, token, k);
        let agrees = stored.iter().position(|&stored| stored == hash);
        agrees.map(|bit| bit == 1).ok_or(Refused::new(29, k))
    };
    outputs.map(bit).collect()
}

/// The check of pick's arguments.
pub fn check_pick(zero: &[u8], one: &[u8], wire: u16, bit: u8) -> Result<(), Refused> {
    refuse_if(bit > 1, 10, 0)?;
    let wrong = zero.len() != one.len() || !zero.len().is_multiple_of(BLOCK);
    refuse_if(wrong, 11, zero.len())?;
    let wire = usize::from(wire);
    refuse_if(wire == 0 || wire > zero.len() / BLOCK, 20, wire)
}

/// Pick: the 16 bytes of one wire for one bit, a part of one list or the other; refused, empty.
pub fn pick<'a>(zero: &'a [u8], one: &'a [u8], wire: u16, bit: u8) -> &'a [u8] {
    if check_pick(zero, one, wire, bit).is_err() {
        return &[];
    }
    let list = if bit == 1 { one } else { zero };
    let end = BLOCK * usize::from(wire);
    &list[end - BLOCK..end]
}
