//! Material that ends in hashes (02, job 12), and tokens that it decodes. It is drawn apart from the other
//! arguments: the stored cases that were there before have the mark 47 48.

use super::{garbling, refit, room, rows};
use crate::block::{Block, BLOCK};
use crate::call::{Call, Operation};
use crate::cipher::Cipher;
use crate::circuit::Circuit;
use crate::material::{Last, Mark, Material};
use crate::random::Random;
use crate::scheme::{output_hash, Scheme};

/// Marks that garble refuses: those of other records, the right bytes exchanged, and such that differ from a
/// mark in one bit or in one byte.
pub const BAD_MARKS: [u16; 12] = [
    0, 0x4749, 0x474B, 0x4847, 0x4A47, 0x4741, 0x4744, 0x4754, 0x4348, 0x004A, 0xC748, 0xFFFF,
];

/// Whether an operation has a mark of material: garble's argument, or the material's own.
pub fn has_mark(operation: Operation) -> bool {
    matches!(
        operation,
        Operation::Garble | Operation::Evaluate | Operation::EvaluateGates | Operation::Decode
    )
}

/// The sound call with the mark 47 4A, where its operation has one. Decode gets tokens that the material knows.
pub fn hash_outputs(random: &mut Random, call: &mut Call) {
    let before = room(call).expect("a sound call");
    match (call.operation, call.read_circuit()) {
        (Operation::Garble, _) => call.mark = Mark::Hashes.number(),
        (operation, Ok(circuit)) if has_mark(operation) => {
            let scheme = Scheme::from_byte(call.material[2]).expect("a sound call");
            if random.chance(50) {
                let (material, tokens) = own_tokens(random, &circuit, scheme);
                call.material = material;
                if operation == Operation::Decode {
                    call.tokens = tokens;
                }
            } else {
                call.material = hashed_stranger(random, &circuit, scheme, &known(call));
            }
        }
        _ => {}
    }
    refit(call, before);
}

/// The tokens that decode hands in; none of another operation.
fn known(call: &Call) -> Vec<Block> {
    match call.operation {
        Operation::Decode => Block::list(&call.tokens),
        _ => Vec::new(),
    }
}

/// Half of the sound calls that have a mark are turned into such of 47 4A.
pub fn any_mark(random: &mut Random, call: &mut Call) {
    if has_mark(call.operation) && random.chance(50) {
        hash_outputs(random, call);
    }
}

/// The material that garbling makes from some seed, and for each output one of its two tokens.
fn own_tokens(random: &mut Random, circuit: &Circuit, scheme: Scheme) -> (Vec<u8>, Vec<u8>) {
    let made = garbling(random, circuit, scheme, Mark::Hashes);
    let [zero, one] = [&made.zeros, &made.ones].map(|list| Block::list(&list[..BLOCK])[0]);
    let offset = zero ^ one;
    let zeros = circuit.of_outputs(&Block::list(&made.zeros));
    let token = |zero: Block| (zero ^ offset.times(random.chance(50))).0;
    (made.material, zeros.into_iter().flat_map(token).collect())
}

/// A stranger's material, with any rows. Of each output whose token is given one of the two hashes is that
/// token's, or both are; the others have any hashes, of which some pairs are equal.
pub fn hashed_stranger(
    random: &mut Random,
    circuit: &Circuit,
    scheme: Scheme,
    tokens: &[Block],
) -> Vec<u8> {
    let rows = rows(random, circuit, scheme);
    let mut cipher = Cipher::default();
    let pair = |k: usize| {
        let any = Block::list(&random.bytes(2 * BLOCK));
        let hash = match tokens.get(k - 1) {
            Some(&token) => output_hash(&mut cipher, token, k),
            None => any[0],
        };
        match random.below(5) {
            0 | 1 => [hash, any[1]],
            2 | 3 => [any[1], hash],
            _ => [hash, hash],
        }
    };
    let last = Last::Hashes((1..=circuit.sizes().m).map(pair).collect());
    Material { scheme, rows, last }.to_bytes(circuit)
}
