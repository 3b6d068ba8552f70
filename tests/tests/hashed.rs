//! Material that ends in hashes, by the words of 02, job 12, on the second implementation and on the archive.
//! The hashes are worked out here once more, from AES alone: the bytes of a garbling with hashes are those of
//! the same garbling with colours, but for the mark and the last record, and the calls are 2m more. Further: the
//! chain on every list of values, with both marks; which tokens decode, and which are refused with 29; what the
//! two hashes of an output say, also where they are equal or exchanged; which marks are refused; what comes
//! before 29; files whose mark, length and last record do not go together; and refusal 30 on bytes alone.

mod sides;

use second::aes::Key;
use second::block::{Block, BLOCK};
use second::call::{Call, Operation};
use second::circuit::{Circuit, Gate, Sizes};
use second::evaluator::value_lists;
use second::generate::hashes::has_mark;
use second::generate::{self, room};
use second::interface::{self, Answer};
use second::material::Last;
use second::named::{mixed, LISTS};
use second::operations::leave;
use second::random::Random;
use second::refused::Refused;
use second::runs::every_code;
use sides::{Side, SIDES};

const COLOURS: u16 = 0x4748;
const HASHES: u16 = 0x474A;

/// H of scheme 3 for the token x of output k: π(2x ⊕ t) ⊕ 2x ⊕ t, t = 2(65,536+k).
fn output_hash(x: Block, k: usize) -> Block {
    let number = u128::from_be_bytes(x.0);
    let twice = number << 1 ^ if number >> 127 == 1 { 0x87 } else { 0 };
    let block = Block((twice ^ (131_072 + 2 * k as u128)).to_be_bytes());
    Key::expand(&std::array::from_fn(|i| i as u8)).encrypt(block) ^ block
}

/// A call's answer, which must not be a refusal, in buffers of the bytes named.
fn done(side: Side, mut call: Call) -> Answer {
    call.lens = room(&call).expect("an accepted circuit");
    let answer = side(&call);
    assert_eq!(answer.number, 0, "{call:?}");
    answer
}

/// The call is refused with this number and place, and leaves the buffers as they were.
fn refused(side: Side, call: &Call, number: u8, place: usize) {
    let answer = side(call);
    let given = (answer.number, answer.words);
    assert_eq!(given, (number, [place as u64, 0, 0, 0]), "{call:?}");
    assert_eq!(answer.buffers, interface::buffers(call), "written");
}

/// A garbling: the circuit, the three buffers, and the words of the answer.
#[derive(Clone)]
struct Garbling {
    circuit: Vec<u8>,
    material: Vec<u8>,
    zeros: Vec<u8>,
    ones: Vec<u8>,
    words: [u64; 4],
}

impl Garbling {
    fn sizes(&self) -> Sizes {
        let circuit = Circuit::read(&self.circuit);
        circuit.expect("an accepted circuit").sizes()
    }

    /// R: the distance of the two tokens of wire 1.
    fn offset(&self) -> Block {
        Block::list(&self.zeros[..BLOCK])[0] ^ Block::list(&self.ones[..BLOCK])[0]
    }

    /// The zero token and the one token of each output, in order.
    fn outputs(&self) -> Vec<[Block; 2]> {
        let circuit = Circuit::read(&self.circuit).expect("an accepted circuit");
        let zeros = circuit.of_outputs(&Block::list(&self.zeros));
        let offset = self.offset();
        let both = |zero: Block| [zero, zero ^ offset];
        zeros.into_iter().map(both).collect()
    }

    /// Where the hashes of the output at an index start.
    fn hashes(&self, index: usize) -> usize {
        self.material.len() - 2 * BLOCK * (self.sizes().m - index)
    }

    /// A call of an operation on the material and tokens, in buffers of the bytes named.
    fn call(&self, operation: Operation, tokens: &[u8]) -> Call {
        let mut call = Call {
            operation,
            circuit: self.circuit.clone(),
            tokens: tokens.to_vec(),
            material: self.material.clone(),
            fill: 0xA5,
            ..Call::default()
        };
        call.lens = room(&call).expect("an accepted circuit");
        call
    }

    /// A call of decode on the outputs' tokens for these bits.
    fn decode(&self, bits: &[u8]) -> Call {
        let outputs = self.outputs().into_iter().zip(bits);
        let token = |(pair, &bit): ([Block; 2], &u8)| pair[usize::from(bit)].0;
        let tokens: Vec<u8> = outputs.flat_map(token).collect();
        self.call(Operation::Decode, &tokens)
    }
}

fn garble_call(circuit: &[u8], seed: &[u8], scheme: u8, mark: u16) -> Call {
    let mut call = Call {
        operation: Operation::Garble,
        circuit: circuit.to_vec(),
        seed: seed.to_vec(),
        run: 7,
        scheme,
        mark,
        ..Call::default()
    };
    call.lens = room(&call).unwrap_or(vec![5000; 3]);
    call
}

fn garbling(side: Side, circuit: &[u8], scheme: u8, mark: u16) -> Garbling {
    let seed = [scheme + 16; BLOCK];
    let answer = done(side, garble_call(circuit, &seed, scheme, mark));
    let [material, zeros, ones] = answer.buffers.try_into().expect("three buffers");
    Garbling {
        circuit: circuit.to_vec(),
        material,
        zeros,
        ones,
        words: answer.words,
    }
}

/// Circuits of either mark: the last wires, and each list of named outputs.
fn circuits() -> Vec<Vec<u8>> {
    let named = LISTS.into_iter().map(mixed);
    [every_code()].into_iter().chain(named).collect()
}

/// Each side with a garbling of the circuit whose outputs are wires 9, 1, 9 and 4, with hashes, by each scheme.
fn each_garbling() -> impl Iterator<Item = (Side, Garbling)> {
    let sides = SIDES.into_iter().map(|(_, side)| side);
    let schemes = sides.flat_map(|side| (1..=4).map(move |scheme| (side, scheme)));
    schemes.map(|(side, scheme)| (side, garbling(side, &mixed(&[9, 1, 9, 4]), scheme, HASHES)))
}

/// The calls of the files of cases: those of `vectors` and `garblings` run there on the proved functions.
#[test]
fn both_sides_agree_on_the_stored_calls() {
    let [(_, second), (_, archive)] = SIDES;
    for operation in Operation::ALL.into_iter().filter(|&op| has_mark(op)) {
        let calls = second::hashed::calls(operation);
        assert!(calls.len() > 100, "{operation:?}");
        for call in calls {
            assert_eq!(archive(&call), second(&call), "{call:?}");
        }
    }
}

/// The other bytes of the material are those that it has with colours, and so are the tokens.
#[test]
fn the_bytes_and_the_calls() {
    for (name, side) in SIDES {
        for (circuit, scheme) in circuits().iter().flat_map(|c| (1..=4).map(move |s| (c, s))) {
            let colours = garbling(side, circuit, scheme, COLOURS);
            let hashes = garbling(side, circuit, scheme, HASHES);
            let m = colours.sizes().m;
            let last = colours.material.len() - m - 2;
            let mut due = colours.material[..last].to_vec();
            due[1] = 0x4A;
            due.extend([0x47, 0x41]);
            for (pair, k) in colours.outputs().into_iter().zip(1..) {
                due.extend(pair.into_iter().flat_map(|token| output_hash(token, k).0));
            }
            assert!(hashes.material == due, "{name}, scheme {scheme}");
            assert_eq!(hashes.zeros, colours.zeros, "{name}");
            assert_eq!(hashes.ones, colours.ones, "{name}");
            let [length, calls, ..] = colours.words;
            let m = m as u64;
            let words = [length + 31 * m, calls + 2 * m, 0, 0];
            assert_eq!(hashes.words, words, "{name}, scheme {scheme}");
        }
    }
}

/// k is the place in the list of outputs: a wire that is named twice has two pairs of hashes.
#[test]
fn a_wire_named_twice_has_two_pairs() {
    for (side, garbling) in each_garbling() {
        let hashes = Block::list(&garbling.material[garbling.hashes(0)..]);
        // Outputs 1 and 3 are wire 9.
        assert!(hashes[0] != hashes[4] && hashes[1] != hashes[5]);
        for bits in value_lists(4) {
            let mut exchanged = garbling.decode(&bits);
            for at in 0..2 * BLOCK {
                let [one, other] = [0, 2].map(|index| garbling.hashes(index) + at);
                exchanged.material.swap(one, other);
            }
            refused(side, &exchanged, 29, 1);
        }
    }
}

/// The chain on every list of values, with both marks: evaluate answers the same in both forms.
#[test]
fn every_list_of_values_decodes_to_the_plain_bits() {
    for (_, side) in SIDES {
        for (circuit, scheme) in circuits().iter().flat_map(|c| (1..=4).map(move |s| (c, s))) {
            let by_mark = [COLOURS, HASHES].map(|mark| garbling(side, circuit, scheme, mark));
            for values in value_lists(3) {
                let [colours, hashes] = by_mark
                    .each_ref()
                    .map(|garbling| check_chain(side, garbling, &values));
                assert_eq!(colours, hashes);
            }
        }
    }
}

/// The wires' tokens and the calls of evaluate; the decoded bits are the plain ones.
fn check_chain(side: Side, garbling: &Garbling, values: &[u8]) -> (Vec<u8>, u64) {
    let circuit = Circuit::read(&garbling.circuit).expect("an accepted circuit");
    let inputs = BLOCK * values.len();
    let mut encode = garbling.call(Operation::Encode, &[]);
    encode.values = values.to_vec();
    encode.zero = garbling.zeros[..inputs].to_vec();
    encode.one = garbling.ones.clone();
    let mut plain = garbling.call(Operation::Plain, &[]);
    plain.values = values.to_vec();
    let tokens = &done(side, encode).buffers[0];
    let evaluated = done(side, garbling.call(Operation::Evaluate, tokens));
    let held = &evaluated.buffers[0];
    if garbling.circuit[1] == 0x48 {
        let listed = second::listed::listed(&garbling.call(Operation::Evaluate, tokens));
        assert_eq!(done(side, listed), evaluated, "the list form");
    }
    let outputs = circuit.of_outputs(&Block::list(held));
    let outputs: Vec<u8> = outputs.iter().flat_map(|token| token.0).collect();
    let bits = &done(side, garbling.call(Operation::Decode, &outputs)).buffers[0];
    let carried = &done(side, plain).buffers[0];
    assert_eq!(*bits, circuit.of_outputs(carried), "{values:?}");
    (held.clone(), evaluated.words[0])
}

/// Each output's zero token decodes to 0 and its one token to 1, in any choice of them.
#[test]
fn the_other_token_is_the_other_bit() {
    for (side, garbling) in each_garbling() {
        for bits in value_lists(4) {
            assert_eq!(done(side, garbling.decode(&bits)).buffers, [bits]);
        }
    }
}

#[test]
fn each_bit_of_a_token_counts() {
    for (side, garbling) in each_garbling() {
        let call = garbling.decode(&[0, 1, 1, 0]);
        for (index, bit) in (0..4).flat_map(|index| (0..128).map(move |bit| (index, bit))) {
            let mut flipped = call.clone();
            flipped.tokens[BLOCK * index + bit / 8] ^= 1 << (bit % 8);
            refused(side, &flipped, 29, index + 1);
        }
    }
}

#[test]
fn the_first_unknown_token_is_named() {
    for (side, garbling) in each_garbling() {
        for wrong in value_lists(4).skip(1) {
            let mut call = garbling.decode(&[1, 0, 0, 1]);
            for index in (0..4).filter(|&index| wrong[index] == 1) {
                call.tokens[BLOCK * index + 3] ^= 0x20;
            }
            let first = wrong.iter().position(|&wrong| wrong == 1);
            refused(side, &call, 29, first.expect("one is wrong") + 1);
        }
    }
}

/// Tokens of two outputs exchanged are unknown at the first of them, if these are two wires.
#[test]
fn exchanged_tokens_are_unknown() {
    for (side, garbling) in each_garbling() {
        let bits = [0, 1, 0, 1];
        for (one, other) in [(0, 1), (0, 2), (0, 3), (1, 2), (1, 3), (2, 3)] {
            let mut call = garbling.decode(&bits);
            for at in 0..BLOCK {
                call.tokens.swap(BLOCK * one + at, BLOCK * other + at);
            }
            match (one, other) {
                (0, 2) => assert_eq!(done(side, call).buffers, [bits]),
                _ => refused(side, &call, 29, one + 1),
            }
        }
    }
}

/// Any tokens, zeros, and tokens of other wires are unknown; with colours all of them decode.
#[test]
fn strangers_tokens_are_unknown() {
    let mut random = Random::new(121);
    for (side, garbling) in each_garbling() {
        for tokens in [
            generate::tokens(&mut random, 4),
            vec![0; 4 * BLOCK],
            garbling.zeros[BLOCK..5 * BLOCK].to_vec(),
        ] {
            refused(side, &garbling.call(Operation::Decode, &tokens), 29, 1);
            let scheme = garbling.material[2];
            let colours = self::garbling(side, &garbling.circuit, scheme, COLOURS);
            done(side, colours.call(Operation::Decode, &tokens));
        }
    }
}

/// Where an output's two hashes are equal, its token is 0; the other token is unknown.
#[test]
fn equal_hashes_are_0() {
    for (side, garbling) in each_garbling() {
        for (index, bit) in (0..4).flat_map(|index| [0, 1].map(|bit| (index, bit))) {
            let start = garbling.hashes(index);
            let hash = garbling.material[start + BLOCK * bit..][..BLOCK].to_vec();
            let mut equal = garbling.clone();
            equal.material[start..][..2 * BLOCK].copy_from_slice(&hash.repeat(2));
            let mut bits = [1; 4];
            bits[index] = bit as u8;
            let decoded = done(side, equal.decode(&bits)).buffers;
            bits[index] = 0;
            assert_eq!(decoded, [bits]);
            bits[index] = 1 - bit as u8;
            refused(side, &equal.decode(&bits), 29, index + 1);
        }
    }
}

/// Who changes the material can exchange an output's two hashes: the opposite bit comes, and nothing notices.
#[test]
fn exchanged_hashes_give_the_opposite_bit() {
    for (side, garbling) in each_garbling() {
        for (index, bits) in (0..4).flat_map(|index| value_lists(4).map(move |bits| (index, bits)))
        {
            let mut exchanged = garbling.clone();
            let start = garbling.hashes(index);
            let (zero, one) = exchanged.material[start..].split_at_mut(BLOCK);
            zero.swap_with_slice(&mut one[..BLOCK]);
            let mut opposite = bits.clone();
            opposite[index] ^= 1;
            assert_eq!(done(side, exchanged.decode(&bits)).buffers, [opposite]);
        }
    }
}

/// Each bit of the hash that agrees counts, and no bit of the other.
#[test]
fn one_hash_must_agree_in_every_bit() {
    for (side, garbling) in each_garbling() {
        for (index, bit) in (0..4).flat_map(|index| (0..256).map(move |bit| (index, bit))) {
            let mut changed = garbling.clone();
            changed.material[garbling.hashes(index) + bit / 8] ^= 1 << (bit % 8);
            let mut bits = [0; 4];
            bits[index] = (bit / 128) as u8;
            refused(side, &changed.decode(&bits), 29, index + 1);
            bits[index] = 1 - bits[index];
            assert_eq!(done(side, changed.decode(&bits)).buffers, [bits]);
        }
    }
}

/// 13 for every mark but the two, before the scheme and the room; 8 comes before it.
#[test]
fn which_marks_garble_refuses() {
    let (circuit, seed) = (every_code(), [3; BLOCK]);
    for (_, side) in SIDES {
        for mark in 0..=u16::MAX {
            let call = garble_call(&circuit, &seed, 3, mark);
            let mut unknown = garble_call(&circuit, &seed, 9, mark);
            unknown.lens = vec![0; 3];
            match mark {
                COLOURS | HASHES => {
                    done(side, call);
                    refused(side, &unknown, 14, 9);
                }
                _ => {
                    refused(side, &call, 13, 0);
                    refused(side, &unknown, 13, 0);
                }
            }
        }
        for mark in [0, 0x4749, 0x4847, HASHES] {
            let call = garble_call(&circuit, &seed[1..], 9, mark);
            refused(side, &call, 8, 15);
        }
    }
}

/// 19 asks for the length of the mark wanted, and the buffers are tried in their order.
#[test]
fn the_room_of_garble_goes_by_the_mark() {
    for (_, side) in SIDES {
        for scheme in 1..=4 {
            let [colours, call] =
                [COLOURS, HASHES].map(|mark| garble_call(&every_code(), &[5; BLOCK], scheme, mark));
            assert_eq!(call.lens[0], colours.lens[0] + 31 * 5);
            assert_eq!(call.lens[1..], colours.lens[1..]);
            for short in [colours.lens[0], call.lens[0] - 1, 0] {
                let mut without = call.clone();
                without.lens = vec![short, 0, 0];
                refused(side, &without, 19, call.lens[0]);
            }
            for buffer in [1, 2] {
                let mut without = call.clone();
                without.lens[buffer] -= 1;
                refused(side, &without, 19, call.lens[buffer]);
            }
        }
    }
}

/// The refusals that come before 29, each beside an unknown token.
#[test]
fn what_comes_before_29() {
    for (side, garbling) in each_garbling() {
        let mut wrong = garbling.decode(&[0; 4]);
        wrong.tokens[0] ^= 1;
        refused(side, &wrong, 29, 1);
        let length = wrong.material.len();
        let last = length - 2 - 4 * 2 * BLOCK;
        let with = |change: &dyn Fn(&mut Call)| {
            let mut call = wrong.clone();
            change(&mut call);
            call
        };
        let by = |at: usize| move |call: &mut Call| call.material[at] ^= 1;
        refused(side, &with(&|call| call.lens[0] = 3), 19, 4);
        refused(side, &with(&by(last)), 18, last);
        refused(side, &with(&by(9)), 17, 4);
        refused(side, &with(&|call| call.material.push(0)), 16, length + 1);
        refused(side, &with(&by(8)), 15, 3);
        refused(side, &with(&|call| call.material[2] = 5), 14, 5);
        refused(side, &with(&by(1)), 13, 0);
        refused(side, &with(&|call| call.material.truncate(8)), 12, 8);
        refused(side, &with(&|call| call.tokens.push(0)), 11, 4 * BLOCK + 1);
    }
}

/// A file's own mark says which length and which last record are due, to each operation that reads one; the
/// hashes themselves may be of any bytes.
#[test]
fn mark_length_and_last_record_go_together() {
    for (side, hashes) in each_garbling() {
        let colours = garbling(side, &hashes.circuit, hashes.material[2], COLOURS);
        let last = colours.material.len() - 4 - 2;
        for (operation, tokens) in [(Operation::Evaluate, 3), (Operation::Decode, 4)] {
            let with = |from: &Garbling, at: usize, byte: u8| {
                let mut call = from.call(operation, &vec![0x33; BLOCK * tokens]);
                call.material[at] = byte;
                call
            };
            refused(side, &with(&hashes, last + 1, 0x44), 18, last);
            refused(side, &with(&colours, last + 1, 0x41), 18, last);
            refused(side, &with(&hashes, 1, 0x48), 16, hashes.material.len());
            refused(side, &with(&colours, 1, 0x4A), 16, colours.material.len());
            refused(side, &with(&hashes, 1, 0x4B), 13, 0);
            refused(side, &with(&colours, last + 2, 2), 18, last);
        }
        let mut any = hashes.call(Operation::Evaluate, &[0x33; 3 * BLOCK]);
        let due = done(side, any.clone());
        any.material[last + 2..].fill(0xEE);
        assert_eq!(done(side, any), due);
    }
}

/// Refusal 30: the first output whose two hashes are equal. No garbling is known that has one; the archive's
/// search runs in the test program `vectors`.
#[test]
fn equal_hashes_of_one_output_clash() {
    let mut random = Random::new(122);
    let hashes: Vec<[Block; 2]> = Block::list(&random.bytes(10 * BLOCK))
        .chunks_exact(2)
        .map(|pair| [pair[0], pair[1]])
        .collect();
    for equal in value_lists(5) {
        let mut hashes = hashes.clone();
        for (pair, _) in hashes
            .iter_mut()
            .zip(&equal)
            .filter(|(_, &equal)| equal == 1)
        {
            pair[1] = pair[0];
        }
        let due = match equal.iter().position(|&equal| equal == 1) {
            Some(first) => Err(Refused::new(30, first + 1)),
            None => Ok(()),
        };
        assert_eq!(Last::Hashes(hashes).clash(), due);
    }
}

/// 30 leaves zeros where the garbling's bytes would have been, and all others as they were. Of the archive the
/// test program `vectors` runs what zeroes a buffer.
#[test]
fn a_clash_leaves_zeros() {
    let made: [&[u8]; 3] = [&[1; 20], &[2; 3], &[3; 1]];
    for clash in [Ok(()), Err(Refused::new(30, 4))] {
        let mut buffers = [vec![9; 20], vec![9; 5], vec![9; 2]];
        let [material, zeros, ones] = &mut buffers;
        assert_eq!(leave(made, [material, zeros, ones], clash), clash);
        let [x, y, z] = if clash.is_ok() { [1, 2, 3] } else { [0; 3] };
        let due = [vec![x; 20], vec![y, y, y, 9, 9], vec![z, 9]];
        assert_eq!(buffers, due, "{clash:?}");
    }
}

/// The last output that there may be: its tweak is 2(65,536+65,535).
#[test]
fn the_most_outputs() {
    let gates: Vec<Gate> = (0..65_533)
        .map(|index| match index {
            0 => (1, 2, 8),
            _ => (1, index + 2, 10),
        })
        .map(|(a, b, code)| Gate { a, b, code })
        .collect();
    let outputs: Vec<u16> = (1..=65_535).collect();
    let circuit = second::circuit::named_bytes(2, &outputs, &gates);
    for (name, side) in SIDES {
        let garbling = garbling(side, &circuit, 3, HASHES);
        assert_eq!(
            garbling.words,
            [9 + 36 + 2 + 32 * 65_535, 4 + 2 * 65_535, 0, 0],
            "{name}"
        );
        let outputs = garbling.outputs();
        for k in [65_535, 32_768, 32_767, 256, 255] {
            let pair = outputs[k - 1].map(|token| output_hash(token, k).0);
            let start = garbling.hashes(k - 1);
            assert_eq!(
                garbling.material[start..][..2 * BLOCK],
                pair.concat(),
                "{name}, {k}"
            );
        }
        let mut call = garbling.decode(&vec![1; 65_535]);
        assert_eq!(
            done(side, call.clone()).buffers,
            [vec![1; 65_535]],
            "{name}"
        );
        call.tokens[BLOCK * 65_534] ^= 1;
        refused(side, &call, 29, 65_535);
    }
}
