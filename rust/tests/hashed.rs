//! Material of mark 47 4A: it ends in hashes of the outputs' tokens, and decode knows these.

mod common;

use common::{garbling, Garbling, AND, COLOURS, FILL, GATES, HASHES, NAMED, SEED};
use weighhare::Refusal;

/// The two hashes of the AND gate's output, by schemes 3 and 4: made with another AES, OpenSSL's, from docs/SCHEMES.md.
const PAIRS: [(u8, [u128; 2]); 2] = [
    (
        3,
        [0x13797f6896ff9952a1c353646e8cb7c3, 0x13ea8c623c67ea26d6a1e14fb2db0350],
    ),
    (
        4,
        [0xe7d52d870689e7ae87051d5b35938c65, 0xce3d9f81e603fe85f39aa57d20c9c04d],
    ),
];

/// The two hashes of each output of that circuit, by scheme 3, made so too.
const NAMED_PAIRS: [[u128; 2]; 3] = [
    [0x13797f6896ff9952a1c353646e8cb7c3, 0x13ea8c623c67ea26d6a1e14fb2db0350],
    [0x5277242f84c60ec69dce1e8d5a67c8a8, 0x69d72d63852fe159d01a60b680da7eba],
    [0xf5479c4dd34e8eaff69eaef204ddad05, 0xd29ecfb19bec0343c31a9cf934229c8a],
];

/// A circuit garbled with hashes. The bytes past the material are seen to be as they were.
fn hashed(circuit: &[u8], scheme: u8) -> Garbling {
    let outputs = weighhare::check(circuit).expect("accepted").m;
    let due = 11 + 32 * outputs + 4 + 16 * [4, 3, 2, 2][usize::from(scheme) - 1];
    let (mut material, mut zeros, mut ones) = (vec![FILL; due + 7], [FILL; 48], [FILL; 32]);
    let garbled =
        weighhare::garble(circuit, &SEED, 0, scheme, HASHES, &mut material, &mut zeros, &mut ones).expect("garbled");
    assert_eq!(
        (garbled.length, garbled.calls),
        (due, 4 + 2 * outputs),
        "scheme {scheme}"
    );
    assert_eq!(material[due..], [FILL; 7]);
    material.truncate(due);
    Garbling { material, zeros, ones }
}

/// Decode's answer: the bits, or a refusal that left them as they were.
fn decode(circuit: &[u8], tokens: &[u8], material: &[u8]) -> Result<Vec<u8>, Refusal> {
    let mut bits = vec![FILL; tokens.len() / 16 + 1];
    let decoded = weighhare::decode(circuit, tokens, material, &mut bits);
    assert_eq!(bits.pop(), Some(FILL), "past them");
    assert!(decoded.is_ok() || bits.iter().all(|bit| *bit == FILL), "untouched");
    decoded.map(|()| bits)
}

/// Both tokens of a wire: its zero token, and that ⊕ R, which is what the tokens of wire 1 differ by.
fn both(garbling: &Garbling, wire: usize) -> [[u8; 16]; 2] {
    let zero = |i: usize| garbling.zeros[16 * (wire - 1) + i];
    [0, 1].map(|bit| std::array::from_fn(|i| zero(i) ^ (bit * (garbling.zeros[i] ^ garbling.ones[i]))))
}

#[test]
fn the_last_record_has_two_hashes() {
    for (scheme, pair) in PAIRS {
        let Garbling { material, .. } = hashed(&AND, scheme);
        assert_eq!(material[..9], [0x47, 0x4A, scheme, 0, 2, 0, 1, 0, 1]);
        assert_eq!(material[45..47], [0x47, 0x41]);
        assert_eq!(material[47..], pair.map(u128::to_be_bytes).concat(), "scheme {scheme}");
    }
    let Garbling { material, .. } = hashed(&NAMED, 3);
    let due: Vec<u8> = NAMED_PAIRS
        .iter()
        .flatten()
        .flat_map(|hash| hash.to_be_bytes())
        .collect();
    assert_eq!(material[45..47], [0x47, 0x41]);
    assert_eq!(material[47..], due, "a tweak for each output, also of one wire");
}

/// Beside the mark and the last record nothing differs from material of mark 47 48.
#[test]
fn rows_and_tokens_are_those_of_the_other_mark() {
    for scheme in 1..=4 {
        let (colours, hashes) = (garbling(scheme), hashed(&AND, scheme));
        let last = colours.material.len() - 3;
        assert_eq!(colours.material[2..last], hashes.material[2..last]);
        assert_eq!((colours.zeros, colours.ones), (hashes.zeros, hashes.ones));
        assert_eq!(colours.material[..2], COLOURS.to_be_bytes());
        assert_eq!(hashes.material[..2], HASHES.to_be_bytes());
    }
}

#[test]
fn both_forms_of_evaluate_take_it_and_it_decodes_to_the_plain_bits() {
    for scheme in 1..=4 {
        for (u, v) in [(0, 0), (0, 1), (1, 0), (1, 1)] {
            let garbling = hashed(&NAMED, scheme);
            let (mut inputs, mut wires, mut outputs) = ([0; 32], [FILL; 48], [0; 48]);
            weighhare::encode(&NAMED, &[u, v], &garbling.zeros[..32], &garbling.ones, &mut inputs).expect("encoded");
            let calls = weighhare::evaluate(&NAMED, &inputs, &garbling.material, &mut wires);
            assert_eq!(calls, Ok([1, 1, 2, 2][usize::from(scheme) - 1]));
            weighhare::output_tokens(&NAMED, &wires, &mut outputs).expect("gathered");
            assert_eq!(decode(&NAMED, &outputs, &garbling.material), Ok(vec![u & v, u, u & v]));

            // A list of gates has no named outputs.
            let (material, mut by_list) = (hashed(&AND, scheme).material, [FILL; 48]);
            let by_gates = weighhare::evaluate_gates(2, 1, &GATES[..1], &inputs, &material, &mut by_list);
            assert_eq!((by_gates, by_list), (calls, wires));
        }
    }
}

/// Each bit of a token, flipped.
#[test]
fn a_mistyped_token_is_refused() {
    for scheme in 1..=4 {
        let garbling = hashed(&AND, scheme);
        for (bit, token) in (0..).zip(both(&garbling, 3)) {
            assert_eq!(decode(&AND, &token, &garbling.material), Ok(vec![bit]));
            for flip in 0..128 {
                let mut mistyped = token;
                mistyped[flip / 8] ^= 1 << (flip % 8);
                let refused = decode(&AND, &mistyped, &garbling.material);
                assert_eq!(refused, Err(Refusal::OutputToken { output: 1 }), "bit {flip}");
            }
        }
    }
}

/// Tokens of another output, of another garbling, and two that are wrong: the first.
#[test]
fn a_token_that_was_mixed_up_is_refused() {
    let garbling = hashed(&NAMED, 3);
    let (gate, input) = (both(&garbling, 3), both(&garbling, 1));
    let refused = |tokens: [[u8; 16]; 3]| decode(&NAMED, &tokens.concat(), &garbling.material);
    let at = |output: u16| Err(Refusal::OutputToken { output });
    assert_eq!(
        refused([gate[0], input[1], gate[1]]),
        Ok(vec![0, 1, 1]),
        "each output by itself"
    );
    assert_eq!(refused([input[1], gate[0], gate[0]]), at(1), "exchanged");
    assert_eq!(refused([gate[0], gate[0], gate[0]]), at(2));
    assert_eq!(refused([gate[0], input[0], input[0]]), at(3));
    assert_eq!(refused([gate[0], [0; 16], [0; 16]]), at(2), "the first of two");
    let other = both(&hashed(&NAMED, 4), 3);
    assert_eq!(refused([other[0], input[0], gate[0]]), at(1), "of another garbling");
}

/// With the mark 47 48 every one of these decodes to some bit.
#[test]
fn without_hashes_any_token_decodes() {
    let garbling = garbling(3);
    for token in [[0; 16], [0xFF; 16], both(&garbling, 1)[0]] {
        assert!(decode(&AND, &token, &garbling.material).is_ok());
    }
}

/// What is not seen: whoever changes the material can exchange the two hashes of an output. Where both are the same, it
/// is 0.
#[test]
fn exchanged_hashes_give_the_opposite_bit() {
    let garbling = hashed(&AND, 3);
    let (front, pair) = garbling.material.split_at(47);
    let exchanged = [front, &pair[16..], &pair[..16]].concat();
    for (bit, token) in [1, 0].into_iter().zip(both(&garbling, 3)) {
        assert_eq!(decode(&AND, &token, &exchanged), Ok(vec![bit]));
    }
    for bit in [0, 1] {
        let hash = &pair[16 * bit..][..16];
        let token = both(&garbling, 3)[bit];
        assert_eq!(decode(&AND, &token, &[front, hash, hash].concat()), Ok(vec![0]));
    }
}

/// The length and the last record's mark go by the file's own mark; a hash is any bytes. 29 comes after all of these.
#[test]
fn of_the_material() {
    let Garbling { material, .. } = hashed(&AND, 3);
    let colours = garbling(3).material;
    let with = |material: &[u8], index: usize, byte: u8| {
        let mut material = material.to_vec();
        material[index] = byte;
        decode(&AND, &[0; 16], &material)
    };
    assert_eq!(with(&material, 1, 0x48), Err(Refusal::MaterialLength { length: 79 }));
    assert_eq!(with(&colours, 1, 0x4A), Err(Refusal::MaterialLength { length: 48 }));
    assert_eq!(with(&material, 1, 0x4B), Err(Refusal::MaterialMark));
    assert_eq!(with(&material, 46, 0x44), Err(Refusal::LastRecord { start: 45 }));
    assert_eq!(with(&colours, 46, 0x41), Err(Refusal::LastRecord { start: 45 }));
    assert_eq!(with(&material, 47, 0xFF), Err(Refusal::OutputToken { output: 1 }));
    let short = weighhare::decode(&AND, &[0; 16], &material, &mut []);
    assert_eq!(short, Err(Refusal::Room { needed: 1 }), "19 before 29");
}
