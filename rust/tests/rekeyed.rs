//! Scheme 4: half-gates with another key of the hash for each tweak.

mod common;

use common::{garbling, Garbling, AND, GATES};

/// Rows G and E of the AND gate by scheme 4 and its zero token, by the second implementation of `tests`.
const ROW_G: [u8; 16] = 0xe9b601c3ffeb583eeb6a442679b24d4a_u128.to_be_bytes();
const ROW_E: [u8; 16] = 0xd43a6378911e722d9262bdecbdd23629_u128.to_be_bytes();
const ZERO: [u8; 16] = 0xf502021c8df97106faeffbf6078da89d_u128.to_be_bytes();

#[test]
fn rows_and_zero_token_of_an_and_gate() {
    let Garbling { material, zeros, .. } = garbling(4);
    assert_eq!(
        material[..13],
        [0x47, 0x48, 4, 0, 2, 0, 1, 0, 1, 0x47, 0x54, 0, 3],
        "the header, and the record's mark and wire"
    );
    assert_eq!(material[13..29], ROW_G);
    assert_eq!(material[29..45], ROW_E);
    assert_eq!(material[45..], [0x47, 0x44, 1], "the zero token's colour");
    assert_eq!(zeros[32..], ZERO);
}

#[test]
fn only_the_gate_differs_from_scheme_3() {
    let [third, fourth] = [3, 4].map(garbling);
    assert_eq!(third.ones, fourth.ones);
    assert_eq!(third.zeros[..32], fourth.zeros[..32]);
    assert_ne!(third.zeros[32..], fourth.zeros[32..]);
    assert_eq!(third.material.len(), fourth.material.len());
    assert_ne!(third.material[13..29], fourth.material[13..29]);
    assert_ne!(third.material[29..45], fourth.material[29..45]);
}

/// Material of schemes 3 and 4 has one length: with the other's scheme byte it is evaluated, to another token.
#[test]
fn an_exchanged_scheme_byte_gives_another_token() {
    for scheme in [3, 4] {
        let Garbling { mut material, ones, .. } = garbling(scheme);
        let mut held = [[0; 48]; 2];
        assert_eq!(weighhare::evaluate(&AND, &ones, &material, &mut held[0]), Ok(2));
        material[2] = 7 - scheme;
        assert_eq!(weighhare::evaluate(&AND, &ones, &material, &mut held[1]), Ok(2));
        assert_eq!(held[0][..32], held[1][..32]);
        assert_ne!(held[0][32..], held[1][32..], "scheme {scheme}");
        let mut by_list = [0; 48];
        let answer = weighhare::evaluate_gates(2, 1, &GATES[..1], &ones, &material, &mut by_list);
        assert_eq!((answer, by_list), (Ok(2), held[1]), "scheme {scheme}");
    }
}
