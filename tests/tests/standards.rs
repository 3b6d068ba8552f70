//! AES against FIPS 197 and doubling against the subkeys of CMAC (RFC 4493). Key expansion is compared word
//! by word with appendices A.1 and C.1, and with it the files of schedules that the test program `vectors`
//! has; encryption with appendices B and C.1; the S-box with the example of section 5.1.1.

use std::fs;

use second::aes::{s_box, Key};
use second::block::Block;
use second::hex;

fn block(text: &str) -> Block {
    Block::list(&hex::bytes(text).expect("hexadecimal"))[0]
}

const KEY: &str = "2b7e1516 28aed2a6 abf71588 09cf4f3c";

/// Appendix A.1: w[0] to w[43] of that key.
const A_1: &str = "2b7e1516 28aed2a6 abf71588 09cf4f3c a0fafe17 88542cb1 23a33939 2a6c7605
                   f2c295f2 7a96b943 5935807a 7359f67f 3d80477d 4716fe3e 1e237e44 6d7a883b
                   ef44a541 a8525b7f b671253b db0bad00 d4d1c6f8 7c839d87 caf2b8bc 11f915bc
                   6d88a37a 110b3efd dbf98641 ca0093fd 4e54f70e 5f5fc9f3 84a64fb2 4ea6dc4f
                   ead27321 b58dbad2 312bf560 7f8d292f ac7766f3 19fadc21 28d12941 575c006e
                   d014f9a8 c9ee2589 e13f0cc8 b6630ca6";

/// Appendix C.1: its key, which is that of π too, and round[0].k_sch to round[10].k_sch.
const FIXED_KEY: &str = "00010203 04050607 08090a0b 0c0d0e0f";
const C_1: &str = "00010203 04050607 08090a0b 0c0d0e0f d6aa74fd d2af72fa daa678f1 d6ab76fe
                   b692cf0b 643dbdf1 be9bc500 6830b3fe b6ff744e d2c2c9bf 6c590cbf 0469bf41
                   47f7f7bc 95353e03 f96c32bc fd058dfd 3caaa3e8 a99f9deb 50f3af57 adf622aa
                   5e390f7d f7a69296 a7553dc1 0aa31f6b 14f9701a e35fe28c 440adf4d 4ea9c026
                   47438735 a41c65b9 e016baf4 aebf7ad2 549932d1 f0855768 1093ed9c be2c974e
                   13111d7f e3944a17 f307a78b 4d2b30c5";

/// The words of a schedule as the standard has them.
fn words(schedule: &str) -> Vec<&str> {
    let words: Vec<&str> = schedule.split_whitespace().collect();
    assert_eq!(words.len(), 44);
    words
}

fn expands_to(key: &str, schedule: &str) {
    let made = Key::expand(&block(key).0).words();
    assert_eq!(made.len(), 44);
    for (i, word) in words(schedule).into_iter().enumerate() {
        assert_eq!(hex::text(&made[i]), word, "w[{i}]");
    }
}

#[test]
fn key_expansion_of_appendix_a_1() {
    expands_to(KEY, A_1);
}

#[test]
fn key_expansion_of_appendix_c_1() {
    expands_to(FIXED_KEY, C_1);
}

/// A file of cases of the test program `vectors`, line by line.
fn cases(name: &str) -> Vec<String> {
    let data = concat!(env!("CARGO_MANIFEST_DIR"), "/../crates/vectors/data");
    let text = fs::read_to_string(format!("{data}/{name}")).expect("a file of cases");
    text.lines().map(String::from).collect()
}

/// What that program is held to: these schedules, and of A.1 each word in its place.
#[test]
fn the_test_program_has_these_words() {
    let (key, fixed_key) = (KEY.replace(' ', ""), FIXED_KEY.replace(' ', ""));
    let whole = format!("{key} {}", words(A_1).concat());
    assert_eq!(cases("fips197-key-expansion"), [whole]);
    let whole = format!("{fixed_key} {}", words(C_1).concat());
    assert_eq!(cases("fips197-fixed-key"), [whole]);
    let lines = cases("fips197-words");
    assert_eq!(lines.len(), 44);
    for (i, word) in words(A_1).into_iter().enumerate() {
        assert_eq!(lines[i], format!("{key} {i:04x} {word}"));
    }
}

#[test]
fn cipher_example_of_appendix_b() {
    let key = Key::expand(&block(KEY).0);
    let plain = block("3243f6a8 885a308d 313198a2 e0370734");
    let cipher = block("3925841d 02dc09fb dc118597 196a0b32");
    assert_eq!(key.encrypt(plain), cipher);
}

#[test]
fn example_vector_of_appendix_c_1() {
    let key = Key::expand(&block(FIXED_KEY).0);
    let plain = block("00112233 44556677 8899aabb ccddeeff");
    let cipher = block("69c4e0d8 6a7b0430 d8cdb780 70b4c55a");
    assert_eq!(key.encrypt(plain), cipher);
}

#[test]
fn s_box_is_a_permutation_with_the_standard_s_example() {
    // FIPS 197, section 5.1.1: the byte 53 becomes ED.
    assert_eq!(s_box(0x53), 0xED);
    let mut entries: Vec<u8> = (0..=255).map(s_box).collect();
    entries.sort_unstable();
    assert_eq!(entries, (0..=255).collect::<Vec<u8>>());
}

#[test]
fn doubling_gives_the_cmac_subkeys() {
    let l = Key::expand(&block(KEY).0).encrypt(Block::ZERO);
    assert_eq!(l, block("7df76b0c 1ab899b3 3e42f047 b91b546f"));
    assert_eq!(l.double(), block("fbeed618 35713366 7c85e08f 7236a8de"));
    let four = block("f7ddac30 6ae266cc f90bc11e e46d513b");
    assert_eq!(l.double_twice(), four);
}
