//! The functions of `libweighhare.a`, as `include/weighhare.h` declares them. The repository's tests take in this file too, by
//! its path, with a `Gate` of their own.

use super::Gate;

/// Four words: the place of a refusal, or an operation's results.
pub type Answer = [u64; 4];

extern "C" {
    pub fn weighhare_check(circuit: *const u8, circuit_len: usize, answer: *mut Answer) -> u8;

    pub fn weighhare_plain(
        circuit: *const u8,
        circuit_len: usize,
        values: *const u8,
        values_len: usize,
        wires: *mut u8,
        wires_len: usize,
        answer: *mut Answer,
    ) -> u8;

    pub fn weighhare_garble(
        circuit: *const u8,
        circuit_len: usize,
        seed: *const u8,
        seed_len: usize,
        run: u64,
        scheme: u8,
        mark: u16, // any: refusal 13 where it is neither 0x4748 nor 0x474A
        material: *mut u8,
        material_len: usize,
        zeros: *mut u8,
        zeros_len: usize,
        ones: *mut u8,
        ones_len: usize,
        answer: *mut Answer,
    ) -> u8;

    pub fn weighhare_encode(
        circuit: *const u8,
        circuit_len: usize,
        values: *const u8,
        values_len: usize,
        zeros: *const u8,
        zeros_len: usize,
        ones: *const u8,
        ones_len: usize,
        tokens: *mut u8,
        tokens_len: usize,
        answer: *mut Answer,
    ) -> u8;

    pub fn weighhare_evaluate(
        circuit: *const u8,
        circuit_len: usize,
        tokens: *const u8,
        tokens_len: usize,
        material: *const u8,
        material_len: usize,
        wires: *mut u8,
        wires_len: usize,
        answer: *mut Answer,
    ) -> u8;

    pub fn weighhare_evaluate_gates(
        n: u16,
        m: u16,
        gates: *const Gate,
        q: usize,
        tokens: *const u8,
        tokens_len: usize,
        material: *const u8,
        material_len: usize,
        wires: *mut u8,
        wires_len: usize,
        answer: *mut Answer,
    ) -> u8;

    pub fn weighhare_output_tokens(
        circuit: *const u8,
        circuit_len: usize,
        wires: *const u8,
        wires_len: usize,
        tokens: *mut u8,
        tokens_len: usize,
        answer: *mut Answer,
    ) -> u8;

    pub fn weighhare_decode(
        circuit: *const u8,
        circuit_len: usize,
        tokens: *const u8,
        tokens_len: usize,
        material: *const u8,
        material_len: usize,
        bits: *mut u8,
        bits_len: usize,
        answer: *mut Answer,
    ) -> u8;

    pub fn weighhare_pick(
        zeros: *const u8,
        zeros_len: usize,
        ones: *const u8,
        ones_len: usize,
        wire: u16,
        bit: u8,
        answer: *mut Answer,
    ) -> u8;

    pub fn weighhare_comparator(
        width: u64, // any: refusal 21 where it is not 1 to 64
        circuit: *mut u8,
        circuit_len: usize,
        answer: *mut Answer,
    ) -> u8;
}
