//! The operations on slices: each a call of the library, which does all work on bytes.

use crate::{library, Gate, Refusal, Sizes};

/// What [`garble`] answers.
#[derive(Clone, Copy, Debug, PartialEq, Eq)]
#[must_use]
pub struct Garbled {
    /// The material's length: this many bytes at the front of the buffer, and no more, are what an evaluator needs.
    pub length: usize,
    /// The calls of the block cipher made, 4p, with the mark 47 4A 4p+2m: each is one encryption. Those under the seed
    /// are not counted.
    pub calls: usize,
}

/// Checks a circuit, of either mark.
///
/// # Errors
///
/// Refusals 1 to 7, 25, 26.
///
/// ```
/// use weighhare::Refusal;
///
/// let refusal = weighhare::check(&[0x43, 0x48, 0, 2, 0, 1, 0]).unwrap_err();
/// assert_eq!(refusal, Refusal::CircuitShort { length: 7 });
/// assert_eq!(refusal.to_string(), "the circuit has 7 bytes, a header needs 8");
/// ```
pub fn check(circuit: &[u8]) -> Result<Sizes, Refusal> {
    let mut answer = [0; 4];
    // SAFETY: the pointer and the length are a slice's; `answer` is four words, borrowed alone.
    let number = unsafe { library::weighhare_check(circuit.as_ptr(), circuit.len(), &mut answer) };
    let [n, m, q, p] = results(number, answer)?;
    Ok(Sizes { n, m, q, p })
}

/// Evaluates the plain circuit.
///
/// `values` has n bytes, each 0 or 1. Writes n+q bytes to `wires`: the value of every wire.
///
/// # Errors
///
/// Refusals 1 to 7, 25, 26, 9, 10, 19.
///
/// ```
/// let circuit = [0x43, 0x48, 0, 2, 0, 1, 0, 1, 0x43, 0x47, 0, 1, 0, 2, 8];
/// let mut wires = [0; 3];
/// weighhare::plain(&circuit, &[1, 1], &mut wires)?;
/// assert_eq!(wires, [1, 1, 1]);
/// # Ok::<(), weighhare::Refusal>(())
/// ```
pub fn plain(circuit: &[u8], values: &[u8], wires: &mut [u8]) -> Result<(), Refusal> {
    let mut answer = [0; 4];
    // SAFETY: pointers and lengths are slices'; `wires` and `answer` are borrowed alone.
    let number = unsafe {
        library::weighhare_plain(
            circuit.as_ptr(),
            circuit.len(),
            values.as_ptr(),
            values.len(),
            wires.as_mut_ptr(),
            wires.len(),
            &mut answer,
        )
    };
    results(number, answer).map(|_| ())
}

/// Garbles a circuit by a scheme: 1 is GaX, 2 GaXR, 3 half-gates, 4 re-keyed half-gates, which is scheme 3 but for its hash,
/// whose key changes with each tweak.
///
/// `seed` has 16 bytes, from `getrandom(2)` or another source of the system's random numbers; it is secret, and used for
/// no other garbling with the same run number. `run` is the run number: which of the seed's garblings this is; 0 for a seed
/// that has one alone. Every number is taken. It stands in no file, and no other function asks for it.
///
/// `mark` is the mark that the material is to have, as a number: 0x4748 or 0x474A ([`Mark`](crate::Mark)). The tokens
/// are the same with both.
///
/// Writes 11+m+p(4+16r) bytes to `material`, with the mark 47 4A 11+32m+p(4+16r), where r is 4, 3, 2, 2 in schemes 1,
/// 2, 3, 4; 16(n+q) bytes to `zeros`, the zero token of every wire; and 16n bytes to `ones`, the one token of every
/// input. Both lists are secret. Wipe `seed` when its last garbling is made, `zeros` and `ones` when the inputs' tokens
/// are chosen.
///
/// No look-up and no branch depends on the seed, R or a token, but for one branch with the mark 47 4A, on whether it
/// refuses with 30: AES is bitsliced, four blocks at once. This is tested on the archive and not proved.
///
/// # Errors
///
/// Refusals 1 to 7, 25, 26, 8, 13, 14, 19, 30. The last, of the mark 47 4A alone, is the one refusal that changes
/// buffers: the bytes that would have been written are zero then.
///
/// ```
/// use weighhare::{Mark, Refusal};
///
/// let circuit = [0x43, 0x48, 0, 2, 0, 1, 0, 1, 0x43, 0x47, 0, 1, 0, 2, 8];
/// let (mut material, mut zeros, mut ones) = ([0; 79], [0; 48], [0; 32]);
/// let colours = Mark::Colours.number();
/// let garbled = weighhare::garble(&circuit, &[7; 16], 0, 3, colours, &mut material, &mut zeros, &mut ones)?;
/// assert_eq!((garbled.length, garbled.calls), (48, 4));
///
/// let hashes = Mark::Hashes.number();
/// let garbled = weighhare::garble(&circuit, &[7; 16], 1, 3, hashes, &mut material, &mut zeros, &mut ones)?;
/// assert_eq!((garbled.length, garbled.calls), (79, 6));
///
/// let refused = weighhare::garble(&circuit, &[7; 16], 2, 5, hashes, &mut material, &mut zeros, &mut ones);
/// assert_eq!(refused, Err(Refusal::Scheme { scheme: 5 }));
/// let refused = weighhare::garble(&circuit, &[7; 16], 2, 5, 0x4749, &mut material, &mut zeros, &mut ones);
/// assert_eq!(refused, Err(Refusal::MaterialMark));
/// # Ok::<(), Refusal>(())
/// ```
#[allow(clippy::too_many_arguments)] // As in C: each is one thing, and the order is that of its refusals.
pub fn garble(
    circuit: &[u8],
    seed: &[u8],
    run: u64,
    scheme: u8,
    mark: u16,
    material: &mut [u8],
    zeros: &mut [u8],
    ones: &mut [u8],
) -> Result<Garbled, Refusal> {
    let mut answer = [0; 4];
    // SAFETY: pointers and lengths are slices'; `material`, `zeros`, `ones` and `answer` are borrowed alone.
    let number = unsafe {
        library::weighhare_garble(
            circuit.as_ptr(),
            circuit.len(),
            seed.as_ptr(),
            seed.len(),
            run,
            scheme,
            mark,
            material.as_mut_ptr(),
            material.len(),
            zeros.as_mut_ptr(),
            zeros.len(),
            ones.as_mut_ptr(),
            ones.len(),
            &mut answer,
        )
    };
    let [length, calls, ..] = results(number, answer)?;
    Ok(Garbled { length, calls })
}

/// Chooses the inputs' tokens for their values.
///
/// `values` has n bytes, each 0 or 1; `zeros` and `ones` have 16n bytes each, the inputs' zero tokens (the front of what
/// [`garble`] wrote) and one tokens. Writes 16n bytes to `tokens`.
///
/// No look-up and no branch depends on a token, or on whether a value is 0 or 1: both tokens of an input are read, and
/// a mask chooses. This is tested on the archive and not proved. That a value is neither, and which is the first, is no
/// secret.
///
/// # Errors
///
/// Refusals 1 to 7, 25, 26, 9, 10, 11, 19.
///
/// ```
/// let circuit = [0x43, 0x48, 0, 2, 0, 1, 0, 1, 0x43, 0x47, 0, 1, 0, 2, 8];
/// let (zeros, ones, mut tokens) = ([0; 32], [1; 32], [9; 32]);
/// weighhare::encode(&circuit, &[1, 0], &zeros, &ones, &mut tokens)?;
/// assert_eq!(tokens[..], [[1; 16], [0; 16]].concat());
/// # Ok::<(), weighhare::Refusal>(())
/// ```
pub fn encode(circuit: &[u8], values: &[u8], zeros: &[u8], ones: &[u8], tokens: &mut [u8]) -> Result<(), Refusal> {
    let mut answer = [0; 4];
    // SAFETY: pointers and lengths are slices'; `tokens` and `answer` are borrowed alone.
    let number = unsafe {
        library::weighhare_encode(
            circuit.as_ptr(),
            circuit.len(),
            values.as_ptr(),
            values.len(),
            zeros.as_ptr(),
            zeros.len(),
            ones.as_ptr(),
            ones.len(),
            tokens.as_mut_ptr(),
            tokens.len(),
            &mut answer,
        )
    };
    results(number, answer).map(|_| ())
}

/// Evaluates a garbled circuit, and answers the calls of the block cipher made: p in schemes 1 and 2, 2p in schemes
/// 3 and 4.
///
/// `tokens` has 16n bytes, a token for each input; `material` is exactly as long as [`Garbled::length`] says. Writes
/// 16(n+q) bytes to `wires`: the token of every wire. Wipe `tokens` and `wires` after use.
///
/// Not constant-time: AES looks T-tables up at bytes that come of the tokens, and in schemes 1 and 2 the tokens'
/// colours choose the row that is read. Through the cache, somebody who runs code on the same machine may learn bits of
/// the tokens that are held, or all of them. A token alone shows no value. But whoever has those of all inputs and the
/// material evaluates and decodes as the caller does; and to the garbler, who knows which token of a wire stands for
/// which value, a bit of the one that is held can show it. So evaluate on a machine that is shared with nobody who may
/// not have these tokens.
///
/// A garbling is for one evaluation: a second, on another input list, shows R wherever two tokens of a wire differ.
///
/// Material that somebody else made can be well-formed and wrong. No row is checked: a bad one still ends in some
/// token, which [`decode`] refuses, with the mark 47 4A, if it is an output's and not one of its two.
///
/// # Errors
///
/// Refusals 1 to 7, 25, 26, 11, 12 to 18, 19.
///
/// ```
/// # let circuit = [0x43, 0x48, 0, 2, 0, 1, 0, 1, 0x43, 0x47, 0, 1, 0, 2, 8];
/// # let (mut material, mut zeros, mut ones) = ([0; 48], [0; 48], [0; 32]);
/// # let _ = weighhare::garble(&circuit, &[7; 16], 0, 3, 0x4748, &mut material, &mut zeros, &mut ones)?;
/// // A token for each input, here those for 0 and 0, and half-gates' material of an AND gate.
/// let mut wires = [0; 48];
/// let calls = weighhare::evaluate(&circuit, &zeros[..32], &material, &mut wires)?;
/// assert_eq!(calls, 2);
/// assert_eq!(wires, zeros);
/// # Ok::<(), weighhare::Refusal>(())
/// ```
pub fn evaluate(circuit: &[u8], tokens: &[u8], material: &[u8], wires: &mut [u8]) -> Result<usize, Refusal> {
    let mut answer = [0; 4];
    // SAFETY: pointers and lengths are slices'; `wires` and `answer` are borrowed alone.
    let number = unsafe {
        library::weighhare_evaluate(
            circuit.as_ptr(),
            circuit.len(),
            tokens.as_ptr(),
            tokens.len(),
            material.as_ptr(),
            material.len(),
            wires.as_mut_ptr(),
            wires.len(),
            &mut answer,
        )
    };
    let [calls, ..] = results(number, answer)?;
    Ok(calls)
}

/// Evaluates as [`evaluate`] does, from the gates already read: the answer that a circuit of the bytes made from them, with
/// the mark 43 48, would get. For a caller that runs one circuit many times.
///
/// `n` and `m` are the inputs and the outputs, and `gates` are in the order of their wire numbers; the rest is as in
/// [`evaluate`], whose three warnings hold here too: it is not constant-time, a garbling is for one evaluation, and
/// somebody else's material can be wrong.
///
/// # Errors
///
/// Refusals 3, 6, 7, 11, 12 to 18, 19; more than 65,535 gates are refusal 3, and so are more outputs than gates.
///
/// ```
/// use weighhare::{Gate, Refusal};
///
/// // Wire 3 is wire 1 AND wire 4: but there is no wire 4 yet.
/// let gates = [Gate { a: 1, b: 4, code: 8 }];
/// let refusal = weighhare::evaluate_gates(2, 1, &gates, &[], &[], &mut []).unwrap_err();
/// assert_eq!(refusal, Refusal::Operands { wire: 3 });
/// ```
pub fn evaluate_gates(
    n: u16,
    m: u16,
    gates: &[Gate],
    tokens: &[u8],
    material: &[u8],
    wires: &mut [u8],
) -> Result<usize, Refusal> {
    let mut answer = [0; 4];
    // SAFETY: pointers and lengths are slices', and a `Gate` lies as in C; `wires` and `answer` are borrowed alone.
    let number = unsafe {
        library::weighhare_evaluate_gates(
            n,
            m,
            gates.as_ptr(),
            gates.len(),
            tokens.as_ptr(),
            tokens.len(),
            material.as_ptr(),
            material.len(),
            wires.as_mut_ptr(),
            wires.len(),
            &mut answer,
        )
    };
    let [calls, ..] = results(number, answer)?;
    Ok(calls)
}

/// Gathers the outputs' tokens from those of all wires, in the order of the outputs: what [`decode`] takes.
///
/// `wires` has exactly the 16(n+q) bytes that [`evaluate`] wrote. Writes 16m bytes to `tokens`: the token of each output, of a
/// wire that is named twice both times. With the mark 43 48 they are the last 16m bytes of `wires`. Wipe both after use.
///
/// # Errors
///
/// Refusals 1 to 7, 25, 26, 11, 19.
///
/// ```
/// // Wire 3 is wire 1 AND wire 2. The outputs, by name: wire 3, wire 1, and wire 3 again.
/// let circuit = [
///     0x43, 0x49, 0, 2, 0, 3, 0, 1, // the mark, n, m, q
///     0x43, 0x47, 0, 1, 0, 2, 8, // a gate
///     0x43, 0x4F, 0, 3, 0x43, 0x4F, 0, 1, 0x43, 0x4F, 0, 3, // the outputs
/// ];
/// let wires = [[1; 16], [2; 16], [3; 16]].concat();
/// let mut tokens = [0; 48];
/// weighhare::output_tokens(&circuit, &wires, &mut tokens)?;
/// assert_eq!(tokens[..], [[3; 16], [1; 16], [3; 16]].concat());
/// # Ok::<(), weighhare::Refusal>(())
/// ```
pub fn output_tokens(circuit: &[u8], wires: &[u8], tokens: &mut [u8]) -> Result<(), Refusal> {
    let mut answer = [0; 4];
    // SAFETY: pointers and lengths are slices'; `tokens` and `answer` are borrowed alone.
    let number = unsafe {
        library::weighhare_output_tokens(
            circuit.as_ptr(),
            circuit.len(),
            wires.as_ptr(),
            wires.len(),
            tokens.as_mut_ptr(),
            tokens.len(),
            &mut answer,
        )
    };
    results(number, answer).map(|_| ())
}

/// Decodes the outputs' tokens to bits.
///
/// `tokens` has 16m bytes, the tokens of the outputs: what [`output_tokens`] writes, for a circuit of mark 43 48 the end of what
/// [`evaluate`] wrote. `material` is exactly as long as [`Garbled::length`] says. Writes m bytes to `bits`, each 0 or 1, in the
/// order of the outputs.
///
/// With the mark 47 48 any tokens decode. With 47 4A a token's hash must be one of the two that the material has for
/// its output: 0 if it is the first, else 1 if it is the second, else refusal 29, at the first such output. So a token
/// shows that was mistyped, mixed up with another, or came of a damaged row.
///
/// Material that somebody else made can be well-formed and wrong, with either mark: a colour flipped, or an output's
/// two hashes exchanged, turns a 0 into a 1, and nothing here sees it.
///
/// No look-up and no branch depends on a token, but for one branch with the mark 47 4A, on whether it refuses with 29:
/// then it looks for the first. This is tested on the archive and not proved.
///
/// # Errors
///
/// Refusals 1 to 7, 25, 26, 11, 12 to 18, 19, 29.
///
/// ```
/// use weighhare::Refusal;
///
/// # let circuit = [0x43, 0x48, 0, 2, 0, 1, 0, 1, 0x43, 0x47, 0, 1, 0, 2, 8];
/// # let (mut material, mut zeros, mut ones) = ([0; 79], [0; 48], [0; 32]);
/// # let _ = weighhare::garble(&circuit, &[7; 16], 0, 3, 0x474A, &mut material, &mut zeros, &mut ones)?;
/// // An output's zero token decodes to 0. An input's token is none of the output's.
/// let mut bits = [9];
/// weighhare::decode(&circuit, &zeros[32..], &material, &mut bits)?;
/// assert_eq!(bits, [0]);
/// let refused = weighhare::decode(&circuit, &zeros[..16], &material, &mut bits);
/// assert_eq!(refused, Err(Refusal::OutputToken { output: 1 }));
/// # Ok::<(), Refusal>(())
/// ```
pub fn decode(circuit: &[u8], tokens: &[u8], material: &[u8], bits: &mut [u8]) -> Result<(), Refusal> {
    let mut answer = [0; 4];
    // SAFETY: pointers and lengths are slices'; `bits` and `answer` are borrowed alone.
    let number = unsafe {
        library::weighhare_decode(
            circuit.as_ptr(),
            circuit.len(),
            tokens.as_ptr(),
            tokens.len(),
            material.as_ptr(),
            material.len(),
            bits.as_mut_ptr(),
            bits.len(),
            &mut answer,
        )
    };
    results(number, answer).map(|_| ())
}

/// The token of a wire for a bit: 16 bytes of one of the two lists.
///
/// `zeros` and `ones` have one length, a multiple of 16; `wire` counts from 1; `bit` is 0 or 1.
///
/// The bit does not stay hidden: what is handed back lies in the one list or in the other, and a branch on the bit
/// takes it. Where nobody on the machine may learn the bits, [`encode`] chooses by a mask: it takes 0 for the inputs of
/// others, whose tokens are then left out.
///
/// # Errors
///
/// Refusals 10, 11, 20.
///
/// ```
/// let zeros = [0; 32];
/// let ones = [1; 32];
/// assert_eq!(weighhare::pick(&zeros, &ones, 2, 1)?, &ones[16..]);
/// # Ok::<(), weighhare::Refusal>(())
/// ```
pub fn pick<'a>(zeros: &'a [u8], ones: &'a [u8], wire: u16, bit: u8) -> Result<&'a [u8], Refusal> {
    let mut answer = [0; 4];
    // SAFETY: pointers and lengths are slices'; `answer` is borrowed alone.
    let number = unsafe {
        library::weighhare_pick(
            zeros.as_ptr(),
            zeros.len(),
            ones.as_ptr(),
            ones.len(),
            wire,
            bit,
            &mut answer,
        )
    };
    let [list, start, length, _] = results(number, answer)?;
    let list = if list == 0 { zeros } else { ones };
    Ok(&list[start..start + length])
}

/// Writes the circuit that compares two figures of `width` bits each, a price and a ceiling, and answers its length.
///
/// `width` is 1 to 64. Writes 28w-13 bytes to `circuit`, where w is the width: 1,779 for 64 bits. Inputs 1 to w are the price
/// and w+1 to 2w the ceiling, the lowest bit of each first, as [`figure_values`](crate::figure_values) writes them; the one output is 1 exactly when
/// price <= ceiling. n is 2w, m 1, q 4w-3 and p w.
///
/// There is one circuit for each width, so that whoever agrees on the width has the same bytes. It is no secret.
///
/// # Errors
///
/// Refusals 21, 19.
///
/// ```
/// let mut circuit = [0; 28 * 16 - 13];
/// let length = weighhare::comparator(16, &mut circuit)?;
/// assert_eq!(length, circuit.len());
///
/// // The plain circuit's last wire is its output.
/// let mut values = [0; 32];
/// weighhare::figure_values(1200, &mut values[..16])?;
/// weighhare::figure_values(1500, &mut values[16..])?;
/// let mut wires = [0; 6 * 16 - 3];
/// weighhare::plain(&circuit, &values, &mut wires)?;
/// assert_eq!(wires.last(), Some(&1));
/// # Ok::<(), Box<dyn std::error::Error>>(())
/// ```
pub fn comparator(width: usize, circuit: &mut [u8]) -> Result<usize, Refusal> {
    let mut answer = [0; 4];
    // SAFETY: the pointer and the length are a slice's; `circuit` and `answer` are borrowed alone.
    let number =
        unsafe { library::weighhare_comparator(width as u64, circuit.as_mut_ptr(), circuit.len(), &mut answer) };
    let [length, ..] = results(number, answer)?;
    Ok(length)
}

/// The four words of an answer if nothing refused, else the refusal.
fn results(number: u8, answer: library::Answer) -> Result<[usize; 4], Refusal> {
    let words = answer.map(|word| word as usize);
    if number == 0 {
        return Ok(words);
    }
    match Refusal::from_number(number, words[0]) {
        Some(refusal) => Err(refusal),
        None => panic!(
            "libweighhare.a gave refusal {number} at place {}, which there is not",
            words[0]
        ),
    }
}
