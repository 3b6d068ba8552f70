//! Garbled circuits, proved: safe functions over the static library `libweighhare.a`.
//!
//! A circuit computes bits from bits. The garbler gives each wire two 16-byte tokens, one for 0 and one for 1, and writes
//! the material; an evaluator who holds one token for each input finds the one token of every other wire, and decodes the
//! outputs. The library's functions are proved to do this as defined, for every argument; this crate only hands bytes on,
//! and that is not proved.
//!
//! There are two layers. The first allocates: a [`Circuit`] is checked once and knows its sizes, [`Circuit::garble`] gives a
//! [`Garbling`], and what is secret is wiped when it is dropped ([`Seed`], [`Secret`]). The second are the functions on slices
//! ([`check`], [`garble`], [`evaluate`] and so on), for who brings the buffers; [`Sizes`] says how long these must be.
//!
//! An operation answers with its results, or with a [`Refusal`], which leaves every buffer as it was, but for
//! [one](Refusal::OutputHashes). Buffers that are lent may be longer than what is written; bytes past that are
//! untouched. Below n, m, q and p are the circuit's inputs, outputs, gates and charged gates. Wires are numbered from
//! 1: the inputs 1 to n, then the gates n+1 to n+q. Lists of tokens and of values are in that order, those of the
//! outputs in the order of the outputs. `docs/FORMATS.md` of the repository has the bytes of a circuit and of the
//! material.
//!
//! A circuit begins with one of two marks, which say what its outputs are. With 43 48 they are the last m wires, in rising
//! order. With 43 49 they are the wires that m output records name, after the gates, in the order of the records: inputs,
//! gates' wires, in any order, a wire more than once too. [`output_tokens`] gathers their tokens from those of all wires.
//!
//! The material begins with one of two marks too ([`Mark`]), which say what decoding goes by. With 47 48, which
//! [`Circuit::garble`] writes, any token decodes to some bit. With 47 4A, which [`Circuit::garble_hashed`] writes, a
//! token that is none of its output's two is refused, 29. That shows a token that was mistyped, mixed up or came of a
//! damaged row; it does not show material whose garbler, or whoever changed it, exchanged an output's two hashes.
//!
//! Who wants to compare two figures needs to draw no circuit: [`Circuit::comparator`] makes it for their number of bits,
//! [`figures_to_values`] turns figures into the values of its inputs, and [`values_figure`] turns values into a figure.
//!
//! # What is secret
//!
//! What the caller must see to:
//!
//! - The seed is 16 bytes of the system's random numbers: [`Seed::draw`]. One seed is for one garbling for each run number:
//!   two garblings from one seed with the same run number have the same R, the block by which the two tokens of every wire
//!   differ. With different run numbers no block that comes from the seed, to make R or an input's tokens, is the same in
//!   both. How little one run tells of another rests on AES, and is not proved. Nothing here notices a run number that is
//!   used twice.
//! - A garbling is for one evaluation. Evaluated on two input lists it shows R wherever two tokens of a wire differ, and
//!   whoever has R makes each wire's other token from the one.
//! - With the mark 43 49 any wire can be an output, an input too, and nothing refuses it: decoding then shows that input's
//!   bit, and for a middle wire the bit that it carries. Who garbles a circuit that somebody else wrote looks at its outputs
//!   first.
//! - The layer that allocates wipes what it holds: the seed, the garbler's tokens, the evaluator's, and values. Who uses the
//!   functions on slices wipes the seed, `zeros` and `ones`, `tokens` and `wires`, and the values, by a write that a compiler
//!   does not drop, such as `write_volatile`. What a function leaves on the stack is not wiped.
//! - Secret are, at the garbler's, the seed, R, both tokens of every wire and the values; at the evaluator's, the
//!   tokens that it holds. In the library's [`garble`], [`encode`] and [`decode`] no look-up and no branch depends on a
//!   secret, but for two branches with the mark 47 4A: of garble on whether it refuses with 30, of decode on whether it
//!   refuses with 29. This is tested on the archive, for x86-64, under valgrind's memcheck, and not proved.
//!   [`evaluate`] and [`evaluate_gates`] are not constant-time, and which list [`pick`] reads depends on its bit: see
//!   there. This crate's own code is not tested so, and how long anything takes is promised of no function.
//!
//! # Example
//!
//! Whether a price is at most a ceiling, by half-gates.
//!
//! ```
//! use weighhare::{figures_to_values, Circuit, Scheme, Seed};
//!
//! // Everybody has the circuit.
//! let circuit = Circuit::comparator(16)?;
//!
//! // The garbler's side. This is run 0 of a new seed.
//! let garbling = circuit.garble(&Seed::draw()?, 0, Scheme::HalfGates);
//! let values = figures_to_values(&[1200, 1500], 16)?;
//! let tokens = circuit.encode(&values, garbling.input_zeros(), garbling.ones())?;
//!
//! // The evaluator's side: it has the circuit, the material and a token for each input.
//! let evaluation = circuit.evaluate(&tokens, garbling.material())?;
//! let outputs = circuit.output_tokens(&evaluation.wires)?;
//! assert_eq!(circuit.decode(&outputs, garbling.material())?, [1]);
//! # Ok::<(), Box<dyn std::error::Error>>(())
//! ```

#![warn(missing_docs)]

#[cfg(not(all(target_arch = "x86_64", target_os = "linux")))]
compile_error!("libweighhare.a is for x86-64 Linux");

mod circuit;
mod figures;
mod garbling;
mod gate;
mod library;
mod mark;
mod operations;
mod refusal;
mod scheme;
mod secret;
mod sizes;

pub use circuit::{Circuit, Evaluation};
pub use figures::{figure_values, figures_to_values, values_figure, FigureTooLarge};
pub use garbling::Garbling;
pub use gate::Gate;
pub use mark::Mark;
pub use operations::{
    check, comparator, decode, encode, evaluate, evaluate_gates, garble, output_tokens, pick, plain, Garbled,
};
pub use refusal::Refusal;
pub use scheme::Scheme;
pub use secret::{Secret, Seed};
pub use sizes::{comparator_length, Sizes};
