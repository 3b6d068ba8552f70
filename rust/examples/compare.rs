//! Whether a price is at most a ceiling, by a garbled comparison: `compare PRICE CEILING` prints `yes` or `no`. Both figures
//! are of 32 bits, in decimal. Where something is wrong, it says what on standard error and ends with status 2.

use std::env;
use std::error::Error;
use std::process::ExitCode;
use weighhare::{figures_to_values, Circuit, Scheme, Secret, Seed};

/// The bits of a figure.
const BITS: u16 = 32;

fn main() -> ExitCode {
    let figures: Vec<String> = env::args().skip(1).collect();
    match compare(&figures) {
        Ok(is_within) => {
            println!("{}", if is_within { "yes" } else { "no" });
            ExitCode::SUCCESS
        }
        Err(error) => {
            eprintln!("compare: {error}");
            ExitCode::from(2)
        }
    }
}

/// From the two figures to the answer, with the seller's side and the desk's in one program.
fn compare(figures: &[String]) -> Result<bool, Box<dyn Error>> {
    let [price, ceiling] = figures else {
        return Err("usage: compare PRICE CEILING".into());
    };
    let values = figures_to_values(&[price.parse()?, ceiling.parse()?], BITS)?;
    let circuit = Circuit::comparator(BITS.into())?;
    let (material, tokens) = garble(&circuit, &values)?;
    evaluate(&circuit, &tokens, &material)
}

/// The garbler's side: the material, and a token for each input. Of these the ceiling's reach purchasing by oblivious transfer,
/// which is outside the library. The seed is used for this garbling alone: it is its run 0. Seed, zero and one tokens are wiped
/// at the end.
fn garble(circuit: &Circuit, values: &[u8]) -> Result<(Vec<u8>, Secret), Box<dyn Error>> {
    let garbling = circuit.garble_hashed(&Seed::draw()?, 0, Scheme::HalfGates)?;
    let tokens = circuit.encode(values, garbling.input_zeros(), garbling.ones())?;
    Ok((garbling.material().to_vec(), tokens))
}

/// The desk's side, which sees neither figure: whether the output's token decodes to 1. By the hashes in the material, a token
/// that is none of the output's two would be refused.
fn evaluate(circuit: &Circuit, tokens: &[u8], material: &[u8]) -> Result<bool, Box<dyn Error>> {
    let evaluation = circuit.evaluate(tokens, material)?;
    let outputs = circuit.output_tokens(&evaluation.wires)?;
    Ok(circuit.decode(&outputs, material)? == [1])
}
