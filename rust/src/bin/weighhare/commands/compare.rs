//! `compare`: a whole exchange in one process, for rehearsal.

use super::decode::yes_or_no;
use super::seed::draw;
use crate::arguments::{Arguments, Takes};
use crate::command::Command;
use crate::figure::{joined, values_of};
use crate::input::Input;
use crate::output::print;
use crate::trouble::Trouble;
use std::io::{self, Write};
use std::os::unix::ffi::OsStrExt;
use weighhare::{Circuit, Garbling, Scheme, Secret, Seed, Sizes};

pub static COMMAND: Command = Command {
    name: "compare",
    about: "compares two figures by garbling, in one process, for rehearsal",
    help: HELP,
    words: &["PRICE", "CEILING"],
    options: &[
        ("--bits", Takes::Needed),
        ("--scheme", Takes::Perhaps),
        ("--run", Takes::Perhaps),
        ("--seed", Takes::Perhaps),
    ],
    run,
};

const HELP: &str = "\
usage: weighhare compare PRICE CEILING --bits W [--scheme S] [--run N] [--seed SEED]

Whether a price is at most a ceiling: makes the circuit, garbles it, encodes both figures, evaluates, decodes, and prints yes or no
as its last line. What happened is said on standard error. This is a rehearsal: one process sees both figures, and so does
whoever sees the list of processes. docs/EXCHANGE.md has the exchange between three sides.

  PRICE, CEILING  the figures, in decimal
  --bits W        the bits of a figure, 1 to 64
  --scheme S      1 GaX, 2 GaXR, 3 half-gates, 4 re-keyed half-gates; 3 where nothing is said
  --run N         which of the seed's garblings this is, 0 where nothing is said
  --seed SEED     the seed, 16 bytes: a file, or - for standard input; where nothing is said, one is drawn for this rehearsal

Status: 0 for yes and for no; 1 refused; 2 where a figure does not fit its bits, for wrong usage and trouble with a file.

Example:

  $ weighhare compare 1200 1500 --bits 16
  yes
";

fn run(arguments: &Arguments) -> Result<(), Trouble> {
    let width = arguments.width()?;
    let run: u64 = arguments.number("--run", Some(0), u64::MAX)?;
    let scheme: u8 = arguments.number("--scheme", Some(3), u8::MAX)?;
    let circuit = Circuit::comparator(width)?;
    let values = values(arguments, width)?;
    let (seed, origin) = seed(arguments)?;
    let scheme = Scheme::try_from(scheme)?;
    let garbling = circuit.garble(&seed, run, scheme);
    let tokens = circuit.encode(&values, garbling.input_zeros(), garbling.ones())?;
    let evaluation = circuit.evaluate(&tokens, garbling.material())?;
    let outputs = circuit.output_tokens(&evaluation.wires)?;
    let bits = circuit.decode(&outputs, garbling.material())?;
    say(&[
        format!("seed: {origin}; run {run}"),
        about_circuit(circuit.sizes(), width),
        about_garbling(&garbling, scheme),
        format!("evaluated: {} calls of AES, on tokens alone", evaluation.calls),
    ]);
    print(yes_or_no(&bits))
}

/// The values of both figures.
fn values(arguments: &Arguments, bits: usize) -> Result<Secret, Trouble> {
    let malformed = || arguments.wrong("a figure is a number in decimal");
    let price = values_of("PRICE", arguments.word(0).as_bytes(), bits, malformed)?;
    let ceiling = values_of("CEILING", arguments.word(1).as_bytes(), bits, malformed)?;
    Ok(joined(&[price, ceiling]))
}

/// The seed, and where it is from.
fn seed(arguments: &Arguments) -> Result<(Seed, &'static str), Trouble> {
    match arguments.option("--seed") {
        Some(file) => {
            let bytes = Input::default().read_secret("the seed", file)?;
            Ok((Seed::from_bytes(&bytes)?, "as it was given"))
        }
        None => Ok((draw()?, "drawn for this rehearsal, and not kept")),
    }
}

/// What happened, for a reader on standard error. Where it cannot be written, the answer still can.
fn say(lines: &[String]) {
    let _ = writeln!(io::stderr(), "{}", lines.join("\n"));
}

fn about_circuit(sizes: Sizes, width: usize) -> String {
    let Sizes { q, p, .. } = sizes;
    format!("circuit: {q} gates, {p} of them charged, for figures of {width} bits")
}

fn about_garbling(garbling: &Garbling, scheme: Scheme) -> String {
    let (number, bytes, calls) = (scheme.number(), garbling.material().len(), garbling.calls());
    format!("garbled by scheme {number}, {scheme}: {bytes} bytes of material, {calls} calls of AES")
}
