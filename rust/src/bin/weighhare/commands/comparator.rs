//! `comparator`: the circuit that compares two figures.

use crate::arguments::{Arguments, Takes};
use crate::command::Command;
use crate::output::{For, Output};
use crate::trouble::Trouble;
use weighhare::Circuit;

pub static COMMAND: Command = Command {
    name: "comparator",
    about: "writes the circuit that compares a price and a ceiling",
    help: HELP,
    words: &[],
    options: &[
        ("--bits", Takes::Needed),
        ("--out", Takes::Needed),
        ("--force", Takes::Nothing),
    ],
    run,
};

const HELP: &str = "\
usage: weighhare comparator --bits W --out CIRCUIT [--force]

Writes the circuit that compares two figures of W bits, a price and a ceiling. Its inputs 1 to W are the price and W+1 to 2W the
ceiling, the lowest bit of each first; its one output is 1 exactly when price <= ceiling. It is the same for everybody who agrees
on W, and no secret.

  --bits W       the bits of a figure, 1 to 64
  --out CIRCUIT  the circuit, which is written: a file, or - for standard output
  --force        replace a file that is there already

Example:

  $ weighhare comparator --bits 32 --out circuit
";

fn run(arguments: &Arguments) -> Result<(), Trouble> {
    let width = arguments.width()?;
    let output = Output::of(arguments, &[("--out", For::Everybody)])?;
    let circuit = Circuit::comparator(width)?;
    output.write(&[("--out", circuit.bytes())])
}
