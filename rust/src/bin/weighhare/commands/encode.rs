//! `encode`: a token for each input.

use crate::arguments::{Arguments, Takes};
use crate::command::Command;
use crate::figure::all_values;
use crate::input::Input;
use crate::output::{For, Output};
use crate::trouble::Trouble;
use weighhare::Circuit;

pub static COMMAND: Command = Command {
    name: "encode",
    about: "chooses the tokens of all inputs, for their values",
    help: HELP,
    words: &["CIRCUIT"],
    options: &[
        ("--zeros", Takes::Needed),
        ("--ones", Takes::Needed),
        ("--values", Takes::Perhaps),
        ("--figure", Takes::Many),
        ("--out", Takes::Needed),
        ("--force", Takes::Nothing),
    ],
    run,
};

const HELP: &str = "\
usage: weighhare encode CIRCUIT --zeros ZEROS --ones ONES (--values VALUES | --figure FIGURE:BITS ..) --out TOKENS [--force]

Chooses the tokens of all inputs, for who knows all of their values. For a part of the inputs there is pick.

  CIRCUIT               the circuit: a file, or - for standard input
  --zeros ZEROS         the zero token of every input, as garble wrote them: a file, or -
  --ones ONES           the one token of every input
  --values VALUES       the values of all inputs, a byte for each, 00 or 01: a file, or -
  --figure FIGURE:BITS  in place of --values: a figure in decimal, which gives so many values, lowest bit first; once for each
                        figure, in their order. @FILE:BITS takes it from a file, so that the list of processes does not show it
  --out TOKENS          a token for each input, written for their owner alone: a file, or - for standard output
  --force               replace a file that is there already

Example:

  $ weighhare encode circuit --zeros zeros --ones ones --figure 1200:32 --figure 1500:32 --out tokens
";

fn run(arguments: &Arguments) -> Result<(), Trouble> {
    let output = Output::of(arguments, &[("--out", For::Owner)])?;
    let mut input = Input::default();
    let circuit = input.read("the circuit", arguments.word(0))?;
    let values = all_values(arguments, &mut input)?;
    let zeros = input.read_secret("the zero tokens", arguments.needed("--zeros")?)?;
    let ones = input.read_secret("the one tokens", arguments.needed("--ones")?)?;
    let tokens = Circuit::new(circuit)?.encode(&values, &zeros, &ones)?;
    output.write(&[("--out", &tokens)])
}
