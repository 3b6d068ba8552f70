//! `evaluate`: the desk's work on the material.

use crate::arguments::{Arguments, Takes};
use crate::command::Command;
use crate::figure::joined;
use crate::input::Input;
use crate::output::{For, Output};
use crate::trouble::Trouble;
use weighhare::Circuit;

pub static COMMAND: Command = Command {
    name: "evaluate",
    about: "works a garbled circuit through, to the tokens of its outputs",
    help: HELP,
    words: &["CIRCUIT"],
    options: &[
        ("--material", Takes::Needed),
        ("--tokens", Takes::Many),
        ("--out", Takes::Needed),
        ("--wires", Takes::Perhaps),
        ("--force", Takes::Nothing),
    ],
    run,
};

const HELP: &str = "\
usage: weighhare evaluate CIRCUIT --material MATERIAL --tokens TOKENS .. --out OUTPUTS [--wires FILE] [--force]

Works a garbled circuit through: from a token for each input, the token of every wire, and of these the outputs'. Material that
somebody else made can be well-formed and wrong, and then still ends in some tokens, with or without --hashed.

  CIRCUIT              the circuit: a file, or - for standard input
  --material MATERIAL  the material, as garble wrote it: a file, or -
  --tokens TOKENS      a token for each input, 16 bytes each, in the order of the wires: a file, or -; more than once where the
                       tokens are in several files, one after the other
  --out OUTPUTS        the tokens of the outputs, in their order, written for their owner alone: a file, or - for standard output
  --wires FILE         the token of every wire, written for their owner alone; nobody needs it in an exchange
  --force              replace files that are there already

Example:

  $ weighhare evaluate circuit --material material --tokens price.tokens --tokens ceiling.tokens --out outputs
";

fn run(arguments: &Arguments) -> Result<(), Trouble> {
    arguments.needed("--tokens")?;
    let output = Output::of(arguments, &[("--out", For::Owner), ("--wires", For::Owner)])?;
    let mut input = Input::default();
    let circuit = input.read("the circuit", arguments.word(0))?;
    let material = input.read("the material", arguments.needed("--material")?)?;
    let mut tokens = Vec::new();
    for file in arguments.all("--tokens") {
        tokens.push(input.read_secret("tokens", file)?);
    }
    let circuit = Circuit::new(circuit)?;
    let wires = circuit.evaluate(&joined(&tokens), &material)?.wires;
    let outputs = circuit.output_tokens(&wires)?;
    output.write(&[("--out", &outputs), ("--wires", &wires)])
}
