//! `decode`: what the outputs' tokens say.

use crate::arguments::{Arguments, Takes};
use crate::command::Command;
use crate::input::Input;
use crate::output::{print, print_bits, For, Output};
use crate::trouble::Trouble;
use weighhare::Circuit;

pub static COMMAND: Command = Command {
    name: "decode",
    about: "prints the bits that the outputs' tokens stand for",
    help: HELP,
    words: &["CIRCUIT"],
    options: &[
        ("--material", Takes::Needed),
        ("--outputs", Takes::Needed),
        ("--yes-no", Takes::Nothing),
        ("--out", Takes::Perhaps),
        ("--force", Takes::Nothing),
    ],
    run,
};

const HELP: &str = "\
usage: weighhare decode CIRCUIT --material MATERIAL --outputs OUTPUTS [--yes-no | --out BITS [--force]]

Prints the outputs' bits, a digit for each, in the order of the outputs.

Where the material was garbled with --hashed, a token that is none of its output's two is refused, 29: it was mistyped,
mixed up, is of another garbling, or came of damaged material or tokens. Else any tokens decode to some bits. Neither
shows material whose garbler means to deceive.

  CIRCUIT              the circuit: a file, or - for standard input
  --material MATERIAL  the material, as garble wrote it: a file, or -
  --outputs OUTPUTS    the tokens of the outputs, as evaluate wrote them: a file, or -
  --yes-no             print yes for 1 and no for 0, of a circuit with one output
  --out BITS           write the bits, a byte for each, 00 or 01, and print nothing: a file, or - for standard output
  --force              replace a file that is there already

Example:

  $ weighhare decode circuit --material material --outputs outputs --yes-no
  yes
";

fn run(arguments: &Arguments) -> Result<(), Trouble> {
    let output = Output::of(arguments, &[("--out", For::Everybody)])?;
    let in_words = arguments.option("--yes-no").is_some();
    let to_file = arguments.option("--out").is_some();
    if in_words && to_file {
        return Err(arguments.wrong("--yes-no prints, and with --out nothing is printed"));
    }
    let mut input = Input::default();
    let circuit = input.read("the circuit", arguments.word(0))?;
    let material = input.read("the material", arguments.needed("--material")?)?;
    let outputs = input.read_secret("the outputs' tokens", arguments.needed("--outputs")?)?;
    let bits = Circuit::new(circuit)?.decode(&outputs, &material)?;
    if to_file {
        output.write(&[("--out", &bits)])
    } else if !in_words {
        print_bits(&bits)
    } else if bits.len() == 1 {
        print(yes_or_no(&bits))
    } else {
        Err(arguments.wrong("--yes-no is for a circuit with one output"))
    }
}

/// The bit of a comparison, as a line.
pub fn yes_or_no(bits: &[u8]) -> &'static str {
    if bits == [1] {
        "yes\n"
    } else {
        "no\n"
    }
}
