//! `plain`: what the circuit gives for values that are no secret to who runs it.

use crate::arguments::{Arguments, Takes};
use crate::command::Command;
use crate::figure::all_values;
use crate::input::Input;
use crate::output::{print_bits, For, Output};
use crate::trouble::Trouble;
use weighhare::Circuit;

pub static COMMAND: Command = Command {
    name: "plain",
    about: "evaluates a circuit with nothing garbled, to see what it computes",
    help: HELP,
    words: &["CIRCUIT"],
    options: &[
        ("--values", Takes::Perhaps),
        ("--figure", Takes::Many),
        ("--wires", Takes::Perhaps),
        ("--force", Takes::Nothing),
    ],
    run,
};

const HELP: &str = "\
usage: weighhare plain CIRCUIT (--values VALUES | --figure FIGURE:BITS ..) [--wires FILE [--force]]

Evaluates a circuit with nothing garbled, and prints the outputs' bits, a digit for each, in the order of the outputs.

  CIRCUIT               the circuit: a file, or - for standard input
  --values VALUES       the values of all inputs, a byte for each, 00 or 01: a file, or -
  --figure FIGURE:BITS  in place of --values: a figure in decimal, which gives so many values, lowest bit first; once for each
                        figure, in their order. @FILE:BITS takes it from a file
  --wires FILE          write the value of every wire, a byte for each, for their owner alone, and print nothing
  --force               replace a file that is there already

Example:

  $ weighhare plain circuit --figure 1200:32 --figure 1500:32
  1
";

fn run(arguments: &Arguments) -> Result<(), Trouble> {
    let output = Output::of(arguments, &[("--wires", For::Owner)])?;
    let mut input = Input::default();
    let circuit = input.read("the circuit", arguments.word(0))?;
    let values = all_values(arguments, &mut input)?;
    let circuit = Circuit::new(circuit)?;
    if arguments.option("--wires").is_some() {
        output.write(&[("--wires", &circuit.plain(&values)?)])
    } else {
        print_bits(&circuit.plain_outputs(&values)?)
    }
}
