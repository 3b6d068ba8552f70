//! `sizes`: what a circuit has, and how long its material is.

use crate::arguments::Arguments;
use crate::command::Command;
use crate::input::Input;
use crate::output::print;
use crate::trouble::Trouble;
use weighhare::{Circuit, Scheme};

pub static COMMAND: Command = Command {
    name: "sizes",
    about: "prints a circuit's sizes, and the bytes of its material",
    help: HELP,
    words: &["CIRCUIT"],
    options: &[],
    run,
};

const HELP: &str = "\
usage: weighhare sizes CIRCUIT

Prints the inputs, outputs, gates and charged gates of a circuit, and the bytes of its material under schemes 1, 2, 3
and 4, as garble writes it without --hashed; with it there are 31 more for each output.

  CIRCUIT  the circuit: a file, or - for standard input

Example:

  $ weighhare sizes circuit
  inputs 64
  outputs 1
  gates 125
  charged 32
  material 2188 1676 1164 1164
";

fn run(arguments: &Arguments) -> Result<(), Trouble> {
    let circuit = Circuit::new(Input::default().read("the circuit", arguments.word(0))?)?;
    let sizes = circuit.sizes();
    let [one, two, three, four] = Scheme::ALL.map(|scheme| sizes.material_length(scheme));
    print(&format!(
        "inputs {}\noutputs {}\ngates {}\ncharged {}\nmaterial {one} {two} {three} {four}\n",
        sizes.n, sizes.m, sizes.q, sizes.p
    ))
}
