//! `seed`: a seed from the system's random numbers.

use crate::arguments::{Arguments, Takes};
use crate::command::Command;
use crate::output::{For, Output};
use crate::trouble::Trouble;
use weighhare::Seed;

pub static COMMAND: Command = Command {
    name: "seed",
    about: "draws a seed from the system's random numbers",
    help: HELP,
    words: &[],
    options: &[("--out", Takes::Needed), ("--force", Takes::Nothing)],
    run,
};

const HELP: &str = "\
usage: weighhare seed --out SEED [--force]

Draws 16 bytes from the system's random numbers, by getrandom(2). A seed is the garbler's secret: whoever has it and the tokens can
read both figures. It is for one garbling for each run number.

  --out SEED  the seed, which is written for its owner alone: a file, or - for standard output
  --force     replace a file that is there already

Example:

  $ weighhare seed --out seed
";

fn run(arguments: &Arguments) -> Result<(), Trouble> {
    let output = Output::of(arguments, &[("--out", For::Owner)])?;
    let seed = draw()?;
    output.write(&[("--out", seed.bytes())])
}

pub fn draw() -> Result<Seed, Trouble> {
    Seed::draw().map_err(|error| Trouble::Failed(format!("the system gives no random numbers: {error}")))
}
