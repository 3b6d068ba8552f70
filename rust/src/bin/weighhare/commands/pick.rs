//! `pick`: the tokens of some inputs, where oblivious transfer would stand.

use crate::arguments::{Arguments, Takes};
use crate::command::Command;
use crate::figure::{figure_option, joined};
use crate::input::Input;
use crate::output::{For, Output};
use crate::trouble::Trouble;
use weighhare::Secret;

pub static COMMAND: Command = Command {
    name: "pick",
    about: "chooses the tokens of some inputs, for one figure or one bit",
    help: HELP,
    words: &[],
    options: &[
        ("--zeros", Takes::Needed),
        ("--ones", Takes::Needed),
        ("--wire", Takes::Needed),
        ("--bit", Takes::Perhaps),
        ("--figure", Takes::Perhaps),
        ("--out", Takes::Needed),
        ("--force", Takes::Nothing),
    ],
    run,
};

const HELP: &str = "\
usage: weighhare pick --zeros ZEROS --ones ONES --wire WIRE (--bit BIT | --figure FIGURE:BITS) --out TOKENS [--force]

Chooses the token of a wire for a bit, or of as many wires as a figure has bits. Whoever runs it sees both lists and the bits:
where two sides trust no third, oblivious transfer stands here, which this program does not have.

  --zeros ZEROS         the zero token of every input, as garble wrote them: a file, or - for standard input
  --ones ONES           the one token of every input
  --wire WIRE           the wire, from 1; with --figure the first wire, that of the lowest bit
  --bit BIT             0 or 1
  --figure FIGURE:BITS  a figure in decimal, and how many bits it is to have; @FILE:BITS takes it from a file, so that the list of
                        processes does not show it
  --out TOKENS          the tokens, 16 bytes each, written for their owner alone: a file, or - for standard output
  --force               replace a file that is there already

Example:

  $ weighhare pick --zeros zeros --ones ones --wire 33 --figure 1500:32 --out ceiling.tokens
";

fn run(arguments: &Arguments) -> Result<(), Trouble> {
    let first: u16 = arguments.number("--wire", None, u16::MAX)?;
    let output = Output::of(arguments, &[("--out", For::Owner)])?;
    let mut input = Input::default();
    let bits = bits(arguments, &mut input)?;
    let zeros = input.read_secret("the zero tokens", arguments.needed("--zeros")?)?;
    let ones = input.read_secret("the one tokens", arguments.needed("--ones")?)?;
    let mut tokens = Vec::new();
    for (index, bit) in bits.iter().enumerate() {
        let wire = u16::try_from(usize::from(first) + index);
        let wire = wire.map_err(|_| arguments.wrong("the figure's bits go past wire 65535"))?;
        tokens.push(Secret::from(weighhare::pick(&zeros, &ones, wire, *bit)?.to_vec()));
    }
    output.write(&[("--out", &joined(&tokens))])
}

/// The bits whose tokens are asked for.
fn bits(arguments: &Arguments, input: &mut Input) -> Result<Secret, Trouble> {
    match (arguments.option("--bit"), arguments.option("--figure")) {
        (Some(_), None) => Ok(Secret::from(vec![arguments.number("--bit", None, u8::MAX)?])),
        (None, Some(figure)) => figure_option(arguments, input, figure),
        _ => Err(arguments.wrong("either --bit or --figure says which tokens")),
    }
}
