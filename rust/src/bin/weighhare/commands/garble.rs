//! `garble`: the garbler's work on a circuit.

use crate::arguments::{Arguments, Takes};
use crate::command::Command;
use crate::input::Input;
use crate::output::{For, Output};
use crate::trouble::Trouble;
use weighhare::{Circuit, Scheme, Seed};

pub static COMMAND: Command = Command {
    name: "garble",
    about: "garbles a circuit: its material, and the tokens of its inputs",
    help: HELP,
    words: &["CIRCUIT"],
    options: &[
        ("--seed", Takes::Needed),
        ("--run", Takes::Perhaps),
        ("--scheme", Takes::Perhaps),
        ("--hashed", Takes::Nothing),
        ("--material", Takes::Needed),
        ("--zeros", Takes::Needed),
        ("--ones", Takes::Needed),
        ("--all-zeros", Takes::Perhaps),
        ("--force", Takes::Nothing),
    ],
    run,
};

const HELP: &str = "\
usage: weighhare garble CIRCUIT --seed SEED [--run N] [--scheme S] [--hashed] --material MATERIAL --zeros ZEROS
                        --ones ONES [--all-zeros FILE] [--force]

Garbles a circuit. The material is for the desk; the two lists of tokens are secret, and for encode and pick.

  CIRCUIT              the circuit: a file, or - for standard input
  --seed SEED          the seed, 16 bytes: a file, or -
  --run N              which of the seed's garblings this is, 0 where nothing is said; two with one number have one R, which
                       must not be, and nothing here notices it
  --scheme S           1 GaX, 2 GaXR, 3 half-gates, 4 re-keyed half-gates; 3 where nothing is said
  --hashed             end the material in hashes of the outputs' tokens, mark 47 4A: then decode refuses a token that
                       is none of its output's two, such as one mistyped or mixed up. It does not show a garbler, or
                       whoever changes the material, that exchanges an output's two hashes. Without it the mark is
                       47 48, and any token decodes to some bit
  --material MATERIAL  the material, which is written: a file, or - for standard output
  --zeros ZEROS        the zero token of every input, written for their owner alone
  --ones ONES          the one token of every input, written for their owner alone
  --all-zeros FILE     the zero token of every wire, written for their owner alone; nobody needs it in an exchange
  --force              replace files that are there already

Example:

  $ weighhare garble circuit --seed seed --hashed --material material --zeros zeros --ones ones
";

fn run(arguments: &Arguments) -> Result<(), Trouble> {
    let run: u64 = arguments.number("--run", Some(0), u64::MAX)?;
    let scheme: u8 = arguments.number("--scheme", Some(3), u8::MAX)?;
    let output = Output::of(
        arguments,
        &[
            ("--material", For::Everybody),
            ("--zeros", For::Owner),
            ("--ones", For::Owner),
            ("--all-zeros", For::Owner),
        ],
    )?;
    let mut input = Input::default();
    let circuit = input.read("the circuit", arguments.word(0))?;
    let seed = input.read_secret("the seed", arguments.needed("--seed")?)?;
    // In the library's order of refusals: the circuit, the seed, the scheme.
    let circuit = Circuit::new(circuit)?;
    let (seed, scheme) = (Seed::from_bytes(&seed)?, Scheme::try_from(scheme)?);
    let garbling = if arguments.option("--hashed").is_some() {
        circuit.garble_hashed(&seed, run, scheme)?
    } else {
        circuit.garble(&seed, run, scheme)
    };
    output.write(&[
        ("--material", garbling.material()),
        ("--zeros", garbling.input_zeros()),
        ("--ones", garbling.ones()),
        ("--all-zeros", garbling.zeros()),
    ])
}
