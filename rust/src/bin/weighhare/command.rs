//! What a command is, and the list of them.

use crate::arguments::{Arguments, Takes};
use crate::commands::{comparator, compare, decode, encode, evaluate, garble, pick, plain, seed, sizes};
use crate::trouble::Trouble;
use std::ffi::OsString;

/// A command of the program.
pub struct Command {
    pub name: &'static str,
    /// What it does, in a line.
    pub about: &'static str,
    /// Its help, whose first paragraph is its usage.
    pub help: &'static str,
    /// The words that it takes and that belong to no option, as its usage names them.
    pub words: &'static [&'static str],
    pub options: &'static [(&'static str, Takes)],
    pub run: fn(&Arguments) -> Result<(), Trouble>,
}

impl Command {
    pub fn arguments(&'static self, given: &[OsString]) -> Result<Arguments, Trouble> {
        Arguments::parse(self, given)
    }

    /// The first paragraph of the help.
    pub fn usage(&self) -> &'static str {
        self.help.split("\n\n").next().unwrap_or(self.help)
    }
}

pub static COMMANDS: [&Command; 10] = [
    &compare::COMMAND,
    &sizes::COMMAND,
    &comparator::COMMAND,
    &seed::COMMAND,
    &garble::COMMAND,
    &encode::COMMAND,
    &pick::COMMAND,
    &evaluate::COMMAND,
    &decode::COMMAND,
    &plain::COMMAND,
];

/// The help of the program as a whole.
pub fn overview() -> String {
    let mut list = String::new();
    for command in COMMANDS {
        list += &format!("  {:<11} {}\n", command.name, command.about);
    }
    format!("{BEFORE}{list}{AFTER}")
}

const BEFORE: &str = "\
usage: weighhare COMMAND ..

Garbled circuits over files: whether a price is at most a ceiling, for a desk that sees neither figure.

";

const AFTER: &str = "
weighhare COMMAND --help says what a command reads and writes, with an example; weighhare --version prints the version.

A FILE that is read may be -, standard input, and one that is written may be -, standard output. A file is written whole or not
at all, and one that is there already is kept: --force replaces it. Seeds, token lists and lists of zero and one tokens are
secret, and their files are made for their owner alone.

Status: 0 done; 1 refused, and 'refused NUMBER PLACE: WHAT' on standard error; 2 wrong usage or trouble with a file, with a
message on standard error. Whoever is refused or has trouble has no file written.

Example:

  $ weighhare compare 1200 1500 --bits 16
  yes
";
