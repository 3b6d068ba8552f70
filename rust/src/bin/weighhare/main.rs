//! The program: the exchange over files. Each command reads files, calls the library, and writes files.
//!
//! Proved is what the library does with bytes. What stands here is not: it takes the arguments apart, reads and writes files,
//! and prints.

mod arguments;
mod command;
mod commands;
mod figure;
mod input;
mod output;
mod trouble;

use command::{Command, COMMANDS};
use std::env;
use std::ffi::OsString;
use std::io::{self, Write};
use std::process::ExitCode;
use trouble::Trouble;

const VERSION: &str = concat!("weighhare ", env!("CARGO_PKG_VERSION"), "\n");

fn main() -> ExitCode {
    let given: Vec<OsString> = env::args_os().skip(1).collect();
    match run(&given) {
        Ok(()) => ExitCode::SUCCESS,
        Err(trouble) => {
            // Where the message cannot be written, there is nobody to tell.
            let _ = writeln!(io::stderr(), "{trouble}");
            ExitCode::from(trouble.status())
        }
    }
}

fn run(given: &[OsString]) -> Result<(), Trouble> {
    let Some((first, rest)) = given.split_first() else {
        return Err(Trouble::usage(None, "a command is missing"));
    };
    match first.to_str() {
        Some("-h" | "--help") => output::print(&command::overview()),
        Some("--version") => output::print(VERSION),
        name => match COMMANDS.iter().find(|command| Some(command.name) == name) {
            Some(command) => run_command(command, rest),
            None => Err(Trouble::usage(None, "there is no such command")),
        },
    }
}

/// Runs a command, or prints its help where that is asked for.
fn run_command(command: &'static Command, given: &[OsString]) -> Result<(), Trouble> {
    let mut options = given.iter().take_while(|word| *word != "--");
    if options.any(|word| word == "-h" || word == "--help") {
        return output::print(command.help);
    }
    (command.run)(&command.arguments(given)?)
}
