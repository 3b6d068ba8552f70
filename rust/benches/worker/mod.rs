//! Who does a job, and how.

use crate::command::COMMANDS;
use crate::jobs::Job;
use crate::subject::Subject;
use std::error::Error;
use std::io;
use std::process::{Command, Stdio};

const PROGRAM: &str = env!("CARGO_BIN_EXE_weighhare");

#[derive(Clone, Copy)]
pub enum Worker {
    /// The library's call alone, on buffers that are there already.
    Library,
    /// The program's command in this process, from its words to its files.
    Command,
    /// The program as a process of its own, which does the same.
    Program,
    /// The program as a process that prints its version and does nothing else.
    Start,
}

impl Worker {
    pub const ALL: [Self; 4] = [Self::Library, Self::Command, Self::Program, Self::Start];

    pub fn name(self) -> &'static str {
        match self {
            Self::Library => "library",
            Self::Command => "command",
            Self::Program => "program",
            Self::Start => "start",
        }
    }

    /// The comparison is for a process alone: the library has no one call for it, and the command would print among the lines.
    pub fn takes(self, job: &Job) -> bool {
        match self {
            Self::Library | Self::Command => job.operation != "compare",
            Self::Program | Self::Start => true,
        }
    }

    pub fn run(self, job: &Job, subject: &mut Subject) -> Result<(), Box<dyn Error>> {
        match self {
            Self::Library if job.operation == "garble" => subject.garble(job.scheme),
            Self::Library => subject.evaluate(),
            Self::Command => run_command(job)?,
            Self::Program => run_program(Command::new(PROGRAM).arg(job.operation).args(&job.words))?,
            Self::Start => run_program(Command::new(PROGRAM).arg("--version"))?,
        }
        Ok(())
    }

    /// Puts the files away that the worker wrote, if it writes any.
    pub fn put_away(self, job: &mut Job) -> io::Result<()> {
        match self {
            Self::Command | Self::Program => job.put_away(),
            Self::Library | Self::Start => Ok(()),
        }
    }
}

fn run_command(job: &Job) -> Result<(), Box<dyn Error>> {
    let found = COMMANDS.into_iter().find(|command| command.name == job.operation);
    let command = found.ok_or("there is no such command")?;
    let arguments = command.arguments(&job.words).map_err(|trouble| trouble.to_string())?;
    (command.run)(&arguments).map_err(|trouble| trouble.to_string().into())
}

fn run_program(program: &mut Command) -> Result<(), Box<dyn Error>> {
    program.stdin(Stdio::null()).stdout(Stdio::null()).stderr(Stdio::null());
    let status = program.status()?;
    if status.success() {
        Ok(())
    } else {
        Err(format!("the program ended with {status}").into())
    }
}
