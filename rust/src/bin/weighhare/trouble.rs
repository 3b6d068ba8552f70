//! What can go wrong, what is said of it, and the status that the program ends with.

use crate::command::Command;
use std::fmt;
use weighhare::Refusal;

/// Why a command did not do its work. No text has a figure, a token or a byte of a seed: these are secret.
pub enum Trouble {
    /// The library refused: status 1.
    Refused(Refusal),
    /// The command was not called as it should be: status 2.
    Usage {
        command: Option<&'static Command>,
        message: String,
    },
    /// Something else, most often a file: status 2.
    Failed(String),
}

impl Trouble {
    pub fn usage(command: Option<&'static Command>, message: impl Into<String>) -> Self {
        let message = message.into();
        Self::Usage { command, message }
    }

    pub fn status(&self) -> u8 {
        match self {
            Self::Refused(_) => 1,
            Self::Usage { .. } | Self::Failed(_) => 2,
        }
    }
}

impl From<Refusal> for Trouble {
    fn from(refusal: Refusal) -> Self {
        Self::Refused(refusal)
    }
}

impl fmt::Display for Trouble {
    fn fmt(&self, f: &mut fmt::Formatter<'_>) -> fmt::Result {
        match self {
            Self::Refused(refusal) => write!(f, "refused {} {}: {refusal}", refusal.number(), refusal.place()),
            Self::Failed(message) => write!(f, "weighhare: {message}"),
            Self::Usage { command: None, message } => {
                write!(f, "weighhare: {message}: weighhare --help lists the commands")
            }
            Self::Usage {
                command: Some(command),
                message,
            } => {
                let name = command.name;
                let usage = command.usage();
                write!(
                    f,
                    "weighhare {name}: {message}\n{usage}\nweighhare {name} --help says more"
                )
            }
        }
    }
}
