//! The words that a command was given.

use crate::command::Command;
use crate::trouble::Trouble;
use std::ffi::{OsStr, OsString};
use std::os::unix::ffi::OsStrExt;

/// How often an option is given, and whether a value follows it.
#[derive(Clone, Copy, PartialEq, Eq)]
pub enum Takes {
    /// A value; the option must be there.
    Needed,
    /// A value; the option may be left out.
    Perhaps,
    /// A value, as often as it is given.
    Many,
    /// No value.
    Nothing,
}

/// A command's words and options, each option as often as it may be there.
pub struct Arguments {
    command: &'static Command,
    words: Vec<OsString>,
    options: Vec<(&'static str, OsString)>,
}

impl Arguments {
    pub fn parse(command: &'static Command, given: &[OsString]) -> Result<Self, Trouble> {
        let mut arguments = Self {
            command,
            words: Vec::new(),
            options: Vec::new(),
        };
        let mut given = given.iter();
        while let Some(word) = given.next() {
            if word == "--" {
                arguments.words.extend(given.by_ref().cloned());
            } else if word.as_bytes().starts_with(b"-") && word != "-" {
                arguments.add_option(word, &mut given)?;
            } else {
                arguments.words.push(word.clone());
            }
        }
        arguments.complete()
    }

    /// One option, `--name`, `--name VALUE` or `--name=VALUE`. A value does not begin with `--`: there the value is missing.
    fn add_option<'a>(&mut self, word: &OsStr, rest: &mut impl Iterator<Item = &'a OsString>) -> Result<(), Trouble> {
        let bytes = word.as_bytes();
        let (name, value) = match bytes.iter().position(|byte| *byte == b'=') {
            Some(end) => (&bytes[..end], Some(OsStr::from_bytes(&bytes[end + 1..]).to_owned())),
            None => (bytes, None),
        };
        let found = self.command.options.iter().find(|option| option.0.as_bytes() == name);
        let Some(&(name, takes)) = found else {
            return Err(self.wrong(unknown(name)));
        };
        if takes != Takes::Many && self.option(name).is_some() {
            return Err(self.wrong(format!("{name} is given twice")));
        }
        let value = match (takes, value) {
            (Takes::Nothing, None) => OsString::new(),
            (Takes::Nothing, Some(_)) => return Err(self.wrong(format!("{name} takes no value"))),
            (_, Some(value)) => value,
            (_, None) => match rest.next() {
                Some(value) if !value.as_bytes().starts_with(b"--") => value.clone(),
                _ => return Err(self.wrong(format!("{name} needs a value"))),
            },
        };
        self.options.push((name, value));
        Ok(())
    }

    /// Whether all is there that must be.
    fn complete(self) -> Result<Self, Trouble> {
        let due = self.command.words;
        if let Some(missing) = due.get(self.words.len()) {
            return Err(self.wrong(format!("{missing} is missing")));
        }
        if self.words.len() > due.len() {
            return Err(self.wrong("there is a word too many"));
        }
        for &(name, takes) in self.command.options {
            if takes == Takes::Needed && self.option(name).is_none() {
                return Err(self.wrong(format!("{name} is missing")));
            }
        }
        Ok(self)
    }

    /// Wrong usage of this command.
    pub fn wrong(&self, message: impl Into<String>) -> Trouble {
        Trouble::usage(Some(self.command), message)
    }

    /// A word that belongs to no option, from 0.
    pub fn word(&self, index: usize) -> &OsStr {
        &self.words[index]
    }

    pub fn option(&self, name: &str) -> Option<&OsStr> {
        let given = self.options.iter().find(|option| option.0 == name);
        given.map(|option| option.1.as_os_str())
    }

    pub fn all<'a>(&'a self, name: &'static str) -> impl Iterator<Item = &'a OsStr> {
        let given = self.options.iter().filter(move |option| option.0 == name);
        given.map(|option| option.1.as_os_str())
    }

    /// The value of an option that takes one and must be there.
    pub fn needed(&self, name: &str) -> Result<&OsStr, Trouble> {
        self.option(name)
            .ok_or_else(|| self.wrong(format!("{name} is missing")))
    }

    /// The number that an option has, from 0 to the largest that its type holds; `otherwise` where it is left out.
    pub fn number<T: TryFrom<u64> + Into<u64>>(
        &self,
        name: &str,
        otherwise: Option<T>,
        largest: T,
    ) -> Result<T, Trouble> {
        match (self.option(name), otherwise) {
            (Some(word), _) => {
                let number = decimal(word.as_bytes()).and_then(|number| T::try_from(number).ok());
                number.ok_or_else(|| self.wrong(format!("{name} takes a number from 0 to {}", largest.into())))
            }
            (None, Some(otherwise)) => Ok(otherwise),
            (None, None) => Err(self.wrong(format!("{name} is missing"))),
        }
    }

    /// The width that `--bits` has. Every number of 64 bits is one, though most are refused.
    pub fn width(&self) -> Result<usize, Trouble> {
        let width: u64 = self.number("--bits", None, u64::MAX)?;
        usize::try_from(width).map_err(|_| self.wrong("--bits takes a number from 1 to 64"))
    }
}

/// What is said of an option that there is not: its letters, and nothing after them, which may be a figure.
fn unknown(name: &[u8]) -> String {
    let letters = name
        .iter()
        .take_while(|byte| byte.is_ascii_alphabetic() || **byte == b'-');
    let letters: String = letters.map(|byte| char::from(*byte)).collect();
    let more = if letters.len() < name.len() { ".." } else { "" };
    format!("there is no option {letters}{more}")
}

/// A number in decimal digits, and nothing else.
pub fn decimal(word: &[u8]) -> Option<u64> {
    if word.iter().all(u8::is_ascii_digit) {
        std::str::from_utf8(word).ok()?.parse().ok()
    } else {
        None
    }
}
