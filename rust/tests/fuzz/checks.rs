//! What must hold of every run, whatever it was given.

use super::cases::Case;
use super::oracle::{due, parse, plain_name, Done, Parsed, WRITES};
use super::secrets::{has, is_out_of_place, may_be_printed, Secrets};
use crate::program::due::said;
use crate::program::folder::{difference, Entry, Listing};
use crate::program::process::Ended;
use std::ffi::{OsStr, OsString};
use std::os::unix::ffi::OsStringExt;

/// The mode of a file for its owner alone.
pub const OWNER_ALONE: u32 = 0o100600;

/// A run: what it was given, how it ended, and the folder before and after.
pub struct Run<'a> {
    pub case: &'a Case,
    pub ended: &'a Ended,
    pub before: &'a Listing,
    pub after: &'a Listing,
    /// The mode that a file has which anybody makes here.
    pub any: u32,
}

/// Says what does not hold.
pub type Checked = Result<(), String>;

fn must(holds: bool, otherwise: &str) -> Checked {
    holds.then_some(()).ok_or_else(|| otherwise.to_owned())
}

impl Run<'_> {
    pub fn check(&self, secrets: &Secrets) -> Checked {
        must(self.ended.signal.is_none(), "a signal ended it")?;
        must(!has(&self.ended.stderr, b"panicked"), "it panicked")?;
        self.shows_no_secret(secrets)?;
        match self.ended.status {
            Some(0) => self.done(),
            Some(1) => self.refused(),
            Some(2) => self.trouble(),
            _ => Err("the status is none of 0, 1 and 2".to_owned()),
        }?;
        must(
            !self.case.right || self.ended.status == Some(0),
            "what is right was not done",
        )
    }

    fn shows_no_secret(&self, secrets: &Secrets) -> Checked {
        let Ended { stdout, stderr, .. } = self.ended;
        must(!secrets.is_in(stderr), "a secret on standard error")?;
        must(
            may_be_printed(self.case) || !secrets.is_in(stdout),
            "a secret on standard output",
        )?;
        for figure in &self.case.figures {
            must(!has(stdout, figure.as_bytes()), "a figure on standard output")?;
            let shown = has(stderr, figure.as_bytes()) && !is_out_of_place(self.case, figure);
            must(!shown, "a figure on standard error")?;
        }
        Ok(())
    }

    fn is_untouched(&self) -> Checked {
        match difference(self.before, self.after) {
            Some(said) => Err(format!("the folder is not as it was: {said}")),
            None => Ok(()),
        }
    }

    /// Status 2: a message, and nothing else.
    fn trouble(&self) -> Checked {
        must(!self.ended.stderr.is_empty(), "status 2, and no message")?;
        must(
            self.ended.stdout.is_empty(),
            "status 2, and something on standard output",
        )?;
        self.is_untouched()
    }

    /// Status 1: the refusal that the library gives, and nothing else.
    fn refused(&self) -> Checked {
        let stderr = self.ended.stderr();
        must(
            stderr.starts_with("refused ") && stderr.lines().count() == 1 && stderr.ends_with('\n'),
            "no line of a refusal",
        )?;
        must(
            self.ended.stdout.is_empty(),
            "refused, and something on standard output",
        )?;
        let parsed = parse(&self.case.words).ok_or("refused, but the words are no call")?;
        match due(self.case, &parsed) {
            Some(Err(refusal)) => must(stderr == said(refusal), &format!("due is {}", said(refusal)))?,
            _ => return Err("the library does not refuse".to_owned()),
        }
        self.is_untouched()
    }

    /// Status 0: help or a version, or what the library gives.
    fn done(&self) -> Checked {
        let options = self.case.words.iter().take_while(|word| *word != b"--");
        let help = options
            .into_iter()
            .any(|word| [&b"--help"[..], b"-h", b"--version"].contains(&word.as_slice()));
        if help && (self.ended.stdout.starts_with(b"usage: ") || self.ended.stdout.starts_with(b"weighhare ")) {
            must(self.ended.stderr.is_empty(), "a message beside the help")?;
            return self.is_untouched();
        }
        let parsed = parse(&self.case.words).ok_or("done, but the words are no call")?;
        let reports = parsed.command == "compare";
        must(
            reports != self.ended.stderr.is_empty(),
            "a message where none is due, or none where one is",
        )?;
        match due(self.case, &parsed) {
            Some(Ok(done)) => self.did(&parsed, &done),
            _ => Err("done, but the library refuses".to_owned()),
        }
    }

    /// Every output that was named has its bytes and its rights, and nothing else changed.
    fn did(&self, parsed: &Parsed, done: &Done) -> Checked {
        let mut due = self.before.clone();
        let mut printed = Some(done.printed.clone().into_bytes());
        for (option, bytes) in &done.written {
            match parsed.option(option) {
                Some(b"-") => printed.clone_from(bytes),
                Some(name) => {
                    let name = OsString::from_vec(plain_name(name).to_vec());
                    let kept = due.contains_key(&name) && parsed.option("--force").is_none();
                    must(!kept, "a file was replaced without --force")?;
                    let secret = WRITES.contains(&(parsed.command, option, true));
                    let entry = self.output_due(&name, bytes.as_ref(), secret)?;
                    due.insert(name, entry);
                }
                None => {}
            }
        }
        let right = printed.map_or(self.ended.stdout.len() == 16, |printed| printed == self.ended.stdout);
        must(right, "standard output has not what is due")?;
        match difference(&due, self.after) {
            Some(said) => Err(format!("the folder has not what is due: {said}")),
            None => Ok(()),
        }
    }

    /// What an output must be. The bytes of a seed that was drawn are those that are there, if they are 16.
    fn output_due(&self, name: &OsStr, bytes: Option<&Vec<u8>>, secret: bool) -> Result<Entry, String> {
        let drawn = || {
            self.after
                .get(name)
                .map(|entry| &entry.bytes)
                .filter(|seed| seed.len() == 16)
        };
        let bytes = bytes.or_else(drawn).ok_or("a seed that has not 16 bytes")?.clone();
        let mode = if secret { OWNER_ALONE } else { self.any };
        Ok(Entry { mode, bytes })
    }
}
