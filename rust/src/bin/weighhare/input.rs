//! Files that are read, whole.

use crate::trouble::Trouble;
use std::ffi::OsStr;
use std::fs::{self, File};
use std::io::{self, Read};
use std::os::fd::AsFd;
use weighhare::Secret;

/// No file of an exchange has more than 5 MB. What has as much as this is not read to its end: it may have none.
const LONGEST: usize = 256 << 20;

/// How much is read at first where a length is not known.
const FIRST: usize = 64 << 10;

/// The files that a command reads. Standard input can be read once.
#[derive(Default)]
pub struct Input {
    took_standard_input: bool,
}

impl Input {
    /// The bytes of a file, or of standard input where it is `-`; `what` they are is for the message.
    pub fn read(&mut self, what: &str, file: &OsStr) -> Result<Vec<u8>, Trouble> {
        match usual(file) {
            Some(bytes) => Ok(bytes),
            // Anything else, and whatever went wrong, for which this has the message.
            None => self.read_secret(what, file).map(Secret::into_vec),
        }
    }

    /// As `read`, of what is secret: wiped when it is dropped, and no copy is left behind.
    pub fn read_secret(&mut self, what: &str, file: &OsStr) -> Result<Secret, Trouble> {
        if file == "-" {
            if std::mem::replace(&mut self.took_standard_input, true) {
                return Err(Trouble::Failed(format!(
                    "cannot read {what}: standard input, -, is named twice"
                )));
            }
            return standard_input().map_err(|error| unread(what, "standard input", &error));
        }
        let opened = File::open(file).and_then(|opened| {
            let length = opened.metadata()?.len();
            // One more than its length, so that the end is seen without growing.
            let first = usize::try_from(length).unwrap_or(LONGEST).saturating_add(1);
            whole(opened, first.min(LONGEST))
        });
        opened.map_err(|error| unread(what, &file.display().to_string(), &error))
    }
}

/// A file of the usual kind and length, which is no secret: read into memory that need not be zeroed first. A length of 0 is what
/// the system's own files say, of which some have no end.
fn usual(file: &OsStr) -> Option<Vec<u8>> {
    let found = fs::metadata(file).ok()?;
    let is_usual = found.is_file() && (1..LONGEST as u64).contains(&found.len());
    if file != "-" && is_usual {
        fs::read(file).ok()
    } else {
        None
    }
}

/// Standard input past the buffer that the standard library has for it, which nobody would wipe.
fn standard_input() -> io::Result<Secret> {
    let unbuffered = io::stdin().as_fd().try_clone_to_owned()?;
    whole(File::from(unbuffered), FIRST)
}

fn unread(what: &str, file: &str, error: &io::Error) -> Trouble {
    Trouble::Failed(format!("cannot read {what}, {file:?}: {error}"))
}

/// All bytes that there are. Where there are more than there is room for, they move to twice the room, and the old is wiped.
fn whole(mut from: impl Read, first: usize) -> io::Result<Secret> {
    let mut bytes = Secret::from(vec![0; first]);
    let mut length = 0;
    loop {
        if length == bytes.len() {
            if length >= LONGEST {
                return Err(io::Error::other(
                    "it has 256 MiB or more, which no file of an exchange has",
                ));
            }
            let mut larger = Secret::from(vec![0; (2 * length).clamp(FIRST, LONGEST)]);
            larger[..length].copy_from_slice(&bytes);
            bytes = larger;
        }
        match from.read(&mut bytes[length..]) {
            Ok(0) => return Ok(bytes.front(length)),
            Ok(more) => length += more,
            Err(error) if error.kind() == io::ErrorKind::Interrupted => {}
            Err(error) => return Err(error),
        }
    }
}
