//! The checks themselves: each kind of wrong run is seen.

use super::cases::{worlds, Case, Files};
use super::checks::{Checked, Run, OWNER_ALONE};
use super::files;
use super::secrets::Secrets;
use crate::program::due;
use crate::program::folder::{Entry, Listing};
use crate::program::process::Ended;
use std::ffi::OsString;
use std::os::unix::ffi::OsStringExt;

const ANY: u32 = 0o100644;

/// A run that is made up.
struct MadeUp {
    case: Case,
    ended: Ended,
    before: Listing,
    after: Listing,
}

fn listing(files: &Files) -> Listing {
    let entry = |(name, bytes): (&Vec<u8>, &Vec<u8>)| {
        let (mode, bytes) = (ANY, bytes.clone());
        (OsString::from_vec(name.clone()), Entry { mode, bytes })
    };
    files.iter().map(entry).collect()
}

impl MadeUp {
    /// A run of the first exchange with these words, which did nothing at all.
    fn of(words: &[&str], status: i32, stderr: &str) -> Self {
        let world = &worlds()[0];
        let case = Case {
            words: words.iter().map(|word| word.as_bytes().to_vec()).collect(),
            files: files::right(world),
            stdin: Vec::new(),
            figures: [world.price.to_string(), world.ceiling.to_string()],
            right: false,
        };
        let before = listing(&case.files);
        let ended = Ended {
            status: Some(status),
            signal: None,
            stdout: Vec::new(),
            stderr: stderr.as_bytes().to_vec(),
        };
        let after = before.clone();
        Self {
            case,
            ended,
            before,
            after,
        }
    }

    /// A right run of `encode`.
    fn encoded() -> Self {
        let words = [
            "encode", "circuit", "--zeros", "zeros", "--ones", "ones", "--values", "values", "--out", "new",
        ];
        let tokens = worlds()[0].file("tokens").to_vec();
        Self::of(&words, 0, "").with("new", OWNER_ALONE, tokens)
    }

    /// A right refusal, of a width.
    fn refused() -> Self {
        let refusal = due::comparator(65).unwrap_err();
        Self::of(&["comparator", "--bits", "65", "--out", "new"], 1, &due::said(refusal))
    }

    /// Right trouble.
    fn trouble() -> Self {
        Self::of(
            &["sizes", "nowhere"],
            2,
            "weighhare: cannot read the circuit, \"nowhere\"\n",
        )
    }

    /// With a file afterwards.
    fn with(mut self, name: &str, mode: u32, bytes: Vec<u8>) -> Self {
        self.after.insert(name.into(), Entry { mode, bytes });
        self
    }

    fn check(&self) -> Checked {
        let run = Run {
            case: &self.case,
            ended: &self.ended,
            before: &self.before,
            after: &self.after,
            any: ANY,
        };
        run.check(&Secrets::of(&worlds()))
    }

    /// That it is seen as wrong, for this reason.
    #[track_caller]
    fn is_seen(&self, why: &str) {
        let said = self.check().expect_err("a wrong run that is not seen");
        assert!(said.contains(why), "{said}");
    }
}

#[test]
fn right_runs_pass() {
    for run in [MadeUp::encoded(), MadeUp::refused(), MadeUp::trouble()] {
        assert_eq!(run.check(), Ok(()));
    }
}

#[test]
fn a_crash() {
    for mut run in [MadeUp::encoded(), MadeUp::refused(), MadeUp::trouble()] {
        run.ended.stderr = b"thread 'main' panicked at main.rs\n".to_vec();
        run.is_seen("panicked");
        (run.ended.status, run.ended.signal) = (None, Some(6));
        run.is_seen("signal");
        (run.ended.status, run.ended.signal, run.ended.stderr) = (Some(101), None, Vec::new());
        run.is_seen("status");
    }
}

#[test]
fn a_file_that_is_left_over_or_in_part() {
    for run in [MadeUp::refused(), MadeUp::trouble(), MadeUp::encoded()] {
        run.with(".weighhare-7-0", OWNER_ALONE, Vec::new())
            .is_seen(".weighhare-7-0");
    }
    for run in [MadeUp::refused(), MadeUp::trouble()] {
        run.with("new", OWNER_ALONE, vec![1; 20]).is_seen("\"new\" is new");
    }
    let tokens = worlds()[0].file("tokens").to_vec();
    MadeUp::encoded()
        .with("new", OWNER_ALONE, tokens[1..].to_vec())
        .is_seen("\"new\" has other bytes");
    MadeUp::encoded()
        .with("new", ANY, tokens)
        .is_seen("\"new\" has mode 100644");
    MadeUp::encoded()
        .with("zeros", ANY, vec![])
        .is_seen("\"zeros\" has other bytes");
    let mut run = MadeUp::encoded();
    run.before
        .insert("new".into(), run.after[&OsString::from("new")].clone());
    run.is_seen("replaced without --force");
    let mut run = MadeUp::encoded();
    run.after.remove(&OsString::from("seed"));
    run.is_seen("\"seed\" is gone");
    run.after.remove(&OsString::from("new"));
    run.is_seen("\"new\" is gone");
}

#[test]
fn a_secret_that_is_shown() {
    let world = &worlds()[0];
    let figure = world.price.to_string();
    let token = &world.file("ones")[48..64];
    let hex: String = token.iter().map(|byte| format!("{byte:02X}")).collect();
    for secret in [world.file("seed"), token, &world.file("wires")[..16], hex.as_bytes()] {
        for mut run in [MadeUp::encoded(), MadeUp::refused(), MadeUp::trouble()] {
            run.ended.stdout = [b"x", secret, b"\n"].concat();
            run.is_seen("a secret on standard output");
            run.ended.stdout = Vec::new();
            run.ended.stderr.extend(secret);
            run.is_seen("a secret on standard error");
        }
    }
    let mut run = MadeUp::trouble();
    run.ended.stderr.extend(figure.as_bytes());
    run.is_seen("a figure on standard error");
    run.case.words = vec![b"sizes".to_vec(), figure.clone().into_bytes()];
    assert_eq!(run.check(), Ok(()), "as a file's name it may be said");
    run.case.words = ["compare", &figure, "1", "--bits", "64"]
        .map(|word| word.as_bytes().to_vec())
        .to_vec();
    run.is_seen("a figure on standard error");
    run.ended.stdout = figure.into_bytes();
    run.is_seen("a figure on standard output");
}

#[test]
fn what_was_not_asked_for() {
    let mut run = MadeUp::encoded();
    run.ended.stdout = b"done\n".to_vec();
    run.is_seen("standard output has not what is due");
    run.ended.stdout = Vec::new();
    run.ended.stderr = b"done\n".to_vec();
    run.is_seen("a message where none is due");
    let mut run = MadeUp::trouble();
    run.ended.stdout = b"64\n".to_vec();
    run.is_seen("something on standard output");
    run.ended = Ended {
        stdout: vec![],
        stderr: vec![],
        ..run.ended
    };
    run.is_seen("no message");
    let mut run = MadeUp::refused();
    run.ended.stderr.extend(b"and more\n");
    run.is_seen("no line of a refusal");
    run.ended.stderr = due::said(due::comparator(66).unwrap_err()).into_bytes();
    run.is_seen("due is refused 21 65");
    let mut run = MadeUp::encoded();
    (run.ended.status, run.ended.stderr, run.after) = (Some(1), b"refused 9 1: no\n".to_vec(), run.before.clone());
    run.is_seen("the library does not refuse");
    run.case.right = true;
    (run.ended.status, run.ended.stderr) = (Some(2), b"weighhare: no\n".to_vec());
    run.is_seen("what is right was not done");
}
