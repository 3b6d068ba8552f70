//! Standard output that takes nothing: trouble, no crash, and no file written.

use super::help::COMMANDS;
use super::places::{filled, world};
use crate::program::calls::calls;
use crate::program::folder::{difference, Folder};
use crate::program::process::{program, run, run_to, shell};
use std::fs::File;
use std::io::{self, PipeWriter, Write};
use std::process::Stdio;
use std::thread;

/// Every call that prints, or writes an output to standard output, as words.
fn printing() -> Vec<Vec<String>> {
    let mut all = Vec::new();
    for call in calls(&world()) {
        all.extend((!call.prints.is_empty()).then(|| call.words()));
        let written = call.all_written().into_iter();
        all.extend(written.map(|(index, _)| call.over_streams(index).words()));
    }
    let more = [&["seed", "--out", "-"][..], &["--help"], &["--version"]];
    all.extend(more.map(|words| words.iter().map(|word| (*word).to_owned()).collect()));
    all.extend(COMMANDS.map(|command| vec![command.to_owned(), "--help".to_owned()]));
    all
}

/// Each run must say that standard output is the trouble, and leave the folder as it was.
fn each_is_trouble(mut stdout: impl FnMut() -> Stdio, why: &str) {
    let folder = filled(&world());
    let before = folder.listing();
    for words in printing() {
        let ended = run_to(&mut program(&folder, &words), b"", stdout());
        ended.is_trouble(&["standard output", why]);
        assert_eq!(difference(&before, &folder.listing()), None, "{words:?}");
    }
}

#[test]
fn a_full_device() {
    let full = || File::options().write(true).open("/dev/full").expect("the full device");
    each_is_trouble(|| full().into(), "No space left");
}

/// The writing end of a pipe that nobody reads. A process that another test starts may have the reading end too, until it runs its
/// own program: so this waits for it.
fn closed_pipe() -> PipeWriter {
    let (reader, mut writer) = io::pipe().expect("a pipe");
    drop(reader);
    while writer.write(&[0]).is_ok() {
        thread::yield_now();
    }
    writer
}

#[test]
fn a_closed_pipe() {
    each_is_trouble(|| closed_pipe().into(), "Broken pipe");
}

/// Bytes do not go to a terminal; text does. The master of a new terminal counts as one.
#[test]
fn a_terminal() {
    let Ok(terminal) = File::options().read(true).write(true).open("/dev/ptmx") else {
        return;
    };
    let stdout = || Stdio::from(terminal.try_clone().expect("another handle"));
    let folder = filled(&world());
    let before = folder.listing();
    for call in calls(&world()) {
        for (index, _) in call.all_written() {
            let words = call.over_streams(index).words();
            let ended = run_to(&mut program(&folder, &words), b"", stdout());
            ended.is_trouble(&[call.arguments[index].option, "terminal"]);
            assert_eq!(difference(&before, &folder.listing()), None, "{words:?}");
        }
    }
    let ended = run_to(&mut program(&folder, ["sizes", "circuit"]), b"", stdout());
    assert_eq!((ended.status, ended.stderr()), (Some(0), String::new()));
}

/// Where a message cannot be written, the status is the same.
#[test]
fn standard_error_that_takes_nothing() {
    let folder = Folder::new();
    for (line, status) in [
        ("weighhare compare 2 1 --bits 8 2>/dev/full", 0),
        ("weighhare compare 2 1 --bits 65 2>/dev/full", 1),
        ("weighhare compare 2 1 --bits x 2>/dev/full", 2),
        ("weighhare compare 2 1 --bits 8 2>&-", 0),
        ("weighhare sizes nowhere 2>&-", 2),
    ] {
        let ended = run(&mut shell(folder.root(), line), b"");
        let printed = if status == 0 { "no\n" } else { "" };
        assert_eq!(
            (ended.status, ended.stdout().as_str()),
            (Some(status), printed),
            "{line}"
        );
    }
}

/// Standard input that is closed has no bytes.
#[test]
fn standard_input_that_is_closed() {
    let folder = Folder::new();
    let ended = run(&mut shell(folder.root(), "weighhare sizes - <&-"), b"");
    ended.is_refused("refused 1 0: the circuit has 0 bytes, a header needs 8\n");
}

/// What the shell writes to a file is what goes to standard output, to its last byte.
#[test]
fn to_a_file_by_the_shell() {
    let world = world();
    let folder = filled(&world);
    let line = "weighhare evaluate circuit --material material --tokens tokens --out - >outputs.shell";
    run(&mut shell(folder.root(), line), b"").is_done(b"");
    assert!(folder.read("outputs.shell") == world.file("outputs"));
    let line = "weighhare garble circuit --seed seed --material - --zeros z --ones o | cat >material.shell";
    run(&mut shell(folder.root(), line), b"").is_done(b"");
    assert!(folder.read("material.shell") == world.file("material"));
}
