//! `--help`, `-h` and `--version`.

use super::places::run_in;
use crate::program::folder::Folder;

pub const COMMANDS: [&str; 10] = [
    "compare",
    "sizes",
    "comparator",
    "seed",
    "garble",
    "encode",
    "pick",
    "evaluate",
    "decode",
    "plain",
];

/// The help of a command, or of the whole where there is no command.
pub fn help(words: &[&str]) -> String {
    let folder = Folder::new();
    let ended = run_in(&folder, &[words, &["--help"]].concat());
    assert_eq!((ended.status, ended.stderr()), (Some(0), String::new()));
    assert!(folder.listing().is_empty());
    let short = run_in(&folder, &[words, &["-h"]].concat());
    assert_eq!(ended, short, "-h is --help");
    ended.stdout()
}

/// The options that a text names.
pub fn options(text: &str) -> Vec<&str> {
    let words = text.split(|letter: char| !letter.is_ascii_alphabetic() && letter != '-');
    words.filter(|word| word.starts_with("--") && word.len() > 2).collect()
}

#[test]
fn each_command_says_its_usage_and_an_example() {
    for command in COMMANDS {
        let help = help(&[command]);
        let (usage, rest) = help.split_once("\n\n").expect("a first paragraph");
        assert!(usage.starts_with(&format!("usage: weighhare {command} ")), "{usage}");
        assert!(
            help.contains(&format!("\nExample:\n\n  $ weighhare {command} ")),
            "{help}"
        );
        for option in options(usage) {
            assert!(
                rest.contains(&format!("\n  {option}")),
                "{command} says nothing of {option}"
            );
        }
        assert!(help.lines().all(|line| line.len() <= 132), "{command}: a line too long");
    }
}

/// The usage that is shown with a message is the first paragraph of the help.
#[test]
fn the_usage_of_a_message_is_that_of_the_help() {
    for command in COMMANDS {
        let help = help(&[command]);
        let usage = help.split("\n\n").next().expect("a first paragraph");
        let ended = run_in(&Folder::new(), &[command, "--no-such-option"]);
        ended.is_trouble(&["--no-such-option", usage, &format!("weighhare {command} --help")]);
    }
}

/// Help is given whatever else is there, and is all that happens; after `--` it is a word like any other.
#[test]
fn help_comes_first() {
    let folder = Folder::new();
    for words in [
        ["seed", "--out", "x", "--help"],
        ["seed", "-h", "--out", "x"],
        ["seed", "--nonsense", "1", "-h"],
    ] {
        assert_eq!(run_in(&folder, &words).stdout(), help(&["seed"]));
    }
    run_in(&folder, &["sizes", "--", "-h"]).is_trouble(&["-h", "No such file"]);
    assert!(folder.listing().is_empty());
}

#[test]
fn the_whole_lists_each_command() {
    let whole = help(&[]);
    assert!(whole.starts_with("usage: weighhare COMMAND"), "{whole}");
    let listed = whole
        .lines()
        .filter_map(|line| line.strip_prefix("  ")?.split(' ').next());
    let listed: Vec<&str> = listed.filter(|word| *word != "$" && *word != "yes").collect();
    assert_eq!(listed, COMMANDS);
}

#[test]
fn the_version_is_the_packages() {
    let due = format!("weighhare {}\n", env!("CARGO_PKG_VERSION"));
    run_in(&Folder::new(), &["--version"]).is_done(due.as_bytes());
}
