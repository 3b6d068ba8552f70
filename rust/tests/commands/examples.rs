//! The examples of all helps, in the order in which they can be run, each as it is printed.

use super::help::{help, COMMANDS};
use crate::program::folder::Folder;
use crate::program::process::{run, shell, Ended};

/// The commands in the order of their examples: each needs files of those before it.
const ORDER: [&str; 10] = [
    "comparator",
    "seed",
    "garble",
    "encode",
    "pick",
    "evaluate",
    "decode",
    "plain",
    "sizes",
    "compare",
];

/// The command of a help's example, and what it prints.
fn example(help: &str) -> (String, String) {
    let (_, example) = help.split_once("\nExample:\n\n  $ ").expect("an example");
    let (command, printed) = example.split_once('\n').expect("a line");
    let lines = printed
        .lines()
        .map(|line| line.strip_prefix("  ").expect("a line of the example"));
    let printed = lines.map(|line| format!("{line}\n")).collect();
    (command.to_owned(), printed)
}

fn typed(folder: &Folder, line: &str) -> Ended {
    run(&mut shell(folder.root(), line), b"")
}

/// The price's tokens, which the example of `evaluate` reads, by the example of `pick` with another figure.
fn pick_price(folder: &Folder, example: &str) {
    let (before, after) = ["--wire 33 --figure 1500:32", "--wire 1 --figure 1200:32"].into();
    let line = example.replace(before, after).replace("ceiling.tokens", "price.tokens");
    assert!(
        line != example && line.contains(after) && line.contains("price.tokens"),
        "{line}"
    );
    typed(folder, &line).is_done(b"");
}

#[test]
fn each_example_does_what_its_help_says() {
    let folder = Folder::new();
    assert!(COMMANDS.iter().all(|command| ORDER.contains(command)));
    for command in ORDER {
        let (line, printed) = example(&help(&[command]));
        let ended = typed(&folder, &line);
        if command == "compare" {
            assert_eq!((ended.status, ended.stdout()), (Some(0), printed));
        } else {
            ended.is_done(printed.as_bytes());
        }
        if command == "pick" {
            pick_price(&folder, &line);
        }
    }
    let encoded = [folder.read("price.tokens"), folder.read("ceiling.tokens")].concat();
    assert!(folder.read("tokens") == encoded, "the examples are of one exchange");
}

#[test]
fn the_example_of_the_whole() {
    let (line, printed) = example(&help(&[]));
    let ended = typed(&Folder::new(), &line);
    assert_eq!((ended.status, ended.stdout()), (Some(0), printed));
}
