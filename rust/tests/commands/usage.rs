//! Wrong usage: status 2, a message that names what is wrong, and no file touched.

use super::help::{help, options, COMMANDS};
use super::places::{and, filled, run_in, run_untouched, world};
use crate::program::calls::{calls, Call, Value};
use crate::program::folder::Folder;
use std::collections::BTreeSet;

/// What may be left out of a call that is right, so that another is right.
const OPTIONAL: [(&str, &str); 8] = [
    ("garble", "--run"),
    ("garble", "--scheme"),
    ("garble", "--hashed"),
    ("garble", "--all-zeros"),
    ("evaluate", "--wires"),
    ("decode", "--yes-no"),
    ("decode", "--out"),
    ("plain", "--wires"),
];

/// What may be there more than once.
const MANY: [&str; 2] = ["--figure", "--tokens"];

/// The commands whose `--figure` may be there more than once.
fn may_repeat(call: &Call, option: &str) -> bool {
    MANY.contains(&option) && call.command != "pick"
}

#[test]
fn no_command_and_no_such_command() {
    let folder = Folder::new();
    run_untouched::<&str>(&folder, &[]).is_trouble(&["a command is missing", "weighhare --help"]);
    for word in [
        "",
        "nonsense",
        "Compare",
        "compare ",
        "help",
        "-",
        "--",
        "-V",
        "--helpme",
        "--version=1",
        "seeds",
    ] {
        run_untouched(&folder, &[word]).is_trouble(&["there is no such command", "weighhare --help"]);
    }
}

#[test]
fn an_option_or_a_word_is_missing() {
    let world = world();
    let folder = filled(&world);
    for call in calls(&world) {
        for index in 0..call.arguments.len() {
            let option = call.arguments[index].option;
            let mut less = call.clone();
            less.arguments.remove(index);
            let repeated = less.arguments.iter().any(|argument| argument.option == option);
            if repeated || OPTIONAL.contains(&(call.command, option)) {
                continue;
            }
            let named = if option.is_empty() {
                "CIRCUIT is missing"
            } else {
                option
            };
            run_untouched(&folder, &less.words()).is_trouble(&[named, call.command, "usage: "]);
        }
    }
    run_untouched(&folder, &["seed"]).is_trouble(&["--out is missing"]);
    run_untouched(&folder, &["compare", "1", "2"]).is_trouble(&["--bits is missing"]);
    run_untouched(&folder, &["compare", "1", "--bits", "8"]).is_trouble(&["CEILING is missing"]);
    run_untouched(&folder, &["compare", "--bits", "8"]).is_trouble(&["PRICE is missing"]);
}

#[test]
fn an_option_that_there_is_not() {
    let world = world();
    let folder = filled(&world);
    for call in calls(&world) {
        for option in ["--colour", "-x", "--Out", "--ou", "---"] {
            run_untouched(&folder, &and(&call.words(), &[option])).is_trouble(&[&format!("no option {option}")]);
            let valued = format!("{option}=1");
            run_untouched(&folder, &and(&call.words(), &[&valued])).is_trouble(&[&format!("no option {option}")]);
        }
    }
}

/// The options of one command are not those of another: as its usage has them.
#[test]
fn an_option_of_another_command() {
    let world = world();
    let folder = filled(&world);
    let helps = COMMANDS.map(|command| (command, help(&[command])));
    let own = |help: &str| -> BTreeSet<String> {
        let usage = help.split("\n\n").next().expect("a first paragraph");
        options(usage).into_iter().map(str::to_owned).collect()
    };
    let all: BTreeSet<String> = helps.iter().flat_map(|(_, help)| own(help)).collect();
    assert!(all.len() > 15, "{all:?}");
    for (command, help) in &helps {
        for option in all.difference(&own(help)) {
            let words = [*command, option, "1"];
            run_untouched(&folder, &words).is_trouble(&[&format!("there is no option {option}"), command]);
        }
    }
}

#[test]
fn an_option_twice() {
    let world = world();
    let folder = filled(&world);
    for call in calls(&world) {
        for argument in call.arguments.iter().filter(|argument| !argument.option.is_empty()) {
            if may_repeat(&call, argument.option) {
                continue;
            }
            let twice = call.clone().with(argument.option, argument.value.clone());
            let named = format!("{} is given twice", argument.option);
            run_untouched(&folder, &twice.words()).is_trouble(&[&named]);
            run_untouched(&folder, &twice.joined_words()).is_trouble(&[&named]);
        }
    }
    run_untouched(&folder, &["seed", "--out", "x", "--force", "--force"]).is_trouble(&["--force is given twice"]);
}

/// An option's value does not begin with two dashes, unless it stands after an equals sign.
#[test]
fn an_option_without_its_value() {
    let world = world();
    let folder = filled(&world);
    for call in calls(&world) {
        for index in 0..call.arguments.len() {
            let argument = &call.arguments[index];
            if argument.option.is_empty() || argument.value.word().is_none() {
                continue;
            }
            let mut without = call.clone();
            without.arguments.remove(index);
            let named = format!("{} needs a value", argument.option);
            run_untouched(&folder, &and(&without.words(), &[argument.option])).is_trouble(&[&named]);
            run_untouched(&folder, &and(&without.words(), &[argument.option, "--force"])).is_trouble(&[&named]);
            run_untouched(&folder, &and(&without.words(), &[argument.option, "--"])).is_trouble(&[&named]);
        }
    }
    run_in(&folder, &["seed", "--out=--force"]).is_done(b"");
    assert_eq!(folder.read("--force").len(), 16);
}

#[test]
fn a_value_for_an_option_that_takes_none() {
    let world = world();
    let folder = filled(&world);
    run_untouched(&folder, &["seed", "--out", "x", "--force=1"]).is_trouble(&["--force takes no value"]);
    let decode = [
        "decode",
        "circuit",
        "--material",
        "material",
        "--outputs",
        "outputs",
        "--yes-no=",
    ];
    run_untouched(&folder, &decode).is_trouble(&["--yes-no takes no value"]);
}

#[test]
fn a_word_too_many() {
    let world = world();
    let folder = filled(&world);
    for call in calls(&world) {
        for word in ["circuit", "-", "", "1234567"] {
            run_untouched(&folder, &and(&call.words(), &[word])).is_trouble(&["there is a word too many"]);
            run_untouched(&folder, &and(&call.words(), &["--", word])).is_trouble(&["there is a word too many"]);
        }
    }
    run_untouched(&folder, &["compare", "1", "2", "3", "--bits", "8"]).is_trouble(&["there is a word too many"]);
    run_untouched(&folder, &["seed", "x", "--out", "y"]).is_trouble(&["there is a word too many"]);
}

/// Words that are no number of at most 64 bits in decimal.
const NO_NUMBERS: [&str; 14] = [
    "",
    "x",
    "1x",
    "-1",
    "+1",
    "1.0",
    "1e1",
    "0x1",
    " 1",
    "1 ",
    "1_0",
    "\u{0661}",
    "18446744073709551616",
    "99999999999999999999999999",
];

/// Runs a call with another value for an option.
fn with_number(folder: &Folder, call: &Call, option: &str, number: &str) {
    let mut call = call.clone();
    let argument = call.arguments.iter_mut().find(|argument| argument.option == option);
    argument.expect("the option").value = Value::Text(number.to_owned());
    let named = format!("{option} takes a number from 0 to ");
    run_untouched(folder, &call.words()).is_trouble(&[&named]);
    run_untouched(folder, &call.joined_words()).is_trouble(&[&named]);
}

#[test]
fn a_number_that_is_none() {
    let world = world();
    let folder = filled(&world);
    let compare = Call::of("compare")
        .text("", 1)
        .text("", 2)
        .text("--bits", 8)
        .text("--run", 0);
    let mut calls = calls(&world);
    calls.push(compare.text("--scheme", 3));
    let mut tried = 0;
    for call in calls {
        for option in ["--bits", "--run", "--scheme", "--wire", "--bit"] {
            if !call.arguments.iter().any(|argument| argument.option == option) {
                continue;
            }
            tried += 1;
            let past = match option {
                "--wire" => &["65536", "4294967296"][..],
                "--scheme" | "--bit" => &["256", "65536"],
                _ => &[],
            };
            for number in NO_NUMBERS.iter().chain(past) {
                with_number(&folder, &call, option, number);
            }
        }
    }
    assert_eq!(tried, 12);
}

/// Zeros in front of a number are no fault.
#[test]
fn a_number_with_zeros_in_front() {
    let folder = Folder::new();
    run_in(
        &folder,
        &["comparator", "--bits", "0000000000000000000000008", "--out", "x"],
    )
    .is_done(b"");
    assert_eq!(folder.read("x").len(), 28 * 8 - 13);
}

/// What excludes each other: values and figures, a bit and a figure, yes or no and a file.
#[test]
fn both_of_two_that_exclude_each_other() {
    let world = world();
    let folder = filled(&world);
    for call in calls(&world) {
        let more: &[&str] = match call.command {
            "encode" | "plain" if call.words().contains(&"--values".to_owned()) => &["--figure", "1:8"],
            "encode" | "plain" => &["--values", "values"],
            "pick" if call.words().contains(&"--bit".to_owned()) => &["--figure", "1:8"],
            "pick" => &["--bit", "1"],
            "decode" if call.words().contains(&"--out".to_owned()) => &["--yes-no"],
            _ => continue,
        };
        run_untouched(&folder, &and(&call.words(), more)).is_trouble(&[more[0], "usage: "]);
    }
}

/// Words that are no text: they are no command and no option, and no message has their bytes.
#[test]
fn words_that_are_no_text() {
    use std::ffi::OsStr;
    use std::os::unix::ffi::OsStrExt;
    let folder = Folder::new();
    let bad = OsStr::from_bytes(b"--\xff\xfe");
    let [seed, out, name] = ["seed", "--out", "x"].map(OsStr::new);
    run_untouched(&folder, &[bad]).is_trouble(&["there is no such command"]);
    run_untouched(&folder, &[seed, bad]).is_trouble(&["there is no option"]);
    run_untouched(&folder, &[seed, out, bad]).is_trouble(&["--out needs a value"]);
    let word = OsStr::from_bytes(b"\xff");
    run_untouched(&folder, &[seed, out, name, word]).is_trouble(&["there is a word too many"]);
    let bits = [OsStr::new("comparator"), OsStr::new("--bits"), word, out, name];
    run_untouched(&folder, &bits).is_trouble(&["--bits takes a number"]);
}
