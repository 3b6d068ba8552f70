//! Figures: `FIGURE:BITS`, `@FILE:BITS`, and what is said of those that are none. No message has a figure.

use super::places::{filled, run_untouched, world};
use crate::program::due;
use crate::program::folder::Folder;
use crate::program::process::{program, run};
use crate::program::world::World;

const PICK: [&str; 9] = [
    "pick", "--zeros", "zeros", "--ones", "ones", "--out", "-", "--wire", "1",
];

/// The tokens of the first wires for a figure.
fn tokens(world: &World, figure: u64, bits: usize) -> Vec<u8> {
    let bits = due::values(figure, bits);
    due::pick(world.file("zeros"), world.file("ones"), 1, &bits).expect("picked")
}

fn pick(folder: &Folder, figure: &str, stdin: &[u8]) -> crate::program::process::Ended {
    run(&mut program(folder, [&PICK[..], &["--figure", figure]].concat()), stdin)
}

#[test]
fn in_a_word() {
    let world = world();
    let folder = filled(&world);
    for (word, figure, bits) in [
        ("0:1", 0, 1),
        ("1:1", 1, 1),
        ("255:8", 255, 8),
        ("0255:8", 255, 8),
        ("5:16", 5, 16),
    ] {
        pick(&folder, word, b"").is_done(&tokens(&world, figure, bits));
    }
    for bits in ["08", "0000000000000000000000008"] {
        pick(&folder, &format!("5:{bits}"), b"").is_done(&tokens(&world, 5, 8));
    }
}

/// A file has the figure with white space around it, or with none.
#[test]
fn in_a_file() {
    let world = world();
    let folder = filled(&world);
    let due = tokens(&world, 150, 8);
    for text in ["150", "150\n", "150\r\n", "  150\t\n\n", "00150\n"] {
        folder.write("figure", text);
        pick(&folder, "@figure:8", b"").is_done(&due);
        pick(&folder, "@./figure:8", b"").is_done(&due);
        pick(&folder, "@-:8", text.as_bytes()).is_done(&due);
    }
    // The last colon ends the file's name.
    folder.write("a:b", "150");
    pick(&folder, "@a:b:8", b"").is_done(&due);
    // A second at sign is the file's own.
    folder.write("@a", "150");
    pick(&folder, "@@a:8", b"").is_done(&due);
}

/// Words that are no figure. A message says what a figure is.
#[test]
fn a_word_that_is_none() {
    let world = world();
    let folder = filled(&world);
    for word in [
        "",
        ":",
        ":8",
        "81726354",
        "81726354:",
        "81726354:0",
        "81726354:4097",
        "81726354:x",
        "81726354:-1",
        "81726354:+8",
        "81726354: 8",
        "81726354:8 ",
        "-81726354:32",
        "+81726354:32",
        "0x81726354:32",
        "81726354.0:32",
        "81726354 :32",
        " 81726354:32",
        "8172_6354:32",
        "81726354:32:32",
        "x:8",
        "@",
        "@price",
        "@price:",
        "@price:0",
        "@price:x",
        "81726354:18446744073709551616",
        "\u{0661}:8",
    ] {
        let words = [&PICK[..], &["--figure", word]].concat();
        let ended = run_untouched(&folder, &words);
        ended.is_trouble(&["a figure is FIGURE:BITS or @FILE:BITS", "usage: weighhare pick"]);
        assert!(!ended.stderr().contains("81726354"), "{}", ended.stderr());
    }
}

/// Figures that have more bits than they may, in words and in files.
#[test]
fn one_that_does_not_fit() {
    let world = world();
    let folder = filled(&world);
    for (figure, bits) in [
        ("2", 1),
        ("81726354", 8),
        ("81726354", 26),
        ("18446744073709551615", 63),
        ("18446744073709551616", 64),
        ("98765432109876543210", 64),
        ("18446744073709551616", 65),
        ("9876543210987654321098765432109876543210", 4096),
        ("18446744073709551616", 1),
    ] {
        folder.write("figure", figure);
        for word in [format!("{figure}:{bits}"), format!("@figure:{bits}")] {
            let ended = run_untouched(&folder, &[&PICK[..], &["--figure", &word]].concat());
            let fault = if bits > 64 {
                "has more than 64 bits"
            } else {
                "does not fit"
            };
            ended.is_trouble(&["the figure", fault]);
            assert!(
                figure.len() < 3 || !ended.stderr().contains(figure),
                "{}",
                ended.stderr()
            );
        }
    }
}

/// Files that have no figure: no message has what they have.
#[test]
fn a_file_that_has_none() {
    let world = world();
    let folder = filled(&world);
    for text in [
        "",
        "\n",
        "81726354 81726354",
        "81726354\n81726354\n",
        "x81726354",
        "-81726354",
        "+81726354",
        "0x81726354",
        "81726354.0",
    ] {
        folder.write("figure", text);
        let ended = run_untouched(&folder, &[&PICK[..], &["--figure", "@figure:32"]].concat());
        ended.is_trouble(&["figure", "no number in decimal"]);
        assert!(!ended.stderr().contains("81726354"), "{}", ended.stderr());
    }
    for bytes in [&b"\xff\xfe"[..], b"12\0", "\u{0661}".as_bytes(), world.file("zeros")] {
        folder.write("figure", bytes);
        let words = [&PICK[..], &["--figure", "@figure:32"]].concat();
        run_untouched(&folder, &words).is_trouble(&["figure", "no number in decimal"]);
    }
    for word in ["@nowhere:32", "@:32", "@.:32"] {
        let words = [&PICK[..], &["--figure", word]].concat();
        let file = format!("{:?}", &word[1..word.len() - 3]);
        run_untouched(&folder, &words).is_trouble(&["cannot read a figure", &file]);
    }
}

/// The values that figures give, in their order: several of several widths, as many as there are inputs.
#[test]
fn several_in_their_order() {
    let world = world();
    let folder = filled(&world);
    let figures = [(5, 3), (0, 1), (1000, 10), (1, 1), (1, 1)];
    let values: Vec<u8> = figures
        .iter()
        .flat_map(|(figure, bits)| due::values(*figure, *bits))
        .collect();
    let mut words = ["plain", "circuit", "--wires", "-"].map(str::to_owned).to_vec();
    for (figure, bits) in figures {
        words.extend(["--figure".to_owned(), format!("{figure}:{bits}")]);
    }
    let due = due::plain(world.file("circuit"), &values).expect("evaluated");
    run(&mut program(&folder, &words), b"").is_done(&due);
}
