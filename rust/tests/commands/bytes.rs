//! What a command writes is byte for byte what the library's functions on slices give, over files and over `-`.

use super::places::{filled, listing_due, run_in, world};
use crate::program::calls::{calls, new_name, Call};
use crate::program::due;
use crate::program::folder::{difference, Folder};
use crate::program::process::{program, run};
use crate::program::world::World;

/// The outputs by name: wire 3, which is wire 1 AND wire 2, wire 1, and wire 3 again.
const NAMED: &[u8] = include_bytes!("../../../examples/named-outputs.circuit");

/// Exchanges of every scheme, of the smallest width, the largest, and two between, with both answers; and with hashes
/// in the material, by every scheme too.
fn worlds() -> [World; 8] {
    [
        World::new(1, [1, 0], due::SEED, 0, 1),
        World::new(8, [120, 150], due::SEED, 1, 2),
        World::new(33, [1 << 32, (1 << 32) - 1], due::SEED, u64::MAX, 3),
        World::new(64, [u64::MAX - 1, u64::MAX], due::SEED, 77, 4),
        World::hashed(1, [0, 1], due::SEED, 2, 1),
        World::hashed(7, [100, 99], due::SEED, 3, 2),
        World::hashed(8, [120, 150], due::SEED, 0, 3),
        World::hashed(9, [511, 510], due::SEED, 5, 4),
    ]
}

/// Runs the words of a call, and looks at what is printed and at every file.
fn does(world: &World, call: &Call, words: &[String], stdin: &[u8], stdout: &[u8]) {
    let folder = filled(world);
    let due = listing_due(&folder.listing(), world, call);
    let ended = run(&mut program(&folder, words), stdin);
    ended.is_done(stdout);
    assert_eq!(difference(&due, &folder.listing()), None, "{words:?}");
}

#[test]
fn over_files() {
    for world in worlds() {
        for call in calls(&world) {
            does(&world, &call, &call.words(), b"", call.prints.as_bytes());
            does(&world, &call, &call.joined_words(), b"", call.prints.as_bytes());
        }
    }
}

/// Options and words in any order are the same call.
#[test]
fn in_another_order() {
    for world in worlds() {
        for mut call in calls(&world) {
            call.arguments.reverse();
            // What is there more than once keeps its order.
            call.arguments
                .sort_by_key(|argument| ["--figure", "--tokens"].contains(&argument.option));
            let many = call
                .arguments
                .iter()
                .position(|argument| ["--figure", "--tokens"].contains(&argument.option));
            if let Some(first) = many {
                call.arguments[first..].reverse();
            }
            does(&world, &call, &call.words(), b"", call.prints.as_bytes());
        }
    }
}

#[test]
fn over_standard_input() {
    for world in worlds() {
        for call in calls(&world) {
            for (index, file) in call.all_read() {
                let over = call.over_streams(index);
                does(&world, &over, &over.words(), world.file(file), over.prints.as_bytes());
            }
        }
    }
}

#[test]
fn over_standard_output() {
    for world in worlds() {
        for call in calls(&world) {
            for (index, file) in call.all_written() {
                let over = call.over_streams(index);
                does(&world, &over, &over.words(), b"", world.file(file));
            }
        }
    }
}

#[test]
fn over_both() {
    for world in worlds() {
        for call in calls(&world) {
            for (out, written) in call.all_written() {
                for (index, read) in call.all_read() {
                    let over = call.over_streams(out).over_streams(index);
                    does(&world, &over, &over.words(), world.file(read), world.file(written));
                }
            }
        }
    }
}

/// After `--` every word is one that belongs to no option.
#[test]
fn after_two_dashes() {
    let world = world();
    let folder = filled(&world);
    folder.write("--circuit", world.file("circuit"));
    let due = due::sizes(world.file("circuit")).expect("accepted");
    run_in(&folder, &["sizes", "--", "--circuit"]).is_done(due.as_bytes());
    run_in(&folder, &["sizes", "./--circuit"]).is_done(due.as_bytes());
}

#[test]
fn a_seed_is_drawn_each_time() {
    let folder = Folder::new();
    run_in(&folder, &["seed", "--out", "one"]).is_done(b"");
    run_in(&folder, &["seed", "--out=other"]).is_done(b"");
    let printed = run_in(&folder, &["seed", "--out", "-"]);
    let [one, other] = ["one", "other"].map(|name| {
        assert_eq!(folder.mode(name), 0o600);
        folder.read(name)
    });
    assert_eq!((printed.status, printed.stderr()), (Some(0), String::new()));
    assert_eq!([one.len(), other.len(), printed.stdout.len()], [16; 3]);
    assert!(one != other && other != printed.stdout && one != printed.stdout);
    assert_eq!(folder.listing().len(), 2);
}

/// A garbling without `--run` and `--scheme` is run 0 by half-gates.
#[test]
fn what_is_left_out_is_as_the_help_says() {
    let world = world();
    let folder = filled(&world);
    let garble = [
        "garble",
        "circuit",
        "--seed",
        "seed",
        "--material",
        "m",
        "--zeros",
        "z",
        "--ones",
        "o",
    ];
    run_in(&folder, &garble).is_done(b"");
    let garbled = due::garble(world.file("circuit"), world.file("seed"), 0, 3).expect("garbled");
    assert!(folder.read("m") == garbled.material);
    assert!(folder.read("z") == garbled.zeros());
    assert!(folder.read("o") == garbled.ones);
}

/// Each run number and each scheme, with numbers at the ends of what is taken.
#[test]
fn runs_and_schemes() {
    let world = world();
    let folder = filled(&world);
    for run in [0, 1, 255, 256, 1 << 32, u64::MAX] {
        for scheme in 1..=4 {
            let [run_word, scheme_word] = [run.to_string(), scheme.to_string()];
            let mut words = vec![
                "garble",
                "circuit",
                "--seed",
                "seed",
                "--material",
                "m",
                "--zeros",
                "z",
                "--ones",
                "o",
            ];
            words.extend([
                "--all-zeros",
                "a",
                "--force",
                "--run",
                &run_word,
                "--scheme",
                &scheme_word,
            ]);
            run_in(&folder, &words).is_done(b"");
            let garbled = due::garble(world.file("circuit"), world.file("seed"), run, scheme).expect("garbled");
            let found = ["m", "z", "o", "a"].map(|name| folder.read(name));
            let zeros = garbled.zeros().to_vec();
            assert!(
                found == [garbled.material, zeros, garbled.ones, garbled.all_zeros],
                "{run} {scheme}"
            );
        }
    }
}

/// A circuit with outputs by name: as many digits as outputs, in their order, and no yes or no.
#[test]
fn outputs_by_name() {
    let folder = Folder::new();
    folder.write("circuit", NAMED);
    for values in [[0, 0], [0, 1], [1, 0], [1, 1]] {
        let garbled = due::garble(NAMED, &due::SEED, 0, 3).expect("garbled");
        let tokens = due::encode(NAMED, &values, garbled.zeros(), &garbled.ones).expect("encoded");
        folder.write("values", values);
        folder.write("material", &garbled.material);
        folder.write("tokens", &tokens);
        let bits = [values[0] & values[1], values[0], values[0] & values[1]];
        let due = due::digits(&bits);
        run_in(&folder, &["plain", "circuit", "--values", "values"]).is_done(due.as_bytes());
        let evaluate = [
            "evaluate",
            "circuit",
            "--material",
            "material",
            "--tokens",
            "tokens",
            "--out",
            "outputs",
        ];
        run_in(&folder, &[&evaluate[..], &["--force"]].concat()).is_done(b"");
        let wires = due::evaluate(NAMED, &tokens, &garbled.material).expect("evaluated");
        assert!(folder.read("outputs") == due::output_tokens(NAMED, &wires).expect("gathered"));
        let decode = ["decode", "circuit", "--material", "material", "--outputs", "outputs"];
        run_in(&folder, &decode).is_done(due.as_bytes());
        run_in(&folder, &[&decode[..], &["--out", "-"]].concat()).is_done(&bits);
        run_in(&folder, &[&decode[..], &["--yes-no"]].concat()).is_trouble(&["--yes-no"]);
    }
}

/// Tokens in one file, in two, and in one for each input.
#[test]
fn evaluate_takes_tokens_in_any_number_of_files() {
    let world = world();
    let folder = filled(&world);
    let tokens = world.file("tokens");
    for pieces in [1, 2, 3, 5, tokens.len() / 16, tokens.len()] {
        let mut words = ["evaluate", "circuit", "--material", "material", "--out", "-"]
            .map(str::to_owned)
            .to_vec();
        for (index, part) in tokens.chunks(tokens.len().div_ceil(pieces)).enumerate() {
            let name = format!("part{index}");
            folder.write(&name, part);
            words.extend(["--tokens".to_owned(), name]);
        }
        run_in(&folder, &words).is_done(world.file("outputs"));
    }
    // An empty file among them adds no token.
    folder.write("none", b"");
    let words = [
        "evaluate",
        "circuit",
        "--material",
        "material",
        "--out",
        "-",
        "--tokens",
        "none",
        "--tokens",
    ];
    run_in(&folder, &[&words[..], &["tokens"]].concat()).is_done(world.file("outputs"));
}

/// Tokens picked wire by wire, and both figures' tokens picked as one, are what encode writes.
#[test]
fn pick_of_all_wires_is_encode() {
    let world = world();
    let folder = filled(&world);
    let pick = ["pick", "--zeros", "zeros", "--ones", "ones", "--out", "-"];
    let mut tokens = Vec::new();
    for (index, bit) in world.file("values").iter().enumerate() {
        let (wire, bit) = ((index + 1).to_string(), bit.to_string());
        let ended = run_in(&folder, &[&pick[..], &["--wire", &wire, "--bit", &bit]].concat());
        assert_eq!(ended.status, Some(0));
        tokens.extend(ended.stdout);
    }
    assert!(tokens == world.file("tokens"));
    let both = format!("{}:16", world.price + (world.ceiling << 8));
    run_in(&folder, &[&pick[..], &["--wire", "1", "--figure", &both]].concat()).is_done(world.file("tokens"));
}

/// A command can replace a file that it reads: it has read it whole before it writes.
#[test]
fn an_output_in_place_of_an_input() {
    let world = world();
    let folder = filled(&world);
    let words = [
        "evaluate",
        "circuit",
        "--material",
        "material",
        "--tokens",
        "tokens",
        "--out",
        "tokens",
        "--force",
    ];
    run_in(&folder, &words).is_done(b"");
    assert!(folder.read("tokens") == world.file("outputs"));
    let names = world.files.keys().filter(|name| **name != "tokens");
    assert!(names.into_iter().all(|name| folder.read(name) == world.file(name)));
    assert!(!folder.path(new_name("outputs")).exists());
}
