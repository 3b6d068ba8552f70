//! `compare`, over every scheme and every width: the answer, what is said of the way to it, and what is refused. Each run is a
//! process of its own.

mod program;

use program::due::{self, answer, SEED};
use program::folder::Folder;
use program::process::{program, run, Ended};
use program::random::{variable, Random};
use std::collections::BTreeSet;
use std::thread;

/// A name for each scheme, by its number, and its rows for each charged gate.
const SCHEMES: [(&str, usize); 4] = [("GaX", 4), ("GaXR", 3), ("half-gates", 2), ("re-keyed half-gates", 2)];

/// The largest figure of a width.
fn most(width: usize) -> u64 {
    u64::MAX >> (64 - width)
}

/// Figures of a width: at the ends, equal, beside each other, and at random.
fn pairs(width: usize, random: &mut Random) -> Vec<[u64; 2]> {
    let most = most(width);
    let mut figure = || random.number() & most;
    let (one, other, third) = (figure(), figure(), figure());
    let mut pairs = vec![
        [0, 0],
        [0, most],
        [most, 0],
        [most, most],
        [most - 1, most],
        [most, most - 1],
    ];
    pairs.extend([[one, other], [other, one], [third, third], [one, most], [most, one]]);
    // The same bits but for one, by which they differ.
    let bit = 1 << (third % width as u64);
    pairs.extend([[third & !bit, third | bit], [third | bit, third & !bit]]);
    pairs
}

/// Runs compare with these figures and this width, and what more is said.
fn compare(folder: &Folder, [price, ceiling]: [u64; 2], width: usize, more: &[&str], stdin: &[u8]) -> Ended {
    let words = [
        "compare".to_owned(),
        price.to_string(),
        ceiling.to_string(),
        "--bits".to_owned(),
        width.to_string(),
    ];
    run(program(folder, &words).args(more), stdin)
}

/// The last line that is printed must be the answer. Gives what was said of the way to it.
fn answers(ended: &Ended, figures: [u64; 2], width: usize) -> String {
    let [price, ceiling] = figures;
    assert_eq!(ended.status, Some(0), "{width} bits: {figures:?}, {}", ended.stderr());
    let last = ended.stdout().split_inclusive('\n').next_back().map(str::to_owned);
    assert_eq!(
        last.as_deref(),
        Some(answer(price <= ceiling)),
        "{width} bits: {figures:?}"
    );
    ended.stderr()
}

/// The numbers on the line of a text that begins so.
fn numbers(text: &str, begins: &str) -> Vec<usize> {
    let mut lines = text.lines().filter(|line| line.starts_with(begins));
    let line = lines.next().unwrap_or_else(|| panic!("no line {begins}: {text}"));
    assert_eq!(lines.next(), None, "one line {begins}");
    let words = line.split(|letter: char| !letter.is_ascii_digit());
    words.filter_map(|word| word.parse().ok()).collect()
}

/// What must be said: the sizes of the circuit and of the material, and the calls, as they are defined.
fn must_be_said(said: &str, width: usize, scheme: usize) {
    let (name, rows) = SCHEMES[scheme - 1];
    let material = 11 + 1 + width * (4 + 16 * rows);
    let evaluated = if scheme < 3 { width } else { 2 * width };
    assert_eq!(numbers(said, "circuit: "), [4 * width - 3, width, width], "{said}");
    assert_eq!(numbers(said, "garbled "), [scheme, material, 4 * width], "{said}");
    assert_eq!(numbers(said, "evaluated: "), [evaluated], "{said}");
    for words in [
        &format!("scheme {scheme}, {name}: "),
        " of them charged",
        " bytes of material",
        " calls of AES",
    ] {
        assert!(said.contains(words), "no {words:?}: {said}");
    }
}

/// All figures of one width and one scheme. What is said is the same for all of them: so it shows none.
fn at(folder: &Folder, width: usize, scheme: usize, random: &mut Random) -> usize {
    let number = scheme.to_string();
    let pairs = pairs(width, random);
    let said: BTreeSet<String> = pairs
        .iter()
        .map(|figures| {
            answers(
                &compare(folder, *figures, width, &["--scheme", &number], b""),
                *figures,
                width,
            )
        })
        .collect();
    assert_eq!(said.len(), 1, "what is said shows a figure: {said:?}");
    let said = said.first().expect("what is said");
    must_be_said(said, width, scheme);
    assert!(
        said.contains("drawn for this rehearsal") && said.contains("run 0"),
        "{said}"
    );
    pairs.len()
}

#[test]
fn every_scheme_and_every_width() {
    let seed = variable("WEIGHHARE_SEED", 1);
    let worker = |first: usize| {
        let folder = Folder::new();
        let mut random = Random::new(seed + first as u64);
        let widths = (1..=64).filter(|width| width % 2 == first);
        let runs = widths.flat_map(|width| (1..=4).map(move |scheme| (width, scheme)));
        let runs: usize = runs
            .map(|(width, scheme)| at(&folder, width, scheme, &mut random))
            .sum();
        assert!(folder.listing().is_empty(), "compare writes no file");
        runs
    };
    let runs = thread::scope(|scope| {
        let workers = [0, 1].map(|first| scope.spawn(move || worker(first)));
        workers
            .map(|worker| worker.join().expect("a worker"))
            .iter()
            .sum::<usize>()
    });
    assert_eq!(runs, 64 * 4 * 13);
}

/// Half-gates, where no scheme is said.
#[test]
fn without_a_scheme() {
    let ended = compare(&Folder::new(), [1200, 1500], 16, &[], b"");
    let said = answers(&ended, [1200, 1500], 16);
    must_be_said(&said, 16, 3);
    assert_eq!(ended.stdout(), "yes\n", "the answer, and nothing else");
}

/// Figures with zeros in front are the same figures.
#[test]
fn with_zeros_in_front() {
    let folder = Folder::new();
    for (words, due) in [
        (["00000000000000000000000007", "7"], "yes\n"),
        (["010", "0009"], "no\n"),
    ] {
        let ended = run(
            &mut program(&folder, ["compare", words[0], words[1], "--bits", "8"]),
            b"",
        );
        assert_eq!((ended.status, ended.stdout().as_str()), (Some(0), due));
    }
}

/// A figure of one bit more than the width, on either side; and of more than 64 bits.
#[test]
fn figures_that_do_not_fit() {
    let folder = Folder::new();
    for width in 1..=64 {
        let past = (1_u128 << width).to_string();
        let long = "98765432109876543210987654321";
        for figure in [&past, long] {
            for [price, ceiling] in [[figure, "0"], ["0", figure], [figure, figure]] {
                let words = ["compare", price, ceiling, "--bits", &width.to_string()];
                let ended = run(&mut program(&folder, words), b"");
                ended.is_trouble(&["the figure does not fit", &width.to_string()]);
                assert!(
                    figure.len() < 4 || !ended.stderr().contains(figure),
                    "{}",
                    ended.stderr()
                );
            }
        }
    }
}

#[test]
fn words_that_are_no_figure() {
    let folder = Folder::new();
    for word in [
        "",
        "x",
        "81726354x",
        "+81726354",
        "0x81726354",
        "81726354.0",
        "81726354 ",
        "@price",
        "81726354:32",
        "\u{0661}",
    ] {
        for words in [[word, "1"], ["1", word]] {
            let ended = run(
                &mut program(&folder, ["compare", words[0], words[1], "--bits", "32"]),
                b"",
            );
            ended.is_trouble(&["a figure is a number in decimal", "usage: weighhare compare"]);
            assert!(!ended.stderr().contains("81726354"), "{}", ended.stderr());
        }
    }
    // What begins with a dash is an option that there is not, and is not said to its end.
    let ended = run(
        &mut program(&folder, ["compare", "-81726354", "1", "--bits", "32"]),
        b"",
    );
    ended.is_trouble(&["there is no option"]);
    assert!(!ended.stderr().contains("81726354"), "{}", ended.stderr());
}

#[test]
fn widths_that_are_refused() {
    let folder = Folder::new();
    for width in [0, 65, 66, 100, 128, 4096, 1 << 32, usize::MAX] {
        let due = due::said(due::comparator(width).unwrap_err());
        assert!(due.starts_with(&format!("refused 21 {width}: ")), "{due}");
        compare(&folder, [1, 2], width, &[], b"").is_refused(&due);
    }
}

/// With a seed and a run number, out of a file and over standard input: said is that it was given, and nothing of its bytes.
#[test]
fn with_a_seed_and_a_run_number() {
    let folder = Folder::new();
    folder.write("seed", SEED);
    let mut random = Random::new(variable("WEIGHHARE_SEED", 3));
    for width in [1, 8, 32, 64] {
        for run in [0, 1, 77, u64::MAX] {
            let number = run.to_string();
            let pairs = pairs(width, &mut random);
            for (index, figures) in pairs.into_iter().enumerate() {
                let scheme = (index % 4 + 1).to_string();
                let file = ["--seed", "seed", "--run", &number, "--scheme", &scheme];
                let said = answers(&compare(&folder, figures, width, &file, b""), figures, width);
                must_be_said(&said, width, index % 4 + 1);
                assert!(
                    said.contains(&format!("run {run}\n")) && !said.contains("drawn"),
                    "{said}"
                );
                let stream = ["--seed=-", "--run", &number, "--scheme", &scheme];
                let again = answers(&compare(&folder, figures, width, &stream, &SEED), figures, width);
                assert_eq!(said, again);
            }
        }
    }
    assert_eq!(folder.listing().len(), 1, "compare writes no file");
}

/// Nothing that is said has a figure of 20 digits, or the seed.
#[test]
fn no_figure_and_no_seed_is_said() {
    let folder = Folder::new();
    folder.write("seed", SEED);
    let figures = [17_846_153_902_468_013_579, 18_305_791_246_801_357_924];
    let hex: String = SEED.iter().map(|byte| format!("{byte:02x}")).collect();
    for more in [&[][..], &["--seed", "seed"]] {
        let ended = compare(&folder, figures, 64, more, b"");
        let said = answers(&ended, figures, 64) + &ended.stdout();
        for secret in [figures[0].to_string(), figures[1].to_string(), hex.clone()] {
            assert!(!said.contains(&secret), "{said}");
            assert!(!said.contains(&secret[..8]), "not its beginning either: {said}");
        }
    }
}
