//! The C header and this crate say the same: the version, each refusal's name, number and words, and the names and
//! numbers of the schemes and of the material's marks.

use weighhare::{Mark, Refusal, Scheme};

const HEADER: &str = include_str!("../../include/weighhare.h");
const REFUSALS: &str = include_str!("../src/refusal.rs");

#[test]
fn one_version() {
    let line = concat!("#define WEIGHHARE_VERSION \"", env!("CARGO_PKG_VERSION"), "\"");
    assert!(HEADER.lines().any(|found| found == line), "no {line}");
}

/// The text after `start`, up to `end`.
fn between<'a>(text: &'a str, start: &str, end: &str) -> &'a str {
    let (_, after) = text.split_once(start).expect(start);
    after.split_once(end).expect(end).0
}

#[test]
fn one_list_of_refusals() {
    let refusals: Vec<_> = between(HEADER, "WEIGHHARE_DONE", "};")
        .split("WEIGHHARE_")
        .skip(1)
        .collect();
    assert_eq!(refusals.len(), 30);
    for (number, line) in (1..).zip(refusals) {
        let (name, rest) = line.split_once(" = ").expect("a number");
        let written: String = rest.chars().take_while(char::is_ascii_digit).collect();
        assert_eq!(written, number.to_string(), "{name}");

        // 2, 3, 13, 15, 23 and 28 have one place each.
        let refusal = (0..=3).find_map(|place| Refusal::from_number(number, place));
        let named = format!("{:?}", refusal.expect("a refusal"));
        let named = named.split(' ').next().expect("a name");
        assert!(named.eq_ignore_ascii_case(&name.replace('_', "")), "{named}, {name}");

        // The header may have them on two lines.
        let words: Vec<_> = between(rest, "/* ", " [").split_whitespace().collect();
        let line = format!("/// {number}: {}", words.join(" "));
        assert!(REFUSALS.contains(&line), "no {line}");
    }
}

/// The names and numbers of the header's list that begins with this name, as written there.
fn listed(first: &str) -> Vec<(&str, &str)> {
    let (_, after) = HEADER.split_once(&format!("    {first} = ")).expect(first);
    let list = after.split_once("};").expect("the list's end").0;
    let first = (first, list.split([' ', ',']).next().expect("a number"));
    let rest = list.lines().skip(1).filter_map(|line| line.trim().split_once(" = "));
    let rest = rest.map(|(name, rest)| (name, rest.split([' ', ',']).next().expect("a number")));
    [first].into_iter().chain(rest).collect()
}

/// A Rust name as the header writes it.
fn is_named(name: &str, debug: &impl std::fmt::Debug) -> bool {
    let name = name.strip_prefix("WEIGHHARE_").expect("the header's prefix");
    name.replace('_', "").eq_ignore_ascii_case(&format!("{debug:?}"))
}

#[test]
fn one_list_of_schemes_and_one_of_marks() {
    let schemes = listed("WEIGHHARE_GAX");
    assert_eq!(schemes.len(), Scheme::ALL.len());
    for ((name, number), scheme) in schemes.into_iter().zip(Scheme::ALL) {
        assert!(is_named(name, &scheme), "{name}, {scheme:?}");
        assert_eq!(number, scheme.number().to_string(), "{name}");
    }
    let marks = listed("WEIGHHARE_COLOURS");
    assert_eq!(marks.len(), Mark::ALL.len());
    for ((name, number), mark) in marks.into_iter().zip(Mark::ALL) {
        assert!(is_named(name, &mark), "{name}, {mark:?}");
        assert_eq!(number, format!("0x{:04X}", mark.number()), "{name}");
    }
}
