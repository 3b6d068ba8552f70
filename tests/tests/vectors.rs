//! The files of cases of the test programs `vectors` and `garblings` are those made here and a few written by
//! hand, and they are held to all of them: the counts that they must print are those of these files. Of right
//! cases all must agree, and of those that are wrong on purpose none. A wrong case is a right one that was
//! changed in one field which is compared. The files of the test `lists` are made here.

use std::collections::{BTreeMap, BTreeSet};
use std::fs;

use second::vectors::files;

const TOP: &str = concat!(env!("CARGO_MANIFEST_DIR"), "/..");

/// Written by hand, from FIPS 197, RFC 4493 and 01's table.
const BY_HAND: [&str; 6] = [
    "doubling",
    "examples",
    "fips197-encryption",
    "fips197-fixed-key",
    "fips197-key-expansion",
    "fips197-words",
];

/// The functions that encipher under any key: FIPS 197's vectors run through each.
const ENCRYPTIONS: [&str; 8] = [
    " by encrypt",
    " by encrypt_pair, first block",
    " by encrypt_pair, second block",
    " by encrypt_each_under, first block",
    " by encrypt_each_under, second block",
    " by encrypt_four, each block",
    " by encrypt_four, two keys, first",
    " by encrypt_four, two keys, second",
];

/// The two forms of key expansion.
const EXPANSIONS: [&str; 2] = [" by tables", " by gates"];

/// What makes the schedule of π's key, and what holds it.
const FIXED_SCHEDULES: [&str; 3] = [" by expand_key", " by gates", " by fixed_schedule"];

/// What the names of files of wrong cases begin with.
const WRONG: &str = "wrong-";

/// The files of wrong cases, and which fields of their lines are compared, counted from 0.
const COMPARED: [(&str, &[usize]); 19] = [
    ("wrong-fips197-encryption", &[2]),
    ("wrong-fips197-key-expansion", &[1]),
    ("wrong-fips197-words", &[2]),
    ("wrong-fips197-fixed-key", &[0, 1]),
    ("wrong-doubling", &[1, 2]),
    ("wrong-sigma", &[1]),
    ("wrong-check", &[1]),
    ("wrong-plain", &[3, 4]),
    ("wrong-encode", &[5, 6]),
    ("wrong-pick", &[3, 4]),
    ("wrong-evaluate", &[4, 5]),
    ("wrong-output-tokens", &[3, 4]),
    ("wrong-decode", &[4, 5]),
    ("wrong-chain", &[4, 5, 6]),
    ("wrong-fill", &[0, 3]),
    ("wrong-clash", &[2]),
    ("wrong-zeroed", &[2]),
    ("wrong-garble", &[3, 4, 5, 6]),
    ("wrong-garble-large", &[3, 4, 5, 6]),
];

/// The lines due for a file of so many cases.
fn lines_due(name: &str, cases: usize) -> Vec<String> {
    let ways: &[&str] = match name.trim_start_matches(WRONG) {
        "fips197-encryption" => &ENCRYPTIONS,
        "fips197-key-expansion" => &EXPANSIONS,
        "fips197-fixed-key" => &FIXED_SCHEDULES,
        _ => &[""],
    };
    let agreed = if name.starts_with(WRONG) { 0 } else { cases };
    let line = |way| format!("{name}{way}: {agreed} of {cases} agree");
    ways.iter().map(line).collect()
}

#[test]
fn files_are_those_made_here() {
    for file in files() {
        let path = format!("{TOP}/{}/{}", file.folder(), file.name);
        let text = fs::read_to_string(&path).expect("a file of cases");
        assert!(text == file.text, "{path}: run vector_data");
    }
}

/// The files of a program's data, each with its text.
fn data(program: &str) -> BTreeMap<String, String> {
    let entries = fs::read_dir(format!("{TOP}/crates/{program}/data")).expect("data");
    let file = |entry: fs::DirEntry| {
        let text = fs::read_to_string(entry.path()).expect("a file of cases");
        (entry.file_name().into_string().expect("a name"), text)
    };
    entries.map(|entry| file(entry.expect("a file"))).collect()
}

#[test]
fn every_case_is_counted() {
    let mut found = Vec::new();
    for program in ["vectors", "garblings"] {
        let mut due = Vec::new();
        for (name, text) in data(program) {
            let cases = text.lines().count();
            assert!(cases > 0, "{name} has no case");
            due.extend(lines_due(&name, cases));
            found.push(name);
        }
        let stdout = format!("{TOP}/crates/{program}/stdout");
        let stdout = fs::read_to_string(stdout).expect("stdout");
        let mut lines: Vec<&str> = stdout.lines().collect();
        due.sort();
        lines.sort();
        assert_eq!(lines, due, "{program}");
    }
    let mut files = files();
    files.retain(|file| file.folder() != "tests/data");
    let made = files.iter().map(|file| file.name);
    let mut names: Vec<&str> = made.chain(BY_HAND).collect();
    found.sort();
    names.sort();
    assert_eq!(found, names);
}

/// The files that a program runs in one way. A way is what stands around the file's name in the statement of
/// `main.rt` that runs it: the function that is called, and what it is handed to run a case.
fn run_alike(program: &str) -> Vec<Vec<String>> {
    let source = format!("{TOP}/crates/{program}/src/main.rt");
    let source = fs::read_to_string(source).expect("a program");
    let code = source.lines().map(str::trim);
    let code = code.filter(|line| !line.starts_with("//"));
    let code: String = code.flat_map(str::split_whitespace).collect();
    let files = data(program);
    let mut ways: BTreeMap<String, Vec<String>> = BTreeMap::new();
    for statement in code.split([';', '{', '}']) {
        let mut parts = statement.split('"');
        if let (Some(before), Some(name), Some(after)) = (parts.next(), parts.next(), parts.next()) {
            if files.contains_key(name) {
                let way = format!("{before}{}", after.trim_end_matches('?'));
                ways.entry(way).or_default().push(name.to_string());
            }
        }
    }
    let run: usize = ways.values().map(Vec::len).sum();
    assert_eq!(run, files.len(), "{program} runs each file in one way");
    ways.into_values().collect()
}

/// The field in which two lines differ; nothing where they differ in more than one, or in none.
fn changed_field(line: &str, other: &str) -> Option<usize> {
    let (fields, others) = (line.split(' '), other.split(' '));
    if fields.clone().count() != others.clone().count() {
        return None;
    }
    let mut differ = fields.zip(others).enumerate();
    let mut next = || differ.find(|(_, (field, other))| field != other);
    let (field, _) = next()?;
    next().is_none().then_some(field)
}

/// The fields that were changed in the lines of a file of wrong cases: in each line one that is compared, and
/// all else is as in a right line.
fn changed_fields(name: &str, lines: &str, right: &[&str], compared: &[usize]) -> BTreeSet<usize> {
    let mut seen = BTreeSet::new();
    let changed = |line: &str| {
        assert!(!right.contains(&line), "{name} has a right case: {line}");
        assert!(seen.insert(line.to_string()), "{name} has it twice: {line}");
        let mut fields = right.iter().filter_map(|right| changed_field(line, right));
        let field = fields.find(|field| compared.contains(field));
        field.unwrap_or_else(|| panic!("{name} has more than one change: {line}"))
    };
    lines.lines().map(changed).collect()
}

/// Every way of running cases has wrong ones, and each of these is a right case that is run in the same way,
/// but for one field that is compared. Each such field is changed in some case.
#[test]
fn wrong_cases_are_right_ones_with_one_field_changed() {
    let mut found = 0;
    for program in ["vectors", "garblings"] {
        let files = data(program);
        for names in run_alike(program) {
            let is_wrong = |name: &&String| name.starts_with(WRONG);
            let (wrong, right): (Vec<&String>, Vec<&String>) = names.iter().partition(is_wrong);
            let &[wrong] = &wrong[..] else {
                panic!("{program} runs {wrong:?} as {right:?}: not one file of wrong cases");
            };
            let compared = COMPARED.iter().find(|(name, _)| name == wrong);
            let (name, compared) = compared.expect("a file of COMPARED");
            let right: Vec<&str> = right.iter().flat_map(|name| files[*name].lines()).collect();
            let changed = changed_fields(name, &files[wrong], &right, compared);
            assert!(changed.iter().eq(*compared), "{name}: {changed:?}");
            found += 1;
        }
    }
    assert_eq!(found, COMPARED.len());
}
