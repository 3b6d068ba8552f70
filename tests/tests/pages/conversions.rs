//! Where a number becomes a colour, a truth value or a wire, and one of them a number: TRACE's table of it,
//! held to the code.

use crate::page::{codes, parts, What};
use crate::source::Source;
use crate::tree::Tree;
use std::collections::{BTreeMap, BTreeSet};

/// The first row of the table.
const HEAD: [&str; 3] = ["Type", "Made of a number", "Made a number"];

/// Crates that are tests: what they do is not listed.
const TESTS: [&str; 3] = ["cases", "vectors", "garblings"];

/// What is wrong: a function that makes one of the three of a number, `Wire(..)` or `Truth { .. }`, and is not in
/// that row, or a number of one, `.0` or `.bit`, and is in no row; and one that is listed and does not.
pub fn faults(tree: &Tree, page: &str) -> Vec<String> {
    let text = tree.text(page).unwrap_or_default();
    let mut listed: BTreeMap<String, BTreeSet<String>> = BTreeMap::new();
    let mut made_numbers = BTreeSet::new();
    let mut in_table = false;
    let mut place = page.to_string();
    for part in parts(text) {
        match part.what {
            What::Head(cells) => {
                in_table = cells == HEAD;
                if in_table {
                    place = format!("{page}:{}", part.line);
                }
            }
            What::Row(cells) if in_table && cells.len() == 3 => {
                let name = names(&cells[0]).into_iter().next().unwrap_or_default();
                listed.entry(name).or_default().extend(names(&cells[1]));
                made_numbers.extend(names(&cells[2]));
            }
            _ => in_table = false,
        }
    }
    let mut faults = Vec::new();
    for kind in ["Colour", "Truth", "Wire"] {
        let found = functions(tree, |body| makes(body, kind));
        let listed = listed.get(kind).cloned().unwrap_or_default();
        compare(
            &place,
            &format!("make a {kind}"),
            &found,
            &listed,
            &mut faults,
        );
    }
    let found = functions(tree, takes_number);
    compare(
        &place,
        "take .0 or .bit",
        &found,
        &made_numbers,
        &mut faults,
    );
    faults
}

fn compare(
    place: &str,
    what: &str,
    found: &BTreeSet<String>,
    listed: &BTreeSet<String>,
    faults: &mut Vec<String>,
) {
    for name in found.difference(listed) {
        faults.push(format!(
            "{place}: `{name}` does {what}, and is not in the table"
        ));
    }
    for name in listed.difference(found) {
        faults.push(format!(
            "{place}: `{name}` is in the table, and does not {what}"
        ));
    }
}

/// The functions that a cell names: the last part of each name that is no path.
fn names(cell: &str) -> BTreeSet<String> {
    let (codes, _) = codes(cell);
    let names = codes.iter().map(|code| code.code.as_str());
    let names = names.filter(|name| !name.contains('/'));
    let last = |name: &str| name.rsplit("::").next().unwrap_or_default().to_string();
    names.map(last).collect()
}

/// Whether one of a type is made: `Wire(..)`, `Truth { .. }`.
fn makes(body: &str, kind: &str) -> bool {
    ["(", " {"].iter().any(|open| {
        let made = format!("{kind}{open}");
        let mut found = body.match_indices(&made).map(|(at, _)| &body[..at]);
        found.any(|before| !before.ends_with(|c: char| c.is_alphanumeric() || c == '_'))
    })
}

/// Whether the number is taken out of one: `w.0`, `u.bit`.
fn takes_number(body: &str) -> bool {
    [".0", ".bit"].iter().any(|number| {
        let mut found = body
            .match_indices(number)
            .map(|(at, dot)| &body[at + dot.len()..]);
        found.any(|after| !after.starts_with(|c: char| c.is_alphanumeric() || "._".contains(c)))
    })
}

/// The functions of the library of whose body this holds.
fn functions(tree: &Tree, holds: impl Fn(&str) -> bool) -> BTreeSet<String> {
    let is_test = |path: &&str| {
        TESTS
            .iter()
            .any(|name| path.starts_with(&format!("crates/{name}/")))
    };
    let files = tree.with("crates/", ".rt").filter(|path| !is_test(path));
    let mut found = BTreeSet::new();
    for path in files {
        let source = Source::of(path, tree.text(path).unwrap_or_default());
        let all = source.definitions();
        let bodies = all.filter_map(|(name, one)| Some((name, body(&one.text)?)));
        found.extend(
            bodies
                .filter(|(_, body)| holds(body))
                .map(|(name, _)| name.to_string()),
        );
    }
    found
}

/// A function's lines after its contract, without comments; none of a definition that is no function. A function
/// without a contract has its bracket at the end of a line.
fn body(text: &str) -> Option<String> {
    let first = text.lines().next()?;
    if !first.contains("fn ") {
        return None;
    }
    let own =
        |line: &str| line.len() - line.trim_start().len() == first.len() - first.trim_start().len();
    let open = |line: &&str| !(own(line) && line.ends_with('{'));
    let lines = text.lines().skip_while(open).skip(1);
    let code = lines.filter(|line| !line.trim_start().starts_with("//"));
    Some(code.collect::<Vec<_>>().join("\n"))
}

#[test]
fn conversions() {
    let code = "// a Wire(0)\npub fn read(n: u16) -> Wire\n    ensures { result.0 ≡ n }\n{\n    Wire(n)\n}\n\npub fn place(w: Wire) -> usize\n    requires low { 1 ≤ w.0 }\n    requires high { w.0 ≤ 9 }\n    ensures { result ≡ w.0 }\n{\n    PickWire(w);\n    w.0 as usize\n}\n";
    let table = "| Type | Made of a number | Made a number |\n|---|---|---|\n| `Wire` | of n: `read` of `crates/a` | a place: `place` |\n";
    let count = |page: &str, code: &str| {
        let tree = Tree::made(&[("A.md", page), ("crates/a/src/lib.rt", code)]);
        faults(&tree, "A.md").len()
    };
    assert_eq!(count(table, code), 0);
    assert_eq!(count(&table.replace("`read`", "`reed`"), code), 2);
    assert_eq!(count(&table.replace("`place`", ""), code), 1);
    assert_eq!(count(table, &code.replace("w.0 as", "0 as")), 1);
    let without = code.replace("\n    ensures { result.0 ≡ n }\n{\n", " {\n");
    assert_eq!((count(table, &without), count("", &without)), (0, 2));
    assert_eq!(count("", code), 2);
    let bits = code.replace("    Wire(n)", "    Truth { bit: n }");
    let bits = bits.replace("w.0 as", "w.bit as").replace("w.0", "w");
    assert_eq!(count(&table.replace("`Wire`", "`Truth`"), &bits), 0);
    assert_eq!((count(table, &bits), count("", &bits)), (2, 2));
}
