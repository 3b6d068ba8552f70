//! The names that a page cites, each looked for where the page says that it stands.
//!
//! A name stands in the file, folder or crate named with it in its cell, else in one named above it in its
//! column of its table. Names that the page ties to a place or to another name have no choice:
//! - "a, b of FILE" and "a in FILE": they stand in that file;
//! - "a there": in the file named last;
//! - "a of b", "a in b" and "b, its a", where b is a name: the word a stands in the definition of b.
//!
//! A paragraph is a cell with nothing above it.

use crate::page::{codes, parts, Code, What};
use crate::source::Source;
use crate::tree::Tree;
use std::cell::RefCell;
use std::collections::{BTreeMap, BTreeSet};
use std::rc::Rc;

/// What the pages write for folders that they name often.
const FOLDERS: [(&str, &str); 3] = [
    ("M/", "crates/model/specs/"),
    ("P/", "crates/model/proofs/"),
    ("K/", "crates/comparator/specs/"),
];

/// Folders of the files that a test program or a test runs over.
const DATA: [&str; 3] = ["crates/vectors/data", "crates/garblings/data", "tests/data"];

/// Endings of files that a page names.
const ENDINGS: [&str; 12] = [
    ".antt", ".c", ".circuit", ".edit", ".h", ".jsonl", ".md", ".py", ".rs", ".rt", ".svg", ".txt",
];

/// What stands in backquotes and is no name: words of the language, of the tools and of other pages, commands
/// and what they print.
const NO_NAMES: [&str; 26] = [
    // types and words of the language
    "requires",
    "u16",
    "u64",
    "u8",
    // what stands for any crate, function or edit
    "X/y",
    "crates/X",
    "crates/X/must-fail",
    "crates/X/proofs",
    "proofs/x/f/Answers.antt",
    "proofs/x/f/Invariants.antt",
    "src/x.rt",
    "tests/wrong/X",
    "tests/wrong/X/y.edit",
    "tests/wrong_types/X",
    "y.edit",
    // tools, commands, and what they print or read
    "./weighhare compare",
    "2 1 1 1",
    "80 64 48",
    "at:",
    "coverage:",
    "libweighhare.a",
    "pkg-config",
    "refused 7 3",
    "rt",
    "rt ci",
    "too long",
];

/// What a page cites that is no name of code: wrong programs and types that must be refused, `crate/label`.
#[derive(Default, Debug)]
pub struct Cited {
    pub must_fail: BTreeSet<String>,
    pub refused_types: BTreeSet<String>,
}

/// The checker of a tree's pages.
pub struct Names<'a> {
    tree: &'a Tree,
    sources: RefCell<BTreeMap<String, Rc<Source>>>,
    /// Whether a name was found in a place.
    found: RefCell<BTreeMap<(String, String), bool>>,
}

/// One thing in backquotes.
enum Kind {
    NoName,
    Place(String),
    MustFail,
    RefusedType,
    Data,
    Name,
}

/// What a cell has said so far, and what was said above it.
struct Cell<'c> {
    codes: &'c [Code],
    after: &'c str,
    kinds: Vec<Kind>,
    above: &'c [String],
}

/// Where a name must stand.
enum Tie {
    /// In this place.
    Place(String),
    /// In the definition of the name at this index.
    Name(usize),
    None,
}

impl<'a> Names<'a> {
    pub fn of(tree: &'a Tree) -> Names<'a> {
        Names {
            tree,
            sources: RefCell::default(),
            found: RefCell::default(),
        }
    }

    /// What is wrong with the names of a page, a line for each, with page and line; and what it cites.
    pub fn check(&self, page: &str) -> (Vec<String>, Cited) {
        self.check_text(page, self.tree.text(page).unwrap_or_default())
    }

    /// The same of a page that has this text.
    pub fn check_text(&self, page: &str, text: &str) -> (Vec<String>, Cited) {
        let mut faults = Vec::new();
        let mut cited = Cited::default();
        let mut columns: Vec<Vec<String>> = Vec::new();
        for part in parts(text) {
            let mut fault = |lines: usize, what: String| {
                faults.push(format!("{page}:{}: {what}", part.line + lines));
            };
            match part.what {
                What::Heading { .. } | What::Head(_) => columns.clear(),
                What::Text(text) => {
                    self.check_cell(&text, &mut Vec::new(), &mut cited, &mut fault);
                }
                What::Row(cells) => {
                    columns.resize(cells.len().max(columns.len()), Vec::new());
                    for (cell, column) in cells.iter().zip(&mut columns) {
                        self.check_cell(cell, column, &mut cited, &mut fault);
                    }
                }
            }
        }
        (faults, cited)
    }

    /// What stands in backquotes on a page and could be misspelt without a fault, a line for each. What is no
    /// name may be. A section is looked at by itself, since none says anything of another's names.
    pub fn unnoticed(&self, page: &str) -> Vec<String> {
        let text = self.tree.text(page).unwrap_or_default();
        let mut unnoticed = Vec::new();
        for section in text.split("\n#") {
            let pieces: Vec<&str> = section.split('`').collect();
            for i in (1..pieces.len()).step_by(2) {
                if NO_NAMES.contains(&pieces[i]) {
                    continue;
                }
                let misspelt = format!("q{}", pieces[i]);
                let mut changed = pieces.clone();
                changed[i] = &misspelt;
                if self.check_text(page, &changed.join("`")).0.is_empty() {
                    unnoticed.push(format!("{page}: `{misspelt}` would not be noticed"));
                }
            }
        }
        unnoticed
    }

    /// The wrong programs and refused types that a page does not name, a line for each.
    pub fn unnamed(&self, page: &str) -> Vec<String> {
        let (_, cited) = self.check(page);
        let mut unnamed = Vec::new();
        for path in self.tree.with("", ".edit") {
            let names: Vec<&str> = path.trim_end_matches(".edit").split('/').collect();
            let (label, labels) = match names[..] {
                ["crates", name, "must-fail", edit] | ["tests", "wrong", name, edit] => {
                    (format!("{name}/{edit}"), &cited.must_fail)
                }
                ["tests", "wrong_types", name, edit] => {
                    (format!("{name}/{edit}"), &cited.refused_types)
                }
                _ => continue,
            };
            if !labels.contains(&label) {
                unnamed.push(format!("{page}: does not name {path}"));
            }
        }
        unnamed
    }

    fn check_cell(
        &self,
        text: &str,
        above: &mut Vec<String>,
        cited: &mut Cited,
        fault: &mut impl FnMut(usize, String),
    ) {
        let (codes, after) = codes(text);
        let mut cell = Cell {
            codes: &codes,
            after: &after,
            kinds: Vec::new(),
            above,
        };
        let mut clause = Kind::Name;
        for (i, code) in codes.iter().enumerate() {
            clause = clause_at(clause, &code.before);
            if code.before == " over " && self.runs(&cell, i) {
                clause = Kind::Data;
            }
            match self.kind(&cell, &clause, &code.code) {
                Ok(kind) => {
                    match kind {
                        Kind::MustFail => _ = cited.must_fail.insert(code.code.clone()),
                        Kind::RefusedType => _ = cited.refused_types.insert(code.code.clone()),
                        _ => {}
                    }
                    cell.kinds.push(kind);
                }
                Err(what) => {
                    fault(code.lines, what);
                    cell.kinds.push(Kind::NoName);
                }
            }
        }
        for (i, code) in codes.iter().enumerate() {
            if let (Kind::Name, Err(what)) = (&cell.kinds[i], self.check_name(&cell, i)) {
                fault(code.lines, what);
            }
        }
        let named: Vec<String> = cell.places().map(str::to_string).collect();
        above.extend(named);
    }

    /// What kind of thing this is, after those of the cell that were looked at already.
    fn kind(&self, cell: &Cell, clause: &Kind, code: &str) -> Result<Kind, String> {
        if NO_NAMES.contains(&code) {
            return Ok(Kind::NoName);
        }
        let is_path = code.contains('/') || ENDINGS.iter().any(|end| code.ends_with(end));
        match clause {
            Kind::Data if !is_path => return self.data(code).map(|_| Kind::Data),
            Kind::MustFail if self.is_label(code) => {
                return self.wrong_program(code).map(|_| Kind::MustFail)
            }
            Kind::RefusedType if self.is_label(code) => {
                return self.refused_type(code).map(|_| Kind::RefusedType)
            }
            _ if is_path => {}
            _ => return Ok(Kind::Name),
        }
        match self.place(cell, code) {
            Some(place) => Ok(Kind::Place(place)),
            None => Err(format!("there is no `{code}`")),
        }
    }

    /// Whether this has the form `crate/label`.
    fn is_label(&self, code: &str) -> bool {
        let is_crate = |(front, _): (&str, &str)| self.tree.is_crate(front);
        code.split_once('/').is_some_and(is_crate)
    }

    fn data(&self, code: &str) -> Result<(), String> {
        let stands = |folder: &&str| self.tree.has_match(&format!("{folder}/{code}"));
        match DATA.iter().any(stands) {
            true => Ok(()),
            false => Err(format!("there is no file `{code}` in {}", DATA.join(", "))),
        }
    }

    fn wrong_program(&self, label: &str) -> Result<(), String> {
        let (name, edit) = label.split_once('/').unwrap_or_default();
        let files = [
            format!("crates/{name}/must-fail/{edit}.edit"),
            format!("tests/wrong/{name}/{edit}.edit"),
        ];
        match files.iter().any(|file| self.tree.is_file(file)) {
            true => Ok(()),
            false => Err(format!("no wrong program `{label}`: {}", files.join(", "))),
        }
    }

    fn refused_type(&self, label: &str) -> Result<(), String> {
        let file = format!("tests/wrong_types/{label}.edit");
        match self.tree.is_file(&file) {
            true => Ok(()),
            false => Err(format!("no refused type `{label}`: {file}")),
        }
    }

    /// The file, folder or pattern that is meant: by its path, or in the folder of one that was named before.
    fn place(&self, cell: &Cell, code: &str) -> Option<String> {
        let mut path = code.trim_start_matches("./").to_string();
        for (short, folder) in FOLDERS {
            if let Some(rest) = code.strip_prefix(short) {
                path = format!("{folder}{rest}");
            }
        }
        let path = path.trim_end_matches('/');
        if self.exists(path) {
            return Some(path.to_string());
        }
        let before = cell.places().collect::<Vec<_>>();
        let before = before.into_iter().rev();
        let above = cell.above.iter().rev().map(String::as_str);
        let beside = before.chain(above).filter_map(|place| {
            let folder = match self.tree.is_file(place) {
                true => place.rsplit_once('/')?.0,
                false => place,
            };
            Some(format!("{folder}/{path}"))
        });
        beside.into_iter().find(|path| self.exists(path))
    }

    fn exists(&self, path: &str) -> bool {
        match path.contains('*') {
            true => self.tree.has_match(path),
            false => self.tree.is_file(path) || self.tree.is_folder(path),
        }
    }

    fn check_name(&self, cell: &Cell, i: usize) -> Result<(), String> {
        let name = &cell.codes[i].code;
        if let Some(stands) = self.stands_by_path(name) {
            return match stands {
                true => Ok(()),
                false => Err(format!("there is no `{name}`")),
            };
        }
        match self.tie(cell, i) {
            Tie::Place(place) => match self.defines(&place, name) {
                true => Ok(()),
                false => Err(format!("`{name}` does not stand in {place}")),
            },
            Tie::Name(owner) => {
                let whole = &cell.codes[owner].code;
                let places = match self.tie(cell, owner) {
                    Tie::Place(place) => vec![place],
                    _ => cell.all_places(),
                };
                match places.iter().any(|place| self.has_part(place, whole, name)) {
                    true => Ok(()),
                    false => Err(format!("`{name}` is no part of `{whole}`")),
                }
            }
            Tie::None => {
                let places = cell.all_places();
                if places.iter().any(|place| self.defines(place, name)) || self.is_program(name) {
                    return Ok(());
                }
                Err(format!(
                    "`{name}` stands in none of the places named with it or above it: {}",
                    places.join(", ")
                ))
            }
        }
    }

    /// What a name is tied to: by the words after it, by those before it, or as one of a list.
    fn tie(&self, cell: &Cell, i: usize) -> Tie {
        let after = cell.after(i);
        if let (" of " | " in ", Some(next)) = (after, cell.kinds.get(i + 1)) {
            match next {
                Kind::Place(place) => return Tie::Place(place.clone()),
                Kind::Name => return Tie::Name(i + 1),
                _ => {}
            }
        }
        if after.starts_with(" there") {
            let before = cell.kinds[..i].iter().rev().find_map(Kind::place);
            let last = before.or(cell.above.last().map(String::as_str));
            return Tie::Place(last.unwrap_or("nowhere").to_string());
        }
        let mut first = i;
        while first > 0 && is_joiner(&cell.codes[first].before) {
            first -= 1;
        }
        if cell.codes[first].before.ends_with("its ") {
            let is_name = |&j: &usize| matches!(cell.kinds[j], Kind::Name);
            if let Some(owner) = (0..first).rev().find(is_name) {
                return Tie::Name(owner);
            }
        }
        match is_joiner(after) && matches!(cell.kinds.get(i + 1), Some(Kind::Name)) {
            true => self.tie(cell, i + 1),
            false => Tie::None,
        }
    }

    /// Whether the thing before this one is a program or a place, and so may run over files.
    fn runs(&self, cell: &Cell, i: usize) -> bool {
        let before = i
            .checked_sub(1)
            .map(|j| (&cell.kinds[j], &cell.codes[j].code));
        before.is_some_and(|(kind, code)| kind.place().is_some() || self.is_program(code))
    }

    /// A crate with a program of its own, by its name.
    fn is_program(&self, name: &str) -> bool {
        self.tree.is_file(&format!("crates/{name}/src/main.rt"))
    }

    /// Whether a name that says its crate, `crate::name` or `crate::module::name`, stands there; none for any
    /// other name.
    fn stands_by_path(&self, name: &str) -> Option<bool> {
        let (owner, member) = name.rsplit_once("::")?;
        let (first, modules) = match owner.split_once("::") {
            Some((first, modules)) => (first, Some(modules.replace("::", "/"))),
            None => (owner, None),
        };
        if !self.tree.is_crate(first) {
            return None;
        }
        let place = match modules {
            Some(file) => format!("crates/{first}/src/{file}.rt"),
            None => format!("crates/{first}/src"),
        };
        Some(self.any_source(&place, |source| source.defines(member)))
    }

    /// Whether a name is defined in a file, or in a file of a folder; or is the name of such a file.
    fn defines(&self, place: &str, name: &str) -> bool {
        let key = (place.to_string(), name.to_string());
        let known = self.found.borrow().get(&key).copied();
        known.unwrap_or_else(|| {
            let found = self.look(place, name);
            self.found.borrow_mut().insert(key, found);
            found
        })
    }

    fn look(&self, place: &str, name: &str) -> bool {
        let name = name.split(['<', ' ']).next().unwrap_or_default();
        if let Some(end) = name.strip_prefix("..") {
            return self.any_source(place, |source| source.defines_ending(end));
        }
        if let Some((owner, member)) = name.rsplit_once("::") {
            return self.has_part(place, owner, member);
        }
        if self.tree.is_folder(place) {
            let files = ["antt", "rt", "rs"].map(|end| format!("{place}/{name}.{end}"));
            if files.iter().any(|file| self.tree.is_file(file)) {
                return true;
            }
        }
        self.any_source(place, |source| source.defines(name))
    }

    fn has_part(&self, place: &str, whole: &str, part: &str) -> bool {
        self.any_source(place, |source| source.has_part(whole, part))
    }

    /// Whether this holds of a file, or of one in a folder. What is wrong on purpose does not count.
    fn any_source(&self, place: &str, holds: impl Fn(&Source) -> bool) -> bool {
        if self.tree.is_file(place) {
            return holds(&self.source(place));
        }
        let files = self
            .tree
            .under(place)
            .filter(|path| !path.ends_with(".edit"));
        let mut files = files.into_iter();
        files.any(|path| holds(&self.source(path)))
    }

    fn source(&self, path: &str) -> Rc<Source> {
        let mut sources = self.sources.borrow_mut();
        let text = self.tree.text(path).unwrap_or_default();
        let source = || Rc::new(Source::of(path, text));
        sources
            .entry(path.to_string())
            .or_insert_with(source)
            .clone()
    }
}

impl Kind {
    fn place(&self) -> Option<&str> {
        match self {
            Kind::Place(place) => Some(place),
            _ => None,
        }
    }
}

impl Cell<'_> {
    fn places(&self) -> impl Iterator<Item = &str> {
        self.kinds.iter().filter_map(Kind::place)
    }

    fn all_places(&self) -> Vec<String> {
        let above = self.above.iter().map(String::as_str);
        let mut places: Vec<String> = self.places().chain(above).map(str::to_string).collect();
        places.dedup();
        places
    }

    /// The words after a thing, up to the next.
    fn after(&self, i: usize) -> &str {
        match self.codes.get(i + 1) {
            Some(next) => &next.before,
            None => self.after,
        }
    }
}

/// What a clause is about, once these words are read: it starts with words that say so, and ends with `;`.
fn clause_at(clause: Kind, words: &str) -> Kind {
    let ends = |end: &str| words.to_lowercase().ends_with(end);
    if ends("must-fail ") {
        Kind::MustFail
    } else if ends("refused type ") {
        Kind::RefusedType
    } else if ends("the files ") {
        Kind::Data
    } else if words.contains(';') || (matches!(clause, Kind::Data) && !is_joiner(words)) {
        Kind::Name
    } else {
        clause
    }
}

/// The words between two things of one list.
fn is_joiner(words: &str) -> bool {
    matches!(words, ", " | " and " | ", and ")
}

/// A small repository, whose page A.md is right.
#[cfg(test)]
const FILES: [(&str, &str); 12] = [
    ("A.md", "\
The contract of `run` in `crates/a` is `RunIs` in `M/Model.antt`.

| 01 | Definition | Contract |
|---|---|---|
| one | `M/Model.antt`, `half`, its `stored` and `rows` | `crates/a`, `run`, no `requires`; must-fail `a/wrong`; refused type `a/kind` |
| two | `size` of `Sizes`; `other_law` of `P/Laws.antt` | `Kind::Free`, `a::run`, `a::inner::deep`; `tester` over `cases-one` and `*-two` |
| three | `half`, `size` | `deep` of `crates/a/src/inner.rt`; `deep` there; `lib.rt`; laws `law_a`, `law_b` of `P/Laws.antt`; `Laws` in `P/`; `returns-in-Done` of `crates/a/proofs/run/Answers.antt` |

## Another table

| 01 | Definition |
|---|---|
| four | every `..Is` of `M/Model.antt` |
"),
    ("crates.txt", "model:\na: model\ntester: a\n"),
    ("crates/model/specs/Model.antt", "pub half : Scheme\nhalf = record { stored = 2; rows = 3 }\n\npub record Sizes : Type 0 where\n  pub size : ℕ\n\npub record RunIs : Type 0 where\n"),
    ("crates/model/proofs/Laws.antt", "law_a law_b : A\nother_law : B\nother_law = half\n"),
    ("crates/a/proofs/run/Answers.antt", "use Rattle.a.proofs.run.Goals as goal\n\npub returns-in-Done : goal.returns-in-Done\nreturns-in-Done c = search law_a\n"),
    ("crates/a/src/lib.rt", "pub fn run() {\n    deep()\n}\n\npub enum Kind {\n    Free,\n}\n"),
    ("crates/a/src/inner.rt", "fn deep() {\n}\n"),
    ("crates/tester/src/main.rt", "fn main() {\n}\n"),
    ("crates/vectors/data/cases-one", ""),
    ("tests/data/cases-two", ""),
    ("crates/a/must-fail/wrong.edit", ""),
    ("tests/wrong_types/a/kind.edit", ""),
];

/// The faults of the page where one text is made another, in a file or in the page.
#[cfg(test)]
fn faults_with(file: &str, old: &str, new: &str) -> Vec<String> {
    let mut tree = Tree::made(&FILES);
    let text = tree.text(file).unwrap_or_default();
    assert_eq!(text.matches(old).count(), 1, "{old} in {file}");
    let changed = text.replace(old, new);
    tree.set(file, changed);
    Names::of(&tree).check("A.md").0
}

#[test]
fn a_right_page() {
    let tree = Tree::made(&FILES);
    let names = Names::of(&tree);
    assert_eq!(names.check("A.md").0, [""; 0]);
    assert_eq!(names.unnamed("A.md"), [""; 0]);
}

#[test]
fn each_fault_is_found() {
    // what the page says, misspelt
    for (line, old, new) in [
        (1, "`run` in", "`ran` in"),
        (1, "`RunIs`", "`RanIs`"),
        (5, "`M/Model.antt`, `half`", "`M/Models.antt`"),
        (5, "and `rows`", "and `row`"),
        (5, "`crates/a`, `run`", "`crates/a`, `walk`"),
        (5, "no `requires`", "no `requirements`"),
        (5, "`a/wrong`", "`a/wrung`"),
        (5, "`a/kind`", "`a/wrong`"),
        (6, "`size` of", "`half` of"),
        (6, "`other_law`", "`law`"),
        (6, "`Kind::Free`", "`Kind::Charged`"),
        (6, "`a::run`", "`a::deeper`"),
        (6, "`a::inner::deep`", "`a::inner::run`"),
        (6, "`*-two`", "`*-three`"),
        (7, "`lib.rt`", "`lab.rt`"),
        (7, "`deep` of", "`run` of"),
        (7, "`deep` there", "`run` there"),
        (7, "`law_a`, ", "`other`, "),
        (7, "`Laws` in", "`Flaws` in"),
        (7, "`returns-in-Done`", "`returns-in`"),
        (13, "`..Is`", "`..As`"),
        // a name that stands in the tree, but not in what its column of its table names
        (13, "every `..Is` of `M/Model.antt`", "`half`"),
    ] {
        let found = faults_with("A.md", old, new);
        assert!(!found.is_empty(), "{old} made {new}");
        let place = format!("A.md:{line}: ");
        assert!(found[0].starts_with(&place), "{old} made {new}: {found:?}");
    }
    // what the code has, renamed
    for (file, old, new) in [
        ("crates/a/src/lib.rt", "fn run", "fn ran"),
        ("crates/a/src/inner.rt", "fn deep", "fn deeper"),
        ("crates/a/src/lib.rt", "Free,", "Freed,"),
        ("crates/model/specs/Model.antt", "pub half", "pub whole"),
        ("crates/model/specs/Model.antt", "stored", "store"),
        ("crates/model/specs/Model.antt", "pub size", "pub length"),
        (
            "crates/model/proofs/Laws.antt",
            "other_law : B",
            "another_law : B",
        ),
        (
            "crates/a/proofs/run/Answers.antt",
            "pub returns-in-Done :",
            "pub returns-in-Fault :",
        ),
        ("crates.txt", "\na: model", "\nb: model"),
    ] {
        assert!(!faults_with(file, old, new).is_empty(), "{old} in {file}");
    }
}

#[test]
fn a_wrong_program_left_out() {
    let unnamed = |old: &str| {
        let mut tree = Tree::made(&FILES);
        let page = tree.text("A.md").unwrap_or_default().replace(old, "");
        tree.set("A.md", page);
        Names::of(&tree).unnamed("A.md").len()
    };
    assert_eq!(unnamed("must-fail `a/wrong`"), 1);
    assert_eq!(unnamed("refused type `a/kind`"), 1);
    // a refused type does not stand for a wrong program
    assert_eq!(unnamed("must-fail `a/wrong`; "), 1);
}
