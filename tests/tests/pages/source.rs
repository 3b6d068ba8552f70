//! Which names a source file defines, and the lines of each definition.

use std::collections::{BTreeMap, BTreeSet};

/// A file's definitions: each name with what defines it. A name may have several, such as a type with what is
/// implemented for it.
pub struct Source {
    defined: BTreeMap<String, Vec<Definition>>,
}

/// A definition's lines; of a type in code also its fields, cases and methods.
pub struct Definition {
    pub text: String,
    members: Option<BTreeSet<String>>,
}

/// Words before the name of a definition, in definitions and proofs.
const MODIFIERS: [&str; 3] = ["pub", "abbrev", "unfoldable"];

/// What a line that defines something starts with, in definitions and proofs.
const DEFINING: [&str; 3] = ["record", "data", "ruleset"];

/// What a line that defines something starts with, in code, after `pub` and the like.
const ITEMS: [&str; 8] = [
    "fn ", "struct ", "enum ", "const ", "type ", "mod ", "trait ", "impl",
];

impl Source {
    /// The definitions of a file, by the kind of file that its name shows; none of a file of another kind.
    pub fn of(path: &str, text: &str) -> Source {
        let lines: Vec<&str> = text.lines().collect();
        let mut source = Source {
            defined: BTreeMap::new(),
        };
        match path.rsplit_once('.').map(|(_, end)| end) {
            Some("antt") => source.add_logic(&lines),
            Some("rt" | "rs") => source.add_code(&lines),
            Some("c" | "h") => source.add_c(&lines),
            _ => {}
        }
        source
    }

    pub fn defines(&self, name: &str) -> bool {
        self.defined.contains_key(name)
    }

    /// Whether some defined name ends so.
    pub fn defines_ending(&self, end: &str) -> bool {
        self.defined.keys().any(|name| name.ends_with(end))
    }

    /// Whether a type in code has a field, case or method of this name; whether it is a word in the definition
    /// of any other name.
    pub fn has_part(&self, name: &str, part: &str) -> bool {
        let mut definitions = self.defined.get(name).into_iter().flatten();
        definitions.any(|definition| match &definition.members {
            Some(members) => members.contains(part),
            None => has_word(&definition.text, part),
        })
    }

    /// Each name with each of its definitions.
    pub fn definitions(&self) -> impl Iterator<Item = (&str, &Definition)> {
        let all = self.defined.iter();
        all.flat_map(|(name, all)| all.iter().map(move |one| (name.as_str(), one)))
    }

    fn add(&mut self, name: &str, text: String, members: Option<BTreeSet<String>>) {
        let definitions = self.defined.entry(name.to_string()).or_default();
        definitions.push(Definition { text, members });
    }

    fn add_logic(&mut self, lines: &[&str]) {
        for (i, line) in lines.iter().enumerate() {
            let names = logic_names(line);
            if names.is_empty() {
                continue;
            }
            let text = logic_text(&lines[i..], names[0]);
            for name in names {
                self.add(name, text.clone(), None);
            }
        }
    }

    fn add_code(&mut self, lines: &[&str]) {
        for (i, line) in lines.iter().enumerate() {
            let Some((item, name)) = code_name(line) else {
                continue;
            };
            let text = code_text(&lines[i..]);
            let inner: Vec<&str> = match item {
                "struct " | "enum " => text.lines().filter_map(part_name).collect(),
                "impl" => text
                    .lines()
                    .skip(1)
                    .filter_map(code_name)
                    .map(|(_, name)| name)
                    .collect(),
                _ => {
                    self.add(name, text, None);
                    continue;
                }
            };
            let members: BTreeSet<String> = inner.into_iter().map(str::to_string).collect();
            if item != "impl" {
                for member in &members {
                    self.add(member, member.clone(), None);
                }
            }
            self.add(name, text, Some(members));
        }
    }

    /// In C, what a line that starts with a type declares or defines as a function.
    fn add_c(&mut self, lines: &[&str]) {
        for line in lines {
            let Some((front, _)) = line.split_once('(') else {
                continue;
            };
            let start = front.trim_end_matches(|c: char| c.is_alphanumeric() || c == '_');
            let name = &front[start.len()..];
            if front.starts_with(|c: char| c.is_alphabetic()) && start.ends_with([' ', '*']) {
                self.add(name, line.to_string(), None);
            }
        }
    }
}

fn indent(line: &str) -> usize {
    line.len() - line.trim_start().len()
}

/// The names that a line of definitions or proofs declares: `name : ..`, also several, a record, its fields,
/// a type of cases and its cases.
fn logic_names(line: &str) -> Vec<&str> {
    let line = line.split("-- ").next().unwrap_or_default();
    let mut words = line.split_whitespace().peekable();
    while words.next_if(|word| MODIFIERS.contains(word)).is_some() {}
    if words.next_if(|word| DEFINING.contains(word)).is_some() {
        return words.next().into_iter().collect();
    }
    let words: Vec<&str> = words.collect();
    let Some(colon) = words.iter().position(|word| *word == ":") else {
        return Vec::new();
    };
    let names = &words[..colon];
    let is_name = |word: &&str| !word.contains(['(', ')', '{', '}', '=', ',', '.']);
    match names.iter().all(is_name) && names.first().is_some_and(|word| *word != "let") {
        true => names.to_vec(),
        false => Vec::new(),
    }
}

/// A definition's lines: its first, those further in, and its equations.
fn logic_text(lines: &[&str], name: &str) -> String {
    let start = indent(lines[0]);
    let mut text = lines[0].to_string();
    for line in &lines[1..] {
        let first = line.split_whitespace().next().unwrap_or_default();
        if line.is_empty() || first.starts_with("--") {
            continue;
        }
        if indent(line) <= start && first != name && first != "unfolding" {
            break;
        }
        text.push('\n');
        text.push_str(line);
    }
    text
}

/// What a line of code defines, with the kind of it.
fn code_name(line: &str) -> Option<(&str, &str)> {
    let mut rest = line.trim_start();
    for word in [
        "pub(crate) ",
        "pub(super) ",
        "pub ",
        "extern \"C\" ",
        "unsafe ",
    ] {
        rest = rest.strip_prefix(word).unwrap_or(rest);
    }
    let item = ITEMS.into_iter().find(|item| rest.starts_with(item))?;
    let mut rest = &rest[item.len()..];
    if item == "impl" {
        // the type, which comes last: after its lifetimes, and after a trait
        rest = rest.split(" for ").last()?.trim_start();
        if rest.starts_with('<') {
            rest = rest.split_once("> ")?.1;
        }
    }
    let end = rest.find(|c: char| !c.is_alphanumeric() && c != '_')?;
    let name = &rest[..end];
    (!name.is_empty()).then_some((item, name))
}

/// The lines up to the bracket that closes what the first opens.
fn code_text(lines: &[&str]) -> String {
    let start = indent(lines[0]);
    let mut text = String::new();
    for line in lines {
        text.push_str(line);
        text.push('\n');
        let ends = line.ends_with(';') || line.ends_with('}');
        if ends && indent(line) == start {
            break;
        }
    }
    text
}

/// The field or case that a line of a type has.
fn part_name(line: &str) -> Option<&str> {
    let line = line.strip_prefix("    ")?;
    let line = line.strip_prefix("pub ").unwrap_or(line);
    let end = line.find(|c: char| !c.is_alphanumeric() && c != '_')?;
    (end > 0).then_some(&line[..end])
}

/// Whether a word stands in a text, with nothing around it that could belong to a name.
pub fn has_word(text: &str, word: &str) -> bool {
    let part = |c: char| c.is_alphanumeric() || "_-′'".contains(c);
    text.match_indices(word).any(|(at, _)| {
        let before = text[..at].chars().next_back();
        let after = text[at + word.len()..].chars().next();
        !before.is_some_and(part) && !after.is_some_and(part)
    })
}

#[test]
fn logic() {
    let text = "pub record Sizes (c : ℕ) : Type 0 where\n  -- n\n  pub n : ℕ\n\n  pub m q : ℕ\n\n-- free_sound comes after it\nunfoldable pub half : Scheme\nhalf = record {\n  stored = 2;\n}\nfree_sound : A → B\nfree_sound a =\n    let e : C = d in\n    (f : D)\n";
    let source = Source::of("A.antt", text);
    for name in ["Sizes", "n", "m", "q", "half", "free_sound"] {
        assert!(source.defines(name), "{name}");
    }
    for name in ["c", "e", "f", "free", "sound", "stored", "Scheme"] {
        assert!(!source.defines(name), "{name}");
    }
    assert!(source.has_part("Sizes", "q") && source.has_part("half", "stored"));
    assert!(!source.has_part("half", "free_sound") && !source.has_part("half", "store"));
    assert!(source.defines_ending("izes"));
    let text = "use Rattle.a.specs.Pick.{PickIs}\nuse Rattle.a.proofs.pick.Goals as goal\n\npub returns-in-Done : goal.returns-in-Done\nreturns-in-Done c = search part\n\nabbrev pub invariant-loop-i : goal.invariant-loop-i\ninvariant-loop-i l = record { low : 1 ≤ l.i; high : l.i ≤ l.n }\n";
    let source = Source::of("Answers.antt", text);
    for name in ["returns-in-Done", "invariant-loop-i"] {
        assert!(source.defines(name), "{name}");
    }
    for name in ["returns", "goal", "low", "high", "PickIs", "use"] {
        assert!(!source.defines(name), "{name}");
    }
    assert!(
        source.has_part("returns-in-Done", "part") && !source.has_part("returns-in-Done", "low")
    );
}

#[test]
fn code() {
    let text = "ghost use Rattle.std.specs.Prelude.{◌≡◌, length};\nghost use Rattle.a.specs.Pick.{PickIs};\n\n#[derive(Clone, Copy)]\npub enum Kind {\n    Charged(Truth),\n    Free { p: Truth },\n    Refused,\n}\n\npub struct Reader<'a> {\n    pub at: usize,\n}\n\nimpl<'a> Reader<'a> {\n    pub fn first(m: &'a [u8]) -> Reader<'a>\n        requires low { 1 ≤ length m.now }\n        ensures { result.at ≡ 9 }\n    {\n        other(m)\n    }\n}\n\n#[unsafe(no_mangle)]\npub extern \"C\" fn pick<'a>(a: u8)\n    requires low { 1 ≤ a }\n    ensures high { PickIs a }\n{\n    load(a)\n}\n";
    let source = Source::of("a.rt", text);
    for name in [
        "Kind", "Charged", "Free", "Refused", "Reader", "at", "first", "pick",
    ] {
        assert!(source.defines(name), "{name}");
    }
    for name in [
        "Truth", "other", "load", "a", "m", "low", "high", "length", "PickIs", "derive",
    ] {
        assert!(!source.defines(name), "{name}");
    }
    for part in ["at", "first"] {
        assert!(source.has_part("Reader", part), "{part}");
    }
    for part in ["other", "usize", "pick"] {
        assert!(!source.has_part("Reader", part), "{part}");
    }
    assert!(source.has_part("Kind", "Free") && source.has_part("pick", "load"));
    assert!(source.has_part("pick", "PickIs") && !source.has_part("pick", "length"));
}

#[test]
fn c() {
    let text = "/* words(of it) */\nstatic inline const char *words(uint8_t number) {\n    return other(number);\n}\nuint8_t check(const uint8_t *circuit,\n              size_t len);\n#define MACRO(x) x\n";
    let source = Source::of("a.h", text);
    assert!(source.defines("words") && source.defines("check"));
    assert!(!source.defines("other") && !source.defines("MACRO") && !source.defines("of"));
}
