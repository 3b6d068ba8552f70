//! The repository's files, held in memory: so the checks can be tried on made-up ones.

use std::collections::BTreeMap;
use std::fs;
use std::path::Path;

/// Files whose text is read; of all others only the names are kept.
const READ: [&str; 9] = [
    ".antt", ".c", ".edit", ".h", ".md", ".rs", ".rt", ".svg", ".txt",
];

/// Folders that hold what was built.
const BUILT: [&str; 3] = ["out", "target", "__pycache__"];

/// Files by their path from the root, with `/` between folders.
#[derive(Clone)]
pub struct Tree {
    files: BTreeMap<String, String>,
}

impl Tree {
    /// The repository that this test stands in, without what was built.
    pub fn repository() -> Tree {
        let root = Path::new(env!("CARGO_MANIFEST_DIR")).join("..");
        let mut files = BTreeMap::new();
        add(&root, "", &mut files);
        Tree { files }
    }

    /// A made-up repository.
    pub fn made(files: &[(&str, &str)]) -> Tree {
        let owned = |&(path, text): &(&str, &str)| (path.to_string(), text.to_string());
        Tree {
            files: files.iter().map(owned).collect(),
        }
    }

    pub fn text(&self, path: &str) -> Option<&str> {
        self.files.get(path).map(String::as_str)
    }

    pub fn set(&mut self, path: &str, text: String) {
        self.files.insert(path.to_string(), text);
    }

    pub fn is_file(&self, path: &str) -> bool {
        self.files.contains_key(path)
    }

    pub fn is_folder(&self, path: &str) -> bool {
        self.under(path).next().is_some()
    }

    /// The files in a folder and in its folders.
    pub fn under<'a>(&'a self, folder: &str) -> impl Iterator<Item = &'a str> {
        let front = format!("{}/", folder.trim_end_matches('/'));
        self.files
            .range(front.clone()..)
            .map(|(path, _)| path.as_str())
            .take_while(move |path| path.starts_with(&front))
    }

    /// All files whose path has this front and this end.
    pub fn with<'a>(&'a self, front: &'a str, end: &'a str) -> impl Iterator<Item = &'a str> {
        let fits = move |path: &&String| path.starts_with(front) && path.ends_with(end);
        self.files.keys().filter(fits).map(String::as_str)
    }

    /// Whether some file or folder has a path of this pattern, in which each `*` is a part of one name.
    pub fn has_match(&self, pattern: &str) -> bool {
        let parts: Vec<&str> = pattern.trim_end_matches('/').split('/').collect();
        self.files.keys().any(|path| {
            let names: Vec<&str> = path.split('/').collect();
            names.len() >= parts.len() && parts.iter().zip(&names).all(|(p, n)| fits(p, n))
        })
    }

    /// The crates that crates.txt lists, with those that each names.
    pub fn crates(&self) -> Vec<(String, Vec<String>)> {
        let text = self.text("crates.txt").unwrap_or_default();
        let lines = text.lines().filter(|line| !line.starts_with('#'));
        let split = |line: &str| {
            let (front, named) = line.split_once(':')?;
            let name = match front.split_whitespace().collect::<Vec<_>>()[..] {
                [name] | [name, "staticlib"] => name.to_string(),
                _ => panic!("crates.txt: this line names no crate: {line}"),
            };
            Some((name, named.split_whitespace().map(str::to_string).collect()))
        };
        lines.filter_map(split).collect()
    }

    pub fn is_crate(&self, name: &str) -> bool {
        self.crates().iter().any(|(listed, _)| listed == name)
    }
}

fn add(folder: &Path, front: &str, files: &mut BTreeMap<String, String>) {
    for entry in fs::read_dir(folder).expect("a folder of the repository") {
        let entry = entry.expect("an entry of a folder");
        let name = entry.file_name().into_string().expect("a name in UTF-8");
        let path = format!("{front}{name}");
        if entry.file_type().expect("the kind of an entry").is_dir() {
            if !name.starts_with('.') && !BUILT.contains(&name.as_str()) {
                add(&entry.path(), &format!("{path}/"), files);
            }
        } else {
            let read = READ.iter().any(|end| name.ends_with(end));
            let text = match read {
                true => fs::read_to_string(entry.path()).expect("text in UTF-8"),
                false => String::new(),
            };
            files.insert(path, text);
        }
    }
}

/// Whether a name is of a pattern in which each `*` stands for any characters.
pub fn fits(pattern: &str, name: &str) -> bool {
    match pattern.split_once('*') {
        None => pattern == name,
        Some((front, rest)) => name.strip_prefix(front).is_some_and(|left| {
            let starts = left.char_indices().map(|(at, _)| at).chain([left.len()]);
            starts.into_iter().any(|at| fits(rest, &left[at..]))
        }),
    }
}

#[test]
fn patterns() {
    assert!(fits("fips197-*", "fips197-words"));
    assert!(fits("*-named", "chain-named"));
    assert!(fits("a*b*", "a_b"));
    assert!(!fits("*-named", "chain-named-more"));
    let tree = Tree::made(&[("crates/x/data/a-named", "")]);
    assert!(tree.has_match("crates/x/data/*-named"));
    assert!(tree.has_match("crates/*/data"));
    assert!(!tree.has_match("crates/*-named"));
}

#[test]
fn crates_are_read() {
    let tree = Tree::made(&[(
        "crates.txt",
        "# the base\nmodel:\nblock: model other\nabove staticlib: block\n",
    )]);
    let crates = tree.crates();
    assert_eq!(crates[0], ("model".to_string(), vec![]));
    assert_eq!(crates[1].1, ["model", "other"]);
    assert_eq!(crates[2], ("above".to_string(), vec!["block".to_string()]));
    assert!(tree.is_crate("block") && !tree.is_crate("other"));
    assert!(tree.is_crate("above") && !tree.is_crate("staticlib"));
}
