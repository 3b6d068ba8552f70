//! The crates: the picture of their layers, and the README's map.

use crate::page::{parts, What};
use crate::tree::Tree;
use std::collections::BTreeSet;
use std::io::ErrorKind;
use std::path::Path;
use std::process::Command;

const PICTURE: &str = "docs/layers.svg";
const SCRIPT: &str = "tools/layers.py";

fn crate_names(tree: &Tree) -> BTreeSet<String> {
    tree.crates().into_iter().map(|(name, _)| name).collect()
}

/// The picture names each crate in a text of its own, and DESIGN shows the picture.
pub fn picture_faults(tree: &Tree) -> Vec<String> {
    let picture = tree.text(PICTURE).unwrap_or_default();
    let missing = |name: &&String| !picture.contains(&format!(">{name}</text>"));
    let names = crate_names(tree);
    let missing = names.iter().filter(missing);
    let mut faults: Vec<String> = missing
        .map(|name| format!("{PICTURE}: no crate {name}; {SCRIPT} draws it"))
        .collect();
    let design = tree.text("docs/DESIGN.md").unwrap_or_default();
    if !design.contains("](layers.svg)") {
        faults.push("docs/DESIGN.md: does not show layers.svg".to_string());
    }
    faults
}

/// The script writes exactly this picture. Where there is no Python, that is not looked at.
pub fn script_faults(tree: &Tree) -> Vec<String> {
    let root = Path::new(env!("CARGO_MANIFEST_DIR")).join("..");
    let mut script = Command::new("python3");
    script.args(["-B", SCRIPT, "-"]).current_dir(root);
    match script.output() {
        Err(error) if error.kind() == ErrorKind::NotFound => {
            println!("no python3 here: {SCRIPT} is not run");
            Vec::new()
        }
        Err(error) => vec![format!("{SCRIPT}: {error}")],
        Ok(output) if !output.status.success() => {
            vec![format!(
                "{SCRIPT}: {}",
                String::from_utf8_lossy(&output.stderr)
            )]
        }
        Ok(output) if tree.text(PICTURE).map(str::as_bytes) != Some(&output.stdout) => {
            vec![format!("{PICTURE}: is not what {SCRIPT} draws; run it")]
        }
        Ok(_) => Vec::new(),
    }
}

/// A file of a crate uses another crate where a path leads into it, in the code or in the logic.
fn uses(text: &str, other: &str) -> bool {
    let path = format!("{other}::");
    let begins = |(at, _): (usize, &str)| {
        let before = text[..at].chars().next_back();
        !before.is_some_and(|c| c.is_alphanumeric() || c == '_')
    };
    text.match_indices(&path).any(begins) || text.contains(&format!("Rattle.{other}."))
}

/// Each crate that a line of crates.txt names is used.
pub fn unused_faults(tree: &Tree) -> Vec<String> {
    let mut faults = Vec::new();
    for (name, named) in tree.crates() {
        let folder = format!("crates/{name}");
        for other in named {
            let mut texts = tree.under(&folder).filter_map(|file| tree.text(file));
            if !texts.any(|text| uses(text, &other)) {
                faults.push(format!(
                    "crates.txt: {name} names {other} and does not use it"
                ));
            }
        }
    }
    faults
}

/// The README's section "Map" names each crate, by a link to its folder or in backquotes, and links to no other.
pub fn map_faults(tree: &Tree) -> Vec<String> {
    let names = crate_names(tree);
    let text = tree.text("README.md").unwrap_or_default();
    let mut section = String::new();
    let mut lines = 0;
    let mut linked = BTreeSet::new();
    let mut quoted = BTreeSet::new();
    let mut add = |text: &str| {
        let folders = text.split("crates/").skip(1);
        let end = |rest: &str| {
            rest.split(|c: char| !c.is_alphanumeric() && c != '_')
                .next()
                .map(str::to_string)
        };
        linked.extend(folders.filter_map(end).filter(|name| !name.is_empty()));
        quoted.extend(text.split('`').skip(1).step_by(2).map(str::to_string));
    };
    for part in parts(text) {
        match part.what {
            What::Heading { title, .. } => section = title.to_lowercase(),
            _ if !section.split(' ').any(|word| word == "map") => {}
            What::Head(cells) | What::Row(cells) => {
                lines += 1;
                add(&cells.join(" | "));
            }
            What::Text(text) => {
                lines += 1;
                add(&text);
            }
        }
    }
    if lines == 0 {
        return vec!["README.md: has no section \"Map\"".to_string()];
    }
    let missing = names
        .iter()
        .filter(|name| !linked.contains(*name) && !quoted.contains(*name));
    let mut faults: Vec<String> = missing
        .map(|name| format!("README.md: its map has no crate {name}"))
        .collect();
    let other = linked.difference(&names);
    faults.extend(other.map(|name| format!("README.md: its map has {name}, which is no crate")));
    faults
}

#[test]
fn crates_of_the_picture() {
    let files = [
        ("crates.txt", "model:\nblock: model\n"),
        (PICTURE, "<text>model</text><text x=\"1\">block</text>"),
        ("docs/DESIGN.md", "![layers](layers.svg)"),
    ];
    let mut tree = Tree::made(&files);
    assert_eq!(picture_faults(&tree), [""; 0]);
    tree.set(
        "crates.txt",
        "model:\nblock: model\nmore: block\n".to_string(),
    );
    assert_eq!(picture_faults(&tree).len(), 1);
}

#[test]
fn crates_of_the_map() {
    let count = |map: &str| {
        let map = format!("# A\n\nwords\n\n## Map\n\n{map}\n\n## More\n\n[x](crates/x)\n");
        let files = [
            ("crates.txt", "model:\nblock: model\n"),
            ("README.md", map.as_str()),
        ];
        map_faults(&Tree::made(&files)).len()
    };
    assert_eq!(
        count("- [model](crates/model): types\n- `block`: blocks"),
        0
    );
    assert_eq!(
        count("| a |\n|---|\n| [model](crates/model) and `block` |"),
        0
    );
    assert_eq!(count("- [model](crates/model): types"), 1);
    assert_eq!(count("`model`, `block`, [y](crates/y)"), 1);
    assert_eq!(count(""), 1);
}

#[test]
fn crates_that_are_not_used() {
    let count = |text: &str| {
        let files = [
            ("crates.txt", "model:\nblock: model\n"),
            ("crates/block/src/lib.rt", text),
        ];
        unused_faults(&Tree::made(&files)).len()
    };
    assert_eq!(count("use model::Wire;"), 0);
    assert_eq!(count("ghost use Rattle.model.specs.Bytes.{be16};"), 0);
    assert_eq!(count("use supermodel::Wire; // model"), 1);
    assert_eq!(count("ghost use Rattle.models.specs.Bytes.{be16};"), 1);
}
