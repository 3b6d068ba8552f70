//! The form of a page: how long its lines are, and where its links lead.

use crate::page::{parts, What};
use crate::tree::Tree;

/// The longest line, in characters.
const COLUMNS: usize = 120;

/// The lines that the README may have.
const README_LINES: usize = 150;

/// What is wrong with the form of a page, a line for each. In the README every line counts; in other pages not
/// the rows of tables, blocks of code, and lines that are one link or image.
pub fn faults(tree: &Tree, page: &str) -> Vec<String> {
    let Some(text) = tree.text(page) else {
        return vec![format!("{page}: there is no such page")];
    };
    let mut faults = Vec::new();
    let readme = page == "README.md";
    let count = text.lines().count();
    if readme && count > README_LINES {
        faults.push(format!(
            "{page}: has {count} lines, and may have {README_LINES}"
        ));
    }
    let mut fenced = false;
    for (i, line) in text.lines().enumerate() {
        let mut fault = |what: String| faults.push(format!("{page}:{}: {what}", i + 1));
        let fence = line.trim_start().starts_with("```");
        fenced ^= fence;
        if line.ends_with([' ', '\t']) {
            fault("blanks at the end".to_string());
        }
        let free = fenced || fence || line.starts_with('|') || is_one_link(line);
        let columns = line.chars().count();
        if columns > COLUMNS && (readme || !free) {
            fault(format!("{columns} columns, more than {COLUMNS}"));
        }
        if !fenced && !fence {
            for target in links(line) {
                if let Err(what) = leads(tree, page, &target) {
                    fault(what);
                }
            }
        }
    }
    faults
}

fn is_one_link(line: &str) -> bool {
    let line = line.trim();
    let line = line.strip_prefix('!').unwrap_or(line);
    line.starts_with('[') && line.ends_with(')') && line.matches("](").count() == 1
}

/// Where the links and images of a line lead, without those in backquotes.
fn links(line: &str) -> Vec<String> {
    let words: String = line.split('`').step_by(2).collect::<Vec<_>>().join("`");
    let mut found = Vec::new();
    for (start, end) in [
        ("](", ')'),
        ("src=\"", '"'),
        ("srcset=\"", '"'),
        ("href=\"", '"'),
    ] {
        for piece in words.split(start).skip(1) {
            let target = piece.split(end).next().unwrap_or_default();
            found.extend(target.split(' ').next().map(str::to_string));
        }
    }
    found
}

/// Whether a link leads to a file or folder, and its anchor to a heading. Links to elsewhere are not followed.
fn leads(tree: &Tree, page: &str, link: &str) -> Result<(), String> {
    if link.contains(':') {
        return Ok(());
    }
    let (target, anchor) = link.split_once('#').unwrap_or((link, ""));
    let path = match target.is_empty() {
        true => page.to_string(),
        false => joined(page, target),
    };
    if !tree.is_file(&path) && !tree.is_folder(&path) {
        return Err(format!(
            "the link {link} leads to {path}, which is not there"
        ));
    }
    let text = tree.text(&path).unwrap_or_default();
    match anchor.is_empty() || anchors(text).iter().any(|slug| slug == anchor) {
        true => Ok(()),
        false => Err(format!("the link {link}: {path} has no heading #{anchor}")),
    }
}

/// The path that a page's link means.
fn joined(page: &str, target: &str) -> String {
    let mut names: Vec<&str> = page.split('/').collect();
    names.pop();
    for name in target.trim_end_matches('/').split('/') {
        match name {
            "." => {}
            ".." => _ = names.pop(),
            name => names.push(name),
        }
    }
    names.join("/")
}

/// What a page's headings are linked by: their words in small letters, with hyphens for blanks and nothing else.
fn anchors(text: &str) -> Vec<String> {
    let mut anchors: Vec<String> = Vec::new();
    for part in parts(text) {
        let What::Heading { title, .. } = part.what else {
            continue;
        };
        let kept = |c: &char| c.is_alphanumeric() || " -_".contains(*c);
        let slug: String = title.to_lowercase().chars().filter(kept).collect();
        let slug = slug.replace(' ', "-");
        let mut anchor = slug.clone();
        let mut again = 0;
        while anchors.contains(&anchor) {
            again += 1;
            anchor = format!("{slug}-{again}");
        }
        anchors.push(anchor);
    }
    anchors
}

#[test]
fn forms() {
    let long = "x".repeat(121);
    let page = |text: &str| {
        let tree = Tree::made(&[("docs/A.md", text), ("README.md", text)]);
        (
            faults(&tree, "docs/A.md").len(),
            faults(&tree, "README.md").len(),
        )
    };
    assert_eq!(page(&long), (1, 1));
    assert_eq!(page(&"é".repeat(120)), (0, 0));
    assert_eq!(page(&format!("| {long} |")), (0, 1));
    assert_eq!(page(&format!("```\n{long}\n```")), (0, 1));
    assert_eq!(page(&format!("[{long}](#a)\n# A")), (0, 1));
    assert_eq!(page("words \n"), (1, 1));
    assert_eq!(page(&"line\n".repeat(151)), (0, 1));
    let none = Tree::made(&[]);
    assert_eq!(faults(&none, "README.md").len(), 1);
}

#[test]
fn links_lead() {
    let page = "# What is proved: `a` and b\n\n[one](../README.md) [two](B.md#more-on-it) [three](#what-is-proved-a-and-b)\n![four](a.svg) [five](https://a/b) `[six](none.md)` [seven](../crates/x)";
    let files = [
        ("docs/A.md", page),
        ("docs/B.md", "## More on it\n"),
        ("docs/a.svg", ""),
        ("README.md", ""),
        ("crates/x/src/lib.rt", ""),
    ];
    assert_eq!(faults(&Tree::made(&files), "docs/A.md"), [""; 0]);
    for (from, to) in [
        ("README", "READER"),
        ("more-on", "more-of"),
        ("proved-a", "proved"),
        ("a.svg", "b.svg"),
        ("crates/x", "crates/y"),
    ] {
        let changed = page.replace(from, to);
        let mut tree = Tree::made(&files);
        tree.set("docs/A.md", changed);
        let found = faults(&tree, "docs/A.md");
        assert_eq!(found.len(), 1, "{from} made {to}: {found:?}");
    }
}
