//! A page in Markdown, as far as its form is used here: headings, tables, paragraphs, code in backquotes.

/// A part of a page, with the line that it starts at, from 1.
#[derive(Debug, PartialEq)]
pub struct Part {
    pub line: usize,
    pub what: What,
}

#[derive(Debug, PartialEq)]
pub enum What {
    Heading {
        level: usize,
        title: String,
    },
    /// A table's first row.
    Head(Vec<String>),
    /// Any other row of it, its cells.
    Row(Vec<String>),
    /// A paragraph, or an item of a list: its lines.
    Text(String),
}

/// A page's parts in order. Blocks of code are left out.
pub fn parts(page: &str) -> Vec<Part> {
    let mut parts: Vec<Part> = Vec::new();
    let (mut fenced, mut in_table, mut in_text) = (false, false, false);
    for (i, line) in page.lines().enumerate() {
        let trimmed = line.trim_start();
        if trimmed.starts_with("```") {
            fenced = !fenced;
        }
        let (table, text) = (in_table, in_text);
        (in_table, in_text) = (false, false);
        if fenced || trimmed.starts_with("```") || trimmed.is_empty() {
            continue;
        }
        let what = if let Some(heading) = heading(line) {
            heading
        } else if line.starts_with('|') {
            in_table = true;
            let cells = cells(line);
            let rule = |cell: &String| !cell.is_empty() && cell.chars().all(|c| "-: ".contains(c));
            match table {
                false => What::Head(cells),
                true if cells.iter().all(rule) => continue,
                true => What::Row(cells),
            }
        } else {
            in_text = true;
            if let (true, false, Some(last)) = (text, is_item(trimmed), parts.last_mut()) {
                if let What::Text(before) = &mut last.what {
                    before.push('\n');
                    before.push_str(line);
                    continue;
                }
            }
            What::Text(line.to_string())
        };
        parts.push(Part { line: i + 1, what });
    }
    parts
}

fn heading(line: &str) -> Option<What> {
    let title = line.trim_start_matches('#');
    let level = line.len() - title.len();
    let title = title.strip_prefix(' ')?.trim().to_string();
    (1..=6)
        .contains(&level)
        .then_some(What::Heading { level, title })
}

fn is_item(line: &str) -> bool {
    let number = line.trim_start_matches(|c: char| c.is_ascii_digit());
    line.starts_with("- ") || (number.len() < line.len() && number.starts_with(". "))
}

/// A row's cells: a bar in backquotes is none between cells.
fn cells(row: &str) -> Vec<String> {
    let mut cells = vec![String::new()];
    let mut code = false;
    for c in row.trim().trim_matches('|').chars() {
        code ^= c == '`';
        match c == '|' && !code {
            true => cells.push(String::new()),
            false => cells.last_mut().expect("a cell").push(c),
        }
    }
    cells.iter().map(|cell| cell.trim().to_string()).collect()
}

/// Something in backquotes: the words between it and the one before, and how many lines above it they have.
#[derive(Debug, PartialEq)]
pub struct Code {
    pub before: String,
    pub code: String,
    pub lines: usize,
}

/// What stands in backquotes in a text, and the words after the last. Lines are joined by blanks.
pub fn codes(text: &str) -> (Vec<Code>, String) {
    let mut pieces = text.split('`');
    let mut before = pieces.next().unwrap_or_default();
    let mut lines = before.matches('\n').count();
    let mut codes = Vec::new();
    while let Some(code) = pieces.next() {
        codes.push(Code {
            before: joined(before),
            code: joined(code),
            lines,
        });
        before = pieces.next().unwrap_or_default();
        lines += code.matches('\n').count() + before.matches('\n').count();
    }
    (codes, joined(before))
}

fn joined(text: &str) -> String {
    let mut lines = text.split('\n');
    let mut whole = lines.next().unwrap_or_default().to_string();
    for line in lines {
        whole.push(' ');
        whole.push_str(line.trim_start());
    }
    whole
}

#[test]
fn parts_of_a_page() {
    let page = "# A page\n\nWords,\nand `more`.\n- one\n- two\n  still two\n\n| a | `b|c` |\n|---|---|\n| d | e |\n\n```\n| no row |\n```\n";
    let parts = parts(page);
    let heading = What::Heading {
        level: 1,
        title: "A page".to_string(),
    };
    let row = |cells: [&str; 2]| cells.map(str::to_string).to_vec();
    let found: Vec<(usize, &What)> = parts.iter().map(|part| (part.line, &part.what)).collect();
    let due = [
        (1, &heading),
        (3, &What::Text("Words,\nand `more`.".to_string())),
        (5, &What::Text("- one".to_string())),
        (6, &What::Text("- two\n  still two".to_string())),
        (9, &What::Head(row(["a", "`b|c`"]))),
        (11, &What::Row(row(["d", "e"]))),
    ];
    assert_eq!(found, due);
}

#[test]
fn codes_of_a_text() {
    let (found, after) = codes("law `a` of\n  `b`; end");
    let code = |before: &str, code: &str, lines| Code {
        before: before.to_string(),
        code: code.to_string(),
        lines,
    };
    assert_eq!(found, [code("law ", "a", 0), code(" of ", "b", 1)]);
    assert_eq!(after, "; end");
}
