//! docs/EXCHANGE.md: the commands that it types, and its tables.

const PAGE: &str = include_str!("../../../docs/EXCHANGE.md");

/// The sides. Each has a folder, which stands for its machine.
pub const SIDES: [&str; 3] = ["seller", "purchasing", "desk"];

/// A command as the page has it: the heading that it stands under, whose it is, and what it prints.
#[derive(Clone, Debug)]
pub struct Step {
    pub heading: &'static str,
    pub side: &'static str,
    pub command: String,
    pub output: String,
}

/// All commands of the page, in order.
pub fn steps() -> Vec<Step> {
    let mut steps = Vec::new();
    let (mut heading, mut typed) = ("", false);
    for line in PAGE.lines() {
        match line {
            "```console" => typed = true,
            "```" => typed = false,
            _ if typed => add_line(&mut steps, heading, line),
            _ => heading = line.strip_prefix("## ").unwrap_or(heading),
        }
    }
    steps
}

/// A line of a console: a side's prompt and its command, or what the command before it prints.
fn add_line(steps: &mut Vec<Step>, heading: &'static str, line: &str) {
    let prompted = |side: &&str| line.starts_with(&format!("{side}$ "));
    if let Some(side) = SIDES.into_iter().find(prompted) {
        let (command, output) = (line[side.len() + 2..].to_owned(), String::new());
        steps.push(Step {
            heading,
            side,
            command,
            output,
        });
    } else {
        assert!(!line.contains("$ "), "no side has this prompt: {line}");
        let step = steps.last_mut().expect("a command before its output");
        step.output += line;
        step.output += "\n";
    }
}

/// The commands from the page's top to this heading, and those from there on.
pub fn split_at(heading: &str) -> (Vec<Step>, Vec<Step>) {
    let steps = steps();
    let found = steps.iter().position(|step| step.heading == heading);
    let (before, after) = steps.split_at(found.expect("a command under the heading"));
    (before.to_vec(), after.to_vec())
}

/// The command of a step that begins so, and is the one of this index among such.
pub fn command(begins: &str, index: usize) -> Step {
    let mut found = steps().into_iter().filter(|step| step.command.starts_with(begins));
    found.nth(index).expect("a command that the page types")
}

/// The rows of the table under a heading, without its head, each as its cells.
pub fn table(heading: &str) -> Vec<Vec<&'static str>> {
    let mut lines = PAGE
        .lines()
        .skip_while(|line| line.strip_prefix("## ") != Some(heading));
    lines.next().expect("the heading");
    let within = lines.take_while(|line| !line.starts_with("## "));
    let rows = within.filter_map(|line| line.strip_prefix("| ")?.strip_suffix(" |"));
    rows.skip(1).map(|row| row.split(" | ").collect()).collect()
}

/// The number that a text says of bytes, such as 1,164 bytes or 16 random bytes.
pub fn bytes_said(text: &str) -> Option<usize> {
    let words: Vec<&str> = text.split(' ').collect();
    let unit = words
        .iter()
        .position(|word| word.trim_end_matches([',', '.']) == "bytes")?;
    let mut before = words[..unit]
        .iter()
        .rev()
        .map(|word| word.replace(',', "").parse().ok());
    before.by_ref().take(2).flatten().next()
}
