//! The archive, through the C interface, with stored cases of evaluate's list form: the number, the four
//! words and the whole buffer are those that the case has. Nothing is computed here. The files are
//! `data/evaluate-gates` and that name with `-generated`, `-one-operand`, `-rekeyed` and `-hashed`.

#[path = "../src/archive.rs"]
mod archive;

use second::interface;
use second::lines;

/// The files, each with its name and how many cases it has: of the third reading of 01, and of the
/// second implementation, with 01's codes, with gates that use one operand, of scheme 4, and with hashes.
const FILES: [(&str, &str, usize); 5] = [
    ("evaluate-gates", include_str!("../data/evaluate-gates"), 4),
    (
        "evaluate-gates-generated",
        include_str!("../data/evaluate-gates-generated"),
        462,
    ),
    (
        "evaluate-gates-one-operand",
        include_str!("../data/evaluate-gates-one-operand"),
        198,
    ),
    (
        "evaluate-gates-rekeyed",
        include_str!("../data/evaluate-gates-rekeyed"),
        122,
    ),
    (
        "evaluate-gates-hashed",
        include_str!("../data/evaluate-gates-hashed"),
        194,
    ),
];

/// Runs the case on a line, at each of the places that gate records may stand.
fn compare(line: &str) -> Result<(), String> {
    let (call, expected) = lines::list_case(line).ok_or("no case")?;
    if lines::case(&call, &expected).trim_end() != line {
        return Err("not all of the line was read".to_string());
    }
    let due = interface::answer(expected);
    for skew in (0..16).step_by(2) {
        let given = archive::run(&call, &call.buffers(), skew)?;
        if given != due {
            return Err(format!("gave {given:02x?}, due {due:02x?}"));
        }
    }
    Ok(())
}

#[test]
fn the_archive_agrees_with_every_case() {
    for (name, text, cases) in FILES {
        for (index, line) in text.lines().enumerate() {
            if let Err(difference) = compare(line) {
                panic!("{name}, line {}: {difference}", index + 1);
            }
        }
        assert_eq!(text.lines().count(), cases, "{name}");
    }
}
