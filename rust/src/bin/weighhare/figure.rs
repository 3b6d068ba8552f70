//! Figures and values, as they are given to a command.

use crate::arguments::{decimal, Arguments};
use crate::input::Input;
use crate::trouble::Trouble;
use std::ffi::OsStr;
use std::os::unix::ffi::OsStrExt;
use weighhare::{figure_values, Secret};

/// What is said of a word that is no figure. The word itself is not said: it may be a figure that was mistyped.
const FORM: &str = "a figure is FIGURE:BITS or @FILE:BITS: a number in decimal, and 1 to 4096 bits for it";

/// The most bits that a figure can have: a circuit has no more inputs.
const MOST: u64 = 4096;

/// The values of a figure in decimal, lowest bit first. `what` it is, an option or a file, is for the message.
pub fn values_of(what: &str, word: &[u8], bits: usize, malformed: impl FnOnce() -> Trouble) -> Result<Secret, Trouble> {
    if word.is_empty() || !word.iter().all(u8::is_ascii_digit) {
        return Err(malformed());
    }
    let mut values = Secret::from(vec![0; bits]);
    let put = match decimal(word) {
        Some(figure) => figure_values(figure, &mut values).map_err(|error| error.to_string()),
        // No figure here has more than 64 bits.
        None if bits <= 64 => Err(format!("the figure does not fit in {bits} bits")),
        None => Err("the figure has more than 64 bits".to_owned()),
    };
    put.map_err(|message| Trouble::Failed(format!("{what}: {message}")))?;
    Ok(values)
}

/// The values of `FIGURE:BITS` or `@FILE:BITS`. The file has the figure in decimal, with white space around it or none: what
/// stands in a file does not stand in the list of processes.
pub fn figure_option(arguments: &Arguments, input: &mut Input, word: &OsStr) -> Result<Secret, Trouble> {
    let malformed = || arguments.wrong(FORM);
    let bytes = word.as_bytes();
    let colon = bytes.iter().rposition(|byte| *byte == b':').ok_or_else(malformed)?;
    let bits = decimal(&bytes[colon + 1..]).filter(|bits| (1..=MOST).contains(bits));
    let bits = bits.ok_or_else(malformed)? as usize;
    match bytes[..colon].strip_prefix(b"@") {
        Some(file) => {
            let text = input.read_secret("a figure", OsStr::from_bytes(file))?;
            let what = format!("{:?}", OsStr::from_bytes(file).display().to_string());
            let malformed = || Trouble::Failed(format!("{what}: the figure's file has no number in decimal"));
            values_of(&what, text.trim_ascii(), bits, malformed)
        }
        None => values_of("--figure", &bytes[..colon], bits, malformed),
    }
}

/// The value list that `--values` or `--figure`, as often as it is given, says.
pub fn all_values(arguments: &Arguments, input: &mut Input) -> Result<Secret, Trouble> {
    let mut figures = Vec::new();
    for word in arguments.all("--figure") {
        figures.push(figure_option(arguments, input, word)?);
    }
    match (arguments.option("--values"), figures.is_empty()) {
        (Some(file), true) => input.read_secret("the values", file),
        (None, false) => Ok(joined(&figures)),
        _ => Err(arguments.wrong("either --values or --figure says the values")),
    }
}

/// Lists one after the other.
pub fn joined(lists: &[Secret]) -> Secret {
    let mut all = Secret::from(vec![0; lists.iter().map(|list| list.len()).sum()]);
    let mut rest = &mut all[..];
    for list in lists {
        let (front, after) = rest.split_at_mut(list.len());
        front.copy_from_slice(list);
        rest = after;
    }
    all
}
