//! What the command line asks for.

use std::env;
use std::time::Duration;

/// How the options are given.
pub const USAGE: &str = "options: --seconds N (how long the random part runs; WEIGHHARE_SECONDS, \
                         or 40), --seed N (1), --case N (that random case alone)";

/// The options, with what holds where they are not given.
#[derive(Clone, Copy)]
pub struct Options {
    /// How long the random part runs.
    pub time: Duration,
    /// What the random cases are made from.
    pub seed: u64,
    /// The one case to run.
    pub case: Option<u64>,
    /// Whether the run was asked for: a name as cargo hands it on may be another test's.
    pub chosen: bool,
}

/// How long the random part runs where the command line does not say; nothing where it is no number.
fn usual_seconds() -> Option<u64> {
    match env::var("WEIGHHARE_SECONDS") {
        Ok(seconds) => seconds.parse().ok(),
        Err(_) => Some(40),
    }
}

/// Reads the options; nothing where they are wrong.
pub fn read(words: impl Iterator<Item = String>) -> Option<Options> {
    let mut options = Options {
        time: Duration::from_secs(usual_seconds()?),
        seed: 1,
        case: None,
        chosen: true,
    };
    let mut words = words.skip(1);
    while let Some(word) = words.next() {
        if !word.starts_with("--") {
            options.chosen = "differential".contains(&word);
            continue;
        }
        let number: u64 = words.next()?.parse().ok()?;
        match word.as_str() {
            "--seconds" => options.time = Duration::from_secs(number),
            "--seed" => options.seed = number,
            "--case" => options.case = Some(number),
            _ => return None,
        }
    }
    Some(options)
}
