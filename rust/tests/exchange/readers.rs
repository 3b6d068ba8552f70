//! The page's commands that read files, and what the library says that each does with them.

use super::page::{self, split_at, Step};
use super::typed::{place, type_all};
use crate::program::due;
use std::collections::BTreeMap;
use std::sync::OnceLock;
use weighhare::Refusal;

/// The files of a place by their paths, such as `desk/circuit`.
pub type Files = BTreeMap<String, Vec<u8>>;

/// All files when the desk has evaluated, as the page's commands make them, but that the seed is the same in every run.
pub fn files() -> &'static Files {
    static FILES: OnceLock<Files> = OnceLock::new();
    FILES.get_or_init(|| {
        let place = place();
        for step in split_at("5. What is secret goes").0 {
            type_all(&place, std::slice::from_ref(&step));
            if step.command == "weighhare seed --out seed" {
                place.write("seller/seed", due::SEED);
            }
        }
        assert_eq!(place.read("seller/seed"), due::SEED, "no step after it made another");
        let listing = place.listing().into_iter();
        let files = listing.map(|(path, entry)| (path.into_string().expect("a plain name"), entry.bytes));
        files.filter(|(path, _)| path.contains('/')).collect()
    })
}

/// A command that reads files which may have been damaged.
#[derive(Clone, Copy, Debug, PartialEq, Eq)]
pub enum Reader {
    Garble,
    PickPrice,
    PickCeiling,
    Evaluate,
    Decode,
}

/// What a command does: the files that it writes, with their bytes, and what it prints.
#[derive(Debug, PartialEq, Eq)]
pub struct Done {
    pub written: Vec<(&'static str, Vec<u8>)>,
    pub printed: &'static str,
}

impl Reader {
    pub const ALL: [Self; 5] = [
        Self::Garble,
        Self::PickPrice,
        Self::PickCeiling,
        Self::Evaluate,
        Self::Decode,
    ];

    /// The command as the page types it.
    pub fn step(self) -> Step {
        match self {
            Self::Garble => page::command("weighhare garble ", 0),
            Self::PickPrice => page::command("weighhare pick ", 0),
            Self::PickCeiling => page::command("weighhare pick ", 1),
            Self::Evaluate => page::command("weighhare evaluate ", 0),
            Self::Decode => page::command("weighhare decode ", 0),
        }
    }

    /// The files that it reads and that the page's table has.
    pub fn reads(self) -> &'static [&'static str] {
        match self {
            Self::Garble => &["seller/seed"],
            Self::PickPrice | Self::PickCeiling => &["seller/zeros", "seller/ones"],
            Self::Evaluate => &[
                "desk/circuit",
                "desk/material",
                "desk/price.tokens",
                "desk/ceiling.tokens",
            ],
            Self::Decode => &["desk/circuit", "desk/material", "desk/outputs"],
        }
    }

    /// What the library's functions on slices give for these files.
    pub fn due(self, files: &Files) -> Result<Done, Refusal> {
        match self {
            Self::Garble => garbles(files),
            Self::PickPrice => picks(files, 1, "price", "seller/price.tokens"),
            Self::PickCeiling => picks(files, 33, "ceiling", "purchasing/ceiling.tokens"),
            Self::Evaluate => evaluates(files),
            Self::Decode => decodes(files),
        }
    }
}

fn done(written: Vec<(&'static str, Vec<u8>)>) -> Done {
    Done { written, printed: "" }
}

fn garbles(files: &Files) -> Result<Done, Refusal> {
    let (circuit, seed) = (&files["seller/circuit"], &files["seller/seed"]);
    let garbled = due::garble_with(due::HASHES, circuit, seed, 0, 3)?;
    let zeros = garbled.zeros().to_vec();
    Ok(done(vec![
        ("seller/material", garbled.material),
        ("seller/zeros", zeros),
        ("seller/ones", garbled.ones),
    ]))
}

/// The figure that the page has for a side.
fn figure(file: &str) -> u64 {
    super::typed::figure(&page::steps(), file)
}

fn picks(files: &Files, first: u16, figure_file: &str, written: &'static str) -> Result<Done, Refusal> {
    let bits = due::values(figure(figure_file), 32);
    let tokens = due::pick(&files["seller/zeros"], &files["seller/ones"], first, &bits)?;
    Ok(done(vec![(written, tokens)]))
}

fn evaluates(files: &Files) -> Result<Done, Refusal> {
    let tokens = [&files["desk/price.tokens"][..], &files["desk/ceiling.tokens"]].concat();
    let wires = due::evaluate(&files["desk/circuit"], &tokens, &files["desk/material"])?;
    let outputs = due::output_tokens(&files["desk/circuit"], &wires)?;
    Ok(done(vec![("desk/outputs", outputs)]))
}

fn decodes(files: &Files) -> Result<Done, Refusal> {
    let bits = due::decode(&files["desk/circuit"], &files["desk/outputs"], &files["desk/material"])?;
    let printed = due::answer(bits == [1]);
    Ok(Done {
        written: Vec::new(),
        printed,
    })
}
