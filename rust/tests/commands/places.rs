//! Folders with the files of an exchange, and a look at all that a run did there.

use crate::program::calls::{new_name, Call};
use crate::program::due::SEED;
use crate::program::folder::{difference, Entry, Folder, Listing};
use crate::program::process::{program, run, Ended};
use crate::program::world::{is_secret, World};
use std::ffi::OsStr;

/// The mode of a file for its owner alone.
const OWNER_ALONE: u32 = 0o100600;

/// A file that nobody writes to, and whose rights are those of any new file here.
const ANY: &str = "circuit";

/// An exchange of 8 bits by half-gates, whose answer is yes.
pub fn world() -> World {
    World::new(8, [120, 150], SEED, 0, 3)
}

/// A fresh folder with all files of an exchange.
pub fn filled(world: &World) -> Folder {
    let folder = Folder::new();
    for (name, bytes) in &world.files {
        folder.write(name, bytes);
    }
    folder
}

/// Runs the program in a folder.
pub fn run_in<W: AsRef<OsStr>>(folder: &Folder, words: &[W]) -> Ended {
    run(&mut program(folder, words), b"")
}

/// The folder as it is due after a call: what is named `new.` and so on is there, with the world's bytes and its rights.
pub fn listing_due(before: &Listing, world: &World, call: &Call) -> Listing {
    let mut due = before.clone();
    let any = before[OsStr::new(ANY)].mode;
    for (_, file) in call.all_written() {
        let mode = if is_secret(file) { OWNER_ALONE } else { any };
        let bytes = world.file(file).to_vec();
        due.insert(new_name(file).into(), Entry { mode, bytes });
    }
    due
}

/// Runs words that are wrong in a folder, which must then be as it was.
pub fn run_untouched<W: AsRef<OsStr> + std::fmt::Debug>(folder: &Folder, words: &[W]) -> Ended {
    let before = folder.listing();
    let ended = run_in(folder, words);
    assert_eq!(difference(&before, &folder.listing()), None, "{words:?}");
    ended
}

/// The words, and some more after them.
pub fn and<'a>(words: &'a [String], more: &[&'a str]) -> Vec<&'a str> {
    words.iter().map(String::as_str).chain(more.iter().copied()).collect()
}
