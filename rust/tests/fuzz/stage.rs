//! The folder of the runs of one worker: before each run it has the files of the case, and nothing else but an empty folder.

use super::cases::Case;
use crate::program::folder::{Entry, Folder, Listing};
use crate::program::process::{program, run, Ended};
use std::ffi::{OsStr, OsString};
use std::os::unix::ffi::{OsStrExt, OsStringExt};

pub struct Stage {
    folder: Folder,
    found: Listing,
    /// The mode that a file has which anybody makes here.
    pub any: u32,
}

impl Stage {
    pub fn new() -> Self {
        let folder = Folder::new();
        folder.make_folder("folder");
        folder.write("any", b"");
        let found = folder.listing();
        let any = found[OsStr::new("any")].mode;
        Self { folder, found, any }
    }

    /// Puts the files of a case there. Files that are right already are left.
    fn set(&mut self, case: &Case) {
        let names: Vec<OsString> = self.found.keys().cloned().collect();
        for name in names.into_iter().filter(|name| name != "folder") {
            let due = case.files.contains_key(name.as_bytes());
            if !due || self.found[&name].mode != self.any {
                self.folder.remove(&name);
                self.found.remove(&name);
            }
        }
        for (name, bytes) in &case.files {
            let (name, mode) = (OsString::from_vec(name.clone()), self.any);
            if self.found.get(&name).is_none_or(|found| found.bytes != *bytes) {
                self.folder.write(&name, bytes);
                let bytes = bytes.clone();
                self.found.insert(name, Entry { mode, bytes });
            }
        }
    }

    /// Runs a case. Gives how it ended, and the folder before and after.
    pub fn run(&mut self, case: &Case) -> (Ended, Listing, Listing) {
        self.set(case);
        let before = self.found.clone();
        let words = case.words.iter().map(|word| OsStr::from_bytes(word));
        let ended = run(&mut program(&self.folder, words), &case.stdin);
        self.found = self.folder.listing();
        (ended, before, self.found.clone())
    }
}
