//! Fresh folders, and what lies in them.

use std::collections::BTreeMap;
use std::ffi::OsString;
use std::fs::{self, OpenOptions, Permissions};
use std::io::Write;
use std::os::unix::ffi::OsStrExt;
use std::os::unix::fs::PermissionsExt;
use std::path::{Path, PathBuf};
use std::sync::atomic::{AtomicUsize, Ordering};
use std::{env, process};

/// A folder that is new, and goes when this is dropped.
pub struct Folder {
    root: PathBuf,
}

/// What lies under a name: a file with its bytes, a link with the name that it has, or a folder with nothing, each with its
/// mode.
#[derive(Clone, Debug, PartialEq, Eq)]
pub struct Entry {
    pub mode: u32,
    pub bytes: Vec<u8>,
}

/// All that lies in a folder and in the folders in it, by name.
pub type Listing = BTreeMap<OsString, Entry>;

impl Folder {
    pub fn new() -> Self {
        static MADE: AtomicUsize = AtomicUsize::new(0);
        let number = MADE.fetch_add(1, Ordering::Relaxed);
        let root = env::temp_dir().join(format!("weighhare-tests-{}-{number}", process::id()));
        fs::create_dir(&root).expect("a folder to make");
        Self { root }
    }

    pub fn root(&self) -> &Path {
        &self.root
    }

    pub fn path(&self, name: impl AsRef<Path>) -> PathBuf {
        self.root.join(name)
    }

    pub fn make_folder(&self, name: &str) {
        fs::create_dir(self.path(name)).expect("a folder to make");
    }

    /// Writes a file over what it had: some file systems take long where it is emptied first.
    pub fn write(&self, name: impl AsRef<Path>, bytes: impl AsRef<[u8]>) {
        let bytes = bytes.as_ref();
        let opened = OpenOptions::new()
            .write(true)
            .create(true)
            .truncate(false)
            .open(self.path(name));
        let mut file = opened.expect("a file to open");
        file.write_all(bytes).expect("a file to write");
        file.set_len(bytes.len() as u64).expect("a length to set");
    }

    pub fn read(&self, name: impl AsRef<Path>) -> Vec<u8> {
        let path = self.path(name);
        fs::read(&path).unwrap_or_else(|error| panic!("cannot read {path:?}: {error}"))
    }

    pub fn remove(&self, name: impl AsRef<Path>) {
        fs::remove_file(self.path(name)).expect("a file to remove");
    }

    pub fn set_mode(&self, name: impl AsRef<Path>, mode: u32) {
        let set = fs::set_permissions(self.path(name), Permissions::from_mode(mode));
        set.expect("a mode to set");
    }

    /// The rights of a file, for its owner, its group and others.
    pub fn mode(&self, name: impl AsRef<Path>) -> u32 {
        let found = fs::symlink_metadata(self.path(name)).expect("a file to look at");
        found.permissions().mode() & 0o7777
    }

    pub fn listing(&self) -> Listing {
        let mut listing = Listing::new();
        self.list(Path::new(""), &mut listing);
        listing
    }

    fn list(&self, within: &Path, listing: &mut Listing) {
        for entry in fs::read_dir(self.root.join(within)).expect("a folder to list") {
            let entry = entry.expect("an entry of the folder");
            let (name, found) = (within.join(entry.file_name()), entry.metadata().expect("an entry"));
            let bytes = if found.is_symlink() {
                let target = fs::read_link(entry.path()).expect("a link to read");
                target.as_os_str().as_bytes().to_vec()
            } else if found.is_dir() {
                self.list(&name, listing);
                Vec::new()
            } else {
                fs::read(entry.path()).unwrap_or_default()
            };
            let mode = found.permissions().mode();
            listing.insert(name.into_os_string(), Entry { mode, bytes });
        }
    }
}

impl Drop for Folder {
    fn drop(&mut self) {
        let removed = fs::remove_dir_all(&self.root);
        // In a test that fails already, a second panic would hide the first.
        assert!(
            removed.is_ok() || std::thread::panicking(),
            "cannot remove {:?}",
            self.root
        );
    }
}

/// What differs between two listings, in words; nothing where they are the same.
pub fn difference(before: &Listing, after: &Listing) -> Option<String> {
    let mut said = Vec::new();
    for name in before
        .keys()
        .chain(after.keys().filter(|name| !before.contains_key(*name)))
    {
        match (before.get(name), after.get(name)) {
            (Some(_), None) => said.push(format!("{name:?} is gone")),
            (None, Some(_)) => said.push(format!("{name:?} is new")),
            (Some(was), Some(is)) if was.mode != is.mode => said.push(format!("{name:?} has mode {:o}", is.mode)),
            (was, is) if was != is => said.push(format!("{name:?} has other bytes")),
            _ => {}
        }
    }
    (!said.is_empty()).then(|| said.join(", "))
}
