//! Finds the archive of the proved library, for the build scripts of this package and of the repository's `tests`: the file
//! that WEIGHHARE_ARCHIVE names or, where it is not set, the one that the repository's script `tools/archive` gives.

use std::env;
use std::ffi::OsString;
use std::fs::{self, File};
use std::io;
use std::os::unix::ffi::OsStringExt;
use std::path::{Path, PathBuf};
use std::process::{Command, Output, Stdio};

/// What is said where this package does not lie in its repository.
const ALONE: &str = "\
no libweighhare.a: it is made in the library's repository, and this package does not lie there
set WEIGHHARE_ARCHIVE to the absolute path of a libweighhare.a that was made elsewhere, and try again";

/// Gives the folder that cargo lends to the build script, with a copy of the archive in it, `libweighhare.a`: so what the
/// linker reads is the same whatever the archive is called. It is no link, which `rt ci` refuses in the whole repository.
/// Where there is no archive it says why, and cargo ends the build.
pub fn link() -> Option<PathBuf> {
    println!("cargo::rerun-if-env-changed=WEIGHHARE_ARCHIVE");
    match find().and_then(|archive| copy(&archive)) {
        Ok(folder) => Some(folder),
        Err(message) => {
            for line in message.lines() {
                println!("cargo::error={line}");
            }
            None
        }
    }
}

fn find() -> Result<PathBuf, String> {
    match env::var_os("WEIGHHARE_ARCHIVE") {
        Some(name) if !name.is_empty() => given(PathBuf::from(name)),
        _ => own(&repository()),
    }
}

/// The file that WEIGHHARE_ARCHIVE names. A build script runs in its package's folder, and whoever gave a relative name was in
/// another.
fn given(name: PathBuf) -> Result<PathBuf, String> {
    if name.is_relative() {
        return Err(format!(
            "WEIGHHARE_ARCHIVE is {name:?}, which is not found: it must be an absolute path"
        ));
    }
    if !name.is_file() || File::open(&name).is_err() {
        return Err(format!(
            "WEIGHHARE_ARCHIVE is {name:?}, which is no file that can be read"
        ));
    }
    Ok(name)
}

/// The repository, if the package's folder lies in it.
fn repository() -> PathBuf {
    let package = env::var_os("CARGO_MANIFEST_DIR").expect("cargo names the package's folder");
    Path::new(&package).join("..")
}

/// The repository's own archive, which its script makes where it is missing or older than the crates.
fn own(repository: &Path) -> Result<PathBuf, String> {
    let script = repository.join("tools/archive");
    if !script.is_file() || !repository.join("crates/weighhare").is_dir() {
        return Err(ALONE.to_owned());
    }
    let crates = repository.join("crates");
    for source in sources(&crates).map_err(|error| format!("cannot read {crates:?}: {error}"))? {
        println!("cargo::rerun-if-changed={}", source.display());
    }
    let list = repository.join("crates.txt");
    println!("cargo::rerun-if-changed={}", list.display());
    let ended = Command::new(script).stdin(Stdio::null()).output();
    printed(ended.map_err(|error| format!("tools/archive did not start: {error}"))?)
}

/// The folders with the crates' sources. Beside them is what `rt` writes, which changes whenever it runs.
fn sources(crates: &Path) -> io::Result<Vec<PathBuf>> {
    let mut found = Vec::new();
    for entry in fs::read_dir(crates)? {
        let folder = entry?.path();
        let sources = ["src", "specs", "proofs"].map(|name| folder.join(name));
        found.extend(sources.into_iter().filter(|source| source.is_dir()));
    }
    Ok(found)
}

/// The path that the script printed, or what it said went wrong.
fn printed(ended: Output) -> Result<PathBuf, String> {
    let mut path = ended.stdout;
    if ended.status.success() && path.pop() == Some(b'\n') {
        return Ok(PathBuf::from(OsString::from_vec(path)));
    }
    if ended.stderr.is_empty() {
        return Err(format!("tools/archive ended with {}", ended.status));
    }
    Err(String::from_utf8_lossy(&ended.stderr).into_owned())
}

fn copy(archive: &Path) -> Result<PathBuf, String> {
    println!("cargo::rerun-if-changed={}", archive.display());
    let folder = env::var_os("OUT_DIR").expect("cargo names the folder for what is built");
    let folder = PathBuf::from(folder);
    let copy = folder.join("libweighhare.a");
    // There is none yet, or that of an earlier run, which may be a link.
    let _ = fs::remove_file(&copy);
    fs::copy(archive, &copy).map_err(|error| format!("cannot make {copy:?}: {error}"))?;
    Ok(folder)
}
