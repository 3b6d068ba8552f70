//! Files that are written, whole or not at all, and what is printed.

use crate::arguments::Arguments;
use crate::trouble::Trouble;
use std::ffi::OsStr;
use std::fs::{self, File, OpenOptions};
use std::io::{self, IsTerminal, Write};
use std::os::fd::AsFd;
use std::os::unix::ffi::OsStrExt;
use std::os::unix::fs::OpenOptionsExt;
use std::path::{Path, PathBuf};
use std::process;

/// Who may read a file.
#[derive(Clone, Copy, PartialEq, Eq)]
pub enum For {
    /// Whoever the system lets.
    Everybody,
    /// Its owner alone: it is secret.
    Owner,
}

/// Prints a text.
pub fn print(text: &str) -> Result<(), Trouble> {
    print_bytes(text.as_bytes())
}

/// Bytes to standard output, past the buffer that the standard library has for it, which nobody would wipe.
fn print_bytes(bytes: &[u8]) -> Result<(), Trouble> {
    let unbuffered = io::stdout().as_fd().try_clone_to_owned();
    let printed = unbuffered.and_then(|out| File::from(out).write_all(bytes));
    printed.map_err(|error| Trouble::Failed(format!("cannot write to standard output: {error}")))
}

/// Bits as digits, on a line.
pub fn print_bits(bits: &[u8]) -> Result<(), Trouble> {
    let digits: String = bits.iter().map(|bit| if *bit == 0 { '0' } else { '1' }).collect();
    print(&(digits + "\n"))
}

/// A file that a command is to write: the option that names it, and who may read it.
struct Target<'a> {
    option: &'static str,
    file: &'a OsStr,
    readers: For,
}

/// The files that a command is to write.
pub struct Output<'a> {
    targets: Vec<Target<'a>>,
    may_replace: bool,
}

impl<'a> Output<'a> {
    /// The files that these options name, as far as they are given. Looked at before any work is done: none is there already,
    /// unless it may be replaced, no two are one, and standard output is named once and is no terminal.
    pub fn of(arguments: &'a Arguments, options: &[(&'static str, For)]) -> Result<Self, Trouble> {
        let mut targets = Vec::new();
        for &(option, readers) in options {
            let file = arguments.option(option);
            targets.extend(file.map(|file| Target { option, file, readers }));
        }
        let may_replace = arguments.option("--force").is_some();
        let output = Self { targets, may_replace };
        output.look_at_each()?;
        output.look_at_pairs()?;
        Ok(output)
    }

    fn look_at_each(&self) -> Result<(), Trouble> {
        for target in &self.targets {
            if target.file == "-" {
                if io::stdout().is_terminal() {
                    return Err(target.unwritten("standard output is a terminal, and these are bytes"));
                }
                continue;
            }
            match fs::symlink_metadata(target.file) {
                Ok(found) if !found.is_file() => {
                    return Err(target.unwritten("it is there already and is no file"));
                }
                Ok(_) if !self.may_replace => return Err(target.unwritten(THERE)),
                Err(error) if error.kind() != io::ErrorKind::NotFound => return Err(target.failed(&error)),
                _ if !ends_in_a_name(target.file) => return Err(target.unwritten("it is no name for a file")),
                _ => {}
            }
        }
        Ok(())
    }

    fn look_at_pairs(&self) -> Result<(), Trouble> {
        for (index, target) in self.targets.iter().enumerate() {
            for earlier in &self.targets[..index] {
                if place(target.file) == place(earlier.file) {
                    return Err(target.unwritten(&format!("{} names it too", earlier.option)));
                }
            }
        }
        Ok(())
    }

    /// Writes the contents of each option that was given. All files are first made under other names, so that where one cannot
    /// be written, none appears.
    pub fn write(&self, contents: &[(&str, &[u8])]) -> Result<(), Trouble> {
        let mut made = Vec::new();
        let mut printed: &[u8] = &[];
        for target in &self.targets {
            let Some((_, bytes)) = contents.iter().find(|content| content.0 == target.option) else {
                continue;
            };
            if target.file == "-" {
                printed = bytes;
            } else {
                let temporary = Temporary::new(target, bytes, made.len());
                made.push((target, temporary.map_err(|error| target.failed(&error))?));
            }
        }
        print_bytes(printed)?;
        self.appear(&made)
    }

    /// Gives the files their names. Where one cannot have its name, those that appeared before it go again.
    fn appear(&self, made: &[(&Target, Temporary)]) -> Result<(), Trouble> {
        for (index, (target, temporary)) in made.iter().enumerate() {
            let Err(error) = temporary.appear(self.may_replace) else {
                continue;
            };
            if !self.may_replace {
                for (_, earlier) in &made[..index] {
                    let _ = fs::remove_file(&earlier.file);
                }
            }
            return Err(match error.kind() {
                io::ErrorKind::AlreadyExists => target.unwritten(THERE),
                _ => target.failed(&error),
            });
        }
        Ok(())
    }
}

const THERE: &str = "it is there already, and --force would replace it";

impl Target<'_> {
    fn unwritten(&self, why: &str) -> Trouble {
        let file = self.file.display().to_string();
        Trouble::Failed(format!("cannot write {}, {file:?}: {why}", self.option))
    }

    fn failed(&self, error: &io::Error) -> Trouble {
        self.unwritten(&error.to_string())
    }
}

/// Whether a file's name ends in a name, and not in a slash or a dot.
fn ends_in_a_name(file: &OsStr) -> bool {
    let last = file.as_bytes().rsplit(|byte| *byte == b'/').next();
    !matches!(last, None | Some(b"" | b"." | b".."))
}

/// The folder of a file; `.` where its name has none.
fn folder(file: &Path) -> &Path {
    match file.parent() {
        Some(folder) if folder != Path::new("") => folder,
        _ => Path::new("."),
    }
}

/// Which file a name means: its folder, past all links, and its name there; standard output is none.
fn place(file: &OsStr) -> (Option<PathBuf>, &OsStr) {
    let path = Path::new(file);
    match (fs::canonicalize(folder(path)), path.file_name()) {
        (Ok(folder), Some(name)) if file != "-" => (Some(folder), name),
        _ => (None, file),
    }
}

/// A file's contents under another name beside it. What is left under that name goes when this is dropped.
struct Temporary {
    path: PathBuf,
    file: PathBuf,
}

impl Temporary {
    fn new(target: &Target, bytes: &[u8], index: usize) -> io::Result<Self> {
        let file = PathBuf::from(target.file);
        let (path, mut opened) = create_beside(&file, target.readers, index)?;
        let temporary = Self { path, file };
        opened.write_all(bytes)?;
        Ok(temporary)
    }

    /// Gives it its name. A link is refused where the name is taken, without a moment in between; where the file system has no
    /// links, the name is looked at first.
    fn appear(&self, may_replace: bool) -> io::Result<()> {
        if may_replace {
            return fs::rename(&self.path, &self.file);
        }
        match fs::hard_link(&self.path, &self.file) {
            Err(error) if error.kind() != io::ErrorKind::AlreadyExists => {
                if fs::symlink_metadata(&self.file).is_ok() {
                    return Err(io::ErrorKind::AlreadyExists.into());
                }
                fs::rename(&self.path, &self.file)
            }
            linked => linked,
        }
    }
}

/// A new file beside another. A process that was killed may have left one of the name that comes first.
fn create_beside(file: &Path, readers: For, index: usize) -> io::Result<(PathBuf, File)> {
    let mut attempt = 0;
    loop {
        let name = format!(".weighhare-{}-{index}-{attempt}", process::id());
        let path = folder(file).join(name);
        match create(&path, readers) {
            Err(error) if error.kind() == io::ErrorKind::AlreadyExists && attempt < ATTEMPTS => attempt += 1,
            created => return created.map(|opened| (path, opened)),
        }
    }
}

const ATTEMPTS: u32 = 100;

/// A new file, for its readers from the start.
fn create(path: &Path, readers: For) -> io::Result<File> {
    let mode = match readers {
        For::Everybody => 0o666,
        For::Owner => 0o600,
    };
    OpenOptions::new().write(true).create_new(true).mode(mode).open(path)
}

impl Drop for Temporary {
    fn drop(&mut self) {
        let _ = fs::remove_file(&self.path);
    }
}
