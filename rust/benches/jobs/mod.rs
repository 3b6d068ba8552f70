//! What is measured: commands of the program, and the files that they read and write, in a folder of their own.

use crate::subject::{Subject, GATES};
use std::ffi::OsString;
use std::fs::{self, File};
use std::path::PathBuf;
use std::{env, io, process};

/// A command by a scheme on a circuit of so many gates: its words, and the files that it writes.
pub struct Job {
    pub operation: &'static str,
    pub scheme: u8,
    pub gates: usize,
    pub words: Vec<OsString>,
    written: Vec<PathBuf>,
    /// How often files were put away.
    done: usize,
}

impl Job {
    /// The comparison of two figures of 64 bits, whose circuit has 253 gates. No file is read or written.
    pub fn compare() -> Self {
        Self {
            operation: "compare",
            scheme: 3,
            gates: 253,
            words: ["1200", "1500", "--bits", "64"].map(OsString::from).to_vec(),
            written: Vec::new(),
            done: 0,
        }
    }

    /// Puts what the last command wrote out of the way of the next, which refuses to write over it. The files are emptied and not
    /// removed: a file system may pass over what was removed not long ago, one by one, whenever it makes a file (ext4 does).
    pub fn put_away(&mut self) -> io::Result<()> {
        for file in &self.written {
            File::create(file)?;
            fs::rename(file, file.with_extension(self.done.to_string()))?;
        }
        self.done += 1;
        Ok(())
    }

    /// Whether the files that were written have what the library's call wrote.
    pub fn wrote(&self, subject: &Subject) -> io::Result<bool> {
        let expected = match self.operation {
            "garble" => vec![subject.material(), subject.input_zeros(), &subject.ones],
            _ => vec![subject.outputs()],
        };
        for (file, bytes) in self.written.iter().zip(expected) {
            if fs::read(file)? != bytes {
                return Ok(false);
            }
        }
        Ok(true)
    }
}

/// A folder that was not there before. It goes when this is dropped, with all that is in it.
pub struct Folder(PathBuf);

impl Folder {
    /// The folder with the files that every scheme has.
    pub fn new(subject: &Subject) -> io::Result<Self> {
        let path = env::temp_dir().join(format!("weighhare-over-files-{}", process::id()));
        fs::create_dir(&path)?;
        let folder = Self(path);
        fs::write(folder.file("circuit"), &subject.circuit)?;
        fs::write(folder.file("seed"), subject.seed)?;
        Ok(folder)
    }

    fn file(&self, name: &str) -> PathBuf {
        self.0.join(name)
    }

    pub fn garble(&self, scheme: u8) -> Job {
        let written = ["material", "zeros", "ones"].map(|name| self.file(&format!("{name}-of-{scheme}")));
        let mut words = vec![self.file("circuit").into(), "--seed".into(), self.file("seed").into()];
        words.extend(["--scheme".into(), scheme.to_string().into()]);
        for (option, file) in ["--material", "--zeros", "--ones"].into_iter().zip(&written) {
            words.extend([option.into(), file.into()]);
        }
        Job {
            operation: "garble",
            scheme,
            gates: GATES,
            words,
            written: written.to_vec(),
            done: 0,
        }
    }

    /// The evaluation of what was garbled last, which is written to files for it.
    pub fn evaluate(&self, subject: &Subject, scheme: u8) -> io::Result<Job> {
        let material = self.file(&format!("material-{scheme}"));
        let tokens = self.file(&format!("tokens-{scheme}"));
        fs::write(&material, subject.material())?;
        fs::write(&tokens, &subject.tokens)?;
        let outputs = self.file(&format!("outputs-of-{scheme}"));
        let options = [
            ("--material", material),
            ("--tokens", tokens),
            ("--out", outputs.clone()),
        ];
        let mut words = vec![self.file("circuit").into()];
        for (option, file) in options {
            words.extend([option.into(), file.into()]);
        }
        Ok(Job {
            operation: "evaluate",
            scheme,
            gates: GATES,
            words,
            written: vec![outputs],
            done: 0,
        })
    }
}

impl Drop for Folder {
    fn drop(&mut self) {
        let _ = fs::remove_dir_all(&self.0);
    }
}
