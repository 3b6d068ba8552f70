//! Runs of the program, each a process of its own.

use super::folder::Folder;
use std::env;
use std::ffi::OsStr;
use std::io::Write;
use std::os::unix::process::ExitStatusExt;
use std::path::Path;
use std::process::{Child, Command, Stdio};
use std::sync::mpsc::{self, RecvTimeoutError};
use std::thread;
use std::time::Duration;

/// The program that is tested.
pub const PROGRAM: &str = env!("CARGO_BIN_EXE_weighhare");

/// The time that a run may take. After it the run is ended by a signal, so that the test fails and does not hang.
const TIME: Duration = Duration::from_secs(60);

/// A run that has ended, by itself with a status, or by a signal, and all that it printed.
#[derive(Clone, Debug, PartialEq, Eq)]
pub struct Ended {
    pub status: Option<i32>,
    pub signal: Option<i32>,
    pub stdout: Vec<u8>,
    pub stderr: Vec<u8>,
}

/// The program with these words, to be run in a folder.
pub fn program<W: AsRef<OsStr>>(folder: &Folder, words: impl IntoIterator<Item = W>) -> Command {
    let mut command = Command::new(PROGRAM);
    command.args(words).current_dir(folder.root());
    command
}

/// A line for a shell, to be run in a folder. `weighhare` is the program that is tested.
pub fn shell(folder: &Path, line: &str) -> Command {
    let own = Path::new(PROGRAM).parent().expect("the program's folder");
    let others = env::var_os("PATH").expect("a PATH");
    let path = env::join_paths([own.to_owned()].into_iter().chain(env::split_paths(&others)));
    let mut command = Command::new("bash");
    command.args(["-c", line]).current_dir(folder);
    command.env("PATH", path.expect("a PATH with the program's folder"));
    command
}

/// Runs a command to its end, with these bytes as its standard input.
pub fn run(command: &mut Command, stdin: &[u8]) -> Ended {
    run_to(command, stdin, Stdio::piped())
}

/// As `run`, with standard output to somewhere else.
pub fn run_to(command: &mut Command, stdin: &[u8], stdout: impl Into<Stdio>) -> Ended {
    let none = stdin.is_empty();
    command.stdin(if none { Stdio::null() } else { Stdio::piped() });
    command.stdout(stdout).stderr(Stdio::piped());
    let mut child = command.spawn().expect("a program that can be started");
    let pipe = child.stdin.take();
    thread::scope(|scope| {
        if let Some(mut pipe) = pipe {
            // Who needs no more closes its standard input: a failed write is no fault.
            scope.spawn(move || pipe.write_all(stdin).is_ok());
        }
        end(child)
    })
}

/// Waits for the end of a process.
fn end(child: Child) -> Ended {
    let id = child.id().to_string();
    let (ended, waits) = mpsc::channel::<()>();
    let watch = thread::spawn(move || {
        if waits.recv_timeout(TIME) == Err(RecvTimeoutError::Timeout) {
            let killed = Command::new("kill").args(["-9", &id]).status();
            killed.expect("a process to end");
        }
    });
    let output = child.wait_with_output().expect("a process to wait for");
    drop(ended);
    watch.join().expect("the watch over a process");
    Ended {
        status: output.status.code(),
        signal: output.status.signal(),
        stdout: output.stdout,
        stderr: output.stderr,
    }
}

impl Ended {
    pub fn stdout(&self) -> String {
        String::from_utf8_lossy(&self.stdout).into_owned()
    }

    pub fn stderr(&self) -> String {
        String::from_utf8_lossy(&self.stderr).into_owned()
    }

    /// All went well: these bytes, and no message.
    pub fn is_done(&self, stdout: &[u8]) {
        assert_eq!((self.status, self.stderr()), (Some(0), String::new()), "{self:?}");
        assert!(self.stdout == stdout, "printed {:?}", self.stdout());
    }

    /// A refusal, in these words, and nothing printed.
    pub fn is_refused(&self, said: &str) {
        assert_eq!((self.status, self.stderr().as_str()), (Some(1), said));
        assert_eq!(self.stdout(), "");
    }

    /// Trouble: nothing printed, and a message that has each of these.
    pub fn is_trouble(&self, named: &[&str]) {
        let stderr = self.stderr();
        assert_eq!((self.status, self.stdout().as_str()), (Some(2), ""), "{stderr}");
        assert!(stderr.starts_with("weighhare"), "{stderr}");
        assert!(!stderr.contains("panicked"), "{stderr}");
        for name in named {
            assert!(stderr.contains(name), "no {name:?}: {stderr}");
        }
    }
}
