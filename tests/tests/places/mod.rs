//! Folders for the tests of the repository's scripts. Each holds copies of the scripts, and stand-ins for
//! what they start, which do what the test says and leave a trace. So no toolchain is needed, and the
//! repository's own build stays untouched. They are outside the repository, where `rt ci` refuses links and a
//! second list of crates, and are removed.

use std::env;
use std::fs::{self, File};
use std::os::unix::fs::PermissionsExt;
use std::os::unix::process::CommandExt;
use std::path::{Path, PathBuf};
use std::process::{self, Child, Command, Stdio};
use std::sync::{Mutex, MutexGuard, PoisonError};
use std::thread;
use std::time::{Duration, Instant};

/// The time that one run may take.
const TIME: Duration = Duration::from_secs(10);

/// For a stand-in for `rt`, in sh: what `rt` says of a crate that it proves, and of one that is unchanged. The
/// crate is proved once the script has said so, or after five seconds.
pub const PLAYS: &str = "\
begins() { echo \"rt: chose --jobs 2 for $1\"; }
ends() { echo \"crate $1: modules loaded=2 checked=1\"; }
unchanged() { :; }
said() {
    turns=0
    until grep -qF \"$1\" \"$root/stdout\" \"$root/stderr\" || [ $turns -eq 100 ]; do
        sleep 0.05
        turns=$((turns + 1))
    done
}
proves() { begins $1; said \"$1 (\"; ends $1; }
# Starts a process that takes no notice of signals, says that it runs, and waits for it.
lingers() {
    mktemp >/dev/null
    begins $1
    said \"$1 (\"
    sh -c 'trap \"\" INT TERM HUP; exec sleep 30' &
    echo $! >\"$root/lingering\"
    mv \"$root/lingering\" \"$root/lingers\"
    wait
}
";

/// A program that is still open for writing, in a process that another test is just starting too, cannot
/// be started. So one test runs at a time.
static ALONE: Mutex<()> = Mutex::new(());

/// A folder that is removed in the end.
struct Root(PathBuf);

/// A folder for one test.
pub struct Place {
    root: Root,
    _alone: MutexGuard<'static, ()>,
}

/// A run of the script that has ended. The status is none where a signal ended it.
#[derive(Debug)]
pub struct Ended {
    pub status: Option<i32>,
    pub stdout: String,
    pub stderr: String,
}

impl Place {
    /// An empty folder, for a test of a file of tests.
    pub fn empty(tests: &str, name: &str) -> Place {
        let alone = ALONE.lock().unwrap_or_else(PoisonError::into_inner);
        let root = env::temp_dir()
            .join(format!("weighhare-{tests}-{}", process::id()))
            .join(name);
        if root.exists() {
            fs::remove_dir_all(&root).expect("a folder of an earlier run to remove");
        }
        fs::create_dir_all(&root).expect("a folder to make");
        Place {
            root: Root(root),
            _alone: alone,
        }
    }

    pub fn path(&self, name: &str) -> PathBuf {
        self.root.0.join(name)
    }

    pub fn exists(&self, name: &str) -> bool {
        self.path(name).exists()
    }

    pub fn write(&self, name: &str, bytes: &[u8]) {
        let path = self.path(name);
        let folder = path.parent().expect("a folder of the file");
        fs::create_dir_all(folder).expect("a folder to make");
        fs::write(&path, bytes).expect("a file to write");
    }

    pub fn remove(&self, name: &str) {
        fs::remove_file(self.path(name)).expect("a file to remove");
    }

    /// Copies a file of the repository, with the right to run it where it has that.
    pub fn copy(&self, from: &str, to: &str) {
        self.write(to, b"");
        let from = Path::new(env!("CARGO_MANIFEST_DIR")).join("..").join(from);
        fs::copy(&from, self.path(to)).expect("a file of the repository to copy");
    }

    /// Writes a program in sh.
    pub fn stand_in(&self, name: &str, text: &str) {
        let text = format!("#!/bin/sh\nroot='{}'\n{text}", self.root.0.display());
        self.write(name, text.as_bytes());
        self.set_mode(name, 0o755);
    }

    pub fn set_mode(&self, name: &str, mode: u32) {
        let mode = fs::Permissions::from_mode(mode);
        fs::set_permissions(self.path(name), mode).expect("a file whose mode can be set");
    }

    /// A script to be run in the folder; its words are still to be given. Its standard input has nothing, if the
    /// redirection does not say else.
    pub fn command(&self, script: &str, redirection: &str) -> Command {
        let output = |name: &str| File::create(self.path(name)).expect("a file for the output");
        let mut command = Command::new("sh");
        command
            .arg("-c")
            .arg(format!("exec \"$0\" \"$@\" {redirection}"))
            .arg(script)
            .current_dir(&self.root.0)
            .stdin(Stdio::null())
            .stdout(output("stdout"))
            .stderr(output("stderr"))
            .process_group(0);
        command
    }

    /// The same on a terminal, where a command of sh is given. It is none where the system has no command for that.
    pub fn on_terminal(&self, command: &str, kind: &str) -> Option<Command> {
        let path = env::var_os("PATH").expect("a PATH");
        let mut found = env::split_paths(&path).map(|folder| folder.join("script"));
        let Some(found) = found.find(|file| file.is_file()) else {
            println!("NOT RUN: there is no command `script` here, which makes a terminal");
            return None;
        };
        let found = found.to_str().expect("a path in UTF-8");
        let mut on_terminal = self.command(found, "");
        on_terminal.args(["-qec", command, "/dev/null"]);
        on_terminal.env("SHELL", "/bin/sh").env("TERM", kind);
        Some(on_terminal)
    }

    /// Sends a signal to a script and all that runs in its process group, once `lingers` waits. Whatever was started
    /// ends, the repository's lock is free, and no temporary file is left.
    pub fn is_ended_by(&self, signal: &str, command: &mut Command) {
        self.write("temporary/file", b"");
        let child = command.env("TMPDIR", self.path("temporary")).spawn();
        let child = child.expect("a script that can be started");
        let group = format!("-{}", child.id());
        wait_until("the stand-in waits", || self.exists("lingers"));
        let sent = Command::new("kill")
            .args(["-s", signal, "--", &group])
            .status();
        assert!(sent.is_ok_and(|status| status.success()));
        let ended = self.end(child);
        assert_eq!(ended.status, None, "{signal}: {ended:?}");
        assert_eq!(ended.stdout, "");
        assert!(
            ended.stderr.ends_with(")\n") && ended.stderr.lines().count() == 1,
            "{ended:?}"
        );
        self.has_nothing_left();
    }

    /// The process that `lingers` started has ended, the repository's lock is free, and no temporary file is left.
    pub fn has_nothing_left(&self) {
        let process = fs::read_to_string(self.path("lingers")).expect("a number of a process");
        self.remove("lingers");
        wait_until("its child has ended", || !is_running(process.trim_end()));
        let lock = || {
            Command::new("flock")
                .arg("-n")
                .arg(self.path("a repository"))
                .arg("true")
                .status()
        };
        wait_until("the lock is free", || {
            lock().is_ok_and(|status| status.success())
        });
        let files = || {
            fs::read_dir(self.path("temporary"))
                .expect("a folder")
                .count()
        };
        wait_until("its files are gone", || files() == 1);
    }

    /// Waits for the end of a script; kills it, with all that it started, after the time it may take.
    pub fn end(&self, mut child: Child) -> Ended {
        let start = Instant::now();
        let status = loop {
            if let Some(status) = child.try_wait().expect("a child to wait for") {
                break status;
            }
            if start.elapsed() > TIME {
                let group = format!("-{}", child.id());
                let killed = Command::new("kill").args(["-9", "--", &group]).status();
                assert!(killed.is_ok_and(|status| status.success()));
                child.wait().expect("a killed child");
                panic!("the script ran for more than {TIME:?}");
            }
            thread::sleep(Duration::from_millis(1));
        };
        let read = |name: &str| fs::read_to_string(self.path(name)).expect("readable output");
        Ended {
            status: status.code(),
            stdout: read("stdout"),
            stderr: read("stderr"),
        }
    }
}

impl Drop for Root {
    /// The folder of all goes with the last that is in it.
    fn drop(&mut self) {
        let _ = fs::remove_dir_all(&self.0);
        let _ = self.0.parent().map(fs::remove_dir);
    }
}

impl Ended {
    /// What a script does where all is up to date: this status, this standard output, and no message.
    pub fn answers(&self, status: i32, stdout: &str) {
        let due = (Some(status), stdout, "");
        let found = (self.status, self.stdout.as_str(), self.stderr.as_str());
        assert_eq!(found, due);
    }

    /// Standard error, with a T for each time.
    pub fn timeless(&self) -> String {
        timeless(&self.stderr)
    }

    /// An error: status 2, nothing on standard output, and a message that has this.
    pub fn is_error(&self, message: &str) {
        assert_eq!(self.status, Some(2), "{self:?}");
        assert_eq!(self.stdout, "", "{self:?}");
        assert!(self.stderr.contains(message), "no {message:?}: {self:?}");
    }
}

/// Whether a process is there and has not ended.
fn is_running(process: &str) -> bool {
    let stat = fs::read_to_string(format!("/proc/{process}/stat"));
    stat.is_ok_and(|stat| !stat.contains(") Z "))
}

/// Waits for something that comes soon.
fn wait_until(what: &str, holds: impl Fn() -> bool) {
    let start = Instant::now();
    while !holds() {
        assert!(start.elapsed() < TIME, "it is not so that {what}");
        thread::sleep(Duration::from_millis(1));
    }
}

/// Of the signals INT, TERM and HUP those that are not ignored here: a script cannot heed one that is.
pub fn signals() -> Vec<&'static str> {
    let status = fs::read_to_string("/proc/self/status").expect("this process");
    let ignored = status.lines().find_map(|line| line.strip_prefix("SigIgn:"));
    let ignored = u64::from_str_radix(ignored.expect("signals").trim(), 16).expect("a number");
    let all = [("INT", 2), ("TERM", 15), ("HUP", 1)].into_iter();
    all.filter(|(_, number)| ignored >> (number - 1) & 1 == 0)
        .map(|(name, _)| name)
        .collect()
}

/// What was written to a terminal, with a T for each time: parts that each begin where the line does, without
/// repetitions.
pub fn drawn(output: &str) -> Vec<String> {
    let mut parts: Vec<String> = timeless(output).split('\r').map(str::to_owned).collect();
    parts.dedup();
    parts
}

/// What is written over the line of a terminal, but for its beginning.
pub fn over(line: &str) -> String {
    format!("\x1b[?7l{line}\x1b[K\x1b[?7h")
}

/// A text with a T for each time that has passed, which is minutes, a colon and two digits of seconds.
pub fn timeless(text: &str) -> String {
    let parts: Vec<&str> = text.split(" so far").collect();
    let (last, timed) = parts.split_last().expect("a last part");
    let without_time = |part: &&str| {
        let (before, time) = part.rsplit_once('(').expect("a bracket before a time");
        let (minutes, seconds) = time.split_once(':').expect("a time");
        let is_number = |text: &str| text.parse::<u8>().is_ok();
        let is_time = is_number(minutes) && is_number(seconds) && seconds.len() == 2;
        assert!(is_time, "{text}");
        format!("{before}(T so far")
    };
    timed.iter().map(without_time).collect::<String>() + last
}
