//! The scripts `weighhare` and `install` at the repository's top, and `tools/archive`, `tools/program` and
//! `tools/prove`, which they share: what they do before the program runs, and what they hand on to it. Each
//! test has a folder with copies of the scripts, and stand-ins for `rt`, `cargo` and the program. The PATH has
//! these and a few of the system's commands, and nothing else. Tested are when the archive is made and which
//! is taken, what is said where there is none, while the library is proved and where it is not, that
//! arguments, standard input and the status are handed on, links, two runs at once, signals, and how
//! `install` is called.

mod places;

use places::{drawn, over, signals, timeless, Ended, Place, PLAYS};
use std::env;
use std::ffi::OsStr;
use std::fs::{self, File};
use std::os::unix::ffi::OsStrExt;
use std::os::unix::fs::{symlink, PermissionsExt};
use std::path::Path;
use std::process::Command;
use std::time::{Duration, SystemTime};

const HOUR: Duration = Duration::from_secs(3600);

/// The copies, in a folder whose name has a blank.
const SCRIPT: &str = "a repository/weighhare";
const INSTALL: &str = "a repository/install";
const ARCHIVE_SCRIPT: &str = "a repository/tools/archive";
const HEADER: &str = "a repository/include/weighhare.h";
const CRATES: &str = "a repository/crates.txt";
/// It has not the ending of Rattle's files: `rt` looks for those in the whole repository, here too.
const SOURCE: &str = "a repository/crates/model/src/file";
/// The archive where `rt` makes it, and where it stays.
const MADE: &str = "a repository/crates/weighhare/out/libweighhare.a";
const ARCHIVE: &str = "a repository/target/staticlib/libweighhare.a";
const LOG: &str = "a repository/target/prove.log";

const SCRIPTS: [&str; 5] = [
    "weighhare",
    "install",
    "tools/archive",
    "tools/program",
    "tools/prove",
];

/// The library is of three crates; `io` is none of the repository's.
const CRATES_TEXT: &str =
    "# A list.\nmodel:\nbuffer : model # which it names\nother: model weighhare\n\
    weighhare staticlib: buffer io model";

/// The system's commands that the scripts and the stand-ins use.
const COMMANDS: &str =
    "bash cat chmod cp df dirname find flock grep install ls mkdir mktemp mv readlink rm rmdir \
    sed sh sleep sort tail touch";

/// What is said where the library is not proved.
const UNPROVED: &str = "the library is not proved, so its archive was not made\n";

/// What is said where it would have to be, and there is no `rt`.
const NO_ARCHIVE: [&str; 2] = [
    "no libweighhare.a: it is made by the Rattle toolchain's command rt, which is not on the PATH",
    "set WEIGHHARE_ARCHIVE to a libweighhare.a that was made elsewhere, or put rt on the PATH, and try again",
];

/// The stand-ins for what builds take all of their standard input first, and leave a line for each time.
const RT: &str = "cat >/dev/null\necho \"$(pwd -P): $*\" >>\"$root/rt-ran\"\n. \"$root/rt-does\"\n";
/// What one proof leaves of `rt`, which proves the crates that the library names first.
const RT_WORDS: [&str; 1] = ["crates/weighhare: lib"];
const CARGO: &str = "cat >/dev/null\necho \"$(pwd -P): $*\" >>\"$root/cargo-ran\"\n\
    echo \"$WEIGHHARE_ARCHIVE\" >\"$root/cargo-archive\"\n. \"$root/cargo-does\"\n";
const PROGRAM_TEXT: &str = "cat >\"$root/program-got\"\npwd -P >\"$root/program-where\"\n\
    for word; do printf '%s\\0' \"$word\"; done >\"$root/program-words\"\n. \"$root/program-does\"\n";

/// Makes the archive, where that is asked for.
const MAKE: &str = "if [ $1 = lib ]; then echo made >out/libweighhare.a; fi";

/// What is said of all three crates, where none was proved before.
const ALL: [(usize, &str); 3] = [(1, "model"), (2, "buffer"), (3, "weighhare")];
const FROM_NOTHING: &str = ", about 4 minutes in all";

/// Builds the program, in one step for whoever looks at it meanwhile.
const BUILD: &str = "mkdir -p target/release && cp \"$root/built\" target/built.$$ && mv target/built.$$ target/release/weighhare";

impl Place {
    /// A repository where the archive is up to date, and the program prints a line.
    fn new(name: &str) -> Place {
        let place = Place::empty("weighhare_script", name);
        for script in SCRIPTS {
            place.copy(script, &format!("a repository/{script}"));
        }
        place.copy("include/weighhare.h", HEADER);
        place.write("a repository/rust/Cargo.toml", b"");
        place.write(MADE, b"made\n");
        place.write(CRATES, CRATES_TEXT.as_bytes());
        place.write(SOURCE, b"fn main() {}\n");
        place.set_modified(SOURCE, SystemTime::now() - HOUR);
        place.write(ARCHIVE, b"made\n");
        place.stand_in("tools/rt", &format!("{PLAYS}{RT}"));
        place.rt(MAKE);
        place.stand_in("tools/cargo", CARGO);
        place.cargo(BUILD);
        place.stand_in("built", PROGRAM_TEXT);
        place.program("echo answer");
        place.link_commands();
        place
    }

    /// Links to the system's commands, for a PATH that has no others.
    fn link_commands(&self) {
        let path = env::var_os("PATH").expect("a PATH");
        fs::create_dir(self.path("system")).expect("a folder to make");
        for name in COMMANDS.split_whitespace() {
            let mut found = env::split_paths(&path).map(|folder| folder.join(name));
            let found = found.find(|file| file.is_file());
            let found = found.unwrap_or_else(|| panic!("no {name} on the PATH"));
            let link = self.path("system").join(name);
            symlink(found, link).expect("a link to make");
        }
    }

    fn set_modified(&self, name: &str, time: SystemTime) {
        let file = File::open(self.path(name));
        let set = file.and_then(|file| file.set_modified(time));
        set.expect("a file whose time can be set");
    }

    /// Dates all of the crates three hours back.
    fn age_crates(&self) {
        let time = SystemTime::now() - 3 * HOUR;
        let folders = ["crates", "crates/model", "crates/model/src"];
        for folder in folders.map(|name| format!("a repository/{name}")) {
            self.set_modified(&folder, time);
        }
        self.set_modified(SOURCE, time);
        self.set_modified(CRATES, time);
    }

    /// What the stand-in for `rt` does, in sh.
    fn rt(&self, does: &str) {
        self.write("rt-does", format!("{does}\n").as_bytes());
    }

    /// What the stand-in does to the crates below the library's; then it proves that, and makes the archive.
    fn rt_below(&self, does: &str) {
        self.rt(&format!("{does}; proves weighhare; {MAKE}"));
    }

    /// There is no archive, neither where `rt` makes it nor where it stays.
    fn remove_made(&self) {
        self.remove(MADE);
        self.remove(ARCHIVE);
    }

    /// What the stand-in for `cargo` does, in sh.
    fn cargo(&self, does: &str) {
        self.write("cargo-does", format!("{does}\n").as_bytes());
    }

    /// What the stand-in for the program does, in sh.
    fn program(&self, does: &str) {
        self.write("program-does", format!("{does}\n").as_bytes());
    }

    /// A script to be run, with none of the caller's variables that it knows.
    fn call(&self, script: &str, redirection: &str) -> Command {
        let mut command = self.command(script, redirection);
        self.set_variables(&mut command);
        command
    }

    fn set_variables<'a>(&self, command: &'a mut Command) -> &'a mut Command {
        let path = [self.path("tools"), self.path("system")];
        command.env("PATH", env::join_paths(path).expect("a PATH"));
        for name in ["WEIGHHARE_ARCHIVE", "DESTDIR", "CARGO_TARGET_DIR"] {
            command.env_remove(name);
        }
        command
    }

    /// Runs what was called, with no trace of earlier runs.
    fn run(&self, command: &mut Command) -> Ended {
        let traces = ["rt-ran", "cargo-ran", "cargo-archive", "program-got"];
        for trace in traces {
            if self.exists(trace) {
                self.remove(trace);
            }
        }
        self.end(command.spawn().expect("a script that can be started"))
    }

    fn archive(&self, redirection: &str) -> Ended {
        self.run(&mut self.call(ARCHIVE_SCRIPT, redirection))
    }

    fn weighhare(&self, words: &[&str], redirection: &str) -> Ended {
        self.run(self.call(SCRIPT, redirection).args(words))
    }

    fn install(&self, words: &[&str], redirection: &str) -> Ended {
        self.run(self.call(INSTALL, redirection).args(words))
    }

    /// The path of a file that is there, as the scripts print it.
    fn real(&self, name: &str) -> String {
        let path = fs::canonicalize(self.path(name)).expect("a file that is there");
        path.into_os_string()
            .into_string()
            .expect("a path in UTF-8")
    }

    fn read(&self, name: &str) -> String {
        fs::read_to_string(self.path(name)).expect("a file to read")
    }

    /// How often a stand-in ran in the last run.
    fn times(&self, trace: &str) -> usize {
        if !self.exists(trace) {
            return 0;
        }
        self.read(trace).lines().count()
    }

    /// The repository's archive was printed, with no message, and the library was proved so often.
    fn is_archive(&self, ended: &Ended, times: usize) {
        ended.answers(0, &format!("{}\n", self.real(ARCHIVE)));
        assert_eq!(self.times("rt-ran"), RT_WORDS.len() * times, "{ended:?}");
    }

    /// What is said last where the library is not proved, each line after a beginning.
    fn unproved(&self, beginning: &str) -> String {
        let log = self.real(LOG);
        format!("{beginning}{UNPROVED}{beginning}all that the prover said is in {log}\n")
    }
}

/// Two lines on standard error and nothing else, each after a beginning.
fn are_two_lines(ended: &Ended, beginning: &str, lines: [&str; 2]) {
    ended.is_error("");
    let due = lines.map(|line| format!("{beginning}{line}\n")).concat();
    assert_eq!(ended.stderr, due);
}

#[test]
fn an_archive_that_is_current() {
    let place = Place::new("current");
    place.is_archive(&place.archive(""), 0);
    // What `rt` writes makes it no older.
    place.write("a repository/crates/model/out/rlib/stamp", b"");
    place.is_archive(&place.archive(""), 0);
    // Then it needs no toolchain.
    place.remove("tools/rt");
    place.is_archive(&place.archive(""), 0);
}

#[test]
fn an_archive_that_is_missing() {
    let place = Place::new("missing");
    place.remove(ARCHIVE);
    place.is_archive(&place.archive("<&-"), 1);
    let folder = place.real("a repository");
    let due = RT_WORDS.map(|words| format!("{folder}/{words}\n"));
    assert_eq!(place.read("rt-ran"), due.concat());
    place.is_archive(&place.archive(""), 0);
}

#[test]
fn an_archive_that_is_older() {
    let place = Place::new("older");
    let now = SystemTime::now();
    // A folder is newer where a file came or went.
    for file in [SOURCE, CRATES, "a repository/crates/model/src"] {
        // A file can be newer and hold the same: then rt does nothing, and the next run asks no more all the same.
        for does in [MAKE, "exit 0"] {
            place.age_crates();
            place.set_modified(ARCHIVE, now - 2 * HOUR);
            place.is_archive(&place.archive(""), 0);
            place.set_modified(file, now - HOUR);
            place.rt(does);
            place.is_archive(&place.archive(""), 1);
            place.is_archive(&place.archive(""), 0);
        }
    }
}

/// What `rt` prints goes to a file, which has what it printed in the last proof.
#[test]
fn what_rt_prints() {
    let place = Place::new("rt_prints");
    for line in ["one line", "another"] {
        place.remove(ARCHIVE);
        place.rt(&format!(
            "echo {line} of $1\necho an error of $1 >&2\n{MAKE}"
        ));
        place.is_archive(&place.archive(""), 1);
        let due = format!("{line} of lib\nan error of lib\n");
        assert_eq!(place.read(LOG), due);
    }
}

/// Nothing is proved where it cannot be written, and no archive of an earlier run is taken.
#[test]
fn a_file_for_what_rt_prints_that_cannot_be_written() {
    let place = Place::new("no_log");
    place.set_modified(ARCHIVE, SystemTime::now() - 2 * HOUR);
    place.write(&format!("{LOG}/file"), b"");
    let message = format!("cannot write {}\n", place.real(LOG));
    place.archive("").is_error(&message);
    place
        .weighhare(&[], "")
        .is_error(&format!("weighhare: {message}"));
    assert!(!place.exists("rt-ran") && !place.exists("cargo-ran"));
}

#[test]
fn an_archive_that_is_not_proved() {
    let place = Place::new("not_proved");
    place.set_modified(ARCHIVE, SystemTime::now() - 2 * HOUR);
    for status in [1, 2, 3] {
        place.rt(&format!(
            "echo one reason\necho another reason >&2\nexit {status}"
        ));
        let ended = place.archive("");
        ended.is_error("");
        let due = format!("one reason\nanother reason\n{}", place.unproved(""));
        assert_eq!(ended.stderr, due);
        assert_eq!(place.times("rt-ran"), 1);
    }
    // The crates below are proved, and the library's own is not.
    place.write(&stamp("model"), b"");
    place.rt("proves model; proves buffer; proves weighhare\necho of $1\nexit 1");
    let ended = place.archive("");
    ended.is_error("");
    let ends =
        "crate model: modules loaded=2 checked=1\ncrate buffer: modules loaded=2 checked=1\n\
        crate weighhare: modules loaded=2 checked=1\n";
    let due = format!(
        "{}{ends}of lib\n{}",
        lines("", &ALL, ""),
        place.unproved("")
    );
    assert_eq!(ended.timeless(), due);
    assert_eq!(place.times("rt-ran"), 1);
    place.remove_made();
    place.rt("exit 0");
    place.archive("").is_error("libweighhare.a is not there");
}

/// The file has all, and the last lines are shown.
#[test]
fn a_long_reason() {
    let place = Place::new("long_reason");
    place.remove(ARCHIVE);
    let lines: Vec<String> = (1..=50).map(|number| format!("line {number}\n")).collect();
    place.write("reason", lines.concat().as_bytes());
    place.rt("cat \"$root/reason\"\nexit 1");
    let ended = place.archive("");
    ended.is_error("");
    let due = format!("{}{}", lines[30..].concat(), place.unproved(""));
    assert_eq!(ended.stderr, due);
    assert_eq!(place.read(LOG), lines.concat());
}

/// What earlier runs left of the crates and of the archive is not taken where `rt` does not prove now.
#[test]
fn verdicts_of_an_earlier_run() {
    let place = Place::new("earlier_verdicts");
    place.remove(ARCHIVE);
    for (_, name) in ALL {
        place.write(&stamp(name), b"proved\n");
    }
    place.rt("cat out/libweighhare.a\nexit 1");
    place.archive("").is_error(UNPROVED);
    assert_eq!(place.times("rt-ran"), 1);
    assert!(!place.exists(ARCHIVE));
    // An earlier archive that the new one cannot be put in the place of
    place.write(ARCHIVE, b"made\n");
    place.set_modified(ARCHIVE, SystemTime::now() - 2 * HOUR);
    place.write(&format!("{ARCHIVE}.new/file"), b"");
    place.rt(MAKE);
    let message = format!("cannot write {}\n", place.real(ARCHIVE));
    let ended = place.archive("");
    ended.is_error(&message);
    assert!(ended.stderr.ends_with(&message), "{ended:?}");
    place.archive("").is_error(&message);
}

#[test]
fn no_toolchain() {
    let place = Place::new("no_toolchain");
    place.remove("tools/rt");
    place.set_modified(ARCHIVE, SystemTime::now() - 2 * HOUR);
    let older = "libweighhare.a is older than the crates: it is made by the Rattle toolchain's command rt, which is not on the PATH";
    are_two_lines(&place.archive(""), "", [older, NO_ARCHIVE[1]]);
    place.remove(ARCHIVE);
    are_two_lines(&place.archive(""), "", NO_ARCHIVE);
    are_two_lines(&place.weighhare(&[], ""), "weighhare: ", NO_ARCHIVE);
    are_two_lines(&place.install(&["to"], ""), "install: ", NO_ARCHIVE);
    assert!(!place.exists("to") && !place.exists("cargo-ran"));
}

#[test]
fn an_archive_that_is_named() {
    let place = Place::new("named");
    place.remove(ARCHIVE);
    place.remove("tools/rt");
    let run = |name: &str| {
        place.run(
            place
                .call(ARCHIVE_SCRIPT, "")
                .env("WEIGHHARE_ARCHIVE", name),
        )
    };
    for name in ["another.a", "an odd: name, with = and 'quotes'", "-x"] {
        place.write(name, b"made elsewhere\n");
        let path = format!("{}\n", place.path(name).display());
        run(path.trim_end()).answers(0, &path);
    }
    // A relative name is one in the caller's folder, not in the repository.
    for name in ["another.a", "-x"] {
        let due = format!("{}\n", place.real(name));
        run(name).answers(0, &due);
    }
    place.write("folder/file", b"");
    for name in ["nothing there", "/nothing/there", "folder", "another.a/x"] {
        let due = format!("WEIGHHARE_ARCHIVE is '{name}', which is no file that can be read\n");
        let ended = run(name);
        ended.is_error("");
        assert_eq!(ended.stderr, due);
    }
    // Set to nothing is not set.
    are_two_lines(&run(""), "", NO_ARCHIVE);
}

/// Two runs at once would write the same files; and the second has nothing left to do.
#[test]
fn two_at_once() {
    let place = Place::new("two_at_once");
    place.rt(&format!(
        "mkdir \"$root/busy\" && sleep 0.3 && rmdir \"$root/busy\" && {MAKE}"
    ));
    for (script, due) in [
        (ARCHIVE_SCRIPT, place.real(ARCHIVE)),
        (SCRIPT, "answer".to_owned()),
    ] {
        place.remove(ARCHIVE);
        let children = [1, 2].map(|number| {
            let mut command = place.call(script, &format!(">output-{number}"));
            command.spawn().expect("a script that can be started")
        });
        for child in children {
            assert_eq!(place.end(child).status, Some(0));
        }
        for number in [1, 2] {
            assert_eq!(place.read(&format!("output-{number}")), format!("{due}\n"));
        }
        assert_eq!(place.times("rt-ran"), RT_WORDS.len());
        place.remove("rt-ran");
    }
}

/// Whoever waits for long says so.
#[test]
fn one_that_waits() {
    let place = Place::new("waits");
    place.remove(ARCHIVE);
    place.stand_in("other", &format!("{PLAYS}said waiting\n"));
    let mut call = place.call(SCRIPT, "");
    let mut other = Command::new("flock")
        .args(["a repository", "./other"])
        .current_dir(place.path(""))
        .spawn()
        .expect("a lock");
    let ended = place.run(&mut call);
    assert!(other.wait().expect("an end").success());
    let found = (ended.status, ended.stdout.as_str(), ended.stderr.as_str());
    let due = "weighhare: waiting for another run, which is proving\n";
    assert_eq!(found, (Some(0), "answer\n", due));
}

/// `rt` may have read a file before it changed: what it made does not pass for current.
#[test]
fn crates_that_change_while_they_are_proved() {
    let place = Place::new("changed_meanwhile");
    for change in [
        "echo >>crates/model/src/file",
        "echo >crates/model/src/another",
        "rm crates/model/src/another",
    ] {
        place.set_modified(ARCHIVE, SystemTime::now() - 2 * HOUR);
        place.rt(&format!("(cd ../.. && {change}); {MAKE}"));
        place
            .archive("")
            .is_error("the crates changed while they were proved: try again\n");
        place.rt("exit 0");
        place.is_archive(&place.archive(""), 1);
    }
}

#[test]
fn a_path_that_cannot_be_written() {
    let place = Place::new("unwritable_path");
    for redirection in [">/dev/full", ">&-"] {
        let ended = place.archive(redirection);
        ended.is_error("cannot write to standard output");
    }
}

/// What `rt` leaves of a crate that is proved.
fn stamp(name: &str) -> String {
    match name {
        "weighhare" => MADE.to_owned(),
        _ => format!("a repository/crates/{name}/out/rlib/stamp"),
    }
}

/// The lines of crates by their numbers, after a beginning, and with what follows the time.
fn lines(beginning: &str, crates: &[(usize, &str)], rest: &str) -> String {
    let of = |(number, name)| line(beginning, number, name, rest) + "\n";
    crates.iter().copied().map(of).collect()
}

fn line(beginning: &str, number: usize, names: &str, rest: &str) -> String {
    format!("{beginning}proving {number} of 3: {names} (T so far{rest})")
}

#[test]
fn a_line_for_each_crate() {
    let place = Place::new("lines");
    place.rt_below("proves model; proves buffer");
    for (script, words, beginning) in [
        (ARCHIVE_SCRIPT, &[][..], ""),
        (ARCHIVE_SCRIPT, &["another script"], "another script: "),
        (SCRIPT, &["word"], "weighhare: "),
        (INSTALL, &["to"], "install: "),
    ] {
        place.remove_made();
        let ended = place.run(place.call(script, "").args(words));
        assert_eq!(ended.status, Some(0));
        assert_eq!(ended.timeless(), lines(beginning, &ALL, FROM_NOTHING));
    }
    place.remove_made();
    place.rt_below("begins model; begins buffer; said 'buffer ('; ends model; ends buffer");
    let ended = place.archive("");
    assert_eq!(ended.status, Some(0));
    assert_eq!(ended.timeless(), lines("", &ALL, FROM_NOTHING));
}

/// What an earlier run left does not count.
#[test]
fn crates_that_are_unchanged() {
    let place = Place::new("unchanged");
    place.write(&stamp("model"), b"");
    for (does, due) in [
        ("unchanged model; unchanged buffer", &ALL[2..]),
        ("unchanged model; proves buffer", &ALL[1..]),
        ("proves model; proves buffer", &ALL),
    ] {
        place.remove(ARCHIVE);
        place.rt_below(does);
        for (_, name) in ALL {
            place.write(&stamp(name), b"");
            place.write(LOG, format!("rt: chose --jobs 2 for {name}\n").as_bytes());
        }
        let ended = place.weighhare(&[], "");
        let found = (ended.status, ended.stdout.as_str(), ended.timeless());
        let due = lines("weighhare: ", due, "");
        assert_eq!(found, (Some(0), "answer\n", due), "{does}");
    }
}

/// It is for who has nothing proved of the library.
#[test]
fn how_long_it_takes_in_all() {
    let place = Place::new("in_all");
    place.rt_below("unchanged model; unchanged buffer");
    let cases = ALL.map(|(_, name)| (name, ""));
    for (name, rest) in [("other", FROM_NOTHING)].into_iter().chain(cases) {
        place.remove_made();
        place.write(&stamp(name), b"");
        let ended = place.archive("");
        assert_eq!(ended.timeless(), lines("", &ALL[2..], rest), "{name}");
        if name != "weighhare" {
            place.remove(&stamp(name));
        }
    }
}

#[test]
fn how_long_it_took() {
    let place = Place::new("so_far");
    place.rt_below("unchanged model; unchanged buffer");
    // bash begins to count there.
    for (seconds, due) in [("0", "0:0"), ("70", "1:1"), ("600", "10:0")] {
        place.remove(ARCHIVE);
        let mut call = place.call(ARCHIVE_SCRIPT, "");
        let ended = place.run(call.env("SECONDS", seconds));
        let due = format!("proving 3 of 3: weighhare ({due}");
        assert!(ended.stderr.starts_with(&due), "{ended:?}");
    }
}

/// A crate that names one that is not proved is not proved either, and none begins.
#[test]
fn a_crate_that_is_not_proved() {
    let place = Place::new("crate_not_proved");
    place.remove_made();
    place.rt("begins model; said 'model ('; sleep 0.7; echo a reason; exit 1");
    let ended = place.weighhare(&[], "");
    ended.is_error("");
    let due = lines("weighhare: ", &ALL[..1], FROM_NOTHING);
    let due = format!("{due}a reason\n{}", place.unproved("weighhare: "));
    assert_eq!(ended.timeless(), due);
}

/// One line that is written over, and cleared before anything else is written.
#[test]
fn on_a_terminal() {
    let place = Place::new("terminal");
    let run = |kind: &str| {
        let mut command = place.on_terminal("'a repository/weighhare'", kind)?;
        Some(place.run(place.set_variables(&mut command)))
    };
    let all = |number, names| over(&line("weighhare: ", number, names, FROM_NOTHING));

    place.remove_made();
    place.rt_below("begins model; said 'model ('; begins buffer; said 'buffer ('");
    let Some(ended) = run("xterm") else { return };
    let due = [
        "",
        &all(1, "model"),
        &all(2, "buffer"),
        &all(3, "weighhare"),
        "\x1b[Kanswer",
        "\n",
    ];
    assert_eq!((ended.status, ended.stderr.as_str()), (Some(0), ""));
    assert_eq!(drawn(&ended.stdout), due);

    // Where nothing is proved, nothing is cleared.
    place.remove(ARCHIVE);
    place.rt(MAKE);
    let ended = run("xterm").expect("a terminal");
    assert_eq!(
        (ended.status, ended.stdout.as_str()),
        (Some(0), "answer\r\n")
    );

    // A terminal that cannot write over its lines
    place.rt_below("proves model; proves buffer");
    for kind in ["dumb", ""] {
        place.remove_made();
        let ended = run(kind).expect("a terminal");
        let due = lines("weighhare: ", &ALL, FROM_NOTHING).replace('\n', "\r\n");
        assert_eq!(timeless(&ended.stdout), due + "answer\r\n");
    }

    place.remove_made();
    place.rt("begins model; said 'model ('; echo a reason; exit 1");
    let ended = run("xterm").expect("a terminal");
    let log = place.real(LOG);
    let due = [
        "",
        &all(1, "model"),
        "\x1b[Ka reason",
        &format!("\nweighhare: {}", UNPROVED.trim_end()),
        &format!("\nweighhare: all that the prover said is in {log}"),
        "\n",
    ];
    assert_eq!(ended.status, Some(2));
    assert_eq!(drawn(&ended.stdout), due);
}

/// What `rt` started takes no notice of some signals, and ends all the same.
#[test]
fn a_signal() {
    let place = Place::new("signal");
    place.rt("lingers model");
    place.remove(ARCHIVE);
    for signal in signals() {
        for (script, words) in [(ARCHIVE_SCRIPT, &[][..]), (SCRIPT, &[]), (INSTALL, &["to"])] {
            place.is_ended_by(signal, place.call(script, "").args(words));
        }
    }
    assert!(!place.exists("cargo-ran") && !place.exists("to"));
}

/// `rt` has a folder for temporary files, which others can go through, and which is removed.
#[test]
fn temporary_files() {
    let place = Place::new("temporary_files");
    place.write("temporary/file", b"");
    place.rt(&format!(
        "mktemp >/dev/null; ls -ld \"$TMPDIR\"; echo $TMPDIR >\"$root/room\"; {MAKE}"
    ));
    let own = place.path("temporary").display().to_string();
    let none = ["/tmp"].map(str::to_owned);
    for (variable, folders) in [(own.as_str(), &[own.clone()][..]), ("", &none)] {
        place.remove(ARCHIVE);
        place.write("room", b"");
        let mut call = place.call(ARCHIVE_SCRIPT, "");
        place.is_archive(&place.run(call.env("TMPDIR", variable)), 1);
        assert!(place.read(LOG).starts_with("drwx--x--x"), "{variable}");
        let room = place.read("room");
        let (folder, _) = room.rsplit_once("/prove.").expect("a folder with a name");
        assert!(folders.iter().any(|due| due == folder), "{room}");
        assert!(!Path::new(room.trim_end()).exists(), "{room}");
    }
    let mut call = place.call(ARCHIVE_SCRIPT, "");
    place.remove(ARCHIVE);
    let ended = place.run(call.env("TMPDIR", place.path("nothing there")));
    ended.is_error("cannot make a temporary folder\n");
    assert!(!place.exists("rt-ran"));
}

/// Where `rt` is killed, what it started is still there, and is ended.
#[test]
fn what_rt_leaves() {
    let place = Place::new("leaves");
    place.write("temporary/file", b"");
    place.remove(ARCHIVE);
    place.rt("(lingers model) & until [ -e \"$root/lingers\" ]; do sleep 0.05; done; kill -9 $$");
    let mut call = place.call(ARCHIVE_SCRIPT, "");
    let ended = place.run(call.env("TMPDIR", place.path("temporary")));
    ended.is_error("");
    assert!(ended.stderr.ends_with(&place.unproved("")), "{ended:?}");
    place.has_nothing_left();
}

/// The status is the same where no message can be written.
#[test]
fn no_standard_error() {
    let place = Place::new("no_standard_error");
    for redirection in ["2>&-", "2>/dev/full"] {
        place.remove(ARCHIVE);
        place.rt(&format!("echo a line; begins model; sleep 0.7; {MAKE}"));
        place.weighhare(&[], redirection).answers(0, "answer\n");
        assert_eq!(place.times("rt-ran"), RT_WORDS.len());
        place.cargo("exit 1");
        place.weighhare(&[], redirection).answers(2, "");
        place.cargo(BUILD);
    }
    // One that is closed while the library is proved
    let made = Command::new("mkfifo").arg(place.path("fifo")).status();
    assert!(made.is_ok_and(|status| status.success()));
    place.stand_in("reader", "head -n 1 \"$root/fifo\" >\"$root/first\"\n");
    let mut reader = Command::new(place.path("reader"));
    let mut reader = reader.spawn().expect("a reader");
    place.remove_made();
    let check =
        "begins model; until [ -s \"$root/first\" ]; do sleep 0.05; done; sleep 0.2; begins buffer";
    place.rt(&format!("{check}; {MAKE}"));
    place.weighhare(&[], "2>fifo").answers(0, "answer\n");
    assert!(reader.wait().expect("an end").success());
    assert_eq!(
        timeless(&place.read("first")),
        lines("weighhare: ", &ALL[..1], FROM_NOTHING)
    );
    assert_eq!(place.times("rt-ran"), RT_WORDS.len());
}

#[test]
fn how_the_program_is_built() {
    let place = Place::new("built");
    let mut call = place.call(SCRIPT, "");
    // Wherever the caller has the results of cargo, the program's place is known.
    call.env("CARGO_TARGET_DIR", place.path("elsewhere"));
    place.run(&mut call).answers(0, "answer\n");
    let rust = place.real("a repository/rust");
    let due = format!(
        "{rust}: build --release --offline --quiet --bin weighhare --manifest-path {rust}/Cargo.toml --target-dir {rust}/target\n"
    );
    assert_eq!(place.read("cargo-ran"), due);
    let due = format!("{}\n", place.real(ARCHIVE));
    assert_eq!(place.read("cargo-archive"), due);
    assert_eq!(place.times("rt-ran"), 0);

    place.write("another.a", b"");
    let mut call = place.call(SCRIPT, "");
    place
        .run(call.env("WEIGHHARE_ARCHIVE", "another.a"))
        .answers(0, "answer\n");
    let due = format!("{}\n", place.real("another.a"));
    assert_eq!(place.read("cargo-archive"), due);
}

/// The program of an earlier run is not run.
#[test]
fn a_program_that_is_not_built() {
    let place = Place::new("not_built");
    place.weighhare(&[], "").answers(0, "answer\n");
    for status in [1, 101] {
        place.cargo(&format!(
            "echo one reason\necho another reason >&2\nexit {status}"
        ));
        let ended = place.weighhare(&[], "");
        ended.is_error("one reason\nanother reason\nweighhare: the program was not built\n");
        assert!(!place.exists("program-got"));
    }
    place.cargo("chmod 644 target/release/weighhare");
    let message = "rust/target/release/weighhare cannot be run\n";
    place.weighhare(&[], "").is_error(message);
    place.cargo("rm target/release/weighhare");
    place.weighhare(&[], "").is_error(message);
    place.cargo("mkdir target/release/weighhare");
    place.weighhare(&[], "").is_error(message);
}

#[test]
fn a_library_that_is_not_proved() {
    let place = Place::new("library_not_proved");
    place.weighhare(&[], "").answers(0, "answer\n");
    place.remove(ARCHIVE);
    place.rt("echo a reason\nexit 1");
    let ended = place.weighhare(&[], "");
    ended.is_error("");
    let due = format!("a reason\n{}", place.unproved("weighhare: "));
    assert_eq!(ended.stderr, due);
    assert!(!place.exists("cargo-ran") && !place.exists("program-got"));
    let mut call = place.call(SCRIPT, "");
    let ended = place.run(call.env("WEIGHHARE_ARCHIVE", "nothing there"));
    ended.is_error("weighhare: WEIGHHARE_ARCHIVE is 'nothing there'");
    assert!(!place.exists("cargo-ran") && !place.exists("program-got"));
}

/// It is said before anything is proved, which takes minutes.
#[test]
fn no_cargo() {
    let place = Place::new("no_cargo");
    place.weighhare(&[], "").answers(0, "answer\n");
    place.remove("tools/cargo");
    place.remove(ARCHIVE);
    let message = "Rust's command cargo, which builds the program, is not on the PATH\n";
    let ended = place.weighhare(&[], "");
    ended.is_error("");
    assert_eq!(ended.stderr, format!("weighhare: {message}"));
    assert!(!place.exists("rt-ran") && !place.exists("program-got"));
}

/// What builds the program prints nothing among its answers, and takes none of its input.
#[test]
fn output_and_input_are_the_programs() {
    let place = Place::new("streams");
    place.remove(ARCHIVE);
    place.rt(&format!("echo from rt\n{MAKE}"));
    place.cargo(&format!("echo from cargo\n{BUILD}"));
    place.program("printf 'no line feed'\necho a message >&2");
    let input: Vec<u8> = (0..100_000u32).map(|i| (i % 251) as u8).collect();
    place.write("input", &input);
    let ended = place.weighhare(&[], "<input");
    assert_eq!(
        (ended.status, ended.stdout.as_str()),
        (Some(0), "no line feed")
    );
    assert_eq!(ended.stderr, "from cargo\na message\n");
    let got = fs::read(place.path("program-got")).expect("the input of a program that ran");
    assert!(got == input);
    // Whoever calls tools/archive has the input too.
    place.remove(ARCHIVE);
    place.stand_in("caller", "\"$root/a repository/tools/archive\" && cat");
    place
        .run(&mut place.call("./caller", "<input >output"))
        .answers(0, "");
    let got = fs::read(place.path("output")).expect("the output of a script that ran");
    assert!(got.ends_with(&input));
    // Where there is none, the program gets none either.
    place.program("if [ -e /proc/self/fd/0 ]; then echo open; else echo closed; fi");
    let ended = place.weighhare(&[], "<&-");
    assert_eq!((ended.status, ended.stdout.as_str()), (Some(0), "closed\n"));
}

#[test]
fn words_are_the_programs() {
    let place = Place::new("words");
    let words: [&[u8]; 14] = [
        b"",
        b"a  b",
        b" ",
        b"-",
        b"--",
        b"--help",
        b"-x",
        b"*",
        b"$PWD",
        b"a\nb\n",
        b"'\"\\",
        b"\xff\xfe\x01",
        "ü".as_bytes(),
        b"",
    ];
    for count in [0, 1, words.len()] {
        let words = &words[..count];
        let mut call = place.call(SCRIPT, "");
        call.args(words.iter().map(|word| OsStr::from_bytes(word)));
        place.run(&mut call).answers(0, "answer\n");
        let got = fs::read(place.path("program-words")).expect("the words of a program that ran");
        let due: Vec<u8> = words
            .iter()
            .flat_map(|word| [word, &b"\0"[..]].concat())
            .collect();
        assert_eq!(got, due);
    }
}

#[test]
fn the_status_is_the_programs() {
    let place = Place::new("status");
    for status in [0, 1, 2, 3, 101, 255] {
        place.program(&format!("echo answer\nexit {status}"));
        place.weighhare(&[], "").answers(status, "answer\n");
    }
    place.program("kill -9 $$");
    assert_eq!(place.weighhare(&[], "").status, None);
}

#[test]
fn through_links_and_from_another_folder() {
    let place = Place::new("links");
    fs::create_dir_all(place.path("links/below")).expect("a folder to make");
    let link = |to: &Path, name: &str| symlink(to, place.path(name)).expect("a link to make");
    link(&place.path(SCRIPT), "links/absolute");
    link(
        Path::new("../../a repository/weighhare"),
        "links/below/relative",
    );
    link(Path::new("below/relative"), "links/of a link");
    link(Path::new("../a repository/weighhare"), "tools/on-the-path");
    link(Path::new("a repository"), "linked");
    let below = [
        "links/absolute",
        "links/below/relative",
        "links/of a link",
        "linked/weighhare",
        SCRIPT,
    ];
    let mut names = below
        .map(|name| place.path(name).display().to_string())
        .to_vec();
    names.push("on-the-path".to_owned());
    for name in &names {
        for folder in ["links", "a repository/crates", "."] {
            let mut call = place.call(name, "");
            place
                .run(call.current_dir(place.path(folder)))
                .answers(0, "answer\n");
            // Names of files are the caller's.
            let due = format!("{}\n", place.real(folder));
            assert_eq!(place.read("program-where"), due, "{name}");
        }
    }
}

/// The version that the header says
fn version(place: &Place) -> String {
    let header = place.read(HEADER);
    let (_, rest) = header
        .split_once("\n#define WEIGHHARE_VERSION \"")
        .expect("a header with a version");
    let (version, _) = rest.split_once('"').expect("the end of the version");
    version.to_owned()
}

/// The four files in a folder: what they hold, and their modes.
fn are_installed(place: &Place, folder: &str) {
    let package = format!(
        "prefix=${{pcfiledir}}/../..\nincludedir=${{prefix}}/include\nlibdir=${{prefix}}/lib\n\n\
        Name: weighhare\nDescription: Garbled circuits, proved\nVersion: {}\n\
        Cflags: -I${{includedir}}\nLibs: -L${{libdir}} -lweighhare\n",
        version(place)
    );
    let files = [
        ("include/weighhare.h", place.read(HEADER), 0o644),
        ("lib/libweighhare.a", place.read(ARCHIVE), 0o644),
        ("lib/pkgconfig/weighhare.pc", package, 0o644),
        ("bin/weighhare", place.read("built"), 0o755),
    ];
    for (file, due, mode) in files {
        let name = format!("{folder}/{file}");
        assert_eq!(place.read(&name), due, "{name}");
        let found = fs::metadata(place.path(&name)).expect("a file that is there");
        assert_eq!(found.permissions().mode() & 0o7777, mode, "{name}");
    }
}

#[test]
fn installing() {
    let place = Place::new("installing");
    for words in [&["to"][..], &["to"], &["--", "-to"], &["a/folder  below"]] {
        let ended = place.install(words, "<&-");
        assert_eq!((ended.status, ended.stderr.as_str()), (Some(0), ""));
        let folder = words[words.len() - 1];
        are_installed(&place, folder);
        let real = place.real(folder);
        // What is to be typed is written as the shell reads it.
        let typed = real.replace(' ', "\\ ");
        for part in [
            format!("installed Weighhare {}:\n", version(&place)),
            format!("  {real}/lib/libweighhare.a\n"),
            format!("gcc program.c $(PKG_CONFIG_PATH={typed}/lib/pkgconfig pkg-config --cflags --libs weighhare)\n"),
            format!("{typed}/bin/weighhare --help\n"),
        ] {
            assert!(ended.stdout.contains(&part), "no {part:?}: {ended:?}");
        }
    }
    // The installed archive is the one that the program is linked with.
    let due = format!("{}\n", place.real(ARCHIVE));
    assert_eq!(place.read("cargo-archive"), due);
}

#[test]
fn installing_to_be_packed() {
    let place = Place::new("packed");
    let mut call = place.call(INSTALL, "");
    let ended = place.run(call.arg("/nowhere/at all").env("DESTDIR", "stage"));
    assert_eq!((ended.status, ended.stderr.as_str()), (Some(0), ""));
    are_installed(&place, "stage/nowhere/at all");
    assert!(
        ended
            .stdout
            .contains("  stage/nowhere/at all/bin/weighhare\n"),
        "{ended:?}"
    );
    assert!(
        ended
            .stdout
            .contains(" /nowhere/at\\ all/bin/weighhare --help\n"),
        "{ended:?}"
    );
    let mut call = place.call(INSTALL, "");
    let ended = place.run(call.arg("to").env("DESTDIR", "other"));
    ended.is_error("install: with DESTDIR the PREFIX must be absolute\nusage: ./install PREFIX");
    assert!(!place.exists("other"));
}

/// Where something is not built, nothing is installed.
#[test]
fn nothing_to_install() {
    let place = Place::new("nothing_to_install");
    place.cargo("exit 1");
    place
        .install(&["to"], "")
        .is_error("install: the program was not built\n");
    place.remove(ARCHIVE);
    place.rt("exit 1");
    place
        .install(&["to"], "")
        .is_error(&format!("install: {UNPROVED}"));
    assert!(!place.exists("cargo-ran"));
    place.rt(MAKE);
    place.cargo(BUILD);
    let header = place
        .read(HEADER)
        .replace("WEIGHHARE_VERSION", "WEIGHHARE_OTHER");
    place.write(HEADER, header.as_bytes());
    place
        .install(&["to"], "")
        .is_error("include/weighhare.h does not say the version\n");
    assert!(!place.exists("rt-ran"));
    assert!(!place.exists("to"));
}

#[test]
fn places_that_cannot_be_installed_to() {
    let place = Place::new("not_installed");
    place.write("file", b"");
    for folder in ["file", "file/below", "/dev/null/below"] {
        let ended = place.install(&[folder], "");
        ended.is_error("install: cannot write to /");
        assert!(!place.exists("cargo-ran"));
    }
    place.write("to/lib", b"");
    place
        .install(&["to"], "")
        .is_error("to/lib/libweighhare.a\n");
    place.write("full/bin/weighhare/file", b"");
    place
        .install(&["full"], "")
        .is_error("full/bin/weighhare\n");
    let ended = place.install(&["other"], ">/dev/full");
    ended.is_error("install: cannot write to standard output\n");
}

#[test]
fn help_of_install() {
    let place = Place::new("help");
    for word in ["-h", "--help"] {
        let ended = place.install(&[word], "<&-");
        assert_eq!((ended.status, ended.stderr.as_str()), (Some(0), ""));
        for part in [
            "usage: ./install PREFIX\n",
            "PREFIX/lib/libweighhare.a",
            "WEIGHHARE_ARCHIVE",
            "DESTDIR",
            "Status: 0",
        ] {
            assert!(ended.stdout.contains(part), "no {part:?}: {ended:?}");
        }
        assert!(!place.exists("cargo-ran"));
        place
            .install(&[word], ">/dev/full")
            .is_error("install: cannot write to standard output\n");
    }
}

#[test]
fn wrong_usage_of_install() {
    let place = Place::new("wrong_usage");
    let wrong: [(&[&str], &str); 7] = [
        (&[], "no PREFIX"),
        (&["--"], "no PREFIX"),
        (&[""], "no PREFIX"),
        (&["-x"], "there is no option -x"),
        (&["--prefix=to"], "there is no option --prefix=to"),
        (&["to", "to"], "more than one PREFIX"),
        (&["--", "to", "to"], "more than one PREFIX"),
    ];
    for (words, message) in wrong {
        let ended = place.install(words, "");
        ended.is_error(&format!("install: {message}\nusage: ./install PREFIX"));
        assert!(!place.exists("cargo-ran") && !place.exists("to"));
    }
}
