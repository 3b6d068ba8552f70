//! The script `sizes` at the repository's top, with `tools/prove`: what it does before and after the program
//! runs. Each test has a folder with copies of the two, and stand-ins for `rt` and for the program that do what
//! the test says and leave a trace. So no toolchain is needed, and the repository's own build stays untouched.
//! Tested are its statuses, what cannot be read or written, its options, links, what it says while it proves,
//! two runs at once, signals, and that nothing unproved is run.

mod places;

use places::{drawn, over, signals, Ended, Place, PLAYS};
use std::env;
use std::fs;
use std::os::unix::fs::symlink;
use std::path::Path;
use std::process::Command;

/// P11 of 01's table, and what the program prints of it.
const CIRCUIT: [u8; 15] = [0x43, 0x48, 0, 2, 0, 1, 0, 1, 0x43, 0x47, 0, 1, 0, 2, 0x08];
const ANSWER: &str = "2 1 1 1\n80 64 48\n";

/// The copies of the scripts, in a folder whose name has a blank.
const SCRIPT: &str = "a repository/sizes";
const PROVE: &str = "a repository/tools/prove";
/// The program where `rt` makes it, and where it stays.
const MADE: &str = "a repository/crates/sizes/out/sizes";
const PROGRAM: &str = "a repository/target/bin/sizes";
const STAMP: &str = "a repository/crates/sizes/out/sizes.stamp";
const LOG: &str = "a repository/target/prove.log";
const HEADER: &str = "a repository/include/weighhare.h";

/// The crates that the program is built from, each after the ones that it names, and the list of all.
const CRATES: [&str; 6] = ["model", "buffer", "circuit", "material", "text", "sizes"];
const CRATES_TEXT: &str = "model:\nbuffer: model\nblock: model\ncircuit: model buffer\n\
    material: model buffer circuit\ntext: model buffer circuit material\nsizes: text io libc\n";

/// What is said where the program is not proved.
const UNPROVED: &str = "sizes: the program is not proved, so it was not built\n";

/// What is said where nothing of it was proved before.
const FROM_NOTHING: &str = ", about 2 minutes in all";

/// The stand-ins first take all of their standard input. A trace is only of the last run.
const RT: &str = "cat >/dev/null\necho \"$(pwd -P): $*\" >\"$root/rt-ran\"\n. \"$root/rt-does\"\n";
const PROGRAM_TEXT: &str = "cat >\"$root/program-got\"\n. \"$root/program-does\"\n";

impl Place {
    /// A folder where all is proved and up to date, and the program accepts.
    fn new(name: &str) -> Place {
        let place = Place::empty("sizes_script", name);
        place.copy("sizes", SCRIPT);
        place.copy("tools/prove", PROVE);
        place.copy("include/weighhare.h", HEADER);
        place.write("a repository/crates.txt", CRATES_TEXT.as_bytes());
        for name in CRATES {
            place.write(&source(name), b"fn main() {}\n");
        }
        place.write("circuit", &CIRCUIT);
        place.write("folder/file", b"");
        place.write(STAMP, b"");
        place.stand_in("tools/rt", &format!("{PLAYS}{RT}"));
        place.rt("exit 0");
        place.stand_in(MADE, PROGRAM_TEXT);
        place.stand_in(PROGRAM, PROGRAM_TEXT);
        place.answer(ANSWER);
        place
    }

    /// What the stand-in for `rt` does, in sh.
    fn rt(&self, does: &str) {
        self.write("rt-does", format!("{does}\n").as_bytes());
    }

    /// What the stand-in for the program does, in sh.
    fn program(&self, does: &str) {
        self.write("program-does", format!("{does}\n").as_bytes());
    }

    /// What the stand-in for the program prints.
    fn answer(&self, text: &str) {
        self.write("program-says", text.as_bytes());
        self.program("cat \"$root/program-says\"");
    }

    /// A script to be run, with the stand-in for `rt` first on the PATH.
    fn call(&self, script: &str, words: &[&str], redirection: &str) -> Command {
        let mut command = self.command(script, redirection);
        command.args(words).env("PATH", self.tools());
        command
    }

    /// Runs what was called, with no trace of earlier runs.
    fn run_call(&self, command: &mut Command) -> Ended {
        for trace in ["rt-ran", "program-got"] {
            if self.exists(trace) {
                self.remove(trace);
            }
        }
        self.end(command.spawn().expect("a script that can be started"))
    }

    fn run_script(&self, script: &str, words: &[&str], redirection: &str) -> Ended {
        self.run_call(&mut self.call(script, words, redirection))
    }

    fn run(&self, words: &[&str], redirection: &str) -> Ended {
        self.run_script(SCRIPT, words, redirection)
    }

    fn tools(&self) -> String {
        let path = env::var("PATH").expect("a PATH");
        format!("{}:{path}", self.path("tools").display())
    }

    /// What the program had as its standard input in the last run.
    fn got(&self) -> Vec<u8> {
        fs::read(self.path("program-got")).expect("the input of a program that ran")
    }
}

/// A file of a crate. It has not the ending of Rattle's files: `rt` looks for those in the whole repository, here too.
fn source(name: &str) -> String {
    format!("a repository/crates/{name}/src/file")
}

/// What `rt` leaves of a crate that is proved.
fn stamp(name: &str) -> String {
    match name {
        "sizes" => STAMP.to_owned(),
        _ => format!("a repository/crates/{name}/out/rlib/stamp"),
    }
}

/// An error that is seen before anything is proved.
fn is_early_error(place: &Place, ended: &Ended, message: &str) {
    ended.is_error(message);
    assert!(!place.exists("rt-ran"), "{ended:?}");
    assert!(!place.exists("program-got"), "{ended:?}");
}

/// The program is not proved: an error that says so, and the program of an earlier run is not run.
fn is_unproved(place: &Place, ended: &Ended) {
    ended.is_error(UNPROVED);
    assert!(!place.exists("program-got"), "{ended:?}");
}

/// What is said last where the program is not proved, and the prover said why.
fn last_lines(place: &Place) -> String {
    let log = fs::canonicalize(place.path(LOG)).expect("a file that is there");
    format!(
        "{UNPROVED}sizes: all that the prover said is in {}\n",
        log.display()
    )
}

/// The fault that was found: where the log could not be written, the script ran the program of an earlier
/// run, whatever `rt` said, and ended with status 0.
#[test]
fn unproved_where_the_log_of_the_old_script_cannot_be_written() {
    let place = Place::new("old_log");
    place.write("a repository/target/sizes-build.log/file", b"");
    place.rt("exit 1");
    is_unproved(&place, &place.run(&["circuit"], ""));
    assert!(place.exists("rt-ran"));
}

#[test]
fn unproved() {
    let place = Place::new("unproved");
    for status in [1, 2, 3] {
        let does = format!("echo one reason\necho another reason >&2\nexit {status}");
        place.rt(&does);
        let ended = place.run(&["circuit"], "");
        is_unproved(&place, &ended);
        let due = format!("one reason\nanother reason\n{}", last_lines(&place));
        assert_eq!(ended.stderr, due);
    }
}

/// The fault that was found, in this script: where the file for what `rt` says cannot be written, nothing is run.
#[test]
fn unproved_where_the_log_cannot_be_written() {
    let place = Place::new("no_log");
    place.write(&format!("{LOG}/file"), b"");
    let ended = place.run(&["circuit"], "");
    is_early_error(&place, &ended, "target/prove.log\n");
    assert!(ended.stderr.contains("sizes: cannot write /"), "{ended:?}");
}

/// The file has all that `rt` said in the last run, and the last lines are shown.
#[test]
fn a_long_reason() {
    let place = Place::new("long_reason");
    let lines: Vec<String> = (1..=50).map(|number| format!("line {number}\n")).collect();
    place.write("reason", lines.concat().as_bytes());
    for times in [1, 2] {
        place.rt("cat \"$root/reason\"\nexit 1");
        let ended = place.run(&["circuit"], "");
        is_unproved(&place, &ended);
        let due = format!("{}{}", lines[30..].concat(), last_lines(&place));
        assert_eq!(ended.stderr, due);
        let log = fs::read_to_string(place.path(LOG)).expect("a file");
        assert_eq!(log, lines.concat(), "after {times}");
    }
    place.rt("echo one line\necho another line >&2");
    place.run(&["circuit"], "").answers(0, ANSWER);
    let log = fs::read_to_string(place.path(LOG)).expect("a file");
    assert_eq!(log, "one line\nanother line\n");
}

/// What earlier runs left of the crates and of the program is not taken where `rt` does not prove now.
#[test]
fn unproved_in_this_run() {
    let place = Place::new("earlier_verdict");
    for name in CRATES {
        place.write(&stamp(name), b"proved\n");
        place.rt("cat out/sizes.stamp\nexit 1");
        is_unproved(&place, &place.run(&["circuit"], ""));
        assert!(place.exists("rt-ran"));
    }
}

/// Where the new program cannot be put in the place of an earlier one, that is not run.
#[test]
fn unproved_where_an_earlier_program_stays() {
    let place = Place::new("lasting_program");
    place.write("a repository/target/bin/sizes.new/file", b"");
    let ended = place.run(&["circuit"], "");
    ended.is_error("target/bin/sizes\n");
    assert!(ended.stderr.contains("sizes: cannot write /"), "{ended:?}");
    assert!(!place.exists("program-got"), "{ended:?}");
}

/// Two runs at once would write the same files.
#[test]
fn two_at_once() {
    let place = Place::new("two_at_once");
    place.rt("mkdir \"$root/busy\" && sleep 0.3 && rmdir \"$root/busy\"");
    let children = [1, 2].map(|_| {
        let mut call = place.call(SCRIPT, &["circuit"], ">/dev/null");
        call.spawn().expect("a script that can be started")
    });
    for child in children {
        let ended = place.end(child);
        assert_eq!(ended.status, Some(0), "{ended:?}");
    }
}

/// Whoever waits for long says so.
#[test]
fn one_that_waits() {
    let place = Place::new("waits");
    place.stand_in("other", &format!("{PLAYS}said waiting\n"));
    let mut call = place.call(SCRIPT, &["circuit"], "");
    let mut other = Command::new("flock")
        .args(["a repository", "./other"])
        .current_dir(place.path(""))
        .spawn()
        .expect("a lock");
    let ended = place.run_call(&mut call);
    assert!(other.wait().expect("an end").success());
    let found = (ended.status, ended.stdout.as_str(), ended.stderr.as_str());
    let due = "sizes: waiting for another run, which is proving\n";
    assert_eq!(found, (Some(0), ANSWER, due));
}

#[test]
fn no_toolchain() {
    let place = Place::new("no_toolchain");
    let path = env::var("PATH").expect("a PATH");
    let without = env::split_paths(&path).filter(|folder| !folder.join("rt").exists());
    let without = env::join_paths(without).expect("a PATH without rt");
    let mut call = place.call(SCRIPT, &["circuit"], "");
    let ended = place.run_call(call.env("PATH", without));
    is_early_error(
        &place,
        &ended,
        "sizes: the Rattle toolchain's command rt is not on the PATH",
    );
}

#[test]
fn no_program_though_proved() {
    let place = Place::new("no_program");
    place.set_mode(MADE, 0o644);
    place
        .run(&["circuit"], "")
        .is_error("target/bin/sizes cannot be run");
    place.remove(MADE);
    let message = "crates/sizes/out/sizes is not there\n";
    place.run(&["circuit"], "").is_error(message);
    assert!(!place.exists("program-got"));
    place.stand_in(MADE, PROGRAM_TEXT);
    place.remove(PROGRAM);
    place.write(&format!("{PROGRAM}/file"), b"");
    let message = "target/bin/sizes\n";
    place.run(&["circuit"], "").is_error(message);
}

#[test]
fn accepted() {
    let place = Place::new("accepted");
    place.run(&["circuit"], "").answers(0, ANSWER);
    assert_eq!(place.got(), CIRCUIT);
    let largest = "65535 65535 65535 65535\n4718552 3670008 2621464\n";
    place.answer(largest);
    place.run(&["circuit"], "").answers(0, largest);
}

#[test]
fn refused_and_too_long() {
    let place = Place::new("refused");
    for answer in ["refused 7 3\n", "refused 4 65536\n", "too long\n"] {
        place.answer(answer);
        place.run(&["circuit"], "").answers(1, answer);
        assert_eq!(place.got(), CIRCUIT);
    }
}

#[test]
fn no_known_answer() {
    let place = Place::new("no_known_answer");
    let answers = [
        "",
        "\n",
        "too long",
        "too long\n\n",
        "too  long\n",
        "refused 7\n",
        "refused 7 3 1\n",
        "refused 7 three\n",
        "refused 7 3\nrefused 7 3\n",
        "2 1 1 1\n",
        "2 1 1 1\n80 64 48",
        "2 1 1 1\n80 64\n",
        "2 1 1\n80 64 48\n",
        "2 1 1 1 80 64 48\n",
        "2 1 1 -1\n80 64 48\n",
        "so: 2 1 1 1\n80 64 48\n",
        "2 1 1 1\n80 64 48\n0 0",
    ];
    for answer in answers {
        place.answer(answer);
        let ended = place.run(&["circuit"], "");
        ended.is_error("gave no answer that is known here");
        assert!(place.exists("program-got"), "{answer:?}");
    }
}

#[test]
fn a_program_that_fails() {
    let place = Place::new("failing_program");
    for end in ["exit 1", "exit 3", "kill -9 $$"] {
        place.program(&format!("cat \"$root/program-says\"\n{end}"));
        let ended = place.run(&["circuit"], "");
        ended.is_error("target/bin/sizes failed");
    }
}

#[test]
fn standard_input() {
    let place = Place::new("standard_input");
    for words in [&[] as &[&str], &["-"], &["--"], &["--", "-"]] {
        place.run(words, "<circuit").answers(0, ANSWER);
        assert_eq!(place.got(), CIRCUIT, "{words:?}");
    }
    place.answer("refused 1 0\n");
    place.run(&[], "").answers(1, "refused 1 0\n");
    assert_eq!(place.got(), []);
}

/// The program reads one byte more than the longest circuit that it takes, and has no need of others.
#[test]
fn long_input() {
    let place = Place::new("long_input");
    let bytes: Vec<u8> = (0..200_000u32).map(|i| (i % 251) as u8).collect();
    for length in [65_536, 65_537, 65_538, 200_000] {
        place.write("long", &bytes[..length]);
        let due = &bytes[..length.min(65_537)];
        place.run(&["long"], "").answers(0, ANSWER);
        assert!(place.got() == due, "a file of {length} bytes");
        place.run(&[], "<long").answers(0, ANSWER);
        assert!(place.got() == due, "standard input of {length} bytes");
    }
}

#[test]
fn names_of_files() {
    let place = Place::new("names");
    let other = [1, 2, 3];
    for name in ["a  b", "-", "--help", "-n", "*", "a\nb", "$PWD"] {
        place.write(name, &other);
        let below = format!("./{name}");
        place.run(&[&below], "<circuit").answers(0, ANSWER);
        assert_eq!(place.got(), other, "{below:?}");
        if name != "-" {
            place.run(&["--", name], "<circuit").answers(0, ANSWER);
            assert_eq!(place.got(), other, "{name:?}");
        }
    }
}

#[test]
fn files_that_cannot_be_read() {
    let place = Place::new("unreadable");
    let folder = place.run(&["folder"], "<circuit");
    is_early_error(&place, &folder, "sizes: cannot read 'folder'");
    let missing = place.run(&["not there"], "<circuit");
    is_early_error(&place, &missing, "sizes: cannot read 'not there'");
    let unnamed = place.run(&[""], "<circuit");
    is_early_error(&place, &unnamed, "sizes: cannot read ''");
    // It can be opened, and its first byte cannot be read.
    let ended = place.run(&["/proc/self/mem"], "<circuit");
    ended.is_error("sizes: cannot read '/proc/self/mem'");
}

#[test]
fn standard_input_that_cannot_be_read() {
    let place = Place::new("unreadable_input");
    for words in [&[] as &[&str], &["-"]] {
        for redirection in ["<&-", "<folder", "0>>circuit"] {
            let ended = place.run(words, redirection);
            ended.is_error("sizes: cannot read standard input");
        }
    }
    // Where a file is named, nobody needs a standard input.
    place.run(&["circuit"], "<&-").answers(0, ANSWER);
    assert_eq!(place.got(), CIRCUIT);
}

#[test]
fn output_that_cannot_be_written() {
    let place = Place::new("unwritable_output");
    for word in ["circuit", "--help", "--version"] {
        for redirection in [">/dev/full", ">&-"] {
            let ended = place.run(&[word], redirection);
            ended.is_error("sizes: cannot write to standard output");
        }
    }
    place.answer("refused 7 3\n");
    let ended = place.run(&["circuit"], ">/dev/full");
    ended.is_error("sizes: cannot write to standard output");
}

/// The status is the same where no message can be written.
#[test]
fn no_standard_error() {
    let place = Place::new("no_standard_error");
    place.rt("begins sizes; sleep 0.3");
    place.run(&["circuit"], "2>&-").answers(0, ANSWER);
    place.answer("too long\n");
    place
        .run(&["circuit"], "2>/dev/full")
        .answers(1, "too long\n");
    place.run(&["not there"], "2>/dev/full").answers(2, "");
    place.run(&[], "<&- 2>&-").answers(2, "");
    place.rt("exit 1");
    place.run(&["circuit"], "2>&-").answers(2, "");
}

#[test]
fn help() {
    let place = Place::new("help");
    for word in ["-h", "--help"] {
        let ended = place.run(&[word], "<&-");
        assert_eq!((ended.status, ended.stderr.as_str()), (Some(0), ""));
        let parts = [
            "usage: ./sizes [FILE]\n",
            "refused NUMBER PLACE",
            "too long",
            "--version",
            "Status: 0 accepted; 1 refused or too long; 2 an error",
            "  $ ./sizes examples/and.circuit\n  2 1 1 1\n  80 64 48\n",
        ];
        for part in parts {
            assert!(ended.stdout.contains(part), "no {part:?}: {ended:?}");
        }
        assert!(!place.exists("rt-ran"));
    }
}

#[test]
fn version() {
    let place = Place::new("version");
    let header = fs::read_to_string(place.path(HEADER)).expect("a header");
    let (_, rest) = header
        .split_once("\n#define WEIGHHARE_VERSION \"")
        .expect("a header with a version");
    let (version, _) = rest.split_once('"').expect("the end of the version");
    let due = format!("sizes (Weighhare) {version}\n");
    place.run(&["--version"], "<&-").answers(0, &due);
    assert!(!place.exists("rt-ran"));

    let other = header.replace(&format!("\"{version}\""), "\"12.34.56\"");
    place.write(HEADER, other.as_bytes());
    let due = "sizes (Weighhare) 12.34.56\n";
    place.run(&["--version"], "").answers(0, due);

    let none = header.replace("WEIGHHARE_VERSION", "WEIGHHARE_OTHER");
    place.write(HEADER, none.as_bytes());
    let message = "include/weighhare.h does not say the version";
    place.run(&["--version"], "").is_error(message);
    place.remove(HEADER);
    place.run(&["--version"], "").is_error(message);
}

#[test]
fn wrong_usage() {
    let place = Place::new("wrong_usage");
    let wrong: [&[&str]; 7] = [
        &["-x"],
        &["--size"],
        &["--helpful"],
        &["-x", "circuit"],
        &["circuit", "circuit"],
        &["--", "circuit", "circuit"],
        &["-", "circuit"],
    ];
    for words in wrong {
        let ended = place.run(words, "<circuit");
        is_early_error(&place, &ended, "usage: ./sizes [FILE]");
    }
    place
        .run(&["-x"], "")
        .is_error("sizes: there is no option -x\n");
}

#[test]
fn through_links() {
    let place = Place::new("links");
    fs::create_dir_all(place.path("links/below")).expect("a folder to make");
    let link = |to: &Path, name: &str| symlink(to, place.path(name)).expect("a link to make");
    link(&place.path(SCRIPT), "links/absolute");
    link(
        Path::new("../../a repository/sizes"),
        "links/below/relative",
    );
    link(Path::new("below/relative"), "links/of a link");
    link(Path::new("../a repository/sizes"), "tools/on-the-path");
    link(Path::new("a repository"), "linked");
    let repository = fs::canonicalize(place.path("a repository")).expect("a folder");
    let due = format!("{}/crates/sizes: run\n", repository.display());
    let names = [
        SCRIPT,
        "links/absolute",
        "links/below/relative",
        "links/of a link",
        "on-the-path",
        "linked/sizes",
    ];
    for name in names {
        place.run_script(name, &["circuit"], "").answers(0, ANSWER);
        assert_eq!(place.got(), CIRCUIT, "{name}");
        let ran = fs::read_to_string(place.path("rt-ran")).expect("an rt that ran");
        assert_eq!(ran, due, "{name}");
    }
}

/// The lines of some of the crates, with what follows the time.
fn lines(crates: &[&str], rest: &str) -> String {
    let number = |name| {
        CRATES
            .iter()
            .position(|other| *other == name)
            .expect("a crate")
            + 1
    };
    let lines = crates
        .iter()
        .map(|name| line(number(*name), name, rest) + "\n");
    lines.collect()
}

fn line(number: usize, names: &str, rest: &str) -> String {
    format!("sizes: proving {number} of 6: {names} (T so far{rest})")
}

/// What the stand-in does to all crates: those of a list are proved, and the others unchanged.
fn proves(crates: &[&str]) -> String {
    let does = CRATES.map(|name| match crates.contains(&name) {
        true => format!("proves {name}\n"),
        false => format!("unchanged {name}\n"),
    });
    does.concat()
}

/// An answer after these messages.
fn is_answer(ended: &Ended, messages: &str) {
    let found = (ended.status, ended.stdout.as_str(), ended.timeless());
    assert_eq!(found, (Some(0), ANSWER, messages.to_owned()));
}

#[test]
fn a_line_for_each_crate() {
    let place = Place::new("lines");
    place.remove(STAMP);
    place.remove(MADE);
    place.remove(PROGRAM);
    place.stand_in("built", PROGRAM_TEXT);
    let build = "cp \"$root/built\" out/sizes && : >out/sizes.stamp";
    place.rt(&format!("{}{build}", proves(&CRATES)));
    is_answer(&place.run(&["circuit"], ""), &lines(&CRATES, FROM_NOTHING));
    // Those of a run from nothing alone say how long it takes.
    is_answer(&place.run(&["circuit"], ""), &lines(&CRATES, ""));
    place.remove(STAMP);
    place.write(&stamp("block"), b"");
    is_answer(&place.run(&["circuit"], ""), &lines(&CRATES, FROM_NOTHING));
    for name in CRATES {
        place.remove(STAMP);
        let stamp = stamp(name);
        place.write(&stamp, b"");
        place.rt(&format!("{}{build}", proves(&[])));
        place.run(&["circuit"], "").answers(0, ANSWER);
        place.rt(&format!("{}{build}", proves(&["sizes"])));
        is_answer(&place.run(&["circuit"], ""), &lines(&["sizes"], ""));
        if name != "sizes" {
            place.remove(&stamp);
        }
    }
}

/// What an earlier run left does not count.
#[test]
fn crates_that_are_unchanged() {
    let place = Place::new("unchanged");
    for crates in [&[][..], &["model"], &["material"], &["text", "sizes"]] {
        for name in CRATES {
            place.write(&stamp(name), b"proved\n");
            place.write(LOG, format!("rt: chose --jobs 2 for {name}\n").as_bytes());
        }
        place.rt(&proves(crates));
        is_answer(&place.run(&["circuit"], ""), &lines(crates, ""));
    }
}

/// However short it takes.
#[test]
fn a_crate_that_is_proved_at_once() {
    let place = Place::new("at_once");
    for _ in 0..3 {
        let others = proves(&[]).replace("unchanged sizes", "begins sizes; ends sizes");
        place.rt(&others);
        is_answer(&place.run(&["circuit"], ""), &lines(&["sizes"], ""));
    }
}

/// A crate that names one that is not proved is not proved either, and none begins.
#[test]
fn a_crate_that_is_not_proved() {
    let place = Place::new("crate_not_proved");
    let does = "sleep 0.3; echo a reason; exit 1";
    place.rt(&format!("begins model; said 'model ('; {does}"));
    let ended = place.run(&["circuit"], "");
    is_unproved(&place, &ended);
    let due = format!("{}a reason\n{}", lines(&["model"], ""), last_lines(&place));
    assert_eq!(ended.timeless(), due);
}

/// One line that is written over, and cleared before the answer.
#[test]
fn on_a_terminal() {
    let place = Place::new("terminal");
    let run = || {
        let mut command = place.on_terminal("'a repository/sizes' circuit", "xterm")?;
        Some(place.run_call(command.env("PATH", place.tools())))
    };
    let answer = ["2 1 1 1", "\n80 64 48", "\n"];
    place.rt(&proves(&["text", "sizes"]));
    let Some(ended) = run() else { return };
    let due = [
        "",
        &over(&line(5, "text", "")),
        &over(&line(6, "sizes", "")),
        "\x1b[K2 1 1 1",
        answer[1],
        answer[2],
    ];
    assert_eq!((ended.status, ended.stderr.as_str()), (Some(0), ""));
    assert_eq!(drawn(&ended.stdout), due);
    // Where nothing is proved, nothing is cleared.
    place.rt(&proves(&[]));
    let ended = run().expect("a terminal");
    assert_eq!(drawn(&ended.stdout), answer);
}

/// `rt` runs the program in its folder for temporary files, which others can go through. It is not in memory, where
/// that may be forbidden.
#[test]
fn temporary_files() {
    let place = Place::new("temporary_files");
    place.write("temporary/file", b"");
    place.rt("mktemp >/dev/null; ls -ld \"$TMPDIR\"; echo $TMPDIR >\"$root/room\"");
    for (variable, folder) in [(place.path("temporary"), "temporary"), ("".into(), "/tmp")] {
        let mut call = place.call(SCRIPT, &["circuit"], "");
        place
            .run_call(call.env("TMPDIR", variable))
            .answers(0, ANSWER);
        let log = fs::read_to_string(place.path(LOG)).expect("a file");
        assert!(log.starts_with("drwx--x--x"), "{log}");
        let room = fs::read_to_string(place.path("room")).expect("a file");
        let room = Path::new(room.trim_end());
        assert_eq!(room.parent(), Some(place.path(folder).as_path()));
        assert!(!room.exists());
    }
}

/// What `rt` started takes no notice of some signals, and ends all the same.
#[test]
fn a_signal() {
    let place = Place::new("signal");
    place.rt("lingers model");
    for signal in signals() {
        place.is_ended_by(signal, &mut place.call(SCRIPT, &["circuit"], ""));
    }
    assert!(!place.exists("program-got"));
}
