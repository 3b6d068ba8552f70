//! Files that are read: what is said where one cannot be read, and that nothing is read without end.

use super::places::{filled, run_in, run_untouched, world};
use crate::program::calls::{calls, Call, Value};
use crate::program::due;
use crate::program::folder::{difference, Folder};
use crate::program::process::{program, run, shell};
use std::ffi::OsStr;
use std::fs::{self, File};
use std::os::unix::ffi::OsStrExt;
use std::os::unix::fs::symlink;
use std::process::{Child, Stdio};
use std::thread;
use std::time::Duration;

/// Each call with each of the files that it reads under another name.
fn with_each_input(name: &'static str, mut look: impl FnMut(&Folder, &Call)) {
    let world = world();
    let folder = filled(&world);
    for call in calls(&world) {
        for (index, _) in call.all_read() {
            let mut other = call.clone();
            let value = &mut other.arguments[index].value;
            *value = match value {
                Value::Figure(_, bits) => Value::Figure(name, *bits),
                _ => Value::Read(name),
            };
            look(&folder, &other);
        }
    }
}

#[test]
fn a_file_that_is_not_there() {
    with_each_input("nowhere", |folder, call| {
        run_untouched(folder, &call.words()).is_trouble(&["cannot read", "\"nowhere\"", "No such file"]);
    });
    with_each_input("nowhere/file", |folder, call| {
        run_untouched(folder, &call.words()).is_trouble(&["cannot read", "\"nowhere/file\"", "No such file"]);
    });
    with_each_input("circuit/file", |folder, call| {
        run_untouched(folder, &call.words()).is_trouble(&["cannot read", "\"circuit/file\"", "Not a directory"]);
    });
}

#[test]
fn a_folder_in_place_of_a_file() {
    with_each_input(".", |folder, call| {
        run_untouched(folder, &call.words()).is_trouble(&["cannot read", "\".\"", "Is a directory"]);
    });
}

/// A file without the right to read it. Who may read every file, as root does, sees no trouble, and there is nothing to test.
#[test]
fn a_file_without_the_right_to_read_it() {
    with_each_input("closed", |folder, call| {
        folder.write("closed", b"");
        folder.set_mode("closed", 0o000);
        if File::open(folder.path("closed")).is_err() {
            run_untouched(folder, &call.words()).is_trouble(&["cannot read", "\"closed\"", "Permission denied"]);
        }
        fs::remove_file(folder.path("closed")).expect("a file to remove");
    });
}

/// A link is read as the file that it names; one that names none, or itself, is trouble.
#[test]
fn links() {
    let folder = Folder::new();
    let circuit = due::comparator(8).expect("a circuit");
    folder.write("circuit", &circuit);
    for (link, target) in [("link", "circuit"), ("dangling", "nowhere"), ("round", "round")] {
        symlink(target, folder.path(link)).expect("a link to make");
    }
    run_in(&folder, &["sizes", "link"]).is_done(due::sizes(&circuit).expect("accepted").as_bytes());
    run_untouched(&folder, &["sizes", "dangling"]).is_trouble(&["\"dangling\"", "No such file"]);
    run_untouched(&folder, &["sizes", "round"]).is_trouble(&["\"round\"", "symbolic links"]);
}

/// Standard input can be read once.
#[test]
fn standard_input_twice() {
    let world = world();
    for call in calls(&world) {
        let read = call.all_read();
        for (earlier, (first, _)) in read.iter().enumerate() {
            for (second, _) in &read[..earlier] {
                let folder = filled(&world);
                let before = folder.listing();
                let both = call.over_streams(*first).over_streams(*second);
                // A figure, so that whatever reads it first has no other trouble.
                let ended = run(&mut program(&folder, both.words()), b"7");
                ended.is_trouble(&["standard input, -, is named twice"]);
                assert_eq!(difference(&before, &folder.listing()), None);
            }
        }
    }
}

/// What has no end is not read to its end, in an address space of 1 GiB.
#[test]
fn a_file_without_end() {
    let folder = filled(&world());
    let start = "ulimit -v 1048576; exec weighhare";
    for (words, from) in [
        ("sizes /dev/zero", "\"/dev/zero\""),
        ("sizes - </dev/zero", "\"standard input\""),
        (
            "garble circuit --seed /dev/zero --material m --zeros z --ones o",
            "\"/dev/zero\"",
        ),
        (
            "evaluate circuit --material material --tokens tokens --tokens /dev/zero --out o",
            "\"/dev/zero\"",
        ),
        (
            "encode circuit --zeros zeros --ones ones --values /dev/zero --out o",
            "\"/dev/zero\"",
        ),
        (
            "pick --zeros zeros --ones ones --wire 1 --figure @/dev/zero:8 --out o",
            "\"/dev/zero\"",
        ),
    ] {
        let before = folder.listing();
        let ended = run(&mut shell(folder.root(), &format!("{start} {words}")), b"");
        ended.is_trouble(&["cannot read", from, "256 MiB"]);
        assert_eq!(difference(&before, &folder.listing()), None, "{words}");
    }
}

/// The most memory that a process has until it ends, in KiB.
fn most_memory(mut child: Child) -> u64 {
    let status = format!("/proc/{}/status", child.id());
    let mut most = 0;
    while child.try_wait().expect("a process to wait for").is_none() {
        let text = fs::read_to_string(&status).unwrap_or_default();
        let line = text
            .lines()
            .find_map(|line| line.strip_prefix("VmHWM:")?.strip_suffix(" kB"));
        most = line.and_then(|number| number.trim().parse().ok()).unwrap_or(most);
        thread::sleep(Duration::from_millis(2));
    }
    most
}

/// A file of the system that says to be empty and goes on for ever: no more is kept of it than of any other.
#[test]
fn a_file_that_says_to_be_empty() {
    let folder = filled(&world());
    for words in [
        "sizes /proc/self/pagemap",
        "garble circuit --seed /proc/self/pagemap --material m --zeros z --ones o",
        "decode circuit --material /proc/self/pagemap --outputs outputs",
    ] {
        // In an address space of 4 GiB, so that a program that reads on does not take all that there is.
        let mut line = shell(folder.root(), &format!("ulimit -v 4194304; exec weighhare {words}"));
        let child = line.stdin(Stdio::null()).stderr(Stdio::null()).spawn();
        let most = most_memory(child.expect("a program that can be started"));
        assert!(most < 512 << 10, "{words}: {most} KiB");
    }
}

/// A file of a tebibyte, which holds nothing on the disk, and one of 100 MiB, which is read and refused.
#[test]
fn a_file_that_is_far_too_long() {
    let folder = Folder::new();
    let circuit = due::comparator(8).expect("a circuit");
    folder.write("long", &circuit);
    let long = File::options()
        .write(true)
        .open(folder.path("long"))
        .expect("a file to open");
    long.set_len(100 << 20).expect("a length to set");
    let said = due::said(weighhare::check(&folder.read("long")).unwrap_err());
    assert!(said.starts_with("refused 4 104857600: "), "{said}");
    run_in(&folder, &["sizes", "long"]).is_refused(&said);
    if long.set_len(1 << 40).is_ok() {
        run_in(&folder, &["sizes", "long"]).is_trouble(&["cannot read", "\"long\"", "256 MiB"]);
    }
}

/// File names of any bytes are read and written.
#[test]
fn names_that_are_no_text() {
    let folder = Folder::new();
    let name = OsStr::from_bytes(b"\xff\xfe circuit\n");
    let [comparator, bits, width, out, sizes] = ["comparator", "--bits", "8", "--out", "sizes"].map(OsStr::new);
    run_in(&folder, &[comparator, bits, width, out, name]).is_done(b"");
    let circuit = due::comparator(8).expect("a circuit");
    assert!(folder.read(name) == circuit && folder.listing().len() == 1);
    let due = due::sizes(&circuit).expect("accepted");
    run_in(&folder, &[sizes, name]).is_done(due.as_bytes());
    let joined = OsStr::from_bytes(b"--out=\xfd");
    run_in(&folder, &[comparator, bits, width, joined]).is_done(b"");
    assert!(folder.read(OsStr::from_bytes(b"\xfd")) == circuit);
    // A name that is not there is said on one line.
    let ended = run_untouched(&folder, &[sizes, OsStr::from_bytes(b"\xff\n\x1b[1m")]);
    ended.is_trouble(&["cannot read the circuit"]);
    assert_eq!(ended.stderr().lines().count(), 1, "{}", ended.stderr());
    assert!(!ended.stderr().contains('\x1b'));
}
