//! Files that are written: whole or not at all, never over another unless `--force` is said, and secret ones for their owner
//! alone.

use super::places::{and, filled, listing_due, run_in, run_untouched, world};
use crate::program::calls::{calls, new_name, Call, Value};
use crate::program::folder::{difference, Folder};
use crate::program::process::{program, run, Ended, PROGRAM};
use crate::program::world::{is_secret, World};
use std::fs;
use std::io::Write;
use std::os::unix::fs::{symlink, FileTypeExt};
use std::process::{Child, Command, Stdio};
use std::thread;
use std::time::Duration;

/// A file that was there before.
const OLD: &[u8] = b"what was there before";

/// The calls that write files.
fn writers(world: &World) -> Vec<Call> {
    calls(world)
        .into_iter()
        .filter(|call| !call.all_written().is_empty())
        .collect()
}

/// Each call that writes, with each of its outputs under this name.
fn with_each_output(name: &str, mut look: impl FnMut(&Folder, &[String], &str)) {
    let world = world();
    for call in writers(&world) {
        for (index, _) in call.all_written() {
            let mut other = call.clone();
            other.arguments[index].value = Value::Text(name.to_owned());
            look(&filled(&world), &other.words(), call.arguments[index].option);
        }
    }
}

#[test]
fn one_that_is_there_is_kept() {
    with_each_output("old", |folder, words, option| {
        folder.write("old", OLD);
        let named = format!("cannot write {option}, \"old\"");
        run_untouched(folder, words).is_trouble(&[&named, "--force"]);
    });
}

/// Every output is replaced, and has the rights of a new file.
#[test]
fn one_that_is_there_is_replaced_by_force() {
    let world = world();
    for call in writers(&world) {
        let folder = filled(&world);
        let due = listing_due(&folder.listing(), &world, &call);
        for (_, file) in call.all_written() {
            folder.write(new_name(file), OLD);
            folder.set_mode(new_name(file), 0o644);
        }
        run_in(&folder, &and(&call.words(), &["--force"])).is_done(b"");
        assert_eq!(difference(&due, &folder.listing()), None, "{call:?}");
        // Where nothing was there, --force changes nothing.
        let folder = filled(&world);
        run_in(&folder, &and(&call.words(), &["--force"])).is_done(b"");
        assert_eq!(difference(&due, &folder.listing()), None, "{call:?}");
    }
}

/// A link is no file: neither it nor what it names is replaced, by force neither.
#[test]
fn a_link_is_kept() {
    for named in ["old", "nowhere", "/dev/null"] {
        for force in [&[][..], &["--force"]] {
            with_each_output("link", |folder, words, option| {
                folder.write("old", OLD);
                symlink(named, folder.path("link")).expect("a link to make");
                run_untouched(folder, &and(words, force)).is_trouble(&[option, "\"link\"", "is no file"]);
            });
        }
    }
}

#[test]
fn a_folder_that_is_not_there() {
    for force in [&[][..], &["--force"]] {
        with_each_output("nowhere/file", |folder, words, option| {
            let named = format!("cannot write {option}, \"nowhere/file\"");
            run_untouched(folder, &and(words, force)).is_trouble(&[&named, "No such file"]);
        });
        with_each_output("circuit/file", |folder, words, option| {
            run_untouched(folder, &and(words, force)).is_trouble(&[option, "\"circuit/file\""]);
        });
    }
}

/// Names that no file can have. Where one of several outputs cannot have its name, none of them is written.
#[test]
fn a_name_that_no_file_can_have() {
    let long = "n".repeat(256);
    for force in [&[][..], &["--force"]] {
        for name in ["", "slash/", &long, "nowhere/."] {
            with_each_output(name, |folder, words, option| {
                run_untouched(folder, &and(words, force)).is_trouble(&[option, name]);
            });
        }
    }
}

/// By force too, what is no file is not replaced.
#[test]
fn a_folder_or_a_device_is_not_replaced() {
    for force in [&[][..], &["--force"]] {
        for name in ["folder", "folder/", ".", "..", "/dev/null"] {
            with_each_output(name, |folder, words, option| {
                folder.make_folder("folder");
                run_untouched(folder, &and(words, force)).is_trouble(&[option, &format!("{name:?}")]);
            });
        }
    }
    let device = fs::metadata("/dev/null").expect("the null device");
    assert!(device.file_type().is_char_device());
}

/// Two outputs of one call with one name, in each way to say it.
#[test]
fn two_outputs_with_one_name() {
    let world = world();
    for call in writers(&world) {
        let written = call.all_written();
        for (later, (second, _)) in written.iter().enumerate() {
            for (first, _) in &written[..later] {
                for [one, other] in [
                    ["a", "a"],
                    ["a", "./a"],
                    ["folder/a", "here/folder/../folder/a"],
                    ["-", "-"],
                    ["here/a", "a"],
                ] {
                    let folder = filled(&world);
                    folder.make_folder("folder");
                    symlink(".", folder.path("here")).expect("a link to make");
                    let mut same = call.clone();
                    same.arguments[*first].value = Value::Text(one.to_owned());
                    same.arguments[*second].value = Value::Text(other.to_owned());
                    let options = [call.arguments[*first].option, call.arguments[*second].option];
                    run_untouched(&folder, &same.words()).is_trouble(&options);
                    run_untouched(&folder, &and(&same.words(), &["--force"])).is_trouble(&options);
                }
            }
        }
    }
}

/// Runs the program under a umask.
fn under(umask: &str, folder: &Folder, words: &[String]) -> Ended {
    let mut command = Command::new("bash");
    command.args(["-c", &format!("umask {umask}; exec \"$0\" \"$@\""), PROGRAM]);
    run(command.args(words).current_dir(folder.root()), b"")
}

#[test]
fn secret_files_are_for_their_owner_whatever_the_umask() {
    let world = world();
    for (umask, public) in [("000", 0o666), ("022", 0o644), ("027", 0o640), ("077", 0o600)] {
        for call in writers(&world) {
            for force in [false, true] {
                let folder = filled(&world);
                let mut words = call.words();
                words.extend(force.then(|| "--force".to_owned()));
                under(umask, &folder, &words).is_done(b"");
                for (_, file) in call.all_written() {
                    let due = if is_secret(file) { 0o600 } else { public };
                    assert_eq!(folder.mode(new_name(file)), due, "{file} under {umask}");
                }
            }
        }
        let folder = Folder::new();
        under(umask, &folder, &["seed", "--out", "seed"].map(str::to_owned)).is_done(b"");
        assert_eq!(folder.mode("seed"), 0o600);
    }
}

/// A call that has looked at its output and waits for its figure.
fn waiting(folder: &Folder) -> Child {
    let words = "pick --zeros zeros --ones ones --wire 1 --figure @-:8 --out new";
    let mut pick = program(folder, words.split(' '));
    let pick = pick.stdin(Stdio::piped()).stdout(Stdio::piped()).stderr(Stdio::piped());
    pick.spawn().expect("a program that can be started")
}

/// Time for what was started to come so far as to wait.
fn let_it_wait() {
    thread::sleep(Duration::from_millis(15));
}

/// Gives each its figure, and then waits for their ends. Status and message of each.
fn released(mut children: Vec<Child>) -> Vec<(Option<i32>, String)> {
    let pipes: Vec<_> = children.iter_mut().map(|child| child.stdin.take()).collect();
    for pipe in pipes {
        pipe.expect("standard input").write_all(b"7").expect("a figure to give");
    }
    let ended = children
        .into_iter()
        .map(|child| child.wait_with_output().expect("a process to wait for"));
    let ended = ended.map(|output| {
        (
            output.status.code(),
            String::from_utf8_lossy(&output.stderr).into_owned(),
        )
    });
    ended.collect()
}

/// A file that appears after the program looked for it is kept.
#[test]
fn one_that_appears_meanwhile_is_kept() {
    let folder = filled(&world());
    let child = waiting(&folder);
    let_it_wait();
    folder.write("new", OLD);
    let before = folder.listing();
    let (status, said) = released(vec![child]).remove(0);
    assert!(
        status == Some(2) && said.contains("it is there already"),
        "{status:?} {said}"
    );
    assert_eq!(difference(&before, &folder.listing()), None);
}

/// Of many that write one file at once, one does, and the others see that it is there. Who looks first and then writes would be
/// caught in some of the rounds only, by chance.
#[test]
fn one_of_many_at_once() {
    let world = world();
    for _ in 0..30 {
        let folder = filled(&world);
        let children: Vec<Child> = (0..8).map(|_| waiting(&folder)).collect();
        let_it_wait();
        let (done, late): (Vec<_>, Vec<_>) = released(children).into_iter().partition(|ended| ended.0 == Some(0));
        assert_eq!((done.len(), late.len()), (1, 7), "{late:?}");
        assert!(
            late.iter()
                .all(|ended| ended.0 == Some(2) && ended.1.contains("it is there already")),
            "{late:?}"
        );
        assert_eq!(folder.listing().len(), world.files.len() + 1);
        assert_eq!(folder.read("new").len(), 8 * 16);
    }
}

/// A folder without the right to write there. Who may write everywhere, as root does, sees no trouble.
#[test]
fn a_folder_without_the_right_to_write_there() {
    with_each_output("closed/file", |folder, words, option| {
        folder.make_folder("closed");
        folder.set_mode("closed", 0o555);
        if fs::write(folder.path("closed/probe"), b"").is_err() {
            run_untouched(folder, words).is_trouble(&[option, "\"closed/file\"", "Permission denied"]);
        }
        folder.set_mode("closed", 0o755);
    });
}
