//! The script `wrong_programs` beside this folder, which judges whether the prover refuses each wrong program: it
//! must be able to say no. Each test has a folder with a copy of the script, a small repository whose edits are
//! made here, and a stand-in for `rt` that says what the prover would, in the prover's own form. So no toolchain is
//! needed. Tested are that each edit has a check of its own, when an edit counts as refused and when it does not, the
//! control for each crate, edits for the compiler, what ends the script before a check, and `--changed`.

#[allow(dead_code)] // Not all of it is used here.
mod places;

use places::{Ended, Place};
use std::env;
use std::fs;
use std::path::Path;
use std::thread;

/// The repository, in a folder whose name has a blank, and the copy of the script.
const REPOSITORY: &str = "a repository";
const SCRIPT: &str = "a repository/tests/wrong_programs";

const CRATES: &str =
    "# The last has no edits.\nblock:\nbuffer staticlib: block\nplain may_wait=2: block\n";

/// The sources of crate `block`, in the layout of `rt fmt`.
const LIB: &str = r#"// Blocks.
mod halves;

const FIRST: u8 = 1;

pub struct Block {
    pub bytes: [u8; 16],
}

impl Block {
    // Twice the block.
    pub fn doubled(self) -> Block
        ensures { result.bytes ≡ double self.bytes }
    {
        let two = 2;
        self.times(two)
    }

    pub fn zero() -> Block {
        Block { bytes: [0; 16] }
    }
}

// The block at an index.
pub fn load(s: &[u8], at: usize) -> Block
    requires { at + 16 ≤ length s.now }
    ensures { result.bytes ≡ take 16 (drop at s.now) }
{
    let mut x = [0u8; 16];
    for i in 0..16 {
        x[i] = s[at + i];
    }
    Block { bytes: x }
}

#[unsafe(no_mangle)]
pub extern "C" fn count() -> u8 {
    FIRST + 7
}
"#;

const HALVES: &str = "// A block in two words.
use crate::Block;

pub struct Halves {
    pub high: u64,
    pub low: u64,
}

impl Halves {
    // Moved by one bit. What leaves a word at its end
    // comes into the other.
    pub fn shifted(self) -> Halves
        ensures { result ≡ twice self }
    {
        self.moved(1)
    }
}
";

const LAWS: &str = "double x = x + x\ntwo = 2\n";

/// The source of crate `buffer`. Its functions have no proof files.
const BUFFER: &str = "pub fn write16(value: usize) -> [u8; 2] {
    [high(value), low(value)]
}

pub fn both(a: u8, b: u8) -> u8 {
    a + b
}
";

/// What an edit changes, a text in a file of the crate, and where it must fail: the proof, and what fails there.
type Spot<'a> = [&'a str; 3];

const DOUBLED: Spot = [
    "src/lib.rt",
    "times(two)",
    "proofs/Block/doubled/Answers.antt returns",
];
const ZERO: Spot = [
    "src/lib.rt",
    "[0; 16]",
    "proofs/Block/zero/Answers.antt returns-zero",
];
const LOAD: Spot = [
    "src/lib.rt",
    "s[at + i]",
    "proofs/load/Answers.antt loop-i-preserved",
];
const COUNT: Spot = ["src/lib.rt", "+ 7", "proofs/count/Answers.antt returns"];
const SHIFTED: Spot = [
    "src/halves.rt",
    "moved(1)",
    "proofs/halves/Halves/shifted/Answers.antt returns",
];
const LAW: Spot = ["specs/Laws.antt", "x + x", "proofs/Laws.antt doubled_law"];
const WRITE16: Spot = [
    "src/lib.rt",
    "high(value)",
    "proofs/write16/Answers.antt returns",
];
const BOTH: Spot = [
    "src/lib.rt",
    "a + b",
    "proofs/both/Answers.antt overflow_add-result",
];

/// The stand-in for `rt`. An edit LABEL puts `wrong_LABEL` into a file, and `says/LABEL` is what the prover does
/// then, in sh: it prints by the functions here, or ends with a status of its own. If nothing is printed, the crate
/// is proved. Each check leaves a line: the crate and the edits that it sees.
const RT: &str = r#"command=$*
name=${PWD##*/}
case $PWD in
*/target/wrong/*) ;;
*)
    echo "check: $name" >>"$root/ran"
    . "$root/check-does"
    mkdir -p out/incremental/x
    for file in file.oantt judged; do echo "$name" >out/incremental/x/$file; done
    exit 0
    ;;
esac
echo begins >>"$root/order"
edits=$(grep -rhoE 'wrong_[a-z0-9_]+' src specs proofs 2>/dev/null | sort -u)
over=', nothing taken over' checked=out/incremental/x
if cmp -s $checked/file.oantt $checked/judged && read -r of <$checked/judged && [ "$of" = "$name" ]; then over=; fi
echo "$name$over:" $edits >>"$root/ran"
# The prover leaves its own files. It changes no file of what was proved, and puts another in its place.
echo another >>$checked/judged
rm $checked/file.oantt
# The copy has the crate and all that it needs, as they stand.
[ "$command" = 'check --jobs 1' ] && [ -f ../../crates.txt ] && [ -f proofs/Lib.antt ] && [ -f ../plain/src/lib.rt ] || exit 2
[ "$(grep -rl wrong_ ../*/src ../*/specs 2>/dev/null | sed 's|^\.\./||; s|/.*||' | sort -u)" = "${edits:+$name}" ] || exit 2
fact() {
    echo "./$1:9:13: error: \`$2\`: computed as far as they go, the two types differ only where one has \`1\`" \
        "(expected) and the other has \`2\` (found)"
    echo "./$1:8:1: note: the last of 3 trial runs of this declaration was refused too. (in \`$2\`)"
}
waits() {
    echo "./$1:6:16: error: \`$2\`: \`close\` was not admitted (it has holes or undetermined implicits, or was" \
        "rejected), so this cannot be checked"
    echo "./$1:7:1: error: 1 declaration that depends on \`close\`, which was not admitted, was not checked: $2"
}
lacks() {
    echo "./$1:6:34: error: \`$2\`: \`goal.$2\`: module \`Rattle.$name.Goals\` has no \`$2\` that can be named from here"
    echo "./$1:7:8: error: \`$2\`: \`$2\` is not in scope"
    echo "./$1:7:9: error: \`$2\`: the record has no field \`$2\`"
}
error() {
    fact "$1" "$2"
    waits "$1" what-follows
}
no_proof() {
    echo "note: src/lib.rt:2:1: a goal may be false even if its line does not say so (\`other\`)"
    for goal in $2; do
        echo "note: src/lib.rt:2:1: it is not proved that what the function ensures holds when it returns (\`$goal\`)"
    done
    echo "note: to see how far a \`search\` got, write \`search rules\` in place of that hole"
    echo "fn $name::$1: $3"
    echo "help: write ./proofs/$1/Answers.antt with these lines, and check again: \`goal\`"
}
gave_up() {
    echo "note: src/lib.rt:2:1: it is not proved that what the function ensures holds when it returns (\`$2\`); \`search\`" \
        "gave up at one of its limits"
    echo "fn $name::$1: not proved"
}
mismatch() {
    echo "src/lib.rt:3:5: error[mismatched-types]: expected \`$1\`, found \`$2\`"
}
said=$(for edit in $edits; do . "$root/says/${edit#wrong_}"; done)
status=$?
echo ends >>"$root/order"
[ -z "$said" ] || echo "$said"
[ "$status" -eq 0 ] || exit "$status"
if [ -n "$said" ]; then
    echo logic=not-proved
    exit 1
fi
echo logic=proved functions=19
"#;

impl Place {
    /// A repository where the edits of crate `buffer` are refused, and those of `block` are still to be made.
    fn new(name: &str) -> Place {
        let place = Place::empty("wrong_programs_script", name);
        place.copy("tests/wrong_programs", SCRIPT);
        place.put("crates.txt", CRATES);
        place.put("crates/block/src/lib.rt", LIB);
        place.put("crates/block/src/halves.rt", HALVES);
        place.put("crates/block/specs/Laws.antt", LAWS);
        place.put("crates/buffer/src/lib.rt", BUFFER);
        place.put("crates/plain/src/lib.rt", "");
        for name in ["block", "buffer"] {
            place.put(&format!("crates/{name}/proofs/Lib.antt"), "");
        }
        place.edit("tests/wrong/buffer/write16", WRITE16);
        place.says("write16", "no_proof write16 returns 'not proved'");
        place.edit("crates/buffer/must-fail/both", BOTH);
        let no_file =
            "no proof: expected answers in ./proofs/both/Answers.antt; `search` did not prove";
        place.says(
            "both",
            &format!("no_proof both '' '{no_file} `overflow_add-result` and `returns`'"),
        );
        place.put(
            "tests/wrong_types/buffer/colour.edit",
            "# says: expected `Colour`, found `Truth`\nfile: src/lib.rt\nold: low(value)\nnew: wrong_colour\n",
        );
        place.says("colour", "mismatch Colour Truth; exit 1");
        place.stand_in("tools/rt", RT);
        place.write("check-does", b"");
        place
    }

    fn read(&self, name: &str) -> String {
        fs::read_to_string(self.path(name)).expect("a file to read")
    }

    /// Writes a file of the repository.
    fn put(&self, name: &str, text: &str) {
        self.write(&format!("{REPOSITORY}/{name}"), text.as_bytes());
    }

    /// Puts lines after a file of the repository.
    fn append(&self, name: &str, lines: &str) {
        let text = self.read(&format!("{REPOSITORY}/{name}"));
        self.put(name, &(text + lines));
    }

    /// Makes an edit, which the prover refuses as it must.
    fn edit(&self, name: &str, [file, old, at]: Spot) {
        let (_, label) = name.rsplit_once('/').expect("a folder and a label");
        let text =
            format!("# A comment.\n# at: {at}\nfile: {file}\nold: {old}\nnew: wrong_{label}\n");
        self.put(&format!("{name}.edit"), &text);
        self.says(label, &format!("error {at}"));
    }

    /// Makes an edit of crate `block`.
    fn wrong(&self, label: &str, spot: Spot) {
        self.edit(&format!("tests/wrong/block/{label}"), spot);
    }

    /// What the prover does where it sees an edit.
    fn says(&self, label: &str, does: &str) {
        self.write(&format!("says/{label}"), format!("{does}\n").as_bytes());
    }

    /// Runs the script, at most so many checks at once, with no trace of earlier runs.
    fn run_jobs(&self, words: &[&str], jobs: &str) -> Ended {
        for trace in ["ran", "order"] {
            if self.exists(trace) {
                self.remove(trace);
            }
        }
        let path = env::var("PATH").expect("a PATH");
        let path = format!("{}:{path}", self.path("tools").display());
        let mut command = self.command(SCRIPT, "");
        command.args(words).env("PATH", path).env("RT_JOBS", jobs);
        self.end(command.spawn().expect("a script that can be started"))
    }

    fn run(&self, words: &[&str]) -> Ended {
        self.run_jobs(words, "3")
    }

    /// The checks of the last run, in the order of their names.
    fn ran(&self) -> Vec<String> {
        if !self.exists("ran") {
            return Vec::new();
        }
        let text = self.read("ran");
        let lines = text.lines().map(|line| line.replace(" wrong_", " "));
        let mut lines: Vec<String> = lines.collect();
        lines.sort();
        lines
    }
}

/// `rt` looks for Rattle's files in the whole repository, here too: none may stay.
impl Drop for Place {
    fn drop(&mut self) {
        let removed = fs::remove_dir_all(self.path(REPOSITORY));
        assert!(removed.is_ok() || thread::panicking(), "{removed:?}");
    }
}

/// What the script says of a crate that it finds proved as it stands.
fn proved(name: &str) -> String {
    format!("{name} unchanged: proved, as it must be")
}

/// What it says of an edit that was refused as it must be.
fn refused(label: &str, spot: Spot) -> String {
    format!("{label}: refused, as it must be, at {}", spot[2])
}

/// What it says of one that was not refused at its place, where these facts do not hold.
fn elsewhere(label: &str, at: &str, facts: &str) -> String {
    format!("{label}: NOT REFUSED AT ITS PLACE, which is '{at}'; what does not hold is: {facts}")
}

/// What the script said of edits and controls, in the order of their names. How long it took is left out.
fn said(ended: &Ended) -> Vec<String> {
    let lines = ended.stdout.lines();
    let said = lines.filter_map(|line| line.strip_prefix("wrong_programs: "));
    let said = said.map(|line| match line.rsplit_once(" (") {
        Some((before, time)) if time.ends_with(" s)") => before.to_owned(),
        _ => line.to_owned(),
    });
    let mut said: Vec<String> = said.collect();
    said.sort();
    said
}

/// The script ended with these numbers.
fn counts(ended: &Ended, passed: usize, failed: usize) {
    let last = format!("{passed} passed, {failed} failed");
    assert_eq!(ended.stdout.lines().last(), Some(&*last), "{ended:?}");
    assert_eq!(ended.status, Some((failed > 0) as i32), "{ended:?}");
    assert_eq!(ended.stderr, "", "{ended:?}");
}

/// And it said just this of edits and controls.
fn ends(ended: &Ended, passed: usize, failed: usize, mut due: Vec<String>) {
    due.sort();
    assert_eq!(said(ended), due);
    counts(ended, passed, failed);
}

/// A place with edits of two functions, one of which is for `rt ci` too, and of a law.
fn three_edits(name: &str) -> Place {
    let place = Place::new(name);
    place.wrong("doubled", DOUBLED);
    place.edit("crates/block/must-fail/load", LOAD);
    place.wrong("law", LAW);
    place
}

#[test]
fn all_are_refused() {
    let place = three_edits("refused");
    let due = vec![
        proved("block"),
        refused("block/doubled", DOUBLED),
        refused("block/law", LAW),
        refused("block/load", LOAD),
        proved("buffer"),
        refused("buffer/both", BOTH),
        "buffer/colour: refused by the compiler, as it must be".to_owned(),
        refused("buffer/write16", WRITE16),
    ];
    ends(&place.run(&[]), 8, 0, due);
    let ran = [
        "block:",
        "block: doubled",
        "block: law",
        "block: load",
        "buffer:",
        "buffer: both",
        "buffer: colour",
        "buffer: write16",
        "check: block",
        "check: buffer",
    ];
    assert_eq!(place.ran(), ran);
    // An edit is made in a copy, of which nothing stays, and nothing of what the prover leaves in its folder.
    assert_eq!(place.read("a repository/crates/block/src/lib.rt"), LIB);
    let kept = "a repository/crates/block/out/incremental/x";
    for file in ["file.oantt", "judged"] {
        assert_eq!(place.read(&format!("{kept}/{file}")), "block\n");
    }
    assert!(!place.exists("a repository/target/wrong"));
}

/// One check at a time, though one takes longer: in one copy, which is as it was after each.
#[test]
fn one_at_a_time() {
    let place = Place::new("one_at_a_time");
    place.wrong("doubled", DOUBLED);
    place.wrong("load", LOAD);
    place.says("doubled", &format!("sleep 0.2; error {}", DOUBLED[2]));
    let due = vec![
        proved("block"),
        refused("block/doubled", DOUBLED),
        refused("block/load", LOAD),
    ];
    ends(&place.run_jobs(&["block"], "1"), 3, 0, due);
    let ran = ["block:", "block: doubled", "block: load", "check: block"];
    assert_eq!(place.ran(), ran);
    assert_eq!(place.read("order"), "begins\nends\n".repeat(3));
}

/// Edits of one text of crate `block`, in the order of their labels.
const ONE_TEXT: [(&str, Spot); 9] = [
    ("argument", ["src/lib.rt", "at: usize", LOAD[2]]),
    ("constant", ["src/lib.rt", "u8 = 1", COUNT[2]]),
    ("contract", ["src/lib.rt", "double self", DOUBLED[2]]),
    ("count", COUNT),
    ("doubled", DOUBLED),
    ("doubled_too", ["src/lib.rt", "two = 2", DOUBLED[2]]),
    ("law", LAW),
    ("shifted", SHIFTED),
    ("zero", ZERO),
];

/// Edits of two texts: both of one function; of a function and of a law; of two functions of a file; and of two
/// functions of two files, which begin on the same line.
const TWO_TEXTS: [(&str, Spot, [&str; 2]); 4] = [
    ("load", LOAD, ["src/lib.rt", "[0u8; 16]"]),
    ("body_and_law", DOUBLED, ["specs/Laws.antt", "two = 2"]),
    ("two", DOUBLED, [LOAD[0], LOAD[1]]),
    ("two_files", DOUBLED, [SHIFTED[0], SHIFTED[1]]),
];

#[test]
fn each_has_a_check_of_its_own() {
    let place = Place::new("its_own");
    let mut ran = vec!["block:".to_owned(), "check: block".to_owned()];
    for (label, spot) in ONE_TEXT {
        place.wrong(label, spot);
        ran.push(format!("block: {label}"));
    }
    for (label, spot, [file, old]) in TWO_TEXTS {
        place.wrong(label, spot);
        let more = format!("file: {file}\nold: {old}\nnew: other\n");
        place.append(&format!("tests/wrong/block/{label}.edit"), &more);
        ran.push(format!("block: {label}"));
    }
    ran.sort();
    counts(&place.run(&["block"]), 14, 0);
    assert_eq!(place.ran(), ran);
}

#[test]
fn many_edits() {
    let place = Place::new("many_edits");
    let mut source = String::new();
    for name in 'a'..='m' {
        source += &format!("fn {name}() {{\n    {name}{name}\n}}\n");
        let at = format!("proofs/many/{name}/Answers.antt returns");
        let old = format!("{name}{name}");
        place.wrong(&name.to_string(), ["src/many.rt", &old, &at]);
    }
    place.put("crates/block/src/many.rt", &source);
    counts(&place.run(&["block"]), 14, 0);
    let mut ran: Vec<String> = ('a'..='m').map(|name| format!("block: {name}")).collect();
    ran.insert(0, "block:".to_owned());
    ran.push("check: block".to_owned());
    assert_eq!(place.ran(), ran);
}

#[test]
fn not_refused() {
    let place = three_edits("not_refused");
    let mut due = vec![proved("block")];
    for label in ["doubled", "load", "law"] {
        place.says(label, "");
        due.push(format!(
            "block/{label}: NOT REFUSED: the crate is still proved with this edit"
        ));
    }
    ends(&place.run(&["block"]), 1, 3, due);
    // What the prover said stays, to be looked at.
    let said = place.read("a repository/target/wrong/block/law");
    assert_eq!(said, "logic=proved functions=19\n");
}

/// Some show no error of their own, or only one under another name, beside those of other functions.
#[test]
fn not_refused_beside_others() {
    let place = Place::new("beside");
    let other = "error proofs/load/Answers.antt loop-i-preserved";
    let edits = [
        (
            "count",
            COUNT,
            "no_proof count 'cast-t6 returns-2' 'not proved'",
            "proofs/count/Answers.antt cast-t6,proofs/count/Answers.antt returns-2,",
        ),
        (
            "doubled",
            DOUBLED,
            "fact proofs/Block/doubled/Answers.antt returns-2",
            "proofs/Block/doubled/Answers.antt returns-2,",
        ),
        (
            "callee",
            COUNT,
            "no_proof count '' 'no proof: expected answers in x; `search` did not prove `cast`; it calls `returns`'",
            "proofs/count/Answers.antt cast,",
        ),
        ("zero", ZERO, ":", ""),
    ];
    let mut due = vec![proved("block"), refused("block/load", LOAD)];
    for (label, spot, does, facts) in edits {
        place.wrong(label, spot);
        place.says(label, &format!("{other}; {does}"));
        let facts = format!("{facts}{}", LOAD[2]);
        due.push(elsewhere(&format!("block/{label}"), spot[2], &facts));
    }
    place.wrong("load", LOAD);
    ends(&place.run(&["block"]), 2, 4, due);
}

/// An error that follows from another, or that says that a name is missing, is no fact that does not hold. Nor is it one that the
/// prover gave up at a limit of its own.
#[test]
fn refused_elsewhere() {
    let place = Place::new("elsewhere");
    let other = "proofs/Other.antt doubled_law";
    let cases = [
        ("follows", "waits proofs/Laws.antt doubled_law", ""),
        ("missing", "lacks proofs/Laws.antt doubled_law", ""),
        ("file", "error proofs/Other.antt doubled_law", other),
        ("crate", "error ../plain/proofs/Laws.antt doubled_law", ""),
        (
            "unnamed",
            "echo './proofs/Laws.antt:1:1: error: doubled_law'",
            "",
        ),
        ("limit", "gave_up doubled law", ""),
    ];
    let mut due = vec![proved("block")];
    for (label, does, facts) in cases {
        place.wrong(label, LAW);
        place.says(label, does);
        due.push(elsewhere(&format!("block/{label}"), LAW[2], facts));
    }
    // It names no place.
    let lines = "file: src/lib.rt\nold: times(two)\nnew: wrong_nowhere\n";
    place.put("tests/wrong/block/nowhere.edit", lines);
    place.says("nowhere", &format!("error {}", DOUBLED[2]));
    due.push(elsewhere("block/nowhere", "", DOUBLED[2]));
    place.wrong("count", COUNT);
    due.push(refused("block/count", COUNT));
    ends(&place.run(&["block"]), 2, 7, due);
}

/// The proof of a caller may say no more than that it waits for another. An edit of the caller is not refused by that.
#[test]
fn a_caller_that_waits() {
    let place = Place::new("waits");
    place.wrong("shifted", SHIFTED);
    place.wrong("zero", ZERO);
    let waits = format!("waits {}", ZERO[2]);
    place.says("shifted", &format!("error {}; {waits}", SHIFTED[2]));
    place.says("zero", &format!("error {}; {waits}", SHIFTED[2]));
    let due = vec![
        proved("block"),
        refused("block/shifted", SHIFTED),
        elsewhere("block/zero", ZERO[2], SHIFTED[2]),
    ];
    ends(&place.run(&["block"]), 2, 1, due);
    let ran = ["block:", "block: shifted", "block: zero", "check: block"];
    assert_eq!(place.ran(), ran);
}

/// An edit may fail at more places than its own.
#[test]
fn more_places() {
    let place = three_edits("more_places");
    let more =
        "error proofs/Block/zero/Answers.antt returns; error proofs/count/Answers.antt returns";
    place.says("load", &format!("error {}; {more}", LOAD[2]));
    place.says("law", &format!("{more}; error {}", LAW[2]));
    let due = vec![
        proved("block"),
        refused("block/doubled", DOUBLED),
        refused("block/law", LAW),
        refused("block/load", LOAD),
    ];
    ends(&place.run(&["block"]), 4, 0, due);
}

/// A text that stands twice in the source, in the bodies of two functions.
const TWICE: Spot = ["src/lib.rt", "Block { bytes: ", ZERO[2]];

#[test]
fn bad_edits() {
    let place = Place::new("bad_edits");
    place.wrong("missing", ["src/lib.rt", "times(three)", DOUBLED[2]]);
    place.wrong("twice", TWICE);
    place.wrong("no_file", ["src/other.rt", "times(two)", DOUBLED[2]]);
    let head = "# at: a b\nfile: src/lib.rt\n";
    place.put("tests/wrong/block/no_pair.edit", head);
    place.put("tests/wrong/block/no_old.edit", &format!("{head}new: x\n"));
    let unanswered = [
        ("status_2", "echo logic=not-proved; exit 2"),
        ("silent", "exit 1"),
    ];
    for (label, does) in unanswered {
        place.wrong(label, LAW);
        place.says(label, &format!("error {}; {does}", LAW[2]));
    }
    let due = [
        "missing: BAD EDIT: the text 'times(three)' does not stand in src/lib.rt just once",
        "twice: BAD EDIT: the text 'Block { bytes: ' does not stand in src/lib.rt just once",
        "no_file: BAD EDIT: the crate has no file 'src/other.rt'",
        "no_old: BAD EDIT: the text '' does not stand in src/lib.rt just once",
        "no_pair: BAD EDIT: it has no pair of 'old:' and 'new:'",
        "status_2: BAD EDIT: it did not get as far as the prover's answer (status 2)",
        "silent: BAD EDIT: it did not get as far as the prover's answer (status 1)",
    ];
    let mut due: Vec<String> = due.map(|line| format!("block/{line}")).to_vec();
    due.push(proved("block"));
    ends(&place.run(&["block"]), 1, 7, due);
}

/// Where an edit cannot be made, nothing is checked for it, and those beside it are tried all the same.
#[test]
fn a_bad_edit_beside_others() {
    let place = Place::new("bad_edit_beside");
    place.wrong("doubled", DOUBLED);
    place.wrong("twice", TWICE);
    counts(&place.run_jobs(&["block"], "1"), 2, 1);
    assert_eq!(place.ran(), ["block:", "block: doubled", "check: block"]);
}

/// One whose first pair fits and whose second does not leaves nothing in the copy.
#[test]
fn half_a_bad_edit() {
    let place = Place::new("half_bad");
    place.wrong("doubled", DOUBLED);
    place.append("tests/wrong/block/doubled.edit", "old: three\nnew: four\n");
    place.wrong("zero", ZERO);
    let due = vec![
        "block/doubled: BAD EDIT: the text 'three' does not stand in src/lib.rt just once"
            .to_owned(),
        proved("block"),
        refused("block/zero", ZERO),
    ];
    ends(&place.run_jobs(&["block"], "1"), 2, 1, due);
}

/// Then the refusals are not the edits'.
#[test]
fn a_crate_that_is_not_proved_over_the_copy() {
    let place = Place::new("control");
    place.wrong("law", LAW);
    place.put("crates/block/src/more.rt", "// wrong_unchanged\n");
    place.says("unchanged", "error proofs/Lib.antt returns");
    place.says("law", &format!("error {}", LAW[2]));
    let control = "block unchanged: NOT PROVED over a copy of what was checked: no refusal of its edits means anything";
    let due = vec![control.to_owned(), refused("block/law", LAW)];
    ends(&place.run(&["block"]), 1, 1, due);
}

#[test]
fn crates_that_are_not_proved() {
    let place = three_edits("not_proved");
    let does = b"echo one reason\necho another reason >&2\nexit 1";
    place.write("check-does", does);
    let ended = place.run(&[]);
    assert_eq!(ended.status, Some(2));
    assert_eq!(ended.stdout, "one reason\nanother reason\n");
    let due = "wrong_programs: the crates are not proved as they stand\n";
    assert_eq!(ended.stderr, due);
    assert_eq!(place.ran(), ["check: block"]);
}

/// Where no copy can be made, nothing is refused.
#[test]
fn no_copy() {
    let place = Place::new("no_copy");
    place.wrong("law", LAW);
    place.write("check-does", b"rm -r ../plain");
    let ended = place.run(&["block"]);
    assert_eq!(ended.status, Some(1), "{ended:?}");
    assert_eq!(ended.stdout, "0 passed, 2 failed\n");
    let due = "wrong_programs: cannot make a copy of the crates\n";
    assert!(ended.stderr.contains(due), "{ended:?}");
    assert_eq!(place.ran(), ["check: block"]);
}

#[test]
fn wrong_types() {
    let place = Place::new("wrong_types");
    let words = "expected `Colour`, found `Truth`";
    let cases = [
        ("right", words, "mismatch Colour Truth; exit 1", 1),
        ("other_words", words, "mismatch Truth Colour; exit 1", 1),
        ("no_words", "", "mismatch Colour Truth; exit 1", 1),
        ("prover", words, "mismatch Colour Truth", 1),
        ("proved", words, "", 0),
        ("status_2", words, "mismatch Colour Truth; exit 2", 2),
    ];
    let mut due = vec![proved("block")];
    for (label, words, does, status) in cases {
        let lines =
            format!("# says: {words}\nfile: src/lib.rt\nold: times(two)\nnew: wrong_{label}\n");
        place.put(&format!("tests/wrong_types/block/{label}.edit"), &lines);
        place.says(label, does);
        due.push(match label {
            "right" => "block/right: refused by the compiler, as it must be".to_owned(),
            _ => format!(
                "block/{label}: NOT REFUSED by the compiler's words '{words}' (status {status})"
            ),
        });
    }
    ends(&place.run(&["block"]), 2, 5, due);
}

#[test]
fn what_would_be_passed_over() {
    let place = three_edits("passed_over");
    let no_edit = "these are no edits: ";
    let no_crate = " is of no crate that crates.txt lists";
    let two = "two edits have this name: ";
    let cases = [
        (
            "tests/wrong/block/note",
            [no_edit, "tests/wrong/block/note"],
        ),
        (
            "tests/wrong_types/buffer/x",
            [no_edit, "tests/wrong_types/buffer/x"],
        ),
        (
            "crates/block/must-fail/x.edt",
            [no_edit, "crates/block/must-fail/x.edt"],
        ),
        (
            "tests/wrong_types/x.edit",
            ["tests/wrong_types/x.edit", no_crate],
        ),
        ("tests/wrong/block/load.edit", [two, "block/load.edit"]),
        ("tests/wrong_types/block/law.edit", [two, "block/law.edit"]),
        (
            "tests/wrong/blocks/x.edit",
            ["tests/wrong/blocks", no_crate],
        ),
    ];
    for (file, message) in cases {
        place.put(file, "");
        let ended = place.run(&["buffer"]);
        ended.is_error(&format!("wrong_programs: {}\n", message.concat()));
        assert_eq!(place.ran(), [""; 0]);
        place.remove(&format!("{REPOSITORY}/{file}"));
    }
}

#[test]
fn wrong_usage() {
    let place = three_edits("usage");
    let usage = "usage: tests/wrong_programs [--changed] [NAME..]";
    let cases = [
        (&["--single"][..], usage),
        (&["--singly"], usage),
        (&["block", "-h"], usage),
        (&["block", "plain"], "there are no edits of a crate plain"),
        (&["blocks"], "there are no edits of a crate blocks"),
    ];
    for (words, message) in cases {
        let ended = place.run(words);
        ended.is_error(&format!("wrong_programs: {message}\n"));
        assert_eq!(place.ran(), [""; 0]);
    }
}

/// That nothing was tried is no success.
#[test]
fn no_edits() {
    let place = Place::new("no_edits");
    let edits = [
        "tests/wrong/buffer/write16",
        "crates/buffer/must-fail/both",
        "tests/wrong_types/buffer/colour",
    ];
    for edit in edits {
        place.remove(&format!("{REPOSITORY}/{edit}.edit"));
    }
    let ended = place.run(&[]);
    assert_eq!(ended.status, Some(1), "{ended:?}");
    assert_eq!(ended.stdout.lines().last(), Some("0 passed, 0 failed"));
}

#[test]
fn only_what_changed() {
    let place = Place::new("changed");
    place.wrong("law", LAW);
    let changed = |passed, failed| {
        let ended = place.run(&["--changed"]);
        counts(&ended, passed, failed);
        (ended.stdout, place.ran())
    };
    let (_, ran) = changed(6, 0);
    assert!(ran.contains(&"check: buffer".to_owned()), "{ran:?}");
    let none = "wrong_programs: NOT RUN, since no crate changed\n0 passed, 0 failed\n";
    assert_eq!(changed(0, 0), (none.to_owned(), Vec::new()));
    let block = ["block:", "block: law", "check: block"];
    for file in ["crates/block/specs/Laws.antt", "tests/wrong/block/law.edit"] {
        place.append(file, "# More.\n");
        assert_eq!(changed(2, 0).1, block);
    }
    place.append("tests/wrong_types/buffer/colour.edit", "# More.\n");
    let buffer = [
        "buffer:",
        "buffer: both",
        "buffer: colour",
        "buffer: write16",
        "check: buffer",
    ];
    assert_eq!(changed(4, 0).1, buffer);
    // What failed is tried again, though nothing changed.
    place.says("law", "");
    counts(&place.run(&["block"]), 1, 1);
    place.says("law", "error proofs/Laws.antt doubled_law");
    assert_eq!(changed(2, 0).1, block);
}

/// The prover may read its standard input. It gets nothing of the script's.
#[test]
fn standard_input_of_the_prover() {
    let place = three_edits("standard_input");
    for (label, spot) in [("doubled", DOUBLED), ("law", LAW), ("load", LOAD)] {
        place.says(label, &format!("cat >/dev/null; error {}", spot[2]));
    }
    let ended = place.run_jobs(&["block"], "1");
    counts(&ended, 4, 0);
}

/// A crate that is named twice is not counted twice, and nothing is put into another crate.
#[test]
fn a_name_given_twice() {
    let place = Place::new("name_twice");
    place.wrong("law", LAW);
    place.says("law", "");
    let ended = place.run_jobs(&["block", "block"], "1");
    assert_ne!(ended.status, Some(0), "{ended:?}");
    for link in ["buffer/buffer", "plain/plain"] {
        assert!(!place.exists(&format!("{REPOSITORY}/crates/{link}")));
    }
}

/// Edits that all fail elsewhere in their proofs, where something then waits: it ends.
#[test]
fn all_fail_under_other_names() {
    let place = Place::new("other_names");
    place.wrong("doubled", DOUBLED);
    place.wrong("load", LOAD);
    place.says(
        "doubled",
        "error proofs/Block/doubled/Answers.antt returns-2",
    );
    place.says("load", "error proofs/load/Answers.antt returns-2");
    let ended = place.run(&["block"]);
    counts(&ended, 1, 2);
    assert_eq!(said(&ended).len(), 3, "{ended:?}");
    assert!(place.ran().len() < 6, "{:?}", place.ran());
}

/// Or all of them only wait.
#[test]
fn all_of_them_wait() {
    let place = Place::new("all_wait");
    place.wrong("doubled", DOUBLED);
    place.wrong("load", LOAD);
    place.says("doubled", &format!("waits {}", DOUBLED[2]));
    place.says("load", &format!("waits {}", LOAD[2]));
    let ended = place.run(&["block"]);
    counts(&ended, 1, 2);
    assert_eq!(said(&ended).len(), 3, "{ended:?}");
    assert!(place.ran().len() < 6, "{:?}", place.ran());
}

/// Edits of two functions that name the same place: an error of the one does not count for the other.
#[test]
fn edits_that_name_one_place() {
    let place = Place::new("one_place");
    place.wrong("count", [COUNT[0], COUNT[1], LAW[2]]);
    place.wrong("doubled", [DOUBLED[0], DOUBLED[1], LAW[2]]);
    place.says("doubled", "");
    counts(&place.run(&["block"]), 2, 1);
    let ran = ["block:", "block: count", "block: doubled", "check: block"];
    assert_eq!(place.ran(), ran);
}

/// What changed while it was tried is tried again.
#[test]
fn a_change_meanwhile() {
    let place = Place::new("meanwhile");
    place.wrong("law", LAW);
    let source = place.path("a repository/crates/block/src/lib.rt");
    let does = format!("echo '// More.' >>'{}'; error {}", source.display(), LAW[2]);
    place.says("law", &does);
    counts(&place.run(&["block"]), 2, 0);
    counts(&place.run(&["block", "--changed"]), 2, 0);
}

/// Edits that would be passed over, or tried in the folder of another.
#[test]
fn folders_of_edits() {
    let place = three_edits("folders");
    for edit in [
        "crates/lost/must-fail/x.edit",
        "tests/wrong/block/more/law.edit",
    ] {
        place.put(edit, "");
        place.run(&["block"]).is_error("wrong_programs: ");
        assert_eq!(place.ran(), [""; 0]);
        place.remove(&format!("{REPOSITORY}/{edit}"));
    }
}

/// An edit must fail at one place, and with one line of words: not at either of two.
#[test]
fn two_places() {
    let place = Place::new("two_places");
    place.wrong("law", LAW);
    place.append(
        "tests/wrong/block/law.edit",
        "# at: proofs/Other.antt other\n",
    );
    let lines = "# says: expected `Colour`, found `Truth`\n# says: error\nfile: src/lib.rt\nold: times(two)\nnew: wrong_colour\n";
    place.put("tests/wrong_types/block/types.edit", lines);
    place.says("colour", "mismatch Block Halves; exit 1");
    counts(&place.run(&["block"]), 1, 2);
}

/// A word that is no crate's name.
#[test]
fn names_of_no_crate() {
    let place = three_edits("no_crate");
    for word in ["", ".", "block/"] {
        place.run(&[word]).is_error("wrong_programs: ");
        assert_eq!(place.ran(), [""; 0]);
    }
}
