//! The built program of the repository against module `program` (01, Table of examples): on the stored cases
//! of `data/`, 01's examples, named outputs with each fault, inputs around the longest that it takes, and
//! random ones. It must be there, at ../target/bin/sizes.

use std::io::{Read, Write};
use std::path::PathBuf;
use std::process::{Child, Command, ExitStatus, Stdio};
use std::thread;
use std::time::{Duration, Instant};

use second::cases::{self, Asked};
use second::circuit::Circuit;
use second::generate;
use second::generate::outputs::with_outputs;
use second::program::{self, LIMIT};
use second::random::Random;

/// The time that one run may take.
const TIME: Duration = Duration::from_secs(10);

/// More output than any right answer has is not read.
const MOST_OUTPUT: u64 = 4096;

const P11: [u8; 15] = [0x43, 0x48, 0, 2, 0, 1, 0, 1, 0x43, 0x47, 0, 1, 0, 2, 0x08];

fn built_program() -> PathBuf {
    let path = PathBuf::from(env!("CARGO_MANIFEST_DIR")).join("../target/bin/sizes");
    let built = path.is_file();
    assert!(
        built,
        "target/bin/sizes is not built: build the repository's program before its tests"
    );
    path
}

/// Waits for the end of the child; kills it after the time it may take.
fn wait(child: &mut Child, name: &str) -> ExitStatus {
    let start = Instant::now();
    loop {
        if let Some(status) = child.try_wait().expect("a child to wait for") {
            return status;
        }
        if start.elapsed() > TIME {
            child.kill().expect("a child to kill");
            child.wait().expect("a killed child");
            panic!("{name}: the program ran for more than {TIME:?}");
        }
        thread::sleep(Duration::from_micros(300));
    }
}

/// Runs the program on `input` and gives its standard output.
fn run(input: &[u8], name: &str) -> Vec<u8> {
    let mut child = Command::new(built_program())
        .stdin(Stdio::piped())
        .stdout(Stdio::piped())
        .spawn()
        .expect("a program that can be started");
    let mut stdin = child.stdin.take().expect("standard input");
    let stdout = child.stdout.take().expect("standard output");
    let input = input.to_vec();
    // A program that has read enough may close its input early: a failed write is no fault.
    thread::spawn(move || stdin.write_all(&input).is_ok());
    let reader = thread::spawn(move || {
        let mut output = Vec::new();
        let read = stdout.take(MOST_OUTPUT).read_to_end(&mut output);
        read.map(|_| output)
    });
    let status = wait(&mut child, name);
    let output = reader.join().expect("the reader of standard output");
    assert!(status.success(), "{name}: {status}");
    output.expect("readable standard output")
}

fn compare(input: &[u8], expected: &str, name: &str) {
    let output = run(input, name);
    let shown = String::from_utf8_lossy(&output);
    assert_eq!(shown, expected, "{name}");
}

fn compare_with_module(input: &[u8], name: &str) {
    compare(input, &program::output(input), name);
}

#[test]
fn stored_cases() {
    let base = include_str!("../data/base.jsonl");
    let job02 = include_str!("../data/job02.jsonl");
    let job04 = include_str!("../data/job04.jsonl");
    let job07 = include_str!("../data/job07.jsonl");
    let job08 = include_str!("../data/job08.jsonl");
    for (name, text, due) in [
        ("base", base, 31),
        ("job02", job02, 18),
        ("job04", job04, 18),
        ("job07", job07, 18),
        ("job08", job08, 25),
    ] {
        let mut count = 0;
        for case in &cases::read(text).expect("readable cases") {
            if let Asked::Program { input, output } = &case.asked {
                compare(input, output, &format!("case {} of {name}", case.id));
                count += 1;
            }
        }
        assert_eq!(count, due, "{name}");
    }
}

#[test]
fn examples_of_the_table() {
    compare(&P11, "2 1 1 1\n80 64 48\n", "P11");
    let mut p12 = P11;
    p12[14] = 0;
    compare(&p12, "refused 7 3\n", "P12");
    p12[14] = 15;
    compare(&p12, "refused 7 3\n", "P12 with code 15");
    p12[14] = 3;
    compare(&p12, "2 1 1 0\n12 12 12\n", "P12 with code 3");
    compare(&[], "refused 1 0\n", "empty input");
}

/// 02, job 8: the AND gate with its outputs by name, sound and with each fault.
#[test]
fn named_outputs() {
    let named = include_bytes!("../../examples/named-outputs.circuit");
    compare(named, "2 3 1 1\n82 66 50\n", "named outputs");
    for (at, byte, due) in [
        (1, 0x4A, "refused 2 0\n"),
        (1, 0x48, "refused 3 2\n"),
        (5, 4, "refused 3 2\n"),
        (5, 2, "refused 4 27\n"),
        (14, 0, "refused 7 3\n"),
        (20, 0x47, "refused 25 2\n"),
        (22, 0, "refused 26 2\n"),
        (26, 4, "refused 26 3\n"),
    ] {
        let mut bytes = *named;
        bytes[at] = byte;
        compare(&bytes, due, &format!("byte {at} is {byte}"));
    }
    compare(&named[..26], "refused 4 26\n", "a byte less");
}

#[test]
fn around_the_longest_input() {
    compare(&[0; LIMIT], "refused 2 0\n", "65,536 bytes");
    compare(&[0; LIMIT + 1], "too long\n", "65,537 bytes");
    compare(&[0; 8 * LIMIT], "too long\n", "524,288 bytes");
    let mut random = Random::new(31);
    let circuit = generate::circuit(&mut random, 4, 9361, 50);
    let mut circuit = generate::with_one_operand(&mut random, circuit);
    assert_eq!(circuit.len(), LIMIT - 1);
    compare_with_module(&circuit, "a circuit of 65,535 bytes");
    circuit.push(0);
    compare(&circuit, "refused 4 65536\n", "that circuit and a byte");
    circuit.push(0);
    compare(&circuit, "too long\n", "that circuit and two bytes");
    let accepted = generate::circuit(&mut random, 4, 9362, 50);
    compare(
        &accepted,
        "too long\n",
        "an accepted circuit that is too long",
    );
}

/// With two named outputs a circuit may have exactly as many bytes as the program takes; with three it is
/// too long.
#[test]
fn around_the_longest_input_with_named_outputs() {
    let mut random = Random::new(33);
    let bytes = generate::circuit(&mut random, 4, 9360, 50);
    let circuit = Circuit::read(&bytes).expect("an accepted circuit");
    let longest = with_outputs(&circuit, &[9364, 1]);
    assert_eq!(longest.len(), LIMIT);
    assert!(program::output(&longest).starts_with("4 2 9360 "));
    compare_with_module(&longest, "named outputs, 65,536 bytes");
    let longer = with_outputs(&circuit, &[9364, 1, 9364]);
    compare(&longer, "too long\n", "named outputs, 65,540 bytes");
}

#[test]
fn random_inputs() {
    let mut random = Random::new(32);
    for round in 0..400 {
        let input = generate::program_input(&mut random);
        compare_with_module(&input, &format!("random input {round}: {input:02x?}"));
    }
}
