//! A circuit of the largest size, through every command.

use super::places::run_in;
use crate::program::due;
use crate::program::folder::Folder;

/// 2 inputs and 65,533 gates, each of the two wires before it, by codes in turn, nine of twelve of them charged; every wire is an
/// output by name, from the last to the first.
fn largest() -> Vec<u8> {
    const CODES: [u8; 12] = [8, 14, 6, 11, 7, 9, 2, 4, 13, 3, 1, 8];
    let mut circuit = vec![0x43, 0x49, 0, 2, 0xFF, 0xFF, 0xFF, 0xFD];
    for wire in 3..=u16::MAX {
        let ([a, b], [c, d]) = ((wire - 2).to_be_bytes(), (wire - 1).to_be_bytes());
        circuit.extend([0x43, 0x47, a, b, c, d, CODES[usize::from(wire) % 12]]);
    }
    for wire in (1..=u16::MAX).rev() {
        let [a, b] = wire.to_be_bytes();
        circuit.extend([0x43, 0x4F, a, b]);
    }
    circuit
}

/// The circuit in a folder, with values of its inputs.
fn folder_with(circuit: &[u8], values: &[u8]) -> Folder {
    let folder = Folder::new();
    folder.write("circuit", circuit);
    folder.write("seed", due::SEED);
    folder.write("values", values);
    folder
}

#[test]
fn through_every_command() {
    let (circuit, values) = (largest(), [1, 0]);
    assert_eq!(circuit.len(), 720_879, "as FORMATS.md says");
    let folder = folder_with(&circuit, &values);
    run_in(&folder, &["sizes", "circuit"]).is_done(due::sizes(&circuit).expect("accepted").as_bytes());
    let wires = due::plain(&circuit, &values).expect("evaluated");
    run_in(&folder, &["plain", "circuit", "--values", "values", "--wires", "-"]).is_done(&wires);
    let digits = due::digits(&due::outputs_of(&circuit, &wires));
    run_in(&folder, &["plain", "circuit", "--values", "values"]).is_done(digits.as_bytes());
    for scheme in [1, 4] {
        garbled(&folder, &circuit, scheme, digits.as_bytes());
    }
}

/// The garbled circuit by one scheme, whose digits are those of the plain one.
fn garbled(folder: &Folder, circuit: &[u8], scheme: u8, digits: &[u8]) {
    let word = scheme.to_string();
    let garble = "garble circuit --seed seed --material m --zeros z --ones o --all-zeros a --force --scheme";
    let words: Vec<&str> = garble.split(' ').chain([word.as_str()]).collect();
    run_in(folder, &words).is_done(b"");
    let garbled = due::garble(circuit, &due::SEED, 0, scheme).expect("garbled");
    assert!(folder.read("m") == garbled.material && folder.read("a") == garbled.all_zeros);
    assert!(folder.read("z") == garbled.zeros() && folder.read("o") == garbled.ones);
    for line in [
        "encode circuit --zeros z --ones o --values values --out t --force",
        "evaluate circuit --material m --tokens t --out out --wires w --force",
    ] {
        run_in(folder, &line.split(' ').collect::<Vec<_>>()).is_done(b"");
    }
    let wires = due::evaluate(circuit, &folder.read("t"), &garbled.material).expect("evaluated");
    assert!(folder.read("w") == wires);
    assert!(folder.read("out") == due::output_tokens(circuit, &wires).expect("gathered"));
    run_in(folder, &["decode", "circuit", "--material", "m", "--outputs", "out"]).is_done(digits);
}
