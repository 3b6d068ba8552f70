//! What the outputs of a circuit are, read from its bytes: its mark, and of named ones which wires and in which
//! order (02, job 8).

use std::collections::BTreeSet;

use second::call::Operation;

/// The operations that take a circuit's bytes.
pub const WITH_BYTES: [Operation; 7] = [
    Operation::Check,
    Operation::Plain,
    Operation::Garble,
    Operation::Encode,
    Operation::Evaluate,
    Operation::OutputTokens,
    Operation::Decode,
];

/// The bytes of the longest circuit that there is: n 2, q 65,533, m 65,535.
pub const LONGEST: usize = 720_879;

/// The kinds of outputs: the two marks, and what named ones may be.
pub const KINDS: [&str; 9] = [
    "mark 43 48",
    "mark 43 49",
    "inputs",
    "middle wires",
    "the last m wires",
    "repeats",
    "not rising",
    "more than gates",
    "as many as wires",
];

/// Which output is at fault.
pub const PLACES: [&str; 3] = ["the first output", "an output between", "the last output"];

/// n, m and q of the header; 0 where it is short.
pub fn header(circuit: &[u8]) -> [usize; 3] {
    [2, 4, 6].map(|at| match circuit.get(at..at + 2) {
        Some(two) => 256 * usize::from(two[0]) + usize::from(two[1]),
        None => 0,
    })
}

/// The kinds that the outputs of an accepted circuit are of.
pub fn kinds(circuit: &[u8]) -> Vec<&'static str> {
    if circuit[1] == 0x48 {
        return vec![KINDS[0]];
    }
    let [n, m, q] = header(circuit);
    let records = circuit[8 + 7 * q..].chunks_exact(4);
    let wires = records.map(|record| 256 * usize::from(record[2]) + usize::from(record[3]));
    let wires: Vec<usize> = wires.collect();
    let different: BTreeSet<usize> = wires.iter().copied().collect();
    let last = (n + q + 1).saturating_sub(m)..=n + q;
    let met = [
        false,
        true,
        wires.iter().any(|&wire| wire <= n),
        wires.iter().any(|&wire| wire > n && wire < n + q),
        wires.iter().copied().eq(last),
        different.len() < m,
        wires.windows(2).any(|two| two[0] > two[1]),
        m > q,
        m == n + q,
    ];
    let kinds = KINDS.into_iter().zip(met);
    kinds
        .filter(|&(_, met)| met)
        .map(|(kind, _)| kind)
        .collect()
}

/// Which output a place names, of a circuit with which a call was refused by 25, 26 or 29.
pub fn place(circuit: &[u8], output: u64) -> &'static str {
    let [_, m, _] = header(circuit);
    match output {
        1 => PLACES[0],
        _ if output == m as u64 => PLACES[2],
        _ => PLACES[1],
    }
}
