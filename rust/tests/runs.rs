//! Garblings from one seed, told apart by their run numbers.

/// 2 inputs, 1 output, 1 gate: wire 3 is wire 1 AND wire 2.
const AND: [u8; 15] = [0x43, 0x48, 0, 2, 0, 1, 0, 1, 0x43, 0x47, 0, 1, 0, 2, 8];

/// Run numbers that differ in the low half alone, in the high half alone, and in both.
const RUNS: [u64; 5] = [0, 1, 1 << 32, (1 << 32) + 1, u64::MAX];

/// The AND gate garbled by half-gates.
struct Garbling {
    material: [u8; 48],
    zeros: [u8; 48],
    ones: [u8; 32],
}

/// The garbling of a run, always from the same seed.
fn garbling(run: u64) -> Garbling {
    let (mut material, mut zeros, mut ones) = ([0; 48], [0; 48], [0; 32]);
    let garbled =
        weighhare::garble(&AND, &[7; 16], run, 3, 0x4748, &mut material, &mut zeros, &mut ones).expect("garbled");
    assert_eq!((garbled.length, garbled.calls), (48, 4), "run {run}");
    Garbling { material, zeros, ones }
}

/// R of a garbling: what the tokens of wire 1 differ by.
fn offset(garbling: &Garbling) -> [u8; 16] {
    std::array::from_fn(|i| garbling.zeros[i] ^ garbling.ones[i])
}

#[test]
fn each_run_has_its_own_r_and_its_own_tokens() {
    let garblings = RUNS.map(garbling);
    for (k, one) in garblings.iter().enumerate() {
        for (j, other) in garblings[..k].iter().enumerate() {
            let runs = format!("runs {} and {}", RUNS[j], RUNS[k]);
            assert_ne!(offset(one), offset(other), "{runs}");
            assert_ne!(one.zeros[..16], other.zeros[..16], "{runs}");
            assert_ne!(one.zeros[16..32], other.zeros[16..32], "{runs}");
        }
    }
}

#[test]
fn each_run_decodes_to_the_plain_bit() {
    for run in RUNS {
        let Garbling { material, zeros, ones } = garbling(run);
        for (u, v) in [(0, 0), (0, 1), (1, 0), (1, 1)] {
            let (mut inputs, mut tokens, mut bits) = ([0; 32], [0; 48], [9]);
            weighhare::encode(&AND, &[u, v], &zeros[..32], &ones, &mut inputs).expect("encoded");
            assert_eq!(weighhare::evaluate(&AND, &inputs, &material, &mut tokens), Ok(2));
            weighhare::decode(&AND, &tokens[32..], &material, &mut bits).expect("decoded");
            assert_eq!(bits, [u & v], "run {run}");
        }
    }
}
