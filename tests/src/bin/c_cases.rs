//! Writes a file of calls for the C program of `c/`, with what must come back of each: a sample of
//! the edges, and random cases. Module `c/cases.h` has the form of a case.

use std::io::{self, BufWriter, Write};
use std::{env, process};

use second::call::{Call, Operation};
use second::generate::{edges, mixed};
use second::interface;
use second::random::Random;

/// Of the edges, every so many is taken.
const STEP: usize = 23;

/// Longer calls are left out: the largest circuits are for the differential test.
const MOST_BYTES: usize = 1 << 18;

fn main() -> io::Result<()> {
    let words: Vec<u64> = env::args()
        .skip(1)
        .filter_map(|word| word.parse().ok())
        .collect();
    let &[seed, count] = &words[..] else {
        eprintln!("usage: c_cases SEED COUNT");
        process::exit(2);
    };
    let mut file = BufWriter::new(io::stdout().lock());
    for operation in Operation::ALL {
        for edge in edges::edges(&mut Random::new(seed), operation)
            .iter()
            .step_by(STEP)
        {
            write_case(&mut file, &edge.call)?;
        }
    }
    for number in 0..count {
        let call = mixed::case(seed, number);
        let lists = interface::inputs(&call)
            .iter()
            .map(|(_, bytes)| bytes.len())
            .sum::<usize>();
        if lists + call.lens.iter().sum::<usize>() <= MOST_BYTES {
            write_case(&mut file, &call)?;
        }
    }
    file.flush()
}

/// The numbers of a case, the answer due, the lists handed in, and each output buffer before and
/// after the call.
fn write_case(file: &mut impl Write, call: &Call) -> io::Result<()> {
    let expected = interface::expected(call);
    let inputs = interface::inputs(call);
    file.write_all(&[call.operation as u8, call.scheme, call.bit, expected.number])?;
    let counts = [inputs.len() as u16, call.lens.len() as u16];
    let numbers = [call.wire, call.n, call.m, call.mark];
    for number in numbers.into_iter().chain(counts) {
        file.write_all(&number.to_ne_bytes())?;
    }
    for word in [call.run, call.width].into_iter().chain(expected.words) {
        file.write_all(&word.to_ne_bytes())?;
    }
    for (_, bytes) in &inputs {
        file.write_all(&(bytes.len() as u64).to_ne_bytes())?;
        file.write_all(bytes)?;
    }
    for (before, after) in interface::buffers(call).iter().zip(&expected.buffers) {
        file.write_all(&(before.len() as u64).to_ne_bytes())?;
        file.write_all(before)?;
        file.write_all(after)?;
    }
    Ok(())
}
