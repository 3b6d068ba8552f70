//! What the program prints for what it reads (01, Table of examples): the lengths are those of the mark 47 48.

use crate::material::{length, Mark};
use crate::operations::check;
use crate::scheme::Scheme;

/// The most bytes that the program takes.
pub const LIMIT: usize = 65_536;

/// The standard output for a standard input. Over the limit comes before any refusal.
pub fn output(input: &[u8]) -> String {
    if input.len() > LIMIT {
        return "too long\n".to_string();
    }
    match check(input) {
        Err(refused) => format!("refused {} {}\n", refused.number, refused.place),
        Ok(sizes) => {
            let first = format!("{} {} {} {}", sizes.n, sizes.m, sizes.q, sizes.p);
            let schemes = [Scheme::GaX, Scheme::GaXR, Scheme::HalfGates];
            let [gax, gaxr, half] = schemes.map(|scheme| length(sizes, scheme, Mark::Colours));
            format!("{first}\n{gax} {gaxr} {half}\n")
        }
    }
}
