//! A second implementation of document 01 ("01" below) with jobs 1, 2, 4, 7, 8 and 12 of document 02
//! ("02"), written from the papers alone, and what the tests need around it: calls as values, a reader of
//! stored cases and a generator of new ones.

#![forbid(unsafe_code)]
#![warn(missing_docs)]

pub mod aes;
pub mod block;
pub mod call;
pub mod cases;
pub mod chained;
pub mod cipher;
pub mod circuit;
pub mod clash;
pub mod comparator;
pub mod compared;
pub mod evaluator;
pub mod filled;
pub mod generate;
pub mod hashed;
pub mod hex;
pub mod interface;
pub mod large;
pub mod lines;
pub mod listed;
pub mod material;
pub mod named;
pub mod one_operand;
pub mod operations;
pub mod program;
pub mod random;
pub mod refused;
pub mod rekeyed;
pub mod runs;
pub mod scheme;
pub mod token;
pub mod vectors;
pub mod wrong;
