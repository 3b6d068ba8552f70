//! The program under words and files made at random: calls that are right, and such with words dropped, doubled, exchanged, cut and
//! replaced, over files that are right, damaged, missing or another's. Whatever it is given, it must end with status 0, 1 or 2,
//! do what the library says or leave the folder as it was, and show no secret.
//!
//! WEIGHHARE_RUNS says how many runs, WEIGHHARE_SEED from which seed, and WEIGHHARE_FIRST from which run on.

mod program;
mod fuzz {
    mod cases;
    mod checks;
    mod files;
    mod oracle;
    mod runs;
    mod secrets;
    mod seen;
    mod stage;
    mod words;
}
