//! Each command of the program, run as a process: what it writes and prints, what it refuses, and what it says where it is called
//! wrongly or has trouble with a file.

mod program;
mod commands {
    mod bytes;
    mod examples;
    mod figures;
    mod help;
    mod inputs;
    mod largest;
    mod outputs;
    mod places;
    mod refused;
    mod streams;
    mod usage;
}
