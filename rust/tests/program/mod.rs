//! For the tests of the program: it runs as a process of its own, in a fresh folder, and what is due comes from the library's
//! functions on slices.

#![allow(dead_code)] // Each file of tests uses a part of this.

pub mod calls;
pub mod due;
pub mod folder;
pub mod process;
pub mod random;
pub mod world;
