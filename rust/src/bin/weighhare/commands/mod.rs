//! The commands, a file each: its help, the options that it takes, and what it does.

pub mod comparator;
pub mod compare;
pub mod decode;
pub mod encode;
pub mod evaluate;
pub mod garble;
pub mod pick;
pub mod plain;
pub mod seed;
pub mod sizes;
