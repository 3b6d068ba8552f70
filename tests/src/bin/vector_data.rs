//! Writes the files of cases of the test programs `vectors` and `garblings` and of the test `lists` to
//! the directory named, or else to their own, and says how many cases each has.

use std::path::PathBuf;
use std::{env, fs, io};

use second::vectors::files;

fn main() -> io::Result<()> {
    let top = concat!(env!("CARGO_MANIFEST_DIR"), "/..");
    let named = env::args().nth(1);
    for file in files() {
        let own = format!("{top}/{}", file.folder());
        let directory = named.clone().unwrap_or(own);
        fs::write(PathBuf::from(directory).join(file.name), &file.text)?;
        println!("{}: {} cases", file.name, file.text.lines().count());
    }
    Ok(())
}
