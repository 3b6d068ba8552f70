//! Links the archive of the proved library, and makes it first where it is missing or older than its crates.

mod archive;

fn main() {
    if let Some(folder) = archive::link() {
        println!("cargo::rustc-link-search=native={}", folder.display());
        println!("cargo::rustc-link-lib=static=weighhare");
    }
}
