//! Links the proved library's archive into what calls it: the tests and the program `archive_aes`. It is
//! made first where it is missing or older than the crates; WEIGHHARE_ARCHIVE names another one to link.

#[path = "../rust/archive.rs"]
mod archive;

fn main() {
    if let Some(folder) = archive::link() {
        let archive = folder.join("libweighhare.a");
        println!("cargo::rustc-link-arg-tests={}", archive.display());
        println!(
            "cargo::rustc-link-arg-bin=archive_aes={}",
            archive.display()
        );
    }
}
