//! Links the proved static archive, which is built before this package.

use std::path::Path;

const ARCHIVE: &str = "libsciambrunola.a";

fn main() {
    let directory = Path::new(env!("CARGO_MANIFEST_DIR")).join("../../crates/sciambrunola/out");
    let archive = directory.join(ARCHIVE);
    assert!(
        archive.is_file(),
        "{} is missing: `rt lib` makes it, run in the directory crates/sciambrunola",
        archive.display()
    );
    println!("cargo:rerun-if-changed={}", archive.display());
    println!("cargo:rustc-link-search=native={}", directory.display());
    println!("cargo:rustc-link-lib=static=sciambrunola");
}
