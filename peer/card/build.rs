//! Links the archive that `rt lib` writes in crates/card.

use std::env;
use std::path::PathBuf;

fn main() {
    let package = PathBuf::from(env::var("CARGO_MANIFEST_DIR").expect("cargo sets it"));
    let folder = package.join("../../crates/card/out");
    let archive = folder.join("libcard.a");
    assert!(
        archive.is_file(),
        "{} is missing: run `rt lib` in crates/card first",
        archive.display()
    );
    println!("cargo:rerun-if-changed={}", archive.display());
    println!("cargo:rustc-link-search=native={}", folder.display());
    println!("cargo:rustc-link-lib=static=card");
}
