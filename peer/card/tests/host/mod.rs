//! Hosts in C, compiled with the header and the archive.

use std::path::{Path, PathBuf};
use std::process::Command;

/// What a C program prints; its source is named from the repository's root.
pub fn printed(source: &str, flags: &[&str]) -> String {
    let root = Path::new(env!("CARGO_MANIFEST_DIR")).join("../..");
    let name = Path::new(source).file_stem().expect("a file's name");
    let program: PathBuf = Path::new(env!("CARGO_TARGET_TMPDIR")).join(name);
    let compiled = Command::new("cc")
        .args(["-Wall", "-Wextra", "-Werror"])
        .args(flags)
        .arg("-I")
        .arg(root.join("crates/card/include"))
        .arg(root.join(source))
        .arg(root.join("crates/card/out/libcard.a"))
        .arg("-o")
        .arg(&program)
        .status()
        .expect("cc runs");
    assert!(compiled.success());
    let output = Command::new(&program).output().expect("program runs");
    let text = String::from_utf8(output.stdout).expect("text");
    assert!(output.status.success(), "{text}");
    text
}
