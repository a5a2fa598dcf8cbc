//! Finds the original Rust.
use std::env;
use std::fs;
use std::path::{Path, PathBuf};

/// The files of the original that are taken, each by its name without the ending.
const TAKEN: [&str; 4] = ["declip", "decrackle", "dequant", "inpaint"];

/// What stands behind the text of declip.rs where it is compiled: its `project_gamma` is for itself alone, and a function
/// beside it hands it on.
const HANDED_ON: (&str, &str) = (
    "declip",
    "
/// What `project_gamma` makes of a candidate.
pub fn projected(candidate: f32, observed: f32, threshold: f32) -> f32 {
    project_gamma(candidate, observed, threshold)
}
",
);

/// Writes the lines that `src/lib.rs` includes: a module for each of the original's files, and of the one that hands
/// something on a module of its text with that behind it, which is written beside the lines.
fn main() {
    println!("cargo:rerun-if-env-changed=CATHAR_ORIGINAL");
    let folder = PathBuf::from(env::var_os("CATHAR_ORIGINAL").unwrap_or_default());
    let out = PathBuf::from(env::var_os("OUT_DIR").expect("cargo sets OUT_DIR"));
    let mut lines = String::new();
    for name in TAKEN {
        let file = folder.join(name).with_extension("rs");
        assert!(
            file.is_file(),
            "there is no {}: set CATHAR_ORIGINAL to the folder with the sources of the original crate `cathar`",
            file.display()
        );
        println!("cargo:rerun-if-changed={}", file.display());
        let compiled = if name == HANDED_ON.0 { with_more(&file, &out) } else { file };
        lines += &format!("#[path = {compiled:?}]\npub mod {name};\n");
    }
    fs::write(out.join("original.rs"), lines).expect("the lines are written");
}

/// Writes the text of this file, with what hands something on behind it, into that folder. The file there.
fn with_more(file: &Path, folder: &Path) -> PathBuf {
    let text = fs::read_to_string(file).expect("the original's text");
    let compiled = folder.join(file.file_name().expect("a file's name"));
    fs::write(&compiled, text + HANDED_ON.1).expect("the text is written");
    compiled
}
