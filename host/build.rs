//! Links the static library of the repository that this package stands in, and makes Rust of the text of its square
//! root (`src/root.rs`).
use std::env;
use std::fs;
use std::path::{Path, PathBuf};

fn main() {
    let host = PathBuf::from(env::var_os("CARGO_MANIFEST_DIR").expect("cargo sets CARGO_MANIFEST_DIR"));
    let folder = host.join("../target/staticlib");
    let archive = folder.join("libcathar.a");
    assert!(
        archive.is_file(),
        "there is no {}: run `./staticlib`, or host/test, which does",
        archive.display()
    );
    println!("cargo:rerun-if-changed={}", archive.display());
    println!("cargo:rustc-link-search=native={}", folder.display());
    println!("cargo:rustc-link-lib=static=cathar");
    write_roots(&host.join("../crates/leaves/src/root.rt"));
}

/// Writes three files for `src/root.rs`: the root as it is, with the digits by hand under another name, so that they
/// can be counted; with a guess of one step less; and with the digits by hand for every number.
fn write_roots(source: &Path) {
    println!("cargo:rerun-if-changed={}", source.display());
    let text = fs::read_to_string(source).expect("the text of the root");
    let root = as_rust(&text);
    let counted = replaced(&root, "fn root_by_digits(", "fn every_digit(");
    let (three, two) = ("closer(half, closer(half, closer(half, parabola)))", "closer(half, closer(half, parabola))");
    let short = replaced(&counted, three, two);
    let by_digits = replaced(&root, "let q = nearest_root(", "let q = root_by_digits(");
    let out = PathBuf::from(env::var_os("OUT_DIR").expect("cargo sets OUT_DIR"));
    for (name, text) in [("by_guess.rs", counted), ("by_short_guess.rs", short), ("by_digits.rs", by_digits)] {
        fs::write(out.join(name), text).expect("OUT_DIR takes a file");
    }
}

/// A source of Rattle as Rust, which it is but for its contracts, for what only these use, and for the name of a
/// difference that wraps.
fn as_rust(text: &str) -> String {
    let mut rust = String::new();
    let mut open = 0;
    for line in text.lines() {
        let is_clause = ["requires {", "ensures {"].iter().any(|word| line.trim_start().starts_with(word));
        if is_clause || open > 0 {
            open += line.matches('{').count();
            open -= line.matches('}').count();
        } else if !line.starts_with("ghost use ") {
            rust += line;
            rust.push('\n');
        }
    }
    rust.replace("std::num::wrapping_sub_u64(", "u64::wrapping_sub(")
}

/// The text with one part that it has once in the place of another.
fn replaced(text: &str, old: &str, new: &str) -> String {
    assert_eq!(text.matches(old).count(), 1, "the text of the root has not once: {old}");
    text.replace(old, new)
}
