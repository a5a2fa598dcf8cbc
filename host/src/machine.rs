//! What tests that compile or read files ask of the machine: the repository's files, and the C compiler for x86-64 and
//! what runs its programs, which `setup.sh` names to cargo where the machine has another processor.
use std::env;
use std::path::{Path, PathBuf};

const LINKER: &str = "CARGO_TARGET_X86_64_UNKNOWN_LINUX_GNU_LINKER";
const RUNNER: &str = "CARGO_TARGET_X86_64_UNKNOWN_LINUX_GNU_RUNNER";

/// A file of the repository.
pub fn file(name: &str) -> PathBuf {
    Path::new(env!("CARGO_MANIFEST_DIR")).join("..").join(name)
}

/// What the environment sets, or else this.
pub fn set(name: &str, otherwise: &str) -> String {
    env::var(name).unwrap_or_else(|_| String::from(otherwise))
}

/// The C compiler for x86-64.
pub fn c_compiler() -> String {
    set(LINKER, "cc")
}

/// What runs a program for x86-64. (`env` runs what it is given as it is.)
pub fn runner() -> String {
    set(RUNNER, "env")
}
