//! What `libcathar.a` is made of: it defines the exported functions and nothing else that a program could name, it
//! asks for `memset` and for nothing else, and it has no instruction that divides whole numbers. The tools that read
//! it are the C compiler's own.
use cathar_host::machine::{c_compiler, file};
use std::collections::BTreeSet;
use std::fs;
use std::process::Command;

/// The fewest instructions that the archive is thought to have: fewer mean that it was not read.
const INSTRUCTIONS: usize = 1_000;

fn printed(command: &mut Command) -> String {
    let output = command.output().unwrap_or_else(|error| panic!("{command:?}: {error}"));
    assert!(output.status.success(), "{command:?}: {}", String::from_utf8_lossy(&output.stderr));
    String::from_utf8(output.stdout).expect("a tool prints text")
}

/// What one of the compiler's tools tells of the archive.
fn told(tool: &str, flags: &[&str]) -> String {
    let path = printed(Command::new(c_compiler()).arg(format!("-print-prog-name={tool}")));
    printed(Command::new(path.trim()).args(flags).arg(file("target/staticlib/libcathar.a")))
}

/// The symbols that nm lists with these flags: of each line the last word, but for the lines that name a member.
fn symbols(flags: &[&str]) -> BTreeSet<String> {
    let text = told("nm", flags);
    let lines = text.lines().filter(|line| !line.is_empty() && !line.ends_with(':'));
    lines.filter_map(|line| line.split_whitespace().last()).map(String::from).collect()
}

#[test]
fn asks_for_memset_alone() {
    assert_eq!(symbols(&["--undefined-only"]), BTreeSet::from([String::from("memset")]));
}

#[test]
fn defines_the_exports_alone() {
    let source = fs::read_to_string(file("crates/cathar/src/lib.rt")).expect("the exports' source is there");
    let name = |text: &str| String::from("cathar_") + text.split('(').next().expect("a name");
    let exports: BTreeSet<String> = source.split("fn cathar_").skip(1).map(name).collect();
    assert_eq!(symbols(&["--defined-only", "--extern-only"]), exports);
}

/// Of each line of the listing the instruction's name stands behind its bytes.
#[test]
fn divides_no_whole_numbers() {
    let text = told("objdump", &["--disassemble", "--no-show-raw-insn"]);
    let names: Vec<&str> = text.lines().filter_map(|line| line.split('\t').nth(1)?.split(' ').next()).collect();
    assert!(names.len() > INSTRUCTIONS, "objdump lists {} instructions", names.len());
    assert!(names.iter().any(|name| name.starts_with("divs")), "there is a division of floats");
    let whole = ["div", "divb", "divw", "divl", "divq", "idiv", "idivb", "idivw", "idivl", "idivq"];
    assert_eq!(names.iter().filter(|name| whole.contains(name)).count(), 0);
}
