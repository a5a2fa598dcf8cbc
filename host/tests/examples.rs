//! The examples of the use from C and from Rust: each compiles without a warning by the command in its head, against
//! the library, and prints what the file of its name that ends in `.out` has and its head shows. A missing compiler is
//! a failure.
use cathar_host::machine;
use std::env;
use std::fs;
use std::path::Path;
use std::process::Command;

/// The examples, each of which is there in both languages.
const EXAMPLES: [&str; 6] = ["repair", "gaps", "crackle", "propose", "settings", "wav"];

/// Where the machine is not x86-64, `setup.sh` tells cargo what to compile for. The examples are compiled for the same.
const TARGET: &str = "CARGO_BUILD_TARGET";

/// The text of a file of the repository.
fn read(file: &str) -> String {
    fs::read_to_string(machine::file(file)).unwrap_or_else(|error| panic!("{file}: {error}"))
}

/// What a command prints, where it succeeds.
fn printed(command: &mut Command) -> String {
    let output =
        command.current_dir(machine::file(".")).output().unwrap_or_else(|error| panic!("{command:?}: {error}"));
    let told = String::from_utf8_lossy(&output.stderr);
    assert!(output.status.success() && told.is_empty(), "{command:?}: {}\n{told}", output.status);
    String::from_utf8(output.stdout).expect("a program prints text")
}

/// The command in an example's head that begins with this compiler's name: its other words.
fn arguments<'a>(source: &'a str, compiler: &str) -> Vec<&'a str> {
    let lines = source.lines().map(|line| line.trim_start_matches([' ', '*', '/', '!']));
    let mut commands = lines.filter_map(|line| line.strip_prefix(compiler)?.strip_prefix(' '));
    commands.next().expect("the head has the command").split(' ').collect()
}

/// Compiles an example of this name and ending as its head says, and runs it. The compiler that the head names `said`
/// is here `compiler`, which gets these flags too, and the program goes among the tests' own files.
fn holds(name: &str, ending: &str, said: &str, compiler: &str, flags: &[&str]) {
    let example = format!("examples/{name}.{ending}");
    let source = read(&example);
    let words = arguments(&source, said);
    let (program, words) = words.split_last().expect("the program's name is the last word");
    let program = Path::new(env!("CARGO_TARGET_TMPDIR")).join(format!("{program}-by-{said}"));
    printed(Command::new(compiler).args(flags).args(words).arg(&program));
    let told = printed(Command::new(machine::runner()).arg(&program));
    let expected = read(&format!("examples/{name}.out"));
    assert_eq!(told, expected, "what {example} prints");
    assert!(expected.lines().all(|line| source.contains(line)), "the head of {example} shows what it prints");
}

#[test]
fn from_c() {
    let flags = ["-std=c99", "-Wall", "-Wextra", "-pedantic", "-Werror"];
    for name in EXAMPLES {
        holds(name, "c", "cc", &machine::c_compiler(), &flags);
    }
}

#[test]
fn from_rust() {
    let linker = format!("linker={}", machine::c_compiler());
    let target = env::var(TARGET).map(|target| format!("--target={target}"));
    let mut flags = vec!["-D", "warnings", "-C", &linker];
    flags.extend(target.as_deref());
    for name in EXAMPLES {
        holds(name, "rs", "rustc", &machine::set("RUSTC", "rustc"), &flags);
    }
}
