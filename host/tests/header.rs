//! The header compiles by itself, as C and as C++, without a warning. Where there is no such compiler, that
//! is said. What it declares is what the crate `cathar` exports, type by type, as are the declarations in Rust. Its
//! names for limits, marks and answers have the numbers of the sources, and its functions on memory give what the model
//! says is needed.
use cathar_host::inpaint::{Gap, HELD_RUN, LEAST_HELD_RUN, LOST_RUN, MOST_HELD_RUN};
use cathar_host::machine::{c_compiler, file, runner};
use cathar_host::recording::{blocks, entry_words, MOST_SAMPLES};
use cathar_host::wav::HEADER;
use cathar_host::whole;
use std::collections::{BTreeMap, BTreeSet};
use std::fs;
use std::io::{ErrorKind, Write};
use std::path::Path;
use std::process::{Command, Stdio};

/// How many functions there are.
const EXPORTS: usize = 27;

fn compiles(compiler: &str, standard: &str, language: &str) {
    let header = file("include/cathar.h");
    let flags = [standard, "-Wall", "-Wextra", "-pedantic", "-Werror", "-fsyntax-only", "-x", language];
    match Command::new(compiler).args(flags).arg(&header).status() {
        Ok(status) => assert!(status.success(), "{compiler} turns {} away", header.display()),
        Err(error) if error.kind() == ErrorKind::NotFound => println!("there is no {compiler}: not tried"),
        Err(error) => panic!("{compiler}: {error}"),
    }
}

#[test]
fn as_c() {
    compiles("cc", "-std=c99", "c");
}

#[test]
fn as_cpp() {
    compiles("c++", "-std=c++11", "c++");
}

/// What C passes for a type of Rattle's or Rust's: for a slice its pointer and its length.
fn in_c(type_: &str) -> &'static str {
    match type_ {
        "f32" => "float",
        "f64" => "double",
        "u32" => "uint32_t",
        "usize" => "size_t",
        "&[u8]" => "const uint8_t *, size_t",
        "&[u16]" => "const uint16_t *, size_t",
        "&[u32]" => "const uint32_t *, size_t",
        "&[usize]" => "const size_t *, size_t",
        "&mut [u8]" => "uint8_t *, size_t",
        "&mut [u16]" => "uint16_t *, size_t",
        "&mut [u32]" => "uint32_t *, size_t",
        "&mut [usize]" => "size_t *, size_t",
        "&mut [f64]" => "double *, size_t",
        "*const u8" => "const uint8_t *",
        "*const u16" => "const uint16_t *",
        "*const u32" => "const uint32_t *",
        "*const usize" => "const size_t *",
        "*mut u8" => "uint8_t *",
        "*mut u16" => "uint16_t *",
        "&mut u32" | "*mut u32" => "uint32_t *",
        "*mut f64" => "double *",
        "&mut usize" | "*mut usize" => "size_t *",
        _ => panic!("there is no C type for {type_}"),
    }
}

/// The functions that a file in Rattle or Rust declares, each as C would without its parameters' names.
fn declared(name: &str) -> BTreeSet<String> {
    let text = text(name);
    let function = |text: &str| {
        let (name, rest) = text.split_once('(').expect("parameters");
        let (parameters, rest) = rest.split_once(')').expect("the end of the parameters");
        let types = parameters.split(',').filter_map(|parameter| Some(in_c(parameter.split_once(':')?.1.trim())));
        let result =
            rest.trim_start().trim_start_matches("-> ").split(|c: char| !c.is_alphanumeric()).next().expect("a result");
        format!("{} cathar_{name}({})", in_c(result), types.collect::<Vec<_>>().join(", "))
    };
    text.split("fn cathar_").skip(1).map(function).collect()
}

/// The text of a file of the repository.
fn text(name: &str) -> String {
    fs::read_to_string(file(name)).unwrap_or_else(|error| panic!("{name}: {error}"))
}

/// The header without its comments.
fn without_comments() -> String {
    text("include/cathar.h").split("/*").map(|part| part.split_once("*/").map_or(part, |(_, after)| after)).collect()
}

/// Likewise the functions that the header declares and does not define: it is left without the lines that are not C's
/// or that only C++ has, and a definition counts up to its body.
fn declared_in_header() -> BTreeSet<String> {
    let code = without_comments();
    let plain = |line: &&str| !line.starts_with('#') && !line.starts_with("extern");
    let (mut depth, mut outside) = (0, String::new());
    for c in code.lines().filter(plain).collect::<Vec<_>>().join(" ").chars() {
        match c {
            '{' => depth += 1,
            // The bracket that only C++ has is closed outside all.
            '}' if depth > 0 => {
                depth -= 1;
                outside.push(';');
            }
            _ if depth == 0 => outside.push(c),
            _ => {}
        }
    }
    let without_name =
        |parameter: &str| String::from(parameter.trim_end_matches(|c: char| c != ' ' && c != '*').trim());
    let function = |text: &str| {
        let (name, parameters) = text.trim().split_once('(')?;
        let types: Vec<String> = parameters.trim_end_matches(')').split(',').map(without_name).collect();
        (!name.starts_with("static")).then(|| format!("{name}({})", types.join(", ")))
    };
    outside.split(';').filter_map(function).collect()
}

/// The names that the header defines, each with its number.
fn defined() -> BTreeMap<String, u64> {
    let code = without_comments();
    let names = code.lines().filter_map(|line| line.strip_prefix("#define ")?.trim().split_once(' '));
    names.map(|(name, of)| (String::from(name), number(of.trim()))).collect()
}

/// A number in C's writing or in Rattle's: in decimal, or as 0x and hex digits.
fn number(text: &str) -> u64 {
    let digits = text.replace('_', "");
    let number = digits.strip_prefix("0x").map_or_else(|| digits.parse(), |digits| u64::from_str_radix(digits, 16));
    number.unwrap_or_else(|_| panic!("no number: {text}"))
}

/// A constant of a file in Rattle, or of the crate that it uses it of: a number, or a sum of numbers and such
/// constants.
fn constant(name: &str, of: &str) -> u64 {
    let text = text(of);
    let line = text.lines().find(|line| line.trim_start_matches("pub ").starts_with(&format!("const {name}: ")));
    if let Some((_, sum)) = line.and_then(|line| line.trim_end_matches(';').split_once(" = ")) {
        let is_number = |part: &str| part.starts_with(|c: char| c.is_ascii_digit());
        return sum.split(" + ").map(|part| if is_number(part) { number(part) } else { constant(part, of) }).sum();
    }
    let used = text.lines().find_map(|line| {
        let (used, names) = line.strip_prefix("use ")?.strip_suffix(';')?.split_once("::")?;
        let mut names = names.trim_matches(['{', '}']).split(", ");
        names.any(|one| one == name).then_some(used)
    });
    let used = used.unwrap_or_else(|| panic!("{of} has no {name}"));
    constant(name, &format!("crates/{used}/src/lib.rt"))
}

/// `TooMany` as `TOO_MANY`.
fn in_capitals(name: &str) -> String {
    let letter = |(at, c): (usize, char)| (c.is_uppercase() && at > 0).then(|| '_').into_iter().chain([c]);
    name.char_indices().flat_map(letter).collect::<String>().to_uppercase()
}

/// The names and numbers that the sources have: each mark is a line of an enum, each reason's number a line of a match.
fn in_sources() -> BTreeMap<String, u64> {
    let marks = text("crates/recording/src/marks.rt");
    let (_, marks) = marks.split_once("pub enum Mark {").expect("the marks are an enum");
    let (marks, _) = marks.split_once("\n}").expect("the enum ends");
    let marks = marks.lines().filter_map(|line| line.trim().trim_end_matches(',').split_once(" = "));
    let mut found: BTreeMap<String, u64> =
        marks.map(|(name, mark)| (format!("CATHAR_MARK_{}", in_capitals(name)), number(mark))).collect();
    let numbers = text("crates/recording/src/numbers.rt");
    let (reasons, _) = numbers.split_once("fn place").expect("the numbers stand before the places");
    for line in reasons.lines().filter_map(|line| line.trim().strip_prefix("Reason::")) {
        let (name, of) = line.trim_end_matches(',').split_once(" => ").expect("a number for each reason");
        let name = in_capitals(name.trim_end_matches("(_)"));
        found.insert(format!("CATHAR_REFUSED_{name}"), number(of));
    }
    assert!(numbers.contains("Ok(_) => 0,"), "an acceptance is 0");
    assert!(text("crates/leaves/src/words.rt").contains("-65536.0 <= x && x <= 65536.0"), "what is in range");
    found.insert(String::from("CATHAR_ACCEPTED"), 0);
    found.insert(String::from("CATHAR_LOUDEST"), 65_536);
    for (name, of, source) in [
        ("MOST_SAMPLES", "MOST_SAMPLES", "crates/recording/src/open.rt"),
        ("BLOCK", "BLOCK", "crates/recording/src/counts.rt"),
        ("MOST_BY_MODEL", "MAX_SOLVE", "crates/inpaint/src/window.rt"),
        ("MOST_GAPS", "MOST_SPANS", "crates/splice/src/lib.rt"),
        ("MOST_RATE", "MOST_RATE", "crates/inpaint/src/auto.rt"),
        ("HELD_RUN", "HELD_RUN", "crates/inpaint/src/auto.rt"),
        ("LEAST_HELD_RUN", "LEAST_HELD_RUN", "crates/inpaint/src/auto.rt"),
        ("MOST_HELD_RUN", "MOST_HELD_RUN", "crates/inpaint/src/auto.rt"),
        ("LEAST_BITS", "LEAST_BITS", "crates/dequant/src/lattice.rt"),
        ("MOST_BITS", "MOST_BITS", "crates/dequant/src/lattice.rt"),
        ("MOST_ITERATIONS", "MOST_ITERATIONS", "crates/dequant/src/cosparse.rt"),
        ("FRAME_BYTES", "FRAME_BYTES", "crates/frames/src/lib.rt"),
        ("FRAME_WORDS", "FRAME_WORDS", "crates/frames/src/lib.rt"),
        ("MOST_MISSING", "MOST_MISSING", "crates/frames/src/lib.rt"),
        ("MISSING_WORD", "MISSING_WORD", "crates/frames/src/lib.rt"),
        ("MEAN_OVER", "MEAN_OVER", "crates/decrackle/src/lib.rt"),
        ("CRACKLE_STATE", "STATE_WORDS", "crates/crackle/src/kept.rt"),
        ("SETTINGS", "SETTINGS", "crates/settings/src/lib.rt"),
        ("SETTINGS_BYTES", "SETTINGS_BYTES", "crates/settings/src/lib.rt"),
        ("SETTINGS_V1", "SETTINGS_V1", "crates/settings/src/lib.rt"),
        ("SETTINGS_V1_BYTES", "SETTINGS_V1_BYTES", "crates/settings/src/lib.rt"),
        ("WAV_HEADER_BYTES", "HEADER_BYTES", "crates/riff/src/write.rt"),
    ] {
        found.insert(format!("CATHAR_{name}"), constant(of, source));
    }
    found
}

#[test]
fn names_as_in_the_sources() {
    assert_eq!(defined(), in_sources());
}

/// What the header's functions on memory give for each of these lines of three numbers, n, start and length: what a gap
/// needs, what is enough for any gap up to that length, what a repair over the whole recording needs, the journal for so
/// many repairs, how many counts, the journal for a scan at the least, the usual and the most held run, and the bytes of a
/// WAV file. They are compiled and run as a C program.
fn given(lines: &str) -> String {
    let folder = Path::new(env!("CARGO_TARGET_TMPDIR"));
    let (source, program) = (folder.join("needs.c"), folder.join("needs"));
    fs::write(&source, NEEDS).expect("the program's text is written");
    let flags = ["-std=c99", "-Wall", "-Wextra", "-pedantic", "-Werror", "-I"];
    let mut compiler = Command::new(c_compiler());
    compiler.args(flags).arg(file("include")).arg(&source).arg("-o").arg(&program);
    assert!(compiler.status().expect("the compiler runs").success(), "{compiler:?}");
    let mut command = Command::new(runner());
    let mut running = command.arg(&program).stdin(Stdio::piped()).stdout(Stdio::piped()).spawn().expect("it runs");
    let mut input = running.stdin.take().expect("its input is a pipe");
    let lines = String::from(lines);
    let writer = std::thread::spawn(move || input.write_all(lines.as_bytes()));
    let output = running.wait_with_output().expect("it ends");
    writer.join().expect("the writer ends").expect("all lines are read");
    String::from_utf8(output.stdout).expect("it prints text")
}

/// The program.
const NEEDS: &str = "#include \"cathar.h\"
#include <stdio.h>
int main(void)
{
    size_t n, start, len;
    while (scanf(\"%zu %zu %zu\", &n, &start, &len) == 3)
        printf(\"%zu %zu %zu %zu %zu %zu %zu %zu %zu\\n\", cathar_gap_work(n, start, len), cathar_longest_gap_work(n, len),
               cathar_whole_work(n), cathar_journal_words(n, len), cathar_counts(n),
               cathar_scan_words(n, CATHAR_LEAST_HELD_RUN), cathar_scan_words(n, CATHAR_HELD_RUN),
               cathar_scan_words(n, CATHAR_MOST_HELD_RUN), cathar_wav_bytes(n));
    return 0;
}
";

/// Numbers on which something turns, and their neighbours.
const EDGES: [usize; 12] = [0, 1, 2, 32, 128, 256, 1024, 2048, 3000, 16_384, 20_000, MOST_SAMPLES];

/// What is enough for any gap up to this length among n samples, by trying each length that is not by line, at the
/// middle, which needs no less than any other place, and at every place where there are few.
fn enough(n: usize, longest: usize) -> usize {
    let most = longest.min(n);
    let needed = |len: usize| {
        let middle = Gap { start: (n - len) / 2, len }.needed(n);
        let places = if n <= 40 { 0..n - len + 1 } else { 0..0 };
        places.map(|start| Gap { start, len }.needed(n)).fold(middle, usize::max)
    };
    let by_model = (1..=most.min(2048)).map(needed).max().unwrap_or(0);
    if most > 2048 {
        by_model.max(most)
    } else {
        by_model
    }
}

#[test]
fn memory_as_needed() {
    let edges: Vec<usize> = EDGES.iter().flat_map(|at| [at.saturating_sub(1), *at, at + 1]).collect();
    let (mut lines, mut expected) = (String::new(), String::new());
    for &n in edges.iter().filter(|n| **n <= MOST_SAMPLES) {
        for &len in &edges {
            let enough = enough(n, len);
            for start in [0, 1, 5, 1023, 1024, 1025, n / 2, n.saturating_sub(len), n.saturating_sub(1), n, usize::MAX] {
                let within = len > 0 && start < n && len <= n - start;
                let gap = if within { Gap { start, len }.needed(n) } else { 0 };
                lines += &format!("{n} {start} {len}\n");
                let (words, counts) = (whole::needed(n), blocks(n));
                let at = |held_run: usize| entry_words(n) + n / (LOST_RUN + held_run);
                let [least, usual, most] = [LEAST_HELD_RUN as usize, HELD_RUN, MOST_HELD_RUN as usize].map(at);
                let journal = len * usual;
                let wav = HEADER + 2 * n;
                expected += &format!("{gap} {enough} {words} {journal} {counts} {least} {usual} {most} {wav}\n");
            }
        }
    }
    assert!(given(&lines) == expected, "what the header's functions give is not what is needed");
    println!("what the header's functions give for {} cases is what is needed", expected.lines().count());
}

#[test]
fn as_exported() {
    let exports = declared("crates/cathar/src/lib.rt");
    assert_eq!(exports.len(), EXPORTS);
    assert_eq!(declared_in_header(), exports, "the header, and what is exported");
    assert_eq!(declared("host/src/cathar.rs"), exports, "the declarations of this package, and what is exported");
    for name in ["repair", "gaps", "crackle", "propose", "settings", "wav"] {
        let example = format!("examples/{name}.rs");
        assert!(declared(&example).is_subset(&exports), "the declarations of {example}");
    }
}
