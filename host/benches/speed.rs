//! The time of the original Rust and of the library on the same inputs, in turn in one process, and whether they give
//! the same samples: each repair in one recording, then how the times grow as the length of a gap doubles, or the
//! number of samples; crackle in pieces, beside the flags of the whole; a list of gaps beside single calls; the
//! question whether a span was measured, beside looking at each mark; WAV files, beside the host's own reader and
//! writer; and square roots, beside those whose digits are all worked out by hand, and the machine's own. `host/bench`
//! runs it.
mod speed {
    pub mod clock;
    pub mod inputs;
    pub mod tasks;
}

use cathar_host::inpaint::MOST_GAPS;
use cathar_host::recording::MOST_SAMPLES;
use cathar_host::root::by_digits;
use cathar_host::whole::{Repair, Start};
use speed::inputs::{BITS, CLIP, DROPOUT, DROPOUT_STRETCH};
use speed::tasks::{in_turn, on_their_own, How, Numbers, Task, Times, QUESTIONS, ROOTS};
use std::env;
use std::iter::successors;
use std::time::Duration;

/// The recording in which each repair is made, and the first of those that double up to the most samples.
const SAMPLES: usize = 48_000;
const FEWEST: usize = 4_096;

/// The shortest gap that is timed, and the longest that is filled by a model.
const SHORTEST: usize = 32;
const LONGEST: usize = 2_048;

/// The shortest span of which the question is asked. From one to the next it is four times as long.
const SHORTEST_SPAN: usize = 256;

/// The pieces in which a recorder gives its samples, a hundredth of a second each at 48,000 a second.
const PIECE: usize = 480;

/// How many passes the original makes by default.
const PASSES: u32 = 3;

/// The lines of a table are timed in turn, so many times over, and the least times are taken: so a while in which the
/// machine is slow does not fall on one line alone.
const ROUNDS: usize = 3;

/// The four repairs over the whole recording, with settings for the worn samples that they are given, decrackle from
/// either start.
const WHOLE: [(&str, Repair); 5] = [
    ("declip", Repair::Declip { threshold: CLIP }),
    ("decrackle", Repair::Decrackle { sensitivity: 5.0, start: Start::Old }),
    ("decrackle from the mean", Repair::Decrackle { sensitivity: 5.0, start: Start::Mean }),
    ("dequantize", Repair::Dequantize { bits: BITS, strength: 1.0 }),
    ("dequantize_cosparse, 6 iterations", Repair::Cosparse { bits: BITS, strength: 1.0, iterations: 6 }),
];

/// A line of a table: its name, the task and the number of samples.
type Line = (String, Task, usize);

/// Prints the times of these lines, and where it `grows` also how each grew since the line before.
fn table(what: &str, grows: bool, lines: Vec<Line>) {
    table_beside("original", what, grows, lines);
}

/// Likewise, where the library's times stand beside those of something else.
fn table_beside(other: &str, what: &str, grows: bool, lines: Vec<Line>) {
    let last = if grows { "      growth of each" } else { "" };
    println!("\n{what:<36}{other:>14}{:>14}{:>8}{last}", "library", "ratio");
    let mut times: Vec<Times> = lines.iter().map(|(_, task, n)| task.times(*n)).collect();
    for _ in 1..ROUNDS {
        for ((_, task, n), times) in lines.iter().zip(&mut times) {
            *times = times.least(task.times(*n));
        }
    }
    for (i, (name, _, _)) in lines.iter().enumerate() {
        let before = if grows && i > 0 { Some(&times[i - 1]) } else { None };
        println!("{}", line(name, &times[i], before).trim_end());
    }
}

/// Both times, the ratio of the library's to the original's, and how each grew since the times before.
fn line(name: &str, times: &Times, before: Option<&Times>) -> String {
    let ms = |time: Duration| format!("{:.3} ms", time.as_secs_f64() * 1000.0);
    let ratio = |over: Duration, under: Duration| format!("{:.2}", over.as_secs_f64() / under.as_secs_f64());
    let theirs = times.original.map(ms).unwrap_or_default();
    let over = times.original.map(|original| ratio(times.library, original)).unwrap_or_default();
    let grew = before.map(|before| {
        let theirs = times.original.zip(before.original).map(|(now, then)| ratio(now, then));
        (theirs.unwrap_or_default(), ratio(times.library, before.library))
    });
    let (theirs_grew, ours_grew) = grew.unwrap_or_default();
    format!("{name:<36}{theirs:>14}{:>14}{over:>8}{theirs_grew:>12}{ours_grew:>8}", ms(times.library))
}

/// From the first number to the last, each twice the one before.
fn doubled(first: usize, last: usize) -> impl Iterator<Item = usize> {
    successors(Some(first), |n| Some(2 * n)).take_while(move |n| *n <= last)
}

/// The times of a task as the samples double.
fn by_samples(what: &str, task: Task) {
    let line = |n| (format!("{n:>12} samples"), task, n);
    table(what, true, doubled(FEWEST, MOST_SAMPLES).map(line).collect());
}

/// Every repair, in one recording.
fn each_repair() {
    let gap = |len| (format!("gap of {len}, {PASSES} passes"), Task::Gap { len, passes: PASSES }, SAMPLES);
    let mut lines: Vec<Line> = [32, 128, 512, 2048].map(gap).into();
    lines.push((format!("scan, {} dropouts", SAMPLES / DROPOUT_STRETCH), Task::Scan, SAMPLES));
    lines.extend(WHOLE.map(|(name, repair)| (name.into(), Task::Whole(repair), SAMPLES)));
    table(&format!("in {SAMPLES} samples"), false, lines);
}

/// Crackle in pieces, of a hundredth of a second and of one sample, from either start, as the samples double.
fn pieces() {
    for (start, what) in [(Start::Old, "crackle"), (Start::Mean, "from the mean")] {
        for len in [PIECE, 1] {
            let line = |n| (format!("{n:>12} samples"), Task::Pieces { len, start }, n);
            let lines = doubled(FEWEST, MOST_SAMPLES).map(line).collect();
            table_beside("on the whole", &format!("{what} in pieces of {len}"), true, lines);
        }
    }
}

/// A list of as many gaps as may be, beside single calls of the library in turn.
fn list() {
    let line = (format!("{MOST_GAPS} gaps of {SHORTEST}"), Task::List { len: SHORTEST }, SAMPLES);
    table_beside("single calls", &format!("one list in {SAMPLES} samples"), false, vec![line]);
}

/// The question, of spans that begin with a recording of the most samples, all of which are measured.
fn questions() {
    let lengths = successors(Some(SHORTEST_SPAN), |len| Some(4 * len)).take_while(|len| *len <= MOST_SAMPLES);
    let line = |len| (format!("{len:>12} samples"), Task::Questions { len }, MOST_SAMPLES);
    table_beside("each mark", &format!("{QUESTIONS} questions of a span"), true, lengths.map(line).collect());
}

/// WAV files, read and written, as the samples double.
fn wav_files() {
    for (what, task) in [("WAV file read", Task::WavRead), ("WAV file written", Task::WavWritten)] {
        let line = |n| (format!("{n:>12} samples"), task, n);
        table_beside("host's own", what, true, doubled(FEWEST, MOST_SAMPLES).map(line).collect());
    }
}

/// Square roots: of any doubles, of the pivots of the longest gap, and of subnormals.
fn roots(other: &str, beside: fn(f64) -> f64, what: &str, how: How) {
    let pivots = (format!("pivots of a gap of {LONGEST}"), Numbers::Pivots { len: LONGEST });
    let numbers = [("any doubles".into(), Numbers::Doubles), pivots, ("subnormals".into(), Numbers::Subnormals)];
    let lines = numbers.map(|(name, of)| (name, Task::Roots { of, how, beside }, SAMPLES));
    table_beside(other, &format!("{ROOTS} square roots{what}"), false, lines.into());
}

fn main() {
    let processor = env::var("CATHAR_PROCESSOR").unwrap_or_default();
    println!("processor: {}", if processor.is_empty() { "not known" } else { &processor });
    println!("emulated: {}", if env::var_os("CATHAR_EMULATED").is_some() { "yes, x86-64 on Arm" } else { "no" });
    println!("times: the processor's, the least of {ROUNDS} runs or more");
    println!("growth: over the line before, which is half the size, and for the question a quarter");
    each_repair();
    let gap = |len| Task::Gap { len, passes: 1 };
    let long = |len| (format!("{len:>12} long"), gap(len), SAMPLES);
    table(&format!("gap in {SAMPLES} samples, 1 pass"), true, doubled(SHORTEST, LONGEST).map(long).collect());
    by_samples(&format!("gap of {SHORTEST}, 1 pass"), gap(SHORTEST));
    by_samples(&format!("scan, {DROPOUT} lost in each {DROPOUT_STRETCH}"), Task::Scan);
    for (name, repair) in WHOLE {
        by_samples(name, Task::Whole(repair));
    }
    by_samples("proposal, clipped runs named", Task::Proposed { throughout: false });
    by_samples("proposal, all samples named", Task::Proposed { throughout: true });
    by_samples("undo of dequantize", Task::Undo);
    pieces();
    list();
    questions();
    wav_files();
    for (other, beside) in [("by digits", by_digits::square_root as fn(f64) -> f64), ("machine's", f64::sqrt)] {
        roots(other, beside, "", on_their_own);
        roots(other, beside, ", in turn", in_turn);
    }
}
