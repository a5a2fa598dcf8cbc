//! A list of the original Rust's answers, which the program `repairlist` runs. The file in the repository is held to
//! that. With `CATHAR_WRITE=1` it is written anew.
//!
//! Each line is one call. It ends in a newline, and its parts are separated by one space. The first is a letter, and
//! all others but one are words of eight hexadecimal digits in lower case. All samples are words of f32.
//!
//!     letter settings.. number value beside n m before.. marks after..
//!
//! with three settings, and then what the model answers: number and value of a repair, and beside them the order of
//! the model for a gap, and else 0. For a scan number is that of the first refusal, or 0, value is how many runs are
//! repaired, and beside them stands how many qualified. Each of the n samples before the call stands in `before`. The
//! part `marks` is a row of n digits, the marks that the model has after the call. The m words of `after` are those
//! that the original writes, at each place whose mark is not 0. All other samples the original leaves as they were.
//! The settings, 0 where there are fewer, are by letter:
//!
//!     g start len passes              one gap, by `inpaint_gap`
//!     s rate limit 0                  a scan, by `inpaint_auto`; with held words, by `inpaint_gap` at each gap
//!     d threshold 0 0                 the cubic `declip_with_method`
//!     c sensitivity 0 0               `decrackle`, which is that from the old start
//!     q bits strength 0               `dequantize`
//!     p bits strength iterations      `dequantize_cosparse`
//!
//! Limit, threshold, sensitivity and strength are words of f32. Each repair is accepted and names a sample, and a
//! scan repairs every run that qualifies. A sample of a scan that is not in range is a NaN within the first such run.
use cathar_host::draw::{Draw, SEED};
use cathar_host::inpaint::{inpaint_auto, inpaint_gap, scanned_by_original, Gap, GapAnswer, Scan};
use cathar_host::original;
use cathar_host::recording::{in_range, Answer, Recording};
use cathar_host::settings::OfScan;
use cathar_host::shapes::Shape;
use cathar_host::whole::{self, floats, needed, Repair, Start};
use std::env;
use std::fs;
use std::path::Path;

/// The list is shorter than this, in bytes.
const MOST_BYTES: usize = 60_000;

/// The shapes of the samples around a gap.
const SHAPES: [Shape; 4] = [Shape::Tone, Shape::Noise, Shape::Steps, Shape::Words];

/// How many gaps there are, how long they get, and with how many passes they are repaired.
const GAPS: usize = 60;
const LONGEST_GAP: usize = 12;
const PASSES: u32 = 3;

/// The last of them are made so quiet that most of their models stop early: the sums of the squares around them.
const QUIET: [f64; 12] =
    [0.0, 5e-13, 1.01e-12, 1.05e-12, 1.3e-12, 1.05e-12, 1.2e-12, 3e-12, 1.1e-12, 2e-12, 1.2e-12, 2e-12];

/// The rate of each scan and its limit in milliseconds, which is 48 samples.
const SCAN: OfScan = OfScan::new(48_000, 1.0);

/// The dropouts of each scan, which are as many samples apart as the rest of its n allows: 1 sample does not
/// qualify and 2 do, 48 do and 49 do not.
const SCANS: [(Shape, usize, &[usize]); 8] = [
    (Shape::Tone, 40, &[2, 3, 2]),
    (Shape::Noise, 50, &[1, 2, 3, 4]),
    (Shape::Steps, 64, &[5, 1, 6]),
    (Shape::Tone, 80, &[12, 2, 9]),
    (Shape::Noise, 96, &[2, 3, 5, 7, 11]),
    (Shape::Quiet, 100, &[8, 16]),
    (Shape::Loud, 110, &[20, 4, 4]),
    (Shape::Tone, 120, &[48, 49]),
];

/// The scans with held words: how many samples there are, and from where on a word is held for so many, or, where the last
/// part says so, zeros stand. The first begin and end beside what is a dropout: 15 words, 16 and 17; from place 0 on; up to
/// the last sample; directly before zeros, and directly behind them.
const HELD_SCANS: [(Shape, usize, &[(usize, usize, bool)]); 4] = [
    (Shape::Tone, 40, &[(3, 15, false), (20, 16, false)]),
    (Shape::Noise, 30, &[(0, 17, false)]),
    (Shape::Tone, 44, &[(2, 16, false), (18, 2, true), (20, 17, false)]),
    (Shape::Steps, 40, &[(5, 2, true), (7, 16, false), (24, 16, false)]),
];

/// How many lines each of the four repairs over the whole recording has.
const EACH: usize = 10;

/// The shapes of their samples.
const WHOLE_SHAPES: [Shape; 5] = [Shape::Tone, Shape::Noise, Shape::Steps, Shape::Quiet, Shape::Loud];

/// Their settings, line by line: at the ends of what they are held to, past them and between.
const SENSITIVITIES: [f32; EACH] = [5.0, 1.0, 10.0, 0.0, 11.0, 2.5, 7.75, f32::INFINITY, 9.5, 3.0];
const BITS: [u32; EACH] = [8, 4, 0, 12, 16, 24, 32, 6, 10, 5];
const STRENGTHS: [f32; EACH] = [0.5, 1.0, 0.3, 0.30000004, 0.75, 2.0, 0.1, 0.9, f32::INFINITY, 0.29999998];
const ITERATIONS: [u32; EACH] = [1, 2, 3, 16, 17, 4, 6, 15, u32::MAX, 5];

fn recording(samples: &[u32]) -> Recording {
    Recording::new(samples.to_vec(), vec![0; samples.len()], vec![0; 1000], 0)
}

/// The letter of a call and the words of its settings.
type Called = (char, [u32; 3]);

/// Words as they stand in a line, each behind a space.
fn spelled(words: &[u32]) -> String {
    words.iter().map(|word| format!(" {word:08x}")).collect()
}

/// The line of a call by its answer, the samples before it, the model after it and the samples that the original leaves.
fn line((letter, settings): Called, answer: [u32; 3], before: &[u32], model: &Recording, original: &[f32]) -> String {
    let left: Vec<u32> = original.iter().map(|x| x.to_bits()).collect();
    assert!(model.samples == left, "the original and the model");
    let (marked, others): (Vec<usize>, Vec<usize>) = (0..before.len()).partition(|place| model.marks[*place] != 0);
    assert!(others.iter().all(|place| left[*place] == before[*place]), "the original writes at marked places alone");
    let after: Vec<u32> = marked.iter().map(|place| left[*place]).collect();
    let head = [&settings[..], &answer, &[before.len() as u32, after.len() as u32]].concat();
    let marks: String = model.marks.iter().map(|mark| format!("{mark:x}")).collect();
    format!("{letter}{}{} {marks}{}\n", spelled(&head), spelled(before), spelled(&after))
}

/// The answer of a repair over the whole recording as a line has it: nothing stands beside it.
fn of_repair(answer: Answer) -> [u32; 3] {
    [answer.number(), answer.value() as u32, 0]
}

/// The answer of a gap as a line has it: beside it stands the order of its model.
fn of_gap(told: GapAnswer) -> [u32; 3] {
    [told.number(), told.value() as u32, told.order()]
}

/// The answer of a scan as a line has it: beside the runs repaired stand those that qualified.
fn of_scan(scan: &Scan) -> [u32; 3] {
    [scan.number(), scan.repaired() as u32, scan.qualified() as u32]
}

/// The line of one gap, or nothing where a result is not in range.
fn gap_line(samples: &[u32], gap: Gap) -> Option<String> {
    let Gap { start, len } = gap;
    let mut model = recording(samples);
    let told = inpaint_gap(&mut model, gap, PASSES, &mut vec![0; gap.needed(samples.len())]);
    if told.answer != Answer::Accepted(len) {
        return None;
    }
    let left = original::inpaint_gap(&floats(samples), start, len, PASSES);
    let called = ('g', [start as u32, len as u32, PASSES]);
    Some(line(called, of_gap(told), samples, &model, &left))
}

/// These samples, made so loud or quiet that the sum of the squares around the gap is about this.
fn as_loud(samples: &[u32], gap: Gap, energy: f64) -> Vec<u32> {
    let x = |word: u32| f64::from(f32::from_bits(word));
    let squares: f64 = gap.read(samples.len()).map(|place| x(samples[place]) * x(samples[place])).sum();
    let factor = (energy / squares).sqrt();
    samples.iter().map(|word| ((x(*word) * factor) as f32).to_bits()).collect()
}

/// Gaps in each shape at the start, in the middle and at the end of 6 to 60 samples. With each turn through
/// the lengths, every length comes to another shape and another place.
fn gaps(draw: &mut Draw) -> String {
    let mut text = String::new();
    let mut lines = 0;
    while lines < GAPS {
        let len = 1 + lines % LONGEST_GAP;
        let turned = len + lines / LONGEST_GAP;
        let n = (len + 2).max(6) + draw.below(47) as usize;
        let start = [0, 1 + draw.below((n - len - 1) as u64) as usize, n - len][turned % 3];
        let (mut samples, gap) = (SHAPES[turned % SHAPES.len()].samples(draw, n), Gap { start, len });
        if let Some(energy) = (lines + QUIET.len()).checked_sub(GAPS).map(|line| QUIET[line]) {
            samples = as_loud(&samples, gap, energy);
        }
        if let Some(line) = gap_line(&samples, gap) {
            text += &line;
            lines += 1;
        }
    }
    text
}

/// Samples with these dropouts, each of zeros of one sign, the first at times of NaN: a later one of NaN
/// would stand in the windows of those before it.
fn dropped(draw: &mut Draw, shape: Shape, n: usize, dropouts: &[usize]) -> Vec<u32> {
    let mut samples = shape.samples(draw, n);
    let between = (n - dropouts.iter().sum::<usize>()) / (dropouts.len() + 1);
    let mut start = between;
    for len in dropouts {
        let words = if start == between && *len > 1 { 3 } else { 2 };
        let word = [0, 0x8000_0000, 0x7fc0_0000][draw.below(words) as usize];
        samples[start..start + len].fill(word);
        start += len + between;
    }
    samples
}

fn scan_line(samples: &[u32]) -> String {
    let mut model = recording(samples);
    let scan = inpaint_auto(&mut model, SCAN, &mut vec![0; 10_000], &mut []);
    assert!(scan.number() == 0 && scan.qualified() > 0, "the scan of a line: {scan:?}");
    assert!(model.samples.iter().all(|word| in_range(*word)), "a sample is not in range after the scan");
    let left = scanned_by_original(samples, SCAN, &scan.gaps());
    line(('s', [SCAN.rate, SCAN.max_gap_ms.to_bits(), 0]), of_scan(&scan), samples, &model, &left)
}

/// Samples of which words are held, and others are zero.
fn with_held(draw: &mut Draw, shape: Shape, n: usize, runs: &[(usize, usize, bool)]) -> Vec<u32> {
    let mut samples = shape.samples(draw, n);
    for (start, len, is_zero) in runs {
        let word = if *is_zero { 0 } else { samples[*start] };
        samples[*start..start + len].fill(word);
    }
    samples
}

/// A repair over the whole recording as a line has it.
fn called(repair: Repair) -> Called {
    match repair {
        Repair::Declip { threshold } => ('d', [threshold.to_bits(), 0, 0]),
        Repair::Decrackle { sensitivity, .. } => ('c', [sensitivity.to_bits(), 0, 0]),
        Repair::Dequantize { bits, strength } => ('q', [bits, strength.to_bits(), 0]),
        Repair::Cosparse { bits, strength, iterations } => ('p', [bits, strength.to_bits(), iterations]),
    }
}

/// The line of a repair over the whole recording, or nothing where it is refused or names no sample.
fn whole_line(samples: &[u32], repair: Repair) -> Option<String> {
    let mut model = recording(samples);
    let answer = whole::repair(&mut model, repair, &mut vec![0; needed(samples.len())]);
    if answer.number() != 0 || answer.value() == 0 {
        return None;
    }
    let left = repair.after(&floats(samples));
    Some(line(called(repair), of_repair(answer), samples, &model, &left))
}

/// One of the four loudest magnitudes of these samples, or one step below it.
fn threshold(draw: &mut Draw, samples: &[u32]) -> f32 {
    let mut magnitudes: Vec<u32> = samples.iter().map(|word| word & 0x7fff_ffff).collect();
    magnitudes.sort_unstable();
    let loud = magnitudes[samples.len() - 1 - draw.below(4) as usize];
    f32::from_bits(loud.saturating_sub(draw.below(2) as u32))
}

/// A repair over the whole recording for one of its lines.
type Chosen = fn(&mut Draw, &[u32], usize) -> Repair;

/// Each of the four. The last two go through their settings at different paces.
const WHOLE: [Chosen; 4] = [
    |draw, samples, _| Repair::Declip { threshold: threshold(draw, samples) },
    |_, _, line| Repair::Decrackle { sensitivity: SENSITIVITIES[line], start: Start::Old },
    |_, _, line| Repair::Dequantize { bits: BITS[line], strength: STRENGTHS[line] },
    |_, _, line| Repair::Cosparse {
        bits: BITS[line],
        strength: STRENGTHS[3 * line % EACH],
        iterations: ITERATIONS[line],
    },
];

/// The lines of one of the four: samples of 5 to 40 and of every shape.
fn whole_lines(draw: &mut Draw, chosen: Chosen) -> String {
    let mut text = String::new();
    let mut lines = 0;
    while lines < EACH {
        let n = 5 + draw.below(36) as usize;
        let samples = WHOLE_SHAPES[lines % WHOLE_SHAPES.len()].samples(draw, n);
        let repair = chosen(draw, &samples, lines);
        if let Some(line) = whole_line(&samples, repair) {
            text += &line;
            lines += 1;
        }
    }
    text
}

fn list() -> String {
    let mut draw = Draw::new(SEED);
    let mut text = gaps(&mut draw);
    for (shape, n, dropouts) in SCANS {
        text += &scan_line(&dropped(&mut draw, shape, n, dropouts));
    }
    for chosen in WHOLE {
        text += &whole_lines(&mut draw, chosen);
    }
    for (shape, n, runs) in HELD_SCANS {
        text += &scan_line(&with_held(&mut draw, shape, n, runs));
    }
    text
}

/// Whether the repair of a line changed a sample.
fn changes(line: &str) -> bool {
    let parts: Vec<&str> = line.split(' ').collect();
    let n = usize::from_str_radix(parts[7], 16).expect("a line says how many samples it has");
    let (before, behind) = parts[9..].split_at(n);
    let marked = before.iter().zip(behind[0].chars()).filter(|(_, mark)| *mark != '0').map(|(word, _)| word);
    !marked.eq(&behind[1..])
}

/// The orders of the gaps' models, in the order of the lines.
fn orders(stored: &str) -> Vec<u32> {
    let gaps = stored.lines().filter(|line| line.starts_with('g'));
    let order = |line: &str| u32::from_str_radix(line.split(' ').nth(6)?, 16).ok();
    gaps.map(|line| order(line).expect("an order stands beside number and value")).collect()
}

/// Holds the lines of each letter to their number, the gaps to orders of every kind, and most repairs over the whole
/// recording to a change.
fn check_lines(stored: &str) {
    let orders = orders(stored);
    println!("g: orders {orders:?}");
    let kinds: [fn(&u32) -> bool; 4] = [|o| *o == 0, |o| *o == 1, |o| (2..32).contains(o), |o| *o == 32];
    assert!(kinds.iter().all(|kind| orders.iter().filter(|order| kind(order)).count() > 1), "orders of every kind");
    let scans = SCANS.len() + HELD_SCANS.len();
    for (letter, number) in [('g', GAPS), ('s', scans), ('d', EACH), ('c', EACH), ('q', EACH), ('p', EACH)] {
        let lines: Vec<&str> = stored.lines().filter(|line| line.starts_with(letter)).collect();
        assert_eq!(lines.len(), number, "lines of {letter}");
        if !['g', 's'].contains(&letter) {
            let changing = lines.iter().filter(|line| changes(line)).count();
            println!("{letter}: {changing} of {number} repairs change a sample");
            assert!(changing > EACH / 2, "most of {letter} change a sample");
        }
    }
}

#[test]
fn the_list_of_repairs() {
    let file = Path::new(env!("CARGO_MANIFEST_DIR")).join("../crates/repairlist/stdin");
    if env::var_os("CATHAR_WRITE").is_some() {
        fs::write(&file, list()).expect("the list is written");
    }
    let stored = fs::read_to_string(&file).expect("the list is in the repository");
    assert!(stored == list(), "{} is not the list that this test makes", file.display());
    assert!(stored.len() < MOST_BYTES, "{} bytes are too many", stored.len());
    check_lines(&stored);
    println!("the list of repairs: {} lines, each as the original gives it", stored.lines().count());
}
