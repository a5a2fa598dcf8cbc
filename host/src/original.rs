//! The original Rust (the package `original`), as the model and the tests ask it. It is called in this process, and
//! where `CATHAR_SECOND` names the program of that package, compiled for another processor, that program is asked
//! the same and has to give the same, bit for bit; two NaN count as equal.
use crate::float::{word32, word64};
use crate::wrong;
use original::ask::{each_projected, patterns, read_list, Ask, RATE};
use original::declip::{declip_with_method, DeclipMethod};
use std::cell::{Cell, RefCell};
use std::env;
use std::io::BufReader;
use std::process::{Child, ChildStdin, ChildStdout, Command, Stdio};

pub use original::ask::Kind;

/// How many patterns are told.
const SHOWN: usize = 16;

/// A second process. Each test has one of its own, since each is a thread.
struct Second {
    asks: ChildStdin,
    answers: BufReader<ChildStdout>,
    _process: Child,
}

thread_local! {
    static SECOND: RefCell<Option<Second>> = RefCell::new(Second::start());
    /// How many answers it has given.
    static AGREED: Cell<u64> = Cell::new(0);
}

impl Second {
    /// The program that `CATHAR_SECOND` names, started; nothing, where it names none.
    fn start() -> Option<Second> {
        let program = env::var_os("CATHAR_SECOND")?;
        let mut command = Command::new(&program);
        let started = command.stdin(Stdio::piped()).stdout(Stdio::piped()).spawn();
        let mut process = started.unwrap_or_else(|error| panic!("CATHAR_SECOND, {program:?}: {error}"));
        let asks = process.stdin.take().expect("its input is a pipe");
        let answers = BufReader::new(process.stdout.take().expect("its output is a pipe"));
        Some(Second { asks, answers, _process: process })
    }

    fn answer(&mut self, ask: &Ask) -> Vec<u64> {
        let answer = ask.write(&mut self.asks).and_then(|()| read_list(&mut self.answers));
        answer.unwrap_or_else(|error| panic!("the second process does not answer {ask:?}: {error}"))
    }
}

/// The second process, if there is one, has to give the same for what is asked.
fn agree(here: impl FnOnce() -> Vec<u64>, ask: impl FnOnce() -> Ask) {
    SECOND.with(|second| {
        if let Some(second) = second.borrow_mut().as_mut() {
            let (ask, here) = (ask(), here());
            let there = wrong::there(second.answer(&ask));
            assert_eq!(here.len(), there.len(), "{:?}: how many patterns the second process gives", ask.kind);
            AGREED.with(|agreed| agreed.set(agreed.get() + ask.answers()));
            let differs = |place: &usize| one_nan(ask.kind, here[*place]) != one_nan(ask.kind, there[*place]);
            if let Some(place) = (0..here.len()).find(differs) {
                let told = || described(&ask, place, here[place], there[place]);
                wrong::found(AGREED.with(Cell::get), told);
                panic!("{}", told());
            }
        }
    });
}

/// What was asked, and the first pattern of the answer that is not the same here and there. Of many samples the first
/// few are told.
fn described(ask: &Ask, place: usize, here: u64, there: u64) -> String {
    let Ask { kind, settings, patterns } = ask;
    let first = &patterns[..patterns.len().min(SHOWN)];
    let of = format!("{kind:?} {settings:?} of {} patterns, {first:x?} the first", patterns.len());
    format!("{of}: at place {place} here {here:#x}, and in the second process {there:#x}")
}

/// The pattern of what a function of this kind gives, or of the one NaN.
pub fn one_nan(of: Kind, pattern: u64) -> u64 {
    match of {
        Kind::Root => word64(f64::from_bits(pattern)),
        _ => word32(f32::from_bits(pattern as u32)),
    }
}

/// Prints how many answers the second process has given to this test, all of them the same as here. Where there is no
/// such process, there is nothing to print.
pub fn print_agreed() {
    if SECOND.with(|second| second.borrow().is_some()) {
        println!("  answers of a second process, all the same: {}", AGREED.with(Cell::get));
    }
}

/// What the original leaves of these samples, here and there.
fn left(after: Vec<f32>, kind: Kind, settings: [u64; 3], samples: &[f32]) -> Vec<f32> {
    agree(|| patterns(&after), || Ask { kind, settings, patterns: patterns(samples) });
    after
}

fn pattern(x: f32) -> u64 {
    x.to_bits().into()
}

pub fn inpaint_gap(samples: &[f32], start: usize, len: usize, passes: u32) -> Vec<f32> {
    let after = original::inpaint::inpaint_gap(samples, start, len, passes);
    left(after, Kind::Gap, [start as u64, len as u64, passes.into()], samples)
}

pub fn inpaint_auto(samples: &[f32], rate: u32, max_gap_ms: f32) -> Vec<f32> {
    let after = original::inpaint::inpaint_auto(samples, rate, max_gap_ms);
    left(after, Kind::Auto, [rate.into(), pattern(max_gap_ms), 0], samples)
}

pub fn declip(samples: &[f32], threshold: f32) -> Vec<f32> {
    let after = declip_with_method(samples, threshold, DeclipMethod::Cubic);
    left(after, Kind::Declip, [pattern(threshold), 0, 0], samples)
}

/// What `project_gamma` makes of as many candidates as there are samples.
pub fn project_gamma(candidates: &[f32], samples: &[f32], threshold: f32) -> Vec<f32> {
    let after = each_projected(candidates, samples, threshold);
    left(after, Kind::Gamma, [pattern(threshold), 0, 0], &[candidates, samples].concat())
}

pub fn decrackle(samples: &[f32], sensitivity: f32) -> Vec<f32> {
    let after = original::decrackle::decrackle(samples, RATE, sensitivity);
    left(after, Kind::Decrackle, [pattern(sensitivity), 0, 0], samples)
}

pub fn dequantize(samples: &[f32], bits: u32, strength: f32) -> Vec<f32> {
    let after = original::dequant::dequantize(samples, RATE, bits, strength);
    left(after, Kind::Dequantize, [bits.into(), pattern(strength), 0], samples)
}

pub fn dequantize_cosparse(samples: &[f32], bits: u32, strength: f32, iterations: u32) -> Vec<f32> {
    let after = original::dequant::dequantize_cosparse(samples, RATE, bits, strength, iterations);
    left(after, Kind::Cosparse, [bits.into(), pattern(strength), iterations.into()], samples)
}

/// What Rust's own operation makes of these patterns, here and there.
pub fn leaf(kind: Kind, patterns: Vec<u64>) -> Vec<u64> {
    let ask = Ask { kind, settings: [0; 3], patterns };
    let here = ask.answer();
    agree(|| here.clone(), || ask);
    here
}
