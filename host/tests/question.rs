//! The question whether a span was measured, against the model of it: every answer, and every byte of the lent memory,
//! with what stands around each part of it. On states that calls reach it is also held to looking at each mark.
//!
//! `CATHAR_SEED` sets the seed.
mod question {
    pub mod asked;
    pub mod spans;
    pub mod states;
}

use cathar_host::both::Both;
use cathar_host::call::Call;
use cathar_host::count::Count;
use cathar_host::draw::{self, Draw};
use cathar_host::question::Span;
use cathar_host::recording::{blocks, counted, Recording, BLOCK, MOST_SAMPLES};
use cathar_host::room;
use question::asked::{ask, After, Questions, COMMON, ON_ANY, ON_REACHED, WITH_NUMBERS};
use question::spans;
use question::states::{self, Reached};

/// How many recordings are opened, and after how many calls on each the questions are asked.
const RECORDINGS: u64 = 750;
const CALLS: u64 = 8;

/// How many marks with counts there are that no call wrote.
const ANY: u64 = 4_000;

/// Both sides make the call, and are then asked of spans of every kind.
fn ask_after(calls: &mut Count<Reached>, count: &mut Questions, draw: &mut Draw, both: &mut Both, call: Call) {
    let (reached, wrong) = states::make(draw, both, call);
    calls.take(&reached, &wrong);
    let marks = both.model.marks.clone();
    spans::each(draw, &marks, &mut |span| {
        ask(count, both, reached.after(), span);
    });
}

#[test]
fn on_reached_states() {
    let seed = draw::seed();
    let mut draw = Draw::new(seed);
    let mut calls = Count::new("calls that reach the states", &[states::CLASSES]);
    let mut count = Count::new("cathar_measured on reached states, against each mark", &[ON_REACHED, COMMON]);
    calls.begin("openings of both kinds, repairs and undos");
    count.begin("spans of every kind");
    for _ in 0..RECORDINGS {
        let (n, most) = (states::size(&mut draw), 1 + draw.below(2 * CALLS));
        let mut both = Both::new(states::recording(&mut draw, n, most as usize));
        let mut call = states::opening(&mut draw);
        for _ in 0..=most {
            ask_after(&mut calls, &mut count, &mut draw, &mut both, call);
            call = states::call(&mut draw, &both.model);
        }
    }
    calls.print(seed);
    count.close(seed);
    calls.hold();
}

/// Marks of which none is not 0, one in some hundred, or nearly all.
fn marks(draw: &mut Draw, n: usize) -> Vec<u8> {
    let spread = [u64::MAX, 2_000, 300, 20, 1][draw.below(5) as usize];
    (0..n).map(|_| if draw.below(spread) == 0 { draw.word() as u8 } else { 0 }).collect()
}

/// Counts of which all are 0, one in a few is not, or all are any; or those of the marks. At times each that is not 0 is
/// 32,768, so that two of them are 0 in 16 binary digits.
fn counts(draw: &mut Draw, marks: &[u8]) -> Vec<u16> {
    let spread = [u64::MAX, 6, 2, 1, 0][draw.below(5) as usize];
    let (half, any) = (draw.below(3) == 0, room::counts(draw, blocks(marks.len())));
    let mut count = |any: u16| match draw.below(spread) {
        0 if half => 0x8000,
        0 => any,
        _ => 0,
    };
    if spread == 0 {
        counted(marks)
    } else {
        any.into_iter().map(&mut count).collect()
    }
}

/// Marks and counts as they are lent to the question, which takes no samples and no journal.
fn lent(marks: Vec<u8>, counts: Vec<u16>) -> Both {
    Both::new(Recording { samples: Vec::new(), marks, counts, journal: Vec::new(), used: 0 })
}

#[test]
fn on_any_counts() {
    let seed = draw::seed();
    let mut draw = Draw::new(seed);
    let mut count = Count::new("cathar_measured over any marks and counts, against the rule", &[ON_ANY, COMMON]);
    count.begin("spans of every kind");
    for _ in 0..ANY {
        let n = states::size(&mut draw);
        let marks = marks(&mut draw, n);
        let counts = counts(&mut draw, &marks);
        let mut both = lent(marks.clone(), counts);
        spans::each(&mut draw, &marks, &mut |span| {
            ask(&mut count, &mut both, After::NoCall, span);
        });
    }
    count.close(seed);
}

/// Marks that are all 0 with so many counts, all of them 0 too, and spans of every kind.
fn ask_numbers(count: &mut Questions, draw: &mut Draw, n: usize, counts: usize) {
    let mut both = lent(vec![0; n], vec![0; counts]);
    let marks = both.model.marks.clone();
    spans::each(draw, &marks, &mut |span| {
        let told = ask(count, &mut both, After::NoCall, span);
        let number = if counts != blocks(n) { 14 } else { 5 * u32::from(span.is_past(n)) };
        assert_eq!((told.number, told.yes), (number, number == 0), "{span:?} of {n} with {counts} counts");
    });
}

#[test]
fn with_any_number_of_counts() {
    let seed = draw::seed();
    let mut draw = Draw::new(seed);
    let mut count = Count::new("cathar_measured with any number of counts", &[WITH_NUMBERS]);
    count.begin("few samples");
    for n in [0, 1, 2, 254, 255, 256, 257, 258, 511, 512, 513, 700, 768, 1_024] {
        let right = blocks(n);
        for counts in [0, 1, right.saturating_sub(1), right, right + 1, right + 2, n / BLOCK, n / BLOCK + 1, n] {
            ask_numbers(&mut count, &mut draw, n, counts);
        }
    }
    count.begin("the most samples, and more: there is no refusal 2");
    for n in [MOST_SAMPLES - 1, MOST_SAMPLES, MOST_SAMPLES + 1, MOST_SAMPLES + BLOCK + 1] {
        for counts in [blocks(n) - 1, blocks(n), blocks(n) + 1] {
            ask_numbers(&mut count, &mut draw, n, counts);
        }
    }
    count.close(seed);
}

/// What both sides tell of a span, which has to be the same.
fn both_told(marks: &[u8], counts: [u16; 3], start: usize, len: usize) -> (u32, bool) {
    let (told, wrong) = lent(marks.to_vec(), counts.to_vec()).ask(Span { start, len });
    assert!(wrong.is_empty(), "{counts:?}, {start}, {len}: {wrong:?}");
    (told.number, told.yes)
}

/// By hand: 600 samples in three blocks, of which 255, 256 and 511 are not measured.
#[test]
fn by_hand() {
    let mut marks = vec![0; 600];
    [255, 256, 511].into_iter().for_each(|place| marks[place] = 6);
    let right = [1, 2, 0];
    assert_eq!(counted(&marks), right);
    for (start, len) in [(0, 255), (257, 254), (512, 88), (600, 0), (255, 0)] {
        assert_eq!(both_told(&marks, right, start, len), (0, true), "{start}, {len}");
    }
    for (start, len) in [(0, 256), (256, 1), (257, 255), (511, 89), (0, 600)] {
        assert_eq!(both_told(&marks, right, start, len), (0, false), "{start}, {len}");
    }
    for (start, len) in [(0, 601), (600, 1), (601, 0), (1, usize::MAX), (usize::MAX, 1)] {
        assert_eq!(both_told(&marks, right, start, len), (5, false), "{start}, {len}");
    }
}

/// By hand: of 600 samples 300 is not measured, which is in the block between. Its count decides, and those of the first
/// and the last block do not.
#[test]
fn by_hand_with_wrong_counts() {
    let mut marks = vec![0; 600];
    marks[300] = 1;
    for (counts, start, yes) in
        [([9, 0, 9], 0, true), ([0, 1, 0], 0, false), ([9, 0, 9], 256, false), ([9, 1, 9], 301, true)]
    {
        assert_eq!(both_told(&marks, counts, start, 600 - start), (0, yes), "{counts:?}, {start}");
    }
}
