//! Sequences of all calls on a recording, opened in either way, against the model of the recording and the original
//! Rust, with undo among them: after every call the answer and value, every byte of the lent memory with what stands
//! around each part of it, that the counts are those of the marks, that every entry has the mark of its repair, and
//! that every sample marked as measured or as not received has its raw word and was so marked at first. After the last
//! call the repairs that survive are made alone on a fresh copy of the raw recording, opened in the same way, by both
//! sides, and have to leave the same; and then all is undone.
//!
//! `CATHAR_SEED` sets the seed.
mod sequences {
    pub mod any;
    pub mod calls;
    pub mod classes;
    pub mod history;
    pub mod slips;
}

use cathar_host::both::Wrong;
use cathar_host::count::Count;
use cathar_host::draw::{self, Draw};
use sequences::any;
use sequences::calls::Call;
use sequences::classes::{Ended, CALLS, REPLAYED, SEQUENCES, UNDONE};
use sequences::history::{History, Step};
use std::ops::Range;

/// So many sequences, each of so many calls after the opening, on recordings of so many samples.
struct Group {
    name: &'static str,
    sequences: u64,
    samples: Range<u64>,
    calls: Range<u64>,
}

/// Most recordings are short, since the original takes its time for the long ones.
const GROUPS: [Group; 4] = [
    Group { name: "0 to 40 samples", sequences: 9_000, samples: 0..41, calls: 2..40 },
    Group { name: "41 to 300 samples", sequences: 3_000, samples: 41..301, calls: 2..24 },
    Group { name: "301 to 2,000 samples", sequences: 300, samples: 301..2_001, calls: 2..16 },
    Group { name: "2,001 to 5,000 samples", sequences: 250, samples: 2_001..5_001, calls: 2..16 },
];

/// The counts of the calls in the sequences, of the survivors that are made alone, of the undos at the end, and of
/// the sequences.
struct Counts {
    calls: Count<Step>,
    replayed: Count<Step>,
    undone: Count<Step>,
    sequences: Count<Ended>,
}

impl Counts {
    /// Nothing counted yet.
    fn new() -> Counts {
        Counts {
            calls: Count::new("sequences of all calls against model and original", &[CALLS]),
            replayed: Count::new("the survivors alone, on a fresh copy of the raw recording", &[REPLAYED]),
            undone: Count::new("undone at the end, to the raw recording and once more", &[UNDONE]),
            sequences: Count::new("sequences, each with its survivors replayed and then undone", &[SEQUENCES]),
        }
    }

    /// What comes from here on is counted under this name.
    fn begin(&mut self, source: &'static str) {
        self.calls.begin(source);
        self.replayed.begin(source);
        self.undone.begin(source);
        self.sequences.begin(source);
    }

    /// Prints all counts, and panics where one does not hold.
    fn close(&self, seed: u64) {
        for count in [&self.calls, &self.replayed, &self.undone] {
            count.print(seed);
        }
        self.sequences.close(seed);
        for count in [&self.calls, &self.replayed, &self.undone] {
            count.hold();
        }
    }
}

/// Any number of these.
fn one_of(draw: &mut Draw, of: &Range<u64>) -> usize {
    (of.start + draw.below(of.end - of.start)) as usize
}

/// Both sides make the call, and it is counted. Whether all was right.
fn made(count: &mut Count<Step>, draw: &mut Draw, history: &mut History, call: Call) -> bool {
    let (step, wrong) = history.make(draw, call);
    count.take(&step, &wrong);
    wrong.is_empty()
}

/// A sequence of calls, what its survivors alone make of the raw recording, and what is left when all is undone.
/// Once something is wrong, there is no more to compare.
fn play(counts: &mut Counts, draw: &mut Draw, group: &Group) {
    let (n, calls) = (one_of(draw, &group.samples), one_of(draw, &group.calls));
    let mut call = any::opening(draw);
    let mut history = History::new(any::recording(draw, n, calls, call));
    for _ in 0..=calls {
        if !made(&mut counts.calls, draw, &mut history, call) {
            return;
        }
        call = any::call(draw, &history.both.model);
    }
    let ended = Ended::new(&history, calls);
    let mut wrong = replay(&mut counts.replayed, draw, &history);
    wrong.extend(undo_all(&mut counts.undone, draw, &mut history));
    counts.sequences.take(&ended, &wrong);
}

/// Both sides make the survivors alone, on a fresh copy of the raw recording: "Demand 3's replay takes the proposal as
/// part of the repair." What is then not the same.
fn replay(count: &mut Count<Step>, draw: &mut Draw, history: &History) -> Wrong {
    let mut fresh = History::new(any::unopened(draw, history.raw(), history.opening));
    made(count, draw, &mut fresh, history.opening);
    for survivor in &history.survivors {
        let (step, mut wrong) = fresh.make(draw, survivor.call);
        if step.outcome.named != [(survivor.call, survivor.m)] {
            wrong.push("what the survivor named");
        }
        count.take(&step, &wrong);
    }
    history.differing(&fresh)
}

/// Both sides undo all survivors, and then once more. What is then not as in the raw recording.
fn undo_all(count: &mut Count<Step>, draw: &mut Draw, history: &mut History) -> Wrong {
    while !history.survivors.is_empty() {
        made(count, draw, history, Call::Undo);
    }
    let raw = history.raw();
    let mut wrong = history.both.wrong_recording(&raw);
    if history.both.model != raw {
        wrong.push("the model's recording");
    }
    let (step, mut more) = history.make(draw, Call::Undo);
    if step.outcome.number != 10 {
        more.push("one undo more");
    }
    count.take(&step, &more);
    wrong
}

#[test]
fn all_calls() {
    let seed = draw::seed();
    let mut draw = Draw::new(seed);
    let mut counts = Counts::new();
    for group in &GROUPS {
        counts.begin(group.name);
        for _ in 0..group.sequences {
            play(&mut counts, &mut draw, group);
        }
    }
    counts.close(seed);
}
