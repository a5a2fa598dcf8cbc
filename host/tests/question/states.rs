//! States that calls reach: a recording, opened in either way, and then repairs that mostly name few samples, with undos
//! among them.
use super::asked::After;
use cathar_host::both::{Both, Wrong};
use cathar_host::call::Call;
use cathar_host::count::Class;
use cathar_host::damage;
use cathar_host::draw::Draw;
use cathar_host::inpaint::{Gap, Scan};
use cathar_host::proposals;
use cathar_host::recording::{entry_words, Answer, Recording, BLOCK, NOT_RECEIVED};
use cathar_host::room;
use cathar_host::settings::{self, OfScan};
use cathar_host::shapes::Shape;
use cathar_host::whole::{needed, Repair, Start};

/// Numbers of samples at the edges of blocks and beside them, and others.
const SIZES: [usize; 20] =
    [0, 1, 2, 100, 255, 256, 257, 258, 511, 512, 513, 600, 767, 768, 769, 1_024, 1_025, 1_300, 2_048, 3_000];

/// The most samples of any other number of them.
const ANY_SIZE: u64 = 2_000;

/// How long a scan's workspace is: enough for a limit of 48 samples.
const SCAN_WORK: usize = 4_788;

/// A number of samples.
pub fn size(draw: &mut Draw) -> usize {
    match draw.below(2) {
        0 => SIZES[draw.below(SIZES.len() as u64) as usize],
        _ => draw.below(ANY_SIZE) as usize,
    }
}

/// A call that reached a state.
#[derive(Debug)]
pub struct Reached {
    pub n: usize,
    pub call: Call,
    pub number: u32,
    /// How many samples it named or took back.
    pub named: usize,
}

impl Reached {
    /// What a question that follows is asked after.
    pub fn after(&self) -> After {
        match self.call {
            Call::Open => After::Open,
            Call::OpenReceived => After::OpenReceived,
            _ if self.named == 0 => After::Nothing,
            Call::Undo => After::Undo,
            _ => After::Repair,
        }
    }

    /// Whether it is decrackle from this start, and named a sample.
    fn is_decrackle(&self, from: Start) -> bool {
        matches!(self.call, Call::Whole(Repair::Decrackle { start, .. }) if start == from) && self.named > 0
    }

    /// Whether it is a proposal that named a sample.
    fn is_by_proposal(&self) -> bool {
        matches!(self.call, Call::Proposed { .. }) && self.named > 0
    }

    /// Whether it is a list of gaps of which one was repaired.
    fn is_by_list(&self) -> bool {
        matches!(self.call, Call::Gaps { .. }) && self.named > 0
    }
}

/// What the calls have to be, all of them together.
pub const CLASSES: &[Class<Reached>] = &[
    Class { name: "on 0 samples", least: 50, holds: |r| r.n == 0 },
    Class { name: "opened", least: 300, holds: |r| r.call == Call::Open },
    Class { name: "opened as received", least: 300, holds: |r| r.call == Call::OpenReceived },
    Class { name: "naming a sample", least: 2_000, holds: |r| r.after() == After::Repair },
    Class { name: "naming 256 or more", least: 100, holds: |r| r.after() == After::Repair && r.named >= BLOCK },
    Class { name: "naming a sample by a list of gaps", least: 200, holds: Reached::is_by_list },
    Class { name: "naming a sample by decrackle", least: 20, holds: |r| r.is_decrackle(Start::Mean) },
    Class { name: "and from the old start", least: 50, holds: |r| r.is_decrackle(Start::Old) },
    Class { name: "naming a sample by a proposal", least: 100, holds: Reached::is_by_proposal },
    Class { name: "undone", least: 800, holds: |r| r.after() == After::Undo },
    Class { name: "refused", least: 100, holds: |r| r.number != 0 },
    Class { name: "accepted, naming none", least: 50, holds: |r| r.number == 0 && r.after() == After::Nothing },
];

/// Either way of opening.
pub fn opening(draw: &mut Draw) -> Call {
    [Call::Open, Call::OpenReceived][draw.below(2) as usize]
}

/// A recording of n samples that is not opened yet, with a journal for so many repairs. Its counts are any; of its marks
/// those that are 6 stand in a few runs.
pub fn recording(draw: &mut Draw, n: usize, repairs: usize) -> Recording {
    let shape = [Shape::Tone, Shape::Noise, Shape::Steps][draw.below(3) as usize];
    let mut samples = shape.samples(draw, n);
    if n > 0 && draw.below(2) == 0 {
        damage::drop_out(draw, &mut samples, 20, &damage::DROPOUTS[..damage::ZEROS]);
    }
    let mut recording = room::recording(draw, samples, entry_words(n) * repairs);
    recording.marks.iter_mut().filter(|mark| **mark == NOT_RECEIVED).for_each(|mark| *mark = 7);
    for _ in 0..draw.below(4) {
        let run = run(draw, n);
        recording.marks[run.start..run.start + run.len].fill(NOT_RECEIVED);
    }
    recording
}

/// A run of samples: mostly few, at times a block or some more, and half of the time from a block's edge on or to one.
fn run(draw: &mut Draw, n: usize) -> Gap {
    let most = if draw.below(16) == 0 { 2 * BLOCK } else { 16 };
    let len = (1 + draw.below(most as u64) as usize).min(n);
    let edge = draw.below((n / BLOCK + 1) as u64) as usize * BLOCK;
    let start = match draw.below(4) {
        0 => edge,
        1 => edge.saturating_sub(len),
        _ => draw.below(n as u64 + 1) as usize,
    };
    Gap { start: start.min(n - len), len }
}

/// Any call: mostly the repair of a gap, now and then one that names most samples, and one in four times an undo.
pub fn call(draw: &mut Draw, on: &Recording) -> Call {
    let samples = &on.samples;
    match draw.below(51) {
        0..=11 => Call::Undo,
        12 => opening(draw),
        13..=16 => Call::Scan(scan(draw, samples.len())),
        17..=20 => Call::Whole(settings::declip(draw, samples)),
        21..=22 => Call::Whole(settings::decrackle(draw, samples)),
        23..=24 => Call::Whole(settings::decrackle_old_start(draw, samples)),
        25 => Call::Whole(settings::dequantize(draw, samples)),
        26 => Call::Whole(settings::cosparse(draw, samples)),
        27..=30 => Call::Gaps { passes: 1 },
        31..=33 => Call::Proposed { threshold: settings::threshold(draw, samples) },
        _ => Call::Gap { gap: run(draw, samples.len()), passes: 1 },
    }
}

/// The settings of a scan of so many samples. Where there are many, only the usual number of equal words is held, since
/// the original takes its time for each run.
fn scan(draw: &Draw, n: usize) -> OfScan {
    if n > 2 * BLOCK {
        settings::USUAL
    } else {
        settings::any_held_run(draw, settings::USUAL)
    }
}

/// Both sides are handed what the original makes of candidates for the samples as they stand.
fn propose(draw: &mut Draw, both: &mut Both, threshold: f32) -> (Answer, Wrong) {
    let proposal = proposals::proposal(draw, &both.model.samples, threshold);
    both.declip_proposed(threshold, &proposal)
}

/// Both sides make the call.
pub fn make(draw: &mut Draw, both: &mut Both, call: Call) -> (Reached, Wrong) {
    let n = both.model.samples.len();
    let of_answer = |(answer, wrong): (Answer, Wrong)| {
        let named = if answer.number() == 0 { answer.value() } else { 0 };
        (answer.number(), named, wrong)
    };
    let of_scan = |(scan, wrong): (Scan, Wrong)| {
        let repaired = scan.runs().iter().filter(|(_, answer)| answer.number() == 0);
        (scan.number(), repaired.map(|(run, _)| run.len).sum(), wrong)
    };
    let (number, named, wrong) = match call {
        Call::Open => of_answer(both.open()),
        Call::OpenReceived => of_answer(both.open_received()),
        Call::Undo => of_answer(both.undo()),
        Call::Gap { gap, passes } => {
            let work = if gap.len == 0 { 0 } else { gap.needed(n) };
            let (told, wrong) = both.inpaint_gap(gap, passes, room::work(draw, work));
            of_answer((told.answer, wrong))
        }
        Call::Gaps { passes } => {
            let gaps: Vec<Gap> = (0..draw.below(5)).map(|_| run(draw, n)).collect();
            let needed = gaps.iter().filter(|gap| !gap.is_outside(n)).map(|gap| gap.needed(n)).max();
            let (lists, work) = (room::lists(draw, &gaps, gaps.len()), room::work(draw, needed.unwrap_or(0)));
            let (several, wrong) = both.inpaint_gaps(lists, passes, work);
            (several.number(), several.repaired().map(|gap| gap.len).sum(), wrong)
        }
        Call::Scan(settings) => {
            let orders = room::orders(&mut draw.aside(), n);
            of_scan(both.inpaint_auto(settings, room::work(draw, SCAN_WORK), orders))
        }
        Call::Whole(repair) => of_answer(both.repair(repair, room::words(draw, needed(n)))),
        Call::Proposed { threshold } => of_answer(propose(draw, both, threshold)),
    };
    (Reached { n, call, number, named }, wrong)
}
