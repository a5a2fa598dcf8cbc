//! What the calls and the sequences have to be.
use super::calls::Call;
use super::history::{History, Several, Step, Survivor};
use cathar_host::count::Class;
use cathar_host::inpaint::HELD_RUN;
use cathar_host::recording::{entry_words, NOT_RECEIVED};
use cathar_host::whole::{Repair, Start};

/// The kinds of calls.
#[derive(Clone, Copy, PartialEq, Eq, PartialOrd, Ord)]
enum Kind {
    Open,
    OpenReceived,
    Undo,
    Gap,
    Line,
    List,
    Scan,
    Declip,
    Decrackle,
    DecrackleOldStart,
    Dequantize,
    Cosparse,
    Proposed,
}

/// The kind of a call: a gap is by model or by line, and each function over the whole recording is a kind.
fn kind(call: Call) -> Kind {
    match call {
        Call::Open => Kind::Open,
        Call::OpenReceived => Kind::OpenReceived,
        Call::Undo => Kind::Undo,
        Call::Gap { gap, .. } if gap.is_line() => Kind::Line,
        Call::Gap { .. } => Kind::Gap,
        Call::Gaps { .. } => Kind::List,
        Call::Scan { .. } => Kind::Scan,
        Call::Whole { repair: Repair::Declip { .. }, .. } => Kind::Declip,
        Call::Whole { repair: Repair::Decrackle { start: Start::Mean, .. }, .. } => Kind::Decrackle,
        Call::Whole { repair: Repair::Decrackle { start: Start::Old, .. }, .. } => Kind::DecrackleOldStart,
        Call::Whole { repair: Repair::Dequantize { .. }, .. } => Kind::Dequantize,
        Call::Whole { repair: Repair::Cosparse { .. }, .. } => Kind::Cosparse,
        Call::Proposed { .. } => Kind::Proposed,
    }
}

impl Step {
    /// Whether it is a call of this kind.
    fn is(&self, of: Kind) -> bool {
        kind(self.call) == of
    }

    /// Whether it is the repair of a gap, by model or by line.
    fn is_gap(&self) -> bool {
        matches!(self.call, Call::Gap { .. })
    }

    /// Whether it is one of the four repairs over the whole recording.
    fn is_whole(&self) -> bool {
        matches!(self.call, Call::Whole { .. })
    }

    /// Whether a repair was accepted and named a sample.
    fn names(&self) -> bool {
        !self.outcome.named.is_empty()
    }

    /// Whether it did so as a call of this kind.
    fn names_by(&self, of: Kind) -> bool {
        self.names() && self.is(of)
    }

    /// The number that the model answers.
    fn number(&self) -> u32 {
        self.outcome.number
    }

    /// Whether runs or gaps of it were refused.
    fn is_refused_in_part(&self) -> bool {
        !self.outcome.refused.is_empty()
    }

    /// Whether it is a scan at another held run than the usual one.
    fn holds_other(&self) -> bool {
        matches!(self.call, Call::Scan { settings, .. } if settings.held_run != HELD_RUN as u32)
    }

    /// Whether it is a list of so many gaps.
    fn is_list(&self, so: fn(usize) -> bool) -> bool {
        matches!(self.call, Call::Gaps { spans, .. } if so(spans.gaps().len()))
    }

    /// Whether its entries take all the words that were free.
    fn fills_journal(&self) -> bool {
        self.names() && self.outcome.named.iter().map(|(_, m)| entry_words(*m)).sum::<usize>() == self.free
    }

    /// Whether an undo brought back the mark of a sample that was not received.
    fn brings_back_missing(&self) -> bool {
        self.undone.map_or(false, |survivor| survivor.over_missing)
    }

    /// Whether it is a run of a scan, or a gap of a list, that was undone.
    fn undoes(&self, of: Several) -> bool {
        self.undone.and_then(|survivor| survivor.of).map_or(false, |(several, _)| several == of)
    }

    /// Whether it is a proposal that was undone.
    fn undoes_proposal(&self) -> bool {
        self.undone.map_or(false, |survivor| kind(survivor.call) == Kind::Proposed)
    }

    /// Whether a list has a gap that was refused by this number.
    fn lists_refused(&self, number: u32) -> bool {
        self.is(Kind::List) && self.outcome.refused.contains(&number)
    }
}

/// What the calls of the sequences have to be, all of them together.
pub const CALLS: &[Class<Step>] = &[
    Class { name: "opened", least: 6_000, holds: |s| s.is(Kind::Open) },
    Class { name: "opened as received", least: 6_000, holds: |s| s.is(Kind::OpenReceived) },
    Class { name: "opened so, with samples not received", least: 2_500, holds: |s| s.call.opens() && s.missing > 0 },
    Class { name: "opened again, with survivors", least: 500, holds: |s| s.call.opens() && s.survivors > 0 },
    Class { name: "a gap by model", least: 15_000, holds: |s| s.names_by(Kind::Gap) },
    Class { name: "a gap by line", least: 20, holds: |s| s.names_by(Kind::Line) },
    Class { name: "a scan", least: 1_200, holds: |s| s.names_by(Kind::Scan) },
    Class { name: "of several runs", least: 400, holds: |s| s.is(Kind::Scan) && s.outcome.named.len() > 1 },
    Class { name: "of a held run", least: 150, holds: |s| s.outcome.held_runs > 0 },
    Class {
        name: "of runs of both kinds",
        least: 50,
        holds: |s| s.outcome.held_runs > 0 && s.outcome.named.len() > s.outcome.held_runs,
    },
    Class { name: "at a held run other than 16", least: 250, holds: |s| s.holds_other() && s.outcome.held_runs > 0 },
    Class { name: "refused in part", least: 150, holds: |s| s.names_by(Kind::Scan) && s.is_refused_in_part() },
    Class { name: "a list", least: 1_000, holds: |s| s.names_by(Kind::List) },
    Class { name: "of several gaps", least: 1_000, holds: |s| s.is(Kind::List) && s.outcome.named.len() > 1 },
    Class { name: "a list refused in part", least: 1_000, holds: |s| s.names_by(Kind::List) && s.is_refused_in_part() },
    Class { name: "a list of no gap", least: 200, holds: |s| s.is_list(|gaps| gaps == 0) && s.number() == 0 },
    Class { name: "a list of 64 gaps", least: 50, holds: |s| s.is_list(|gaps| gaps == 64) && s.number() == 0 },
    Class { name: "declip", least: 3_000, holds: |s| s.names_by(Kind::Declip) },
    Class { name: "decrackle", least: 1_000, holds: |s| s.names_by(Kind::Decrackle) },
    Class { name: "decrackle from the old start", least: 3_000, holds: |s| s.names_by(Kind::DecrackleOldStart) },
    Class { name: "dequantize", least: 4_000, holds: |s| s.names_by(Kind::Dequantize) },
    Class { name: "dequantize_cosparse", least: 3_000, holds: |s| s.names_by(Kind::Cosparse) },
    Class { name: "a proposal", least: 2_000, holds: |s| s.names_by(Kind::Proposed) },
    Class {
        name: "a proposal, naming none",
        least: 300,
        holds: |s| s.is(Kind::Proposed) && s.number() == 0 && !s.names(),
    },
    Class { name: "accepted, naming none", least: 8_000, holds: |s| s.is_whole() && s.number() == 0 && !s.names() },
    Class { name: "a gap over samples that a repair made", least: 8_000, holds: |s| s.is_gap() && s.over },
    Class { name: "a list over samples that a repair made", least: 500, holds: |s| s.is(Kind::List) && s.over },
    Class { name: "a scan over samples that a repair made", least: 150, holds: |s| s.is(Kind::Scan) && s.over },
    Class { name: "another over samples that a repair made", least: 10_000, holds: |s| s.is_whole() && s.over },
    Class {
        name: "a proposal over samples that a repair made",
        least: 1_000,
        holds: |s| s.is(Kind::Proposed) && s.over,
    },
    Class { name: "a gap over samples not received", least: 1_000, holds: |s| s.is_gap() && s.over_missing },
    Class { name: "a list over samples not received", least: 100, holds: |s| s.is(Kind::List) && s.over_missing },
    Class { name: "a scan over samples not received", least: 150, holds: |s| s.is(Kind::Scan) && s.over_missing },
    Class { name: "another over samples not received", least: 500, holds: |s| s.is_whole() && s.over_missing },
    Class {
        name: "a proposal over samples not received",
        least: 50,
        holds: |s| s.is(Kind::Proposed) && s.over_missing,
    },
    Class { name: "naming a sample, after an undo", least: 15_000, holds: |s| s.names() && s.after_undo },
    Class { name: "filling the journal", least: 250, holds: Step::fills_journal },
    Class { name: "naming one of 4,000 samples or more", least: 80, holds: |s| s.names() && s.samples >= 4_000 },
    Class { name: "on 0 samples", least: 1_500, holds: |s| s.samples == 0 },
    Class { name: "undone", least: 10_000, holds: |s| s.undone.is_some() },
    Class { name: "undone, bringing back a mark 6", least: 500, holds: Step::brings_back_missing },
    Class { name: "undone, a run of a scan", least: 400, holds: |s| s.undoes(Several::Scan) },
    Class { name: "undone, a gap of a list", least: 400, holds: |s| s.undoes(Several::List) },
    Class { name: "undone, a proposal", least: 300, holds: Step::undoes_proposal },
    Class { name: "a list answered 4", least: 300, holds: |s| s.number() == 4 && s.is(Kind::List) },
    Class { name: "of 65 gaps", least: 30, holds: |s| s.number() == 4 && s.is_list(|gaps| gaps == 65) },
    Class { name: "a scan answered 4", least: 1_000, holds: |s| s.number() == 4 && s.is(Kind::Scan) },
    Class { name: "for its held run", least: 500, holds: |s| s.number() == 4 && s.holds_other() },
    Class { name: "a repair of all samples answered 4", least: 1_000, holds: |s| s.number() == 4 && s.is_whole() },
    Class { name: "a gap answered 5", least: 2_500, holds: |s| s.number() == 5 },
    Class { name: "a gap of a list answered 5", least: 500, holds: |s| s.lists_refused(5) },
    Class { name: "a gap of a list answered 6", least: 500, holds: |s| s.lists_refused(6) },
    Class { name: "a gap of a list answered 7", least: 500, holds: |s| s.lists_refused(7) },
    Class { name: "a gap of a list answered 8", least: 4, holds: |s| s.lists_refused(8) },
    Class { name: "a gap of a list answered 9", least: 500, holds: |s| s.lists_refused(9) },
    Class { name: "a gap answered 6", least: 2_500, holds: |s| s.number() == 6 && s.is_gap() },
    Class { name: "a scan answered 6", least: 300, holds: |s| s.number() == 6 && s.is(Kind::Scan) },
    Class { name: "a repair of all samples answered 6", least: 4_500, holds: |s| s.number() == 6 && s.is_whole() },
    Class { name: "a gap answered 7", least: 2_500, holds: |s| s.number() == 7 && s.is_gap() },
    Class { name: "a scan answered 7", least: 900, holds: |s| s.number() == 7 && s.is(Kind::Scan) },
    Class { name: "a repair of all samples answered 7", least: 6_000, holds: |s| s.number() == 7 && s.is_whole() },
    Class { name: "a gap answered 8", least: 15, holds: |s| s.number() == 8 && s.is_gap() },
    Class { name: "a scan answered 8", least: 4, holds: |s| s.number() == 8 && s.is(Kind::Scan) },
    Class { name: "a repair of all samples answered 8", least: 700, holds: |s| s.number() == 8 && s.is_whole() },
    Class { name: "a gap answered 9", least: 3_000, holds: |s| s.number() == 9 && s.is_gap() },
    Class { name: "a scan answered 9", least: 400, holds: |s| s.number() == 9 && s.is(Kind::Scan) },
    Class { name: "a repair of all samples answered 9", least: 5_000, holds: |s| s.number() == 9 && s.is_whole() },
    Class { name: "a proposal answered 4", least: 100, holds: |s| s.number() == 4 && s.is(Kind::Proposed) },
    Class { name: "a proposal answered 7", least: 500, holds: |s| s.number() == 7 && s.is(Kind::Proposed) },
    Class { name: "a proposal answered 15", least: 500, holds: |s| s.number() == 15 },
    Class { name: "a proposal answered 9", least: 300, holds: |s| s.number() == 9 && s.is(Kind::Proposed) },
    Class { name: "an undo answered 10", least: 7_000, holds: |s| s.number() == 10 },
];

/// What the repairs that are replayed have to be, beside the opening of each fresh copy.
pub const REPLAYED: &[Class<Step>] = &[
    Class { name: "over samples not received", least: 1_000, holds: |s| s.over_missing },
    Class { name: "gaps by model", least: 10_000, holds: |s| s.names_by(Kind::Gap) },
    Class { name: "gaps by line", least: 15, holds: |s| s.names_by(Kind::Line) },
    Class { name: "declip", least: 1_800, holds: |s| s.names_by(Kind::Declip) },
    Class { name: "decrackle", least: 500, holds: |s| s.names_by(Kind::Decrackle) },
    Class { name: "decrackle from the old start", least: 1_800, holds: |s| s.names_by(Kind::DecrackleOldStart) },
    Class { name: "dequantize", least: 2_000, holds: |s| s.names_by(Kind::Dequantize) },
    Class { name: "dequantize_cosparse", least: 1_800, holds: |s| s.names_by(Kind::Cosparse) },
    Class { name: "proposals", least: 1_000, holds: |s| s.names_by(Kind::Proposed) },
    Class { name: "proposals over earlier ones", least: 500, holds: |s| s.names_by(Kind::Proposed) && s.over },
];

/// What the undos at the end have to be: one for each survivor, and one more in each sequence.
pub const UNDONE: &[Class<Step>] = &[
    Class { name: "undone", least: 15_000, holds: |s| s.undone.is_some() },
    Class { name: "a proposal", least: 1_000, holds: Step::undoes_proposal },
    Class { name: "bringing back a mark 6", least: 1_000, holds: Step::brings_back_missing },
    Class { name: "answered 10", least: 10_000, holds: |s| s.number() == 10 },
];

/// A sequence when its calls have been made.
#[derive(Debug)]
pub struct Ended {
    pub samples: usize,
    pub calls: usize,
    /// Whether it was last opened as received, how many samples were then marked 6, and how many still are.
    pub received: bool,
    pub missing: usize,
    pub still_missing: usize,
    pub survivors: Vec<Survivor>,
    /// How many repairs were undone since it was last opened, and how often it was opened.
    pub undone: usize,
    pub opened: usize,
    /// Whether of a scan that repaired several runs some survive and some do not, and whether of the gaps of a list.
    pub scan_partly: bool,
    pub list_partly: bool,
}

impl Ended {
    /// This recording after so many calls.
    pub fn new(history: &History, calls: usize) -> Ended {
        let survivors = history.survivors.clone();
        let survive = |of| survivors.iter().filter(|survivor| survivor.of == Some(of)).count();
        let partly = |of: Several| {
            let mut calls = history.several.iter().enumerate().filter(|(_, (several, _))| *several == of);
            calls.any(|(place, (_, made))| (1..*made).contains(&survive((of, place))))
        };
        let [scan_partly, list_partly] = [Several::Scan, Several::List].map(partly);
        let samples = history.both.model.samples.len();
        let of_6 = |marks: &[u8]| marks.iter().filter(|mark| **mark == NOT_RECEIVED).count();
        let (missing, still_missing) = (of_6(&history.raw_marks), of_6(&history.both.model.marks));
        let (received, undone, opened) = (history.opening == Call::OpenReceived, history.undone, history.opened);
        Ended { samples, calls, received, missing, still_missing, survivors, undone, opened, scan_partly, list_partly }
    }

    /// How many kinds of repairs there are among the survivors.
    fn kinds(&self) -> usize {
        let mut kinds: Vec<Kind> = self.survivors.iter().map(|survivor| kind(survivor.call)).collect();
        kinds.sort_unstable();
        kinds.dedup();
        kinds.len()
    }
}

/// What the sequences have to be, all of them together.
pub const SEQUENCES: &[Class<Ended>] = &[
    Class { name: "sequences", least: 12_000, holds: |_| true },
    Class { name: "opened as measured", least: 5_000, holds: |e| !e.received },
    Class { name: "opened as received", least: 5_000, holds: |e| e.received },
    Class { name: "with samples not received", least: 2_500, holds: |e| e.missing > 0 },
    Class { name: "of which some are repaired", least: 1_200, holds: |e| e.still_missing < e.missing },
    Class { name: "of which some are not", least: 1_200, holds: |e| e.still_missing > 0 },
    Class { name: "on 0 samples", least: 80, holds: |e| e.samples == 0 },
    Class { name: "on 1 to 7 samples", least: 600, holds: |e| (1..8).contains(&e.samples) },
    Class { name: "on 4,000 samples or more", least: 30, holds: |e| e.samples >= 4_000 },
    Class { name: "of 20 calls or more", least: 2_000, holds: |e| e.calls >= 20 },
    Class { name: "without a survivor", least: 1_000, holds: |e| e.survivors.is_empty() },
    Class { name: "5 survivors or more", least: 1_500, holds: |e| e.survivors.len() >= 5 },
    Class { name: "10 survivors or more", least: 400, holds: |e| e.survivors.len() >= 10 },
    Class { name: "survivors of 4 kinds or more", least: 600, holds: |e| e.kinds() >= 4 },
    Class { name: "a survivor over an earlier one", least: 2_500, holds: |e| e.survivors.iter().any(|s| s.over) },
    Class { name: "with survivors, and with undone", least: 2_500, holds: |e| e.undone > 0 && !e.survivors.is_empty() },
    Class { name: "a scan of several runs, undone in part", least: 100, holds: |e| e.scan_partly },
    Class { name: "a list of several gaps, undone in part", least: 100, holds: |e| e.list_partly },
    Class { name: "opened again", least: 800, holds: |e| e.opened > 1 },
];
