//! A call of the library on a recording, and what comes of it on both sides.
use cathar_host::both::{Both, Wrong};
use cathar_host::draw::Draw;
use cathar_host::inpaint::{Gap, GapAnswer, Scan, MOST_GAPS, SCAN_PASSES};
use cathar_host::recording::Answer;
use cathar_host::room;
use cathar_host::settings::OfScan;
use cathar_host::whole::{needed, Repair, Start};
use std::fmt;

/// How many words of a proposal are written out.
const SHOWN: usize = 16;

/// The gaps of a list, in their order: one more than may be is the most.
#[derive(Clone, Copy, PartialEq)]
pub struct Spans {
    gaps: [Gap; MOST_GAPS + 1],
    count: usize,
}

impl Spans {
    /// These gaps.
    pub fn new(of: &[Gap]) -> Spans {
        let mut gaps = [Gap { start: 0, len: 0 }; MOST_GAPS + 1];
        gaps[..of.len()].copy_from_slice(of);
        Spans { gaps, count: of.len() }
    }

    pub fn gaps(&self) -> &[Gap] {
        &self.gaps[..self.count]
    }
}

impl fmt::Debug for Spans {
    fn fmt(&self, formatter: &mut fmt::Formatter) -> fmt::Result {
        self.gaps().fmt(formatter)
    }
}

/// The words of a proposal. They are kept to the end of the test, so that a call can be copied as it is.
#[derive(Clone, Copy, PartialEq)]
pub struct Proposal(&'static [u32]);

impl Proposal {
    /// These words.
    pub fn new(words: Vec<u32>) -> Proposal {
        Proposal(Box::leak(words.into_boxed_slice()))
    }

    pub fn words(self) -> &'static [u32] {
        self.0
    }
}

impl fmt::Debug for Proposal {
    fn fmt(&self, formatter: &mut fmt::Formatter) -> fmt::Result {
        write!(formatter, "{} words", self.0.len())?;
        self.0.iter().take(SHOWN).try_for_each(|word| write!(formatter, " {word:08x}"))
    }
}

/// Any call but those of the float leaves, which have no recording. `work` is how long the workspace is, and `answers`
/// how many places the lists for the answers have. A proposal is a part of its call.
// A call is copied as it is, with the gaps of a list in it.
#[allow(clippy::large_enum_variant)]
#[derive(Clone, Copy, Debug, PartialEq)]
pub enum Call {
    Open,
    OpenReceived,
    Undo,
    Gap { gap: Gap, passes: u32, work: usize },
    Gaps { spans: Spans, answers: usize, passes: u32, work: usize },
    Scan { settings: OfScan, work: usize },
    Whole { repair: Repair, work: usize },
    Proposed { threshold: f32, proposal: Proposal },
}

/// A call that is a single repair, with just enough workspace, and how many samples it named: at least one.
pub type Named = (Call, usize);

/// What the model answers to a call.
#[derive(Debug)]
pub struct Outcome {
    /// 0, or the number of the refusal; of a scan, that of the first run that was refused.
    pub number: u32,
    /// What an undo took back, m; 0 for all else.
    pub undone: usize,
    /// The single repairs that were accepted and named a sample, in their order. Of a scan or a list those of its runs
    /// or gaps.
    pub named: Vec<Named>,
    /// The numbers of those runs or gaps that were refused, and how many runs that were repaired are of held words.
    pub refused: Vec<u32>,
    pub held_runs: usize,
}

impl Outcome {
    /// All numbers that are answered, by the call and by its runs or gaps.
    pub fn numbers(&self) -> impl Iterator<Item = u32> + '_ {
        self.refused.iter().copied().chain([self.number])
    }
}

impl Call {
    /// Whether it is one of the two openings.
    pub fn opens(self) -> bool {
        matches!(self, Call::Open | Call::OpenReceived)
    }

    /// The mark that a single repair sets, by the documents' table: "1 gap by model, 2 gap by straight line, 3 cubic
    /// declip, 4 decrackle, 5 dequantize (either form)", 7 decrackle from the mean, and 8 declip by a proposal.
    pub fn mark(self) -> u8 {
        match self {
            Call::Gap { gap, .. } if gap.is_line() => 2,
            Call::Gap { .. } => 1,
            Call::Whole { repair: Repair::Declip { .. }, .. } => 3,
            Call::Whole { repair: Repair::Decrackle { start: Start::Old, .. }, .. } => 4,
            Call::Whole { repair: Repair::Dequantize { .. } | Repair::Cosparse { .. }, .. } => 5,
            Call::Whole { repair: Repair::Decrackle { start: Start::Mean, .. }, .. } => 7,
            Call::Proposed { .. } => 8,
            _ => panic!("no single repair: {self:?}"),
        }
    }

    /// Both sides make the call, in a workspace of any words and with any words in the lists that it writes. The
    /// outcome is the model's.
    pub fn make(self, draw: &mut Draw, both: &mut Both) -> (Outcome, Wrong) {
        let n = both.model.samples.len();
        match self {
            Call::Open | Call::OpenReceived => {
                let (answer, wrong) = if self == Call::Open { both.open() } else { both.open_received() };
                (of_answer(answer), wrong)
            }
            Call::Undo => {
                let (answer, wrong) = both.undo();
                (Outcome { undone: answer.value(), ..of_answer(answer) }, wrong)
            }
            Call::Gap { gap, passes, work } => {
                let (told, wrong) = both.inpaint_gap(gap, passes, room::work(draw, work));
                (of_repair(told.answer, || of_gap(gap, passes, n)), wrong)
            }
            Call::Gaps { spans, answers, passes, work } => {
                let lists = room::lists(&mut draw.aside(), spans.gaps(), answers);
                let (several, wrong) = both.inpaint_gaps(lists, passes, room::work(draw, work));
                (of_several(several.number(), several.gaps(), passes, n), wrong)
            }
            Call::Scan { settings, work } => {
                let before = both.model.samples.clone();
                let orders = room::orders(&mut draw.aside(), n);
                let (scan, wrong) = both.inpaint_auto(settings, room::work(draw, work), orders);
                (of_runs(&scan, &before), wrong)
            }
            Call::Whole { repair, work } => {
                let (answer, wrong) = both.repair(repair, room::words(draw, work));
                (of_repair(answer, || Call::Whole { repair, work: needed(n) }), wrong)
            }
            Call::Proposed { threshold, proposal } => {
                let (answer, wrong) = both.declip_proposed(threshold, proposal.words());
                (of_repair(answer, || self), wrong)
            }
        }
    }
}

/// The repair of a gap within n samples, with just enough workspace.
fn of_gap(gap: Gap, passes: u32, n: usize) -> Call {
    Call::Gap { gap, passes, work: gap.needed(n) }
}

/// The outcome of a call that names no sample.
fn of_answer(answer: Answer) -> Outcome {
    Outcome { number: answer.number(), undone: 0, named: Vec::new(), refused: Vec::new(), held_runs: 0 }
}

/// The outcome of a single repair, which is this one with just enough workspace.
fn of_repair(answer: Answer, exact: impl FnOnce() -> Call) -> Outcome {
    match answer {
        Answer::Accepted(m) if m > 0 => Outcome { named: vec![(exact(), m)], ..of_answer(answer) },
        _ => of_answer(answer),
    }
}

/// The outcome of a call that answers with this number and repairs several gaps among n samples, each with its answer.
fn of_several(number: u32, gaps: &[(Gap, GapAnswer)], passes: u32, n: usize) -> Outcome {
    let accepted = gaps.iter().filter(|(_, answer)| answer.number() == 0);
    let named = accepted.map(|(gap, answer)| (of_gap(*gap, passes, n), answer.value())).collect();
    let refused = gaps.iter().map(|(_, answer)| answer.number()).filter(|number| *number != 0).collect();
    Outcome { number, undone: 0, named, refused, held_runs: 0 }
}

/// The outcome of a scan of these samples: "each run is one gap repair with its own answer".
fn of_runs(scan: &Scan, before: &[u32]) -> Outcome {
    let held = scan.runs().iter().filter(|(run, answer)| answer.number() == 0 && run.is_held(before));
    Outcome { held_runs: held.count(), ..of_several(scan.number(), scan.runs(), SCAN_PASSES, before.len()) }
}
