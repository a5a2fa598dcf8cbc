//! A recording on both sides: the model's, and the same words lent to the library. The two make each call, and
//! what is then not the same is told.
use crate::call::Call;
use crate::crackle::{self, Areas};
use crate::frames::{Read, Rooms};
use crate::inpaint::{self, Gap, GapAnswer, Lists, Scan, Several};
use crate::lent::crackle::Crackle;
use crate::lent::frames::Frames;
use crate::lent::stored::Stored;
use crate::lent::wav::Wav;
use crate::lent::{Lent, VALUE_BEFORE};
use crate::proposed;
use crate::question::{Span, Told};
use crate::recording::{Answer, Recording};
use crate::settings::OfScan;
use crate::stored;
use crate::wav;
use crate::whole::{self, Repair};
use crate::wrong;

/// What the library does not have as the model has it: parts of the lent memory, or the answer.
pub type Wrong = Vec<&'static str>;

pub struct Both {
    pub model: Recording,
    lent: Lent,
}

impl Both {
    /// The library is lent the model's words.
    pub fn new(model: Recording) -> Both {
        let lent = Lent::new(&model);
        Both { model, lent }
    }

    /// Both sides open the recording. No value is handed back.
    pub fn open(&mut self) -> (Answer, Wrong) {
        self.opened_by(Call::Open, Recording::open)
    }

    /// Both sides open the recording, and keep which samples were not received. No value is handed back.
    pub fn open_received(&mut self) -> (Answer, Wrong) {
        self.opened_by(Call::OpenReceived, Recording::open_received)
    }

    /// What both openings compare.
    fn opened_by(&mut self, call: Call, opens: fn(&mut Recording) -> Answer) -> (Answer, Wrong) {
        let answer = self.by_model(call, opens);
        let number = self.lent.make(call);
        let wrong = self.lent.wrong(&self.model, VALUE_BEFORE);
        (answer, with_answer(wrong, number, answer.number()))
    }

    /// Both sides take back the last entry.
    pub fn undo(&mut self) -> (Answer, Wrong) {
        let answer = self.by_model(Call::Undo, Recording::undo);
        let number = self.lent.make(Call::Undo);
        let wrong = self.lent.wrong(&self.model, answer.value());
        (answer, with_answer(wrong, number, answer.number()))
    }

    /// Both sides repair the gap in a workspace of these patterns.
    pub fn inpaint_gap(&mut self, gap: Gap, passes: u32, mut work: Vec<u64>) -> (GapAnswer, Wrong) {
        self.lent.lend_doubles(&work);
        let call = Call::Gap { gap, passes };
        let answer = self.by_model(call, |model| inpaint::inpaint_gap(model, gap, passes, &mut work));
        let number = self.lent.make(call);
        let wrong = with_answer(self.lent.wrong(&self.model, answer.value()), number, answer.number());
        let wrong = with_part(wrong, "workspace", self.lent.holds_doubles(&work));
        (answer, with_part(wrong, "order", self.lent.holds_order(answer.order())))
    }

    /// Both sides repair the gaps of these lists in a workspace of these patterns.
    pub fn inpaint_gaps(&mut self, mut lists: Lists, passes: u32, mut work: Vec<u64>) -> (Several, Wrong) {
        self.lent.lend_doubles(&work);
        self.lent.lend_gaps(&lists);
        let call = Call::Gaps { passes };
        let several = self.by_model(call, |model| inpaint::inpaint_gaps(model, &mut lists, passes, &mut work));
        let number = self.lent.make(call);
        let mut wrong = with_answer(self.lent.wrong_recording(&self.model), number, several.number());
        wrong.extend(self.lent.wrong_lists(&lists));
        (several, with_part(wrong, "workspace", self.lent.holds_doubles(&work)))
    }

    /// What the library makes of these lists by single calls in turn, on a copy of the recording and in a workspace of
    /// these patterns.
    pub fn singly(&self, lists: &Lists, passes: u32, work: &[u64]) -> Lent {
        let mut lent = Lent::new(&self.model);
        lent.lend_doubles(work);
        lent.lend_gaps(lists);
        lent.make_singly(passes);
        lent
    }

    /// The parts that the library has left otherwise than single calls have.
    pub fn not_as_singly(&self, singly: &Lent) -> Wrong {
        self.lent.not_as_singly(singly)
    }

    /// Both sides scan in a workspace of these patterns, with a list of these words for the orders.
    pub fn inpaint_auto(&mut self, settings: OfScan, mut work: Vec<u64>, mut orders: Vec<u32>) -> (Scan, Wrong) {
        self.lent.lend_doubles(&work);
        self.lent.lend_orders(&orders);
        let call = Call::Scan(settings);
        let scan = self.by_model(call, |model| inpaint::inpaint_auto(model, settings, &mut work, &mut orders));
        let number = self.lent.make(call);
        let wrong = self.lent.wrong_after_scan(&self.model, [scan.qualified(), scan.repaired()]);
        let wrong = with_part(with_answer(wrong, number, scan.number()), "workspace", self.lent.holds_doubles(&work));
        (scan, with_part(wrong, "orders", self.lent.holds_orders(&orders)))
    }

    /// Both sides make a repair over the whole recording in a workspace of these words.
    pub fn repair(&mut self, repair: Repair, mut work: Vec<u32>) -> (Answer, Wrong) {
        self.lent.lend_words(&work);
        let call = Call::Whole(repair);
        let answer = self.by_model(call, |model| whole::repair(model, repair, &mut work));
        let number = self.lent.make(call);
        let wrong = with_answer(self.lent.wrong(&self.model, answer.value()), number, answer.number());
        (answer, with_part(wrong, "workspace", self.lent.holds_words(&work)))
    }

    /// Both sides are lent this proposal for the samples at or beyond the threshold. It has to stay as it is.
    pub fn declip_proposed(&mut self, threshold: f32, proposal: &[u32]) -> (Answer, Wrong) {
        self.lent.lend_proposal(proposal);
        let call = Call::Proposed { threshold };
        let answer = self.by_model(call, |model| proposed::declip_proposed(model, threshold, proposal));
        let number = self.lent.make(call);
        let wrong = with_answer(self.lent.wrong(&self.model, answer.value()), number, answer.number());
        (answer, with_part(wrong, "proposal", self.lent.holds_proposal(proposal)))
    }

    /// Both sides are asked of a span.
    pub fn ask(&mut self, span: Span) -> (Told, Wrong) {
        let told = wrong::model_asked(&self.model.marks, &self.model.counts, span);
        let number = self.lent.ask(span);
        (told, with_answer(self.lent.wrong_after_question(&self.model, told), number, told.number))
    }

    /// The model makes the call, or what stands in for it does.
    fn by_model<A>(&mut self, call: Call, make: impl FnOnce(&mut Recording) -> A) -> A {
        wrong::model(&mut self.model, call, make)
    }

    /// The parts of the library's recording that are not what this one has.
    pub fn wrong_recording(&self, recording: &Recording) -> Wrong {
        self.lent.wrong_recording(recording)
    }
}

/// Both sides read the frames: the model into these rooms, and the library into the same that it is lent.
pub fn read_frames(input: &[u8], rooms: &mut Rooms, lent: &mut Frames) -> (Read, Wrong) {
    let read = wrong::model_reader(input, rooms);
    let number = lent.read();
    (read, with_answer(lent.wrong(input, rooms, read), number, read.number))
}

/// Both sides make a call on a stored block: the model on these areas, and the library on the same that it is lent. What
/// the model answers and leaves, what the library leaves, and what is not the same.
pub fn keep(before: &stored::Areas, call: stored::Call) -> (u32, [stored::Areas; 2], Wrong) {
    let (mut after, mut lent) = (before.clone(), Stored::new(before));
    let number = wrong::model_keeper(&mut after, call);
    let library = lent.make(call);
    let wrong = with_answer(lent.wrong(&after), library, number);
    (number, [after, lent.areas()], wrong)
}

/// Both sides read or write a WAV file: the model on these areas, and the library on the same that it is lent. What the
/// model answers and leaves, what the library was lent, and what is not the same.
pub fn wave(before: &wav::Areas, call: wav::Call) -> (wav::Answer, wav::Areas, Wav, Wrong) {
    let (mut after, mut lent) = (before.clone(), Wav::new(before));
    let answer = wrong::model_wave(&mut after, call);
    let number = lent.make(call);
    let wrong = with_answer(lent.wrong(call, &after, answer), number, answer.number);
    (answer, after, lent, wrong)
}

/// The crackle detector on both sides: the model's areas, and the same lent to the library.
pub struct Detector {
    pub model: Areas,
    pub lent: Crackle,
}

impl Detector {
    /// The library is lent a state of these words.
    pub fn new(state: Vec<u32>) -> Detector {
        let model = Areas { state, ..Areas::default() };
        let lent = Crackle::new(&model);
        Detector { model, lent }
    }

    /// From here on both sides are lent this piece, and room of these bytes.
    pub fn lend(&mut self, piece: &[u32], flags: Vec<u8>) {
        self.lent.lend(piece, &flags);
        self.model.piece = piece.to_vec();
        self.model.flags = flags;
    }

    /// Both sides make the call. An announcement hands no value back.
    pub fn make(&mut self, call: crackle::Call) -> (Answer, Wrong) {
        let answer = wrong::model_detector(&mut self.model, call);
        let number = self.lent.make(call);
        let value = match call {
            crackle::Call::Begin { .. } => VALUE_BEFORE,
            _ => answer.value(),
        };
        (answer, with_answer(self.lent.wrong(&self.model, value), number, answer.number()))
    }
}

/// The answer is among what is wrong where the numbers differ.
fn with_answer(mut wrong: Wrong, library: u32, model: u32) -> Wrong {
    if library != model {
        wrong.push("answer");
    }
    wrong
}

/// A part of what is lent beside the recording is, where it is not as the model leaves it.
fn with_part(mut wrong: Wrong, name: &'static str, right: bool) -> Wrong {
    if !right {
        wrong.push(name);
    }
    wrong
}
