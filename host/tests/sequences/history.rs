//! A recording with what has been done to it since it was opened: the raw words and marks, and the repairs that survive.
use super::calls::{Call, Outcome};
use super::slips;
use cathar_host::both::{Both, Wrong};
use cathar_host::draw::Draw;
use cathar_host::recording::{entry_words, is_made, Recording, NOT_RECEIVED};

/// What has no place in a sequence of calls that begins with opening: marks or counts that are too few or too many, more
/// than the most samples, used past the journal, and a malformed entry.
const NEVER: [u32; 5] = [1, 14, 2, 3, 11];

/// A call that is several repairs.
#[derive(Clone, Copy, Debug, PartialEq, Eq)]
pub enum Several {
    Scan,
    List,
}

impl Several {
    /// Which of them a call is, if it is one.
    fn of(call: Call) -> Option<Several> {
        match call {
            Call::Scan { .. } => Some(Several::Scan),
            Call::Gaps { .. } => Some(Several::List),
            _ => None,
        }
    }
}

/// A repair that was accepted, named a sample and is not undone.
#[derive(Clone, Copy, Debug)]
pub struct Survivor {
    pub call: Call,
    pub m: usize,
    /// Which scan or list it is of, by the number of both before that one, if it is of one.
    pub of: Option<(Several, usize)>,
    /// Whether it named a sample that an earlier survivor had made, and whether one that was not received.
    pub over: bool,
    pub over_missing: bool,
}

/// One call of a sequence, on the recording as it was before.
#[derive(Debug)]
pub struct Step {
    pub call: Call,
    pub outcome: Outcome,
    /// How many samples there are, how many words of the journal were free, and how many repairs survived.
    pub samples: usize,
    pub free: usize,
    pub survivors: usize,
    /// The repair that an undo took back.
    pub undone: Option<Survivor>,
    /// Whether a named sample had been made by an earlier repair, and whether one was not received.
    pub over: bool,
    pub over_missing: bool,
    /// How many of the samples were not received, by their raw marks, and whether something had been undone before.
    pub missing: usize,
    pub after_undo: bool,
}

/// A recording on both sides, and what has been done to it.
pub struct History {
    pub both: Both,
    /// The samples as they were when the recording was last opened, and which way that was.
    raw: Vec<u32>,
    pub opening: Call,
    /// The marks as they have to be then: 0, or 6 where the samples were not received.
    pub raw_marks: Vec<u8>,
    /// The repairs that survive, the oldest first.
    pub survivors: Vec<Survivor>,
    /// How many repairs each scan and each list made, and how many repairs were undone, since then.
    pub several: Vec<(Several, usize)>,
    pub undone: usize,
    /// How often it was opened.
    pub opened: usize,
}

impl History {
    /// A recording that is yet to be opened.
    pub fn new(recording: Recording) -> History {
        let (raw, raw_marks) = (recording.samples.clone(), vec![0; recording.samples.len()]);
        let (both, opening) = (Both::new(recording), Call::Open);
        let (survivors, several) = (Vec::new(), Vec::new());
        History { both, raw, opening, raw_marks, survivors, several, undone: 0, opened: 0 }
    }

    /// Both sides make the call, and what must hold after each is looked at.
    pub fn make(&mut self, draw: &mut Draw, call: Call) -> (Step, Wrong) {
        let before = self.both.model.clone();
        let (survivors, after_undo) = (self.survivors.len(), self.undone > 0);
        let (outcome, mut wrong) = call.make(draw, &mut self.both);
        let undone = if call == Call::Undo { self.take_back(&outcome, &mut wrong) } else { None };
        if call.opens() {
            self.begin_anew(&before, call);
        }
        let [over, over_missing] = self.survive(&before, call, &outcome);
        wrong.extend(self.wrongly_marked(&before, &outcome));
        slips::slip(self, call, &outcome, undone);
        wrong.extend(self.broken(&before, call, &outcome));
        let (samples, free) = (before.samples.len(), before.journal.len().saturating_sub(before.used));
        let missing = self.raw_marks.iter().filter(|mark| **mark == NOT_RECEIVED).count();
        (Step { call, outcome, samples, free, survivors, undone, over, over_missing, missing, after_undo }, wrong)
    }

    /// What is raw is what there was before the recording was opened in this way: of the marks only 6, and by the one
    /// opening alone.
    fn begin_anew(&mut self, before: &Recording, opening: Call) {
        self.raw = before.samples.clone();
        self.opening = opening;
        let kept = |mark: &u8| opening == Call::OpenReceived && *mark == NOT_RECEIVED;
        self.raw_marks = before.marks.iter().map(|mark| if kept(mark) { NOT_RECEIVED } else { 0 }).collect();
        self.survivors.clear();
        self.several.clear();
        self.undone = 0;
        self.opened += 1;
    }

    /// An accepted undo takes back the last survivor, and one is accepted exactly where there is one.
    fn take_back(&mut self, outcome: &Outcome, wrong: &mut Wrong) -> Option<Survivor> {
        let last = self.survivors.pop();
        if outcome.number != if last.is_some() { 0 } else { 10 } {
            wrong.push("whether there is something to undo");
        }
        if outcome.undone != last.map_or(0, |survivor| survivor.m) {
            wrong.push("how many samples the undone repair named");
        }
        self.undone += usize::from(last.is_some());
        last
    }

    /// The repairs that a call has made join the survivors. Whether one is over a sample that an earlier survivor
    /// had made, and whether one is over a sample that was not received: its entry then has such an old mark.
    fn survive(&mut self, before: &Recording, call: Call, outcome: &Outcome) -> [bool; 2] {
        let mut start = before.used;
        let of = Several::of(call).map(|several| (several, self.several.len()));
        for (call, m) in outcome.named.iter().copied() {
            let named = &self.both.model.journal[start..start + 3 * m];
            let over = named.chunks(3).any(|sample| is_made(sample[2] as u8));
            let over_missing = named.chunks(3).any(|sample| sample[2] == NOT_RECEIVED.into());
            self.survivors.push(Survivor { call, m, of, over, over_missing });
            start += entry_words(m);
        }
        self.several.extend(of.map(|(several, _)| (several, outcome.named.len())));
        let joined = &self.survivors[self.survivors.len() - outcome.named.len()..];
        [joined.iter().any(|survivor| survivor.over), joined.iter().any(|survivor| survivor.over_missing)]
    }

    /// The repairs that a call has made have to set the mark that the documents' table gives them: each in its entry,
    /// and the last of them in its samples.
    fn wrongly_marked(&self, before: &Recording, outcome: &Outcome) -> Wrong {
        let (mut start, mut entered, mut marked) = (before.used, true, true);
        let Recording { marks, journal, .. } = &self.both.model;
        for (call, m) in outcome.named.iter().copied() {
            let mark = call.mark();
            entered &= journal[start + entry_words(m) - 1] == mark.into();
            let last = outcome.named.last() == Some(&(call, m));
            marked &= !last || journal[start..start + 3 * m].chunks(3).all(|named| marks[named[0] as usize] == mark);
            start += entry_words(m);
        }
        let wrong = [("the mark that an entry has", !entered), ("the marks of the named samples", !marked)];
        wrong.into_iter().filter(|(_, wrong)| *wrong).map(|(name, _)| name).collect()
    }

    /// Whether all samples of this mark, 0 or 6, have their raw word, and had this mark when the recording was opened.
    fn is_raw(&self, mark: u8) -> bool {
        let model = &self.both.model;
        let mut marked = (0..self.raw.len()).filter(|place| model.marks[*place] == mark);
        marked.all(|place| model.samples[place] == self.raw[place] && self.raw_marks[place] == mark)
    }

    /// What is wrong whatever the model says: a sample that is marked as measured or as not received, and has not its
    /// raw word or was not so marked at first, counts that are not those of the marks, a used that is not what the entries
    /// of the survivors take, a change by a call that names no sample and takes nothing back, and an answer that no
    /// sequence gives.
    fn broken(&self, before: &Recording, call: Call, outcome: &Outcome) -> Wrong {
        let model = &self.both.model;
        let entries: usize = self.survivors.iter().map(|survivor| entry_words(survivor.m)).sum();
        let changes = match call {
            _ if call.opens() => true,
            Call::Undo => outcome.number == 0,
            _ => !outcome.named.is_empty(),
        };
        let wrong = [
            ("a measured sample from what it was at first", !self.is_raw(0)),
            ("one that was not received from what it was at first", !self.is_raw(NOT_RECEIVED)),
            ("the counts from those of the marks", model.has_wrong_count()),
            ("used from what the survivors take", model.used != entries),
            ("the recording from what it was", !changes && model != before),
            ("an answer that no sequence gives", outcome.numbers().any(|number| NEVER.contains(&number))),
        ];
        wrong.into_iter().filter(|(_, wrong)| *wrong).map(|(name, _)| name).collect()
    }

    /// The raw recording, opened, with a journal as long: raw marks and their counts, all journal words 0, used 0.
    pub fn raw(&self) -> Recording {
        let journal = vec![0; self.both.model.journal.len()];
        Recording::new(self.raw.clone(), self.raw_marks.clone(), journal, 0)
    }

    /// What of this recording is not the same as the other, on either side.
    pub fn differing(&self, other: &History) -> Wrong {
        let mut wrong = self.both.wrong_recording(&other.both.model);
        wrong.extend(other.both.wrong_recording(&self.both.model));
        if self.both.model != other.both.model {
            wrong.push("the model's recording");
        }
        wrong
    }
}
