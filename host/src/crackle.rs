//! Crackle detection as the sound arrives, as requests P4 and P7 of document 02 have it, in the words of a state. Which
//! word holds what, and what becomes of a NaN there, are the library's own (`crates/crackle/src/kept.rt`); all else is
//! written from the requests' text, and to be seen right rather than to be fast, so that the library can be held to it.
//! What the flags have to be in all is not worked out here: that is document 01's on the whole recording (`whole.rs`),
//! and what the original Rust rewrites.
use crate::float::word32;
use crate::recording::{first_of, in_range, Answer, MOST_SAMPLES};
use crate::whole::{opening_floor, Start, MEAN_OVER};

/// How many words of a state are those of its run, and how many a state has: behind them comes a detector's value for
/// each place whose flag is held back.
pub const RUN_WORDS: usize = 8;
pub const STATE_WORDS: usize = RUN_WORDS + MEAN_OVER;

/// "A total under 8 leaves every flag unset."
pub const FEWEST: u32 = 8;

/// A call, without the memory that is lent to it.
#[derive(Clone, Copy, Debug, PartialEq)]
pub enum Call {
    /// "Announce the total"; "the piecewise form must be told which" start.
    Begin { total: usize, sensitivity: f32, start: Start },
    /// "Consecutive pieces of any length, zero length too."
    Piece,
    /// "The last at the end."
    End,
}

/// What is lent to a call: the state, the samples of a piece, and the room for its flags. An announcement is lent the
/// state alone, and an end has no piece.
#[derive(Clone, Debug, Default, PartialEq, Eq)]
pub struct Areas {
    pub state: Vec<u32>,
    pub piece: Vec<u32>,
    pub flags: Vec<u8>,
}

/// A run as the first words of its state have it. "The detector keeps the running floor and the last two samples,
/// carried from piece to piece."
#[derive(Clone, Copy, Debug)]
pub struct Run {
    /// How many samples were announced, and how many are in.
    pub total: u32,
    pub taken: u32,
    pub goes_on: bool,
    pub factor: f32,
    pub floor: f32,
    /// The sample before the last, and the last.
    pub before: f32,
    pub last: f32,
    pub start: Start,
}

/// The float of a word, one and the same for every NaN.
fn float(word: u32) -> f32 {
    match f32::from_bits(word) {
        x if x.is_nan() => f32::NAN,
        x => x,
    }
}

/// The word of a float, 7FC00000 for a NaN.
pub(crate) fn word(x: f32) -> u32 {
    word32(x) as u32
}

/// How many flags are given when so many samples are in. "Flags come one sample late"; "for the new start it holds back
/// flags until 1,024 detector values or the end are in, so P4's one-sample delay then starts there": with t samples t-1
/// values are in.
pub fn given(start: Start, samples: usize) -> usize {
    match start {
        Start::Mean if samples <= MEAN_OVER => 0,
        _ => samples.saturating_sub(1),
    }
}

impl Run {
    /// The run of these words, of which there are eight at least. Any word but 1 says that it does not go on, or that
    /// its start is the old one.
    pub fn read(state: &[u32]) -> Run {
        Run {
            total: state[0],
            taken: state[1],
            goes_on: state[2] == 1,
            factor: float(state[3]),
            floor: float(state[4]),
            before: float(state[5]),
            last: float(state[6]),
            start: if state[7] == 1 { Start::Mean } else { Start::Old },
        }
    }

    /// Its words.
    pub fn words(self) -> [u32; RUN_WORDS] {
        let floats = [self.factor, self.floor, self.before, self.last].map(word);
        let [factor, floor, before, last] = floats;
        let start = self.start == Start::Mean;
        [self.total, self.taken, self.goes_on.into(), factor, floor, before, last, start.into()]
    }

    /// A run of so many samples, none of which is in. "Held to 1..10; factor 12−sensitivity." The floor is that of the
    /// old start; from the mean it starts when the flags that are held back are given.
    fn new(total: u32, sensitivity: f32, start: Start) -> Run {
        let factor = 12.0 - sensitivity.clamp(1.0, 10.0);
        let floor = opening_floor(Start::Old, &[]);
        Run { total, taken: 0, goes_on: true, factor, floor, before: 0.0, last: 0.0, start }
    }

    /// "Fewer" samples "than announced" are in, or, as no call leaves it, more.
    fn lacks(self) -> bool {
        self.taken != self.total
    }

    /// "More samples than announced" are in with so many.
    fn has_too_many_with(self, samples: usize) -> bool {
        self.taken as usize + samples > self.total as usize
    }

    /// How many flags so many samples bring.
    pub fn brought_by(self, samples: usize) -> usize {
        let taken = self.taken as usize;
        given(self.start, taken + samples) - given(self.start, taken)
    }

    /// How many flags the end brings, when all samples are in: those that are not given yet.
    pub fn brought_by_end(self) -> usize {
        let taken = self.taken as usize;
        taken - given(self.start, taken)
    }

    /// Whether the detector's value at the place of the last sample, once it is known, is not judged by itself.
    pub fn holds_back(self) -> bool {
        self.start == Start::Mean && self.taken as usize <= MEAN_OVER
    }

    /// The flag of a place at which this is the detector's value. "floor=floor*(1−0.001)+a*0.001, then flag if
    /// a>factor*max(floor,1e-6)."
    fn judge(&mut self, value: f32) -> u8 {
        let a = value.abs();
        self.floor = self.floor * (1.0 - 0.001) + a * 0.001;
        u8::from(self.total >= FEWEST && a > self.factor * self.floor.max(1e-6))
    }

    /// The flags of all places from the first on, at which these words are the detector's values. The floor starts from
    /// their mean.
    fn judge_held(&mut self, held: &[u32]) -> Vec<u8> {
        let values: Vec<f32> = held.iter().map(|word| float(*word)).collect();
        let magnitudes: Vec<f32> = values.iter().map(|value| value.abs()).collect();
        self.floor = opening_floor(self.start, &magnitudes);
        values.into_iter().map(|value| self.judge(value)).collect()
    }

    /// At the place of the last sample this is the detector's value. Its flag, or where it is held back the value
    /// stands in its place; with the last that the mean is of come the flags of all.
    fn know(&mut self, value: f32, held: &mut [u32]) -> Vec<u8> {
        if !self.holds_back() {
            return vec![self.judge(value)];
        }
        let known = self.taken as usize;
        held[known - 1] = word(value);
        if known == MEAN_OVER {
            self.judge_held(held)
        } else {
            Vec::new()
        }
    }

    /// Takes one sample in, and gives the flags that come with it. "Detector 0 at both ends, elsewhere
    /// s[i]−0.5*(s[i−1]+s[i+1])."
    fn take(&mut self, x: f32, held: &mut [u32]) -> Vec<u8> {
        let flags = match self.taken {
            0 => Vec::new(),
            1 => self.know(0.0, held),
            _ => self.know(self.last - 0.5 * (self.before + x), held),
        };
        (self.before, self.last) = (self.last, x);
        self.taken += 1;
        flags
    }

    /// The flags that come at the end. The run stays as it is.
    fn last_flags(mut self, held: &mut [u32]) -> Vec<u8> {
        match self.taken as usize {
            0 => Vec::new(),
            known if self.holds_back() => {
                held[known - 1] = word(0.0);
                self.judge_held(&held[..known])
            }
            _ => vec![self.judge(0.0)],
        }
    }
}

impl Areas {
    /// The room is not touched behind these flags.
    fn give(&mut self, flags: &[u8]) -> Answer {
        self.flags[..flags.len()].copy_from_slice(flags);
        Answer::Accepted(flags.len())
    }

    /// The run stands in the state's first words. Those behind them stay.
    fn keep(&mut self, run: Run) {
        self.state[..RUN_WORDS].copy_from_slice(&run.words());
    }

    /// The run is over.
    fn close(&mut self, run: Run) {
        self.keep(Run { goes_on: false, ..run });
    }

    /// "Refusals: 2 and 4 at the announcement."
    fn begin(&mut self, total: usize, sensitivity: f32, start: Start) -> Answer {
        if let Some(number) = first_of([(2, total > MOST_SAMPLES), (4, sensitivity.is_nan())]) {
            return Answer::Refused(number);
        }
        self.keep(Run::new(total as u32, sensitivity, start));
        Answer::Accepted(0)
    }

    /// "Then 13, more samples than announced [..], or a call after a stop or the end; 6, no room for this call's flags;
    /// 7 with the place in the whole; tested in that order. 13 and 7 stop the run, 6 takes nothing in, and all leave
    /// the flag room unwritten."
    fn piece(&mut self) -> Answer {
        let mut run = Run::read(&self.state);
        if !run.goes_on || run.has_too_many_with(self.piece.len()) {
            self.close(run);
            return Answer::Refused(13);
        }
        if self.flags.len() < run.brought_by(self.piece.len()) {
            return Answer::Refused(6);
        }
        if let Some(place) = self.piece.iter().position(|word| !in_range(*word)) {
            self.close(run);
            return Answer::RefusedAt(7, run.taken as usize + place);
        }
        let held = &mut self.state[RUN_WORDS..STATE_WORDS];
        let flags: Vec<u8> = self.piece.iter().flat_map(|word| run.take(float(*word), held)).collect();
        self.keep(run);
        self.give(&flags)
    }

    /// "13, [..] fewer at the end, or a call after a stop or the end; 6, no room for this call's flags."
    fn end(&mut self) -> Answer {
        let run = Run::read(&self.state);
        if !run.goes_on || run.lacks() {
            self.close(run);
            return Answer::Refused(13);
        }
        if self.flags.len() < run.brought_by_end() {
            return Answer::Refused(6);
        }
        let flags = run.last_flags(&mut self.state[RUN_WORDS..STATE_WORDS]);
        self.close(run);
        self.give(&flags)
    }

    /// The call on these areas. "Where state is shorter: 6, before all else."
    pub fn make(&mut self, call: Call) -> Answer {
        match call {
            _ if self.state.len() < STATE_WORDS => Answer::Refused(6),
            Call::Begin { total, sensitivity, start } => self.begin(total, sensitivity, start),
            Call::Piece => self.piece(),
            Call::End => self.end(),
        }
    }
}
