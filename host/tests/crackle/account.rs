//! An account of a run, kept from what was given to it and not from its state: what each call has to answer by the
//! request's words, and what it has to leave.
use cathar_host::both::Wrong;
use cathar_host::crackle::{Areas, Call, Run, RUN_WORDS, STATE_WORDS};
use cathar_host::lent::crackle::Crackle;
use cathar_host::recording::{in_range, Answer, MOST_SAMPLES};
use cathar_host::whole::{floats, Start, MEAN_OVER};
use cathar_host::wrong::flags;
use std::ops::Range;

/// How a run stands.
#[derive(Clone, Copy, Debug, PartialEq, Eq)]
pub enum Standing {
    NotAnnounced,
    Open,
    /// "An out-of-range sample stops the run."
    StoppedByRange,
    /// "More samples than announced."
    StoppedByMore,
    /// "Fewer at the end."
    StoppedByFewer,
    Ended,
    /// The words of the state are none that a call left.
    Wild,
}

pub struct Account {
    pub standing: Standing,
    total: usize,
    sensitivity: f32,
    start: Start,
    /// The samples that were taken in, and the flags that were given for them.
    pub samples: Vec<u32>,
    pub flags: Vec<u8>,
}

impl Account {
    /// No run was announced, or the words are wild.
    pub fn new(standing: Standing) -> Account {
        let (samples, flags) = (Vec::new(), Vec::new());
        Account { standing, total: 0, sensitivity: 1.0, start: Start::Old, samples, flags }
    }

    /// How many flags have to be given once so many samples are in: "flags come one sample late", since at the last
    /// one the detector's value is not known yet; and the new start "holds back flags until 1,024 detector values [..]
    /// are in".
    fn due(&self, samples: usize) -> usize {
        let values = samples.saturating_sub(1);
        if self.start == Start::Mean && values < MEAN_OVER {
            0
        } else {
            values
        }
    }

    /// How many flags a call has to give that is not refused: those that are due and were not given, or at the end all
    /// that were not given.
    pub fn gives(&self, call: Call, piece: usize) -> usize {
        match call {
            Call::Begin { .. } => 0,
            Call::Piece => self.due(self.samples.len() + piece).saturating_sub(self.flags.len()),
            Call::End => self.samples.len().saturating_sub(self.flags.len()),
        }
    }

    /// Whether 13 applies: "more samples than announced, fewer at the end, or a call after a stop or the end".
    fn is_out_of_turn(&self, call: Call, piece: usize) -> bool {
        let by_number = match call {
            Call::Begin { .. } => return false,
            Call::Piece => self.samples.len() + piece > self.total,
            Call::End => self.samples.len() < self.total,
        };
        self.standing != Standing::Open || by_number
    }

    /// What the call has to be answered, on these areas.
    pub fn answer(&self, call: Call, areas: &Areas) -> Answer {
        let bad = areas.piece.iter().position(|word| !in_range(*word)).filter(|_| call == Call::Piece);
        match call {
            _ if areas.state.len() < STATE_WORDS => Answer::Refused(6),
            Call::Begin { total, .. } if total > MOST_SAMPLES => Answer::Refused(2),
            Call::Begin { sensitivity, .. } if sensitivity.is_nan() => Answer::Refused(4),
            Call::Begin { .. } => Answer::Accepted(0),
            _ if self.is_out_of_turn(call, areas.piece.len()) => Answer::Refused(13),
            _ if areas.flags.len() < self.gives(call, areas.piece.len()) => Answer::Refused(6),
            _ => match bad {
                Some(place) => Answer::RefusedAt(7, self.samples.len() + place),
                None => Answer::Accepted(self.gives(call, areas.piece.len())),
            },
        }
    }

    /// Takes down a call that was answered so, with the piece that it had and the flags that it gave.
    pub fn take(&mut self, call: Call, answer: Answer, piece: &[u32], given: &[u8]) {
        match (call, answer) {
            (Call::Begin { total, sensitivity, start }, Answer::Accepted(_)) => {
                *self = Account { total, sensitivity, start, ..Account::new(Standing::Open) };
            }
            (_, Answer::Accepted(_)) => {
                self.flags.extend(given);
                match call {
                    Call::Piece => self.samples.extend(piece),
                    _ => self.standing = Standing::Ended,
                }
            }
            (_, Answer::Refused(13)) if self.standing == Standing::Open => {
                let by_piece = call == Call::Piece;
                self.standing = if by_piece { Standing::StoppedByMore } else { Standing::StoppedByFewer };
            }
            (_, Answer::RefusedAt(7, _)) => self.standing = Standing::StoppedByRange,
            _ => {}
        }
    }

    /// Whether the flags that were given are those on the whole, whatever comes behind the samples that are in: "flags
    /// already given stand".
    pub fn flags_stand(&self) -> bool {
        let mut whole = floats(&self.samples);
        whole.resize(self.total.min(self.samples.len().max(8)), 0.0);
        let flags = flags(&whole, self.sensitivity, self.start);
        flags.len() >= self.flags.len() && self.flags.iter().zip(flags).all(|(given, flag)| *given == flag.into())
    }
}

/// The values that a call may write, by their places: from the mean, and as far as their flags are held back, that of
/// the last sample that is in and those of the samples of the piece but the last; at the end that of the last. No
/// other call writes any, and no refusal.
fn values(before: &Areas, call: Call, answer: Answer) -> Range<usize> {
    let run = match before.state.get(..RUN_WORDS) {
        Some(words) if answer.number() == 0 => Run::read(words),
        _ => return 0..0,
    };
    let (known, samples) = ((run.taken as usize).saturating_sub(1), run.taken as usize + before.piece.len());
    match call {
        Call::Piece if run.start == Start::Mean => known.min(MEAN_OVER)..samples.saturating_sub(1).min(MEAN_OVER),
        Call::End if run.start == Start::Mean => known.min(MEAN_OVER)..samples.min(MEAN_OVER),
        _ => 0..0,
    }
}

/// What does not hold of what the library left of these areas after a call that was answered so.
pub fn broken(lent: &Crackle, before: &Areas, call: Call, answer: Answer) -> Wrong {
    let (state, flags) = (lent.state(), lent.flags());
    let behind = |words: usize| state.get(words..) == before.state.get(words..);
    let Range { start, end } = values(before, call, answer);
    let held = |places: Range<usize>| RUN_WORDS + places.start..RUN_WORDS + places.end.max(places.start);
    let stand = |places: Range<usize>| state.get(held(places.clone())) == before.state.get(held(places));
    let given = match answer {
        Answer::Accepted(given) if !matches!(call, Call::Begin { .. }) => given,
        _ => 0,
    };
    let stays = matches!((call, answer.number()), (Call::Begin { .. }, 2 | 4) | (_, 6));
    let over = |words: &[u32]| words.get(2) != Some(&1);
    let closes = call == Call::End && answer.number() == 0 || matches!(answer.number(), 13 | 7);
    let holds = [
        ("words behind the state", behind(STATE_WORDS)),
        ("values of earlier places", stand(0..start)),
        ("values of later places", stand(end.max(start)..MEAN_OVER)),
        ("words that a refusal leaves", !stays || behind(0)),
        ("a run that is over", !closes || over(state)),
        ("flags that are 0 or 1", flags.iter().take(given).all(|flag| *flag <= 1)),
        ("room behind the flags", flags.get(given..) == before.flags.get(given..)),
    ];
    holds.into_iter().filter(|(_, holds)| !holds).map(|(name, _)| name).collect()
}
