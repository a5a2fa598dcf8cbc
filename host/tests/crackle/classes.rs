//! What the calls have to be.
use super::account::Standing;
use cathar_host::count::{Class, Count};
use cathar_host::crackle::{Areas, Call, Run, RUN_WORDS, STATE_WORDS};
use cathar_host::float::F32;
use cathar_host::recording::{in_range, Answer, MOST_SAMPLES};
use cathar_host::whole::{Start, MEAN_OVER};
use std::fmt;

/// The loudest sample that is in range.
const LOUDEST: u32 = 0x4780_0000;

/// How many words are told.
const SHOWN: usize = 12;

/// A call, what it was made on, and what the model answers.
pub struct Made {
    call: Call,
    /// The first words of the state, those of its run, and how many it has.
    state: Vec<u32>,
    words: usize,
    /// The run, where the state has words enough.
    run: Option<Run>,
    piece: Vec<u32>,
    /// The places of the piece whose samples are not in range.
    bad: Vec<usize>,
    room: usize,
    answer: Answer,
    /// The flags that it gave.
    pub given: Vec<u8>,
    /// How the run stood, and what the call before answered.
    standing: Standing,
    last: Option<u32>,
}

pub type Calls = Count<Made>;

impl fmt::Debug for Made {
    /// The first samples stand for all.
    fn fmt(&self, to: &mut fmt::Formatter) -> fmt::Result {
        let Made { call, state, words, piece, room, answer, standing, .. } = self;
        let first = &piece[..piece.len().min(SHOWN)];
        write!(to, "{call:?} {standing:?}, state of {words} {state:x?}, piece of {} {first:x?}, ", piece.len())?;
        write!(to, "room {room}: {answer:?}")
    }
}

impl Made {
    /// The call on these areas, which was answered so and left the room like this.
    pub fn new(
        call: Call,
        before: &Areas,
        answer: Answer,
        room: &[u8],
        (standing, last): (Standing, Option<u32>),
    ) -> Made {
        let is_piece = call == Call::Piece;
        let piece = if is_piece { before.piece.clone() } else { Vec::new() };
        let given = match answer {
            Answer::Accepted(given) => room[..given.min(room.len())].to_vec(),
            _ => Vec::new(),
        };
        Made {
            call,
            state: before.state.iter().copied().take(RUN_WORDS).collect(),
            words: before.state.len(),
            run: (before.state.len() >= STATE_WORDS).then(|| Run::read(&before.state)),
            bad: (0..piece.len()).filter(|place| !in_range(piece[*place])).collect(),
            piece,
            room: before.flags.len(),
            answer,
            given,
            standing,
            last,
        }
    }

    fn begin(&self, number: u32) -> bool {
        matches!(self.call, Call::Begin { .. }) && self.answer.number() == number
    }

    fn piece(&self, number: u32) -> bool {
        self.call == Call::Piece && self.answer.number() == number
    }

    fn end(&self, number: u32) -> bool {
        self.call == Call::End && self.answer.number() == number
    }

    /// Of an announcement, the total and the sensitivity.
    fn announces(&self, so: impl Fn(usize, f32) -> bool) -> bool {
        matches!(self.call, Call::Begin { total, sensitivity, .. } if so(total, sensitivity))
    }

    /// Whether it is an announcement of this start, which was answered so.
    fn announces_start(&self, of: Start, number: u32) -> bool {
        self.begin(number) && matches!(self.call, Call::Begin { start, .. } if start == of)
    }

    fn n(&self) -> usize {
        self.piece.len()
    }

    /// The run of the state; where there is none, one of nothing.
    fn run(&self) -> Run {
        self.run.unwrap_or_else(|| Run::read(&[0; RUN_WORDS]))
    }

    fn taken(&self) -> usize {
        self.run().taken as usize
    }

    fn total(&self) -> usize {
        self.run().total as usize
    }

    /// How many flags the call gives where it is accepted, whatever the room.
    fn needs(&self) -> usize {
        match self.call {
            Call::End => self.run().brought_by_end(),
            _ => self.run().brought_by(self.n()),
        }
    }

    /// Whether the run starts from the mean.
    fn is_mean(&self) -> bool {
        self.has_words() && self.run().start == Start::Mean
    }

    /// Whether it is a piece, with samples, whose flags are held back.
    fn is_held(&self) -> bool {
        self.call == Call::Piece && self.is_mean() && self.n() > 0 && self.taken() + self.n() <= MEAN_OVER
    }

    /// Whether it is a piece with which the flags that were held back come.
    fn is_release(&self) -> bool {
        self.call == Call::Piece && self.is_mean() && self.taken() <= MEAN_OVER && self.taken() + self.n() > MEAN_OVER
    }

    /// Whether it is an end at which flags that were held back come.
    fn is_late(&self) -> bool {
        self.call == Call::End && self.is_mean() && self.run().holds_back()
    }

    /// By how much the samples pass the total, where the run goes on.
    fn more(&self) -> usize {
        (self.taken() + self.n()).saturating_sub(self.total())
    }

    /// By how much they fall short of it.
    fn fewer(&self) -> usize {
        self.total().saturating_sub(self.taken())
    }

    fn lacks_room(&self) -> bool {
        self.room < self.needs()
    }

    fn is_bad(&self) -> bool {
        !self.bad.is_empty()
    }

    fn has_words(&self) -> bool {
        self.run.is_some()
    }

    /// Whether it is an accepted piece of so many samples, when so many were in.
    fn gives(&self, n: usize, taken: usize) -> bool {
        self.piece(0) && self.n() == n && self.taken() == taken
    }

    /// Whether a piece on an open run is refused by 13, for this many samples too many.
    fn is_more(&self, by: usize) -> bool {
        self.standing == Standing::Open && self.piece(13) && self.more() == by
    }

    /// Whether an end on an open run is refused by 13, for this many samples too few.
    fn is_fewer(&self, by: usize) -> bool {
        self.standing == Standing::Open && self.end(13) && self.fewer() == by
    }

    /// Whether it is refused by 13 on a run that stands so.
    fn is_after(&self, standing: Standing) -> bool {
        self.standing == standing && self.answer.number() == 13
    }

    /// Whether 7 is told at this place of the piece, of so many samples at least.
    fn is_bad_at(&self, place: usize, n: usize) -> bool {
        self.piece(7) && self.n() >= n && self.bad.first() == Some(&place)
    }

    /// Whether 7 is told for a word of this kind.
    fn is_bad_for(&self, kind: impl Fn(u64) -> bool) -> bool {
        self.piece(7) && kind(self.piece[self.bad[0]].into())
    }

    /// Whether one of the words 3 to 6 is of this kind.
    fn has_float(&self, word: usize, kind: impl Fn(u64) -> bool) -> bool {
        self.state.get(word).map_or(false, |word| kind((*word).into()))
    }

    fn has_nan(&self) -> bool {
        (3..7).any(|word| self.has_float(word, |bits| F32.is_nan(bits) && bits != 0x7fc0_0000))
    }

    /// Whether a flag is set.
    fn flags(&self) -> bool {
        self.given.contains(&1)
    }
}

/// What the calls on recordings that are cut have to be.
pub const CUT: &[Class<Made>] = &[
    Class { name: "announcements", least: 100_000, holds: |m| m.begin(0) },
    Class { name: "pieces", least: 500_000, holds: |m| m.piece(0) },
    Class { name: "ends", least: 100_000, holds: |m| m.end(0) },
    Class { name: "empty pieces, no sample in", least: 10_000, holds: |m| m.gives(0, 0) },
    Class {
        name: "empty pieces, all samples in",
        least: 10_000,
        holds: |m| m.piece(0) && m.n() == 0 && m.fewer() == 0,
    },
    Class { name: "empty pieces between", least: 10_000, holds: |m| m.piece(0) && m.n() == 0 && m.taken() > 0 },
    Class { name: "a piece of 1, the first: no flag", least: 10_000, holds: |m| m.gives(1, 0) },
    Class { name: "a piece of 1, the second", least: 10_000, holds: |m| m.gives(1, 1) },
    Class { name: "a piece of 1, a later one", least: 100_000, holds: |m| m.piece(0) && m.n() == 1 && m.taken() > 1 },
    Class { name: "a piece of 2, the first", least: 5_000, holds: |m| m.gives(2, 0) },
    Class {
        name: "a piece of 2 or more, one sample in",
        least: 5_000,
        holds: |m| m.piece(0) && m.n() > 1 && m.taken() == 1,
    },
    Class { name: "a piece of 100 or more", least: 2_000, holds: |m| m.piece(0) && m.n() >= 100 },
    Class { name: "all in one piece", least: 5_000, holds: |m| m.piece(0) && m.n() > 1 && m.n() == m.total() },
    Class { name: "room exact", least: 100_000, holds: |m| m.piece(0) && m.needs() > 0 && m.room == m.needs() },
    Class { name: "room longer", least: 100_000, holds: |m| m.piece(0) && m.needs() > 0 && m.room > m.needs() },
    Class { name: "no room, none needed", least: 10_000, holds: |m| m.piece(0) && m.needs() == 0 && m.room == 0 },
    Class { name: "room one short: 6", least: 20_000, holds: |m| m.piece(6) && m.room + 1 == m.needs() },
    Class { name: "the same again with room", least: 20_000, holds: |m| m.piece(0) && m.last == Some(6) },
    Class { name: "no room at the end: 6", least: 3_000, holds: |m| m.end(6) && m.room == 0 },
    Class { name: "the end again with room", least: 5_000, holds: |m| m.end(0) && m.last == Some(6) },
    Class { name: "the end of no samples", least: 500, holds: |m| m.end(0) && m.total() == 0 && m.given.is_empty() },
    Class { name: "the end of no samples, no room", least: 100, holds: |m| m.end(0) && m.total() == 0 && m.room == 0 },
    Class { name: "a state of more than 1,032 words", least: 50_000, holds: |m| m.piece(0) && m.words > STATE_WORDS },
    Class { name: "giving a flag that is set", least: 50_000, holds: Made::flags },
    Class { name: "from the mean, flags held back", least: 500_000, holds: |m| m.piece(0) && m.is_held() },
    Class { name: "held back, and no room", least: 20_000, holds: |m| m.piece(0) && m.is_held() && m.room == 0 },
    Class { name: "held back, an empty piece", least: 50_000, holds: |m| m.gives(0, m.taken()) && m.is_mean() },
    Class { name: "given with a piece", least: 2_000, holds: |m| m.piece(0) && m.is_release() },
    Class { name: "given with a piece, one set", least: 500, holds: |m| m.piece(0) && m.is_release() && m.flags() },
    Class { name: "given with a piece of 1", least: 200, holds: |m| m.piece(0) && m.is_release() && m.n() == 1 },
    Class {
        name: "given with the first piece, all in one",
        least: 100,
        holds: |m| m.piece(0) && m.is_release() && m.taken() == 0 && m.n() == m.total(),
    },
    Class { name: "room one short there: 6", least: 500, holds: |m| m.piece(6) && m.is_release() },
    Class {
        name: "the same again with room there",
        least: 500,
        holds: |m| m.piece(0) && m.is_release() && m.last == Some(6),
    },
    Class {
        name: "after them, one sample late",
        least: 2_000,
        holds: |m| m.piece(0) && m.is_mean() && m.taken() > MEAN_OVER,
    },
    Class { name: "given at the end", least: 100_000, holds: |m| m.end(0) && m.is_late() && m.given.len() > 1 },
    Class { name: "given at the end, one set", least: 10_000, holds: |m| m.end(0) && m.is_late() && m.flags() },
    Class { name: "1,024 at the end", least: 20, holds: |m| m.end(0) && m.is_late() && m.given.len() == MEAN_OVER },
    Class {
        name: "the end's room one short: 6",
        least: 5_000,
        holds: |m| m.end(6) && m.is_late() && m.room + 1 == m.needs() && m.room > 0,
    },
    Class { name: "one at the end, from the mean", least: 2_000, holds: |m| m.end(0) && m.is_mean() && !m.is_late() },
    Class { name: "from the old start", least: 500_000, holds: |m| m.piece(0) && m.n() > 0 && !m.is_mean() },
];

/// What the calls on recordings of about as many samples as the mean is of have to be.
pub const BESIDE: &[Class<Made>] = &[
    Class { name: "pieces", least: 16_000, holds: |m| m.piece(0) },
    Class { name: "flags held back", least: 4_000, holds: |m| m.piece(0) && m.is_held() },
    Class { name: "given with a piece", least: 2_000, holds: |m| m.piece(0) && m.is_release() },
    Class { name: "one of them set", least: 500, holds: |m| m.piece(0) && m.is_release() && m.flags() },
    Class { name: "given with the sample behind 1,024", least: 10, holds: |m| m.gives(1, MEAN_OVER) && m.is_release() },
    Class { name: "room one short there: 6", least: 500, holds: |m| m.piece(6) && m.is_release() },
    Class {
        name: "the same again with room",
        least: 500,
        holds: |m| m.piece(0) && m.is_release() && m.last == Some(6),
    },
    Class {
        name: "1,023 at the end",
        least: 500,
        holds: |m| m.end(0) && m.is_late() && m.given.len() == MEAN_OVER - 1,
    },
    Class { name: "1,024 at the end", least: 500, holds: |m| m.end(0) && m.is_late() && m.given.len() == MEAN_OVER },
    Class { name: "one at the end", least: 1_000, holds: |m| m.end(0) && m.is_mean() && m.given.len() == 1 },
    Class {
        name: "the end's room one short: 6",
        least: 50,
        holds: |m| m.end(6) && m.is_late() && m.room + 1 == m.needs(),
    },
    Class { name: "the end again with room", least: 50, holds: |m| m.end(0) && m.is_late() && m.last == Some(6) },
];

/// What the calls that stop runs and follow on stops have to be.
pub const STOPPED: &[Class<Made>] = &[
    Class { name: "not announced: 13", least: 1_000, holds: |m| m.is_after(Standing::NotAnnounced) },
    Class { name: "one sample more than announced: 13", least: 1_000, holds: |m| m.is_more(1) },
    Class { name: "two or more: 13", least: 1_000, holds: |m| m.more() > 1 && m.is_more(m.more()) },
    Class { name: "one more than 0: 13", least: 50, holds: |m| m.is_more(1) && m.total() == 0 },
    Class {
        name: "more, when all were in: 13",
        least: 500,
        holds: |m| m.fewer() == 0 && m.is_more(m.n()) && m.n() > 0,
    },
    Class { name: "one too few at the end: 13", least: 1_000, holds: |m| m.is_fewer(1) },
    Class { name: "more too few: 13", least: 1_000, holds: |m| m.fewer() > 1 && m.is_fewer(m.fewer()) },
    Class {
        name: "an end when none is in: 13",
        least: 200,
        holds: |m| m.fewer() > 0 && m.taken() == 0 && m.is_fewer(m.total()),
    },
    Class {
        name: "too few, and no room at the end: 13",
        least: 200,
        holds: |m| m.fewer() > 0 && m.is_fewer(m.fewer()) && m.room == 0,
    },
    Class { name: "a piece after 7: 13", least: 1_000, holds: |m| m.is_after(Standing::StoppedByRange) && m.n() > 0 },
    Class { name: "a piece after more: 13", least: 1_000, holds: |m| m.is_after(Standing::StoppedByMore) && m.n() > 0 },
    Class { name: "a piece after fewer: 13", least: 500, holds: |m| m.is_after(Standing::StoppedByFewer) && m.n() > 0 },
    Class { name: "a piece after the end: 13", least: 500, holds: |m| m.is_after(Standing::Ended) && m.n() > 0 },
    Class {
        name: "an empty piece after 7: 13",
        least: 500,
        holds: |m| m.is_after(Standing::StoppedByRange) && m.piece(13) && m.n() == 0,
    },
    Class {
        name: "an empty piece after more: 13",
        least: 500,
        holds: |m| m.is_after(Standing::StoppedByMore) && m.piece(13) && m.n() == 0,
    },
    Class {
        name: "an empty piece after fewer: 13",
        least: 500,
        holds: |m| m.is_after(Standing::StoppedByFewer) && m.piece(13) && m.n() == 0,
    },
    Class {
        name: "an empty piece after the end: 13",
        least: 500,
        holds: |m| m.is_after(Standing::Ended) && m.piece(13) && m.n() == 0,
    },
    Class { name: "an end after 7: 13", least: 500, holds: |m| m.is_after(Standing::StoppedByRange) && m.end(13) },
    Class { name: "an end after more: 13", least: 500, holds: |m| m.is_after(Standing::StoppedByMore) && m.end(13) },
    Class { name: "an end after fewer: 13", least: 500, holds: |m| m.is_after(Standing::StoppedByFewer) && m.end(13) },
    Class { name: "an end after the end: 13", least: 500, holds: |m| m.is_after(Standing::Ended) && m.end(13) },
    Class {
        name: "all were in when it was stopped, an end: 13",
        least: 100,
        holds: |m| m.end(13) && m.fewer() == 0 && !m.run().goes_on,
    },
    Class { name: "13, and 6 too", least: 500, holds: |m| m.piece(13) && m.lacks_room() && !m.is_bad() },
    Class { name: "13, and 7 too", least: 500, holds: |m| m.piece(13) && !m.lacks_room() && m.is_bad() },
    Class { name: "13, and 6 and 7 too", least: 500, holds: |m| m.piece(13) && m.lacks_room() && m.is_bad() },
    Class { name: "6, and 7 too", least: 500, holds: |m| m.piece(6) && m.is_bad() },
    Class { name: "6 alone", least: 500, holds: |m| m.piece(6) && !m.is_bad() },
    Class { name: "no room at all: 6", least: 500, holds: |m| m.piece(6) && m.room == 0 },
    Class { name: "6 at the end", least: 100, holds: |m| m.end(6) },
    Class { name: "7 after 6, the same with room", least: 200, holds: |m| m.piece(7) && m.last == Some(6) },
    Class { name: "7", least: 5_000, holds: |m| m.piece(7) },
    Class { name: "7 at the piece's first sample", least: 500, holds: |m| m.is_bad_at(0, 2) },
    Class { name: "7 between its ends", least: 500, holds: |m| m.is_bad_at(1, 3) },
    Class { name: "7 at its last", least: 500, holds: |m| m.n() > 1 && m.is_bad_at(m.n() - 1, 2) },
    Class { name: "7 at its only one", least: 200, holds: |m| m.n() == 1 && m.is_bad_at(0, 1) },
    Class { name: "7 at the lowest of several", least: 500, holds: |m| m.piece(7) && m.bad.len() > 1 },
    Class { name: "7 at the very first sample", least: 200, holds: |m| m.piece(7) && m.answer.value() == 0 },
    Class { name: "7 at a later place than in the piece", least: 1_000, holds: |m| m.piece(7) && m.taken() > 0 },
    Class { name: "7 where the total is under 8", least: 500, holds: |m| m.piece(7) && m.total() < 8 },
    Class { name: "7 for a NaN", least: 200, holds: |m| m.is_bad_for(|bits| F32.is_nan(bits)) },
    Class { name: "7 for an infinity", least: 200, holds: |m| m.is_bad_for(|bits| F32.is_infinite(bits)) },
    Class {
        name: "7 for the next above 65,536",
        least: 200,
        holds: |m| m.is_bad_for(|bits| F32.magnitude(bits) == 0x4780_0001),
    },
    Class {
        name: "accepted with 65,536",
        least: 200,
        holds: |m| m.piece(0) && m.piece.iter().any(|word| word & 0x7fff_ffff == LOUDEST),
    },
    Class {
        name: "a refused announcement on an open run",
        least: 500,
        holds: |m| m.standing == Standing::Open && (m.begin(2) || m.begin(4)),
    },
    Class {
        name: "a piece after it",
        least: 200,
        holds: |m| m.standing == Standing::Open && m.piece(0) && matches!(m.last, Some(2 | 4)),
    },
    Class { name: "announced anew, open before", least: 200, holds: |m| m.standing == Standing::Open && m.begin(0) },
    Class {
        name: "announced anew after 7",
        least: 500,
        holds: |m| m.standing == Standing::StoppedByRange && m.begin(0),
    },
    Class {
        name: "announced anew after more",
        least: 500,
        holds: |m| m.standing == Standing::StoppedByMore && m.begin(0),
    },
    Class {
        name: "announced anew after fewer",
        least: 200,
        holds: |m| m.standing == Standing::StoppedByFewer && m.begin(0),
    },
    Class { name: "announced anew after the end", least: 500, holds: |m| m.standing == Standing::Ended && m.begin(0) },
    Class { name: "accepted, after all of that", least: 5_000, holds: |m| m.piece(0) && m.n() > 0 },
    Class { name: "held back: 13 and 6", least: 500, holds: |m| m.piece(13) && m.is_release() && m.lacks_room() },
    Class { name: "flags would come: 13", least: 500, holds: |m| m.piece(13) && m.is_release() && m.run().goes_on },
    Class { name: "flags would come: 6", least: 500, holds: |m| m.piece(6) && m.is_release() && !m.is_bad() },
    Class { name: "flags would come: 6, and 7 too", least: 500, holds: |m| m.piece(6) && m.is_release() && m.is_bad() },
    Class { name: "flags would come: 7", least: 500, holds: |m| m.piece(7) && m.is_release() },
    Class {
        name: "flags would come: 7 before they do",
        least: 100,
        holds: |m| m.piece(7) && m.is_release() && m.answer.value() < MEAN_OVER,
    },
    Class {
        name: "flags would come: 7 behind that",
        least: 100,
        holds: |m| m.piece(7) && m.is_release() && m.answer.value() > MEAN_OVER,
    },
    Class { name: "held back: 7", least: 500, holds: |m| m.piece(7) && m.is_held() },
    Class { name: "held back: an end, 13", least: 500, holds: |m| m.end(13) && m.is_late() && m.taken() > 0 },
    Class { name: "held back: an end, 6", least: 100, holds: |m| m.end(6) && m.is_late() },
    Class { name: "flags come after 6", least: 100, holds: |m| m.piece(0) && m.is_release() && m.last == Some(6) },
    Class {
        name: "announced anew, flags held back before",
        least: 200,
        holds: |m| m.begin(0) && m.is_mean() && m.run().holds_back() && m.taken() > 0,
    },
];

/// Whether the sensitivity is so, and the announcement is accepted.
fn held(made: &Made, so: impl Fn(f32) -> bool) -> bool {
    made.begin(0) && made.announces(|_, sensitivity| so(sensitivity))
}

/// What the announcements have to be.
pub const ANNOUNCED: &[Class<Made>] = &[
    Class { name: "total 0", least: 50, holds: |m| m.begin(0) && m.announces(|total, _| total == 0) },
    Class { name: "total 1", least: 50, holds: |m| m.begin(0) && m.announces(|total, _| total == 1) },
    Class {
        name: "total 1,048,576",
        least: 50,
        holds: |m| m.begin(0) && m.announces(|total, _| total == MOST_SAMPLES),
    },
    Class {
        name: "total 1,048,577: 2",
        least: 50,
        holds: |m| m.begin(2) && m.announces(|total, _| total == MOST_SAMPLES + 1),
    },
    Class { name: "total past 2^32: 2", least: 50, holds: |m| m.begin(2) && m.announces(|total, _| total >> 32 > 0) },
    Class {
        name: "the largest total: 2",
        least: 50,
        holds: |m| m.begin(2) && m.announces(|total, _| total == usize::MAX),
    },
    Class { name: "a NaN: 4", least: 50, holds: |m| m.begin(4) },
    Class {
        name: "2, and 4 too",
        least: 50,
        holds: |m| m.begin(2) && m.announces(|_, sensitivity| sensitivity.is_nan()),
    },
    Class {
        name: "6, and 2 and 4 too",
        least: 50,
        holds: |m| m.begin(6) && m.announces(|total, s| total > MOST_SAMPLES && s.is_nan()),
    },
    Class {
        name: "6 alone",
        least: 50,
        holds: |m| m.begin(6) && m.announces(|total, s| total <= MOST_SAMPLES && !s.is_nan()),
    },
    Class { name: "sensitivity 1", least: 50, holds: |m| held(m, |s| s == 1.0) },
    Class { name: "sensitivity 10", least: 50, holds: |m| held(m, |s| s == 10.0) },
    Class { name: "sensitivity below 1", least: 50, holds: |m| held(m, |s| s < 1.0 && s.is_finite()) },
    Class { name: "sensitivity above 10", least: 50, holds: |m| held(m, |s| s > 10.0 && s.is_finite()) },
    Class { name: "sensitivity +infinity", least: 50, holds: |m| held(m, |s| s == f32::INFINITY) },
    Class { name: "sensitivity -infinity", least: 50, holds: |m| held(m, |s| s == f32::NEG_INFINITY) },
    Class { name: "sensitivity between", least: 5_000, holds: |m| held(m, |s| s > 1.0 && s < 10.0) },
    Class { name: "the new start", least: 5_000, holds: |m| m.announces_start(Start::Mean, 0) },
    Class { name: "the old start", least: 5_000, holds: |m| m.announces_start(Start::Old, 0) },
    Class { name: "a state of no words: 6", least: 50, holds: |m| m.begin(6) && m.words == 0 },
    Class {
        name: "a state of 8 words, the old start: 6",
        least: 50,
        holds: |m| m.words == 8 && m.announces_start(Start::Old, 6),
    },
    Class { name: "a state of 1,031 words: 6", least: 50, holds: |m| m.begin(6) && m.words == 1_031 },
    Class {
        name: "1,031 words, the old start: 6",
        least: 50,
        holds: |m| m.words == 1_031 && m.announces_start(Start::Old, 6),
    },
    Class { name: "a state of 1,032 words", least: 50, holds: |m| m.begin(0) && m.words == 1_032 },
    Class { name: "a state of 1,033 words", least: 50, holds: |m| m.begin(0) && m.words == 1_033 },
    Class { name: "a piece, 1,031 words: 6", least: 50, holds: |m| m.piece(6) && m.words == 1_031 },
    Class { name: "a piece, 8 words: 6", least: 50, holds: |m| m.piece(6) && m.words == 8 },
    Class { name: "a piece, fewer words: 6", least: 50, holds: |m| m.piece(6) && m.words < 8 },
    Class { name: "an end, 1,031 words: 6", least: 50, holds: |m| m.end(6) && m.words == 1_031 },
    Class { name: "an end, 8 words: 6", least: 50, holds: |m| m.end(6) && m.words == 8 },
    Class { name: "an end, fewer words: 6", least: 50, holds: |m| m.end(6) && m.words < 8 },
    Class {
        name: "too few words, and a sample not in range: 6",
        least: 20,
        holds: |m| m.piece(6) && !m.has_words() && m.is_bad(),
    },
    Class { name: "too few words, and room", least: 20, holds: |m| m.piece(6) && !m.has_words() && m.room > 0 },
    Class { name: "a piece after an announcement", least: 1_000, holds: |m| m.piece(0) && m.n() > 0 && m.taken() == 0 },
];

/// Whether the sum of what is in and the piece is one that 32 binary digits do not hold.
fn passes_32_digits(made: &Made) -> bool {
    made.run().goes_on && (made.taken() + made.n()) >> 32 > 0
}

/// Whether a call is accepted in which one of the words 3 to 6 is a NaN other than 7FC00000; refused by 6; refused by
/// another number.
fn with_nan(made: &Made, number: impl Fn(u32) -> bool) -> bool {
    made.has_nan() && !matches!(made.call, Call::Begin { .. }) && number(made.answer.number())
}

/// What the calls on any words have to be.
pub const WILD: &[Class<Made>] = &[
    Class { name: "pieces", least: 50_000, holds: |m| m.piece(0) && m.n() > 0 },
    Class { name: "empty pieces", least: 5_000, holds: |m| m.piece(0) && m.n() == 0 },
    Class { name: "ends", least: 5_000, holds: |m| m.end(0) },
    Class { name: "13", least: 20_000, holds: |m| m.piece(13) || m.end(13) },
    Class { name: "6", least: 5_000, holds: |m| m.piece(6) || m.end(6) },
    Class { name: "7", least: 5_000, holds: |m| m.piece(7) },
    Class { name: "announced over any words", least: 1_000, holds: |m| m.begin(0) },
    Class {
        name: "the third word neither 0 nor 1: 13",
        least: 5_000,
        holds: |m| m.piece(13) && m.state[2] > 1 && m.more() == 0,
    },
    Class {
        name: "an end, the third word neither: 13",
        least: 1_000,
        holds: |m| m.end(13) && m.state[2] > 1 && m.fewer() == 0,
    },
    Class {
        name: "more in than announced, empty piece: 13",
        least: 1_000,
        holds: |m| m.piece(13) && m.run().goes_on && m.n() == 0 && m.more() > 0,
    },
    Class {
        name: "more in than announced, an end: 13",
        least: 1_000,
        holds: |m| m.end(13) && m.run().goes_on && m.taken() > m.total(),
    },
    Class { name: "a total above 1,048,576", least: 5_000, holds: |m| m.piece(0) && m.total() > MOST_SAMPLES },
    Class {
        name: "2^32-1 in, after it",
        least: 100,
        holds: |m| m.piece(0) && m.n() > 0 && m.taken() + m.n() == u32::MAX as usize,
    },
    Class { name: "past 2^32 with the piece: 13", least: 100, holds: |m| m.piece(13) && passes_32_digits(m) },
    Class { name: "7 at a place past 2^31", least: 100, holds: |m| m.piece(7) && m.answer.value() > 1 << 31 },
    Class { name: "accepted with a NaN in the state", least: 5_000, holds: |m| with_nan(m, |number| number == 0) },
    Class { name: "6 with a NaN in the state", least: 500, holds: |m| with_nan(m, |number| number == 6) },
    Class { name: "7 with a NaN in the state", least: 500, holds: |m| with_nan(m, |number| number == 7) },
    Class { name: "13 with a NaN in the state", least: 500, holds: |m| with_nan(m, |number| number == 13) },
    Class { name: "the factor a NaN", least: 1_000, holds: |m| m.piece(0) && m.run().factor.is_nan() },
    Class { name: "the floor a NaN, and a flag set", least: 1_000, holds: |m| m.flags() && m.run().floor.is_nan() },
    Class { name: "the floor infinite", least: 500, holds: |m| m.piece(0) && m.n() > 0 && m.run().floor.is_infinite() },
    Class { name: "the floor below 0", least: 500, holds: |m| m.piece(0) && m.n() > 0 && m.run().floor < 0.0 },
    Class {
        name: "the sample before the last a NaN",
        least: 500,
        holds: |m| m.piece(0) && m.n() > 0 && m.run().before.is_nan(),
    },
    Class { name: "the last sample a NaN", least: 500, holds: |m| m.piece(0) && m.n() > 0 && m.run().last.is_nan() },
    Class {
        name: "a signalling NaN in the state",
        least: 500,
        holds: |m| m.piece(0) && (3..7).any(|word| m.has_float(word, |bits| F32.is_signalling_nan(bits))),
    },
    Class {
        name: "a subnormal in the state",
        least: 500,
        holds: |m| m.piece(0) && (3..7).any(|word| m.has_float(word, |bits| F32.is_subnormal(bits))),
    },
    Class { name: "the factor below 0: the last flag is set", least: 200, holds: |m| m.end(0) && m.flags() },
    Class {
        name: "the factor below 0: the first flag is set",
        least: 200,
        holds: |m| m.piece(0) && m.taken() == 1 && m.given.first() == Some(&1),
    },
    Class {
        name: "the factor below 0, a total under 8",
        least: 200,
        holds: |m| m.piece(0) && m.n() > 0 && m.run().factor < 0.0 && m.total() < 8,
    },
    Class { name: "the eighth word neither 0 nor 1, accepted", least: 5_000, holds: |m| m.piece(0) && m.state[7] > 1 },
    Class { name: "neither, 6", least: 500, holds: |m| m.piece(6) && m.state[7] > 1 },
    Class { name: "neither, 7", least: 500, holds: |m| m.piece(7) && m.state[7] > 1 },
    Class { name: "neither, 13", least: 500, holds: |m| m.piece(13) && m.state[7] > 1 },
    Class { name: "neither, an end", least: 500, holds: |m| m.end(0) && m.state[7] > 1 },
    Class { name: "flags held back", least: 5_000, holds: |m| m.piece(0) && m.is_held() },
    Class { name: "given with a piece", least: 2_000, holds: |m| m.piece(0) && m.is_release() },
    Class { name: "given with a piece, one set", least: 500, holds: |m| m.piece(0) && m.is_release() && m.flags() },
    Class { name: "given at the end", least: 1_000, holds: |m| m.end(0) && m.is_late() && m.given.len() > 1 },
    Class { name: "given at the end, one set", least: 500, holds: |m| m.end(0) && m.is_late() && m.flags() },
    Class { name: "would be given: 6", least: 200, holds: |m| m.piece(6) && m.is_release() },
    Class { name: "would be given: 7", least: 200, holds: |m| m.piece(7) && m.is_release() },
    Class { name: "would be given: 13", least: 500, holds: |m| m.piece(13) && m.is_release() },
    Class {
        name: "from the mean, more than 1,024 in",
        least: 5_000,
        holds: |m| m.piece(0) && m.is_mean() && m.n() > 0 && m.taken() > MEAN_OVER,
    },
    Class {
        name: "a value that is a NaN, held back",
        least: 500,
        holds: |m| m.piece(0) && m.is_held() && m.run().last.is_nan(),
    },
    Class {
        name: "none in, and words that no announcement leaves",
        least: 500,
        holds: |m| m.piece(0) && m.n() > 1 && m.taken() == 0 && m.state[6] != 0,
    },
];
