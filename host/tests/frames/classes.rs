//! What the readings have to be.
use cathar_host::count::Class;
use cathar_host::float::F32;
use cathar_host::frames::{told, whole_frames, Frame, Read, FRAME_BYTES, MISSING_WORD};
use cathar_host::recording::MOST_SAMPLES;
use std::fmt;

/// An input with its rooms, and what the model answers.
pub struct Reading {
    frames: Vec<Frame>,
    /// How many bytes there are behind the whole frames.
    remainder: usize,
    /// The samples that the whole frames make, and how many the rooms for samples and for marks have.
    made: Read,
    rooms: [usize; 2],
    read: Read,
}

impl fmt::Debug for Reading {
    /// The first numbers stand for all.
    fn fmt(&self, to: &mut fmt::Formatter) -> fmt::Result {
        let numbers: Vec<u16> = self.frames.iter().take(12).map(|frame| frame.number).collect();
        let Reading { frames, remainder, made, rooms, read } = self;
        write!(to, "{} frames {numbers:?}.., {remainder} bytes more, {made:?}, rooms {rooms:?}: {read:?}", frames.len())
    }
}

impl Reading {
    /// The reading of this input into rooms of these lengths.
    pub fn new(input: &[u8], rooms: [usize; 2], read: Read) -> Reading {
        let frames = whole_frames(input);
        let made = told(&frames);
        Reading { frames, remainder: input.len() % FRAME_BYTES, made, rooms, read }
    }

    fn accepted(&self) -> bool {
        self.read.number == 0
    }

    /// Whether it was accepted and there is a frame of this kind.
    fn takes(&self, of: impl Fn(&Frame) -> bool) -> bool {
        self.accepted() && self.frames.iter().any(of)
    }

    /// Whether it was accepted and a frame of the one kind was followed at once by one of the other.
    fn follow(&self, one: impl Fn(&Frame) -> bool, other: impl Fn(&Frame, &Frame) -> bool) -> bool {
        self.accepted() && self.frames.windows(2).any(|two| one(&two[0]) && other(&two[0], &two[1]))
    }

    /// Whether it was accepted and so many frames were missing before one.
    fn loses(&self, missing: usize) -> bool {
        self.takes(|frame| frame.missing() == missing)
    }

    /// Whether it was accepted and one so far ahead was dropped.
    fn drops(&self, ahead: usize) -> bool {
        self.takes(|frame| !frame.is_taken() && frame.ahead() == ahead)
    }

    /// Whether it was accepted and a frame that was taken has a word of this kind.
    fn measures(&self, of: impl Fn(u32) -> bool) -> bool {
        self.takes(|frame| frame.is_taken() && frame.words.iter().any(|word| of(*word)))
    }

    /// Whether nothing but the rooms can turn it away, and how much longer they are than needed.
    fn beside(&self, samples: impl Fn(isize) -> bool, marks: impl Fn(isize) -> bool) -> bool {
        let beside = |room: usize| room as isize - self.made.n as isize;
        let others = self.remainder == 0 && (1..=MOST_SAMPLES).contains(&self.made.n);
        others && samples(beside(self.rooms[0])) && marks(beside(self.rooms[1]))
    }

    /// Whether the whole frames make so many samples, without a loss or with some, and this is answered.
    fn makes(&self, samples: usize, losses: bool, number: u32) -> bool {
        self.made.n == samples && (self.made.missing > 0) == losses && self.read.number == number
    }

    fn room_is_short(&self) -> bool {
        self.rooms.iter().any(|room| *room < self.made.n)
    }
}

/// Whether 0 lies between what was expected and the frame's number, or is it.
fn over_wrap(frame: &Frame) -> bool {
    frame.number < frame.expected
}

/// Whether the frame is late by so many at most, and not taken.
fn late(frame: &Frame, most: usize) -> bool {
    frame.ahead() >= 65_536 - most
}

/// What is answered.
pub const ANSWERS: &[Class<Reading>] = &[
    Class { name: "streams", least: 200_000, holds: |_| true },
    Class { name: "answered 0", least: 120_000, holds: Reading::accepted },
    Class { name: "answered 2", least: 20, holds: |r| r.read.number == 2 },
    Class { name: "answered 12", least: 30_000, holds: |r| r.read.number == 12 },
];

/// Of the accepted: which frames come.
pub const ORDER: &[Class<Reading>] = &[
    Class { name: "no frame", least: 20, holds: |r| r.accepted() && r.frames.is_empty() },
    Class { name: "one frame", least: 1_000, holds: |r| r.accepted() && r.frames.len() == 1 },
    Class { name: "100 frames or more", least: 100, holds: |r| r.accepted() && r.frames.len() >= 100 },
    Class { name: "the next frame", least: 30_000, holds: |r| r.follow(|_| true, |_, b| b.ahead() == 0) },
    Class { name: "1 frame missing", least: 5_000, holds: |r| r.loses(1) },
    Class { name: "2 frames missing", least: 5_000, holds: |r| r.loses(2) },
    Class { name: "999 frames missing", least: 500, holds: |r| r.loses(999) },
    Class { name: "1,000 frames missing", least: 500, holds: |r| r.loses(1000) },
    Class { name: "1,001 ahead, dropped", least: 500, holds: |r| r.drops(1001) },
    Class { name: "65,535 ahead, dropped: a repeat", least: 5_000, holds: |r| r.drops(65_535) },
    Class { name: "late by 2 to 1,000", least: 5_000, holds: |r| r.takes(|f| late(f, 1000) && f.ahead() < 65_535) },
    Class {
        name: "1,002 to 64,535 ahead, dropped",
        least: 30_000,
        holds: |r| r.takes(|f| (1002..64_536).contains(&f.ahead())),
    },
    Class {
        name: "dropped, and then the next",
        least: 30_000,
        holds: |r| r.follow(|a| !a.is_taken(), |_, b| b.ahead() == 0),
    },
    Class {
        name: "dropped, and then a loss",
        least: 1_000,
        holds: |r| r.follow(|a| !a.is_taken(), |_, b| b.missing() > 0),
    },
    Class {
        name: "dropped, and then another",
        least: 3_000,
        holds: |r| r.follow(|a| !a.is_taken(), |_, b| !b.is_taken()),
    },
    Class {
        name: "dropped, and then a late one",
        least: 2_000,
        holds: |r| r.follow(|a| !a.is_taken(), |_, b| late(b, 1000)),
    },
    Class {
        name: "dropped, as is the number behind it",
        least: 500,
        holds: |r| r.follow(|a| !a.is_taken(), |a, b| !b.is_taken() && b.number == a.number.wrapping_add(1)),
    },
    Class {
        name: "a loss, and then a repeat",
        least: 1_000,
        holds: |r| r.follow(|a| a.missing() > 0, |_, b| b.ahead() == 65_535),
    },
    Class {
        name: "a loss, and then another",
        least: 1_000,
        holds: |r| r.follow(|a| a.missing() > 0, |_, b| b.missing() > 0),
    },
];

/// Of the accepted: first numbers, and where 0 comes after 65535.
pub const WRAPS: &[Class<Reading>] = &[
    Class {
        name: "first number 0",
        least: 500,
        holds: |r| r.accepted() && r.frames.first().map_or(false, |f| f.number == 0),
    },
    Class {
        name: "first number 65535",
        least: 500,
        holds: |r| r.accepted() && r.frames.first().map_or(false, |f| f.number == 65_535),
    },
    Class {
        name: "65535 as expected",
        least: 500,
        holds: |r| r.follow(|_| true, |_, b| b.number == 65_535 && b.ahead() == 0),
    },
    Class {
        name: "0 as expected, after 65535",
        least: 500,
        holds: |r| r.follow(|_| true, |_, b| b.number == 0 && b.ahead() == 0),
    },
    Class { name: "65535 missing alone", least: 100, holds: |r| r.takes(|f| f.expected == 65_535 && f.number == 0) },
    Class { name: "0 missing alone", least: 100, holds: |r| r.takes(|f| f.expected == 0 && f.number == 1) },
    Class { name: "missing across the wrap", least: 1_000, holds: |r| r.takes(|f| f.missing() > 0 && over_wrap(f)) },
    Class {
        name: "1,000 missing across the wrap",
        least: 50,
        holds: |r| r.takes(|f| f.missing() == 1000 && over_wrap(f)),
    },
    Class { name: "1,001 ahead across the wrap", least: 50, holds: |r| r.takes(|f| f.ahead() == 1001 && over_wrap(f)) },
    Class {
        name: "a repeat of 65535, where 0 is expected",
        least: 100,
        holds: |r| r.takes(|f| f.expected == 0 && f.number == 65_535),
    },
    Class { name: "a repeat of 0", least: 100, holds: |r| r.takes(|f| f.expected == 1 && f.number == 0) },
    Class {
        name: "late across the wrap",
        least: 500,
        holds: |r| r.takes(|f| late(f, 1000) && f.number > f.expected && f.expected > 0),
    },
    Class { name: "all numbers, and round", least: 4, holds: |r| r.accepted() && r.made.n == MOST_SAMPLES },
];

/// Of the accepted: what was measured.
pub const WORDS: &[Class<Reading>] = &[
    Class { name: "a zero", least: 50_000, holds: |r| r.measures(|word| F32.is_zero(word.into())) },
    Class { name: "a subnormal", least: 50_000, holds: |r| r.measures(|word| F32.is_subnormal(word.into())) },
    Class { name: "an infinity", least: 50_000, holds: |r| r.measures(|word| F32.is_infinite(word.into())) },
    Class { name: "a signalling NaN", least: 50_000, holds: |r| r.measures(|word| F32.is_signalling_nan(word.into())) },
    Class {
        name: "a quiet NaN that is not 7FC00000",
        least: 50_000,
        holds: |r| r.measures(|word| F32.is_quiet_nan(word.into()) && word != MISSING_WORD),
    },
    Class { name: "7FC00000", least: 50_000, holds: |r| r.measures(|word| word == MISSING_WORD) },
];

/// Lengths and rooms.
pub const ROOMS: &[Class<Reading>] = &[
    Class { name: "one byte less than whole frames", least: 2_000, holds: |r| r.remainder == 65 },
    Class { name: "one byte more", least: 2_000, holds: |r| r.remainder == 1 },
    Class { name: "half a frame more", least: 20, holds: |r| r.remainder == 33 },
    Class { name: "another length", least: 2_000, holds: |r| (2..65).contains(&r.remainder) && r.remainder != 33 },
    Class { name: "less than one frame", least: 500, holds: |r| r.remainder > 0 && r.frames.is_empty() },
    Class {
        name: "a length that is wrong, and room enough",
        least: 2_000,
        holds: |r| r.remainder > 0 && !r.room_is_short(),
    },
    Class { name: "samples one short, marks enough", least: 10_000, holds: |r| r.beside(|s| s == -1, |m| m >= 0) },
    Class { name: "marks one short, samples enough", least: 10_000, holds: |r| r.beside(|s| s >= 0, |m| m == -1) },
    Class { name: "both one short", least: 1_000, holds: |r| r.beside(|s| s == -1, |m| m == -1) },
    Class { name: "both exact", least: 10_000, holds: |r| r.beside(|s| s == 0, |m| m == 0) },
    Class { name: "samples exact, marks longer", least: 10_000, holds: |r| r.beside(|s| s == 0, |m| m > 0) },
    Class { name: "samples longer, marks exact", least: 10_000, holds: |r| r.beside(|s| s > 0, |m| m == 0) },
    Class { name: "both longer", least: 10_000, holds: |r| r.beside(|s| s > 0, |m| m > 0) },
];

/// At the most samples, and past them.
pub const LIMITS: &[Class<Reading>] = &[
    Class { name: "1,048,576 samples, no loss", least: 2, holds: |r| r.makes(MOST_SAMPLES, false, 0) },
    Class { name: "1,048,576 samples, with losses", least: 2, holds: |r| r.makes(MOST_SAMPLES, true, 0) },
    Class { name: "16 more, no loss: 2", least: 2, holds: |r| r.makes(MOST_SAMPLES + 16, false, 2) },
    Class { name: "16 more, with losses: 2", least: 2, holds: |r| r.makes(MOST_SAMPLES + 16, true, 2) },
    Class {
        name: "1,048,576, and a frame that is cut: 12",
        least: 2,
        holds: |r| r.made.n == MOST_SAMPLES && r.remainder > 0 && r.read.number == 12,
    },
    Class {
        name: "1,048,576, and dropped ones behind",
        least: 2,
        holds: |r| r.accepted() && r.made.n == MOST_SAMPLES && r.made.dropped > 0,
    },
    Class {
        name: "1,048,576, and samples one short",
        least: 2,
        holds: |r| r.made.n == MOST_SAMPLES && r.beside(|s| s == -1, |m| m >= 0),
    },
    Class {
        name: "1,048,576, and marks one short",
        least: 2,
        holds: |r| r.made.n == MOST_SAMPLES && r.beside(|s| s >= 0, |m| m == -1),
    },
    Class {
        name: "2, where the length is wrong too",
        least: 2,
        holds: |r| r.read.number == 2 && r.remainder > 0 && !r.room_is_short(),
    },
    Class {
        name: "2, where room is short too",
        least: 2,
        holds: |r| r.read.number == 2 && r.remainder == 0 && r.room_is_short(),
    },
    Class {
        name: "2, where neither is",
        least: 2,
        holds: |r| r.read.number == 2 && r.remainder == 0 && !r.room_is_short(),
    },
    Class { name: "more than 2^32 samples", least: 1, holds: |r| r.made.n >> 32 > 0 },
    Class { name: "more than 65,536 dropped", least: 1, holds: |r| r.accepted() && r.made.dropped > 65_536 },
    Class {
        name: "rooms longer than the most samples",
        least: 1,
        holds: |r| r.accepted() && r.rooms.iter().all(|room| *room > MOST_SAMPLES),
    },
];
