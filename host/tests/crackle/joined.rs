//! All flags of a recording joined, against those of the whole, by what the model of the calls has no part in: the
//! flags worked out over the whole recording, what the original rewrites in it, where it starts as the original does,
//! and what the library's own decrackle names in it.
use super::feed::Given;
use cathar_host::both::Wrong;
use cathar_host::cathar;
use cathar_host::count::{Class, Count};
use cathar_host::original;
use cathar_host::recording::{blocks, entry_words};
use cathar_host::whole::{floats, magnitudes, needed, opening_floor, redrawn, Start, MEAN_OVER};
use cathar_host::wrong::flags;
use std::fmt;
use std::ops::Range;

/// How many pieces are told.
const SHOWN: usize = 16;

/// A recording as it was cut, and what came of it.
pub struct Joined {
    pub n: usize,
    pub sensitivity: f32,
    pub start: Start,
    /// How long the pieces are.
    pub lengths: Vec<usize>,
    flags: Vec<bool>,
    /// How many samples decrackle changes, and what the library's answers.
    changed: usize,
    decrackled: u32,
    /// Whether the floor starts at 1e-6, as the original's does, and whether the old start would flag others.
    as_original: bool,
    other_by_old: bool,
    /// Whether a sample would be flagged if a total under 8 could have one.
    stands_out: bool,
    /// Whether it went on from a copy of its state, and whether another run was given pieces in turn with it.
    pub copied: bool,
    pub in_turn: bool,
}

pub type Recordings = Count<Joined>;

impl fmt::Debug for Joined {
    /// The first pieces stand for all.
    fn fmt(&self, to: &mut fmt::Formatter) -> fmt::Result {
        let Joined { n, sensitivity, start, lengths, .. } = self;
        let first = &lengths[..lengths.len().min(SHOWN)];
        let places: Vec<usize> = (0..*n).filter(|place| self.is_flagged(*place)).take(SHOWN).collect();
        let of = format!("{n} samples at {sensitivity} from {start:?}");
        write!(to, "{of}, in {} pieces {first:?}, flagged {places:?}..", lengths.len())
    }
}

/// What the library's decrackle makes of a recording: its answer, the places that it names, and the samples that it
/// leaves.
struct Named {
    answer: u32,
    places: Vec<bool>,
    after: Vec<u32>,
}

fn named(samples: &[u32], sensitivity: f32, start: Start) -> Named {
    let n = samples.len();
    let (mut words, mut marks, mut counts) = (samples.to_vec(), vec![0; n], vec![0; blocks(n)]);
    let (mut journal, mut work) = (vec![0; entry_words(n)], vec![0; needed(n)]);
    let (mut used, mut value) = (0, 0);
    let (decrackle, mark): (Decrackle, u8) = match start {
        Start::Mean => (cathar::decrackle, 7),
        Start::Old => (cathar::decrackle_old_start, 4),
    };
    let answer =
        decrackle(&mut words, &mut marks, &mut counts, &mut journal, &mut used, sensitivity, &mut work, &mut value);
    Named { answer, places: marks.iter().map(|of| *of == mark).collect(), after: words }
}

/// The library's decrackle, from either start.
type Decrackle = fn(&mut [u32], &mut [u8], &mut [u16], &mut [u32], &mut usize, f32, &mut [u32], &mut usize) -> u32;

/// The patterns of these samples.
fn patterns(samples: &[f32]) -> Vec<u32> {
    samples.iter().map(|x| x.to_bits()).collect()
}

/// Whether these flags are never those of an end.
fn spares_ends(flags: &[bool]) -> bool {
    flags.first() != Some(&true) && flags.last() != Some(&true)
}

/// Whether one of these samples but the last is flagged, where there are at least 8 of them; fewer are made 8 by the
/// last one.
fn stands_out(samples: &[f32], sensitivity: f32, start: Start) -> bool {
    let mut longer = samples.to_vec();
    longer.resize(samples.len().max(8), samples.last().copied().unwrap_or(0.0));
    flags(&longer, sensitivity, start)[..samples.len().saturating_sub(1)].contains(&true)
}

/// What is known of a whole recording: its flags, what the original leaves of it, where the floor starts as the
/// original's does, and what the library's decrackle makes of it.
struct Whole {
    samples: Vec<f32>,
    flags: Vec<bool>,
    original: Option<Vec<f32>>,
    named: Named,
}

impl Whole {
    fn new(words: &[u32], sensitivity: f32, start: Start) -> Whole {
        let (samples, named) = (floats(words), named(words, sensitivity, start));
        let as_original = opening_floor(start, &magnitudes(&samples)) == 1e-6;
        let original = as_original.then(|| original::decrackle(&samples, sensitivity));
        Whole { flags: flags(&samples, sensitivity, start), samples, original, named }
    }

    /// The places at which other words stand.
    fn changed<'a>(&'a self, after: &'a [f32]) -> impl Iterator<Item = usize> + 'a {
        let changes = |place: &usize| after[*place].to_bits() != self.samples[*place].to_bits();
        (0..self.samples.len()).filter(changes)
    }

    /// Whether all that the original changes is flagged, and rewriting the flagged runs leaves what the original
    /// leaves. So a sample that is flagged and that the original does not change is one whose new word is the old one.
    fn is_rewritten_by(&self, given: &[bool]) -> [bool; 2] {
        let ours = || patterns(&redrawn(&self.samples, given));
        match &self.original {
            Some(after) => {
                [self.changed(after).all(|place| given[place]), spares_ends(given) && ours() == patterns(after)]
            }
            None => [true, self.named.answer == 8 || spares_ends(given) && ours() == self.named.after],
        }
    }

    /// What does not hold of the flags that were given for it. Where decrackle is refused by 8, for a result out of
    /// range, it names nothing.
    fn broken(&self, given: &[bool]) -> Wrong {
        let as_many = given.len() == self.samples.len();
        let [is_flagged, is_rewritten] = if as_many { self.is_rewritten_by(given) } else { [false; 2] };
        let Named { answer, places, .. } = &self.named;
        let holds = [
            ("as many flags as samples", as_many),
            ("flags of the whole", given == self.flags),
            ("what the original rewrites is flagged", is_flagged),
            ("rewritten by these flags as decrackle does", is_rewritten),
            ("what decrackle names", *answer == 8 || *answer == 0 && given == places),
        ];
        holds.into_iter().filter(|(_, holds)| !holds).map(|(name, _)| name).collect()
    }
}

impl Joined {
    /// A recording of these samples, all in range, for which these flags were given; and what is wrong with them.
    pub fn new(of: Given, given: &[u8]) -> (Joined, Wrong) {
        let Given { samples: words, sensitivity, start, lengths } = of;
        let whole = Whole::new(&words, sensitivity, start);
        let wrong = whole.broken(&given.iter().map(|flag| *flag != 0).collect::<Vec<bool>>());
        let after = redrawn(&whole.samples, &whole.flags);
        let joined = Joined {
            n: words.len(),
            sensitivity,
            start,
            lengths,
            changed: whole.changed(&after).count(),
            decrackled: whole.named.answer,
            as_original: whole.original.is_some(),
            other_by_old: start == Start::Mean && flags(&whole.samples, sensitivity, Start::Old) != whole.flags,
            stands_out: stands_out(&whole.samples, sensitivity, start),
            flags: whole.flags,
            copied: false,
            in_turn: false,
        };
        (joined, wrong)
    }

    fn is_flagged(&self, place: usize) -> bool {
        self.flags.get(place) == Some(&true)
    }

    fn flagged(&self) -> usize {
        self.flags.iter().filter(|flag| **flag).count()
    }

    /// Whether there is a cut, not at an end, before a place that is so.
    fn has_cut_before(&self, so: impl Fn(usize) -> bool) -> bool {
        let mut at = 0;
        self.lengths.iter().any(|length| {
            at += length;
            at > 0 && at < self.n && so(at)
        })
    }

    /// Whether it is from the mean, and has so many samples.
    fn is_mean_of(&self, samples: Range<usize>) -> bool {
        self.start == Start::Mean && samples.contains(&self.n)
    }

    fn has_empty(&self) -> bool {
        self.lengths.contains(&0)
    }

    /// Whether it has samples, in so many pieces that are not empty.
    fn is_in(&self, pieces: usize) -> bool {
        self.n > 1 && self.lengths.iter().filter(|length| **length > 0).count() == pieces
    }
}

/// What the recordings have to be.
pub const CLASSES: &[Class<Joined>] = &[
    Class { name: "recordings", least: 100_000, holds: |_| true },
    Class { name: "total 0", least: 500, holds: |j| j.n == 0 },
    Class { name: "total 1", least: 500, holds: |j| j.n == 1 },
    Class { name: "total 2", least: 500, holds: |j| j.n == 2 },
    Class { name: "total 7", least: 1_000, holds: |j| j.n == 7 },
    Class { name: "total 8", least: 1_000, holds: |j| j.n == 8 },
    Class { name: "total 9", least: 1_000, holds: |j| j.n == 9 },
    Class { name: "total 10 to 99", least: 10_000, holds: |j| (10..100).contains(&j.n) },
    Class { name: "total 100 to 999", least: 1_000, holds: |j| (100..1_000).contains(&j.n) },
    Class { name: "total 1,000 to 4,000", least: 500, holds: |j| (1_000..=4_000).contains(&j.n) },
    Class { name: "a flagged sample", least: 30_000, holds: |j| j.flagged() > 0 },
    Class { name: "none flagged of 8 or more", least: 1_000, holds: |j| j.n >= 8 && j.flagged() == 0 },
    Class { name: "under 8, and one would be flagged", least: 5_000, holds: |j| j.n < 8 && j.stands_out },
    Class { name: "8, and one flagged", least: 500, holds: |j| j.n == 8 && j.flagged() > 0 },
    Class { name: "all in one piece", least: 5_000, holds: |j| j.is_in(1) },
    Class { name: "in two pieces", least: 5_000, holds: |j| j.is_in(2) },
    Class { name: "in pieces of 1", least: 5_000, holds: |j| j.is_in(j.n) },
    Class { name: "in 1,000 pieces or more", least: 50, holds: |j| j.lengths.len() >= 1_000 },
    Class { name: "in no piece at all", least: 50, holds: |j| j.lengths.is_empty() },
    Class { name: "with empty pieces", least: 20_000, holds: Joined::has_empty },
    Class { name: "an empty piece first", least: 5_000, holds: |j| j.lengths.first() == Some(&0) },
    Class { name: "an empty piece last", least: 5_000, holds: |j| j.lengths.last() == Some(&0) },
    Class { name: "two empty pieces in a row", least: 1_000, holds: |j| j.lengths.windows(2).any(|two| two == [0, 0]) },
    Class { name: "the first piece of 1", least: 10_000, holds: |j| j.n > 1 && j.lengths.first() == Some(&1) },
    Class { name: "the last piece of 1", least: 10_000, holds: |j| j.n > 1 && j.lengths.last() == Some(&1) },
    Class {
        name: "flagged before a cut, its flag comes later",
        least: 10_000,
        holds: |j| j.has_cut_before(|at| j.is_flagged(at - 1)),
    },
    Class { name: "flagged behind a cut", least: 10_000, holds: |j| j.has_cut_before(|at| j.is_flagged(at)) },
    Class {
        name: "a flagged run over a cut",
        least: 10_000,
        holds: |j| j.has_cut_before(|at| j.is_flagged(at - 1) && j.is_flagged(at)),
    },
    Class {
        name: "flagged alone before a cut",
        least: 500,
        holds: |j| j.has_cut_before(|at| j.is_flagged(at - 1) && !j.is_flagged(at)),
    },
    Class { name: "place 1 flagged", least: 5_000, holds: |j| j.is_flagged(1) },
    Class { name: "place n-2 flagged", least: 5_000, holds: |j| j.n > 2 && j.is_flagged(j.n - 2) },
    Class { name: "a flagged sample that keeps its word", least: 500, holds: |j| j.changed < j.flagged() },
    Class { name: "a result of decrackle out of range", least: 5, holds: |j| j.decrackled == 8 },
    Class { name: "sensitivity 1 or less", least: 1_000, holds: |j| j.flagged() > 0 && j.sensitivity <= 1.0 },
    Class { name: "sensitivity 10 or more", least: 1_000, holds: |j| j.flagged() > 0 && j.sensitivity >= 10.0 },
    Class {
        name: "sensitivity between",
        least: 10_000,
        holds: |j| j.flagged() > 0 && j.sensitivity > 1.0 && j.sensitivity < 10.0,
    },
    Class { name: "gone on from a copy of the state", least: 10_000, holds: |j| j.copied },
    Class { name: "two runs in turn", least: 50_000, holds: |j| j.in_turn },
    Class { name: "from the old start", least: 100_000, holds: |j| j.start == Start::Old },
    Class { name: "from the mean", least: 100_000, holds: |j| j.start == Start::Mean },
    Class { name: "from the mean, flagged", least: 20_000, holds: |j| j.start == Start::Mean && j.flagged() > 0 },
    Class {
        name: "from the mean, and it is above 1e-6",
        least: 20_000,
        holds: |j| j.start == Start::Mean && !j.as_original && j.flagged() > 0,
    },
    Class {
        name: "from the mean, raised to 1e-6, flagged",
        least: 500,
        holds: |j| j.start == Start::Mean && j.as_original && j.flagged() > 0,
    },
    Class { name: "the old start would flag others", least: 10_000, holds: |j| j.other_by_old },
    Class { name: "from the mean, of 1,024 or fewer", least: 500, holds: |j| j.is_mean_of(900..MEAN_OVER + 1) },
    Class { name: "from the mean, of more", least: 500, holds: |j| j.is_mean_of(MEAN_OVER + 1..5_000) },
];

/// What the recordings of about as many samples as the mean is of have to be.
pub const BESIDE: &[Class<Joined>] = &[
    Class { name: "recordings", least: 8_000, holds: |_| true },
    Class { name: "of 1,023", least: 1_000, holds: |j| j.is_mean_of(MEAN_OVER - 1..MEAN_OVER) },
    Class { name: "of 1,024", least: 1_000, holds: |j| j.is_mean_of(MEAN_OVER..MEAN_OVER + 1) },
    Class { name: "of 1,025", least: 1_000, holds: |j| j.is_mean_of(MEAN_OVER + 1..MEAN_OVER + 2) },
    Class { name: "of 1,026", least: 1_000, holds: |j| j.is_mean_of(MEAN_OVER + 2..MEAN_OVER + 3) },
    Class { name: "from the mean, flagged", least: 1_000, holds: |j| j.start == Start::Mean && j.flagged() > 0 },
    Class {
        name: "place 1,023 flagged, of more",
        least: 20,
        holds: |j| j.n > MEAN_OVER && j.is_flagged(MEAN_OVER - 1),
    },
    Class { name: "place 1,024 flagged", least: 20, holds: |j| j.is_flagged(MEAN_OVER) },
    Class { name: "from the old start", least: 4_000, holds: |j| j.start == Start::Old },
];

/// What the recordings of the most samples have to be.
pub const LONG: &[Class<Joined>] = &[
    Class { name: "of 1,048,576 samples", least: 8, holds: |j| j.n == 1_048_576 },
    Class { name: "flagged, and cut at 480", least: 1, holds: |j| j.flagged() > 0 && j.lengths.contains(&480) },
    Class { name: "flagged, and in one piece", least: 1, holds: |j| j.flagged() > 0 && j.is_in(1) },
    Class { name: "flagged, from the mean", least: 4, holds: |j| j.flagged() > 0 && j.start == Start::Mean },
    Class { name: "flagged, from the old start", least: 4, holds: |j| j.flagged() > 0 && j.start == Start::Old },
];
