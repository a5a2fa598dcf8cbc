//! One proposal, handed to both sides, and what is counted of it.
use cathar_host::both::{Both, Wrong};
use cathar_host::count::{Class, Count};
use cathar_host::draw::Draw;
use cathar_host::proposed::{self, breach, breaches, Breach};
use cathar_host::recording::{entry_words, in_range, Answer, Recording, BLOCK};
use cathar_host::room::{self, Room};
use std::fmt;

/// How many words are written out.
const SHOWN: usize = 16;

/// The word of a zero without its sign, and of 65,536.
const MAGNITUDE: u32 = 0x7fff_ffff;
const LOUDEST: u32 = 0x4780_0000;

/// Samples or a proposal.
pub struct Words(pub Vec<u32>);

impl fmt::Debug for Words {
    fn fmt(&self, to: &mut fmt::Formatter) -> fmt::Result {
        write!(to, "{} words", self.0.len())?;
        self.0.iter().take(SHOWN).try_for_each(|word| write!(to, " {word:08x}"))
    }
}

/// A call, and what the model answers.
#[derive(Debug)]
pub struct Call {
    pub threshold: f32,
    /// The samples before the call.
    pub before: Words,
    pub proposal: Words,
    /// How many journal words were free.
    pub free: usize,
    /// How many samples are at or beyond the threshold, and how many words the call changed.
    pub named: usize,
    pub changed: usize,
    /// Whether the named samples are in several blocks, and whether a count is not that of its block's marks after it.
    pub over_blocks: bool,
    pub has_wrong_count: bool,
    pub answer: Answer,
}

impl Call {
    pub fn n(&self) -> usize {
        self.before.0.len()
    }

    pub fn number(&self) -> u32 {
        self.answer.number()
    }

    pub fn is_accepted(&self) -> bool {
        self.number() == 0
    }

    /// Whether it was accepted and named a sample.
    pub fn names(&self) -> bool {
        self.is_accepted() && self.named > 0
    }

    /// Whether it was accepted and names none.
    fn names_none(&self) -> bool {
        self.is_accepted() && self.named == 0
    }

    /// Whether it named a sample, and one of those before the call has a magnitude that is so beside the threshold's.
    fn has_beside(&self, so: fn(u32, u32) -> bool) -> bool {
        let threshold = self.threshold.to_bits();
        self.names() && self.before.0.iter().any(|word| so(word & MAGNITUDE, threshold))
    }

    /// Whether it was accepted, and such a word is taken for a sample at or beyond the threshold.
    fn takes(&self, so: impl Fn(u32) -> bool) -> bool {
        let beyond = |word: &u32| f32::from_bits(*word).abs() >= self.threshold;
        self.names() && self.proposal.0.iter().any(|word| beyond(word) && so(*word))
    }

    /// Whether it was refused by 7, and a sample behind the place that it tells is not in range either.
    fn has_more_out_of_range(&self) -> bool {
        self.number() == 7 && self.before.0[self.answer.value() + 1..].iter().any(|word| !in_range(*word))
    }

    /// Whether it was refused by 7 for such a sample.
    fn is_refused_for(&self, so: fn(f32) -> bool) -> bool {
        self.number() == 7 && so(f32::from_bits(self.before.0[self.answer.value()]))
    }

    /// Whether it was refused by 15 for another length.
    fn is_of_other_length(&self) -> bool {
        self.number() == 15 && self.proposal.0.len() != self.n()
    }

    /// Whether it was refused by 15 for a word that breaks the rule so.
    fn breaks(&self, rule: Breach, so: impl Fn(u32, u32) -> bool) -> bool {
        if self.number() != 15 || self.is_of_other_length() {
            return false;
        }
        let (sample, word) = (self.before.0[self.answer.value()], self.proposal.0[self.answer.value()]);
        breach(sample, word, self.threshold) == Some(rule) && so(sample, word)
    }

    /// Whether it was refused by 15 for a word that breaks the rule, at such a place. The number of samples is told.
    fn breaks_at(&self, so: fn(usize, usize) -> bool) -> bool {
        self.number() == 15 && !self.is_of_other_length() && so(self.answer.value(), self.n())
    }

    /// Whether it was refused by 15, and a word behind the place that it tells breaks the rule too.
    fn breaks_more(&self) -> bool {
        self.breaks_at(|_, _| true) && breaches(&self.before.0, &self.proposal.0, self.threshold).nth(1).is_some()
    }

    /// Whether the journal has no room for what would be named.
    fn lacks_room(&self) -> bool {
        self.named > 0 && self.free < entry_words(self.named)
    }
}

pub type Calls = Count<Call>;

/// Whether a sample stands as it has to after an acceptance, whoever made the proposal, by its word and mark before and
/// after: under the threshold it has both as before; and at or beyond it, it is in range, on its side, and marked 8.
fn stands([was, is]: [(u32, u8); 2], threshold: f32) -> bool {
    let [x, y] = [was, is].map(|(word, _)| f32::from_bits(word));
    if x.abs() < threshold {
        return is == was;
    }
    let is_on_side = x >= threshold && y >= threshold || x <= -threshold && y <= -threshold;
    is_on_side && in_range(is.0) && is.1 == 8
}

/// What is wrong whatever the model says: a change by a call that was refused or named nothing, samples that are not
/// the proposal after an acceptance, or one that does not stand as it has to, and a used that has not risen by its
/// entry.
fn broken(before: &Recording, after: &Recording, call: (f32, &[u32]), answer: Answer) -> Wrong {
    let (threshold, proposal) = call;
    if answer.number() != 0 || answer.value() == 0 {
        let is_same = before == after && (answer.number() != 0 || after.samples == proposal);
        return if is_same { Vec::new() } else { vec!["the recording from what it was"] };
    }
    let each = |of: &Recording| of.samples.iter().copied().zip(of.marks.iter().copied()).collect::<Vec<_>>();
    let stand = each(before).into_iter().zip(each(after)).all(|(was, is)| stands([was, is], threshold));
    let wrong = [
        ("the samples from the proposal", after.samples != proposal),
        ("a sample that does not stand as it has to", !stand),
        ("used from what the entry takes", after.used != before.used + entry_words(answer.value())),
    ];
    wrong.into_iter().filter(|(_, wrong)| *wrong).map(|(name, _)| name).collect()
}

/// Both sides are handed this proposal. The answer is the model's, which never gives 8.
pub fn propose(count: &mut Calls, both: &mut Both, threshold: f32, proposal: &[u32]) -> Answer {
    let recording = both.model.clone();
    let free = recording.journal.len().saturating_sub(recording.used);
    let (answer, mut wrong) = both.declip_proposed(threshold, proposal);
    assert_ne!(answer.number(), 8, "8 isn't given");
    wrong.extend(broken(&recording, &both.model, (threshold, proposal), answer));
    let before = recording.samples;
    let changed = before.iter().zip(&both.model.samples).filter(|(old, new)| old != new).count();
    let places = proposed::named(&before, threshold);
    let block = |place: Option<&usize>| place.map(|place| place / BLOCK);
    let (named, over_blocks) = (places.len(), block(places.first()) != block(places.last()));
    let (before, proposal) = (Words(before), Words(proposal.to_vec()));
    let has_wrong_count = both.model.has_wrong_count();
    let call = Call { threshold, before, proposal, free, named, changed, over_blocks, has_wrong_count, answer };
    count.take(&call, &wrong);
    answer
}

/// Both sides are handed this proposal for these samples, mostly with enough room in the journal.
pub fn propose_any(count: &mut Calls, draw: &mut Draw, samples: &[u32], threshold: f32, proposal: &[u32]) -> Answer {
    let entry = match proposed::named(samples, threshold).len() {
        0 => 0,
        m => entry_words(m),
    };
    let free = Room::any(draw).of(draw, entry);
    let model = room::recording(draw, samples.to_vec(), free);
    propose(count, &mut Both::new(model), threshold, proposal)
}

/// What is met wherever the original's proposals are.
pub const ACCEPTED: &[Class<Call>] = &[
    Class { name: "accepted", least: 20_000, holds: Call::is_accepted },
    Class { name: "naming a sample", least: 20_000, holds: Call::names },
    Class { name: "naming none", least: 1_000, holds: Call::names_none },
    Class { name: "naming every sample", least: 500, holds: |c| c.names() && c.named == c.n() },
    Class { name: "changing a sample", least: 10_000, holds: |c| c.is_accepted() && c.changed > 0 },
    Class { name: "changing none of those named", least: 100, holds: |c| c.names() && c.changed == 0 },
    Class { name: "a named sample keeps its word", least: 1_000, holds: |c| c.names() && c.changed < c.named },
    Class { name: "on 0 samples", least: 50, holds: |c| c.is_accepted() && c.n() == 0 },
    Class { name: "on 1 sample", least: 50, holds: |c| c.is_accepted() && c.n() == 1 },
    Class { name: "on 1,000 samples or more", least: 20, holds: |c| c.names() && c.n() >= 1_000 },
    Class { name: "journal exact", least: 5_000, holds: |c| c.names() && c.free == entry_words(c.named) },
    Class { name: "naming none, and no free journal word", least: 100, holds: |c| c.names_none() && c.free == 0 },
    Class { name: "over several blocks", least: 500, holds: |c| c.names() && c.over_blocks },
    Class { name: "leaving a wrong count of another block", least: 10, holds: |c| c.names() && c.has_wrong_count },
    Class {
        name: "naming none, and leaving a wrong count",
        least: 100,
        holds: |c| c.names_none() && c.has_wrong_count,
    },
    Class { name: "a sample at the threshold", least: 5_000, holds: |c| c.has_beside(|at, of| at == of) },
    Class { name: "a sample one step below it", least: 500, holds: |c| c.has_beside(|at, of| at + 1 == of) },
    Class { name: "a sample one step above it", least: 1_000, holds: |c| c.has_beside(|at, of| at == of + 1) },
    Class { name: "the threshold taken", least: 5_000, holds: |c| c.takes(|word| word == c.threshold.to_bits()) },
    Class {
        name: "the negative threshold taken",
        least: 5_000,
        holds: |c| c.takes(|word| word == (-c.threshold).to_bits()),
    },
    Class { name: "65,536 taken", least: 1_000, holds: |c| c.takes(|word| word == LOUDEST) },
    Class {
        name: "-65,536 taken",
        least: 1_000,
        holds: |c| c.takes(|word| word & MAGNITUDE == LOUDEST && word >> 31 == 1),
    },
    Class { name: "threshold the least above 0", least: 20, holds: |c| c.names() && c.threshold.to_bits() == 1 },
    Class { name: "threshold subnormal", least: 20, holds: |c| c.names() && c.threshold.is_subnormal() },
    Class { name: "threshold above 65,536", least: 20, holds: |c| c.is_accepted() && c.threshold > 65536.0 },
    Class { name: "answered 4", least: 100, holds: |c| c.number() == 4 },
    Class { name: "answered 9", least: 500, holds: |c| c.number() == 9 },
    Class { name: "journal one short", least: 500, holds: |c| c.number() == 9 && c.free + 1 == entry_words(c.named) },
];

/// What is met beside that where the recording or the proposal is such that it is refused by 7 or 15.
pub const REFUSED: &[Class<Call>] = &[
    Class { name: "answered 7", least: 1_000, holds: |c| c.number() == 7 },
    Class { name: "answered 7 at the lowest of several", least: 500, holds: Call::has_more_out_of_range },
    Class { name: "answered 7 for a NaN", least: 100, holds: |c| c.is_refused_for(f32::is_nan) },
    Class { name: "answered 7 for an infinity", least: 100, holds: |c| c.is_refused_for(f32::is_infinite) },
    Class { name: "answered 7 for another", least: 100, holds: |c| c.is_refused_for(f32::is_finite) },
    Class { name: "answered 15", least: 5_000, holds: |c| c.number() == 15 },
    Class { name: "at the first place", least: 500, holds: |c| c.breaks_at(|place, _| place == 0) },
    Class { name: "at the last place", least: 500, holds: |c| c.breaks_at(|place, n| place + 1 == n) },
    Class { name: "at another place", least: 500, holds: |c| c.breaks_at(|place, n| place > 0 && place + 1 < n) },
    Class { name: "at the lowest of several", least: 1_000, holds: Call::breaks_more },
    Class {
        name: "for an infinity",
        least: 100,
        holds: |c| c.breaks(Breach::Range, |_, word| f32::from_bits(word).is_infinite()),
    },
    Class {
        name: "for another word not in range",
        least: 100,
        holds: |c| c.breaks(Breach::Range, |_, word| f32::from_bits(word).is_finite()),
    },
    Class { name: "15 where the journal lacks room", least: 100, holds: |c| c.number() == 15 && c.lacks_room() },
];

/// What is met beside that where the proposals are not the original's.
pub const BROKEN: &[Class<Call>] = &[
    Class {
        name: "for a NaN",
        least: 100,
        holds: |c| c.breaks(Breach::Range, |_, word| f32::from_bits(word).is_nan()),
    },
    Class { name: "on the most samples", least: 2, holds: |c| c.names() && c.n() == 1_048_576 },
    Class { name: "naming all of the most samples", least: 1, holds: |c| c.names() && c.named == 1_048_576 },
    Class {
        name: "15, a word too few",
        least: 500,
        holds: |c| c.is_of_other_length() && c.proposal.0.len() + 1 == c.n(),
    },
    Class {
        name: "15, a word too many",
        least: 500,
        holds: |c| c.is_of_other_length() && c.proposal.0.len() == c.n() + 1,
    },
    Class { name: "15, no words", least: 500, holds: |c| c.is_of_other_length() && c.proposal.0.is_empty() },
    Class { name: "15, words for no samples", least: 100, holds: |c| c.is_of_other_length() && c.n() == 0 },
    Class { name: "15 where nothing would be named", least: 500, holds: |c| c.number() == 15 && c.named == 0 },
    Class { name: "for bits under the threshold", least: 5_000, holds: |c| c.breaks(Breach::Bits, |_, _| true) },
    Class {
        name: "for the sign of a zero",
        least: 500,
        holds: |c| c.breaks(Breach::Bits, |was, word| was & MAGNITUDE == 0 && word == was ^ 1 << 31),
    },
    Class {
        name: "for the last bit of a sample",
        least: 100,
        holds: |c| c.breaks(Breach::Bits, |was, word| word == was ^ 1),
    },
    Class {
        name: "for a word under the threshold",
        least: 1_000,
        holds: |c| c.breaks(Breach::Side, |was, word| was >> 31 == word >> 31),
    },
    Class {
        name: "for one a step under it",
        least: 500,
        holds: |c| c.breaks(Breach::Side, |_, word| (word & MAGNITUDE) + 1 == c.threshold.to_bits()),
    },
    Class {
        name: "for a word on the other side, from above",
        least: 500,
        holds: |c| c.breaks(Breach::Side, |was, word| was >> 31 < word >> 31),
    },
    Class {
        name: "for a word on the other side, from below",
        least: 500,
        holds: |c| c.breaks(Breach::Side, |was, word| was >> 31 > word >> 31),
    },
    Class { name: "answered 1", least: 50, holds: |c| c.number() == 1 },
    Class { name: "answered 14", least: 50, holds: |c| c.number() == 14 },
    Class { name: "answered 2", least: 20, holds: |c| c.number() == 2 },
    Class { name: "answered 3", least: 50, holds: |c| c.number() == 3 },
    Class { name: "answered 7 at the first place", least: 100, holds: |c| c.number() == 7 && c.answer.value() == 0 },
    Class {
        name: "answered 7 at the last place",
        least: 100,
        holds: |c| c.number() == 7 && c.answer.value() + 1 == c.n(),
    },
    Class { name: "answered 7, naming none", least: 100, holds: |c| c.number() == 7 && c.named == 0 },
];
