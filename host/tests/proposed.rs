//! Declip by a proposal against the model of the recording and the original's `project_gamma`: every answer and value,
//! and every byte of the lent memory, the proposal among it, with what stands around each part of it.
//!
//! `CATHAR_SEED` sets the seed.
mod proposed {
    pub mod calls;
    pub mod limits;
    pub mod short;
}

use cathar_host::both::Both;
use cathar_host::count::Count;
use cathar_host::damage;
use cathar_host::draw::{self, Draw};
use cathar_host::proposals::{self, candidates, damaged, proposal, Among, Damage};
use cathar_host::proposed::{is_allowed, named};
use cathar_host::recording::{counted, entry_words, in_range, Answer, Recording};
use cathar_host::room::{self, Room};
use cathar_host::settings::{self, HUGE, NO_THRESHOLDS, TINY};
use cathar_host::shapes::Shape;
use proposed::calls::{propose, propose_any, Calls, ACCEPTED, BROKEN, REFUSED};
use proposed::limits::{self, Faults};
use proposed::short;
use std::ops::Range;

/// How many recordings are projected onto for each shape, with candidates of each kind: short ones, longer ones, and
/// ones of some thousand samples.
const SHORT: u64 = 4_000;
const SHAPED: u64 = 800;
const LONG: u64 = 5;

/// How many proposals that keep to the rule are tried: short ones, ones of some blocks, and of some thousand samples.
const KEPT: [(u64, Range<u64>); 3] = [(30_000, 0..60), (1_500, 200..800), (100, 1_000..4_001)];

/// How many are damaged in each way, and how many in several ways at once.
const DAMAGED: u64 = 5_000;
const SEVERAL: u64 = 20_000;

/// How many recordings are tried with thresholds beside each of their samples; how often each choice of refusals is
/// tried, with few samples; and how many proposals are taken back.
const BESIDE: u64 = 1_000;
const REPEATED: u64 = 20;
const TAKEN_BACK: u64 = 4_000;

/// Any samples in range, of any shape and of so many.
fn any_samples(draw: &mut Draw, sizes: &Range<u64>) -> Vec<u32> {
    let n = sizes.start + draw.below(sizes.end - sizes.start);
    let mut samples = Shape::ALL[draw.below(Shape::ALL.len() as u64) as usize].samples(draw, n as usize);
    if n > 0 && draw.below(3) == 0 {
        damage::clip(draw, &mut samples);
    }
    samples
}

/// Both sides are handed what the original makes of candidates for these samples, in range all of them. Where it is
/// allowed at all, what is in range is accepted, and left bit for bit; and what is not is refused at the lowest place.
fn project(count: &mut Calls, draw: &mut Draw, samples: &[u32], among: Among) {
    let threshold = settings::threshold(draw, samples);
    let proposal = proposals::projected(&candidates(draw, samples, threshold, among), samples, threshold);
    let (m, room) = (named(samples, threshold).len(), Room::any(draw));
    let loud = proposal.iter().position(|word| !in_range(*word));
    assert!(loud.is_none() || among == Among::OrAny || !is_allowed(threshold), "candidates in range or NaN");
    let expected = match loud {
        _ if !is_allowed(threshold) => Answer::Refused(4),
        Some(place) => Answer::RefusedAt(15, place),
        None if m > 0 && room == Room::OneShort => Answer::Refused(9),
        None => Answer::Accepted(m),
    };
    let free = if m > 0 { room.of(draw, entry_words(m)) } else { draw.below(3) as usize };
    let mut both = Both::new(room::recording(draw, samples.to_vec(), free));
    let answer = propose(count, &mut both, threshold, &proposal);
    assert_eq!(answer, expected, "of {samples:x?} at {threshold}, {proposal:x?} proposed");
    let left = if answer.number() == 0 { &proposal } else { samples };
    assert!(both.model.samples == *left, "what is left of {samples:x?} at {threshold}");
}

/// "Whatever `project_gamma` makes of in-range or NaN candidates from an in-range recording is accepted."
#[test]
fn projections() {
    let seed = draw::seed();
    let mut draw = Draw::new(seed);
    let mut count = Count::new("cathar_declip_proposed of what project_gamma makes", &[ACCEPTED, REFUSED]);
    for (source, among) in [
        ("candidates in range", Among::InRange),
        ("candidates in range or NaN", Among::OrNan),
        ("any candidates", Among::OrAny),
    ] {
        count.begin(source);
        for (each, sizes) in [(SHORT, 0..21), (SHAPED, 21..401), (LONG, 1_000..4_001)] {
            for _ in 0..each * Shape::ALL.len() as u64 {
                let samples = any_samples(&mut draw, &sizes);
                project(&mut count, &mut draw, &samples, among);
            }
        }
    }
    count.begin("from recordings that are not in range");
    for _ in 0..SHORT {
        let mut samples = any_samples(&mut draw, &(1..60));
        let threshold = settings::threshold(&mut draw, &samples);
        let candidates = candidates(&mut draw, &samples, threshold, Among::OrNan);
        (0..1 + draw.below(3)).for_each(|_| damage::overload(&mut draw, &mut samples));
        let proposal = proposals::projected(&candidates, &samples, threshold);
        let place = samples.iter().position(|word| !in_range(*word)).expect("one is not");
        let answer = propose_any(&mut count, &mut draw, &samples, threshold, &proposal);
        let expected = if is_allowed(threshold) { Answer::RefusedAt(7, place) } else { Answer::Refused(4) };
        assert_eq!(answer, expected, "of {samples:x?} at {threshold}");
    }
    count.close(seed);
}

/// A recording in range, a threshold that is allowed, and a proposal that keeps to the rule.
fn kept(draw: &mut Draw) -> (Vec<u32>, f32, Vec<u32>) {
    loop {
        let samples = any_samples(draw, &(0..40));
        let threshold = settings::threshold(draw, &samples);
        if is_allowed(threshold) {
            let proposal = proposal(draw, &samples, threshold);
            return (samples, threshold, proposal);
        }
    }
}

/// Proposals that keep to the rule, at any threshold.
fn propose_kept(count: &mut Calls, draw: &mut Draw) {
    count.begin("that keep to the rule, at any threshold");
    for (times, sizes) in KEPT {
        for _ in 0..times {
            let samples = any_samples(draw, &sizes);
            let threshold = settings::threshold(draw, &samples);
            let proposal = proposal(draw, &samples, threshold);
            propose_any(count, draw, &samples, threshold, &proposal);
        }
    }
}

/// Proposals that are damaged in each way, and in several at once. The place that is told is the lowest of those.
fn propose_damaged(count: &mut Calls, draw: &mut Draw) {
    count.begin("damaged in one way");
    for damage in Damage::OF_WORDS.into_iter().chain(Damage::OF_LENGTH) {
        let mut left = DAMAGED;
        while left > 0 {
            let (samples, threshold, mut proposal) = kept(draw);
            if let Some(place) = damage.done(draw, &samples, threshold, &mut proposal) {
                let answer = propose_any(count, draw, &samples, threshold, &proposal);
                assert_eq!(answer, Answer::RefusedAt(15, place), "{damage:?} of {samples:x?} at {threshold}");
                left -= 1;
            }
        }
    }
    count.begin("damaged in several ways");
    for _ in 0..SEVERAL {
        let (samples, threshold, mut proposal) = kept(draw);
        let mut place = damaged(draw, &samples, threshold, &mut proposal, 5);
        if draw.below(8) == 0 {
            let damage = Damage::OF_LENGTH[draw.below(3) as usize];
            place = damage.done(draw, &samples, threshold, &mut proposal).or(place);
        }
        let answer = propose_any(count, draw, &samples, threshold, &proposal);
        let told = place.map_or(answer.number() != 15, |place| answer == Answer::RefusedAt(15, place));
        assert!(told, "damaged at {place:?} at most, {answer:?}");
    }
}

/// Thresholds that are a sample's magnitude, and the next ones below and above it; those that are tiny and huge; and
/// those that are not allowed. The proposal is what the original makes, the samples as they are, or is damaged.
fn propose_at_thresholds(count: &mut Calls, draw: &mut Draw) {
    count.begin("thresholds beside each sample");
    for _ in 0..BESIDE {
        let samples = any_samples(draw, &(1..12));
        let beside = samples.iter().map(|word| word & 0x7fff_ffff).flat_map(|word| [word, word + 1, word.max(1) - 1]);
        for threshold in beside.map(f32::from_bits).chain(TINY).chain(HUGE).chain(NO_THRESHOLDS) {
            let mut proposal = match draw.below(2) {
                0 => samples.clone(),
                _ => proposal(draw, &samples, threshold),
            };
            if is_allowed(threshold) && draw.below(4) == 0 {
                damaged(draw, &samples, threshold, &mut proposal, 2);
            }
            let answer = propose_any(count, draw, &samples, threshold, &proposal);
            assert!(is_allowed(threshold) || answer == Answer::Refused(4), "a threshold of {threshold}");
        }
    }
}

/// Every choice of the refusals, and each number of counts.
fn propose_refused(count: &mut Calls, draw: &mut Draw) {
    count.begin("several refusals apply");
    for faults in Faults::each() {
        for _ in 0..if faults.has(2) { 1 } else { REPEATED } {
            let ((model, threshold, proposal), expected) = faults.made(draw);
            let answer = propose(count, &mut Both::new(model), threshold, &proposal);
            assert_eq!(answer, expected, "the first of those that apply");
        }
    }
    count.begin("each number of counts");
    limits::counts(draw, &mut |(model, threshold, proposal)| {
        propose(count, &mut Both::new(model), threshold, &proposal);
    });
}

/// All short recordings over some words with all short proposals over the same.
fn propose_short(count: &mut Calls, draw: &mut Draw) {
    count.begin("all of up to 2 samples, 16 words, 6 thresholds");
    for threshold in short::THRESHOLDS {
        for n in 0..3 {
            short::each(&short::WORDS, n, n, &mut |samples, proposal| {
                propose_any(count, draw, samples, threshold, proposal);
            });
        }
    }
    count.begin("all of 3 samples, 8 words");
    short::each(&short::FEWER, 3, 3, &mut |samples, proposal| {
        propose_any(count, draw, samples, 1.0, proposal);
    });
    count.begin("all of up to 3 samples, proposals of up to 3 words");
    for (n, words) in (0..4).flat_map(|n| (0..4).map(move |words| (n, words))) {
        short::each(&short::FEWEST, n, words, &mut |samples, proposal| {
            propose_any(count, draw, samples, 1.0, proposal);
        });
    }
}

#[test]
fn proposals() {
    let seed = draw::seed();
    let mut draw = Draw::new(seed);
    let mut count = Count::new("cathar_declip_proposed against the model", &[ACCEPTED, REFUSED, BROKEN]);
    propose_refused(&mut count, &mut draw);
    propose_kept(&mut count, &mut draw);
    propose_damaged(&mut count, &mut draw);
    propose_at_thresholds(&mut count, &mut draw);
    count.begin("clipped beside the ends of blocks");
    limits::beside_blocks(&mut draw, &mut |draw, samples, proposal| {
        propose_any(&mut count, draw, samples, limits::THRESHOLD, proposal);
    });
    propose_short(&mut count, &mut draw);
    count.begin("the most samples");
    limits::most(&mut draw, &mut |(model, threshold, proposal)| {
        propose(&mut count, &mut Both::new(model), threshold, &proposal);
    });
    count.close(seed);
}

/// What a proposal writes, an undo takes back: samples, marks, which are any, and counts; and its entry has mark 8, as
/// have all samples that it names.
#[test]
fn a_proposal_is_taken_back() {
    let mut draw = Draw::new(draw::seed());
    let mut taken = 0;
    while taken < TAKEN_BACK {
        let (samples, threshold, proposal) = kept(&mut draw);
        let places = named(&samples, threshold);
        let m = places.len();
        let mut before = room::recording(&mut draw, samples, entry_words(m));
        before.counts = counted(&before.marks);
        before.journal[before.used..].fill(0);
        let mut both = Both::new(before.clone());
        assert_eq!(both.declip_proposed(threshold, &proposal), (Answer::Accepted(m), vec![]));
        if m > 0 {
            let marks = &both.model.marks;
            let right = |place: usize| if places.contains(&place) { 8 } else { before.marks[place] };
            assert!((0..marks.len()).all(|place| marks[place] == right(place)));
            assert_eq!(both.model.journal[both.model.used - 2..], [m as u32, 8]);
            assert_eq!(both.undo(), (Answer::Accepted(m), vec![]), "the undo");
            taken += 1;
        }
        assert!(both.model == before, "what is left at {threshold}");
    }
    println!("taken back: {taken}");
}

/// By hand: 0.5, 1 and -2, opened, at the threshold 1. Each proposal, how many journal words there are, and the answer.
#[test]
fn sums() {
    let opened = |journal| Recording::new(vec![0x3f00_0000, 0x3f80_0000, 0xc000_0000], vec![0; 3], vec![0; journal], 0);
    let mut both = Both::new(opened(8));
    assert_eq!(both.declip_proposed(1.0, &[0x3f00_0000, 0x3fc0_0000, 0xc000_0000]), (Answer::Accepted(2), vec![]));
    assert_eq!(both.model.samples, [0x3f00_0000, 0x3fc0_0000, 0xc000_0000]);
    assert_eq!((&both.model.marks[..], &both.model.counts[..], both.model.used), (&[0, 8, 8][..], &[2][..], 8));
    assert_eq!(both.model.journal, [1, 0x3f80_0000, 0, 2, 0xc000_0000, 0, 2, 8]);
    for (proposal, journal, answer) in [
        (&[0x3f00_0000, 0x3fc0_0000, 0xc000_0000][..], 7, Answer::Refused(9)),
        (&[0xbf00_0000, 0x3f7f_ffff, 0x4000_0000], 7, Answer::RefusedAt(15, 0)),
        (&[0x3f00_0000, 0x3f7f_ffff, 0x4000_0000], 8, Answer::RefusedAt(15, 1)),
        (&[0x3f00_0000, 0x3f80_0000, 0x4000_0000], 8, Answer::RefusedAt(15, 2)),
        (&[0x3f00_0000, 0x3f80_0000, 0xc780_0001], 8, Answer::RefusedAt(15, 2)),
        (&[0x3f00_0000, 0x3f80_0000], 8, Answer::RefusedAt(15, 0)),
    ] {
        let mut both = Both::new(opened(journal));
        assert_eq!(both.declip_proposed(1.0, proposal), (answer, vec![]), "{proposal:x?}");
        assert_eq!(both.model, opened(journal), "{proposal:x?}");
    }
    let projected = proposals::projected(&[0x4040_0000, 0x7fc0_0000, 0xbfc0_0000], &opened(0).samples, 1.0);
    assert_eq!(projected, [0x3f00_0000, 0x3f80_0000, 0xbfc0_0000]);
}
