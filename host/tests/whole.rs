//! The four repairs over the whole recording against the model of the recording and the original Rust: every answer
//! and value, and every byte of the lent memory, with what stands around each part of it.
//!
//! `CATHAR_SEED` sets the seed.
mod whole {
    pub mod calls;
    pub mod clipped;
    pub mod crackled;
    pub mod levels;
    pub mod limits;
    pub mod short;
}

use cathar_host::both::Both;
use cathar_host::count::Count;
use cathar_host::damage;
use cathar_host::draw::{self, Draw};
use cathar_host::recording::{counted, entry_words, Answer, Recording};
use cathar_host::room::{self, Room};
use cathar_host::settings;
use cathar_host::shapes::{at_limit, beside_limit, Shape};
use cathar_host::whole::{floats, needed, Repair, Start};
use std::ops::Range;
use std::panic::catch_unwind;
use whole::calls::{names, repair, repair_any, repair_with, Calls, COMMON};
use whole::limits::{self, Case, Faults};
use whole::{clipped, crackled, levels, short};

/// How many recordings are tried with each repair: random short ones; of each shape, for every small number of
/// samples, of up to 400 and of some thousand.
const RANDOM: u64 = 12_000;
const FEW: u64 = 10;
const SHAPED: u64 = 1_200;
const LONG: u64 = 7;

/// How many recordings are declipped whose last result is rounded above 65,536 or just not.
const LOUD: usize = 160;

/// How many recordings have clicks that stand out, how many of each shape and number of samples are beside the 1,024
/// samples that the mean is of, how many have a click beside the limit, and how many are decrackled and taken back.
const CLICKED: u64 = 30_000;
const BESIDE: u64 = 40;
const BESIDE_LIMIT: u64 = 2_000;
const TAKEN_BACK: u64 = 2_000;

/// Any settings of one repair, for these samples.
type Settings = fn(&mut Draw, &[u32]) -> Repair;

/// Recordings beside the end of a block, all short ones, random ones, ones of each shape and long ones, each with any
/// settings.
fn repair_usual(count: &mut Calls, draw: &mut Draw, settings: Settings) {
    count.begin("each shape, beside the end of a block");
    for n in [255, 256, 257, 258, 259, 511, 512, 513, 514, 515, 768, 769, 770] {
        repair_shapes(count, draw, settings, FEW, n..n + 1);
    }
    for (source, which) in [
        ("all recordings of up to 5 samples, 8 words", short::ALL_WORDS),
        ("all of 6 samples, 5 words", short::FIVE_WORDS),
        ("all of 7 to 9 samples, 3 words", short::THREE_WORDS),
    ] {
        count.begin(source);
        short::each(which, &mut |samples| {
            let how = settings(draw, samples);
            repair_any(count, draw, samples, how);
        });
    }
    count.begin("random ones of 7 to 60 samples");
    for _ in 0..RANDOM {
        let samples = short::random(draw);
        let how = settings(draw, &samples);
        repair_any(count, draw, &samples, how);
    }
    count.begin("each shape, every number of samples to 20");
    for n in 0..21 {
        repair_shapes(count, draw, settings, FEW, n..n + 1);
    }
    count.begin("each shape, 6 to 400 samples");
    repair_shapes(count, draw, settings, SHAPED, 6..401);
    count.begin("each shape, 1,000 to 4,000 samples");
    repair_shapes(count, draw, settings, LONG, 1_000..4_001);
}

/// So many recordings of each shape.
fn repair_shapes(count: &mut Calls, draw: &mut Draw, settings: Settings, each: u64, sizes: Range<u64>) {
    for shape in Shape::ALL {
        for _ in 0..each {
            let n = sizes.start + draw.below(sizes.end - sizes.start);
            let samples = shape.samples(draw, n as usize);
            let how = settings(draw, &samples);
            repair_any(count, draw, &samples, how);
        }
    }
}

/// Calls to which several refusals apply, every choice of them, and each number of counts.
fn repair_refused(count: &mut Calls, draw: &mut Draw, case: &Case) {
    count.begin("several refusals apply");
    for faults in Faults::each() {
        if let Some((model, how, work)) = faults.made(draw, case) {
            let answer = repair(count, &mut Both::new(model), how, work);
            assert_eq!(answer.number(), faults.answer(), "the first of those that apply to {how:?}");
        }
    }
    count.begin("each number of counts");
    limits::counts(draw, case, &mut |model, how, work| {
        repair(count, &mut Both::new(model), how, work);
    });
}

/// Recordings of the most samples and of one more.
fn repair_large(count: &mut Calls, draw: &mut Draw, case: &Case) {
    count.begin("beside the most samples");
    limits::large(draw, case, &mut |model, how, work| {
        repair(count, &mut Both::new(model), how, work);
    });
}

#[test]
fn declips() {
    let seed = draw::seed();
    let mut draw = Draw::new(seed);
    let mut count = Count::new("cathar_declip against model and original", &[COMMON, clipped::CLASSES]);
    let case = limits::declip(&mut draw);
    repair_refused(&mut count, &mut draw, &case);
    repair_usual(&mut count, &mut draw, settings::declip);
    count.begin("every choice of clipped samples, of 6 to 13");
    clipped::each(&mut draw, &mut |draw, samples, how| {
        repair_any(&mut count, draw, samples, how);
    });
    count.begin("of 8,196 samples and more");
    for more in 0..LOUD {
        let samples = clipped::loud(&mut draw, clipped::FEWEST_LOUD + more);
        let threshold = [1.0, 2.0][more % 2];
        repair_with(&mut count, &mut draw, &samples, Repair::Declip { threshold }, [Room::Exact; 2]);
    }
    count.begin("thresholds that are not allowed");
    for threshold in settings::NO_THRESHOLDS {
        for n in 0..20 {
            let samples = Shape::Words.samples(&mut draw, n);
            let answer = repair_any(&mut count, &mut draw, &samples, Repair::Declip { threshold });
            assert_eq!(answer, Answer::Refused(4), "a threshold of {threshold}");
        }
    }
    repair_large(&mut count, &mut draw, &case);
    count.close(seed);
}

/// Every sensitivity on which something turns, on samples with clicks of every magnitude.
fn decrackle_clicked(count: &mut Calls, draw: &mut Draw, start: Start) {
    for shape in Shape::ALL {
        for sensitivity in settings::SENSITIVITIES.into_iter().chain([f32::NAN]) {
            for n in [7, 8, 9, 30, 100, 300, 1_000] {
                let mut samples = shape.samples(draw, n);
                damage::click(draw, &mut samples);
                repair_any(count, draw, &samples, Repair::Decrackle { sensitivity, start });
            }
        }
    }
}

/// All that is tried of decrackle, from one start as from the other.
fn decrackle_from(count: &mut Calls, draw: &mut Draw, start: Start, settings: Settings) {
    repair_refused(count, draw, &limits::decrackle(start));
    repair_usual(count, draw, settings);
    count.begin("every choice of flagged samples, of 7 to 14");
    crackled::each(draw, &mut |draw, samples| {
        let how = settings(draw, samples);
        repair_any(count, draw, samples, how);
    });
    count.begin("a click at the limit, in silence");
    at_limit(&mut |samples, sensitivity| {
        repair_any(count, draw, samples, Repair::Decrackle { sensitivity, start });
    });
    count.begin("every sensitivity, on samples with clicks");
    decrackle_clicked(count, draw, start);
    count.begin("clicks that stand out");
    for _ in 0..CLICKED {
        let samples = crackled::clicked(draw);
        let how = settings(draw, &samples);
        repair_any(count, draw, &samples, how);
    }
    count.begin("each shape, 1,022 to 1,027 samples");
    for n in crackled::BESIDE {
        for shape in Shape::ALL {
            for _ in 0..BESIDE {
                let samples = crackled::beside(draw, shape, n);
                let how = settings(draw, &samples);
                repair_any(count, draw, &samples, how);
            }
        }
    }
    count.begin("a click beside the limit");
    for _ in 0..BESIDE_LIMIT {
        beside_limit(draw, start, &mut |draw, samples, sensitivity| {
            repair_any(count, draw, samples, Repair::Decrackle { sensitivity, start });
        });
    }
    repair_large(count, draw, &limits::decrackle(start));
}

#[test]
fn decrackles() {
    let seed = draw::seed();
    let classes = [COMMON, crackled::CLASSES, crackled::FROM_MEAN];
    let mut count = Count::new("cathar_decrackle against the model", &classes);
    decrackle_from(&mut count, &mut Draw::new(seed), Start::Mean, settings::decrackle);
    count.close(seed);
}

#[test]
fn decrackles_old_start() {
    let seed = draw::seed();
    let classes = [COMMON, crackled::CLASSES];
    let mut count = Count::new("cathar_decrackle_old_start against model and original", &classes);
    decrackle_from(&mut count, &mut Draw::new(seed), Start::Old, settings::decrackle_old_start);
    count.close(seed);
}

/// What decrackle writes, an undo takes back: samples, marks, which are any, and counts, from either start.
#[test]
fn decrackle_is_taken_back() {
    let mut draw = Draw::new(draw::seed());
    let (mut taken, mut refused) = ([0; 2], 0);
    while taken.iter().any(|taken| *taken < TAKEN_BACK) {
        let samples = crackled::clicked(&mut draw);
        for (start, taken) in Start::BOTH.into_iter().zip(&mut taken) {
            let how = Repair::Decrackle { sensitivity: settings::sensitivity(&mut draw), start };
            let m = names(how, &samples);
            let mut before = room::recording(&mut draw, samples.clone(), entry_words(m));
            before.counts = counted(&before.marks);
            before.journal[before.used..].fill(0);
            let mut both = Both::new(before.clone());
            match both.repair(how, vec![u32::MAX; needed(samples.len())]) {
                (Answer::Accepted(value), wrong) if m > 0 => {
                    assert_eq!((value, wrong), (m, vec![]), "{how:?}");
                    let set = both.model.journal[both.model.used - 1];
                    assert_eq!(set, if start == Start::Mean { 7 } else { 4 }, "the mark that {how:?} sets");
                    let marked = both.model.marks.iter().zip(&before.marks).filter(|(mark, old)| mark != old);
                    assert!(marked.into_iter().all(|(mark, _)| u32::from(*mark) == set));
                    assert_eq!(both.undo(), (Answer::Accepted(m), vec![]), "the undo of {how:?}");
                    assert!(both.model == before, "the undo of {how:?}");
                    *taken += 1;
                }
                (_, wrong) => {
                    assert!(wrong.is_empty(), "{how:?}: {wrong:?}");
                    refused += 1;
                }
            }
        }
    }
    println!("taken back: {} from the mean, {} from the old start; {refused} named nothing", taken[0], taken[1]);
}

#[test]
fn dequantizes() {
    let seed = draw::seed();
    let mut draw = Draw::new(seed);
    let classes = [COMMON, levels::BOTH, levels::CLASSES];
    let mut count = Count::new("cathar_dequantize against model and original", &classes);
    repair_refused(&mut count, &mut draw, &limits::dequantize());
    repair_usual(&mut count, &mut draw, settings::dequantize);
    count.begin("every number of bits and every strength");
    levels::each(&mut draw, &mut |draw, samples, bits, strength| {
        repair_any(&mut count, draw, samples, Repair::Dequantize { bits, strength });
    });
    repair_large(&mut count, &mut draw, &limits::dequantize());
    count.close(seed);
}

#[test]
fn cosparse() {
    let seed = draw::seed();
    let mut draw = Draw::new(seed);
    let classes = [COMMON, levels::BOTH, levels::COSPARSE];
    let mut count = Count::new("cathar_dequantize_cosparse against model and original", &classes);
    repair_refused(&mut count, &mut draw, &limits::cosparse());
    repair_usual(&mut count, &mut draw, settings::cosparse);
    count.begin("every number of bits and every strength");
    levels::each(&mut draw, &mut |draw, samples, bits, strength| {
        let iterations = settings::ITERATIONS[draw.below(settings::ITERATIONS.len() as u64) as usize];
        repair_any(&mut count, draw, samples, Repair::Cosparse { bits, strength, iterations });
    });
    repair_large(&mut count, &mut draw, &limits::cosparse());
    count.close(seed);
}

/// The library repairs an opened recording of these samples with just enough room. What it leaves: the samples, and
/// the places that it names, each of which has the repair's mark.
fn repaired(samples: &[f32], how: Repair, m: usize) -> (Vec<f32>, Vec<usize>) {
    let n = samples.len();
    let words = samples.iter().map(|x| x.to_bits()).collect();
    let model = Recording::new(words, vec![0; n], vec![0; entry_words(m)], 0);
    let mut both = Both::new(model);
    assert_eq!(both.repair(how, vec![u32::MAX; needed(n)]), (Answer::Accepted(m), vec![]));
    let named: Vec<usize> = (0..n).filter(|place| both.model.marks[*place] == how.mark()).collect();
    assert_eq!(named.len(), m);
    (floats(&both.model.samples), named)
}

/// The document's sums.
#[test]
fn sums() {
    let how = Repair::Dequantize { bits: 4, strength: 1.0 };
    let (samples, _) = repaired(&[0.0, 0.0, 0.125, 0.0, 0.0], how, 3);
    assert_eq!(samples, [0.0, 0.0625, 0.0625, 0.03125, 0.0]);
    let (samples, named) =
        repaired(&[0.0, 0.0, 0.0, 0.0, 1.0, 0.0, 0.0, 0.0, 0.5], Repair::Declip { threshold: 1.0 }, 7);
    let of_1024: Vec<f32> = samples.iter().map(|x| x * 1024.0).collect();
    assert_eq!(of_1024, [0.0, 22.0, 80.0, 162.0, 256.0, 350.0, 432.0, 490.0, 512.0]);
    assert_eq!(named, [1, 2, 3, 4, 5, 6, 7]);
    let (samples, _) = repaired(&[0.0, 1.0, 0.0, 0.0], Repair::Declip { threshold: 1.0 }, 0);
    assert_eq!(samples, [0.0, 1.0, 0.0, 0.0]);
    let mut one = [0.0; 9];
    one[4] = 1.0;
    for start in Start::BOTH {
        let (samples, named) = repaired(&one, Repair::Decrackle { sensitivity: 10.0, start }, 3);
        assert_eq!((samples, named), (vec![0.0; 9], vec![3, 4, 5]));
    }
}

/// Request P7 by hand. Of the 9 samples above the detector is 1 at place 4 and 1/2 beside it, so that the mean is 2/9.
/// At sensitivity 9 the limit from there is about 2/3: place 4 alone stands out. Of a steady tone of 8 samples the old
/// start flags places 1, 3 and 5, and the new one, whose mean is 5/8 and which flags from above 7 times as much, none.
#[test]
fn sums_from_the_mean() {
    let mut one = [0.0; 9];
    one[4] = 1.0;
    let at_9 = |start| Repair::Decrackle { sensitivity: 9.0, start };
    let (samples, named) = repaired(&one, at_9(Start::Mean), 1);
    assert_eq!((samples, named), (vec![0.0; 9], vec![4]));
    assert_eq!(repaired(&one, at_9(Start::Old), 3).1, [3, 4, 5]);
    let tone = [0.0, 1.0, 0.0, -1.0, 0.0, 1.0, 0.0, -1.0];
    let at_5 = |start| Repair::Decrackle { sensitivity: 5.0, start };
    assert_eq!(repaired(&tone, at_5(Start::Mean), 0), (tone.to_vec(), vec![]));
    assert_eq!(repaired(&tone, at_5(Start::Old), 3).1, [1, 3, 5]);
}

/// Both sides repair these samples, with just enough room. The answer is the model's.
fn answered(count: &mut Calls, samples: &[f32], how: Repair) -> Answer {
    let words: Vec<u32> = samples.iter().map(|x| x.to_bits()).collect();
    repair_with(count, &mut Draw::new(1), &words, how, [Room::Exact; 2])
}

/// The fewest samples of which the original makes something where the rules give 4 or 7: at a threshold of 0 it fills
/// one run of all samples, for a strength that is a NaN it writes NaN, and for a sample that is one it panics.
#[test]
fn where_the_original_goes_on() {
    let mut count: Calls = Count::new("where the original goes on", &[]);
    count.begin("refused by the rules");
    let (samples, how) = ([1.0, 0.0, 0.0, 0.0, 0.0, 0.0], Repair::Declip { threshold: 0.0 });
    assert!((0..6).all(|n| how.after(&samples[..n]) == samples[..n]) && how.after(&samples) != samples);
    assert_eq!(answered(&mut count, &samples, how), Answer::Refused(4));
    let forms = |strength| {
        let cosparse = Repair::Cosparse { bits: 4, strength, iterations: 1 };
        [(3, Repair::Dequantize { bits: 4, strength }), (5, cosparse)]
    };
    for (n, how) in forms(f32::NAN) {
        let samples = vec![0.0; n];
        assert!(how.after(&samples)[n / 2].is_nan());
        assert_eq!(answered(&mut count, &samples, how), Answer::Refused(4));
    }
    for (n, how) in forms(1.0) {
        let mut samples = vec![0.0; n];
        samples[n / 2] = f32::NAN;
        println!("the original panics at {how:?} of {samples:?}, as this test expects:");
        assert!(catch_unwind(|| how.after(&samples)).is_err());
        assert_eq!(answered(&mut count, &samples, how), Answer::RefusedAt(7, n / 2));
    }
    count.close(1);
}
