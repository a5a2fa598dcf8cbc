//! The repair of a gap, lists of gaps and the automatic scan against the model of the recording and the original Rust:
//! every answer and value, the order of every gap's model, and every byte of the lent memory, the lists among it, with
//! what stands around each part of it. Lists of gaps are also held to single calls of the library in turn.
//!
//! `CATHAR_SEED` sets the seed.
mod inpaint {
    pub mod gaps;
    pub mod held;
    pub mod held_runs;
    pub mod lengths;
    pub mod limits;
    pub mod lists;
    pub mod orders;
    pub mod scans;
    pub mod several;
    pub mod short;
    pub mod spans;
}

use cathar_host::both::Both;
use cathar_host::count::Count;
use cathar_host::damage;
use cathar_host::draw::{self, Draw};
use cathar_host::inpaint::{Gap, GapAnswer, Scan, MOST_RATE};
use cathar_host::original;
use cathar_host::recording::{Answer, Recording};
use cathar_host::room::{self, Room};
use cathar_host::settings::{self, OfScan};
use cathar_host::shapes::Shape;
use cathar_host::sounds::Sound;
use inpaint::gaps::{self, any_gap, repair, repair_with, Gaps};
use inpaint::limits::{self, louder, Faults, LOUD, LOUDER_GAP, LOUD_GAP};
use inpaint::orders::{self, Orders};
use inpaint::scans::{self, dropped, scan, scan_any, Scans};
use inpaint::several::Splices;
use inpaint::{held, held_runs, lengths, lists, short, spans};

/// How many gaps are tried: in random short recordings over the alphabet, in short ones of each shape, by
/// model and longer than 500, and by line.
const RANDOM: u64 = 12_000;
const SHAPED: u64 = 600;
const LONG: usize = 510;
const LINES: usize = 400;

/// How many scans: of random short recordings over the alphabet, of each shape, of some blocks, and of longer ones.
const RANDOM_SCANS: u64 = 3_000;
const SHAPED_SCANS: u64 = 250;
const BLOCK_SCANS: u64 = 300;
const LONG_SCANS: u64 = 150;

fn repair_any(count: &mut Gaps, draw: &mut Draw, samples: &[u32], gap: Gap, passes: u32) {
    let room = [Room::any(draw), Room::any(draw)];
    repair_with(count, draw, samples, gap, passes, room);
}

/// All gaps of all recordings of up to five samples over the alphabet, most of them with one pass, since the
/// original takes its time for each.
fn repair_short(count: &mut Gaps, draw: &mut Draw) {
    short::each(&mut |samples| {
        for start in 0..samples.len() {
            for len in 1..=samples.len() - start {
                let passes = if draw.below(8) == 0 { settings::passes(draw) } else { 1 };
                repair_any(count, draw, samples, Gap { start, len }, passes);
            }
        }
    });
}

/// Gaps of random recordings over the alphabet, and of each shape.
fn repair_random(count: &mut Gaps, draw: &mut Draw) {
    count.begin("random ones of 6 to 60 samples");
    for _ in 0..RANDOM {
        let samples = short::random(draw);
        let (gap, passes) = (any_gap(draw, samples.len()), settings::passes(draw));
        repair_any(count, draw, &samples, gap, passes);
    }
    count.begin("each shape, 6 to 200 samples");
    for shape in Shape::ALL {
        for _ in 0..SHAPED {
            let n = 6 + draw.below(195) as usize;
            let samples = shape.samples(draw, n);
            let (gap, passes) = (any_gap(draw, n), settings::passes(draw));
            repair_any(count, draw, &samples, gap, passes);
        }
    }
}

/// Gaps that are not within the recording, most of them, calls to which several refusals apply, full
/// journals, and two results that are not in range.
fn repair_refused(count: &mut Gaps, draw: &mut Draw) {
    for samples in [&[][..], &LOUD[..1], &LOUD[..2], &LOUD] {
        limits::gaps(samples.len().max(1), &mut |gap| {
            let model = room::recording(draw, samples.to_vec(), 100);
            let work = room::work(draw, 1000);
            repair(count, &mut Both::new(model), gap, 1, work);
        });
    }
    for faults in Faults::each() {
        let outside = [Gap { start: 6, len: 0 }, Gap { start: 13, len: 2 }, Gap { start: 14, len: 1 }];
        for gap in if faults.of_gap() { outside } else { [LOUD_GAP; 3] } {
            let (model, work) = faults.made(draw);
            repair(count, &mut Both::new(model), gap, 1, work);
        }
    }
    for gap in [LOUD_GAP, Gap { start: 0, len: 1 }] {
        let (model, work) = (room::recording(draw, LOUD.to_vec(), 0), room::work(draw, 1000));
        repair(count, &mut Both::new(model), gap, 1, work);
    }
    let told = repair_with(count, &mut Draw::new(1), &louder(), LOUDER_GAP, 1, [Room::Exact, Room::Exact]);
    assert_eq!(told.answer, Answer::RefusedAt(8, 10), "of two results not in range the place of the lowest");
}

#[test]
fn repairs() {
    let seed = draw::seed();
    let mut draw = Draw::new(seed);
    let mut count = Count::new("cathar_inpaint_gap against model and original", &[gaps::CLASSES]);
    count.begin("outside, and several refusals apply");
    repair_refused(&mut count, &mut draw);
    count.begin("each number of counts");
    let work = room::work(&mut draw, 2_000);
    limits::counts(&mut draw, &mut |model| {
        let gap = Gap { start: model.samples.len() / 2, len: 2 };
        repair(&mut count, &mut Both::new(model), gap, 1, work.clone());
    });
    count.begin("a sample not in range beside the window");
    lengths::windows(&mut count, &mut draw);
    repair_random(&mut count, &mut draw);
    count.begin("every length from 1 to 200");
    lengths::every(&mut count, &mut draw);
    count.begin("around 1024, 2048 and 4095");
    lengths::edges(&mut count, &mut draw);
    count.begin("longer than 2048");
    lengths::lines(&mut count, &mut draw, LINES);
    count.begin("beside the most samples");
    repair_large(&mut count, &mut draw);
    count.begin("longer than 500");
    lengths::long(&mut count, &mut draw, LONG);
    count.begin("all recordings of up to 5 samples");
    repair_short(&mut count, &mut draw);
    count.close(seed);
}

/// The last gap that there is room for, in recordings of the most samples and of one more.
fn repair_large(count: &mut Gaps, draw: &mut Draw) {
    let works: Vec<u64> = room::work(draw, 5000);
    limits::large(draw, &mut |model| {
        let n = model.samples.len();
        let mut both = Both::new(model);
        repair(count, &mut both, Gap { start: n - 4, len: 3 }, 1, works.clone());
        repair(count, &mut both, Gap { start: n - 1, len: 2 }, 1, works.clone());
        repair(count, &mut both, Gap { start: n - 1, len: 1 }, 1, works.clone());
    });
}

/// Held runs at the ends of what is allowed and past them, and beside the usual one; and one of which only the last 16
/// or 12 binary digits are that.
const HELD_RUNS: [u32; 13] = [0, 1, 2, 3, 15, 16, 17, 4_095, 4_096, 4_097, 65_552, u32::MAX - 1, u32::MAX];

/// Rates and milliseconds at the ends of what is allowed and past them, and where the limit is 1, a few
/// samples, many, or none; and each held run, at times beside another setting that is not allowed.
fn each_setting(put: &mut dyn FnMut(OfScan)) {
    for rate in [0, 1, 999, 1000, 48_000, MOST_RATE - 1, MOST_RATE, MOST_RATE + 1, u32::MAX] {
        for max_gap_ms in [0.0, -0.0, -1.0, 1e-38, 0.06, 1.0, 2.0, 2.5, 2.999, 3.0, 3.5, 4000.0, 1e30, f32::MAX] {
            put(OfScan::new(rate, max_gap_ms));
        }
        for max_gap_ms in [f32::MIN, f32::NAN, f32::INFINITY, f32::NEG_INFINITY] {
            put(OfScan::new(rate, max_gap_ms));
        }
    }
    for held_run in HELD_RUNS {
        for settings in [settings::USUAL, settings::UNLIMITED].into_iter().chain(settings::NO_SCANS) {
            put(settings.holding(held_run));
        }
    }
}

/// Limits that are another number where the product is taken first, where it is worked out in doubles, or where only
/// its last 32 binary digits are kept.
const LIMITS: [OfScan; 4] = [
    OfScan::new(19, 157.894_73),
    OfScan::new(48_000, 4.5),
    OfScan::new(1_000, 4_294_967_296.0),
    OfScan::new(1_000, 4_294_967_300.0),
];

/// Scans of one recording with every setting. It has runs of 1 to 6 samples, one of 3 at each end, subnormals, which are
/// sound, and words that are held for 2, 3 and 15 to 17 samples.
fn scan_settings(count: &mut Scans, draw: &mut Draw) {
    let mut samples = vec![0; 3];
    for run in 1..=6 {
        samples.extend([0x3f80_0000, 0xbf00_0000]);
        samples.extend(vec![0x8000_0000; run]);
    }
    samples.extend([0x3f80_0000, 1, 0x8000_0001, 0x007f_ffff]);
    for run in [2, 3, 15, 16, 17] {
        samples.extend(vec![0x3e80_0000; run]);
        samples.push(0xbe80_0000);
    }
    samples.extend([0x3f80_0000, 0, 0, 0]);
    each_setting(&mut |settings| {
        scan_any(count, draw, &samples, settings);
    });
    for settings in LIMITS {
        scan_any(count, draw, &samples, settings);
    }
    for length in 0..8 {
        for _ in 0..40 {
            let settings = settings::near(draw, length);
            scan_any(count, draw, &samples, settings);
        }
    }
}

/// Scans to which several refusals apply.
fn scan_refused(count: &mut Scans, draw: &mut Draw) {
    for faults in Faults::each() {
        let (model, work) = faults.made(draw);
        let settings = if faults.of_gap() { settings::no_scan(draw) } else { settings::USUAL };
        let orders = room::orders(&mut draw.aside(), model.samples.len());
        scan(count, &mut Both::new(model), settings, work, orders);
    }
}

/// Scans of each shape, with dropouts, and more of the one whose results are at times not in range.
fn scan_shapes(count: &mut Scans, draw: &mut Draw) {
    for shape in Shape::ALL.into_iter().chain([Shape::Signs; 7]) {
        for _ in 0..SHAPED_SCANS {
            let n = 20 + draw.below(200) as usize;
            let samples = dropped(draw, shape, n, 12);
            let settings = if draw.below(2) == 0 { settings::USUAL } else { settings::near(draw, 6) };
            let settings = settings::any_held_run(draw, settings);
            scan_any(count, draw, &samples, settings);
        }
    }
}

/// Scans of some thousand samples, whose windows do not reach all of them, and with runs by line where there is
/// no limit.
fn scan_long(count: &mut Scans, draw: &mut Draw) {
    for call in 0..LONG_SCANS {
        let shape = [Shape::Tone, Shape::Noise, Shape::Signs][call as usize % 3];
        let mut samples = dropped(draw, shape, 3000, 30);
        scan_any(count, draw, &samples, settings::USUAL);
        let line = 2049 + draw.below(100) as usize;
        samples.splice(1500..1500, [vec![0; line], vec![0x3f80_0000]].concat());
        if call % 3 != 2 {
            scan_any(count, draw, &samples, settings::UNLIMITED);
        }
    }
}

#[test]
fn scanned() {
    let seed = draw::seed();
    let mut draw = Draw::new(seed);
    let mut count = Count::new("cathar_inpaint_auto against model and original", &[scans::CLASSES]);
    count.begin("every setting");
    scan_settings(&mut count, &mut draw);
    count.begin("several refusals apply");
    scan_refused(&mut count, &mut draw);
    count.begin("each number of counts");
    let work = room::work(&mut draw, 2_000);
    let mut lists = draw.aside();
    limits::counts(&mut draw, &mut |model| {
        let orders = room::orders(&mut lists, model.samples.len());
        scan(&mut count, &mut Both::new(model), settings::USUAL, work.clone(), orders);
    });
    count.begin("random ones of 6 to 60 samples");
    for _ in 0..RANDOM_SCANS {
        let samples = short::random(&mut draw);
        let settings = settings::any_held_run(&draw, settings::USUAL);
        scan_any(&mut count, &mut draw, &samples, settings);
    }
    count.begin("each shape with dropouts");
    scan_shapes(&mut count, &mut draw);
    count.begin("of several blocks");
    for call in 0..BLOCK_SCANS {
        let shape = [Shape::Tone, Shape::Noise, Shape::Steps][call as usize % 3];
        let n = 500 + draw.below(600) as usize;
        let mut samples = shape.samples(&mut draw, n);
        damage::drop_out(&mut draw, &mut samples, 12, &damage::DROPOUTS[..damage::ZEROS]);
        scan_any(&mut count, &mut draw, &samples, settings::USUAL);
    }
    count.begin("beside the most samples");
    let works: Vec<u64> = room::work(&mut draw, 5000);
    limits::large(&mut draw, &mut |model| {
        let orders = room::orders(&mut lists, model.samples.len());
        scan(&mut count, &mut Both::new(model), settings::USUAL, works.clone(), orders);
    });
    count.begin("all recordings of up to 5 samples");
    short::each(&mut |samples| {
        scan_any(&mut count, &mut draw, samples, settings::USUAL);
    });
    count.begin("of 3,000 samples and more");
    scan_long(&mut count, &mut draw);
    count.close(seed);
}

#[test]
fn held_words() {
    let seed = draw::seed();
    let mut draw = Draw::new(seed);
    let mut count = Count::new("cathar_inpaint_auto on held words against model and original", &[held::CLASSES]);
    count.begin("up to 16 equal words, and one more");
    held::smallest(&mut count);
    count.begin("all recordings of up to four pieces, four limits");
    held::all(&mut count, &mut draw);
    count.begin("a fill that the run behind it continues");
    held::continued(&mut count, &mut draw);
    count.begin("gaps by line");
    held::lines(&mut count, &mut draw);
    count.begin("two to nine pieces");
    held::random(&mut count, &mut draw);
    count.close(seed);
}

#[test]
fn held_runs() {
    let seed = draw::seed();
    let mut draw = Draw::new(seed);
    let title = "cathar_inpaint_auto at each held run against model and original";
    let mut count = Count::new(title, &[held_runs::CLASSES]);
    count.begin("held runs that are not allowed");
    held_runs::refused(&mut count, &mut draw);
    count.begin("runs of just as many words, and beside it");
    held_runs::beside(&mut count, &mut draw);
    count.begin("all recordings of up to 6 samples, at 2 and 3");
    held_runs::all(&mut count, &mut draw);
    count.begin("two to nine pieces");
    held_runs::random(&mut count, &mut draw);
    count.close(seed);
}

#[test]
fn orders_of_gaps() {
    let seed = draw::seed();
    let mut draw = Draw::new(seed);
    let mut count = Orders::new();
    for sound in Sound::ALL {
        count.begin(sound.name());
        orders::in_sound(&mut count, &mut draw, sound);
    }
    count.begin("r[0] raised to just 1e-12, and beside it");
    orders::beside_bound(&mut count, &mut draw);
    count.begin("65,536 and its negative");
    orders::loudest(&mut count, &mut draw);
    count.begin("loud samples that the window does not reach");
    orders::far(&mut count, &mut draw);
    count.begin("longer than 2048");
    orders::lines(&mut count, &mut draw);
    count.close(seed);
}

#[test]
fn orders_of_scans() {
    let seed = draw::seed();
    let mut draw = Draw::new(seed);
    let mut count = Count::new("the orders of cathar_inpaint_auto against the host's own step", &[lists::CLASSES]);
    count.begin("refused, or several refusals apply");
    lists::refused(&mut count, &mut draw);
    for sound in Sound::ALL {
        count.begin(sound.name());
        lists::in_sound(&mut count, &mut draw, sound);
    }
    count.begin("65,536 and its negative");
    lists::loudest(&mut count, &mut draw);
    count.begin("a NaN that some windows hold");
    lists::far(&mut count, &mut draw);
    count.begin("with a run by line");
    lists::lines(&mut count, &mut draw);
    count.close(seed);
}

#[test]
fn several_gaps() {
    let seed = draw::seed();
    let mut draw = Draw::new(seed);
    let mut count = Splices::new();
    for (source, make) in spans::SOURCES {
        count.begin(source);
        make(&mut count, &mut draw);
    }
    count.close(seed);
}

/// A list by hand on *quiet*: its gap, one behind the end, and its gap again. Each has its own answer in its own place,
/// and each of the two that are repaired its own entry, of which an undo takes back the last.
#[test]
fn several_by_hand() {
    let tiny = 0x3080_0000;
    let raw = [tiny, tiny, 0, 0, tiny, tiny];
    let mut both = Both::new(Recording::new(raw.to_vec(), vec![0; 6], vec![0; 16], 0));
    let gaps = [Gap { start: 2, len: 2 }, Gap { start: 6, len: 1 }, Gap { start: 2, len: 2 }];
    let (several, wrong) = both.inpaint_gaps(room::lists(&mut Draw::new(1), &gaps, 3), 1, vec![u64::MAX; 210]);
    let told: Vec<_> = several.gaps().iter().map(|(_, told)| (told.number(), told.value(), told.order())).collect();
    assert_eq!((told, wrong), (vec![(0, 2, 0), (5, 0, 0), (0, 2, 0)], vec![]));
    assert_eq!(both.model.journal, [2, 0, 0, 3, 0, 0, 2, 1, 2, 0x8000_0000, 1, 3, 0, 1, 2, 1]);
    for (samples, marks, used) in [([tiny, tiny, 0x8000_0000, 0, tiny, tiny], [0, 0, 1, 1, 0, 0], 8), (raw, [0; 6], 0)]
    {
        assert_eq!(both.undo(), (Answer::Accepted(2), vec![]));
        assert_eq!((&both.model.samples[..], &both.model.marks[..], both.model.used), (&samples[..], &marks[..], used));
    }
}

/// The library repairs one gap of an opened recording with enough room, by a model of this order or by line, for which
/// the order is 0. What it leaves: samples and marks.
fn repaired(samples: Vec<u32>, gap: Gap, order: u32) -> (Vec<u32>, Vec<u8>) {
    let n = samples.len();
    let model = Recording::new(samples, vec![0; n], vec![0; 3 * gap.len + 2], 0);
    let mut both = Both::new(model);
    let (told, wrong) = both.inpaint_gap(gap, 3, vec![u64::MAX; gap.needed(n)]);
    assert_eq!((told.answer, told.order(), wrong), (Answer::Accepted(gap.len), order, vec![]));
    (both.model.samples, both.model.marks)
}

/// The document's sums: *quiet*, with "0 in *quiet*" for the order; 4097 samples with ends 0 and 4096, whose places
/// become their numbers; and the marks and orders of gaps of 2048 and 2049.
#[test]
fn sums() {
    let tiny = 0x3080_0000;
    let (samples, marks) = repaired(vec![tiny, tiny, 0, 0, tiny, tiny], Gap { start: 2, len: 2 }, 0);
    assert_eq!(samples, [tiny, tiny, 0x8000_0000, 0, tiny, tiny]);
    assert_eq!(marks, [0, 0, 1, 1, 0, 0]);
    let mut line = vec![0x7fc0_0000; 4097];
    line[0] = 0;
    line[4096] = 4096.0f32.to_bits();
    let (samples, marks) = repaired(line, Gap { start: 1, len: 4095 }, 0);
    assert!((0..4097).all(|place| samples[place] == (place as f32).to_bits()), "place i becomes i");
    assert!((1..4096).all(|place| marks[place] == 2) && marks[0] == 0 && marks[4096] == 0);
    for (len, mark, order) in [(2048, 1, 128), (2049, 2, 0)] {
        let (_, marks) = repaired(vec![0x3f80_0000; 2060], Gap { start: 5, len }, order);
        assert!((0..2060).all(|place| marks[place] == if (5..5 + len).contains(&place) { mark } else { 0 }));
    }
}

/// Refusal 8, whole: the place is the gap's second.
#[test]
fn a_result_not_in_range() {
    let mut count = Count::new("a result not in range", &[]);
    count.begin("14 samples");
    let told = repair_with(&mut count, &mut Draw::new(1), &LOUD, LOUD_GAP, 3, [Room::Exact, Room::Exact]);
    assert_eq!((told.answer, told.order()), (Answer::RefusedAt(8, 7), 0));
    count.close(1);
}

/// The smallest recordings in which the original's scan writes a NaN, where ours gives 7: five samples.
#[test]
fn where_the_original_writes_nan() {
    let words = [0, 0x3f80_0000, 0x7fc0_0000];
    let mut count: Scans = Count::new("where the original writes a NaN", &[]);
    count.begin("scans");
    let mut found = Vec::new();
    for n in 0..=5 {
        for number in 0..3usize.pow(n) {
            let samples: Vec<u32> = (0..n).map(|place| words[number / 3usize.pow(place) % 3]).collect();
            let before: Vec<f32> = samples.iter().map(|word| f32::from_bits(*word)).collect();
            let after = original::inpaint_auto(&before, 48_000, 1.0);
            if before.iter().zip(&after).any(|(x, y)| !x.is_nan() && y.is_nan()) {
                let model = room::recording(&mut Draw::new(1), samples, 100);
                let list = vec![7; n as usize];
                let scan = scan(&mut count, &mut Both::new(model), settings::USUAL, vec![1; 1000], list);
                found.push((before, after, scan));
            }
        }
    }
    for (before, after, scan) in &found {
        println!("the original makes {after:?} of {before:?}, and the rules give {:?}", scan.runs());
        assert_eq!(before.len(), 5);
        let is_7 = |told: &GapAnswer| matches!(told.answer, Answer::RefusedAt(7, _));
        assert!(matches!(scan.runs(), [(_, told)] if is_7(told)));
    }
    assert!(!found.is_empty());
    count.close(1);
}

/// What the original's scan makes of `[1, 0, 0, 1]` at settings that the rules do not allow: where the run of two is
/// within its limit, it becomes -0 and 0.
#[test]
fn where_the_original_takes_any_setting() {
    let mut count: Scans = Count::new("where the original takes any setting", &[]);
    count.begin("refused by the rules");
    let samples = [1.0f32, 0.0, 0.0, 1.0];
    for (rate, max_gap_ms, within) in [
        (MOST_RATE + 1, 1.0, true),
        (1, f32::INFINITY, true),
        (48_000, f32::INFINITY, true),
        (0, f32::INFINITY, false),
        (48_000, f32::NEG_INFINITY, false),
        (0, f32::NEG_INFINITY, false),
        (48_000, f32::NAN, false),
    ] {
        let after = original::inpaint_auto(&samples, rate, max_gap_ms);
        let words = |samples: &[f32]| samples.iter().map(|x| x.to_bits()).collect::<Vec<u32>>();
        assert_eq!(words(&after) != words(&samples), within, "rate {rate}, {max_gap_ms} ms: {after:?}");
        let model = room::recording(&mut Draw::new(1), words(&samples), 100);
        let scan = scan(&mut count, &mut Both::new(model), OfScan::new(rate, max_gap_ms), vec![1; 1000], vec![7; 4]);
        assert_eq!(scan, Scan::Refused(4));
    }
    count.close(1);
}
