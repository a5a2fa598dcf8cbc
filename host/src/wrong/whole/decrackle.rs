//! Stand-ins for decrackle, from either start.
use super::{answers, asks, at, names, value};
use crate::call::Call;
use crate::lent::Lent;
use crate::recording::Answer;
use crate::whole::{curve, flagged, floats, Repair, Start};
use crate::wrong::opening;
use crate::wrong::{Finds, Standin, Table};
use std::ops::Range;

/// The tests that are to find them: of the one start, and of the other.
const MEAN: &str = "decrackles";
const OLD: &str = "decrackles_old_start";

/// The stand-ins that one of them has to find.
const fn table(test: &'static str, standins: &'static [Standin]) -> Table {
    Table { file: "whole", test, finds: Finds::Always, standins }
}

/// A stand-in for the library's decrackle, by these rules: its name, and what is wrong with it.
macro_rules! hand {
    ($name:expr, $says:expr, $rules:expr $(,)?) => {
        library!($name, $says, |lent, call| decrackles(lent, call, $rules))
    };
}

/// Likewise, with a floor that starts from another number than the mean.
macro_rules! mean {
    ($name:expr, $says:expr, $of:expr $(,)?) => {
        hand!($name, $says, Rules { mean: |_, values| $of(values), ..RULES })
    };
}

/// What goes wrong alike from either start.
macro_rules! of_decrackle {
    ($call:literal) => {
        &[
            hand!(
                concat!($call, "_floor_after_flag"),
                "the floor takes in a detector value after the flag is decided instead of before",
                Rules { floor_first: false, ..RULES },
            ),
            hand!(
                concat!($call, "_floor_from_detector"),
                "the floor starts at the detector's magnitude at place 1",
                Rules { mean: |_, values| values[1].abs(), old: |values| values[1].abs(), ..RULES },
            ),
            hand!(
                concat!($call, "_floor_from_0"),
                "the floor starts at 0, which the detector is at place 0",
                Rules { mean: |_, _| 0.0, old: |_| 0.0, ..RULES },
            ),
            hand!(
                concat!($call, "_floor_not_at_0"),
                "the floor does not move at place 0",
                Rules { moves: |place| place > 0, ..RULES },
            ),
            hand!(
                concat!($call, "_no_least_floor"),
                "the floor is not raised to 1e-6 where it is below that",
                Rules { least: 0.0, ..RULES },
            ),
            hand!(
                concat!($call, "_not_held_to_10"),
                "a sensitivity above 10 is not held to 10",
                Rules { held: |x| x.max(1.0), ..RULES },
            ),
            hand!(
                concat!($call, "_not_held_to_1"),
                "a sensitivity below 1 is not held to 1",
                Rules { held: |x| x.min(10.0), ..RULES },
            ),
            hand!(
                concat!($call, "_under_9"),
                "nothing is named under 9 samples instead of under 8",
                Rules { fewest: 9, ..RULES },
            ),
            hand!(
                concat!($call, "_under_7"),
                "nothing is named under 7 samples instead of under 8",
                Rules { fewest: 7, ..RULES },
            ),
            hand!(
                concat!($call, "_detector_at_last"),
                "the detector at the last place is not 0: the sample after it is taken as 0",
                Rules { last_is_0: false, ..RULES },
            ),
            hand!(
                concat!($call, "_flags_at_limit"),
                "a sample is flagged where a is at factor*max(floor,1e-6) as well, instead of only above it",
                Rules { flags: |a, limit| a >= limit, ..RULES },
            ),
            hand!(
                concat!($call, "_curve_as_began"),
                "the curve is laid by the samples as they stood at first instead of on the changing output",
                Rules { on_output: false, ..RULES },
            ),
            library!(concat!($call, "_middle_only"), "of each flagged run only the middle is rewritten", middle_only),
            library!(concat!($call, "_nan_allowed"), "a sensitivity that is NaN is taken as 1", nan_allowed),
        ]
    };
}

pub(super) const WRONG: Table = table(MEAN, of_decrackle!("decrackle"));
pub(super) const WRONG_OLD: Table = table(OLD, of_decrackle!("decrackle_old"));
pub(super) const WRONG_MEAN: Table = table(MEAN, OF_MEAN);
pub(super) const WRONG_START: Table = table(MEAN, OF_START);
pub(super) const WRONG_OLD_START: Table = table(OLD, OF_OLD_START);
pub(super) const RIGHT: Table = Table { file: "whole", test: MEAN, finds: Finds::Never, standins: RIGHT_MEAN };

/// What the floor starts from.
const OF_MEAN: &[Standin] = &[
    mean!("decrackle_mean_of_1023", "the mean is of the first 1,023 magnitudes", opening::of_1023),
    mean!("decrackle_mean_of_1025", "the mean is of the first 1,025 magnitudes", opening::of_1025),
    mean!("decrackle_mean_of_all", "the mean is of all magnitudes of the recording", opening::of_all),
    mean!("decrackle_mean_from_second", "the mean is of 1,024 magnitudes from place 1 on", opening::from_second),
    mean!("decrackle_mean_without_ends", "the ends of the recording do not count in the mean", opening::without_ends),
    mean!(
        "decrackle_mean_divided_at_each_step",
        "each magnitude is divided, and then they are summed",
        opening::divided_at_each_step,
    ),
    mean!("decrackle_mean_carried", "the mean is carried from magnitude to magnitude", opening::carried),
    mean!("decrackle_mean_by_reciprocal", "the sum is multiplied by 1/n, rounded", opening::by_reciprocal),
    mean!("decrackle_mean_by_1024", "the sum is divided by 1,024 also where there are fewer", opening::by_1024),
    mean!("decrackle_mean_by_one_less", "the sum is divided by one less than are summed", opening::by_one_less),
    mean!("decrackle_mean_by_one_more", "the sum is divided by one more than are summed", opening::by_one_more),
    mean!("decrackle_mean_in_doubles", "the mean is worked out in doubles and rounded once", opening::in_doubles),
    mean!("decrackle_mean_sum_in_doubles", "the sum is worked out in doubles", opening::sum_in_doubles),
    mean!("decrackle_mean_from_last", "the magnitudes are summed from the last on", opening::from_last),
    mean!("decrackle_mean_in_four_sums", "every fourth magnitude is summed, and then the sums", opening::in_four_sums),
    mean!("decrackle_mean_of_values", "the mean is of the values with their signs", opening::of_values),
    mean!("decrackle_mean_magnitude", "the magnitude of the mean of the values is taken", opening::magnitude_of_mean),
    mean!("decrackle_mean_not_raised", "the mean is not raised to 1e-6", opening::not_raised),
    mean!("decrackle_mean_raised_from_0", "the mean is raised to 1e-6 only where it is 0", opening::raised_from_0),
    mean!("decrackle_mean_added", "1e-6 is added to the mean", opening::added),
    mean!("decrackle_mean_each_raised", "each magnitude is raised to 1e-6, and not the mean", opening::each_raised),
    mean!("decrackle_mean_from_least", "the sum starts at 1e-6", opening::from_least),
    mean!("decrackle_mean_of_squares", "the root of the mean of the squares is taken", opening::of_squares),
    mean!("decrackle_mean_largest", "the largest of the first magnitudes is taken", opening::largest),
    mean!("decrackle_mean_middle", "the middle one of the first magnitudes is taken", opening::middle),
    mean!("decrackle_mean_running", "the floor that runs over the first magnitudes is taken", opening::running),
    hand!(
        "decrackle_mean_of_samples",
        "the mean is of the samples' own magnitudes",
        Rules { mean: |samples, _| opening::right(samples), ..RULES },
    ),
    hand!(
        "decrackle_mean_rests",
        "the floor does not move at the places whose magnitudes are in the mean",
        Rules { moves: |place| place >= 1_024, ..RULES },
    ),
    hand!(
        "decrackle_mean_judges_behind",
        "nothing is flagged at the places whose magnitudes are in the mean",
        Rules { judges: |place| place >= 1_024, ..RULES },
    ),
];

/// Which start it is, and which mark is set.
const OF_START: &[Standin] = &[
    mean!("decrackle_start_is_old", "decrackle has the old start, with mark 7", opening::least),
    library!("decrackle_is_old", "decrackle is the one with the old start, mark 4 too", |lent, call| {
        asks(lent, call, |repair| started(repair, |_| Start::Old))
    }),
    library!("decrackle_starts_swapped", "each of the two has the other's start and mark", |lent, call| {
        asks(lent, call, |repair| started(repair, other))
    }),
    library!("decrackle_sets_4", "mark 4 is set, in the marks and in the entry", |lent, call| {
        marks(lent, call, [Some(4), Some(4)])
    }),
    library!("decrackle_marks_4", "mark 4 is set in the marks, and 7 in the entry", |lent, call| {
        marks(lent, call, [Some(4), None])
    }),
    library!("decrackle_enters_4", "mark 7 is set in the marks, and 4 in the entry", |lent, call| {
        marks(lent, call, [None, Some(4)])
    }),
    library!("decrackle_sets_6", "mark 6 is set, in the marks and in the entry", |lent, call| {
        marks(lent, call, [Some(6), Some(6)])
    }),
    library!("decrackle_sets_8", "mark 8 is set, in the marks and in the entry", |lent, call| {
        marks(lent, call, [Some(8), Some(8)])
    }),
];

const OF_OLD_START: &[Standin] = &[
    hand!(
        "decrackle_old_start_is_mean",
        "the old start is the mean, with mark 4",
        Rules { old: opening::right, ..RULES },
    ),
    library!("decrackle_old_is_new", "the old start is the new one, mark 7 too", |lent, call| {
        asks(lent, call, |repair| started(repair, |_| Start::Mean))
    }),
    library!("decrackle_old_starts_swapped", "each of the two has the other's start and mark", |lent, call| {
        asks(lent, call, |repair| started(repair, other))
    }),
    library!("decrackle_old_sets_7", "mark 7 is set, in the marks and in the entry", |lent, call| {
        marks(lent, call, [Some(7), Some(7)])
    }),
    library!("decrackle_old_marks_7", "mark 7 is set in the marks, and 4 in the entry", |lent, call| {
        marks(lent, call, [Some(7), None])
    }),
    library!("decrackle_old_enters_7", "mark 4 is set in the marks, and 7 in the entry", |lent, call| {
        marks(lent, call, [None, Some(7)])
    }),
    library!("decrackle_old_start_refused", "the old start is refused by 4", |lent, call| {
        let before = lent.recording();
        match (call, lent.call(call)) {
            (Call::Whole(Repair::Decrackle { start: Start::Old, .. }), 0) => answers(lent, &before, Answer::Refused(4)),
            (_, number) => number,
        }
    }),
];

/// What gives the same.
const RIGHT_MEAN: &[Standin] = &[
    mean!(
        "decrackle_mean_without_place_0",
        "place 0, where the detector is 0, is not summed",
        opening::without_place_0
    ),
    hand!("decrackle_by_hand", "decrackle written by hand, by rules that are right", RULES),
];

/// What a stand-in alters one of.
struct Rules {
    /// The fewest samples of which one can be named.
    fewest: usize,
    /// Holds the sensitivity.
    held: fn(f32) -> f32,
    /// Where the floor starts from the mean, by the samples and by the detector's values; and where from the old start.
    mean: fn(&[f32], &[f32]) -> f32,
    old: fn(&[f32]) -> f32,
    /// What the floor is raised to.
    least: f32,
    /// At which places the floor moves, and at which a sample may be flagged.
    moves: fn(usize) -> bool,
    judges: fn(usize) -> bool,
    /// Whether the floor takes in a value before the flag is decided.
    floor_first: bool,
    /// Whether a sample is flagged, by the detector's magnitude and its limit.
    flags: fn(f32, f32) -> bool,
    /// Whether the detector is 0 at the last place.
    last_is_0: bool,
    /// Whether the curve is laid on the changing output.
    on_output: bool,
}

/// The rules as they are.
const RULES: Rules = Rules {
    fewest: 8,
    held: |sensitivity| sensitivity.clamp(1.0, 10.0),
    mean: |_, values| opening::right(values),
    old: opening::least,
    least: 1e-6,
    moves: |_| true,
    judges: |_| true,
    floor_first: true,
    flags: |a, limit| a > limit,
    last_is_0: true,
    on_output: true,
};

/// Decrackle by these rules.
fn decrackles(lent: &mut Lent, call: Call, rules: Rules) -> u32 {
    names(lent, call, |repair, began| {
        let mut samples = began.to_vec();
        let (sensitivity, start) = settings(repair);
        let runs = runs(began, sensitivity, start, &rules);
        for run in &runs {
            let new = curve(if rules.on_output { &samples } else { began }, run);
            samples[run.clone()].copy_from_slice(&new);
        }
        at(runs.into_iter().flatten(), &samples)
    })
}

/// The sensitivity and the start; for another repair the least and the old one.
fn settings(repair: Repair) -> (f32, Start) {
    match repair {
        Repair::Decrackle { sensitivity, start } => (sensitivity, start),
        _ => (1.0, Start::Old),
    }
}

/// The repair with another start, where it is decrackle.
fn started(repair: Repair, start_of: fn(Start) -> Start) -> Repair {
    match repair {
        Repair::Decrackle { sensitivity, start } => Repair::Decrackle { sensitivity, start: start_of(start) },
        _ => repair,
    }
}

fn other(start: Start) -> Start {
    match start {
        Start::Mean => Start::Old,
        Start::Old => Start::Mean,
    }
}

/// The detector's values. At the ends it is 0, but for the last where the rules have it otherwise.
fn values(samples: &[f32], rules: &Rules) -> Vec<f32> {
    let mut found = vec![0.0];
    found.extend(samples.windows(3).map(|three| three[1] - 0.5 * (three[0] + three[2])));
    let n = samples.len();
    found.push(if rules.last_is_0 { 0.0 } else { samples[n - 1] - 0.5 * samples[n - 2] });
    found
}

/// The flagged runs. Place 0 is never in one.
fn runs(samples: &[f32], sensitivity: f32, start: Start, rules: &Rules) -> Vec<Range<usize>> {
    let mut runs: Vec<Range<usize>> = Vec::new();
    if samples.len() < rules.fewest {
        return runs;
    }
    let values = values(samples, rules);
    let factor = 12.0 - (rules.held)(sensitivity);
    let mut floor = match start {
        Start::Mean => (rules.mean)(samples, &values),
        Start::Old => (rules.old)(&values),
    };
    for (place, a) in values.into_iter().map(f32::abs).enumerate() {
        let next = if (rules.moves)(place) { floor * (1.0 - 0.001) + a * 0.001 } else { floor };
        let limit = factor * if rules.floor_first { next } else { floor }.max(rules.least);
        let is_end = place == 0 || rules.last_is_0 && place == samples.len() - 1;
        if (rules.flags)(a, limit) && (rules.judges)(place) && !is_end {
            match runs.last_mut() {
                Some(last) if last.end == place => last.end += 1,
                _ => runs.push(place..place + 1),
            }
        }
        floor = next;
    }
    runs
}

/// The library makes the call, and where it names a sample, the marks and the mark in the entry become these.
fn marks(lent: &mut Lent, call: Call, [of_samples, of_entry]: [Option<u8>; 2]) -> u32 {
    let used = lent.used.lent()[0];
    let number = lent.call(call);
    let mut after = lent.recording();
    if number == 0 && value(lent) > 0 {
        for named in after.journal[used..after.used - 2].chunks(3) {
            let mark = &mut after.marks[named[0] as usize];
            *mark = of_samples.unwrap_or(*mark);
        }
        let set = &mut after.journal[after.used - 1];
        *set = of_entry.map_or(*set, u32::from);
        lent.put(&after);
    }
    number
}

fn middle_only(lent: &mut Lent, call: Call) -> u32 {
    let before = lent.samples().to_vec();
    let number = lent.call(call);
    if let (0, Call::Whole(repair)) = (number, call) {
        let (sensitivity, start) = settings(repair);
        for run in flagged(&floats(&before), sensitivity, start) {
            let middle = run.start + run.len() / 2;
            for place in run.filter(|place| *place != middle) {
                lent.samples.lend()[place] = before[place];
            }
        }
    }
    number
}

fn nan_allowed(lent: &mut Lent, call: Call) -> u32 {
    asks(lent, call, |repair| match repair {
        Repair::Decrackle { sensitivity, start } if sensitivity.is_nan() => {
            Repair::Decrackle { sensitivity: 1.0, start }
        }
        _ => repair,
    })
}
