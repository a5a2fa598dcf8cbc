//! Stand-ins for declip.
use super::{answers, asks, at, names, set_value};
use crate::call::Call;
use crate::lent::Lent;
use crate::recording::{entry_words, Answer};
use crate::whole::{fills, floats, Repair};
use crate::wrong::How::Library;
use crate::wrong::{Finds, Standin, Table};

pub(super) const WRONG: Table = Table {
    file: "whole",
    test: "declips",
    finds: Finds::Always,
    standins: &[
        Standin {
            name: "declip_marks_clipped_only",
            says: "only the clipped samples are marked, and their shoulders are not",
            how: Library(marks_clipped_only),
        },
        Standin {
            name: "declip_saves_twice",
            says: "where two fills overlap, a place stands in the entry twice, and m counts it twice",
            how: Library(saves_twice),
        },
        Standin {
            name: "declip_y0_as_began",
            says: "y0 is the sample at a as it stood when the call began",
            how: Library(|lent, call| declips(lent, call, runs, ends, y0_as_began)),
        },
        Standin {
            name: "declip_y1_before_z",
            says: "y1 is the sample before z instead of the one at z",
            how: Library(|lent, call| declips(lent, call, runs, ends, y1_before_z)),
        },
        Standin {
            name: "declip_above_threshold",
            says: "only samples with magnitude above threshold are clipped, and those at it are not",
            how: Library(above_threshold),
        },
        Standin {
            name: "declip_sign_kept",
            says: "samples at or above threshold are clipped, and those at or below its negative are not",
            how: Library(|lent, call| declips(lent, call, runs_above_0, ends, fill)),
        },
        Standin {
            name: "declip_3_before",
            says: "the shoulder before a run has 3 samples instead of 4",
            how: Library(|lent, call| declips(lent, call, runs, shoulder_of_3_before, fill)),
        },
        Standin {
            name: "declip_3_after",
            says: "the shoulder after a run has 3 samples instead of 4",
            how: Library(|lent, call| declips(lent, call, runs, shoulder_of_3_after, fill)),
        },
        Standin {
            name: "declip_z_before_last",
            says: "z is at most n-2 instead of n-1",
            how: Library(|lent, call| declips(lent, call, runs, z_before_last, fill)),
        },
        Standin {
            name: "declip_not_near_end",
            says: "a run with fewer than 5 samples after it is not filled",
            how: Library(|lent, call| declips(lent, call, runs, not_near_end, fill)),
        },
        Standin {
            name: "declip_fills_3",
            says: "a run is filled where z is a+4",
            how: Library(|lent, call| declips(lent, call, runs, z_at_least_4_on, fill)),
        },
        Standin {
            name: "declip_right_to_left",
            says: "the runs are filled from the last to the first",
            how: Library(|lent, call| declips(lent, call, last_run_first, ends, fill)),
        },
        Standin { name: "declip_0_allowed", says: "a threshold of 0 is allowed", how: Library(zero_allowed) },
        Standin {
            name: "declip_negative_allowed",
            says: "a negative threshold is taken as its magnitude",
            how: Library(negative_allowed),
        },
        Standin {
            name: "declip_infinity_allowed",
            says: "a threshold of plus infinity is allowed, and names nothing",
            how: Library(infinity_allowed),
        },
        Standin {
            name: "declip_t_too_small",
            says: "t is (i-a)/(z-a+1)",
            how: Library(|lent, call| declips(lent, call, runs, ends, t_too_small)),
        },
        Standin {
            name: "declip_runs_on_output",
            says: "a run is found among the samples as earlier runs have left them",
            how: Library(runs_on_output),
        },
    ],
};

pub(super) const RIGHT: Table = Table {
    file: "whole",
    test: "declips",
    finds: Finds::Never,
    standins: &[Standin {
        name: "declip_z_from_e",
        says: "z is min(e+4, n-1), without holding e to n-1 first, which gives the same",
        how: Library(|lent, call| declips(lent, call, runs, z_from_e, fill)),
    }],
};

/// Two places: of a run, s and e; of a fill, a and z.
type Two = (usize, usize);

/// Declip by the rules for its runs, for the fill of each if there is one, and for the new samples, which are told the
/// samples as they are by then and as they were when the call began.
fn declips(
    lent: &mut Lent,
    call: Call,
    runs: fn(&[f32], f32) -> Vec<Two>,
    ends: fn(Two, usize) -> Option<Two>,
    fill: fn(&mut [f32], &[f32], Two),
) -> u32 {
    names(lent, call, |repair, began| {
        let mut samples = began.to_vec();
        let all: Vec<Two> =
            runs(began, threshold(repair)).into_iter().filter_map(|run| ends(run, began.len())).collect();
        for two in &all {
            fill(&mut samples, began, *two);
        }
        at(between(&all), &samples)
    })
}

/// The threshold; for another repair one that no sample reaches.
fn threshold(repair: Repair) -> f32 {
    match repair {
        Repair::Declip { threshold } => threshold,
        _ => f32::MAX,
    }
}

/// The places between the ends of these fills, each once, ascending.
fn between(fills: &[Two]) -> Vec<usize> {
    let mut places: Vec<usize> = fills.iter().flat_map(|(a, z)| a + 1..*z).collect();
    places.sort_unstable();
    places.dedup();
    places
}

/// The first run from a place on, of samples that are clipped.
fn run_from(samples: &[f32], from: usize, clipped: impl Fn(f32) -> bool) -> Option<Two> {
    let s = (from..samples.len()).find(|place| clipped(samples[*place]))?;
    let e = (s..samples.len()).find(|place| !clipped(samples[*place])).unwrap_or(samples.len());
    Some((s, e))
}

/// All runs of samples that are clipped.
fn all_runs(samples: &[f32], clipped: impl Fn(f32) -> bool) -> Vec<Two> {
    let mut runs = Vec::new();
    let mut from = 0;
    while let Some((s, e)) = run_from(samples, from, &clipped) {
        runs.push((s, e));
        from = e;
    }
    runs
}

/// The runs by the rule.
fn runs(samples: &[f32], threshold: f32) -> Vec<Two> {
    all_runs(samples, |x| x.abs() >= threshold)
}

/// a and z by the rule, for this many samples.
fn ends(run: Two, n: usize) -> Option<Two> {
    if_apart(a_and_z(run, n, 4, 4))
}

/// a and z, with shoulders of so many samples.
fn a_and_z((s, e): Two, n: usize, before: usize, after: usize) -> Two {
    (s.saturating_sub(before), (e.min(n - 1) + after).min(n - 1))
}

/// A run is filled if z is above a+4.
fn if_apart((a, z): Two) -> Option<Two> {
    (z > a + 4).then(|| (a, z))
}

/// The new samples by the rule.
fn fill(samples: &mut [f32], _began: &[f32], (a, z): Two) {
    rewrite(samples, (a, z), [samples[a], samples[z]], z - a);
}

/// The places between a and z get the cubic from y0 to y1, where t goes up by one in so many steps.
fn rewrite(samples: &mut [f32], (a, z): Two, [y0, y1]: [f32; 2], steps: usize) {
    for i in a + 1..z {
        let t = (i - a) as f32 / steps as f32;
        let t2 = t * t;
        let t3 = t2 * t;
        samples[i] = y0 * (1.0 - 3.0 * t2 + 2.0 * t3) + y1 * (3.0 * t2 - 2.0 * t3);
    }
}

fn marks_clipped_only(lent: &mut Lent, call: Call) -> u32 {
    let before = lent.recording();
    let number = lent.call(call);
    match call {
        Call::Whole(repair) if number == 0 => {
            for (place, x) in floats(&before.samples).into_iter().enumerate() {
                if x.abs() < threshold(repair) {
                    lent.marks.lend()[place] = before.marks[place];
                }
            }
        }
        _ => {}
    }
    number
}

fn saves_twice(lent: &mut Lent, call: Call) -> u32 {
    let before = lent.recording();
    let number = lent.call(call);
    let mut places: Vec<usize> = match call {
        Call::Whole(repair) if number == 0 => {
            fills(&floats(&before.samples), threshold(repair)).into_iter().flatten().collect()
        }
        _ => Vec::new(),
    };
    places.sort_unstable();
    let m = places.len();
    if m == 0 {
        return number;
    }
    let end = before.used + entry_words(m);
    if end > before.journal.len() {
        return answers(lent, &before, Answer::Refused(9));
    }
    let saved = |place: usize| [place as u32, before.samples[place], u32::from(before.marks[place])];
    let entry: Vec<u32> = places.into_iter().flat_map(saved).chain([m as u32, 3]).collect();
    lent.journal.lend()[before.used..end].copy_from_slice(&entry);
    lent.used.lend()[0] = end;
    set_value(lent, m);
    number
}

fn y0_as_began(samples: &mut [f32], began: &[f32], (a, z): Two) {
    rewrite(samples, (a, z), [began[a], samples[z]], z - a);
}

fn y1_before_z(samples: &mut [f32], _began: &[f32], (a, z): Two) {
    rewrite(samples, (a, z), [samples[a], samples[z - 1]], z - a);
}

fn t_too_small(samples: &mut [f32], _began: &[f32], (a, z): Two) {
    rewrite(samples, (a, z), [samples[a], samples[z]], z - a + 1);
}

fn above_threshold(lent: &mut Lent, call: Call) -> u32 {
    declips(lent, call, |samples, threshold| all_runs(samples, |x| x.abs() > threshold), ends, fill)
}

fn runs_above_0(samples: &[f32], threshold: f32) -> Vec<Two> {
    all_runs(samples, |x| x >= threshold)
}

fn last_run_first(samples: &[f32], threshold: f32) -> Vec<Two> {
    runs(samples, threshold).into_iter().rev().collect()
}

fn shoulder_of_3_before(run: Two, n: usize) -> Option<Two> {
    if_apart(a_and_z(run, n, 3, 4))
}

fn shoulder_of_3_after(run: Two, n: usize) -> Option<Two> {
    if_apart(a_and_z(run, n, 4, 3))
}

fn z_before_last(run: Two, n: usize) -> Option<Two> {
    let (a, z) = a_and_z(run, n, 4, 4);
    if_apart((a, z.min(n.saturating_sub(2))))
}

fn not_near_end((s, e): Two, n: usize) -> Option<Two> {
    ends((s, e), n).filter(|_| e + 4 < n)
}

fn z_at_least_4_on(run: Two, n: usize) -> Option<Two> {
    let (a, z) = a_and_z(run, n, 4, 4);
    (z >= a + 4).then(|| (a, z))
}

fn z_from_e((s, e): Two, n: usize) -> Option<Two> {
    if_apart((s.saturating_sub(4), (e + 4).min(n - 1)))
}

fn zero_allowed(lent: &mut Lent, call: Call) -> u32 {
    match call {
        Call::Whole(Repair::Declip { threshold }) if threshold == 0.0 => {
            let allowed = Call::Whole(Repair::Declip { threshold: 1.0 });
            declips(lent, allowed, |samples, _| runs(samples, 0.0), ends, fill)
        }
        _ => lent.call(call),
    }
}

fn negative_allowed(lent: &mut Lent, call: Call) -> u32 {
    asks(lent, call, |repair| Repair::Declip { threshold: threshold(repair).abs() })
}

fn infinity_allowed(lent: &mut Lent, call: Call) -> u32 {
    asks(lent, call, |repair| match repair {
        Repair::Declip { threshold } if threshold == f32::INFINITY => Repair::Declip { threshold: f32::MAX },
        _ => repair,
    })
}

fn runs_on_output(lent: &mut Lent, call: Call) -> u32 {
    names(lent, call, |repair, began| {
        let mut samples = began.to_vec();
        let mut all: Vec<Two> = Vec::new();
        let mut from = 0;
        while let Some((s, e)) = run_from(&samples, from, |x| x.abs() >= threshold(repair)) {
            if let Some(two) = ends((s, e), began.len()) {
                fill(&mut samples, began, two);
                all.push(two);
            }
            from = e;
        }
        at(between(&all), &samples)
    })
}
