//! Stand-ins for the automatic scan that are wrong in what request P11 of document 02 makes of request P1's number, each
//! made of repairs of single gaps.
use super::scans::{
    allowed, allowing, answer_of, held_gaps, in_order, is_allowed, lost_runs, qualifying, refusing, repair, with_runs,
};
use super::{Finds, Standin, Table};
use crate::call::Call;
use crate::inpaint::{held, limit, lost, Gap, HELD_RUN, LEAST_HELD_RUN, LOST_RUN, MOST_HELD_RUN};
use crate::lent::Lent;
use crate::settings::OfScan;

pub(super) const TABLES: &[Table] = &[
    Table { file: "inpaint", test: "held_runs", finds: Finds::Always, standins: RUNS },
    Table { file: "inpaint", test: "held_runs", finds: Finds::Always, standins: REFUSALS },
];

/// Which runs are held.
const RUNS: &[Standin] = &[
    library!("runs_always_16", "16 equal words are held, whatever the setting", runs_always_16),
    library!("runs_16_at_least", "a setting below 16 counts as 16", runs_16_at_least),
    library!("runs_16_at_most", "a setting above 16 counts as 16", runs_16_at_most),
    library!("runs_one_more", "a held run has to be one longer than the setting", runs_one_more),
    library!("runs_one_less", "a held run may be one shorter than the setting", runs_one_less),
    library!("runs_one_more_from_17", "likewise one longer, where the setting is above 16", runs_one_more_from_17),
    library!("runs_gap_of_one", "a gap of one sample does not qualify", runs_gap_of_one),
    library!("runs_both_at_2", "at 2 both samples of a run of two are the gap", runs_both_at_2),
    library!("runs_3_at_2", "at 2 a run has to have three samples", runs_3_at_2),
    library!("runs_none_at_most", "at 4,096 no word is held", runs_none_at_most),
    library!("runs_4095_at_most", "at 4,096 a run of 4,095 is held", runs_4095_at_most),
    library!("runs_of_8_digits", "of the setting the last 8 binary digits count, at least 2", runs_of_8_digits),
    library!("runs_for_zeros", "zeros and NaN have to be as many as the setting", runs_for_zeros),
    library!("runs_for_zeros_at_most", "zeros and NaN as many as a larger setting are held", runs_for_zeros_at_most),
    library!("runs_in_limit", "the run's length is held to the limit, and not the gap's", runs_in_limit),
    library!("runs_limit_raised", "the limit is raised to the gap of the shortest held run", runs_limit_raised),
    library!("runs_in_parts", "each so many words of a held run are a run of their own", runs_in_parts),
    library!("runs_from_last", "the runs are repaired from the last to the first", runs_from_last),
];

/// What is turned away.
const REFUSALS: &[Standin] = &[
    library!("runs_0_allowed", "0 is allowed, and no word is held", runs_0_allowed),
    library!("runs_1_allowed", "1 is allowed, and counts as 2", runs_1_allowed),
    library!("runs_4097_allowed", "4,097 is allowed", runs_4097_allowed),
    library!("runs_above_allowed", "a setting above 4,096 is allowed, and counts as 4,096", runs_above_allowed),
    library!("runs_of_16_digits", "of the setting the last 16 binary digits count", runs_of_16_digits),
    library!("runs_any_sign", "a setting of 2^31 or more is allowed, and no word is held", runs_any_sign),
    library!("runs_2_refused", "2 is turned away", runs_2_refused),
    library!("runs_4096_refused", "4,096 is turned away", runs_4096_refused),
    library!("runs_odd_refused", "a setting that is odd is turned away", runs_odd_refused),
    library!("runs_4_before_1", "4 is answered where 1 applies too", |lent, call| before(lent, call, 1)),
    library!("runs_4_before_14", "4 is answered where 14 applies too", |lent, call| before(lent, call, 14)),
    library!("runs_4_before_2", "4 is answered where 2 applies too", |lent, call| before(lent, call, 2)),
    library!("runs_4_before_3", "4 is answered where 3 applies too", |lent, call| before(lent, call, 3)),
    library!("runs_refused_by_6", "6 is answered in the place of 4", runs_refused_by_6),
    library!("runs_refused_scans", "4 is answered, and the scan is made at 16", runs_refused_scans),
    library!(
        "runs_refused_keeps_counts",
        "where 4 is given, the counts are not handed back",
        runs_refused_keeps_counts
    ),
    library!("runs_refused_without_runs", "4 is given only where a run qualifies at 16", runs_refused_without_runs),
];

/// A scan that repairs the gaps of runs of zeros and NaN, and of held words those that this makes, where they are within
/// the limit and touch neither end.
fn with_gaps(lent: &mut Lent, call: Call, gaps: fn(&[u32], OfScan) -> Vec<Gap>) -> u32 {
    with_runs(lent, call, |samples, settings| {
        let mut gaps = gaps(samples, settings);
        gaps.retain(|gap| gap.len > 0);
        qualifying(in_order(lost_runs(samples), gaps), samples.len(), limit(settings))
    })
}

/// A scan in which so many equal words are held as this makes of the setting, at least 2.
fn with_least(lent: &mut Lent, call: Call, least: fn(usize) -> usize) -> u32 {
    with_runs(lent, call, |samples, settings| {
        let gaps = held(samples, least(settings.held_run as usize).max(2));
        qualifying(in_order(lost_runs(samples), gaps), samples.len(), limit(settings))
    })
}

fn runs_always_16(lent: &mut Lent, call: Call) -> u32 {
    with_least(lent, call, |_| HELD_RUN)
}

fn runs_16_at_least(lent: &mut Lent, call: Call) -> u32 {
    with_least(lent, call, |run| run.max(HELD_RUN))
}

fn runs_16_at_most(lent: &mut Lent, call: Call) -> u32 {
    with_least(lent, call, |run| run.min(HELD_RUN))
}

fn runs_one_more(lent: &mut Lent, call: Call) -> u32 {
    with_least(lent, call, |run| run + 1)
}

fn runs_one_less(lent: &mut Lent, call: Call) -> u32 {
    with_least(lent, call, |run| run - 1)
}

fn runs_one_more_from_17(lent: &mut Lent, call: Call) -> u32 {
    with_least(lent, call, |run| run + usize::from(run > HELD_RUN))
}

fn runs_gap_of_one(lent: &mut Lent, call: Call) -> u32 {
    with_gaps(lent, call, |samples, settings| {
        let mut gaps = held_gaps(samples, settings);
        gaps.retain(|gap| gap.len >= LOST_RUN);
        gaps
    })
}

fn runs_both_at_2(lent: &mut Lent, call: Call) -> u32 {
    with_gaps(lent, call, |samples, settings| {
        let both = |gap: Gap| if gap.len == 1 { Gap { start: gap.start - 1, len: 2 } } else { gap };
        held_gaps(samples, settings).into_iter().map(both).collect()
    })
}

fn runs_3_at_2(lent: &mut Lent, call: Call) -> u32 {
    with_least(lent, call, |run| run.max(3))
}

fn runs_none_at_most(lent: &mut Lent, call: Call) -> u32 {
    with_least(lent, call, |run| if run == 4_096 { usize::MAX } else { run })
}

fn runs_4095_at_most(lent: &mut Lent, call: Call) -> u32 {
    with_least(lent, call, |run| run.min(4_095))
}

fn runs_of_8_digits(lent: &mut Lent, call: Call) -> u32 {
    with_least(lent, call, |run| run & 0xff)
}

fn runs_for_zeros(lent: &mut Lent, call: Call) -> u32 {
    with_runs(lent, call, |samples, settings| {
        let mut zeros = lost(samples);
        zeros.retain(|run| run.len >= settings.held_run as usize);
        qualifying(in_order(zeros, held_gaps(samples, settings)), samples.len(), limit(settings))
    })
}

fn runs_for_zeros_at_most(lent: &mut Lent, call: Call) -> u32 {
    with_runs(lent, call, |samples, settings| {
        let mut zeros = lost_runs(samples);
        let is_held = |run: &Gap| settings.held_run as usize > HELD_RUN && run.len >= settings.held_run as usize;
        for run in zeros.iter_mut().filter(|run| is_held(run)) {
            *run = Gap { start: run.start + 1, len: run.len - 1 };
        }
        qualifying(in_order(zeros, held_gaps(samples, settings)), samples.len(), limit(settings))
    })
}

fn runs_in_limit(lent: &mut Lent, call: Call) -> u32 {
    with_gaps(lent, call, |samples, settings| {
        let mut gaps = held_gaps(samples, settings);
        gaps.retain(|gap| gap.len < limit(settings));
        gaps
    })
}

fn runs_limit_raised(lent: &mut Lent, call: Call) -> u32 {
    with_runs(lent, call, |samples, settings| {
        let (n, most) = (samples.len(), limit(settings));
        let gaps = qualifying(held_gaps(samples, settings), n, most.max(settings.held_run as usize - 1));
        in_order(qualifying(lost_runs(samples), n, most), gaps)
    })
}

fn runs_in_parts(lent: &mut Lent, call: Call) -> u32 {
    with_gaps(lent, call, |samples, settings| {
        let run = settings.held_run as usize;
        let parts =
            |gap: Gap| (0..(gap.len + 1) / run).map(move |turn| Gap { start: gap.start + turn * run, len: run - 1 });
        held_gaps(samples, settings).into_iter().flat_map(parts).collect()
    })
}

fn runs_from_last(lent: &mut Lent, call: Call) -> u32 {
    with_runs(lent, call, |samples, settings| {
        let runs = in_order(lost_runs(samples), held_gaps(samples, settings));
        qualifying(runs, samples.len(), limit(settings)).into_iter().rev().collect()
    })
}

/// A scan whose setting is so, where all others are allowed, repairs what it would with this one.
fn taking(lent: &mut Lent, call: Call, so: fn(u32) -> bool, as_if: fn(u32) -> u32) -> u32 {
    match call {
        Call::Scan(settings) if so(settings.held_run) && is_allowed(settings.holding(HELD_RUN as u32)) => {
            lent.call(Call::Scan(settings.holding(as_if(settings.held_run))))
        }
        _ => lent.call(call),
    }
}

fn runs_0_allowed(lent: &mut Lent, call: Call) -> u32 {
    let is_it = |settings: OfScan| settings.held_run == 0 && is_allowed(settings.holding(HELD_RUN as u32));
    match call {
        Call::Scan(settings) if is_it(settings) && allowed(lent, Call::Scan(settings.holding(2))).is_some() => {
            let runs = qualifying(lost_runs(lent.samples()), lent.samples().len(), limit(settings));
            let numbers = repair(lent, &runs);
            answer_of(lent, &numbers)
        }
        _ => lent.call(call),
    }
}

fn runs_1_allowed(lent: &mut Lent, call: Call) -> u32 {
    taking(lent, call, |run| run == 1, |_| LEAST_HELD_RUN)
}

fn runs_4097_allowed(lent: &mut Lent, call: Call) -> u32 {
    let is_above =
        |settings: OfScan| settings.held_run == MOST_HELD_RUN + 1 && is_allowed(settings.holding(HELD_RUN as u32));
    allowing(lent, call, is_above, limit)
}

fn runs_above_allowed(lent: &mut Lent, call: Call) -> u32 {
    taking(lent, call, |run| run > MOST_HELD_RUN, |_| MOST_HELD_RUN)
}

fn runs_of_16_digits(lent: &mut Lent, call: Call) -> u32 {
    taking(lent, call, |run| run > 0xffff, |run| run & 0xffff)
}

fn runs_any_sign(lent: &mut Lent, call: Call) -> u32 {
    let is_it = |settings: OfScan| settings.held_run >> 31 == 1 && is_allowed(settings.holding(HELD_RUN as u32));
    allowing(lent, call, is_it, limit)
}

fn runs_2_refused(lent: &mut Lent, call: Call) -> u32 {
    refusing(lent, call, |settings| settings.held_run == 2)
}

fn runs_4096_refused(lent: &mut Lent, call: Call) -> u32 {
    refusing(lent, call, |settings| settings.held_run == 4_096)
}

fn runs_odd_refused(lent: &mut Lent, call: Call) -> u32 {
    refusing(lent, call, |settings| settings.held_run % 2 == 1)
}

/// Whether a scan has no setting that is not allowed but the held run.
fn is_only(call: Call) -> bool {
    matches!(call, Call::Scan(settings) if !is_allowed(settings) && is_allowed(settings.holding(HELD_RUN as u32)))
}

/// 4 is answered for the held run where this number applies too.
fn before(lent: &mut Lent, call: Call, number: u32) -> u32 {
    let answered = lent.call(call);
    if answered == number && is_only(call) {
        4
    } else {
        answered
    }
}

fn runs_refused_by_6(lent: &mut Lent, call: Call) -> u32 {
    let number = lent.call(call);
    if number == 4 && is_only(call) {
        6
    } else {
        number
    }
}

fn runs_refused_scans(lent: &mut Lent, call: Call) -> u32 {
    let number = lent.call(call);
    if number == 4 && is_only(call) {
        taking(lent, call, |_| true, |_| HELD_RUN as u32);
        lent.numbers.iter_mut().for_each(|part| part.lend()[0] = 0);
    }
    number
}

fn runs_refused_keeps_counts(lent: &mut Lent, call: Call) -> u32 {
    let before = [lent.numbers[0].lent()[0], lent.numbers[1].lent()[0]];
    let number = lent.call(call);
    if number == 4 && is_only(call) {
        lent.numbers.iter_mut().zip(before).for_each(|(part, count)| part.lend()[0] = count);
    }
    number
}

fn runs_refused_without_runs(lent: &mut Lent, call: Call) -> u32 {
    let number = lent.call(call);
    let at_16 = |settings: OfScan| super::scans::runs_of(lent, Call::Scan(settings.holding(HELD_RUN as u32)));
    match call {
        Call::Scan(settings) if number == 4 && is_only(call) && at_16(settings).is_empty() => 0,
        _ => number,
    }
}
