//! Stand-ins for the automatic scan, most of them made of repairs of single gaps.
use super::sequences::join_entries;
use super::How::Library;
use super::{Finds, Standin, Table};
use crate::call::Call;
use crate::inpaint::{held, is_lost, limit, lost, qualified, Gap, LOST_RUN, MOST_RATE, SCAN_PASSES};
use crate::lent::Lent;
use crate::settings::OfScan;

pub(super) const TABLES: &[Table] =
    &[Table { file: "inpaint", test: "scanned", finds: Finds::Always, standins: STANDINS }];

const STANDINS: &[Standin] = &[
    Standin { name: "scan_run_of_one", says: "a run of one sample qualifies", how: Library(scan_run_of_one) },
    Standin {
        name: "scan_run_at_start",
        says: "a run that touches the start qualifies",
        how: Library(scan_run_at_start),
    },
    Standin { name: "scan_run_at_end", says: "a run that touches the end qualifies", how: Library(scan_run_at_end) },
    Standin {
        name: "scan_limit_one_more",
        says: "a run one sample longer than the limit qualifies",
        how: Library(scan_limit_one_more),
    },
    Standin {
        name: "scan_limit_one_less",
        says: "a run of just the limit does not qualify",
        how: Library(scan_limit_one_less),
    },
    Standin {
        name: "scan_limit_rounded",
        says: "the limit is rounded and not cut to a whole number",
        how: Library(scan_limit_rounded),
    },
    Standin {
        name: "scan_limit_not_raised",
        says: "a limit below 0 is not raised to 1 and turns into a large number",
        how: Library(scan_limit_not_raised),
    },
    Standin {
        name: "scan_limit_of_infinity",
        says: "a product of plus infinity makes the limit 1",
        how: Library(scan_limit_of_infinity),
    },
    Standin {
        name: "scan_limit_product_first",
        says: "the limit is max_gap_ms*rate/1000",
        how: Library(scan_limit_product_first),
    },
    Standin {
        name: "scan_limit_in_doubles",
        says: "the limit is worked out in doubles",
        how: Library(scan_limit_in_doubles),
    },
    Standin {
        name: "scan_limit_of_32_bits",
        says: "the limit keeps only its last 32 digits",
        how: Library(scan_limit_of_32_bits),
    },
    Standin { name: "scan_nan_is_none", says: "a NaN is no dropout", how: Library(scan_nan_is_none) },
    Standin {
        name: "scan_minus_zero_is_none",
        says: "a sample of -0 is no dropout",
        how: Library(scan_minus_zero_is_none),
    },
    Standin { name: "scan_infinity_is_one", says: "an infinity is a dropout", how: Library(scan_infinity_is_one) },
    Standin {
        name: "scan_subnormal_is_one",
        says: "a subnormal sample is a dropout",
        how: Library(scan_subnormal_is_one),
    },
    Standin {
        name: "scan_zeros_and_nan_apart",
        says: "zeros and NaN side by side are two runs",
        how: Library(scan_zeros_and_nan_apart),
    },
    Standin {
        name: "scan_shorter_runs_too",
        says: "of a run longer than the limit the first samples qualify",
        how: Library(scan_shorter_runs_too),
    },
    Standin {
        name: "scan_stops_at_long_run",
        says: "a run longer than the limit ends the scan",
        how: Library(scan_stops_at_long_run),
    },
    Standin {
        name: "scan_skips_two",
        says: "after a run that qualified the search goes on two places past its end",
        how: Library(scan_skips_two),
    },
    Standin {
        name: "scan_from_last",
        says: "the runs are repaired from the last to the first",
        how: Library(scan_from_last),
    },
    Standin {
        name: "scan_stops_at_refusal",
        says: "the scan stops at a refused run",
        how: Library(scan_stops_at_refusal),
    },
    Standin {
        name: "scan_undone_at_refusal",
        says: "a refused run makes the whole scan keep the recording",
        how: Library(scan_undone_at_refusal),
    },
    Standin {
        name: "scan_last_refusal",
        says: "the number of the last refusal is answered",
        how: Library(scan_last_refusal),
    },
    Standin {
        name: "scan_highest_refusal",
        says: "the highest number of the refusals is answered",
        how: Library(scan_highest_refusal),
    },
    Standin {
        name: "scan_accepted_after_refusal",
        says: "0 is answered where any run was repaired",
        how: Library(scan_accepted_after_refusal),
    },
    Standin {
        name: "scan_counts_swapped",
        says: "qualified and repaired are swapped",
        how: Library(scan_counts_swapped),
    },
    Standin {
        name: "scan_qualified_only_repaired",
        says: "only the runs that were repaired count as qualified",
        how: Library(scan_qualified_only_repaired),
    },
    Standin {
        name: "scan_repaired_all",
        says: "all runs that qualified count as repaired",
        how: Library(scan_repaired_all),
    },
    Standin {
        name: "scan_counts_samples",
        says: "the repaired samples are counted and not the runs",
        how: Library(scan_counts_samples),
    },
    Standin { name: "scan_one_entry", says: "all runs share one journal entry", how: Library(scan_one_entry) },
    Standin {
        name: "scan_workspace_for_longest",
        says: "6 is answered for the whole scan where the workspace is too short for the longest run",
        how: Library(scan_workspace_for_longest),
    },
    Standin { name: "scan_workspace_kept", says: "the workspace is not cleared", how: Library(scan_workspace_kept) },
    Standin {
        name: "scan_3_at_journal_end",
        says: "3 is given where used is the journal's length",
        how: Library(scan_3_at_journal_end),
    },
    Standin { name: "scan_4_before_3", says: "4 is answered where 3 applies too", how: Library(scan_4_before_3) },
    Standin {
        name: "scan_4_at_most_rate",
        says: "the rate 16,777,216 is turned away",
        how: Library(scan_4_at_most_rate),
    },
    Standin {
        name: "scan_4_not_above_most_rate",
        says: "the rate 16,777,217 is allowed",
        how: Library(scan_4_not_above_most_rate),
    },
    Standin { name: "scan_4_below_zero", says: "a max_gap_ms below 0 is turned away", how: Library(scan_4_below_zero) },
    Standin {
        name: "scan_4_not_minus_infinity",
        says: "a max_gap_ms of minus infinity is allowed and means no limit",
        how: Library(scan_4_not_minus_infinity),
    },
    Standin {
        name: "scan_4_not_nan",
        says: "a max_gap_ms of NaN is allowed, and no run qualifies",
        how: Library(scan_4_not_nan),
    },
    Standin {
        name: "scan_4_without_counts",
        says: "where 4 is given, the counts are not handed back",
        how: Library(scan_4_without_counts),
    },
];

/// The settings of a scan that is not refused as a whole.
pub(super) fn allowed(lent: &Lent, call: Call) -> Option<OfScan> {
    match call {
        Call::Scan(settings) if lent.recording().refused_by_any_call().is_none() => {
            qualified(&[], settings).map(|_| settings)
        }
        _ => None,
    }
}

/// The runs that qualify in a scan; none, where it is refused as a whole.
pub(super) fn runs_of(lent: &Lent, call: Call) -> Vec<Gap> {
    let runs = allowed(lent, call).and_then(|settings| qualified(lent.samples(), settings));
    runs.unwrap_or_default()
}

/// Each of these runs is repaired, in this order, and the list gets the orders of the models. The numbers that are
/// answered.
pub(super) fn repair(lent: &mut Lent, runs: &[Gap]) -> Vec<u32> {
    runs.iter().map(|run| repair_run(lent, *run)).collect()
}

/// A run is repaired, and the list gets the order of its model. The number that is answered.
fn repair_run(lent: &mut Lent, run: Gap) -> u32 {
    let number = lent.call(Call::Gap { gap: run, passes: SCAN_PASSES });
    if number == 0 && !run.is_line() {
        let order = lent.order.lent()[0];
        lent.orders.lend().iter_mut().take(run.end()).skip(run.start).for_each(|at| *at = order);
    }
    number
}

/// The scan answers with this number and hands back these counts.
fn answer(lent: &mut Lent, number: u32, counts: [usize; 2]) -> u32 {
    for (part, count) in lent.numbers.iter_mut().zip(counts) {
        part.lend()[0] = count;
    }
    number
}

/// The scan answers as document 01 has it where its runs were answered with these numbers.
pub(super) fn answer_of(lent: &mut Lent, numbers: &[u32]) -> u32 {
    let repaired = numbers.iter().filter(|number| **number == 0).count();
    let first = numbers.iter().find(|number| **number != 0);
    answer(lent, first.copied().unwrap_or(0), [numbers.len(), repaired])
}

/// The counts that the last scan handed back: qualified and repaired.
fn counts(lent: &Lent) -> [usize; 2] {
    [lent.numbers[0].lent()[0], lent.numbers[1].lent()[0]]
}

/// The scan repairs these runs.
fn over(lent: &mut Lent, runs: &[Gap]) -> u32 {
    let numbers = repair(lent, runs);
    answer_of(lent, &numbers)
}

/// A scan that is not refused as a whole repairs the runs that this makes of the samples.
pub(super) fn with_runs(lent: &mut Lent, call: Call, runs: impl FnOnce(&[u32], OfScan) -> Vec<Gap>) -> u32 {
    match allowed(lent, call) {
        Some(settings) => {
            let runs = runs(lent.samples(), settings);
            over(lent, &runs)
        }
        None => lent.call(call),
    }
}

/// The longest runs of samples that are so, each like the one before it.
fn runs_where(samples: &[u32], so: fn(f32) -> bool, like: fn(f32, f32) -> bool) -> Vec<Gap> {
    let at = |place: usize| f32::from_bits(samples[place]);
    let mut runs: Vec<Gap> = Vec::new();
    for place in (0..samples.len()).filter(|place| so(at(*place))) {
        match runs.last_mut() {
            Some(run) if run.start + run.len == place && like(at(place - 1), at(place)) => run.len += 1,
            _ => runs.push(Gap { start: place, len: 1 }),
        }
    }
    runs
}

/// The gaps of two lists, in their order.
pub(super) fn in_order(mut gaps: Vec<Gap>, others: Vec<Gap>) -> Vec<Gap> {
    gaps.extend(others);
    gaps.sort_unstable_by_key(|gap| gap.start);
    gaps
}

/// The runs of zeros and NaN of two samples or more.
pub(super) fn lost_runs(samples: &[u32]) -> Vec<Gap> {
    at_least_two(lost(samples))
}

/// Those of these runs that have two samples or more.
fn at_least_two(mut runs: Vec<Gap>) -> Vec<Gap> {
    runs.retain(|run| run.len >= LOST_RUN);
    runs
}

/// The gaps of held words.
pub(super) fn held_gaps(samples: &[u32], settings: OfScan) -> Vec<Gap> {
    held(samples, settings.held_run as usize)
}

/// The runs of zeros and NaN, and the gaps of held words.
pub(super) fn dropouts(samples: &[u32], settings: OfScan) -> Vec<Gap> {
    in_order(lost_runs(samples), held_gaps(samples, settings))
}

fn touches_start(run: Gap) -> bool {
    run.start == 0
}

fn touches_end(run: Gap, n: usize) -> bool {
    run.start + run.len == n
}

/// The runs that qualify of these in n samples, with this limit.
pub(super) fn qualifying(runs: Vec<Gap>, n: usize, limit: usize) -> Vec<Gap> {
    runs.into_iter().filter(|run| run.is_allowed(n, limit)).collect()
}

/// A scan with this limit.
fn with_limit(lent: &mut Lent, call: Call, limit: fn(OfScan) -> usize) -> u32 {
    with_runs(lent, call, |samples, settings| qualifying(dropouts(samples, settings), samples.len(), limit(settings)))
}

/// A scan with these for dropouts in the place of zeros and NaN.
fn with_dropouts(lent: &mut Lent, call: Call, so: fn(f32) -> bool, like: fn(f32, f32) -> bool) -> u32 {
    with_runs(lent, call, |samples, settings| {
        let runs = in_order(at_least_two(runs_where(samples, so, like)), held_gaps(samples, settings));
        qualifying(runs, samples.len(), limit(settings))
    })
}

/// Whether a dropout run keeps to the limit, whatever else holds of it.
fn is_within(run: &Gap, settings: OfScan) -> bool {
    run.len <= limit(settings)
}

fn scan_run_of_one(lent: &mut Lent, call: Call) -> u32 {
    with_runs(lent, call, |samples, settings| {
        let mut runs = in_order(lost(samples), held_gaps(samples, settings));
        runs.retain(|run| is_within(run, settings) && !touches_start(*run) && !touches_end(*run, samples.len()));
        runs
    })
}

fn scan_run_at_start(lent: &mut Lent, call: Call) -> u32 {
    with_runs(lent, call, |samples, settings| {
        let mut runs = dropouts(samples, settings);
        runs.retain(|run| is_within(run, settings) && !touches_end(*run, samples.len()));
        runs
    })
}

fn scan_run_at_end(lent: &mut Lent, call: Call) -> u32 {
    with_runs(lent, call, |samples, settings| {
        let mut runs = dropouts(samples, settings);
        runs.retain(|run| is_within(run, settings) && !touches_start(*run));
        runs
    })
}

fn scan_limit_one_more(lent: &mut Lent, call: Call) -> u32 {
    with_limit(lent, call, |settings| limit(settings).saturating_add(1))
}

fn scan_limit_one_less(lent: &mut Lent, call: Call) -> u32 {
    with_limit(lent, call, |settings| limit(settings) - 1)
}

/// The product of which the limit is cut.
fn product(OfScan { rate, max_gap_ms, .. }: OfScan) -> f32 {
    (max_gap_ms / 1000.0) * rate as f32
}

fn scan_limit_rounded(lent: &mut Lent, call: Call) -> u32 {
    with_limit(lent, call, |settings| product(settings).round() as usize)
}

fn scan_limit_not_raised(lent: &mut Lent, call: Call) -> u32 {
    with_limit(lent, call, |settings| {
        let product = product(settings);
        if product < 0.0 {
            product as i64 as usize
        } else {
            product as usize
        }
    })
}

fn scan_limit_of_infinity(lent: &mut Lent, call: Call) -> u32 {
    with_limit(lent, call, |settings| if product(settings).is_infinite() { 1 } else { product(settings) as usize })
}

fn scan_limit_product_first(lent: &mut Lent, call: Call) -> u32 {
    with_limit(lent, call, |OfScan { rate, max_gap_ms, .. }| (max_gap_ms * rate as f32 / 1000.0) as usize)
}

fn scan_limit_in_doubles(lent: &mut Lent, call: Call) -> u32 {
    with_limit(lent, call, |OfScan { rate, max_gap_ms, .. }| {
        (f64::from(max_gap_ms) / 1000.0 * f64::from(rate)) as usize
    })
}

fn scan_limit_of_32_bits(lent: &mut Lent, call: Call) -> u32 {
    with_limit(lent, call, |settings| limit(settings) as u32 as usize)
}

fn scan_nan_is_none(lent: &mut Lent, call: Call) -> u32 {
    with_dropouts(lent, call, |x| x == 0.0, |_, _| true)
}

fn scan_minus_zero_is_none(lent: &mut Lent, call: Call) -> u32 {
    with_dropouts(lent, call, |x| x.is_nan() || x.to_bits() == 0, |_, _| true)
}

fn scan_infinity_is_one(lent: &mut Lent, call: Call) -> u32 {
    with_dropouts(lent, call, |x| x == 0.0 || !x.is_finite(), |_, _| true)
}

fn scan_subnormal_is_one(lent: &mut Lent, call: Call) -> u32 {
    with_dropouts(lent, call, |x| is_lost(x.to_bits()) || x.is_subnormal(), |_, _| true)
}

fn scan_zeros_and_nan_apart(lent: &mut Lent, call: Call) -> u32 {
    with_dropouts(lent, call, |x| is_lost(x.to_bits()), |x, y| x.is_nan() == y.is_nan())
}

fn scan_shorter_runs_too(lent: &mut Lent, call: Call) -> u32 {
    with_runs(lent, call, |samples, settings| {
        let (n, most) = (samples.len(), limit(settings));
        let mut runs = dropouts(samples, settings);
        runs.retain(|run| !touches_end(*run, n));
        let cut = runs.into_iter().map(|run| Gap { start: run.start, len: run.len.min(most) }).collect();
        qualifying(cut, n, most)
    })
}

fn scan_stops_at_long_run(lent: &mut Lent, call: Call) -> u32 {
    with_runs(lent, call, |samples, settings| {
        let runs = dropouts(samples, settings).into_iter().take_while(|run| is_within(run, settings)).collect();
        qualifying(runs, samples.len(), usize::MAX)
    })
}

fn scan_skips_two(lent: &mut Lent, call: Call) -> u32 {
    with_runs(lent, call, |samples, settings| {
        let (n, most) = (samples.len(), limit(settings));
        let mut from = 0;
        let mut found = Vec::new();
        for run in dropouts(samples, settings) {
            let start = run.start.max(from);
            let seen = Gap { start, len: (run.start + run.len).saturating_sub(start) };
            if seen.len >= LOST_RUN && seen.is_allowed(n, most) {
                from = run.start + run.len + 2;
                found.push(seen);
            }
        }
        found
    })
}

fn scan_from_last(lent: &mut Lent, call: Call) -> u32 {
    with_runs(lent, call, |samples, settings| {
        let runs = qualified(samples, settings).unwrap_or_default();
        runs.into_iter().rev().collect()
    })
}

fn scan_stops_at_refusal(lent: &mut Lent, call: Call) -> u32 {
    if allowed(lent, call).is_none() {
        return lent.call(call);
    }
    let mut numbers = Vec::new();
    for run in runs_of(lent, call) {
        numbers.extend(repair(lent, &[run]));
        if numbers.last() != Some(&0) {
            break;
        }
    }
    answer_of(lent, &numbers)
}

fn scan_undone_at_refusal(lent: &mut Lent, call: Call) -> u32 {
    let (before, orders) = (lent.recording(), lent.orders.lent().to_vec());
    let number = lent.call(call);
    if number > 4 {
        lent.put(&before);
        lent.orders.lend().copy_from_slice(&orders);
        lent.numbers[1].lend()[0] = 0;
    }
    number
}

/// The scan is made, and this is answered of the numbers of its runs.
fn answering(lent: &mut Lent, call: Call, of: fn(&[u32]) -> Option<u32>) -> u32 {
    match allowed(lent, call) {
        Some(_) => {
            let runs = runs_of(lent, call);
            let numbers = repair(lent, &runs);
            answer_of(lent, &numbers);
            of(&numbers).unwrap_or(0)
        }
        None => lent.call(call),
    }
}

fn scan_last_refusal(lent: &mut Lent, call: Call) -> u32 {
    answering(lent, call, |numbers| numbers.iter().rev().find(|number| **number != 0).copied())
}

fn scan_highest_refusal(lent: &mut Lent, call: Call) -> u32 {
    answering(lent, call, |numbers| numbers.iter().max().copied())
}

fn scan_accepted_after_refusal(lent: &mut Lent, call: Call) -> u32 {
    answering(lent, call, |numbers| numbers.iter().min().copied())
}

fn scan_counts_swapped(lent: &mut Lent, call: Call) -> u32 {
    let number = lent.call(call);
    let [qualified, repaired] = counts(lent);
    answer(lent, number, [repaired, qualified])
}

fn scan_qualified_only_repaired(lent: &mut Lent, call: Call) -> u32 {
    let number = lent.call(call);
    let [_, repaired] = counts(lent);
    answer(lent, number, [repaired, repaired])
}

fn scan_repaired_all(lent: &mut Lent, call: Call) -> u32 {
    let number = lent.call(call);
    let [qualified, _] = counts(lent);
    answer(lent, number, [qualified, qualified])
}

fn scan_counts_samples(lent: &mut Lent, call: Call) -> u32 {
    let used = lent.used.lent()[0];
    let number = lent.call(call);
    let [qualified, repaired] = counts(lent);
    let samples = (lent.used.lent()[0] - used - 2 * repaired) / 3;
    answer(lent, number, [qualified, samples])
}

fn scan_one_entry(lent: &mut Lent, call: Call) -> u32 {
    let before = lent.recording();
    let number = lent.call(call);
    let mut after = lent.recording();
    if after.used > before.used {
        join_entries(&before, &mut after);
        lent.put(&after);
    }
    number
}

fn scan_workspace_for_longest(lent: &mut Lent, call: Call) -> u32 {
    let (runs, n) = (runs_of(lent, call), lent.samples().len());
    let needed = runs.iter().map(|run| run.needed(n)).max();
    if needed > Some(lent.doubles.lent().len()) {
        return answer(lent, 6, [runs.len(), 0]);
    }
    lent.call(call)
}

fn scan_workspace_kept(lent: &mut Lent, call: Call) -> u32 {
    let doubles = lent.doubles.lent().to_vec();
    let number = lent.call(call);
    lent.doubles.lend().copy_from_slice(&doubles);
    number
}

fn scan_3_at_journal_end(lent: &mut Lent, call: Call) -> u32 {
    let is_full = lent.used.lent()[0] == lent.journal.lent().len();
    if is_full && allowed(lent, call).is_some() {
        answer(lent, 3, [0, 0])
    } else {
        lent.call(call)
    }
}

fn scan_4_before_3(lent: &mut Lent, call: Call) -> u32 {
    let number = lent.call(call);
    match call {
        Call::Scan(settings) if number == 3 && qualified(&[], settings).is_none() => 4,
        _ => number,
    }
}

/// The scan is refused by 4 where the settings are so, and not by another number before.
pub(super) fn refusing(lent: &mut Lent, call: Call, so: fn(OfScan) -> bool) -> u32 {
    match allowed(lent, call) {
        Some(settings) if so(settings) => answer(lent, 4, [0, 0]),
        _ => lent.call(call),
    }
}

fn scan_4_at_most_rate(lent: &mut Lent, call: Call) -> u32 {
    refusing(lent, call, |settings| settings.rate == MOST_RATE)
}

fn scan_4_below_zero(lent: &mut Lent, call: Call) -> u32 {
    refusing(lent, call, |settings| settings.max_gap_ms < 0.0)
}

/// The scan is made with this limit where it would be refused by 4 for these settings.
pub(super) fn allowing(lent: &mut Lent, call: Call, so: fn(OfScan) -> bool, limit: fn(OfScan) -> usize) -> u32 {
    let number = lent.call(call);
    match call {
        Call::Scan(settings) if number == 4 && so(settings) => {
            let n = lent.samples().len();
            let runs = qualifying(dropouts(lent.samples(), settings), n, limit(settings));
            over(lent, &runs)
        }
        _ => number,
    }
}

/// Whether a scan allows these settings.
pub(super) fn is_allowed(settings: OfScan) -> bool {
    qualified(&[], settings).is_some()
}

fn scan_4_not_above_most_rate(lent: &mut Lent, call: Call) -> u32 {
    let is_above = |settings: OfScan| settings.rate == MOST_RATE + 1 && is_allowed(OfScan { rate: 1, ..settings });
    allowing(lent, call, is_above, limit)
}

fn scan_4_not_minus_infinity(lent: &mut Lent, call: Call) -> u32 {
    let is_it = |settings: OfScan| {
        settings.max_gap_ms == f32::NEG_INFINITY && is_allowed(OfScan { max_gap_ms: 1.0, ..settings })
    };
    allowing(lent, call, is_it, |_| usize::MAX)
}

fn scan_4_not_nan(lent: &mut Lent, call: Call) -> u32 {
    let is_it = |settings: OfScan| settings.max_gap_ms.is_nan() && is_allowed(OfScan { max_gap_ms: 1.0, ..settings });
    allowing(lent, call, is_it, |_| 1)
}

fn scan_4_without_counts(lent: &mut Lent, call: Call) -> u32 {
    let before = counts(lent);
    let number = lent.call(call);
    if number == 4 {
        answer(lent, number, before);
    }
    number
}
