//! Stand-ins for the order of a gap's model, for the list that a scan leaves its orders in, and for the host's own
//! prediction step.
use super::gaps::{model_order, order, within};
use super::scans::{allowed, answer_of, runs_of};
use super::How::Lags;
use super::{Finds, Standin, Table};
use crate::call::Call;
use crate::inpaint::{Gap, SCAN_PASSES};
use crate::lent::{Lent, GUARDS, ORDER_BEFORE};
use crate::prediction::{levinson, Model, Stop, Window, BOUND, SHARE};
use std::ops::Range;

pub(super) const TABLES: &[Table] = &[
    Table { file: "inpaint", test: "orders_of_gaps", finds: Finds::Always, standins: OF_GAPS },
    Table { file: "inpaint", test: "orders_of_gaps", finds: Finds::Always, standins: OF_REFUSED_GAPS },
    Table { file: "inpaint", test: "repairs", finds: Finds::Always, standins: OF_REPAIRS },
    Table { file: "inpaint", test: "orders_of_scans", finds: Finds::Always, standins: OF_SCANS },
    Table { file: "inpaint", test: "orders_of_gaps", finds: Finds::Always, standins: OF_OWN_STEP },
    Table { file: "sequences", test: "all_calls", finds: Finds::Always, standins: OF_SEQUENCES },
];

/// What is told of an accepted gap.
const OF_GAPS: &[Standin] = &[
    library!("order_one_more_before_k", "the k before which the model stops counts as used", |lent, call| {
        telling(lent, call, |m| m.reach.order + u32::from(m.reach.stop == Stop::BeforeK))
    }),
    library!("order_1_before_first_k", "1 is told where the model stops before the first k", |lent, call| {
        telling(lent, call, |m| m.reach.order.max(u32::from(m.reach.stop == Stop::BeforeK)))
    }),
    library!("order_1_at_once", "1 is told where r[0] is at most 0", |lent, call| {
        telling(lent, call, |m| m.reach.order + u32::from(m.reach.stop == Stop::AtOnce))
    }),
    library!("order_one_less", "the order before the last one is told", |lent, call| {
        telling(lent, call, |m| m.reach.order.saturating_sub(1))
    }),
    library!("order_one_less_at_end", "p-1 is told where the model does not stop", |lent, call| {
        telling(lent, call, |m| m.reach.order - u32::from(m.reach.stop == Stop::Nowhere))
    }),
    library!("order_0_at_end", "0 is told where the model does not stop early", |lent, call| {
        telling(lent, call, |m| if m.reach.stop == Stop::Nowhere { 0 } else { m.reach.order })
    }),
    library!("order_0_where_stopped", "0 is told where the model stops early", |lent, call| {
        telling(lent, call, |m| if m.reach.stop == Stop::Nowhere { m.reach.order } else { 0 })
    }),
    library!("order_p", "p is always told", |lent, call| telling(lent, call, |m| m.reach.p)),
    library!("order_p_where_stopped_later", "p is told where the model stops behind the first order", |lent, call| {
        telling(lent, call, |m| if m.reach.order > 1 { m.reach.p } else { m.reach.order })
    }),
    library!("order_at_most_32", "32 is told where the order is higher", |lent, call| {
        telling(lent, call, |m| m.reach.order.min(32))
    }),
    library!("order_of_length", "where the model does not stop, the gap's length is told", order_of_length),
    library!("order_nonzero", "so many coefficients as are not 0 are told for the order", |lent, call| {
        telling(lent, call, |m| m.reach.nonzero)
    }),
    library!(
        "order_last_nonzero",
        "the last coefficient that is not 0 is taken for that of the order",
        |lent, call| { telling(lent, call, |m| m.coefficients.iter().rposition(|a| *a != 0.0).unwrap_or(0) as u32) }
    ),
    library!("order_not_raised", "r[0] is not raised by 1e-6 before the order is found", |lent, call| {
        of_window(lent, call, |window| match window.lags() {
            r if r[0] > 0.0 => levinson(&r).reach.order,
            _ => 0,
        })
    }),
    library!("order_stops_at_bound", "a first e of just 1e-12 stops the model", |lent, call| {
        of_window(lent, call, |window| match window.lags()[0] * (1.0 + SHARE) {
            e if e == BOUND => 0,
            _ => window.model().reach.order,
        })
    }),
    library!("order_with_gap", "what stood in the gap has a say", |lent, call| {
        of_window(lent, call, |window| Window { gap: 0..0, ..window }.model().reach.order)
    }),
    library!("order_of_left_side", "only the samples before the gap have a say, if there are such", |lent, call| {
        of_window(lent, call, |mut window| {
            window.doubles.truncate(if window.gap.start > 0 { window.gap.end } else { usize::MAX });
            window.model().reach.order
        })
    }),
    library!("order_of_all_samples", "the samples beside the window have a say", order_of_all_samples),
    library!("order_without_passes", "with 0 passes 0 is told", |lent, call| {
        let number = lent.call(call);
        if matches!(call, Call::Gap { passes: 0, .. }) {
            *order(lent) = 0;
        }
        number
    }),
    library!("order_for_value", "the order is handed back in place of m", |lent, call| {
        let number = lent.call(call);
        if number == 0 {
            lent.numbers[0].lend()[0] = lent.order.lent()[0] as usize;
        }
        number
    }),
    library!("order_0_not_written", "an order of 0 is not written", |lent, call| {
        keeping(lent, call, |number, order| number == 0 && order == 0)
    }),
    library!("order_of_8_bits", "only 8 binary digits of the order are written", |lent, call| {
        let number = lent.call(call);
        *order(lent) |= ORDER_BEFORE & !0xff;
        number
    }),
    library!("order_of_64_bits", "64 binary digits are written, half of them past the order", |lent, call| {
        let number = lent.call(call);
        lent.order.whole[GUARDS + 1] = 0;
        number
    }),
    library!("order_of_line_p", "128 is told for a straight line", |lent, call| {
        of_line(lent, call, |lent| *order(lent) = 128)
    }),
    library!("order_of_line_not_written", "nothing is told for a straight line", |lent, call| {
        of_line(lent, call, |lent| *order(lent) = ORDER_BEFORE)
    }),
];

/// What is told of a refused gap.
const OF_REFUSED_GAPS: &[Standin] = &[
    library!("order_on_6", "on 6 p is told", |lent, call| refused(lent, call, 6, |_, gap| gap.most_order() as u32)),
    library!("order_on_7", "on 7 p is told", |lent, call| refused(lent, call, 7, |_, gap| gap.most_order() as u32)),
    library!("order_on_8", "on 8 the order of the model is told", |lent, call| refused(lent, call, 8, model_order)),
    library!("order_on_9", "on 9 the order of the model is told", |lent, call| refused(lent, call, 9, model_order)),
    library!("order_not_written_on_refusal", "no refusal writes the order", |lent, call| {
        keeping(lent, call, |number, _| number != 0)
    }),
    library!("order_not_written_on_7", "7 does not write the order", |lent, call| {
        keeping(lent, call, |number, _| number == 7)
    }),
    library!("order_not_written_on_8", "8 does not write the order", |lent, call| {
        keeping(lent, call, |number, _| number == 8)
    }),
    library!("order_not_written_on_9", "9 does not write the order", |lent, call| {
        keeping(lent, call, |number, _| number == 9)
    }),
];

/// What is told where a lower number is answered.
const OF_REPAIRS: &[Standin] = &[
    library!("order_not_written_on_1", "1 does not write the order", |lent, call| {
        keeping(lent, call, |number, _| number == 1)
    }),
    library!("order_not_written_on_14", "14 does not write the order", |lent, call| {
        keeping(lent, call, |number, _| number == 14)
    }),
    library!("order_not_written_on_2", "2 does not write the order", |lent, call| {
        keeping(lent, call, |number, _| number == 2)
    }),
    library!("order_not_written_on_3", "3 does not write the order", |lent, call| {
        keeping(lent, call, |number, _| number == 3)
    }),
    library!("order_not_written_on_5", "5 does not write the order", |lent, call| {
        keeping(lent, call, |number, _| number == 5)
    }),
];

/// What a scan leaves in the list.
const OF_SCANS: &[Standin] = &[
    library!("list_0_at_refused", "the places of a refused run become 0", |lent, call| {
        noting(lent, call, |lent, run| {
            if !run.gap.is_line() {
                write(lent, run.places(), run.order)
            }
        })
    }),
    library!("list_order_at_refused", "a run refused by 8 or 9 leaves the order of its model", |lent, call| {
        noting(lent, call, |lent, run| match run.number {
            8 | 9 => write(lent, run.places(), model_order(lent.samples(), run.gap)),
            _ => run.note(lent),
        })
    }),
    library!("list_0_at_lines", "the places of a straight line become 0", |lent, call| {
        noting(lent, call, |lent, run| {
            if run.number == 0 {
                write(lent, run.places(), run.order)
            }
        })
    }),
    library!("list_128_at_lines", "the places of a straight line become 128", |lent, call| {
        noting(lent, call, |lent, run| match run.number {
            0 if run.gap.is_line() => write(lent, run.places(), 128),
            _ => run.note(lent),
        })
    }),
    library!("list_one_far", "the place behind a run is written too", |lent, call| {
        noted(lent, call, |run| run.gap.start..run.gap.end() + 1)
    }),
    library!("list_one_before", "the place before a run is written too", |lent, call| {
        noted(lent, call, |run| run.gap.start - 1..run.gap.end())
    }),
    library!("list_one_short", "the last place of a run is not written", |lent, call| {
        noted(lent, call, |run| run.gap.start..run.gap.end() - 1)
    }),
    library!("list_first_place", "only the first place of a run is written", |lent, call| {
        noted(lent, call, |run| run.gap.start..run.gap.start + 1)
    }),
    library!("list_from_0", "each run is written from place 0 on", |lent, call| noted(lent, call, |run| 0..run
        .gap
        .len)),
    library!("list_by_run", "the list has one order for each run", |lent, call| {
        noted(lent, call, |run| run.index..run.index + 1)
    }),
    library!("list_first_of_held", "the first sample of a held word gets the order too", list_first_of_held),
    library!("list_first_run", "only the first run is written", |lent, call| {
        noting(lent, call, |lent, run| {
            if run.index == 0 {
                run.note(lent)
            }
        })
    }),
    library!("list_first_order", "every run gets the order of the first one that has one", list_first_order),
    library!("list_last_order", "every run gets the order of the last one that has one", list_last_order),
    library!("list_p", "every run gets p", |lent, call| {
        noting(lent, call, |lent, run| {
            if run.is_by_model() {
                write(lent, run.places(), run.gap.most_order() as u32)
            }
        })
    }),
    library!("list_not_order_0", "an order of 0 is not written", |lent, call| {
        noting(lent, call, |lent, run| {
            if run.order > 0 {
                run.note(lent)
            }
        })
    }),
    library!("list_of_8_bits", "only 8 binary digits of each order are written", list_of_8_bits),
    library!("list_marked_1", "every sample that is marked 1 gets the order of the last run", list_marked_1),
    library!("list_behind_samples", "what lies behind the samples becomes 0", |lent, call| {
        let n = lent.samples().len();
        cleared(lent, call, |number| number != 4, |place| place >= n)
    }),
    library!("list_others_0", "every other place becomes 0", |lent, call| {
        let places: Vec<usize> = runs_of(lent, call).into_iter().flat_map(|run| run.start..run.end()).collect();
        let is_run = !places.is_empty();
        cleared(lent, call, |_| is_run, |place| !places.contains(&place))
    }),
    library!("list_refused_0", "a scan that is refused as a whole sets the list to 0", |lent, call| {
        let is_refused = allowed(lent, call).is_none();
        cleared(lent, call, |_| is_refused, |_| true)
    }),
    library!("list_kept_on_refusal", "a scan of which a run is refused leaves the list", |lent, call| {
        kept(lent, call, |number, _| number != 0)
    }),
    library!("list_kept_if_shorter", "a list shorter than the samples is left", |lent, call| {
        let n = lent.samples().len();
        kept(lent, call, |_, list| list < n)
    }),
    library!("list_kept_if_longer", "a list longer than the samples is left", |lent, call| {
        let n = lent.samples().len();
        kept(lent, call, |_, list| list > n)
    }),
    library!("list_cut_run_not_written", "of a run past the list's end nothing is written", |lent, call| {
        noting(lent, call, |lent, run| {
            if run.gap.end() <= lent.orders.lent().len() {
                run.note(lent)
            }
        })
    }),
    library!("list_past_end", "a run that reaches the list's end is written one place past it", list_past_end),
    library!("list_behind_refused", "behind a refused run nothing is written", list_behind_refused),
    library!("list_too_short_is_6", "a list shorter than the samples is refused by 6", list_too_short_is_6),
];

/// In the lags that the host's own step works on. That its fills are the original's shows them.
const OF_OWN_STEP: &[Standin] = &[
    Standin {
        name: "own_not_raised",
        says: "the host's own step does not raise r[0] by 1e-6",
        how: Lags(|r| r[0] /= 1.0 + SHARE),
    },
    Standin {
        name: "own_raised_twice",
        says: "the host's own step raises r[0] twice",
        how: Lags(|r| r[0] *= 1.0 + SHARE),
    },
    Standin {
        name: "own_last_lag_lost",
        says: "the host's own step takes r[p] for 0",
        how: Lags(|r| r[r.len() - 1] = 0.0),
    },
];

/// These are right on a recording that was just opened.
const OF_SEQUENCES: &[Standin] = &[
    library!("seq_later_order_0", "where the journal has an entry already, the order is 0", |lent, call| {
        let used = lent.used.lent()[0];
        let number = lent.call(call);
        if used > 0 && matches!(call, Call::Gap { .. }) {
            *order(lent) = 0;
        }
        number
    }),
    library!("seq_later_list_kept", "where the journal has an entry already, a scan leaves the list", |lent, call| {
        let used = lent.used.lent()[0];
        kept(lent, call, |_, _| used > 0)
    }),
];

/// The gap of an accepted repair by model.
fn by_model(number: u32, lent: &Lent, call: Call) -> Option<Gap> {
    within(lent, call).filter(|gap| number == 0 && !gap.is_line())
}

/// Of an accepted repair by model the order is what this makes of the model. (What the repair writes has no say in
/// that.)
fn telling(lent: &mut Lent, call: Call, of: fn(Model) -> u32) -> u32 {
    let number = lent.call(call);
    if let Some(gap) = by_model(number, lent, call) {
        *order(lent) = of(gap.widened(lent.samples()).model());
    }
    number
}

/// Of an accepted repair by model the order is what this makes of the window as it was before.
fn of_window(lent: &mut Lent, call: Call, of: fn(Window) -> u32) -> u32 {
    let samples = lent.samples().to_vec();
    let number = lent.call(call);
    if let Some(gap) = by_model(number, lent, call) {
        *order(lent) = of(gap.widened(&samples));
    }
    number
}

fn order_of_length(lent: &mut Lent, call: Call) -> u32 {
    let number = lent.call(call);
    if let Some(gap) = by_model(number, lent, call) {
        if lent.order.lent()[0] as usize == gap.most_order() {
            *order(lent) = gap.len as u32;
        }
    }
    number
}

fn order_of_all_samples(lent: &mut Lent, call: Call) -> u32 {
    let number = lent.call(call);
    if let Some(gap) = by_model(number, lent, call) {
        let samples = lent.samples();
        *order(lent) = gap.widened_in(samples, 0..samples.len()).model().reach.order;
    }
    number
}

/// This is done after an accepted repair by line.
fn of_line(lent: &mut Lent, call: Call, alters: fn(&mut Lent)) -> u32 {
    let number = lent.call(call);
    if number == 0 && within(lent, call).map_or(false, Gap::is_line) {
        alters(lent);
    }
    number
}

/// Of a gap that is refused by this number the order is what this makes of samples and gap.
fn refused(lent: &mut Lent, call: Call, by: u32, of: fn(&[u32], Gap) -> u32) -> u32 {
    let number = lent.call(call);
    if let Some(gap) = within(lent, call).filter(|_| number == by) {
        *order(lent) = of(lent.samples(), gap);
    }
    number
}

/// The order is not written where number and order are so.
fn keeping(lent: &mut Lent, call: Call, so: fn(u32, u32) -> bool) -> u32 {
    let number = lent.call(call);
    if so(number, lent.order.lent()[0]) {
        *order(lent) = ORDER_BEFORE;
    }
    number
}

/// A run of a scan, the how manieth it is from 0 on, and what its repair told.
#[derive(Clone, Copy)]
struct Run {
    gap: Gap,
    index: usize,
    number: u32,
    order: u32,
}

impl Run {
    fn places(self) -> Range<usize> {
        self.gap.start..self.gap.end()
    }

    fn is_by_model(self) -> bool {
        self.number == 0 && !self.gap.is_line()
    }

    /// The list gets its order as it should.
    fn note(self, lent: &mut Lent) {
        if self.is_by_model() {
            write(lent, self.places(), self.order);
        }
    }
}

/// The list gets an order at these places, as far as it goes.
fn write(lent: &mut Lent, places: Range<usize>, order: u32) {
    lent.orders.lend().iter_mut().take(places.end).skip(places.start).for_each(|at| *at = order);
}

/// A scan that is not refused as a whole is made run by run, and after each this is done. The runs, where it is.
fn run_by_run(lent: &mut Lent, call: Call, mut after: impl FnMut(&mut Lent, Run)) -> (u32, Vec<Run>) {
    if allowed(lent, call).is_none() {
        return (lent.call(call), Vec::new());
    }
    let mut runs: Vec<Run> = Vec::new();
    for gap in runs_of(lent, call) {
        let number = lent.call(Call::Gap { gap, passes: SCAN_PASSES });
        let run = Run { gap, index: runs.len(), number, order: lent.order.lent()[0] };
        after(lent, run);
        runs.push(run);
    }
    let numbers: Vec<u32> = runs.iter().map(|run| run.number).collect();
    (answer_of(lent, &numbers), runs)
}

/// A scan that leaves of each run in the list what this does.
fn noting(lent: &mut Lent, call: Call, note: fn(&mut Lent, Run)) -> u32 {
    run_by_run(lent, call, note).0
}

/// A scan that writes the order of each run by model at these places.
fn noted(lent: &mut Lent, call: Call, places: fn(Run) -> Range<usize>) -> u32 {
    let note = |lent: &mut Lent, run: Run| {
        if run.is_by_model() {
            write(lent, places(run), run.order);
        }
    };
    run_by_run(lent, call, note).0
}

fn list_first_of_held(lent: &mut Lent, call: Call) -> u32 {
    let before = lent.samples().to_vec();
    let note = |lent: &mut Lent, run: Run| {
        run.note(lent);
        if run.is_by_model() && run.gap.is_held(&before) {
            write(lent, run.gap.start - 1..run.gap.start, run.order);
        }
    };
    run_by_run(lent, call, note).0
}

fn list_first_order(lent: &mut Lent, call: Call) -> u32 {
    let mut first = None;
    let note = |lent: &mut Lent, run: Run| {
        if run.is_by_model() {
            let order = *first.get_or_insert(run.order);
            write(lent, run.places(), order);
        }
    };
    run_by_run(lent, call, note).0
}

fn list_last_order(lent: &mut Lent, call: Call) -> u32 {
    let (number, runs) = run_by_run(lent, call, |_, _| ());
    let by_model = runs.into_iter().filter(|run| run.is_by_model());
    if let Some(last) = by_model.clone().next_back() {
        by_model.for_each(|run| write(lent, run.places(), last.order));
    }
    number
}

fn list_of_8_bits(lent: &mut Lent, call: Call) -> u32 {
    let before = lent.orders.lent().to_vec();
    let number = lent.call(call);
    let changed = lent.orders.lend().iter_mut().zip(before).filter(|(now, then)| *now != then);
    changed.for_each(|(now, then)| *now = then & !0xff | *now & 0xff);
    number
}

fn list_marked_1(lent: &mut Lent, call: Call) -> u32 {
    let (number, runs) = run_by_run(lent, call, |lent, run| run.note(lent));
    if let Some(last) = runs.iter().rev().find(|run| run.is_by_model()) {
        let marks = lent.marks.lent().to_vec();
        let marked = lent.orders.lend().iter_mut().zip(marks).filter(|(_, mark)| *mark == 1);
        marked.for_each(|(at, _)| *at = last.order);
    }
    number
}

/// Where the answer is so, those places of the list become 0 that are so.
fn cleared(lent: &mut Lent, call: Call, so: impl Fn(u32) -> bool, place: impl Fn(usize) -> bool) -> u32 {
    let number = lent.call(call);
    if matches!(call, Call::Scan(_)) && so(number) {
        let places = lent.orders.lend().iter_mut().enumerate();
        places.filter(|(at, _)| place(*at)).for_each(|(_, order)| *order = 0);
    }
    number
}

/// The list stays as it was where the answer and its length are so.
fn kept(lent: &mut Lent, call: Call, so: impl Fn(u32, usize) -> bool) -> u32 {
    let before = lent.orders.lent().to_vec();
    let number = lent.call(call);
    if so(number, before.len()) {
        lent.orders.lend().copy_from_slice(&before);
    }
    number
}

fn list_past_end(lent: &mut Lent, call: Call) -> u32 {
    let note = |lent: &mut Lent, run: Run| {
        run.note(lent);
        let end = lent.orders.lent().len();
        if run.is_by_model() && run.gap.start <= end && end < run.gap.end() {
            lent.orders.whole[GUARDS + end] = run.order;
        }
    };
    run_by_run(lent, call, note).0
}

fn list_behind_refused(lent: &mut Lent, call: Call) -> u32 {
    let mut is_refused = false;
    let note = |lent: &mut Lent, run: Run| {
        is_refused |= run.number != 0;
        if !is_refused {
            run.note(lent);
        }
    };
    run_by_run(lent, call, note).0
}

fn list_too_short_is_6(lent: &mut Lent, call: Call) -> u32 {
    if allowed(lent, call).is_some() && lent.orders.lent().len() < lent.samples().len() {
        answer_of(lent, &[]);
        return 6;
    }
    lent.call(call)
}
