//! Slips in what a history keeps account of: what the stand-ins for the account do.
use super::calls::{Call, Outcome, Proposal};
use super::history::{History, Several, Survivor};
use cathar_host::recording::NOT_RECEIVED;
use cathar_host::whole::{floats, Repair, Start};
use cathar_host::wrong;
use std::cell::RefCell;

thread_local! {
    /// The survivors after the call before.
    static EARLIER: RefCell<Vec<Survivor>> = RefCell::new(Vec::new());
}

/// After a call of which the account is kept, it is altered as the stand-in for it says, if one stands there.
pub fn slip(history: &mut History, call: Call, outcome: &Outcome, undone: Option<Survivor>) {
    if let Some(name) = wrong::account() {
        let alters = named(name);
        alters(history, call, outcome, undone);
        EARLIER.with(|earlier| *earlier.borrow_mut() = history.survivors.clone());
    }
}

/// What a slip is told: the history, the call, what came of it, and the survivor that it took back.
type Alters = fn(&mut History, Call, &Outcome, Option<Survivor>);

/// The slip of this name.
fn named(name: &str) -> Alters {
    match name {
        "seq_account_undo_takes_first" => undo_takes_first,
        "seq_account_undo_takes_none" => |history, _, _, undone| history.survivors.extend(undone),
        "seq_account_undo_takes_two" => undo_takes_two,
        "seq_account_scan_is_one" => |history, call, outcome, _| is_one(history, call, outcome, Several::Scan),
        "seq_account_scan_is_last_run" => |history, _, outcome, _| is_last(history, outcome, Several::Scan),
        "seq_account_list_is_one" => |history, call, outcome, _| is_one(history, call, outcome, Several::List),
        "seq_account_list_is_last_gap" => |history, _, outcome, _| is_last(history, outcome, Several::List),
        "seq_account_list_reversed" => list_reversed,
        "seq_account_list_refused_survives" => list_refused_survives,
        "seq_account_undo_takes_list" => undo_takes_list,
        "seq_account_m_one_more" => {
            |history, _, outcome, _| each_joined(history, outcome, |survivor, _| survivor.m += 1)
        }
        "seq_account_open_keeps_survivors" => open_keeps_survivors,
        "seq_account_refused_survives" => refused_survives,
        "seq_account_naming_none_survives" => naming_none_survives,
        "seq_account_gap_one_longer" => |history, _, outcome, _| each_joined(history, outcome, gap_one_longer),
        "seq_account_gap_one_later" => |history, _, outcome, _| each_joined(history, outcome, gap_one_later),
        "seq_account_strength_halved" => |history, _, outcome, _| each_joined(history, outcome, strength_halved),
        "seq_account_start_old" => |history, _, outcome, _| each_joined(history, outcome, start_old),
        "seq_account_start_new" => |history, _, outcome, _| each_joined(history, outcome, start_new),
        "seq_account_threshold_higher" => |history, _, outcome, _| each_joined(history, outcome, threshold_higher),
        "seq_account_proposal_as_left" => proposal_as_left,
        "seq_account_proposal_is_first" => proposal_is_first,
        "seq_account_raw_marks_0" => |history, _, _, _| history.raw_marks.fill(0),
        "seq_account_raw_marks_of_nan" => raw_marks_of_nan,
        "seq_account_replay_opens_as_measured" => |history, _, _, _| history.opening = Call::Open,
        "seq_account_last_two_swapped" => last_two_swapped,
        _ => panic!("the account has no slip {name}"),
    }
}

/// Alters each survivor that a call has made. The number of samples is told.
fn each_joined(history: &mut History, outcome: &Outcome, alter: impl Fn(&mut Survivor, usize)) {
    let n = history.both.model.samples.len();
    let joined = history.survivors.iter_mut().rev().take(outcome.named.len());
    joined.for_each(|survivor| alter(survivor, n));
}

fn undo_takes_first(history: &mut History, _: Call, _: &Outcome, undone: Option<Survivor>) {
    if let Some(last) = undone {
        history.survivors.push(last);
        history.survivors.remove(0);
    }
}

fn undo_takes_two(history: &mut History, _: Call, _: &Outcome, undone: Option<Survivor>) {
    if undone.is_some() {
        history.survivors.pop();
    }
}

/// Takes off the survivors that a call has made, if it is such a one; else none.
fn split_off(history: &mut History, outcome: &Outcome, of: Several) -> Vec<Survivor> {
    let first = history.survivors.len() - outcome.named.len();
    let is_of = |survivor: &Survivor| survivor.of.map_or(false, |(several, _)| several == of);
    if history.survivors[first..].iter().all(is_of) {
        history.survivors.split_off(first)
    } else {
        Vec::new()
    }
}

fn is_one(history: &mut History, call: Call, outcome: &Outcome, of: Several) {
    let parts = split_off(history, outcome, of);
    let m = parts.iter().map(|part| part.m).sum();
    history.survivors.extend(parts.first().map(|part| Survivor { call, m, ..*part }));
}

fn is_last(history: &mut History, outcome: &Outcome, of: Several) {
    let parts = split_off(history, outcome, of);
    history.survivors.extend(parts.last());
}

fn list_reversed(history: &mut History, _: Call, outcome: &Outcome, _: Option<Survivor>) {
    let gaps = split_off(history, outcome, Several::List);
    history.survivors.extend(gaps.into_iter().rev());
}

fn list_refused_survives(history: &mut History, call: Call, outcome: &Outcome, _: Option<Survivor>) {
    if matches!(call, Call::Gaps { .. }) && !outcome.refused.is_empty() {
        history.survivors.push(Survivor { call, m: 1, of: None, over: false, over_missing: false });
    }
}

fn undo_takes_list(history: &mut History, _: Call, _: &Outcome, undone: Option<Survivor>) {
    if let Some(of @ Some((Several::List, _))) = undone.map(|survivor| survivor.of) {
        history.survivors.retain(|survivor| survivor.of != of);
    }
}

fn open_keeps_survivors(history: &mut History, call: Call, _: &Outcome, _: Option<Survivor>) {
    if call.opens() && history.opened > 1 {
        history.survivors = EARLIER.with(|earlier| earlier.borrow().clone());
    }
}

fn refused_survives(history: &mut History, call: Call, outcome: &Outcome, _: Option<Survivor>) {
    if outcome.number != 0 && matches!(call, Call::Gap { .. } | Call::Whole { .. } | Call::Proposed { .. }) {
        history.survivors.push(Survivor { call, m: 1, of: None, over: false, over_missing: false });
    }
}

fn naming_none_survives(history: &mut History, call: Call, outcome: &Outcome, _: Option<Survivor>) {
    if outcome.number == 0 && outcome.named.is_empty() && matches!(call, Call::Whole { .. }) {
        history.survivors.push(Survivor { call, m: 0, of: None, over: false, over_missing: false });
    }
}

fn gap_one_longer(survivor: &mut Survivor, n: usize) {
    if let Call::Gap { gap, work, .. } = &mut survivor.call {
        gap.len += 1;
        *work = gap.needed(n);
    }
}

fn gap_one_later(survivor: &mut Survivor, n: usize) {
    if let Call::Gap { gap, work, .. } = &mut survivor.call {
        gap.start += 1;
        *work = gap.needed(n);
    }
}

fn strength_halved(survivor: &mut Survivor, _: usize) {
    if let Call::Whole { repair: Repair::Dequantize { strength, .. }, .. } = &mut survivor.call {
        *strength /= 2.0;
    }
}

/// A survivor that is decrackle has this start.
fn starts(survivor: &mut Survivor, of: Start) {
    if let Call::Whole { repair: Repair::Decrackle { start, .. }, .. } = &mut survivor.call {
        *start = of;
    }
}

fn start_old(survivor: &mut Survivor, _: usize) {
    starts(survivor, Start::Old);
}

fn start_new(survivor: &mut Survivor, _: usize) {
    starts(survivor, Start::Mean);
}

/// The threshold of a survivor that is a proposal is twice as high.
fn threshold_higher(survivor: &mut Survivor, _: usize) {
    if let Call::Proposed { threshold, .. } = &mut survivor.call {
        *threshold *= 2.0;
    }
}

/// Once something else has been made, the proposal of a survivor becomes the samples as they are by then.
fn proposal_as_left(history: &mut History, _: Call, outcome: &Outcome, _: Option<Survivor>) {
    let left = &history.both.model.samples;
    let earlier = history.survivors.len() - outcome.named.len();
    for survivor in history.survivors.iter_mut().take(earlier).filter(|_| !outcome.named.is_empty()) {
        if let Call::Proposed { proposal, .. } = &mut survivor.call {
            *proposal = Proposal::new(left.clone());
        }
    }
}

/// Every survivor that is a proposal has the words of the first of them.
fn proposal_is_first(history: &mut History, _: Call, _: &Outcome, _: Option<Survivor>) {
    let mut first = None;
    for survivor in &mut history.survivors {
        if let Call::Proposed { proposal, .. } = &mut survivor.call {
            *proposal = *first.get_or_insert(*proposal);
        }
    }
}

fn raw_marks_of_nan(history: &mut History, call: Call, _: &Outcome, _: Option<Survivor>) {
    if call == Call::OpenReceived {
        let samples = floats(&history.both.model.samples);
        history.raw_marks = samples.into_iter().map(|x| if x.is_nan() { NOT_RECEIVED } else { 0 }).collect();
    }
}

fn last_two_swapped(history: &mut History, _: Call, outcome: &Outcome, _: Option<Survivor>) {
    let count = history.survivors.len();
    if count >= 2 && !outcome.named.is_empty() {
        history.survivors.swap(count - 2, count - 1);
    }
}
