//! Gaps that are repaired one after the other, in one order and in another: what each is answered and what is left, and
//! what is then not as request P13 of document 02 has it. The one way is made by both sides, so that what it leaves is
//! held to the model and the original; the other by the library alone, on a copy of the same memory.
use crate::both::{Both, Wrong};
use crate::call::Call;
use crate::inpaint::{Gap, GapAnswer, Lists};
use crate::lent::Lent;
use crate::recording::{entry_words, Recording};
use crate::wrong;

/// What the repair of one gap hands back.
#[derive(Clone, Copy, Debug, PartialEq, Eq)]
pub struct Told {
    pub number: u32,
    pub value: usize,
    pub order: u32,
}

impl From<GapAnswer> for Told {
    fn from(answer: GapAnswer) -> Told {
        Told { number: answer.number(), value: answer.value(), order: answer.order() }
    }
}

/// A call for one gap: the gap, the passes and the patterns of its workspace.
#[derive(Clone, Debug)]
pub struct Turn {
    pub gap: Gap,
    pub passes: u32,
    pub work: Vec<u64>,
}

/// A list of gaps, and what is lent to a call with it.
#[derive(Clone, Debug)]
pub struct Listed {
    pub lists: Lists,
    pub passes: u32,
    pub work: Vec<u64>,
}

/// One way: the gaps in the order of their repairs, what each was told, and the recording that is left.
#[derive(Clone, Debug)]
pub struct Way {
    pub gaps: Vec<Gap>,
    pub told: Vec<Told>,
    pub left: Recording,
    /// What is not as it should be whatever the other way gives.
    pub wrong: Wrong,
}

impl Way {
    pub fn is_accepted(&self) -> bool {
        self.told.iter().all(|told| told.number == 0)
    }

    /// The words of each gap's entry, which begin at this journal word; none, of a gap that was refused.
    fn entries(&self, from: usize) -> Vec<&[u32]> {
        let mut end = from;
        let mut entry = |(gap, told): (&Gap, &Told)| {
            let start = end;
            end += if told.number == 0 { entry_words(gap.len) } else { 0 };
            &self.left.journal[start..end]
        };
        self.gaps.iter().zip(&self.told).map(&mut entry).collect()
    }
}

/// Both sides repair a gap after the other.
pub fn by_both(before: &Recording, turns: &[&Turn]) -> Way {
    let mut both = Both::new(before.clone());
    let (mut told, mut wrong) = (Vec::new(), Vec::new());
    for turn in turns {
        let (answer, differing) = both.inpaint_gap(turn.gap, turn.passes, turn.work.clone());
        told.push(answer.into());
        wrong.extend(differing);
    }
    Way { gaps: turns.iter().map(|turn| turn.gap).collect(), told, left: both.model, wrong }
}

/// The library repairs a gap after the other, or what stands in for it does.
pub fn by_library(before: &Recording, turns: &[&Turn]) -> Way {
    let mut lent = Lent::new(before);
    let (mut told, mut wrong) = (Vec::new(), Vec::new());
    for turn in turns {
        told.push(make(&mut lent, turn));
        wrong.extend(astray(&lent, turn, told[told.len() - 1]));
    }
    let gaps = turns.iter().map(|turn| turn.gap).collect();
    let mut way = Way { gaps, told, left: lent.recording(), wrong };
    wrong::other_way(before, &mut way);
    way
}

fn make(lent: &mut Lent, turn: &Turn) -> Told {
    lent.lend_doubles(&turn.work);
    let number = lent.make(Call::Gap { gap: turn.gap, passes: turn.passes });
    Told { number, value: lent.numbers[0].lent()[0], order: lent.order.lent()[0] }
}

/// The parts whose guards do not stand, and the workspace, where its needed part is not all +0 after an acceptance or
/// after 8 or 9, or something else of it has changed.
fn astray(lent: &Lent, turn: &Turn, told: Told) -> Wrong {
    let mut wrong = lent.wrong(&lent.recording(), told.value);
    let mut work = turn.work.clone();
    if matches!(told.number, 0 | 8 | 9) {
        work[..turn.gap.needed(lent.samples().len())].fill(0);
    }
    if !lent.holds_doubles(&work) {
        wrong.push("workspace in the other order");
    }
    wrong
}

/// Both sides repair the gaps of a list.
pub fn list_by_both(before: &Recording, list: Listed) -> Way {
    let mut both = Both::new(before.clone());
    let gaps = list.lists.gaps();
    let (several, wrong) = both.inpaint_gaps(list.lists, list.passes, list.work);
    let told = several.gaps().iter().map(|(_, answer)| Told::from(*answer)).collect();
    Way { gaps, told, left: both.model, wrong }
}

/// The library repairs the gaps of a list, or what stands in for it does.
pub fn list_by_library(before: &Recording, list: Listed) -> Way {
    let mut lent = Lent::new(before);
    lent.lend_doubles(&list.work);
    lent.lend_gaps(&list.lists);
    let number = lent.make(Call::Gaps { passes: list.passes });
    let Lists { numbers, values, orders, .. } = lent.several.lists();
    let answers = numbers.iter().zip(values).zip(orders);
    let told = answers.map(|((number, value), order)| Told { number: *number, value, order }).collect();
    let mut wrong = lent.wrong_recording(&lent.recording());
    wrong.extend(lent.wrong_lists(&lent.several.lists()));
    if number != 0 {
        wrong.push("answer of the list in another order");
    }
    let mut way = Way { gaps: list.lists.gaps(), told, left: lent.recording(), wrong };
    wrong::other_way(before, &mut way);
    way
}

/// Whether no two of these gaps are such that the one touches the other's window. What is not within n samples has
/// none.
pub fn are_apart(gaps: &[Gap], n: usize) -> bool {
    let within: Vec<Gap> = gaps.iter().copied().filter(|gap| !gap.is_outside(n)).collect();
    let keeps_out = |one: usize, other: usize| one == other || !within[one].touches(within[other], n);
    (0..within.len()).all(|one| (0..within.len()).all(|other| keeps_out(one, other)))
}

/// What of the other way is not as it has to be, by what the one way gave. `places` says of each gap of the other way
/// which it is in the one. Where gaps are not apart, nothing is said.
///
/// Where none is refused for lack of room, every gap is answered the same, also one that is refused by 5 to 8, and all
/// is left the same but for the order of the entries. Where the journal lacks room, only 9 can go to another gap.
pub fn broken(before: &Recording, one: &Way, other: &Way, places: &[usize]) -> Wrong {
    if !are_apart(&one.gaps, before.samples.len()) {
        Vec::new()
    } else if one.told.iter().all(|told| told.number != 9) {
        differing(before, one, other, places)
    } else {
        crowded(before, one, other, places)
    }
}

fn differing(before: &Recording, one: &Way, other: &Way, places: &[usize]) -> Wrong {
    let told: Vec<Told> = places.iter().map(|place| one.told[*place]).collect();
    let same = |part: fn(&Told) -> usize| told.iter().map(part).eq(other.told.iter().map(part));
    let (ours, theirs) = (&other.left, &one.left);
    let mut parts = vec![
        ("numbers in the other order", same(|told| told.number as usize)),
        ("values in the other order", same(|told| told.value)),
        ("orders in the other order", same(|told| told.order as usize)),
        ("samples in the other order", ours.samples == theirs.samples),
        ("marks in the other order", ours.marks == theirs.marks),
        ("counts in the other order", ours.counts == theirs.counts),
        ("used in the other order", ours.used == theirs.used),
    ];
    parts.extend(of_journal(before, one, other, places));
    not_right(parts)
}

/// The journal has the same words before the entries and behind them, and each entry's words where its gap came.
fn of_journal(before: &Recording, one: &Way, other: &Way, places: &[usize]) -> [(&'static str, bool); 3] {
    let entries = one.entries(before.used);
    let moved: Vec<u32> = places.iter().flat_map(|place| entries[*place]).copied().collect();
    let (start, end) = (before.used, before.used + moved.len());
    let (ours, theirs) = (&other.left.journal, &one.left.journal);
    [
        ("journal before the entries", ours[..start] == theirs[..start]),
        ("entries in the other order", ours[start..end] == moved),
        ("journal behind the entries", ours[end..] == theirs[end..]),
    ]
}

/// Where the journal lacks room: a gap that 5 to 8 turn away in the one order they turn away in the other, and of those
/// that come so far each is repaired that has room when it comes, and the others get 9.
fn crowded(before: &Recording, one: &Way, other: &Way, places: &[usize]) -> Wrong {
    let mut free = before.journal.len() - before.used;
    let mut number = |place: &usize| match one.told[*place].number {
        0 | 9 => match free.checked_sub(entry_words(one.gaps[*place].len)) {
            Some(left) => {
                free = left;
                0
            }
            None => 9,
        },
        number => number,
    };
    let numbers: Vec<u32> = places.iter().map(&mut number).collect();
    not_right(vec![("numbers where the journal lacks room", other.told.iter().map(|told| told.number).eq(numbers))])
}

/// The names of those parts that are not right.
fn not_right(parts: Vec<(&'static str, bool)>) -> Wrong {
    parts.into_iter().filter(|(_, right)| !right).map(|(name, _)| name).collect()
}
