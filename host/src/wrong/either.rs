//! Stand-ins for gaps that are repaired in another order. Most alter what the library has answered and left there, and
//! the order that is held to the model stays right; those of both sides alike are wrong only in a repair behind
//! another, so that the model has nothing to say.
use super::sequences::{altered, entries, named, reverse_entries};
use super::How::{Alike, Other};
use super::{Finds, Standin, Table};
use crate::call::Call;
use crate::either::{Told, Way};
use crate::inpaint::Gap;
use crate::lent::Lent;
use crate::recording::{counted, entry_words, Recording, BLOCK};
use std::ops::Range;

pub(super) const TABLES: &[Table] = &[
    Table { file: "either_order", test: "two_gaps", finds: Finds::Always, standins: OF_PAIRS },
    Table { file: "either_order", test: "two_gaps", finds: Finds::Always, standins: OF_REFUSALS },
    Table { file: "either_order", test: "two_gaps", finds: Finds::Always, standins: OF_BOTH },
    Table { file: "either_order", test: "two_gaps", finds: Finds::Always, standins: OF_LIBRARY },
    Table { file: "either_order", test: "lists_of_gaps", finds: Finds::Always, standins: OF_LISTS },
];

/// A stand-in for what the library answers and leaves in the other order: its name, what is wrong with it, and what it
/// does.
macro_rules! other {
    ($name:expr, $says:expr, $alters:expr $(,)?) => {
        Standin { name: $name, says: $says, how: Other($alters) }
    };
}

/// Likewise where all gaps are accepted in the other order.
macro_rules! accepted {
    ($name:expr, $says:expr, $alters:expr $(,)?) => {
        other!($name, $says, |before, way| {
            if way.is_accepted() {
                let alters: fn(&Recording, &mut Way) = $alters;
                alters(before, way);
            }
        })
    };
}

/// Of two gaps that are accepted.
const OF_PAIRS: &[Standin] = &[
    accepted!("either_sample_last_bit", "the last sample of the second gap has another last bit", |_, way| {
        way.left.samples[way.gaps[1].end() - 1] ^= 1;
    }),
    accepted!("either_sample_of_first", "the first sample of the first gap has its old word", |before, way| {
        let place = way.gaps[0].start;
        way.left.samples[place] = before.samples[place];
    }),
    accepted!("either_sample_sign_of_zero", "a result of -0 becomes 0", |_, way| {
        for gap in way.gaps.clone() {
            let results = way.left.samples[gap.places()].iter_mut();
            results.filter(|word| **word == 0x8000_0000).for_each(|word| *word = 0);
        }
    }),
    accepted!("either_sample_between", "a sample between the gaps is changed", |_, way| {
        let [left, right] = sides(way);
        if way.gaps[left].end() < way.gaps[right].start {
            way.left.samples[way.gaps[left].end()] ^= 0x8000_0000;
        }
    }),
    accepted!("either_mark_of_first_lost", "the last sample of the first gap has its old mark", |before, way| {
        let place = way.gaps[0].end() - 1;
        way.left.marks[place] = before.marks[place];
    }),
    accepted!("either_mark_of_second_lost", "the first sample of the second gap has its old mark", |before, way| {
        let place = way.gaps[1].start;
        way.left.marks[place] = before.marks[place];
    }),
    accepted!("either_marks_swapped", "each gap has the mark of the other", |_, way| {
        let marks = [way.gaps[1].mark(), way.gaps[0].mark()];
        (0..2).for_each(|which| way.left.marks[way.gaps[which].places()].fill(marks[which]));
    }),
    accepted!("either_mark_between", "a sample between the gaps is marked", |_, way| {
        let [left, right] = sides(way);
        if way.gaps[left].end() < way.gaps[right].start {
            way.left.marks[way.gaps[left].end()] ^= 1;
        }
    }),
    accepted!("either_count_of_first_kept", "the first block of the first gap is not recounted", |before, way| {
        let block = way.gaps[0].start / BLOCK;
        way.left.counts[block] = before.counts[block];
    }),
    accepted!("either_count_of_second_kept", "the last block of the second gap is not recounted", |before, way| {
        let block = (way.gaps[1].end() - 1) / BLOCK;
        way.left.counts[block] = before.counts[block];
    }),
    accepted!(
        "either_count_of_shared_by_one",
        "a block that both gaps have is recounted as the first left it",
        |before, way| {
            let [left, right] = sides(way);
            let block = way.gaps[right].start / BLOCK;
            if (way.gaps[left].end() - 1) / BLOCK == block {
                let mut marks = way.left.marks.clone();
                marks[way.gaps[1].places()].copy_from_slice(&before.marks[way.gaps[1].places()]);
                way.left.counts[block] = counted(&marks)[block];
            }
        }
    ),
    accepted!("either_count_of_others_set", "the blocks of no gap are recounted too", |_, way| {
        way.left.counts = counted(&way.left.marks);
    }),
    accepted!("either_count_between_set", "a block between the gaps is recounted too", |_, way| {
        let [left, right] = sides(way);
        let (block, counts) = (way.gaps[left].end() / BLOCK + 1, counted(&way.left.marks));
        if block < way.gaps[right].start / BLOCK {
            way.left.counts[block] = counts[block];
        }
    }),
    accepted!("either_used_of_one", "used is raised by the second entry alone", |before, way| {
        way.left.used = before.used + entry_words(way.gaps[1].len);
    }),
    accepted!("either_used_one_more", "used is one more", |_, way| way.left.used += 1),
    accepted!("either_entries_not_swapped", "the entries come as in the order before", |before, way| {
        reverse_entries(before, &mut way.left);
    }),
    accepted!("either_entries_from_left", "the entry of the left gap comes first in either order", |before, way| {
        if sides(way) == [1, 0] {
            reverse_entries(before, &mut way.left);
        }
    }),
    accepted!(
        "either_entry_words_swapped",
        "of the second entry's first sample word and mark are swapped",
        |_, way| {
            let start = way.left.used - entry_words(way.gaps[1].len);
            way.left.journal.swap(start + 1, start + 2);
        }
    ),
    accepted!("either_entry_new_word", "the first entry has the new word of its first sample", |before, way| {
        way.left.journal[before.used + 1] = way.left.samples[way.gaps[0].start];
    }),
    accepted!("either_entry_new_mark", "the second entry has the new mark of its last sample", |_, way| {
        let end = way.left.used - 2;
        way.left.journal[end - 1] = way.gaps[1].mark().into();
    }),
    accepted!("either_entry_m_of_other", "each entry has the m of the other gap", |before, way| {
        let first = before.used + 3 * way.gaps[0].len;
        let second = way.left.used - 2;
        way.left.journal.swap(first, second);
    }),
    accepted!("either_entry_mark_of_other", "each entry has the mark that the other gap sets", |before, way| {
        let first = before.used + 3 * way.gaps[0].len + 1;
        let second = way.left.used - 1;
        way.left.journal.swap(first, second);
    }),
    accepted!("either_word_before_entries", "the word before the entries is changed", |before, way| {
        if let Some(word) = way.left.journal[..before.used].last_mut() {
            *word ^= 1;
        }
    }),
    accepted!(
        "either_first_word_cleared",
        "the journal's first word becomes 0 where it is no entry's",
        |before, way| {
            if before.used > 0 {
                way.left.journal[0] = 0;
            }
        }
    ),
    accepted!("either_word_behind_cleared", "the word behind the entries becomes 0", |_, way| {
        let used = way.left.used;
        way.left.journal.iter_mut().skip(used).take(1).for_each(|word| *word = 0);
    }),
    accepted!("either_last_word_cleared", "the journal's last word becomes 0 where it is free", |_, way| {
        let used = way.left.used;
        way.left.journal[used..].last_mut().into_iter().for_each(|word| *word = 0);
    }),
    accepted!("either_m_of_other", "each gap is told the m of the other", |_, way| {
        let [one, other] = [way.told[0].value, way.told[1].value];
        (way.told[0].value, way.told[1].value) = (other, one);
    }),
    accepted!("either_m_one_less", "the second gap's m is one less", |_, way| way.told[1].value -= 1),
    accepted!("either_order_of_other", "each gap is told the order of the other's model", |_, way| {
        let [one, other] = [way.told[0].order, way.told[1].order];
        (way.told[0].order, way.told[1].order) = (other, one);
    }),
    accepted!("either_order_of_second_0", "the second gap is told order 0", |_, way| way.told[1].order = 0),
    accepted!("either_order_of_length", "the first gap is told its p for the order", |_, way| {
        way.told[0].order = way.gaps[0].most_order() as u32;
    }),
    accepted!("either_second_refused", "the second gap is refused by 9, and changes nothing", refuse_second),
    accepted!(
        "either_second_refused_if_left",
        "the second gap is refused by 9 where it is the left one",
        |before, way| {
            if sides(way) == [1, 0] {
                refuse_second(before, way);
            }
        }
    ),
    accepted!("either_second_refused_if_close", "the second gap is refused by 9 at the closest", |before, way| {
        let [left, right] = sides(way).map(|which| way.gaps[which]);
        if right.start.checked_sub(left.end()) == Some(left.context().max(right.context())) {
            refuse_second(before, way);
        }
    }),
    accepted!(
        "either_full_journal_refused",
        "the second gap is refused by 9 where it fills the journal",
        |before, way| {
            if way.left.used == way.left.journal.len() {
                refuse_second(before, way);
            }
        }
    ),
    accepted!("either_second_answers_9", "the second gap is answered 9, though it is repaired", |_, way| {
        way.told[1].number = 9;
    }),
];

/// Where a gap is refused.
const OF_REFUSALS: &[Standin] = &[
    other!("either_7_one_far", "the place of 7 is the next one", |_, way| told_by(way, 7, |told| told.value += 1)),
    other!("either_8_one_far", "the place of 8 is the next one", |_, way| told_by(way, 8, |told| told.value += 1)),
    other!("either_5_is_6", "6 is given for 5", |_, way| told_by(way, 5, |told| told.number = 6)),
    other!("either_6_is_7", "7 is given for 6", |_, way| told_by(way, 6, |told| told.number = 7)),
    other!("either_7_is_8", "8 is given for 7", |_, way| told_by(way, 7, |told| told.number = 8)),
    other!("either_8_is_9", "9 is given for 8", |_, way| {
        told_by(way, 8, |told| (told.number, told.value) = (9, 0));
    }),
    other!("either_8_accepted", "8 is not given", |_, way| told_by(way, 8, |told| told.number = 0)),
    other!("either_9_accepted", "9 is not given", |_, way| told_by(way, 9, |told| told.number = 0)),
    other!("either_crowded_first_refused", "where the second has no room, the first is refused by 9 too", |_, way| {
        if way.told[1].number == 9 {
            way.told[0].number = 9;
        }
    }),
    other!("either_refused_marks", "a gap that is refused by 7 marks its first sample", |before, way| {
        for (gap, told) in way.gaps.clone().into_iter().zip(way.told.clone()) {
            if told.number == 7 && !gap.is_outside(before.samples.len()) {
                way.left.marks[gap.start] ^= 1;
            }
        }
    }),
    other!(
        "either_refused_takes_back",
        "a gap that is refused by 5 to 8 takes back the one before it",
        |before, way| {
            if way.told[0].number == 0 && (5..9).contains(&way.told[1].number) {
                way.left = before.clone();
            }
        }
    ),
    other!(
        "either_refused_behind_refused",
        "behind a gap that is refused by 5 to 8 none is repaired",
        |before, way| {
            if (5..9).contains(&way.told[0].number) && way.told[1].number == 0 {
                way.left = before.clone();
                (way.told[1].number, way.told[1].value, way.told[1].order) = (9, 0, 0);
            }
        }
    ),
];

/// In library and model alike, and only where the journal has an entry already.
const OF_BOTH: &[Standin] = &[
    Standin {
        name: "either_both_later_last_bit",
        says: "a repair behind another changes the last bit of its first sample",
        how: Alike(|call, before, after| later(call, before, after, |place, _, after| after.samples[place] ^= 1)),
    },
    Standin {
        name: "either_both_later_not_marked",
        says: "a repair behind another leaves the mark of its first sample",
        how: Alike(|call, before, after| {
            later(call, before, after, |place, before, after| after.marks[place] = before.marks[place])
        }),
    },
    Standin {
        name: "either_both_later_not_counted",
        says: "a repair behind another leaves the counts",
        how: Alike(|call, before, after| {
            later(call, before, after, |_, before, after| after.counts.clone_from(&before.counts))
        }),
    },
    Standin {
        name: "either_both_later_counts_all",
        says: "a repair behind another recounts the block before its first too",
        how: Alike(|call, before, after| {
            later(call, before, after, |place, _, after| {
                if let Some(block) = (place / BLOCK).checked_sub(1) {
                    after.counts[block] = counted(&after.marks)[block];
                }
            })
        }),
    },
    Standin {
        name: "either_both_later_used",
        says: "a repair of more than 8 samples behind another raises used by one less",
        how: Alike(|call, before, after| {
            later(call, before, after, |_, before, after| {
                if after.used - before.used > entry_words(8) {
                    after.used -= 1;
                }
            })
        }),
    },
    Standin {
        name: "either_both_later_old_mark_0",
        says: "an entry behind another has 0 for the old mark of its first sample",
        how: Alike(|call, before, after| {
            later(call, before, after, |_, before, after| after.journal[before.used + 2] = 0)
        }),
    },
    Standin {
        name: "either_both_later_new_word",
        says: "an entry behind another has the new word of its first sample",
        how: Alike(|call, before, after| {
            later(call, before, after, |place, before, after| after.journal[before.used + 1] = after.samples[place])
        }),
    },
    Standin {
        name: "either_both_later_word_before",
        says: "a repair behind another writes its first place to the journal's first word",
        how: Alike(|call, before, after| later(call, before, after, |place, _, after| after.journal[0] = place as u32)),
    },
    Standin {
        name: "either_both_later_word_behind",
        says: "a repair behind another writes its first place behind its entry",
        how: Alike(|call, before, after| {
            later(call, before, after, |place, _, after| {
                let used = after.used;
                after.journal.iter_mut().skip(used).take(1).for_each(|word| *word = place as u32);
            })
        }),
    },
    Standin {
        name: "either_both_entries_from_left",
        says: "a repair's entry comes before that of one that lies to its right",
        how: Alike(|call, before, after| {
            later(call, before, after, |place, before, after| {
                let entry = after.journal[before.used..after.used].to_vec();
                if let Some(first) = entry_before(before).filter(|first| before.journal[*first] as usize > place) {
                    let other = before.journal[first..before.used].to_vec();
                    after.journal[first..after.used].copy_from_slice(&[entry, other].concat());
                }
            })
        }),
    },
];

/// In the library alone, and only where the journal has an entry already.
const OF_LIBRARY: &[Standin] = &[
    library!("either_later_order_0", "a repair behind another is told order 0", |lent, call| {
        let used = lent.used.lent()[0];
        let number = lent.call(call);
        if used > FIRST {
            lent.order.lend()[0] = 0;
        }
        number
    }),
    library!("either_later_m_one_more", "a repair behind another is told one sample more", |lent, call| {
        let used = lent.used.lent()[0];
        let number = lent.call(call);
        if used > FIRST && number == 0 {
            lent.numbers[0].lend()[0] += 1;
        }
        number
    }),
    library!("either_later_is_9", "a repair behind another that lies to its right is refused by 9", |lent, call| {
        let before = lent.recording();
        let number = lent.call(call);
        let is_left = |first: usize, gap_start: usize| before.journal[first] as usize > gap_start;
        match (call, entry_before(&before)) {
            (Call::Gap { gap, .. }, Some(first)) if number == 0 && is_left(first, gap.start) => {
                lent.put(&before);
                refused_by_9(lent)
            }
            _ => number,
        }
    }),
    library!("either_later_marks", "a repair behind another marks the sample behind its gap", |lent, call| {
        altered(lent, call, |call, before, after| {
            later(call, before, after, |_, before, after| {
                let last = named(before, after).last().map(|at| after.journal[*at] as usize);
                if let Some(mark) = last.and_then(|place| after.marks.get_mut(place + 1)) {
                    *mark ^= 1;
                }
            })
        })
    }),
];

/// Of lists whose gaps are all accepted in another order.
const OF_LISTS: &[Standin] = &[
    accepted!("either_list_values_stay", "the values stand as if the gaps came from the left on", |_, way| {
        let mut values: Vec<(usize, usize)> =
            way.gaps.iter().zip(&way.told).map(|(gap, told)| (gap.start, told.value)).collect();
        values.sort_unstable();
        way.told.iter_mut().zip(values).for_each(|(told, (_, value))| told.value = value);
    }),
    accepted!("either_list_orders_stay", "the orders stand as if the gaps came from the left on", |_, way| {
        let mut orders: Vec<(usize, u32)> =
            way.gaps.iter().zip(&way.told).map(|(gap, told)| (gap.start, told.order)).collect();
        orders.sort_unstable();
        way.told.iter_mut().zip(orders).for_each(|(told, (_, order))| told.order = order);
    }),
    accepted!("either_list_orders_of_last", "every gap is told the order of the last one", |_, way| {
        let last = way.told[way.told.len() - 1].order;
        way.told.iter_mut().for_each(|told| told.order = last);
    }),
    accepted!("either_list_last_answers_9", "the last gap is answered 9", |_, way| {
        let last = way.told.len() - 1;
        way.told[last].number = 9;
    }),
    accepted!("either_list_entries_from_left", "the entries come from the left on in any order", |before, way| {
        let mut found: Vec<Vec<u32>> = entries(&way.left, before.used)
            .into_iter()
            .map(|(start, m)| way.left.journal[start..start + entry_words(m)].to_vec())
            .collect();
        found.sort_unstable_by_key(|entry| entry[0]);
        way.left.journal[before.used..way.left.used].copy_from_slice(&found.concat());
    }),
    accepted!("either_list_entries_reversed", "the entry of the last gap comes first", |before, way| {
        reverse_entries(before, &mut way.left);
    }),
    accepted!("either_list_sample_last_bit", "the first sample of the third gap has another last bit", |_, way| {
        if let Some(gap) = way.gaps.get(2) {
            way.left.samples[gap.start] ^= 1;
        }
    }),
    accepted!("either_list_mark_lost", "the last gap's last sample has its old mark", |before, way| {
        let place = way.gaps[way.gaps.len() - 1].end() - 1;
        way.left.marks[place] = before.marks[place];
    }),
    accepted!("either_list_counts_of_first", "only the blocks of the first gap are recounted", |before, way| {
        let blocks = blocks_of(way.gaps[0]);
        let right = way.left.counts[blocks.clone()].to_vec();
        way.left.counts.clone_from(&before.counts);
        way.left.counts[blocks].copy_from_slice(&right);
    }),
    accepted!("either_list_counts_of_others", "the blocks of no gap are recounted too", |_, way| {
        way.left.counts = counted(&way.left.marks);
    }),
    accepted!("either_list_used_of_eight", "with eight gaps used lacks the last entry", |_, way| {
        if way.gaps.len() == 8 {
            way.left.used -= entry_words(way.gaps[7].len);
        }
    }),
    accepted!("either_list_word_behind", "the word behind the entries becomes 0", |_, way| {
        let used = way.left.used;
        way.left.journal.iter_mut().skip(used).take(1).for_each(|word| *word = 0);
    }),
    accepted!("either_list_word_before", "the word before the entries is changed", |before, way| {
        if let Some(word) = way.left.journal[..before.used].last_mut() {
            *word ^= 1;
        }
    }),
    other!("either_list_7_one_far", "the place of 7 is the next one", |_, way| told_by(way, 7, |told| told.value += 1)),
    other!("either_list_9_of_last", "where a gap is answered 9, the last one is", |_, way| {
        if way.told.iter().any(|told| told.number == 9) {
            let last = way.told.len() - 1;
            way.told.iter_mut().filter(|told| told.number == 9).for_each(|told| told.number = 0);
            way.told[last].number = 9;
        }
    }),
];

/// The most used words of a recording on which no gap was repaired yet, in the tests of two gaps.
const FIRST: usize = 8;

/// Which of two gaps is the left one, and which the right one.
fn sides(way: &Way) -> [usize; 2] {
    if way.gaps[0].start <= way.gaps[1].start {
        [0, 1]
    } else {
        [1, 0]
    }
}

/// The blocks of a gap's samples.
fn blocks_of(gap: Gap) -> Range<usize> {
    gap.start / BLOCK..(gap.end() - 1) / BLOCK + 1
}

/// What a gap is told that is refused by this number becomes what this makes of it.
fn told_by(way: &mut Way, number: u32, alters: fn(&mut Told)) {
    way.told.iter_mut().filter(|told| told.number == number).for_each(alters);
}

/// The second of two gaps that were repaired is refused by 9: all of it is as before.
fn refuse_second(before: &Recording, way: &mut Way) {
    let gap = way.gaps[1];
    way.left.samples[gap.places()].copy_from_slice(&before.samples[gap.places()]);
    way.left.marks[gap.places()].copy_from_slice(&before.marks[gap.places()]);
    let blocks = blocks_of(gap);
    way.left.counts[blocks.clone()].copy_from_slice(&before.counts[blocks]);
    let (end, used) = (way.left.used, way.left.used - entry_words(gap.len));
    way.left.journal[used..end].copy_from_slice(&before.journal[used..end]);
    way.left.used = used;
    (way.told[1].number, way.told[1].value, way.told[1].order) = (9, 0, 0);
}

/// After an accepted repair of a gap behind another this is done: it is told the first place, and the recording before.
fn later(_: Call, before: &Recording, after: &mut Recording, alters: fn(usize, &Recording, &mut Recording)) {
    if before.used > FIRST && after.used > before.used {
        alters(after.journal[before.used] as usize, before, after);
    }
}

/// Where the last entry starts, if a gap was repaired before.
fn entry_before(before: &Recording) -> Option<usize> {
    let m = before.used.checked_sub(2).filter(|_| before.used > FIRST).map(|at| before.journal[at] as usize)?;
    before.used.checked_sub(entry_words(m))
}

/// The library has refused a gap by 9: what it hands back.
fn refused_by_9(lent: &mut Lent) -> u32 {
    lent.numbers[0].lend()[0] = 0;
    lent.order.lend()[0] = 0;
    9
}
