//! Stand-ins for the list of gaps, most of them made of repairs of single gaps.
use super::recording::where_also;
use super::sequences::{self, enter_first, entries, join_entries, named, put_entries, reverse_entries};
use super::How::{Account, Alike, Model};
use super::{Finds, Standin, Table};
use crate::call::Call;
use crate::inpaint::{Gap, Lists, MOST_GAPS};
use crate::lent::{Lent, GUARDS};
use crate::recording::{entry_words, in_range, Recording, BLOCK};
use std::cell::Cell;

/// One of the lists may have another length than the others.
macro_rules! of_lengths {
    ($list:literal, $which:literal) => {
        &[
            library!(concat!("several_", $list, "_short_taken"), "the list may be one shorter", |lent, call| {
                taking(lent, call, |lengths| differs(lengths, $which, -1))
            }),
            library!(concat!("several_", $list, "_long_taken"), "the list may be one longer", |lent, call| {
                taking(lent, call, |lengths| differs(lengths, $which, 1))
            }),
        ]
    };
}

pub(super) const TABLES: &[Table] = &[
    Table { file: "inpaint", test: "several_gaps", finds: Finds::Always, standins: OF_TURNS },
    Table { file: "inpaint", test: "several_gaps", finds: Finds::Always, standins: OF_ANSWERS },
    Table { file: "inpaint", test: "several_gaps", finds: Finds::Always, standins: OF_REFUSALS },
    Table { file: "inpaint", test: "several_gaps", finds: Finds::Always, standins: of_lengths!("starts", 0) },
    Table { file: "inpaint", test: "several_gaps", finds: Finds::Always, standins: of_lengths!("lengths", 1) },
    Table { file: "inpaint", test: "several_gaps", finds: Finds::Always, standins: of_lengths!("numbers", 2) },
    Table { file: "inpaint", test: "several_gaps", finds: Finds::Always, standins: of_lengths!("values", 3) },
    Table { file: "inpaint", test: "several_gaps", finds: Finds::Always, standins: of_lengths!("orders", 4) },
    Table { file: "inpaint", test: "several_gaps", finds: Finds::Always, standins: OF_MEMORY },
    Table { file: "inpaint", test: "several_gaps", finds: Finds::Never, standins: RIGHT },
    Table { file: "sequences", test: "all_calls", finds: Finds::Always, standins: OF_SEQUENCES },
];

/// In what order the gaps are repaired, which of them are, and on what.
const OF_TURNS: &[Standin] = &[
    library!("several_stops_at_refusal", "the list ends at a refused gap", |lent, call| {
        let mut is_refused = false;
        each(lent, call, |lent, place, passes| is_refused = is_refused || lent.make_one(place, passes) != 0)
    }),
    library!("several_stops_at_5", "the list ends at a gap that is answered 5", |lent, call| {
        let mut is_refused = false;
        each(lent, call, |lent, place, passes| is_refused = is_refused || lent.make_one(place, passes) == 5)
    }),
    library!("several_all_or_nothing", "where a gap is refused, all others are taken back", |lent, call| {
        let before = lent.recording();
        let number = lent.call(call);
        if lent.several.numbers.lent().iter().any(|number| *number != 0) {
            lent.put(&before);
        }
        number
    }),
    library!("several_refused_takes_back", "a refused gap takes back the repair before it", |lent, call| {
        let mut before = lent.recording();
        each(lent, call, |lent, place, passes| {
            let now = lent.recording();
            match lent.make_one(place, passes) {
                0 => before = now,
                _ => lent.put(&before),
            }
        })
    }),
    library!("several_from_last", "the last gap is repaired first", |lent, call| {
        in_order(lent, call, |gaps| (0..gaps.len()).rev().collect())
    }),
    library!("several_by_starts", "the gaps are repaired in the order of their starts", |lent, call| {
        in_order(lent, call, |gaps| {
            let mut places: Vec<usize> = (0..gaps.len()).collect();
            places.sort_by_key(|place| gaps[*place].start);
            places
        })
    }),
    library!("several_repeats_skipped", "a gap that comes again is not repaired again", |lent, call| {
        each(lent, call, |lent, place, passes| {
            let earlier = (0..place).find(|earlier| lent.several.gap(*earlier) == lent.several.gap(place));
            match earlier {
                Some(earlier) => copy_answer(lent, earlier, place),
                None => made(lent, place, passes),
            }
        })
    }),
    library!("several_repeat_of_last_skipped", "a gap directly behind the same is not repaired", |lent, call| {
        each(lent, call, |lent, place, passes| match place {
            1.. if lent.several.gap(place - 1) == lent.several.gap(place) => copy_answer(lent, place - 1, place),
            _ => made(lent, place, passes),
        })
    }),
    library!("several_overlaps_skipped", "a gap over one that was repaired is answered 5", |lent, call| {
        each(lent, call, |lent, place, passes| {
            if (0..place).any(|earlier| is_over(lent, place, earlier)) {
                answer(lent, place, [5, 0, 0]);
            } else {
                made(lent, place, passes);
            }
        })
    }),
    library!("several_overlaps_cut", "of a gap only what lies behind the one before it is repaired", overlaps_cut),
    library!(
        "several_touching_joined",
        "a gap that begins where the one before it ends takes that in",
        touching_joined
    ),
    library!("several_read_as_began", "each gap is filled from the samples as the call began", read_as_began),
    library!(
        "several_7_as_began",
        "7 is given for a sample that was not in range when the call began",
        refused_as_began
    ),
    library!("several_last_of_64_not_made", "the last of 64 gaps is not repaired", |lent, call| {
        each(lent, call, |lent, place, passes| {
            if place < MOST_GAPS - 1 {
                made(lent, place, passes);
            }
        })
    }),
    library!("several_first_made_twice", "the first gap is repaired once more at the end", |lent, call| {
        let number = each(lent, call, made);
        if let (Some(passes), true) = (allowed(lent, call), lent.several.starts.lent().len() > 1) {
            made(lent, 0, passes);
        }
        number
    }),
    library!("several_one_more", "a gap is read behind the end of the lists, and repaired", |lent, call| {
        let number = each(lent, call, made);
        if let Some(passes) = allowed(lent, call) {
            lent.call(Call::Gap { gap: Gap { start: 0, len: 1 }, passes });
        }
        number
    }),
    library!("several_one_before", "a gap is read before the lists, and repaired first", |lent, call| {
        if let Some(passes) = allowed(lent, call) {
            lent.call(Call::Gap { gap: Gap { start: 0, len: 1 }, passes });
        }
        each(lent, call, made)
    }),
    library!("several_lengths_of_next", "each gap has the length of the next one", |lent, call| {
        each(lent, call, |lent, place, passes| {
            let gap = lent.several.gap(place);
            let len = lent.several.lens.lent().get(place + 1).copied().unwrap_or(gap.len);
            make_other(lent, place, passes, Gap { len, ..gap });
        })
    }),
    library!("several_ends_for_lengths", "the list of lengths is taken for one of ends", |lent, call| {
        each(lent, call, |lent, place, passes| {
            let gap = lent.several.gap(place);
            make_other(lent, place, passes, Gap { len: gap.len.saturating_sub(gap.start), ..gap });
        })
    }),
    library!("several_no_pass", "with 0 passes no gap is repaired", |lent, call| {
        let before = lent.recording();
        let number = lent.call(call);
        if call == (Call::Gaps { passes: 0 }) {
            lent.put(&before);
        }
        number
    }),
];

/// What is handed back.
const OF_ANSWERS: &[Standin] = &[
    library!("several_answers_in_next_place", "each answer stands in the next place", |lent, call| {
        telling(lent, call, |lists, _| {
            rotate(&mut lists.numbers);
            rotate(&mut lists.values);
            rotate(&mut lists.orders);
        })
    }),
    library!("several_numbers_in_next_place", "each number stands in the next place", |lent, call| {
        telling(lent, call, |lists, _| rotate(&mut lists.numbers))
    }),
    library!("several_values_in_next_place", "each value stands in the next place", |lent, call| {
        telling(lent, call, |lists, _| rotate(&mut lists.values))
    }),
    library!("several_order_of_gap_before", "each order stands in the next place", |lent, call| {
        telling(lent, call, |lists, _| rotate(&mut lists.orders))
    }),
    library!("several_answers_reversed", "the answers stand from the last on", |lent, call| {
        telling(lent, call, |lists, _| {
            lists.numbers.reverse();
            lists.values.reverse();
            lists.orders.reverse();
        })
    }),
    library!(
        "several_answers_packed",
        "the answers of the repaired gaps stand before those of the others",
        |lent, call| {
            telling(lent, call, |lists, _| {
                let mut places: Vec<usize> = (0..lists.numbers.len()).collect();
                places.sort_by_key(|place| lists.numbers[*place] != 0);
                lists.numbers = places.iter().map(|place| lists.numbers[*place]).collect();
                lists.values = places.iter().map(|place| lists.values[*place]).collect();
                lists.orders = places.iter().map(|place| lists.orders[*place]).collect();
            })
        }
    ),
    library!("several_number_of_repaired_alone", "only a repaired gap gets its number", |lent, call| {
        telling(lent, call, |lists, before| keep(&mut lists.numbers, &before.numbers, |number| *number != 0))
    }),
    library!("several_number_of_refused_alone", "only a refused gap gets its number", |lent, call| {
        telling(lent, call, |lists, before| keep(&mut lists.numbers, &before.numbers, |number| *number == 0))
    }),
    library!("several_number_of_first_alone", "only the first gap gets its number", |lent, call| {
        telling(lent, call, |lists, before| copy_behind(&mut lists.numbers, &before.numbers))
    }),
    library!("several_value_of_first_alone", "only the first gap gets its value", |lent, call| {
        telling(lent, call, |lists, before| copy_behind(&mut lists.values, &before.values))
    }),
    library!("several_order_of_first_alone", "only the first gap gets its order", |lent, call| {
        telling(lent, call, |lists, before| copy_behind(&mut lists.orders, &before.orders))
    }),
    library!("several_value_of_refused_kept", "the value of a refused gap is not written", |lent, call| {
        telling_refused(lent, call, |lists, before, place| lists.values[place] = before.values[place])
    }),
    library!("several_order_of_refused_kept", "the order of a refused gap is not written", |lent, call| {
        telling_refused(lent, call, |lists, before, place| lists.orders[place] = before.orders[place])
    }),
    library!("several_order_of_refused_stays", "a refused gap has the order of the one before it", |lent, call| {
        telling_refused(lent, call, |lists, _, place| {
            lists.orders[place] = if place > 0 { lists.orders[place - 1] } else { 0 };
        })
    }),
    library!(
        "several_value_of_refused_stays",
        "a gap that is refused without a place has the value of the one before it",
        |lent, call| {
            telling_refused(lent, call, |lists, _, place| {
                if place > 0 && !matches!(lists.numbers[place], 7 | 8) {
                    lists.values[place] = lists.values[place - 1];
                }
            })
        }
    ),
    library!("several_order_of_line_stays", "a straight line has the order of the gap before it", |lent, call| {
        telling(lent, call, |lists, _| {
            for place in 1..lists.orders.len() {
                if lists.numbers[place] == 0 && lists.gaps()[place].is_line() {
                    lists.orders[place] = lists.orders[place - 1];
                }
            }
        })
    }),
    library!("several_order_of_last", "every gap by model has the order of the last one", |lent, call| {
        telling(lent, call, |lists, _| {
            if let Some(last) = lists.orders.iter().rev().find(|order| **order > 0).copied() {
                lists.orders.iter_mut().filter(|order| **order > 0).for_each(|order| *order = last);
            }
        })
    }),
    library!("several_values_add_up", "the values of the repaired gaps add up", |lent, call| {
        telling(lent, call, |lists, _| {
            let mut sum = 0;
            let repaired = lists.values.iter_mut().zip(&lists.numbers).filter(|(_, number)| **number == 0);
            repaired.for_each(|(value, _)| {
                sum += *value;
                *value = sum;
            });
        })
    }),
    library!("several_value_within_gap", "the place of 8 is counted from where the gap starts", |lent, call| {
        telling_refused(lent, call, |lists, _, place| {
            if lists.numbers[place] == 8 {
                lists.values[place] -= lists.starts[place];
            }
        })
    }),
    library!("several_numbers_of_8_bits", "only 8 binary digits of each number are written", |lent, call| {
        telling(lent, call, |lists, before| {
            let numbers = lists.numbers.iter_mut().zip(&before.numbers);
            numbers.for_each(|(number, before)| *number |= before & !0xff);
        })
    }),
    library!("several_values_of_32_bits", "only 32 binary digits of each value are written", |lent, call| {
        telling(lent, call, |lists, before| {
            let values = lists.values.iter_mut().zip(&before.values);
            values.for_each(|(value, before)| *value |= before & !0xffff_ffff);
        })
    }),
    library!("several_numbers_past_end", "one number too many is written", |lent, call| {
        past_end(lent, call, |lent, end| lent.several.numbers.whole[end] = 0)
    }),
    library!("several_values_past_end", "one value too many is written", |lent, call| {
        past_end(lent, call, |lent, end| lent.several.values.whole[end] = 0)
    }),
    library!("several_orders_past_end", "one order too many is written", |lent, call| {
        past_end(lent, call, |lent, end| lent.several.orders.whole[end] = 0)
    }),
    library!("several_writes_starts", "a refused gap starts at 0 afterwards", |lent, call| {
        telling_refused(lent, call, |lists, _, place| lists.starts[place] = 0)
    }),
    library!("several_writes_lengths", "a refused gap has length 0 afterwards", |lent, call| {
        telling_refused(lent, call, |lists, _, place| lists.lens[place] = 0)
    }),
    library!("several_answers_first_refusal", "the call answers the first refusal of its gaps", |lent, call| {
        answering(lent, call, |numbers| numbers.iter().find(|number| **number != 0).copied())
    }),
    library!("several_answers_last_refusal", "the call answers the last refusal of its gaps", |lent, call| {
        answering(lent, call, |numbers| numbers.iter().rev().find(|number| **number != 0).copied())
    }),
    library!("several_answers_last_number", "the call answers as its last gap", |lent, call| {
        answering(lent, call, |numbers| numbers.last().copied())
    }),
    library!(
        "several_answers_if_all_refused",
        "the call answers the first refusal where no gap is repaired",
        |lent, call| { answering(lent, call, |numbers| numbers.first().copied().filter(|_| !numbers.contains(&0))) }
    ),
    library!("several_answers_repaired", "the call answers how many gaps were repaired", |lent, call| {
        answering(lent, call, |numbers| Some(numbers.iter().filter(|number| **number == 0).count() as u32))
    }),
];

/// When 4 is given, and what is done then.
const OF_REFUSALS: &[Standin] = &[
    library!("several_65_taken", "65 gaps are taken", |lent, call| {
        taking(lent, call, |lengths| lengths == [MOST_GAPS + 1; 5])
    }),
    library!("several_66_taken", "more than 65 gaps are taken", |lent, call| {
        taking(lent, call, |lengths| lengths == [lengths[0]; 5] && lengths[0] > MOST_GAPS + 1)
    }),
    library!("several_count_of_8_bits", "the number of gaps keeps its last 8 binary digits", |lent, call| {
        taking(lent, call, |lengths| lengths == [lengths[0]; 5] && lengths[0] % 256 <= MOST_GAPS)
    }),
    library!("several_count_of_16_bits", "the number of gaps keeps its last 16 binary digits", |lent, call| {
        taking(lent, call, |lengths| lengths == [lengths[0]; 5] && lengths[0] % 65_536 <= MOST_GAPS)
    }),
    library!("several_64_refused", "64 gaps are refused", |lent, call| refusing(lent, call, |gaps| gaps == MOST_GAPS)),
    library!("several_1_refused", "a list of one gap is refused", |lent, call| refusing(lent, call, |gaps| gaps == 1)),
    library!("several_0_refused", "an empty list is refused", |lent, call| refusing(lent, call, |gaps| gaps == 0)),
    library!("several_4_answers", "where 4 is given, each gap has it for its number", |lent, call| {
        on_4(lent, call, |lent, _| lent.several.numbers.lend().fill(4))
    }),
    library!("several_4_writes_values", "where 4 is given, the values become 0", |lent, call| {
        on_4(lent, call, |lent, _| lent.several.values.lend().fill(0))
    }),
    library!("several_4_writes_orders", "where 4 is given, the orders become 0", |lent, call| {
        on_4(lent, call, |lent, _| lent.several.orders.lend().fill(0))
    }),
    library!("several_4_clears_work", "where 4 is given, the workspace is cleared", |lent, call| {
        on_4(lent, call, |lent, _| lent.doubles.lend().fill(0.0))
    }),
    library!("several_4_repairs_first", "where 4 is given, the first gap is repaired", |lent, call| {
        on_4(lent, call, |lent, passes| repair_unanswered(lent, passes, 1))
    }),
    library!("several_4_repairs_64", "where 4 is given, the first 64 gaps are repaired", |lent, call| {
        on_4(lent, call, |lent, passes| repair_unanswered(lent, passes, MOST_GAPS))
    }),
    library!("several_4_after_1", "4 is tested after 1", |lent, call| after(lent, call, 1)),
    library!("several_4_after_14", "4 is tested after 14", |lent, call| after(lent, call, 14)),
    library!("several_4_after_2", "4 is tested after 2", |lent, call| after(lent, call, 2)),
    library!("several_4_after_3", "4 is tested after 3", |lent, call| after(lent, call, 3)),
    library!(
        "several_answers_malformed",
        "1, 14, 2 or 3 is the answer of the call, and no gap has one",
        |lent, call| { malformed(lent, call, |_| true) }
    ),
    library!("several_0_malformed", "1, 14, 2 or 3 is the answer of an empty list", |lent, call| {
        malformed(lent, call, |gaps| gaps == 0)
    }),
    library!("several_0_clears_work", "an empty list clears the workspace", |lent, call| {
        let number = lent.call(call);
        if lent.several.starts.lent().is_empty() && number == 0 {
            lent.doubles.lend().fill(0.0);
        }
        number
    }),
];

/// What is left of workspace, journal and counts.
const OF_MEMORY: &[Standin] = &[
    library!("several_work_as_began", "each gap gets the workspace as the call began", |lent, call| {
        let began = lent.doubles.lent().to_vec();
        each(lent, call, |lent, place, passes| {
            lent.doubles.lend().copy_from_slice(&began);
            made(lent, place, passes);
        })
    }),
    library!("several_work_of_first", "only what the first gap needs is cleared", |lent, call| {
        each(lent, call, |lent, place, passes| {
            let left = lent.doubles.lent().to_vec();
            made(lent, place, passes);
            if place > 0 {
                lent.doubles.lend().copy_from_slice(&left);
            }
        })
    }),
    library!("several_work_kept", "the workspace stays", |lent, call| {
        let began = lent.doubles.lent().to_vec();
        let number = lent.call(call);
        lent.doubles.lend().copy_from_slice(&began);
        number
    }),
    library!("several_work_one_far", "one double more than any gap needs is cleared", |lent, call| {
        let number = lent.call(call);
        if let Some(most) = most_cleared(lent) {
            lent.doubles.lend().iter_mut().skip(most).take(1).for_each(|double| *double = 0.0);
        }
        number
    }),
    library!("several_work_one_short", "the last double that a gap needs is not cleared", |lent, call| {
        let began = lent.doubles.lent().to_vec();
        let number = lent.call(call);
        if let Some(most) = most_cleared(lent) {
            lent.doubles.lend()[most - 1] = began[most - 1];
        }
        number
    }),
    library!("several_work_all", "all of the workspace is cleared where a gap clears some", |lent, call| {
        let number = lent.call(call);
        if most_cleared(lent).is_some() {
            lent.doubles.lend().fill(0.0);
        }
        number
    }),
    library!(
        "several_work_for_all",
        "every gap is answered 6 where the workspace is too short for one",
        |lent, call| {
            let n = lent.samples().len();
            let within = lent.several.lists().gaps().into_iter().filter(|gap| !gap.is_outside(n));
            let most = within.map(|gap| gap.needed(n)).max();
            let is_short = most > Some(lent.doubles.lent().len()) && lent.recording().refused_by_any_call().is_none();
            each(lent, call, |lent, place, passes| {
                if is_short {
                    answer(lent, place, [6, 0, 0]);
                } else {
                    made(lent, place, passes);
                }
            })
        }
    ),
    library!("several_room_for_all", "every gap is answered 9 where the journal lacks room for one", |lent, call| {
        let (before, doubles) = (lent.recording(), lent.doubles.lent().to_vec());
        let is_allowed = allowed(lent, call).is_some();
        let number = lent.call(call);
        if is_allowed && lent.several.numbers.lent().contains(&9) {
            lent.put(&before);
            lent.doubles.lend().copy_from_slice(&doubles);
            (0..lent.several.starts.lent().len()).for_each(|place| answer(lent, place, [9, 0, 0]));
        }
        number
    }),
    library!("several_one_entry", "all gaps together make one entry", |lent, call| altered(lent, call, join_entries)),
    library!("several_entries_reversed", "the entry of the last gap comes first", |lent, call| {
        altered(lent, call, reverse_entries)
    }),
    library!("several_entries_of_first", "only the first gap that is repaired has an entry", |lent, call| {
        altered(lent, call, enter_first)
    }),
    library!("several_entries_of_began", "entries have the words and marks as the call began", |lent, call| {
        altered(lent, call, |before, after| {
            for at in named(before, after) {
                let place = after.journal[at] as usize;
                after.journal[at + 1] = before.samples[place];
                after.journal[at + 2] = before.marks[place].into();
            }
        })
    }),
    library!("several_entry_of_repeat_lost", "a gap that comes again makes no entry again", |lent, call| {
        altered(lent, call, enter_once)
    }),
    library!("several_counts_of_first", "only the blocks of the first gap are recounted", |lent, call| {
        altered(lent, call, |before, after| recount(before, after, |_| 0))
    }),
    library!("several_counts_of_last", "only the blocks of the last gap are recounted", |lent, call| {
        altered(lent, call, |before, after| recount(before, after, |entries| entries - 1))
    }),
];

/// It is right.
const RIGHT: &[Standin] =
    &[library!("several_singly", "the list is made by single calls in turn", |lent, call| { each(lent, call, made) })];

/// In sequences of calls: for the model, for the library, for both alike, and in the account, which is the test's own.
const OF_SEQUENCES: &[Standin] = &[
    Standin {
        name: "seq_model_list_enters_first_gap",
        says: "the model's list enters only its first gap",
        how: Model(list_enters_first_gap),
    },
    library!("seq_undo_takes_list", "an undo takes back all gaps of the list before it", |lent, call| {
        sequences::altered(lent, call, undo_takes_list)
    }),
    library!("seq_list_refused_behind_entry", "a list on a journal with an entry repairs no gap", |lent, call| {
        let before = lent.recording();
        let number = lent.call(call);
        if matches!(call, Call::Gaps { .. }) && before.used > 0 {
            lent.put(&before);
        }
        number
    }),
    Standin {
        name: "seq_both_undo_takes_list",
        says: "an undo takes back all gaps of the list before it",
        how: Alike(undo_takes_list),
    },
    Standin {
        name: "seq_both_list_enters_first_gap",
        says: "a list enters only its first gap",
        how: Alike(list_enters_first_gap),
    },
    Standin {
        name: "seq_both_list_enters_gaps_reversed",
        says: "a list enters its last gap first",
        how: Alike(|call, before, after| {
            if let Call::Gaps { .. } = call {
                reverse_entries(before, after);
            }
        }),
    },
    Standin {
        name: "seq_both_list_one_entry",
        says: "a list makes one entry of all its gaps",
        how: Alike(|call, before, after| {
            if let Call::Gaps { .. } = call {
                join_entries(before, after);
            }
        }),
    },
    Standin { name: "seq_account_list_is_one", says: "in the account a list is one survivor", how: Account },
    Standin {
        name: "seq_account_list_is_last_gap",
        says: "in the account only the last gap of a list survives",
        how: Account,
    },
    Standin {
        name: "seq_account_list_reversed",
        says: "in the account the gaps of a list survive from the last on",
        how: Account,
    },
    Standin {
        name: "seq_account_list_refused_survives",
        says: "in the account a refused gap of a list survives",
        how: Account,
    },
    Standin {
        name: "seq_account_undo_takes_list",
        says: "in the account an undo takes off all gaps of a list",
        how: Account,
    },
];

/// The passes of a list that is not refused as a whole.
fn allowed(lent: &Lent, call: Call) -> Option<u32> {
    match call {
        Call::Gaps { passes } if !lent.several.lists().are_refused() => Some(passes),
        _ => None,
    }
}

/// A list that is not refused as a whole is made place by place: this does it, and is told the passes.
fn each(lent: &mut Lent, call: Call, makes: impl FnMut(&mut Lent, usize, u32)) -> u32 {
    let places: Vec<usize> = (0..lent.several.starts.lent().len()).collect();
    each_of(lent, call, &places, makes)
}

/// Likewise for these places in this order.
fn each_of(lent: &mut Lent, call: Call, places: &[usize], mut makes: impl FnMut(&mut Lent, usize, u32)) -> u32 {
    match allowed(lent, call) {
        Some(passes) => {
            places.iter().for_each(|place| makes(lent, *place, passes));
            0
        }
        None => lent.call(call),
    }
}

/// The gap of a place is repaired as it should.
fn made(lent: &mut Lent, place: usize, passes: u32) {
    lent.make_one(place, passes);
}

/// Another gap is repaired in its place.
fn make_other(lent: &mut Lent, place: usize, passes: u32, other: Gap) {
    let gap = lent.several.gap(place);
    set_gap(lent, place, other);
    made(lent, place, passes);
    set_gap(lent, place, gap);
}

fn set_gap(lent: &mut Lent, place: usize, gap: Gap) {
    lent.several.starts.lend()[place] = gap.start;
    lent.several.lens.lend()[place] = gap.len;
}

/// The gap of this place is answered so: the number, the value and the order.
fn answer(lent: &mut Lent, place: usize, [number, value, order]: [usize; 3]) {
    lent.several.numbers.lend()[place] = number as u32;
    lent.several.values.lend()[place] = value;
    lent.several.orders.lend()[place] = order as u32;
}

/// The gap of the one place is answered as that of the other was.
fn copy_answer(lent: &mut Lent, from: usize, to: usize) {
    let Lists { numbers, values, orders, .. } = lent.several.lists();
    answer(lent, to, [numbers[from] as usize, values[from], orders[from] as usize]);
}

/// Whether the gap of a place that was made was repaired.
fn is_made(lent: &Lent, place: usize) -> bool {
    lent.several.numbers.lent()[place] == 0
}

/// The place behind the gap of a place.
fn end_of(lent: &Lent, place: usize) -> usize {
    let gap = lent.several.gap(place);
    gap.start.saturating_add(gap.len)
}

/// Whether the gap of a place has a sample of that of an earlier one, which was repaired.
fn is_over(lent: &Lent, place: usize, earlier: usize) -> bool {
    let (gap, other) = (lent.several.gap(place), lent.several.gap(earlier));
    is_made(lent, earlier) && gap.len > 0 && gap.start < end_of(lent, earlier) && other.start < end_of(lent, place)
}

fn overlaps_cut(lent: &mut Lent, call: Call) -> u32 {
    each(lent, call, |lent, place, passes| {
        let end = end_of(lent, place);
        match place.checked_sub(1).map(|before| (is_over(lent, place, before), end_of(lent, before))) {
            Some((true, start)) if start < end => make_other(lent, place, passes, Gap { start, len: end - start }),
            _ => made(lent, place, passes),
        }
    })
}

fn touching_joined(lent: &mut Lent, call: Call) -> u32 {
    each(lent, call, |lent, place, passes| {
        let start = lent.several.gap(place).start;
        let touches = |before: &usize| is_made(lent, *before) && end_of(lent, *before) == start;
        match place.checked_sub(1).filter(touches).map(|before| lent.several.gap(before).start) {
            Some(start) => make_other(lent, place, passes, Gap { start, len: end_of(lent, place) - start }),
            None => made(lent, place, passes),
        }
    })
}

fn refused_as_began(lent: &mut Lent, call: Call) -> u32 {
    let began = lent.recording();
    let n = began.samples.len();
    each(lent, call, |lent, place, passes| {
        let gap = lent.several.gap(place);
        let is_looked_at = began.refused_by_any_call().is_none() && !gap.is_outside(n) && is_enough(lent, gap);
        let found = if is_looked_at { gap.read(n).find(|at| !in_range(began.samples[*at])) } else { None };
        match found {
            Some(at) => answer(lent, place, [7, at, 0]),
            None => made(lent, place, passes),
        }
    })
}

/// Whether the workspace is enough for a gap that lies within the samples.
fn is_enough(lent: &Lent, gap: Gap) -> bool {
    gap.needed(lent.samples().len()) <= lent.doubles.lent().len()
}

/// The gaps are repaired in another order, which this makes of them, each with its answer in its own place.
fn in_order(lent: &mut Lent, call: Call, order: fn(&[Gap]) -> Vec<usize>) -> u32 {
    let places = order(&lent.several.lists().gaps());
    each_of(lent, call, &places, made)
}

fn read_as_began(lent: &mut Lent, call: Call) -> u32 {
    let began = lent.samples().to_vec();
    each(lent, call, |lent, place, passes| {
        let mut left = lent.samples().to_vec();
        lent.samples.lend().copy_from_slice(&began);
        if lent.make_one(place, passes) == 0 {
            let gap = lent.several.gap(place);
            let entry = lent.used.lent()[0] - entry_words(gap.len);
            for (at, sample) in gap.places().enumerate() {
                lent.journal.lend()[entry + 3 * at + 1] = left[sample];
                left[sample] = lent.samples()[sample];
            }
        }
        lent.samples.lend().copy_from_slice(&left);
    })
}

/// The library makes the list. Where it is not refused, the lists become what this makes of them. It is told the lists
/// before.
fn telling(lent: &mut Lent, call: Call, alters: impl Fn(&mut Lists, &Lists)) -> u32 {
    let (before, is_allowed) = (lent.several.lists(), allowed(lent, call).is_some());
    let number = lent.call(call);
    if is_allowed {
        let mut lists = lent.several.lists();
        alters(&mut lists, &before);
        lent.several.starts.lend().copy_from_slice(&lists.starts);
        lent.several.lens.lend().copy_from_slice(&lists.lens);
        lent.several.numbers.lend().copy_from_slice(&lists.numbers);
        lent.several.values.lend().copy_from_slice(&lists.values);
        lent.several.orders.lend().copy_from_slice(&lists.orders);
    }
    number
}

/// Likewise at the place of each gap that was refused.
fn telling_refused(lent: &mut Lent, call: Call, alters: fn(&mut Lists, &Lists, usize)) -> u32 {
    telling(lent, call, |lists, before| {
        for place in 0..lists.numbers.len() {
            if lists.numbers[place] != 0 {
                alters(lists, before, place);
            }
        }
    })
}

/// Each goes to the next place, and the last to the first.
fn rotate<T>(list: &mut [T]) {
    list.rotate_right(usize::from(!list.is_empty()));
}

/// Those that are so stay as they were before.
fn keep(list: &mut [u32], before: &[u32], so: fn(&u32) -> bool) {
    list.iter_mut().zip(before).filter(|(now, _)| so(now)).for_each(|(now, before)| *now = *before);
}

/// All but the first stay as they were before.
fn copy_behind<T: Copy>(list: &mut [T], before: &[T]) {
    list.iter_mut().zip(before).skip(1).for_each(|(now, before)| *now = *before);
}

/// Where a list that is not empty is made, this writes behind the ends of lists that are as long.
fn past_end(lent: &mut Lent, call: Call, writes: fn(&mut Lent, usize)) -> u32 {
    let is_allowed = allowed(lent, call).is_some();
    let number = lent.call(call);
    let end = GUARDS + lent.several.starts.lent().len();
    if is_allowed && end > GUARDS {
        writes(lent, end);
    }
    number
}

/// The list is made, and the call answers what this makes of the numbers of its gaps.
fn answering(lent: &mut Lent, call: Call, of: fn(&[u32]) -> Option<u32>) -> u32 {
    let is_allowed = allowed(lent, call).is_some();
    let number = lent.call(call);
    if is_allowed {
        of(lent.several.numbers.lent()).unwrap_or(0)
    } else {
        number
    }
}

/// Whether the lengths are all the same and within the most, but for one of them, which is so many more.
fn differs(lengths: [usize; 5], which: usize, by: isize) -> bool {
    let gaps = lengths[(which + 1) % 5];
    let mut others = [gaps; 5];
    others[which] = gaps.wrapping_add(by as usize);
    lengths == others && gaps <= MOST_GAPS
}

/// Lists whose lengths are so are made, as far as all of them go.
fn taking(lent: &mut Lent, call: Call, so: fn([usize; 5]) -> bool) -> u32 {
    let lengths = lent.several.lists().lengths();
    match call {
        Call::Gaps { passes } if so(lengths) && allowed(lent, call).is_none() => {
            let shortest = lengths.into_iter().min().unwrap_or(0);
            (0..shortest).for_each(|place| made(lent, place, passes));
            0
        }
        _ => lent.call(call),
    }
}

/// 4 is given where the number of gaps is so.
fn refusing(lent: &mut Lent, call: Call, so: fn(usize) -> bool) -> u32 {
    if allowed(lent, call).is_some() && so(lent.several.starts.lent().len()) {
        4
    } else {
        lent.call(call)
    }
}

/// This is done where 4 is given, and is told the passes.
fn on_4(lent: &mut Lent, call: Call, alters: fn(&mut Lent, u32)) -> u32 {
    let number = lent.call(call);
    if let (4, Call::Gaps { passes }) = (number, call) {
        alters(lent, passes);
    }
    number
}

/// The first gaps are repaired, so many at most, and have no answers.
fn repair_unanswered(lent: &mut Lent, passes: u32, most: usize) {
    for gap in lent.several.lists().gaps().into_iter().take(most) {
        lent.call(Call::Gap { gap, passes });
    }
}

/// This number is given where 4 is and the number applies too.
fn after(lent: &mut Lent, call: Call, number: u32) -> u32 {
    where_also(lent, call, 4, number, |recording| recording.refused_by_any_call() == Some(number))
}

/// The call answers what turns every gap away, where the number of gaps is so, and nothing else is done.
fn malformed(lent: &mut Lent, call: Call, so: fn(usize) -> bool) -> u32 {
    let number = lent.recording().refused_by_any_call();
    match (allowed(lent, call), number) {
        (Some(_), Some(number)) if so(lent.several.starts.lent().len()) => number,
        _ => lent.call(call),
    }
}

/// The most doubles that a gap of a list that was made has cleared, if one has cleared some.
fn most_cleared(lent: &Lent) -> Option<usize> {
    let (lists, n) = (lent.several.lists(), lent.samples().len());
    let gaps = lists.gaps().into_iter().zip(&lists.numbers).filter(|(_, number)| matches!(number, 0 | 8 | 9));
    gaps.filter(|_| !lists.are_refused()).map(|(gap, _)| gap.needed(n)).max()
}

/// The library makes the list, and the recording that it left is altered.
fn altered(lent: &mut Lent, call: Call, alters: fn(&Recording, &mut Recording)) -> u32 {
    let before = lent.recording();
    let number = lent.call(call);
    let mut after = lent.recording();
    if after.used > before.used {
        alters(&before, &mut after);
        lent.put(&after);
    }
    number
}

/// Of the entries that a call has made those that name what an earlier one names are lost.
fn enter_once(before: &Recording, after: &mut Recording) {
    let places = |entry: &[u32]| entry.chunks(3).map(|sample| sample[0]).collect::<Vec<u32>>();
    let mut kept: Vec<Vec<u32>> = Vec::new();
    for (start, m) in entries(after, before.used) {
        let entry = after.journal[start..start + entry_words(m)].to_vec();
        if !kept.iter().any(|other| places(other) == places(&entry)) {
            kept.push(entry);
        }
    }
    put_entries(before, after, &kept.concat());
}

/// The counts are as before, but those of the blocks of one of the entries. There is one; of so many this says which.
fn recount(before: &Recording, after: &mut Recording, which: fn(usize) -> usize) {
    let entries = entries(after, before.used);
    let (start, m) = entries[which(entries.len())];
    let right = after.counts.clone();
    after.counts = before.counts.clone();
    for sample in (start..start + 3 * m).step_by(3) {
        let block = after.journal[sample] as usize / BLOCK;
        after.counts[block] = right[block];
    }
}

fn list_enters_first_gap(call: Call, before: &Recording, after: &mut Recording) {
    if let Call::Gaps { .. } = call {
        enter_first(before, after);
    }
}

thread_local! {
    /// What used was before the last list and after it.
    static LIST: Cell<[usize; 2]> = Cell::new([0; 2]);
}

/// An undo where the entries end with those of the last list takes back all of these.
fn undo_takes_list(call: Call, before: &Recording, after: &mut Recording) {
    let [start, end] = LIST.with(Cell::get);
    match call {
        Call::Gaps { .. } => LIST.with(|list| list.set([before.used, after.used])),
        Call::Undo if before.used == end => {
            while after.used > start {
                after.undo();
            }
        }
        _ if call.opens() || before.used < end && before.used < after.used => LIST.with(|list| list.set([0; 2])),
        _ => {}
    }
}
