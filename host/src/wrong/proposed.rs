//! Stand-ins for declip by a proposal.
use super::recording::where_also;
use super::whole::{answers, set_value, value};
use super::How::{Alike, Model};
use super::{Finds, Standin, Table};
use crate::call::Call;
use crate::lent::{Lent, GUARDS, VALUE_BEFORE};
use crate::proposed::{breaches, is_allowed, named, PROPOSED};
use crate::recording::{entry_words, in_range, Answer, Recording};

pub(super) const TABLES: &[Table] = &[
    Table { file: "proposed", test: "proposals", finds: Finds::Always, standins: OF_RULE },
    Table { file: "proposed", test: "proposals", finds: Finds::Always, standins: OF_LENGTHS },
    Table { file: "proposed", test: "proposals", finds: Finds::Always, standins: OF_ORDER },
    Table { file: "proposed", test: "proposals", finds: Finds::Always, standins: OF_SETTINGS },
    Table { file: "proposed", test: "proposals", finds: Finds::Always, standins: OF_VALUES },
    Table { file: "proposed", test: "proposals", finds: Finds::Always, standins: OF_NAMED },
    Table { file: "proposed", test: "proposals", finds: Finds::Always, standins: OF_ENTRIES },
    Table { file: "proposed", test: "proposals", finds: Finds::Always, standins: OF_MEMORY },
    Table { file: "proposed", test: "proposals", finds: Finds::Always, standins: OF_MODEL },
    Table { file: "proposed", test: "proposals", finds: Finds::Always, standins: OF_BOTH },
    Table { file: "proposed", test: "projections", finds: Finds::Always, standins: OF_PROJECTED },
    Table { file: "proposed", test: "proposals", finds: Finds::Never, standins: RIGHT },
];

/// What a word is asked for.
const OF_RULE: &[Standin] = &[
    library!("proposed_zero_sign_taken", "the sign of a zero under the threshold may change", |lent, call| {
        by(lent, call, Rules { under: |was, word| f32::from_bits(was) == f32::from_bits(word), ..RULES })
    }),
    library!("proposed_last_bit_taken", "the last bit of a sample under the threshold may change", |lent, call| {
        by(lent, call, Rules { under: |was, word| was | 1 == word | 1, ..RULES })
    }),
    library!("proposed_under_taken", "a sample under the threshold is taken from the proposal", |lent, call| {
        let proposal = lent.proposal.lent().to_vec();
        let number = by(lent, call, Rules { under: |_, _| true, ..RULES });
        if number == 0 {
            lent.samples.lend().copy_from_slice(&proposal);
        }
        number
    }),
    library!("proposed_under_ignored", "the words for samples under the threshold have no say", |lent, call| {
        by(lent, call, Rules { under: |_, _| true, ..RULES })
    }),
    library!("proposed_above_threshold", "a sample at the threshold is taken for one under it", |lent, call| {
        by(lent, call, Rules { clipped: |x, threshold| x.abs() > threshold, ..RULES })
    }),
    library!("proposed_sign_kept", "a sample at or below the negative threshold is under it", |lent, call| {
        by(lent, call, Rules { clipped: |x, threshold| x >= threshold, ..RULES })
    }),
    library!("proposed_negative_ignored", "for one at or below the negative threshold any word does", |lent, call| {
        by(lent, call, Rules { beyond: |x, word, threshold| x < 0.0 || answered(x, word, threshold), ..RULES })
    }),
    library!("proposed_positive_ignored", "for one at or above the threshold any word does", |lent, call| {
        by(lent, call, Rules { beyond: |x, word, threshold| x > 0.0 || answered(x, word, threshold), ..RULES })
    }),
    library!("proposed_other_side_taken", "a word beyond the threshold may be on the other side", |lent, call| {
        by(lent, call, Rules { beyond: other_side, ..RULES })
    }),
    library!("proposed_side_alone", "a word on the right side may be under the threshold", |lent, call| {
        by(lent, call, Rules { beyond: side_alone, ..RULES })
    }),
    library!("proposed_range_ignored", "whether a word is in range has no say", |lent, call| {
        by(lent, call, Rules { beyond: is_on_side, ..RULES })
    }),
    library!("proposed_loud_taken", "a word may be louder than 65,536 if it is finite", |lent, call| {
        by(
            lent,
            call,
            Rules { beyond: |x, word, t| f32::from_bits(word).is_finite() && is_on_side(x, word, t), ..RULES },
        )
    }),
    library!("proposed_infinity_taken", "a word may be infinite", |lent, call| {
        let takes = |x, word, t| (in_range(word) || f32::from_bits(word).is_infinite()) && is_on_side(x, word, t);
        by(lent, call, Rules { beyond: takes, ..RULES })
    }),
    library!("proposed_nan_taken", "a word may be a NaN", |lent, call| {
        by(lent, call, Rules { beyond: |x, word, t| f32::from_bits(word).is_nan() || answered(x, word, t), ..RULES })
    }),
    library!("proposed_rest_taken", "words that break the rule are left out, and the others taken", |lent, call| {
        by(lent, call, Rules { told: |_| None, ..RULES })
    }),
];

/// How many words there are.
const OF_LENGTHS: &[Standin] = &[
    library!(
        "proposed_short_taken",
        "a word may be missing at the end, and what stands there is read",
        |lent, call| { by(lent, call, Rules { length: |words, n| words == n || words + 1 == n, ..RULES }) }
    ),
    library!("proposed_long_taken", "there may be more words than samples", |lent, call| {
        by(lent, call, Rules { length: |words, n| words >= n, ..RULES })
    }),
    library!("proposed_empty_taken", "a proposal of no words names nothing", |lent, call| match call {
        Call::Proposed { .. } if lent.proposal.lent().is_empty() => on(lent, call, 15, |lent| {
            set_value(lent, 0);
            0
        }),
        _ => lent.call(call),
    }),
    library!("proposed_length_at_end", "another length is told with the lower of the two numbers", |lent, call| {
        on_length(lent, call, |words, n| words.min(n))
    }),
    library!("proposed_length_words", "another length is told with the number of words", |lent, call| {
        on_length(lent, call, |words, _| words)
    }),
    library!("proposed_length_after_words", "a word that breaks the rule comes before another length", |lent, call| {
        let (samples, proposal) = (lent.samples().to_vec(), lent.proposal.lent().to_vec());
        let number = lent.call(call);
        let first = first_breach(&samples, &proposal, call);
        if let (true, 15, Some(place)) = (samples.len() != proposal.len(), number, first) {
            set_value(lent, place);
        }
        number
    }),
    library!("proposed_length_4", "another length is answered 4", |lent, call| {
        let other = lent.proposal.lent().len() != lent.samples().len();
        where_also(lent, call, 15, 4, |_| other)
    }),
    library!("proposed_length_1", "another length is answered 1", |lent, call| {
        let other = lent.proposal.lent().len() != lent.samples().len();
        where_also(lent, call, 15, 1, |_| other)
    }),
];

/// In which order it is refused.
const OF_ORDER: &[Standin] = &[
    library!("proposed_9_before_15", "9 is tested before 15", |lent, call| {
        let lacks = lacks_room(lent, call);
        on(lent, call, 15, |lent| if lacks { refuse(lent, 9, 0) } else { 15 })
    }),
    library!("proposed_15_before_7", "15 is tested before 7", |lent, call| {
        let first = first_breach_or_length(lent, call);
        on(lent, call, 7, |lent| first.map_or(7, |place| refuse(lent, 15, place)))
    }),
    library!("proposed_length_before_7", "another length is told before 7", |lent, call| {
        let other = lent.proposal.lent().len() != lent.samples().len();
        on(lent, call, 7, |lent| if other { refuse(lent, 15, 0) } else { 7 })
    }),
    library!("proposed_length_before_4", "another length is told before 4", |lent, call| {
        let other = lent.proposal.lent().len() != lent.samples().len();
        on(lent, call, 4, |lent| if other { refuse(lent, 15, 0) } else { 4 })
    }),
    library!("proposed_length_before_1", "another length is told before all else", |lent, call| {
        let other = lent.proposal.lent().len() != lent.samples().len();
        on_any(lent, call, |lent, number| if other { refuse(lent, 15, 0) } else { number })
    }),
    library!("proposed_7_before_4", "7 is tested before 4", |lent, call| {
        let first = lent.samples().iter().position(|word| !in_range(*word));
        on(lent, call, 4, |lent| first.map_or(4, |place| refuse(lent, 7, place)))
    }),
    library!("proposed_4_before_3", "4 is tested before 3", |lent, call| {
        where_also(lent, call, 3, 4, |_| !is_allowed(threshold(call)))
    }),
    library!("proposed_4_before_2", "4 is tested before 2", |lent, call| {
        where_also(lent, call, 2, 4, |_| !is_allowed(threshold(call)))
    }),
    library!("proposed_3_before_2", "3 is tested before 2", |lent, call| {
        where_also(lent, call, 2, 3, |r| r.used > r.journal.len())
    }),
    library!("proposed_9_before_7", "9 is tested before 7", |lent, call| {
        let lacks = lacks_room(lent, call);
        on(lent, call, 7, |lent| if lacks { refuse(lent, 9, 0) } else { 7 })
    }),
    library!("proposed_7_only_if_named", "7 is not given where nothing is at or beyond the threshold", |lent, call| {
        let none = named(lent.samples(), threshold(call)).is_empty();
        on(lent, call, 7, |lent| if none { refuse(lent, 0, 0) } else { 7 })
    }),
    library!("proposed_8_given", "8 is answered for a word that is not in range", |lent, call| {
        let proposal = lent.proposal.lent().to_vec();
        let number = lent.call(call);
        let is_loud = proposal.get(value(lent)).map_or(false, |word| !in_range(*word));
        if number == 15 && is_loud {
            8
        } else {
            number
        }
    }),
];

/// Which thresholds are allowed.
const OF_SETTINGS: &[Standin] = &[
    library!("proposed_0_allowed", "a threshold of 0 is allowed", |lent, call| {
        by(lent, call, Rules { allowed: |threshold| threshold.is_finite() && threshold >= 0.0, ..RULES })
    }),
    library!("proposed_negative_allowed", "a negative threshold is taken as its magnitude", |lent, call| match call {
        Call::Proposed { threshold } => lent.call(Call::Proposed { threshold: threshold.abs() }),
        _ => lent.call(call),
    }),
    library!("proposed_infinity_allowed", "a threshold of plus infinity is allowed", |lent, call| {
        by(lent, call, Rules { allowed: |threshold| threshold > 0.0, ..RULES })
    }),
    library!("proposed_nan_allowed", "a threshold that is a NaN is allowed", |lent, call| {
        by(lent, call, Rules { allowed: |threshold| threshold.is_nan() || is_allowed(threshold), ..RULES })
    }),
    library!("proposed_loud_refused", "a threshold above 65,536 is not allowed", |lent, call| {
        by(lent, call, Rules { allowed: |threshold| is_allowed(threshold) && threshold <= 65536.0, ..RULES })
    }),
    library!("proposed_subnormal_refused", "a threshold that is subnormal is not allowed", |lent, call| {
        by(lent, call, Rules { allowed: |threshold| is_allowed(threshold) && threshold.is_normal(), ..RULES })
    }),
];

/// What is handed back.
const OF_VALUES: &[Standin] = &[
    library!("proposed_15_at_last", "15 tells the highest place that breaks the rule", |lent, call| {
        by(lent, call, Rules { told: |places| places.last().copied(), ..RULES })
    }),
    library!("proposed_15_at_named", "15 tells how many samples are named before the place", |lent, call| {
        let places = named(lent.samples(), threshold(call));
        on(lent, call, 15, |lent| {
            let place = value(lent);
            set_value(lent, places.iter().filter(|named| **named < place).count());
            15
        })
    }),
    library!("proposed_15_one_on", "15 tells the place behind", |lent, call| on(lent, call, 15, |lent| {
        let place = value(lent);
        refuse(lent, 15, place + 1)
    })),
    library!("proposed_15_without_place", "15 tells no place", |lent, call| on(lent, call, 15, |lent| refuse(
        lent, 15, 0
    ))),
    library!("proposed_15_not_written", "on 15 no value is written", |lent, call| on(lent, call, 15, |lent| {
        refuse(lent, 15, VALUE_BEFORE)
    })),
    library!("proposed_4_not_written", "on 4 no value is written", |lent, call| on(lent, call, 4, |lent| {
        refuse(lent, 4, VALUE_BEFORE)
    })),
    library!("proposed_9_not_written", "on 9 no value is written", |lent, call| on(lent, call, 9, |lent| {
        refuse(lent, 9, VALUE_BEFORE)
    })),
    library!("proposed_9_tells_m", "9 tells how many samples would be named", |lent, call| {
        let m = named(lent.samples(), threshold(call)).len();
        on(lent, call, 9, |lent| refuse(lent, 9, m))
    }),
    library!("proposed_7_at_last", "7 tells the highest place that is not in range", |lent, call| {
        let last = lent.samples().iter().rposition(|word| !in_range(*word)).unwrap_or(0);
        on(lent, call, 7, |lent| refuse(lent, 7, last))
    }),
    library!("proposed_none_not_written", "no value is written where nothing is named", |lent, call| {
        let number = lent.call(call);
        if number == 0 && value(lent) == 0 {
            set_value(lent, VALUE_BEFORE);
        }
        number
    }),
    library!("proposed_tells_changed", "it tells how many words changed", |lent, call| {
        let before = lent.samples().to_vec();
        let number = lent.call(call);
        if number == 0 {
            let changed = before.iter().zip(lent.samples()).filter(|(old, new)| old != new).count();
            set_value(lent, changed);
        }
        number
    }),
];

/// Which samples are named, and how.
const OF_NAMED: &[Standin] = &[
    library!("proposed_changed_only", "of the samples only those whose word changes are named", |lent, call| {
        by(lent, call, Rules { named: |was, word| was != word, ..RULES })
    }),
    library!("proposed_unchanged_not_marked", "a named sample that keeps its word keeps its mark", |lent, call| {
        let before = lent.recording();
        let number = lent.call(call);
        for place in (0..before.samples.len().min(before.marks.len())).filter(|_| number == 0) {
            if lent.samples()[place] == before.samples[place] {
                lent.marks.lend()[place] = before.marks[place];
            }
        }
        number
    }),
    library!("proposed_mark_3", "mark 3 is set, in the marks and in the entry", |lent, call| {
        by(lent, call, Rules { mark: 3, ..RULES })
    }),
    library!("proposed_marks_3", "mark 3 is set in the marks, and 8 in the entry", |lent, call| {
        let (places, number) = (named(lent.samples(), threshold(call)), lent.call(call));
        places.into_iter().filter(|_| number == 0).for_each(|place| lent.marks.lend()[place] = 3);
        number
    }),
    library!("proposed_enters_3", "mark 8 is set in the marks, and 3 in the entry", |lent, call| {
        on_entry(lent, call, |entry, _| entry[entry.len() - 1] = 3)
    }),
    library!("proposed_only_marks", "the samples are marked, and keep their words", |lent, call| {
        let before = lent.samples().to_vec();
        let number = lent.call(call);
        lent.samples.lend().copy_from_slice(&before);
        number
    }),
    library!("proposed_threshold_written", "the threshold is written for each named sample", |lent, call| {
        let (places, number) = (named(lent.samples(), threshold(call)), lent.call(call));
        for place in places.into_iter().filter(|_| number == 0) {
            let sign = lent.samples()[place] & 0x8000_0000;
            lent.samples.lend()[place] = sign | threshold(call).to_bits();
        }
        number
    }),
    library!("proposed_last_not_written", "the last named sample keeps its word", |lent, call| {
        let (before, last) = (lent.samples().to_vec(), named(lent.samples(), threshold(call)).pop());
        let number = lent.call(call);
        if let (0, Some(place)) = (number, last) {
            lent.samples.lend()[place] = before[place];
        }
        number
    }),
];

/// What is entered.
const OF_ENTRIES: &[Standin] = &[
    library!("proposed_enters_none", "an entry is appended where nothing is named and there is room", |lent, call| {
        let number = lent.call(call);
        let used = lent.used.lent()[0];
        if number == 0 && value(lent) == 0 && lent.journal.lent().len() - used >= entry_words(0) {
            lent.journal.lend()[used..used + 2].copy_from_slice(&[0, 8]);
            lent.used.lend()[0] += 2;
        }
        number
    }),
    library!("proposed_9_for_none", "9 is given where nothing is named and two words are not free", |lent, call| {
        let number = lent.call(call);
        let free = lent.journal.lent().len().saturating_sub(lent.used.lent()[0]);
        if number == 0 && value(lent) == 0 && free < entry_words(0) {
            return 9;
        }
        number
    }),
    library!("proposed_9_one_early", "9 is given where just 3m+2 words are free", |lent, call| {
        let before = lent.recording();
        let number = lent.call(call);
        let m = value(lent);
        if number == 0 && m > 0 && before.journal.len() - before.used == entry_words(m) {
            return answers(lent, &before, Answer::Refused(9));
        }
        number
    }),
    library!("proposed_9_one_late", "9 is not given where one word is missing", |lent, call| {
        let (before, proposal) = (lent.recording(), lent.proposal.lent().to_vec());
        on(lent, call, 9, |lent| {
            let named: Vec<(usize, u32)> =
                named(&before.samples, threshold(call)).into_iter().map(|place| (place, proposal[place])).collect();
            let mut longer = Recording { journal: [&before.journal[..], &[0]].concat(), ..before };
            let answer = longer.commit(PROPOSED, &named);
            longer.journal.pop();
            if answer.number() == 0 {
                answers(lent, &longer, answer)
            } else {
                9
            }
        })
    }),
    library!("proposed_old_marks_0", "each old mark in the entry is 0", |lent, call| {
        on_entry(lent, call, |entry, _| entry.chunks_exact_mut(3).for_each(|three| three[2] = 0))
    }),
    library!("proposed_old_words_new", "the entry has the new words for the old ones", |lent, call| {
        on_entry(lent, call, |entry, samples| {
            entry.chunks_exact_mut(3).for_each(|three| three[1] = samples[three[0] as usize])
        })
    }),
    library!("proposed_enters_descending", "the places in the entry descend", |lent, call| {
        on_entry(lent, call, |entry, _| {
            let end = entry.len() - 2;
            let turned: Vec<u32> = entry[..end].chunks(3).rev().flatten().copied().collect();
            entry[..end].copy_from_slice(&turned);
        })
    }),
    library!("proposed_enters_mark_first", "m and the mark stand in the other order", |lent, call| {
        on_entry(lent, call, |entry, _| {
            let end = entry.len();
            entry.swap(end - 2, end - 1);
        })
    }),
];

/// What becomes of the memory that is lent.
const OF_MEMORY: &[Standin] = &[
    library!("proposed_proposal_cleared", "the proposal is cleared when it was taken", |lent, call| {
        let number = lent.call(call);
        if number == 0 {
            lent.proposal.lend().fill(0);
        }
        number
    }),
    library!("proposed_proposal_swapped", "the proposal gets the old words", |lent, call| {
        let (before, places) = (lent.samples().to_vec(), named(lent.samples(), threshold(call)));
        let number = lent.call(call);
        places.into_iter().filter(|_| number == 0).for_each(|place| lent.proposal.lend()[place] = before[place]);
        number
    }),
    library!("proposed_writes_behind_proposal", "a word behind the proposal is written", |lent, call| {
        let number = lent.call(call);
        let end = GUARDS + lent.proposal.lent().len();
        lent.proposal.whole[end] = 0;
        number
    }),
    library!("proposed_writes_until_broken", "on 15 the words before the place are written", |lent, call| {
        let (proposal, places) = (lent.proposal.lent().to_vec(), named(lent.samples(), threshold(call)));
        on(lent, call, 15, |lent| {
            let place = value(lent);
            for before in places.into_iter().filter(|before| *before < place) {
                lent.samples.lend()[before] = proposal[before];
            }
            15
        })
    }),
    library!("proposed_saves_before_15", "on 15 the old words stand behind the used words already", |lent, call| {
        let places = named(lent.samples(), threshold(call));
        on(lent, call, 15, |lent| {
            let (used, first) = (lent.used.lent()[0], places.first().map_or(0, |place| lent.samples()[*place]));
            lent.journal.lend().iter_mut().skip(used).take(1).for_each(|word| *word = first ^ 1);
            15
        })
    }),
    library!("proposed_saves_before_9", "on 9 a free journal word is written", |lent, call| {
        on(lent, call, 9, |lent| {
            let used = lent.used.lent()[0];
            lent.journal.lend().iter_mut().skip(used).take(1).for_each(|word| *word ^= 1);
            9
        })
    }),
];

/// In the model's place.
const OF_MODEL: &[Standin] = &[
    Standin {
        name: "proposed_model_keeps_words",
        says: "the model marks the samples, and leaves their words",
        how: Model(|_, before, after| after.samples = before.samples.clone()),
    },
    Standin {
        name: "proposed_model_mark_3",
        says: "the model sets mark 3 in the entry",
        how: Model(|_, before, after| {
            if after.used > before.used {
                after.journal[after.used - 1] = 3;
            }
        }),
    },
    Standin {
        name: "proposed_model_keeps_first_mark",
        says: "the model leaves the mark of the first sample that it names",
        how: Model(|_, before, after| {
            if after.used > before.used {
                let place = after.journal[before.used] as usize;
                after.marks[place] = before.marks[place] ^ u8::from(before.marks[place] == PROPOSED);
            }
        }),
    },
];

/// On both sides, so that only what has to hold of every proposal that is taken tells.
const OF_BOTH: &[Standin] = &[
    Standin {
        name: "proposed_both_clear_minus_0",
        says: "a -0 under the threshold becomes +0",
        how: Alike(|_, before, after| {
            if after.used > before.used {
                after.samples.iter_mut().filter(|word| **word == 0x8000_0000).for_each(|word| *word = 0);
            }
        }),
    },
    Standin {
        name: "proposed_both_keep_last_word",
        says: "the last sample that is named keeps its word",
        how: Alike(|_, before, after| {
            if after.used > before.used {
                let place = after.journal[after.used - 5] as usize;
                after.samples[place] = before.samples[place];
            }
        }),
    },
    Standin {
        name: "proposed_both_mark_3",
        says: "the first sample that is named is marked 3",
        how: Alike(|_, before, after| {
            if after.used > before.used {
                after.marks[after.journal[before.used] as usize] = 3;
            }
        }),
    },
    Standin {
        name: "proposed_both_mark_one_more",
        says: "the sample behind the last one that is named is marked too",
        how: Alike(|_, before, after| {
            if after.used > before.used {
                let behind = after.journal[after.used - 5] as usize + 1;
                after.marks.iter_mut().skip(behind).take(1).for_each(|mark| *mark = PROPOSED);
            }
        }),
    },
    Standin {
        name: "proposed_both_change_when_refused",
        says: "a mark is changed where nothing is named or the proposal is refused",
        how: Alike(|_, before, after| {
            if after.used == before.used {
                after.marks.iter_mut().take(1).for_each(|mark| *mark ^= 1);
            }
        }),
    },
    Standin {
        name: "proposed_both_used_one_more",
        says: "used rises by a word too many where there is one",
        how: Alike(|_, before, after| {
            if after.used > before.used && after.used < after.journal.len() {
                after.used += 1;
            }
        }),
    },
];

/// Words that the original makes.
const OF_PROJECTED: &[Standin] = &[
    library!(
        "proposed_threshold_refused",
        "a word has to be beyond the threshold, and is not taken at it",
        |lent, call| {
            let takes = |x: f32, word, t: f32| answered(x, word, t) && f32::from_bits(word).abs() > t;
            by(lent, call, Rules { beyond: takes, ..RULES })
        }
    ),
    library!("proposed_loudest_refused", "65,536 is not in range", |lent, call| {
        let takes = |x, word, t| answered(x, word, t) && f32::from_bits(word).abs() < 65536.0;
        by(lent, call, Rules { beyond: takes, ..RULES })
    }),
    library!("proposed_quieter_refused", "a word may not be quieter than its sample", |lent, call| {
        let takes = |x: f32, word, t| answered(x, word, t) && f32::from_bits(word).abs() >= x.abs();
        by(lent, call, Rules { beyond: takes, ..RULES })
    }),
    library!("proposed_as_before_refused", "a word may not be that of its sample", |lent, call| {
        let takes = |x: f32, word, t| answered(x, word, t) && word != x.to_bits();
        by(lent, call, Rules { beyond: takes, ..RULES })
    }),
    library!("proposed_zeros_refused", "a zero under the threshold is not taken", |lent, call| {
        by(lent, call, Rules { under: |was, word| was == word && was << 1 != 0, ..RULES })
    }),
];

/// That the rules by hand are right is what makes one of them at a time wrong.
const RIGHT: &[Standin] =
    &[library!("proposed_by_hand", "the rules written by hand once more, and right", |lent, call| {
        by(lent, call, RULES)
    })];

/// What is asked of a proposal, and what is made of one that is taken.
struct Rules {
    allowed: fn(f32) -> bool,
    /// Whether so many words may be proposed for so many samples.
    length: fn(usize, usize) -> bool,
    /// Whether a sample is at or beyond the threshold.
    clipped: fn(f32, f32) -> bool,
    /// Whether a word may stand for a sample under the threshold, told by its word.
    under: fn(u32, u32) -> bool,
    /// Whether one may for a sample that is clipped, at this threshold.
    beyond: fn(f32, u32, f32) -> bool,
    /// Which of the places that break the rule is told; nothing, where the others are taken.
    told: fn(&[usize]) -> Option<usize>,
    /// Whether a sample that is clipped is named, by its word and the proposed one.
    named: fn(u32, u32) -> bool,
    mark: u8,
}

/// What it is to be.
const RULES: Rules = Rules {
    allowed: is_allowed,
    length: |words, n| words == n,
    clipped: |x, threshold| x.abs() >= threshold,
    under: |was, word| was == word,
    beyond: answered,
    told: |places| places.first().copied(),
    named: |_, _| true,
    mark: PROPOSED,
};

/// Whether a word is on the side of a sample that is clipped, at or beyond the threshold.
fn is_on_side(x: f32, word: u32, threshold: f32) -> bool {
    let y = f32::from_bits(word);
    if x >= threshold {
        y >= threshold
    } else {
        y <= -threshold
    }
}

/// Whether it answers it, by the rule.
fn answered(x: f32, word: u32, threshold: f32) -> bool {
    in_range(word) && is_on_side(x, word, threshold)
}

fn other_side(_: f32, word: u32, threshold: f32) -> bool {
    in_range(word) && f32::from_bits(word).abs() >= threshold
}

fn side_alone(x: f32, word: u32, _: f32) -> bool {
    in_range(word) && f32::from_bits(word).is_sign_negative() == x.is_sign_negative()
}

/// A call written by hand, by these rules. Where they allow a proposal that is too short, what is behind it is read.
fn by(lent: &mut Lent, call: Call, rules: Rules) -> u32 {
    let threshold = match call {
        Call::Proposed { threshold } => threshold,
        _ => return lent.call(call),
    };
    let (mut recording, length) = (lent.recording(), lent.proposal.lent().len());
    let first = recording.samples.iter().position(|word| !in_range(*word));
    let answer = match (recording.refused_by_any_call(), first) {
        (Some(number), _) => Answer::Refused(number),
        _ if !(rules.allowed)(threshold) => Answer::Refused(4),
        (_, Some(place)) => Answer::RefusedAt(7, place),
        _ if !(rules.length)(length, recording.samples.len()) => Answer::RefusedAt(15, 0),
        _ => taken(&mut recording, &lent.proposal.whole[GUARDS..], threshold, rules),
    };
    answers(lent, &recording, answer)
}

/// The end of such a call: 15 for a word that breaks the rule, 9, or an acceptance.
fn taken(recording: &mut Recording, proposal: &[u32], threshold: f32, rules: Rules) -> Answer {
    let words: Vec<(usize, u32, u32)> =
        recording.samples.iter().zip(proposal).enumerate().map(|(place, (was, word))| (place, *was, *word)).collect();
    let is_clipped = |was: u32| (rules.clipped)(f32::from_bits(was), threshold);
    let keeps = |was: u32, word: u32| match is_clipped(was) {
        true => (rules.beyond)(f32::from_bits(was), word, threshold),
        false => (rules.under)(was, word),
    };
    let broken: Vec<usize> =
        words.iter().filter(|(_, was, word)| !keeps(*was, *word)).map(|(place, ..)| *place).collect();
    if let (false, Some(place)) = (broken.is_empty(), (rules.told)(&broken)) {
        return Answer::RefusedAt(15, place);
    }
    let is_named = |(place, was, word): &&(usize, u32, u32)| {
        is_clipped(*was) && (rules.named)(*was, *word) && broken.binary_search(place).is_err()
    };
    let named: Vec<(usize, u32)> = words.iter().filter(is_named).map(|(place, _, word)| (*place, *word)).collect();
    commits(recording, rules.mark, &named)
}

/// These samples are named, whether their words are in range or not.
fn commits(recording: &mut Recording, mark: u8, named: &[(usize, u32)]) -> Answer {
    let zeros: Vec<(usize, u32)> = named.iter().map(|(place, _)| (*place, 0)).collect();
    let answer = recording.commit(mark, &zeros);
    for (place, word) in named.iter().filter(|_| answer.number() == 0) {
        recording.samples[*place] = *word;
    }
    answer
}

/// The threshold; for another call one that no sample reaches.
fn threshold(call: Call) -> f32 {
    match call {
        Call::Proposed { threshold } => threshold,
        _ => f32::INFINITY,
    }
}

/// The library makes the call; where it gives this number, this is given instead.
fn on(lent: &mut Lent, call: Call, number: u32, gives: impl FnOnce(&mut Lent) -> u32) -> u32 {
    on_any(lent, call, |lent, given| if given == number { gives(lent) } else { given })
}

/// The library makes the call. Where it refuses, this is given instead.
fn on_any(lent: &mut Lent, call: Call, gives: impl FnOnce(&mut Lent, u32) -> u32) -> u32 {
    match lent.call(call) {
        0 => 0,
        number => gives(lent, number),
    }
}

/// The number, with this value.
fn refuse(lent: &mut Lent, number: u32, value: usize) -> u32 {
    set_value(lent, value);
    number
}

/// Another length is told with this, of the number of words and of samples.
fn on_length(lent: &mut Lent, call: Call, tells: fn(usize, usize) -> usize) -> u32 {
    let (words, n) = (lent.proposal.lent().len(), lent.samples().len());
    on(lent, call, 15, |lent| if words == n { 15 } else { refuse(lent, 15, tells(words, n)) })
}

/// The lowest place at which the proposal, as far as it goes, breaks the rule.
fn first_breach(samples: &[u32], proposal: &[u32], call: Call) -> Option<usize> {
    breaches(samples, proposal, threshold(call)).next().map(|(place, _)| place)
}

/// Likewise, or 0 where it has another length.
fn first_breach_or_length(lent: &Lent, call: Call) -> Option<usize> {
    let (samples, proposal) = (lent.samples(), lent.proposal.lent());
    if samples.len() != proposal.len() {
        return Some(0);
    }
    first_breach(samples, proposal, call)
}

/// Whether samples are at or beyond the threshold, and the journal has no room for them.
fn lacks_room(lent: &Lent, call: Call) -> bool {
    let m = named(lent.samples(), threshold(call)).len();
    m > 0 && lent.journal.lent().len().saturating_sub(lent.used.lent()[0]) < entry_words(m)
}

/// The library makes the call, and then this is done with the entry that it has appended, if it has. The samples are
/// told as they then stand.
fn on_entry(lent: &mut Lent, call: Call, alters: fn(&mut [u32], &[u32])) -> u32 {
    let start = lent.used.lent()[0];
    let number = lent.call(call);
    let (end, samples) = (lent.used.lent()[0], lent.samples().to_vec());
    if end > start {
        alters(&mut lent.journal.lend()[start..end], &samples);
    }
    number
}
