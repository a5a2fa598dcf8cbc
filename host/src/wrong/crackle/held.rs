//! Stand-ins for the crackle detector that are wrong in where its floor starts, in which flags are held back for that
//! and until when, and in the values that a state keeps meanwhile.
use super::by_hand::{call_by, flags_by, make_by, Rules, RULES};
use super::{altered, given, good_part, ANNOUNCED, ANY, CUT, LONGEST, RELEASED, STOPPED};
use crate::crackle::{given as given_when, word, Areas, Call, Run, RUN_WORDS, STATE_WORDS};
use crate::lent::crackle::Crackle;
use crate::whole::{Start, MEAN_OVER};
use crate::wrong::opening;
use crate::wrong::How::{Detector, Detectors, Throughout};
use crate::wrong::{Finds, Standin, Table};

/// The stand-ins that one of the tests has to find.
const fn table(test: &'static str, standins: &'static [Standin]) -> Table {
    Table { file: "crackle", test, finds: Finds::Always, standins }
}

pub(in crate::wrong) const TABLES: &[Table] = &[
    table(CUT, OPENING),
    table(CUT, OPENING_ALIKE),
    table(CUT, OPENING_THROUGHOUT),
    table(CUT, HELD),
    table(CUT, HELD_ALIKE),
    table(RELEASED, RELEASES),
    table(RELEASED, RELEASES_ALIKE),
    table(RELEASED, RELEASES_THROUGHOUT),
    table(LONGEST, LONG),
    table(STOPPED, REFUSED),
    table(STOPPED, REFUSED_ALIKE),
    table(ANNOUNCED, BEGINS),
    table(ANNOUNCED, BEGINS_ALIKE),
    table(ANY, WORDS),
    Table { file: "crackle", test: CUT, finds: Finds::Never, standins: RIGHT },
];

/// The rules with a floor that starts from another number than the mean.
macro_rules! from {
    ($opening:expr) => {
        Rules { opening: $opening, ..RULES }
    };
}

/// What the floor starts from.
const OPENING: &[Standin] = &[
    hand!("crackle_mean_is_least", "the floor starts at 1e-6 when the flags are given", from!(opening::least)),
    hand!(
        "crackle_mean_divided_at_each_step",
        "each magnitude is divided, and then they are summed",
        from!(opening::divided_at_each_step),
    ),
    hand!("crackle_mean_carried", "the mean is carried from magnitude to magnitude", from!(opening::carried)),
    hand!("crackle_mean_by_reciprocal", "the sum is multiplied by 1/n, rounded", from!(opening::by_reciprocal)),
    hand!("crackle_mean_by_1024", "the sum is divided by 1,024 also where there are fewer", from!(opening::by_1024)),
    hand!("crackle_mean_by_one_less", "the sum is divided by one less than are summed", from!(opening::by_one_less)),
    hand!("crackle_mean_by_one_more", "the sum is divided by one more than are summed", from!(opening::by_one_more)),
    hand!("crackle_mean_in_doubles", "the mean is worked out in doubles and rounded once", from!(opening::in_doubles)),
    hand!("crackle_mean_sum_in_doubles", "the sum is worked out in doubles", from!(opening::sum_in_doubles)),
    hand!("crackle_mean_from_last", "the magnitudes are summed from the last on", from!(opening::from_last)),
    hand!(
        "crackle_mean_in_four_sums",
        "every fourth magnitude is summed, and then the sums",
        from!(opening::in_four_sums),
    ),
    hand!("crackle_mean_of_values", "the mean is of the values with their signs", from!(opening::of_values)),
    hand!(
        "crackle_mean_magnitude",
        "the magnitude of the mean of the values is taken",
        from!(opening::magnitude_of_mean),
    ),
    hand!("crackle_mean_not_raised", "the mean is not raised to 1e-6", from!(opening::not_raised)),
    hand!("crackle_mean_raised_from_0", "the mean is raised to 1e-6 only where it is 0", from!(opening::raised_from_0)),
    hand!("crackle_mean_added", "1e-6 is added to the mean", from!(opening::added)),
    hand!("crackle_mean_each_raised", "each magnitude is raised, and not the mean", from!(opening::each_raised)),
    hand!("crackle_mean_from_least", "the sum starts at 1e-6", from!(opening::from_least)),
    hand!("crackle_mean_of_squares", "the root of the mean of the squares is taken", from!(opening::of_squares)),
    hand!("crackle_mean_largest", "the largest magnitude is taken", from!(opening::largest)),
    hand!("crackle_mean_middle", "the middle one of the magnitudes is taken", from!(opening::middle)),
    hand!("crackle_mean_running", "the floor that runs over the magnitudes is taken", from!(opening::running)),
];

/// Wrong on both sides, and to be found by the flags of the whole.
const OPENING_ALIKE: &[Standin] = &[
    both!("crackle_both_mean_is_least", "the floor starts at 1e-6 when the flags are given", from!(opening::least)),
    both!(
        "crackle_both_mean_divided_at_each_step",
        "each magnitude is divided, and then they are summed",
        from!(opening::divided_at_each_step),
    ),
    both!("crackle_both_mean_by_1024", "the sum is divided by 1,024, also of fewer", from!(opening::by_1024)),
    both!("crackle_both_mean_in_doubles", "the mean is worked out in doubles", from!(opening::in_doubles)),
    both!("crackle_both_mean_of_values", "the mean is of the values with their signs", from!(opening::of_values)),
    both!("crackle_both_mean_not_raised", "the mean is not raised to 1e-6", from!(opening::not_raised)),
];

/// Wrong on both sides and over the whole recording, and to be found by what decrackle names.
const OPENING_THROUGHOUT: &[Standin] = &[
    throughout!("crackle_all_mean_is_least", "the floor starts at 1e-6", from!(opening::least)),
    throughout!(
        "crackle_all_mean_divided_at_each_step",
        "each magnitude is divided, and then they are summed",
        from!(opening::divided_at_each_step),
    ),
    throughout!("crackle_all_mean_by_1024", "the sum is divided by 1,024, also of fewer", from!(opening::by_1024)),
    throughout!("crackle_all_mean_in_doubles", "the mean is worked out in doubles", from!(opening::in_doubles)),
    throughout!("crackle_all_mean_from_last", "the magnitudes are summed from the last on", from!(opening::from_last)),
    throughout!("crackle_all_mean_of_values", "the mean is of the values with their signs", from!(opening::of_values)),
    throughout!("crackle_all_mean_not_raised", "the mean is not raised to 1e-6", from!(opening::not_raised)),
];

/// What is held back, and what is kept of it meanwhile.
const HELD: &[Standin] = &[
    hand!("crackle_not_held", "from the mean flags come one sample late, by a floor from 1e-6", NOT_HELD),
    hand!(
        "crackle_held_where_more_come",
        "flags are held back only where more than 1,024 samples are announced",
        HELD_WHERE_MORE_COME,
    ),
    hand!("crackle_old_start_held", "from the old start flags are held back too", OLD_START_HELD),
    hand!("crackle_held_needs_room", "a piece whose flags are held back needs room for them", HELD_NEEDS_ROOM),
    hand!("crackle_end_gives_last_only", "the end gives only the flag of the last sample", END_GIVES_LAST_ONLY),
    hand!("crackle_end_needs_one", "the end needs room for one flag alone", Rules { end_needs: at_most_one, ..RULES }),
    hand!(
        "crackle_end_needs_1024",
        "the end needs room for 1,024 flags where any are held back",
        Rules { end_needs: |run| if run.holds_back() { MEAN_OVER } else { run.brought_by_end() }, ..RULES },
    ),
    hand!("crackle_end_does_not_write", "the end does not write the last value", Rules { end_writes: false, ..RULES }),
    hand!("crackle_old_start_writes", "from the old start values are written too", OLD_START_WRITES),
    hand!(
        "crackle_held_magnitude",
        "for a value that is held back its magnitude is written",
        Rules { written: |value| word(value.abs()), ..RULES },
    ),
    hand!(
        "crackle_held_other_sign",
        "a value that is held back is written with the other sign",
        Rules { written: |value| word(-value), ..RULES },
    ),
    hand!(
        "crackle_held_without_digit",
        "a value that is held back is written with its last binary digit 0",
        Rules { written: |value| word(value) & !1, ..RULES },
    ),
    hand!(
        "crackle_floor_moves_in_hold",
        "the floor moves while flags are held back",
        Rules { moves_in_hold: true, ..RULES },
    ),
    after!("crackle_end_clears_held", "an accepted end clears the values", |lent, _, call, answer| {
        if (call, answer) == (Call::End, 0) {
            lent.state.lend()[RUN_WORDS..STATE_WORDS].fill(0);
        }
        answer
    }),
    after!(
        "crackle_end_leaves_floor",
        "the floor after an end is that of its last flag",
        |lent, before, call, answer| {
            if (call, answer) == (Call::End, 0) && run_of(before).holds_back() && before.state[1] > 0 {
                let values = lent.state()[RUN_WORDS..RUN_WORDS + before.state[1] as usize].iter();
                let magnitudes = values.map(|word| f32::from_bits(*word).abs());
                let opening = opening::right(&magnitudes.clone().collect::<Vec<f32>>());
                lent.state.lend()[4] = word(magnitudes.fold(opening, super::floor_after));
            }
            answer
        }
    ),
    after!("crackle_empty_writes_value", "an empty piece writes a value too", |lent, before, call, answer| {
        let taken = before.state.get(1).map_or(0, |taken| *taken as usize);
        if (call, answer) == (Call::Piece, 0) && before.piece.is_empty() && taken > 0 && taken <= MEAN_OVER {
            lent.state.lend()[RUN_WORDS + taken - 1] = 0;
        }
        answer
    }),
    hand!(
        "crackle_held_again",
        "flags are held back again after 2,048 samples",
        Rules { holds: |run| run.start == Start::Mean && run.taken as usize % (2 * MEAN_OVER) <= MEAN_OVER, ..RULES },
    ),
];

/// Wrong on both sides, and to be found by what was given before and by what a call may write.
const HELD_ALIKE: &[Standin] = &[
    both!("crackle_both_not_held", "from the mean flags come one sample late, by a floor from 1e-6", NOT_HELD),
    both!(
        "crackle_both_held_where_more_come",
        "flags are held back only where more than 1,024 samples are announced",
        HELD_WHERE_MORE_COME,
    ),
    both!("crackle_both_old_start_held", "from the old start flags are held back too", OLD_START_HELD),
    both!("crackle_both_held_needs_room", "a piece whose flags are held back needs room for them", HELD_NEEDS_ROOM),
    both!("crackle_both_end_gives_last_only", "the end gives only the flag of the last sample", END_GIVES_LAST_ONLY),
    both!("crackle_both_old_start_writes", "from the old start values are written too", OLD_START_WRITES),
];

/// When the flags that are held back are given, and what is then left.
const RELEASES: &[Standin] = &[
    hand!("crackle_mean_of_1023", "flags are held back until 1,023 values are in, and the mean is of these", OF_1023),
    hand!("crackle_mean_of_1025", "flags are held back until 1,025 values are in, and the mean is of these", OF_1025),
    hand!(
        "crackle_released_late",
        "flags are held back until 1,025 values are in, and the mean is of the first 1,024",
        RELEASED_LATE,
    ),
    hand!(
        "crackle_floor_left_as_opened",
        "the floor that is left is the mean",
        Rules { left: |mean, _| mean, ..RULES }
    ),
    hand!("crackle_floor_left_least", "the floor that is left is 1e-6", Rules { left: |_, _| 1e-6, ..RULES }),
    hand!(
        "crackle_floor_kept_least_held",
        "the floor that is left is raised to 1e-6",
        Rules { left: |_, floor| floor.max(1e-6), ..RULES },
    ),
    hand!(
        "crackle_release_needs_each",
        "the room that a piece needs is never more than its samples",
        RELEASE_NEEDS_EACH
    ),
    hand!(
        "crackle_release_needs_more",
        "where flags were held back a piece needs room for 1,024 beside its own",
        Rules { needs: |run, n| if releases(run, n) { n + MEAN_OVER } else { run.brought_by(n) }, ..RULES },
    ),
    hand!(
        "crackle_writes_on",
        "values are written on when the flags are given",
        Rules { writes: |run| run.start == Start::Mean && run.taken as usize <= MEAN_OVER + 1, ..RULES },
    ),
    after!(
        "crackle_writes_round",
        "values are written on from the first place when the flags are given",
        |lent, before, call, answer| {
            let run = run_of(before);
            if (call, answer) == (Call::Piece, 0) && run.start == Start::Mean && run.taken as usize > MEAN_OVER {
                lent.state.lend()[RUN_WORDS + (run.taken as usize - 1) % MEAN_OVER] = 0x3f80_0000;
            }
            answer
        }
    ),
    after!(
        "crackle_release_loses_held",
        "the flags that were held back are not given",
        |lent, before, call, answer| {
            released(lent, before, call, answer, |flags, n| flags[flags.len() - n..].to_vec())
        }
    ),
    after!(
        "crackle_release_gives_held_only",
        "only those that were held back are given",
        |lent, before, call, answer| { released(lent, before, call, answer, |flags, _| flags[..MEAN_OVER].to_vec()) }
    ),
    after!("crackle_release_turned_round", "those that were held back come last", |lent, before, call, answer| {
        released(lent, before, call, answer, |flags, _| [&flags[MEAN_OVER..], &flags[..MEAN_OVER]].concat())
    }),
    after!("crackle_release_misses_last", "the flag of the 1,024th is 0", |lent, before, call, answer| {
        released(lent, before, call, answer, |flags, _| {
            let mut flags = flags.to_vec();
            flags[MEAN_OVER - 1] = 0;
            flags
        })
    }),
    after!(
        "crackle_release_clears_held",
        "the values are cleared when the flags are given",
        |lent, before, call, answer| {
            if is_release(before, call, answer) {
                lent.state.lend()[RUN_WORDS..STATE_WORDS].fill(0);
            }
            answer
        }
    ),
    after!(
        "crackle_release_sets_old",
        "the start is the old one when the flags are given",
        |lent, before, call, answer| {
            if is_release(before, call, answer) {
                lent.state.lend()[7] = 0;
            }
            answer
        }
    ),
    after!("crackle_6_releases", "6 gives what flags there is room for", |lent, before, call, answer| {
        if (call, answer) == (Call::Piece, 6) && releases(&run_of(before), before.piece.len()) {
            let flags = good_part(before).flags;
            lent.flags.lend().iter_mut().zip(flags).for_each(|(flag, of)| *flag = of);
        }
        answer
    }),
    after!("crackle_6_writes_values", "6 leaves the values of the piece written", |lent, before, call, answer| {
        if (call, answer) == (Call::Piece, 6) {
            writes_values(lent, before);
        }
        answer
    }),
    after!("crackle_6_loses_value", "6 loses the last value that is held back", |lent, before, call, answer| {
        if (call, answer) == (Call::Piece, 6) {
            loses_value(lent, before);
        }
        answer
    }),
];

/// Wrong on both sides, and to be found by the flags of the whole or by what was given before.
const RELEASES_ALIKE: &[Standin] = &[
    both!("crackle_both_mean_of_1023", "flags are held back until 1,023 values are in", OF_1023),
    both!("crackle_both_released_late", "flags are held back until 1,025 values are in", RELEASED_LATE),
    both!("crackle_both_floor_left_as_opened", "the floor that is left is the mean", FLOOR_LEFT_AS_OPENED),
    both!("crackle_both_release_needs_each", "a piece never needs more room than its samples", RELEASE_NEEDS_EACH),
    Standin {
        name: "crackle_both_6_loses_value",
        says: "6 loses the last value that is held back",
        how: Detectors(|areas, call| {
            let before = areas.clone();
            let answer = areas.make(call);
            if let (Call::Piece, 6, Some(place)) = (call, answer.number(), last_held(&before)) {
                areas.state[RUN_WORDS + place] = 0;
            }
            answer
        }),
    },
    Standin {
        name: "crackle_both_release_clears_held",
        says: "the values are cleared when the flags are given",
        how: Detectors(|areas, call| {
            let before = areas.clone();
            let answer = areas.make(call);
            if is_release(&before, call, answer.number()) {
                areas.state[RUN_WORDS..STATE_WORDS].fill(0);
            }
            answer
        }),
    },
];

/// Wrong on both sides and over the whole recording, and to be found by what decrackle names.
const RELEASES_THROUGHOUT: &[Standin] = &[
    throughout!("crackle_all_mean_of_1023", "the mean is of the first 1,023 magnitudes", MEAN_OF_1023),
    throughout!(
        "crackle_all_floor_left_as_opened",
        "the floor does not move over the first 1,024",
        FLOOR_LEFT_AS_OPENED
    ),
];

/// What shows only in long runs.
const LONG: &[Standin] = &[hand!(
    "crackle_held_by_16_digits",
    "flags are held back where the last 16 binary digits of what is in are 1,024 or less",
    Rules { holds: |run| run.start == Start::Mean && (run.taken & 0xffff) as usize <= MEAN_OVER, ..RULES },
)];

/// What a refusal leaves of what is held back.
const REFUSED: &[Standin] = &[
    after!("crackle_7_writes_values", "7 leaves the values before the place written", |lent, before, _, answer| {
        if answer == 7 {
            writes_values(lent, before);
        }
        answer
    }),
    after!("crackle_7_releases", "7 leaves the flags before the place in the room", |lent, before, _, answer| {
        if answer == 7 && releases(&run_of(before), good_part(before).piece.len()) {
            let flags = good_part(before).flags;
            lent.flags.lend().iter_mut().zip(flags).for_each(|(flag, of)| *flag = of);
        }
        answer
    }),
    after!("crackle_7_clears_held", "7 clears the values", |lent, _, _, answer| {
        if answer == 7 {
            lent.state.lend()[RUN_WORDS..STATE_WORDS].fill(0);
        }
        answer
    }),
    after!("crackle_13_clears_held", "13 clears the values", |lent, _, _, answer| {
        if answer == 13 {
            lent.state.lend()[RUN_WORDS..STATE_WORDS].fill(0);
        }
        answer
    }),
    after!("crackle_13_loses_value", "13 loses the last value that is held back", |lent, before, _, answer| {
        if answer == 13 {
            loses_value(lent, before);
        }
        answer
    }),
    after!(
        "crackle_13_gives_held",
        "an end that is refused by 13 gives what is held back",
        |lent, before, call, answer| {
            if (call, answer) == (Call::End, 13) && run_of(before).holds_back() {
                let known = before.state[1] as usize;
                lent.flags.lend().iter_mut().take(known).for_each(|flag| *flag = 0);
            }
            answer
        }
    ),
    after!(
        "crackle_end_6_writes_value",
        "an end that is refused by 6 writes the last value",
        |lent, before, call, answer| {
            if let (Call::End, 6, Some(place)) = (call, answer, last_held(before)) {
                lent.state.lend()[RUN_WORDS + place] = 0;
            }
            answer
        }
    ),
    after!("crackle_stop_sets_old", "a stop sets the old start", |lent, _, _, answer| {
        if matches!(answer, 13 | 7) {
            lent.state.lend()[7] = 0;
        }
        answer
    }),
];

/// Wrong on both sides, and to be found by what a refusal may leave.
const REFUSED_ALIKE: &[Standin] = &[
    Standin {
        name: "crackle_both_stop_clears_held",
        says: "a stop clears the values",
        how: Detectors(|areas, call| {
            let answer = areas.make(call);
            if matches!(answer.number(), 13 | 7) {
                areas.state[RUN_WORDS..STATE_WORDS].fill(0);
            }
            answer
        }),
    },
    Standin {
        name: "crackle_both_7_writes_values",
        says: "7 leaves the values before the place written",
        how: Detectors(|areas, call| {
            let good = good_part(areas);
            let answer = areas.make(call);
            if answer.number() == 7 {
                areas.state[RUN_WORDS..].copy_from_slice(&good.state[RUN_WORDS..]);
            }
            answer
        }),
    },
];

/// What an announcement makes of the start, and how many words a state has.
const BEGINS: &[Standin] = &[
    hand!("crackle_begin_is_old", "an announcement takes the old start, whichever is told", BEGIN_IS_OLD),
    hand!("crackle_begin_is_mean", "an announcement takes the new start, whichever is told", BEGIN_IS_MEAN),
    hand!("crackle_begin_swapped", "an announcement takes the other start than is told", BEGIN_SWAPPED),
    hand!("crackle_state_of_8", "a state of 8 words is enough", Rules { words: |_| RUN_WORDS, ..RULES }),
    hand!("crackle_state_of_8_for_old", "for the old start a state of 8 words is enough", STATE_OF_8_FOR_OLD),
    hand!("crackle_state_of_1024", "a state of 1,024 words is enough", Rules { words: |_| MEAN_OVER, ..RULES },),
    after!("crackle_begin_clears_held", "an announcement clears the values", |lent, _, call, answer| {
        if is_begun(call, answer) {
            lent.state.lend()[RUN_WORDS..STATE_WORDS].fill(0);
        }
        answer
    }),
    after!("crackle_begin_writes_ninth", "an announcement writes the ninth word", |lent, _, call, answer| {
        if is_begun(call, answer) {
            lent.state.lend()[RUN_WORDS] = 0;
        }
        answer
    }),
    after!("crackle_begin_old_keeps_eighth", "of the old start the eighth word stays", |lent, before, call, answer| {
        if is_begun(call, answer) && matches!(call, Call::Begin { start: Start::Old, .. }) {
            lent.state.lend()[7] = before.state[7];
        }
        answer
    }),
    after!("crackle_begin_mean_floor_0", "from the mean the floor is 0 at first", |lent, _, call, answer| {
        if is_begun(call, answer) && matches!(call, Call::Begin { start: Start::Mean, .. }) {
            lent.state.lend()[4] = 0;
        }
        answer
    }),
    after!(
        "crackle_begin_mean_refused",
        "with the new start a total under 1,024 is refused by 4",
        |lent, before, call, answer| {
            match call {
                Call::Begin { total, start: Start::Mean, .. } if answer == 0 && total < MEAN_OVER => {
                    lent.put(before);
                    4
                }
                _ => answer,
            }
        }
    ),
];

/// Wrong on both sides, and to be found by what was announced.
const BEGINS_ALIKE: &[Standin] = &[
    both!("crackle_both_begin_is_old", "an announcement takes the old start, whichever is told", BEGIN_IS_OLD),
    both!("crackle_both_begin_is_mean", "an announcement takes the new start, whichever is told", BEGIN_IS_MEAN),
    both!("crackle_both_begin_swapped", "an announcement takes the other start than is told", BEGIN_SWAPPED),
    both!("crackle_both_state_of_8_for_old", "for the old start 8 words are enough", STATE_OF_8_FOR_OLD),
    Standin {
        name: "crackle_both_begin_clears_held",
        says: "an announcement clears the values",
        how: Detectors(|areas, call| {
            let answer = areas.make(call);
            if is_begun(call, answer.number()) {
                areas.state[RUN_WORDS..STATE_WORDS].fill(0);
            }
            answer
        }),
    },
];

/// What shows only on words that no call leaves.
const WORDS: &[Standin] = &[
    hand!(
        "crackle_start_unless_0",
        "the start is the new one where the eighth word is not 0",
        Rules { start: |word| if word != 0 { Start::Mean } else { Start::Old }, ..RULES },
    ),
    hand!(
        "crackle_start_by_digit",
        "the start is the new one where the eighth word's last binary digit is 1",
        Rules { start: |word| if word & 1 == 1 { Start::Mean } else { Start::Old }, ..RULES },
    ),
    hand!(
        "crackle_start_by_byte",
        "of the eighth word the first byte is read",
        Rules { start: |word| if word & 0xff == 1 { Start::Mean } else { Start::Old }, ..RULES },
    ),
    hand!(
        "crackle_mean_nan_wins",
        "a mean that is a NaN is not lost to 1e-6",
        from!(|values| match opening::not_raised(values) {
            mean if mean.is_nan() => mean,
            mean => mean.max(1e-6),
        }),
    ),
    hand!(
        "crackle_mean_finite",
        "a mean that is infinite is taken as the largest number",
        from!(|values| opening::right(values).min(f32::MAX)),
    ),
    hand!(
        "crackle_mean_skips_nan",
        "values that are NaN are not summed",
        from!(|values| {
            let known: Vec<f32> = values.iter().map(|x| if x.is_nan() { 0.0 } else { *x }).collect();
            opening::right(&known)
        })
    ),
    hand!(
        "crackle_held_place_0_is_0",
        "the value at place 0 is taken as 0, whatever its word",
        from!(|values| opening::without_place_0(values)),
    ),
    hand!(
        "crackle_held_nan_negative",
        "a value that is a NaN is written as FFC00000",
        Rules { written: |value| if value.is_nan() { 0xffc0_0000 } else { word(value) }, ..RULES },
    ),
    hand!(
        "crackle_total_limits_hold",
        "flags are held back only as long as samples are still to come",
        Rules { holds: |run| run.holds_back() && run.taken < run.total, ..RULES },
    ),
    after!("crackle_stop_quiets_held", "a stop writes the values that are NaN as 7FC00000", |lent, _, _, answer| {
        if matches!(answer, 13 | 7) {
            quiet(&mut lent.state.lend()[RUN_WORDS..STATE_WORDS]);
        }
        answer
    }),
    after!(
        "crackle_piece_quiets_held",
        "a piece writes the values that are NaN as 7FC00000",
        |lent, _, call, answer| {
            if (call, answer) == (Call::Piece, 0) {
                quiet(&mut lent.state.lend()[RUN_WORDS..STATE_WORDS]);
            }
            answer
        }
    ),
    after!("crackle_6_quiets_held", "6 writes the values that are NaN as 7FC00000", |lent, _, call, answer| {
        if (call, answer) == (Call::Piece, 6) {
            quiet(&mut lent.state.lend()[RUN_WORDS..STATE_WORDS]);
        }
        answer
    }),
];

/// What gives the same, on what calls leave.
const RIGHT: &[Standin] = &[hand!(
    "crackle_mean_without_place_0",
    "place 0 is not summed, where the detector is 0",
    from!(opening::without_place_0),
)];

const NOT_HELD: Rules =
    Rules { holds: |_| false, writes: |_| false, needs: as_old, end_needs: |run| usize::from(run.taken > 0), ..RULES };
const HELD_WHERE_MORE_COME: Rules = Rules {
    holds: |run| run.holds_back() && run.total as usize > MEAN_OVER,
    needs: |run, n| if run.total as usize > MEAN_OVER { run.brought_by(n) } else { as_old(run, n) },
    end_needs: |run| if run.total as usize > MEAN_OVER { run.brought_by_end() } else { at_most_one(run) },
    ..RULES
};
const OLD_START_HELD: Rules = Rules {
    holds: |run| run.taken as usize <= MEAN_OVER,
    writes: |run| run.taken as usize <= MEAN_OVER,
    needs: |run, n| Run { start: Start::Mean, ..*run }.brought_by(n),
    end_needs: |run| Run { start: Start::Mean, ..*run }.brought_by_end(),
    opening: opening::least,
    ..RULES
};
const HELD_NEEDS_ROOM: Rules = Rules { needs: |run, n| run.brought_by(n).max(as_old(run, n)), ..RULES };
const END_GIVES_LAST_ONLY: Rules =
    Rules { end_needs: at_most_one, end_gives: |_, flags| flags.last().copied().into_iter().collect(), ..RULES };
const OLD_START_WRITES: Rules = Rules { writes: |run| run.taken as usize <= MEAN_OVER, ..RULES };
const OF_1023: Rules = Rules {
    holds: |run| holds_for(run, MEAN_OVER - 1),
    writes: |run| holds_for(run, MEAN_OVER - 1),
    releases: |known| known == MEAN_OVER - 1,
    needs: |run, n| needs_for(run, n, MEAN_OVER - 1),
    end_needs: |run| end_needs_for(run, MEAN_OVER - 1),
    ..RULES
};
const OF_1025: Rules = Rules {
    holds: |run| holds_for(run, MEAN_OVER + 1),
    writes: |run| holds_for(run, MEAN_OVER + 1),
    releases: |known| known == MEAN_OVER + 1,
    needs: |run, n| needs_for(run, n, MEAN_OVER + 1),
    end_needs: |run| end_needs_for(run, MEAN_OVER + 1),
    opening: opening::of_all,
    ..RULES
};
const RELEASED_LATE: Rules = Rules { opening: opening::right, ..OF_1025 };
const FLOOR_LEFT_AS_OPENED: Rules = Rules { left: |mean, _| mean, ..RULES };
const RELEASE_NEEDS_EACH: Rules = Rules { needs: |run, n| run.brought_by(n).min(n), ..RULES };
const MEAN_OF_1023: Rules = Rules { opening: opening::of_1023, ..RULES };
const BEGIN_IS_OLD: Rules = Rules { begins: |_| Start::Old, ..RULES };
const BEGIN_IS_MEAN: Rules = Rules { begins: |_| Start::Mean, ..RULES };
const BEGIN_SWAPPED: Rules =
    Rules { begins: |start| if start == Start::Mean { Start::Old } else { Start::Mean }, ..RULES };
const STATE_OF_8_FOR_OLD: Rules =
    Rules { words: |start| if start == Start::Mean { STATE_WORDS } else { RUN_WORDS }, ..RULES };

/// How many flags so many samples bring where none is held back.
fn as_old(run: &Run, n: usize) -> usize {
    Run { start: Start::Old, ..*run }.brought_by(n)
}

fn at_most_one(run: &Run) -> usize {
    run.brought_by_end().min(1)
}

/// Whether the flag of the last sample is held back, where flags are until so many values are in; and what room a piece
/// and the end then need.
fn holds_for(run: &Run, values: usize) -> bool {
    run.start == Start::Mean && run.taken as usize <= values
}

fn given_for(run: &Run, samples: usize, values: usize) -> usize {
    match run.start {
        Start::Mean if samples <= values => 0,
        _ => given_when(Start::Old, samples),
    }
}

fn needs_for(run: &Run, n: usize, values: usize) -> usize {
    let taken = run.taken as usize;
    given_for(run, taken + n, values) - given_for(run, taken, values)
}

fn end_needs_for(run: &Run, values: usize) -> usize {
    run.taken as usize - given_for(run, run.taken as usize, values)
}

/// The run of these areas; where their state is short, one of nothing.
fn run_of(areas: &Areas) -> Run {
    let words: Vec<u32> = areas.state.iter().copied().chain([0; RUN_WORDS]).take(RUN_WORDS).collect();
    Run::read(&words)
}

/// Whether so many samples bring flags that were held back.
fn releases(run: &Run, n: usize) -> bool {
    run.brought_by(n) > n
}

/// Whether a piece that was answered so gave flags that were held back.
fn is_release(before: &Areas, call: Call, answer: u32) -> bool {
    (call, answer) == (Call::Piece, 0) && releases(&run_of(before), before.piece.len())
}

/// Whether it is an accepted announcement.
fn is_begun(call: Call, answer: u32) -> bool {
    matches!(call, Call::Begin { .. }) && answer == 0
}

/// The place of the last sample, where its flag is held back.
fn last_held(before: &Areas) -> Option<usize> {
    let run = run_of(before);
    (before.state.len() >= STATE_WORDS && run.holds_back()).then_some(run.taken as usize)?.checked_sub(1)
}

/// Where a piece gave flags that were held back, it gives others, of these and the number of its samples. The room
/// behind them is as it was.
fn released(lent: &mut Crackle, before: &Areas, call: Call, answer: u32, gives: fn(&[u8], usize) -> Vec<u8>) -> u32 {
    if is_release(before, call, answer) {
        let flags = gives(&lent.flags()[..given(lent, answer)], before.piece.len());
        lent.flags.lend().copy_from_slice(&before.flags);
        lent.flags.lend()[..flags.len()].copy_from_slice(&flags);
        lent.set_value(flags.len());
    }
    answer
}

/// The values of the samples before the first that is not in range are written, as far as they would be held back.
fn writes_values(lent: &mut Crackle, before: &Areas) {
    if before.state.len() >= STATE_WORDS {
        let good = good_part(before).state;
        lent.state.lend()[RUN_WORDS..].copy_from_slice(&good[RUN_WORDS..]);
    }
}

/// The value of the place before the last sample's becomes 0, where it is held back.
fn loses_value(lent: &mut Crackle, before: &Areas) {
    if let Some(place) = last_held(before).and_then(|place| place.checked_sub(1)) {
        lent.state.lend()[RUN_WORDS + place] = 0x7fc0_0000;
    }
}

/// Each of these words that is a NaN becomes 7FC00000.
fn quiet(words: &mut [u32]) {
    words.iter_mut().filter(|word| f32::from_bits(**word).is_nan()).for_each(|word| *word = 0x7fc0_0000);
}
