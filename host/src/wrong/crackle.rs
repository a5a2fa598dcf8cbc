//! Stand-ins for the crackle detector: for the library's, for both sides' alike, and for these and the host's flags of
//! the whole recording. Some alter what the library's own leaves; most are a detector written by hand, by rules of
//! which one is wrong. What is wrong in where the floor starts, and in what is held back for that, stands apart.

/// A stand-in for the library's detector, by these rules: its name, and what is wrong with it.
macro_rules! hand {
    ($name:expr, $says:expr, $rules:expr $(,)?) => {
        Standin { name: $name, says: $says, how: Detector(|lent, call| call_by(lent, call, &$rules)) }
    };
}

/// Likewise for both detectors alike.
macro_rules! both {
    ($name:expr, $says:expr, $rules:expr $(,)?) => {
        Standin { name: $name, says: $says, how: Detectors(|areas, call| make_by(areas, call, &$rules)) }
    };
}

/// Likewise for both detectors and for what the host works out over the whole recording.
macro_rules! throughout {
    ($name:expr, $says:expr, $rules:expr $(,)?) => {
        Standin {
            name: $name,
            says: $says,
            how: Throughout(
                |areas, call| make_by(areas, call, &$rules),
                |samples, sensitivity, start| flags_by(samples, sensitivity, start, &$rules),
            ),
        }
    };
}

/// A stand-in that alters what the library leaves. It is told the areas before the call, and the library's answer, and
/// gives another.
macro_rules! after {
    ($name:expr, $says:expr, $alters:expr $(,)?) => {
        Standin { name: $name, says: $says, how: Detector(|lent, call| altered(lent, call, $alters)) }
    };
}

mod by_hand;
mod held;

use super::How::{Detector, Detectors, Throughout};
use super::{Finds, Standin, Table};
use crate::cathar;
use crate::crackle::{Areas, Call, Run, RUN_WORDS, STATE_WORDS};
use crate::lent::crackle::Crackle;
use crate::lent::{GUARDS, VALUE_BEFORE};
use crate::recording::{in_range, MOST_SAMPLES};
use crate::whole::{Start, MEAN_OVER};
use by_hand::{call_by, first, flags_by, floor_after, make_by, more, Rules, RULES};
use std::cell::Cell;
use std::ops::Range;

/// The tests that are to find them.
const CUT: &str = "however_it_is_cut";
const RELEASED: &str = "beside_1024_samples";
const LONGEST: &str = "of_the_most_samples";
const STOPPED: &str = "stopped_and_refused";
const ANNOUNCED: &str = "announced";
const ANY: &str = "on_any_words";

pub(super) const HELD_TABLES: &[Table] = held::TABLES;

pub(super) const TABLES: &[Table] = &[
    Table { file: "crackle", test: CUT, finds: Finds::Always, standins: CARRIED },
    Table { file: "crackle", test: CUT, finds: Finds::Always, standins: FLAGS },
    Table { file: "crackle", test: CUT, finds: Finds::Always, standins: LATE },
    Table { file: "crackle", test: CUT, finds: Finds::Always, standins: ROOM },
    Table { file: "crackle", test: CUT, finds: Finds::Always, standins: ALIKE_CUT },
    Table { file: "crackle", test: CUT, finds: Finds::Always, standins: THROUGHOUT },
    Table { file: "crackle", test: CUT, finds: Finds::Never, standins: RIGHT_CUT },
    Table { file: "crackle", test: LONGEST, finds: Finds::Always, standins: LONG },
    Table { file: "crackle", test: STOPPED, finds: Finds::Always, standins: ORDER },
    Table { file: "crackle", test: STOPPED, finds: Finds::Always, standins: STOPS },
    Table { file: "crackle", test: STOPPED, finds: Finds::Always, standins: LEFT },
    Table { file: "crackle", test: STOPPED, finds: Finds::Always, standins: ALIKE_STOPPED },
    Table { file: "crackle", test: ANNOUNCED, finds: Finds::Always, standins: BEGINS },
    Table { file: "crackle", test: ANNOUNCED, finds: Finds::Always, standins: ALIKE_ANNOUNCED },
    Table { file: "crackle", test: ANY, finds: Finds::Always, standins: WORDS },
    Table { file: "crackle", test: ANY, finds: Finds::Never, standins: RIGHT_ANY },
];

/// What is carried from piece to piece.
const CARRIED: &[Standin] = &[
    hand!("crackle_floor_anew", "the floor starts anew at each piece", FLOOR_ANEW),
    hand!(
        "crackle_floor_anew_if_empty",
        "the floor starts anew at an empty piece",
        Rules { at_piece: |run, n| run.floor = if n == 0 { 1e-6 } else { run.floor }, ..RULES },
    ),
    hand!("crackle_samples_not_carried", "the last two samples are 0 at each piece", NOT_CARRIED),
    hand!("crackle_before_not_carried", "the sample before the last is 0 at each piece", BEFORE_NOT_CARRIED),
    hand!(
        "crackle_last_not_carried",
        "the last sample is 0 at each piece",
        Rules { at_piece: |run, n| run.last = if n > 0 { 0.0 } else { run.last }, ..RULES },
    ),
    hand!(
        "crackle_before_is_last",
        "the last sample stands for the one before it at each piece",
        Rules { at_piece: |run, n| run.before = if n > 0 { run.last } else { run.before }, ..RULES },
    ),
    hand!(
        "crackle_carried_swapped",
        "the last two samples are carried the wrong way round",
        Rules { at_piece: swapped, ..RULES },
    ),
    hand!(
        "crackle_empty_moves_on",
        "an empty piece moves the samples on: the last becomes the one before it",
        Rules { at_piece: |run, n| run.before = if n == 0 { run.last } else { run.before }, ..RULES },
    ),
    hand!(
        "crackle_value_0_at_cut",
        "the detector is 0 at the last sample of each piece",
        Rules { at_cut: Some(|_, _| 0.0), ..RULES },
    ),
    hand!(
        "crackle_value_by_last_at_cut",
        "at the last sample of a piece the one before it counts on both sides",
        Rules { at_cut: Some(|run, _| run.last - 0.5 * (run.before + run.before)), ..RULES },
    ),
    Standin {
        name: "crackle_floor_in_library",
        says: "the library keeps the floor of the last call, and no run has its own",
        how: Detector(floor_in_library),
    },
    after!(
        "crackle_floor_loses_digit",
        "the floor is carried with its last binary digit 0",
        |lent, _, call, answer| {
            if (call, answer) == (Call::Piece, 0) {
                lent.state.lend()[4] &= !1;
            }
            answer
        }
    ),
];

/// Which samples are flagged.
const FLAGS: &[Standin] = &[
    hand!("crackle_floor_not_at_0", "the floor does not move at place 0", FLOOR_NOT_AT_0),
    hand!("crackle_floor_after_flag", "the floor takes a value in after the flag is decided", FLOOR_AFTER_FLAG),
    hand!("crackle_no_least_floor", "the floor is not raised to 1e-6 where it is below that", NO_LEAST_FLOOR),
    hand!("crackle_at_limit", "a sample is flagged also where it is just at the limit", AT_LIMIT),
    hand!(
        "crackle_floor_kept_least",
        "the floor that is carried is raised to 1e-6",
        Rules { floor: |floor, a| floor_after(floor, a).max(1e-6), ..RULES },
    ),
    hand!(
        "crackle_floor_fused",
        "the floor's product and sum are rounded once",
        Rules { floor: |floor, a| (1.0f32 - 0.001).mul_add(floor, a * 0.001), ..RULES },
    ),
    hand!(
        "crackle_floor_by_difference",
        "the floor is floor + (a-floor)*0.001",
        Rules { floor: |floor, a| floor + (a - floor) * 0.001, ..RULES },
    ),
    hand!(
        "crackle_value_in_doubles",
        "the detector's value is worked out in doubles and rounded once",
        Rules { value: |run, x| (f64::from(run.last) - 0.5 * (f64::from(run.before) + f64::from(x))) as f32, ..RULES },
    ),
    hand!(
        "crackle_value_with_sign",
        "only samples above the middle of their neighbours are flagged",
        Rules { magnitude: |value| value.max(0.0), ..RULES },
    ),
    hand!(
        "crackle_value_at_0",
        "the detector is not 0 at place 0: the sample before it counts as 0",
        Rules { first: |run, x| run.last - 0.5 * x, ..RULES },
    ),
    hand!(
        "crackle_value_at_last",
        "the detector is not 0 at the last place: the sample behind it counts as 0",
        Rules { at_end: |run| run.last - 0.5 * run.before, ..RULES },
    ),
    hand!("crackle_under_8_flagged", "a total under 8 has flags too", UNDER_8_FLAGGED),
    hand!("crackle_under_8_by_piece", "a piece of under 8 samples has none, and a total may", UNDER_8_BY_PIECE),
    hand!(
        "crackle_under_8_by_taken",
        "no flag is set before 8 samples are in",
        Rules { may_flag: |run, _| run.total >= 8 && run.taken >= 8, ..RULES },
    ),
    hand!("crackle_under_9", "a total under 9 has no flags", UNDER_9),
    hand!("crackle_under_7", "a total under 7 has no flags", Rules { may_flag: |run, _| run.total >= 7, ..RULES }),
    hand!("crackle_not_held_to_10", "a sensitivity above 10 is not held to 10", NOT_HELD_TO_10),
    hand!(
        "crackle_not_held_to_1",
        "a sensitivity below 1 is not held to 1",
        Rules { held: |sensitivity| sensitivity.min(10.0), ..RULES },
    ),
    after!("crackle_flag_255", "a flag that is set is 255", |lent, _, _, answer| {
        let given = given(lent, answer);
        lent.flags.lend()[..given].iter_mut().for_each(|flag| *flag *= 255);
        answer
    }),
    after!("crackle_flag_inverted", "a flag is 1 where the sample is not flagged", |lent, _, _, answer| {
        let given = given(lent, answer);
        lent.flags.lend()[..given].iter_mut().for_each(|flag| *flag ^= 1);
        answer
    }),
    after!("crackle_flags_reversed", "the flags of a call stand in reverse", |lent, _, _, answer| {
        let given = given(lent, answer);
        lent.flags.lend()[..given].reverse();
        answer
    }),
];

/// When a flag comes.
const LATE: &[Standin] = &[
    hand!("crackle_flag_at_once", "the flag of a piece's last sample is given at once, by the value 0", AT_ONCE),
    hand!("crackle_last_flag_missing", "the end does not give the last flag", LAST_MISSING),
    hand!("crackle_two_last_flags", "the end gives the last flag twice", TWO_LAST),
    hand!(
        "crackle_end_of_none_gives",
        "the end of no samples gives a flag",
        Rules { end_gives: |run, flags| if run.taken > 0 { flags } else { vec![0] }, ..END_OF_NONE_NEEDS_ROOM },
    ),
    hand!(
        "crackle_end_of_one_gives_none",
        "the end of one sample gives no flag",
        Rules {
            end_needs: |run| if run.taken > 1 { run.brought_by_end() } else { 0 },
            end_gives: |run, flags| if run.taken > 1 { flags } else { Vec::new() },
            ..RULES
        },
    ),
    after!("crackle_empty_gives_again", "an empty piece tells of one flag", |lent, before, call, answer| {
        if (call, answer) == (Call::Piece, 0) && before.piece.is_empty() {
            lent.set_value(1);
        }
        answer
    }),
    after!("crackle_value_is_samples", "value is the number of samples of the piece", |lent, before, call, answer| {
        if (call, answer) == (Call::Piece, 0) {
            lent.set_value(before.piece.len());
        }
        answer
    }),
    after!("crackle_value_is_set_flags", "value is the number of flags that are set", |lent, _, _, answer| {
        if answer == 0 && lent.value() != VALUE_BEFORE {
            let set = lent.flags()[..given(lent, answer)].iter().filter(|flag| **flag == 1).count();
            lent.set_value(set);
        }
        answer
    }),
    after!("crackle_value_is_all", "value is the number of all flags so far", |lent, before, call, answer| {
        if (call, answer) == (Call::Piece, 0) {
            let value = lent.value() + (before.state[1] as usize).saturating_sub(1);
            lent.set_value(value);
        }
        answer
    }),
    after!("crackle_answers_flags", "an accepted piece answers how many flags it gave", |lent, _, call, answer| {
        match (call, answer) {
            (Call::Piece, 0) => lent.value() as u32,
            _ => answer,
        }
    }),
];

/// What room is asked for, and what is written in it.
const ROOM: &[Standin] = &[
    hand!("crackle_room_for_each", "the first piece needs room for as many flags as samples", ROOM_FOR_EACH),
    hand!(
        "crackle_room_one_less",
        "the room may be one short",
        Rules { needs: |run, n| run.brought_by(n).saturating_sub(1), ..RULES },
    ),
    hand!(
        "crackle_room_one_more",
        "the room has to be one longer than needed, where a flag comes",
        Rules { needs: |run, n| run.brought_by(n) + usize::from(run.brought_by(n) > 0), ..RULES },
    ),
    hand!(
        "crackle_empty_needs_room",
        "an empty piece needs room for a flag",
        Rules { needs: |run, n| run.brought_by(n).max(1), ..RULES },
    ),
    hand!("crackle_end_needs_no_room", "the end needs no room", Rules { end_needs: |_| 0, ..RULES }),
    hand!("crackle_end_of_none_needs_room", "the end of no samples needs room for a flag", END_OF_NONE_NEEDS_ROOM,),
    after!("crackle_byte_behind_written", "the byte behind the flags becomes 0", |lent, _, call, answer| {
        if call == Call::Piece && answer == 0 {
            let given = given(lent, answer);
            lent.flags.whole[GUARDS + given] = 0;
        }
        answer
    }),
    after!("crackle_behind_cleared", "the room behind the flags becomes 0", |lent, _, call, answer| {
        if call == Call::Piece && answer == 0 {
            let given = given(lent, answer);
            lent.flags.lend()[given..].fill(0);
        }
        answer
    }),
    after!("crackle_end_clears_behind", "the end clears the room behind its flag", |lent, _, call, answer| {
        if call == Call::End && answer == 0 {
            let given = given(lent, answer);
            lent.flags.lend()[given..].fill(0);
        }
        answer
    }),
    after!(
        "crackle_end_writes_last_byte",
        "the last flag stands in the last byte of the room",
        |lent, _, call, answer| {
            if (call, answer) == (Call::End, 0) && lent.value() == 1 {
                let last = lent.flags().len() - 1;
                lent.flags.lend().swap(0, last);
            }
            answer
        }
    ),
    after!("crackle_word_behind_written", "the word behind the 1,032nd becomes 0", |lent, _, _, answer| {
        if answer == 0 {
            lent.state.whole[GUARDS + STATE_WORDS] = 0;
        }
        answer
    }),
    after!("crackle_piece_written", "the first sample of the piece loses its sign", |lent, _, call, answer| {
        if (call, answer) == (Call::Piece, 0) {
            lent.piece.lend().iter_mut().take(1).for_each(|word| *word &= 0x7fff_ffff);
        }
        answer
    }),
];

/// Wrong on both sides, and to be found by the flags of the whole or by what was given before.
const ALIKE_CUT: &[Standin] = &[
    both!("crackle_both_floor_anew", "the floor starts anew at each piece", FLOOR_ANEW),
    both!("crackle_both_samples_not_carried", "the last two samples are 0 at each piece", NOT_CARRIED),
    both!("crackle_both_before_not_carried", "the sample before the last is 0 at each piece", BEFORE_NOT_CARRIED),
    both!("crackle_both_floor_not_at_0", "the floor does not move at place 0", FLOOR_NOT_AT_0),
    both!("crackle_both_floor_after_flag", "the floor takes a value in after the flag is decided", FLOOR_AFTER_FLAG),
    both!("crackle_both_no_least_floor", "the floor is not raised to 1e-6 where it is below that", NO_LEAST_FLOOR),
    both!("crackle_both_at_limit", "a sample is flagged also where it is just at the limit", AT_LIMIT),
    both!("crackle_both_under_8_flagged", "a total under 8 has flags too", UNDER_8_FLAGGED),
    both!("crackle_both_under_8_by_piece", "a piece of under 8 samples has none, and a total may", UNDER_8_BY_PIECE),
    both!("crackle_both_not_held_to_10", "a sensitivity above 10 is not held to 10", NOT_HELD_TO_10),
    both!("crackle_both_flag_at_once", "the flag of a piece's last sample is given at once, by the value 0", AT_ONCE),
    both!("crackle_both_last_flag_missing", "the end does not give the last flag", LAST_MISSING),
    both!("crackle_both_two_last_flags", "the end gives the last flag twice", TWO_LAST),
    both!("crackle_both_room_for_each", "the first piece needs room for as many flags as samples", ROOM_FOR_EACH),
    Standin {
        name: "crackle_both_behind_cleared",
        says: "the room behind the flags becomes 0",
        how: Detectors(|areas, call| {
            let answer = areas.make(call);
            if call == Call::Piece && answer.number() == 0 {
                areas.flags[answer.value()..].fill(0);
            }
            answer
        }),
    },
];

/// Wrong on both sides and over the whole recording, and to be found by what the original rewrites and decrackle names.
const THROUGHOUT: &[Standin] = &[
    throughout!(
        "crackle_all_floor_after_flag",
        "the floor takes a value in after the flag is decided",
        FLOOR_AFTER_FLAG
    ),
    throughout!("crackle_all_floor_not_at_0", "the floor does not move at place 0", FLOOR_NOT_AT_0),
    throughout!("crackle_all_no_least_floor", "the floor is not raised to 1e-6 where it is below that", NO_LEAST_FLOOR),
    throughout!("crackle_all_at_limit", "a sample is flagged also where it is just at the limit", AT_LIMIT),
    throughout!("crackle_all_under_8_flagged", "a total under 8 has flags too", UNDER_8_FLAGGED),
    throughout!("crackle_all_under_9", "a total under 9 has no flags", UNDER_9),
    throughout!("crackle_all_not_held_to_10", "a sensitivity above 10 is not held to 10", NOT_HELD_TO_10),
    throughout!(
        "crackle_all_value_with_sign",
        "only samples above the middle of their neighbours are flagged",
        Rules { magnitude: |value| value.max(0.0), ..RULES },
    ),
];

/// What gives the same: a piece that is cut once more.
const RIGHT_CUT: &[Standin] = &[Standin {
    name: "crackle_sample_by_sample",
    says: "the library is given each piece sample by sample",
    how: Detector(sample_by_sample),
}];

/// What shows only in long runs.
const LONG: &[Standin] = &[
    hand!(
        "crackle_taken_of_16_digits",
        "the samples that are in are counted in 16 binary digits",
        Rules { at_piece: |run, _| run.taken &= 0xffff, ..RULES },
    ),
    hand!(
        "crackle_place_of_16_digits",
        "7 tells 16 binary digits of the place",
        Rules { place: |run, bad| (run.taken as usize + bad[0]) & 0xffff, ..RULES },
    ),
    after!("crackle_value_of_16_digits", "value has 16 binary digits", |lent, _, _, answer| {
        if answer == 0 && lent.value() != VALUE_BEFORE {
            let value = lent.value() & 0xffff;
            lent.set_value(value);
        }
        answer
    }),
];

/// Which refusal is given.
const ORDER: &[Standin] = &[
    hand!("crackle_7_before_6", "7 is tested before 6", SEVEN_BEFORE_6),
    hand!("crackle_6_before_13", "6 is tested before 13", SIX_BEFORE_13),
    hand!(
        "crackle_7_before_13",
        "7 is tested before 13",
        Rules { refused: |not| first(&[(7, not.bad), (13, not.closed || not.more), (6, not.short)]), ..RULES },
    ),
    hand!(
        "crackle_more_after_7",
        "that there are too many samples is tested last",
        Rules { refused: |not| first(&[(13, not.closed), (6, not.short), (7, not.bad), (13, not.more)]), ..RULES },
    ),
    hand!(
        "crackle_end_6_before_13",
        "at the end 6 is tested before 13",
        Rules { end_refused: |not| first(&[(6, not.short), (13, not.closed || not.lacks)]), ..RULES },
    ),
    hand!("crackle_place_in_piece", "7 tells the place in the piece", PLACE_IN_PIECE),
    hand!("crackle_highest_place", "7 tells the highest place", HIGHEST_PLACE),
    hand!(
        "crackle_place_one_late",
        "7 tells the place whose flag would come with the sample",
        Rules { place: |run, bad| (run.taken as usize + bad[0]).saturating_sub(1), ..RULES },
    ),
    hand!(
        "crackle_loudest_refused",
        "a magnitude of 65,536 is not in range",
        Rules { in_range: |word, _| f32::from_bits(word).abs() < 65536.0, ..RULES },
    ),
    hand!(
        "crackle_infinity_allowed",
        "infinities are in range",
        Rules { in_range: |word, _| in_range(word) || f32::from_bits(word).is_infinite(), ..RULES },
    ),
    hand!(
        "crackle_nan_in_range",
        "NaN are in range",
        Rules { in_range: |word, _| in_range(word) || f32::from_bits(word).is_nan(), ..RULES },
    ),
    hand!(
        "crackle_next_above_allowed",
        "all finite samples are in range",
        Rules { in_range: |word, _| f32::from_bits(word).is_finite(), ..RULES },
    ),
    hand!(
        "crackle_under_8_not_tested",
        "7 is not given where the total is under 8, since nothing is flagged",
        Rules { in_range: |word, run| in_range(word) || run.total < 8, ..RULES },
    ),
    hand!("crackle_more_by_one", "one sample more than announced is taken", ONE_MORE),
    hand!(
        "crackle_less_by_one",
        "the last of the announced samples is one too many",
        Rules { over: |run, n| n > 0 && run.taken as usize + n >= run.total as usize, ..RULES },
    ),
    hand!("crackle_end_with_fewer", "an end with too few samples is accepted", END_WITH_FEWER),
    hand!(
        "crackle_end_lacks_one",
        "an end with one sample too few is accepted",
        Rules { lacks: |run| run.taken + 1 < run.total, ..RULES },
    ),
    after!("crackle_gives_11_for_13", "13 is given as 11", |_, _, _, answer| if answer == 13 { 11 } else { answer }),
];

/// What stops a run, and what sees it.
const STOPS: &[Standin] = &[
    hand!("crackle_7_does_not_stop", "a run goes on after 7", SEVEN_DOES_NOT_STOP),
    hand!("crackle_more_does_not_stop", "a run goes on after a piece with too many samples", MORE_DOES_NOT_STOP),
    hand!(
        "crackle_fewer_does_not_stop",
        "a run goes on after an end with too few samples",
        Rules { closes: |call, number| !(call == Call::End && number == 13), ..RULES },
    ),
    hand!("crackle_end_not_seen", "a run goes on after its end", END_NOT_SEEN),
    hand!("crackle_6_stops", "6 stops the run", Rules { six_closes: |call| call == Call::Piece, ..RULES }),
    hand!("crackle_end_6_ends", "an end that is refused by 6 ends the run", END_6_ENDS),
    hand!("crackle_empty_after_stop", "an empty piece is accepted whether the run is over or not", EMPTY_AFTER_STOP),
    hand!(
        "crackle_end_after_stop",
        "an end is accepted, whether the run is over or not, where all samples are in",
        Rules { end_refused: |not| first(&[(13, not.lacks), (6, not.short)]), ..RULES },
    ),
    hand!(
        "crackle_piece_after_stop",
        "a piece that fits is accepted, whether the run is over or not",
        Rules { refused: |not| first(&[(13, not.more), (6, not.short), (7, not.bad)]), ..RULES },
    ),
    after!("crackle_6_takes_in", "6 takes the piece in", |lent, before, call, answer| {
        if (call, answer) == (Call::Piece, 6) {
            lent.state.lend().copy_from_slice(&good_part(before).state);
        }
        answer
    }),
    after!("crackle_7_takes_in_before", "7 takes in the samples before the place", |lent, before, _, answer| {
        if answer == 7 {
            let good = good_part(before);
            lent.state.lend()[1] += good.piece.len() as u32;
        }
        answer
    }),
    after!(
        "crackle_more_takes_in_rest",
        "a piece with too many samples fills the run up",
        |lent, before, call, answer| {
            if (call, answer) == (Call::Piece, 13) && before.state[2] == 1 {
                lent.state.lend()[1] = before.state[0];
            }
            answer
        }
    ),
    after!("crackle_end_counts_on", "an accepted end leaves one sample more in", |lent, _, call, answer| {
        if (call, answer) == (Call::End, 0) {
            lent.state.lend()[1] += 1;
        }
        answer
    }),
    after!("crackle_end_moves_floor", "an accepted end leaves the floor moved on", |lent, before, call, answer| {
        if (call, answer) == (Call::End, 0) && before.state[1] > 0 {
            let floor = floor_after(f32::from_bits(before.state[4]), 0.0);
            lent.state.lend()[4] = floor.to_bits();
        }
        answer
    }),
    after!("crackle_stop_clears", "a stop clears the run", |lent, _, _, answer| {
        if matches!(answer, 13 | 7) {
            lent.state.lend()[..RUN_WORDS].fill(0);
        }
        answer
    }),
];

/// What a refusal leaves, and what it hands back.
const LEFT: &[Standin] = &[
    after!("crackle_7_writes_flags", "7 leaves the flags before the place in the room", |lent, before, _, answer| {
        if answer == 7 {
            let flags = good_part(before).flags;
            lent.flags.lend().iter_mut().zip(flags).for_each(|(flag, of)| *flag = of);
        }
        answer
    }),
    after!("crackle_7_clears_room", "7 clears the room", |lent, _, _, answer| {
        if answer == 7 {
            lent.flags.lend().fill(0);
        }
        answer
    }),
    after!("crackle_6_writes_flags", "6 leaves as many flags as there is room for", |lent, before, call, answer| {
        if (call, answer) == (Call::Piece, 6) {
            let flags = good_part(before).flags;
            lent.flags.lend().iter_mut().zip(flags).for_each(|(flag, of)| *flag = of);
        }
        answer
    }),
    after!("crackle_13_clears_room", "13 clears the room", |lent, _, _, answer| {
        if answer == 13 {
            lent.flags.lend().fill(0);
        }
        answer
    }),
    after!("crackle_end_13_writes_flag", "an end that is refused by 13 writes a flag", |lent, _, call, answer| {
        if (call, answer) == (Call::End, 13) {
            lent.flags.lend().iter_mut().take(1).for_each(|flag| *flag = 0);
        }
        answer
    }),
    after!("crackle_value_needed", "6 tells how much room is needed", |lent, before, call, answer| {
        if (call, answer) == (Call::Piece, 6) {
            lent.set_value(before.piece.len());
        }
        answer
    }),
    after!("crackle_6_keeps_value", "6 does not write the value", |lent, _, call, answer| {
        forget(lent, call, answer, 6)
    }),
    after!("crackle_13_keeps_value", "13 does not write the value", |lent, _, call, answer| {
        forget(lent, call, answer, 13)
    }),
    after!("crackle_7_keeps_value", "7 does not write the value", |lent, _, call, answer| {
        forget(lent, call, answer, 7)
    }),
    after!("crackle_13_tells_place", "13 tells how many samples are in", |lent, before, call, answer| {
        if (call, answer) == (Call::Piece, 13) {
            lent.set_value(before.state[1] as usize);
        }
        answer
    }),
    after!("crackle_begin_writes_refused", "an announcement that is refused stops the run", |lent, _, call, answer| {
        if matches!(call, Call::Begin { .. }) && matches!(answer, 2 | 4) {
            lent.state.lend()[2] = 0;
        }
        answer
    }),
    after!(
        "crackle_begin_needs_end",
        "an announcement on an open run is refused by 13",
        |lent, before, call, answer| {
            if matches!(call, Call::Begin { .. }) && before.state.get(2) == Some(&1) {
                lent.put(before);
                return 13;
            }
            answer
        }
    ),
    after!(
        "crackle_begin_keeps_taken",
        "an announcement leaves how many samples are in",
        |lent, before, call, answer| {
            if matches!(call, Call::Begin { .. }) && answer == 0 {
                lent.state.lend()[1] = before.state[1];
            }
            answer
        }
    ),
];

/// Wrong on both sides, and to be found by what was given before.
const ALIKE_STOPPED: &[Standin] = &[
    both!("crackle_both_7_before_6", "7 is tested before 6", SEVEN_BEFORE_6),
    both!("crackle_both_6_before_13", "6 is tested before 13", SIX_BEFORE_13),
    both!("crackle_both_place_in_piece", "7 tells the place in the piece", PLACE_IN_PIECE),
    both!("crackle_both_highest_place", "7 tells the highest place", HIGHEST_PLACE),
    both!("crackle_both_more_by_one", "one sample more than announced is taken", ONE_MORE),
    both!("crackle_both_end_with_fewer", "an end with too few samples is accepted", END_WITH_FEWER),
    both!("crackle_both_7_does_not_stop", "a run goes on after 7", SEVEN_DOES_NOT_STOP),
    both!("crackle_both_more_does_not_stop", "a run goes on after a piece with too many samples", MORE_DOES_NOT_STOP),
    both!("crackle_both_end_not_seen", "a run goes on after its end", END_NOT_SEEN),
    both!("crackle_both_end_6_ends", "an end that is refused by 6 ends the run", END_6_ENDS),
    both!("crackle_both_empty_after_stop", "an empty piece is accepted, the run over or not", EMPTY_AFTER_STOP),
    Standin {
        name: "crackle_both_6_takes_in",
        says: "6 takes the piece in",
        how: Detectors(|areas, call| {
            let before = areas.clone();
            let answer = areas.make(call);
            if call == Call::Piece && answer.number() == 6 {
                areas.state = good_part(&before).state;
            }
            answer
        }),
    },
    Standin {
        name: "crackle_both_refused_writes",
        says: "a refusal clears the room",
        how: Detectors(|areas, call| {
            let answer = areas.make(call);
            if answer.number() != 0 {
                areas.flags.fill(0);
            }
            answer
        }),
    },
];

/// What an announcement makes, and how many words a state has.
const BEGINS: &[Standin] = &[
    hand!("crackle_4_before_2", "4 is tested before 2", FOUR_BEFORE_2),
    hand!("crackle_2_at_most", "2 is given for 1,048,576 samples already", Rules { most: MOST_SAMPLES - 1, ..RULES }),
    hand!("crackle_2_one_more", "2 is not given for 1,048,577 samples", Rules { most: MOST_SAMPLES + 1, ..RULES }),
    hand!(
        "crackle_total_of_32_digits",
        "of the total 32 binary digits are read",
        Rules { total: |total| total as u32 as usize, ..RULES },
    ),
    hand!(
        "crackle_nan_allowed",
        "a sensitivity that is a NaN is taken as 1",
        Rules { held: |x| if x.is_nan() { 1.0 } else { x.clamp(1.0, 10.0) }, no_setting: |_| false, ..RULES },
    ),
    hand!(
        "crackle_infinity_refused",
        "a sensitivity that is infinite is refused by 4",
        Rules { no_setting: |sensitivity| !sensitivity.is_finite(), ..RULES },
    ),
    hand!(
        "crackle_sensitivity_not_held",
        "a sensitivity that is not within 1..10 is refused by 4",
        Rules { no_setting: |sensitivity| !(1.0..=10.0).contains(&sensitivity), ..RULES },
    ),
    hand!(
        "crackle_held_to_0",
        "the sensitivity is held to 0..10",
        Rules { held: |sensitivity| sensitivity.clamp(0.0, 10.0), ..RULES },
    ),
    hand!("crackle_state_of_1031", "a state of 1,031 words is enough", Rules { words: |_| 1_031, ..RULES }),
    hand!("crackle_state_of_1033", "a state has to have 1,033 words", Rules { words: |_| 1_033, ..RULES }),
    hand!("crackle_state_after_2", "of an announcement 2 and 4 are tested before the state's length", STATE_AFTER_2),
    after!("crackle_short_state_4", "a state that is too short is refused by 4", |lent, _, _, answer| {
        match answer {
            6 if lent.state().len() < STATE_WORDS => 4,
            _ => answer,
        }
    }),
    after!(
        "crackle_short_state_13",
        "a piece on a state that is too short is refused by 13",
        |lent, _, call, answer| {
            match (call, answer) {
                (Call::Piece, 6) if lent.state().len() < STATE_WORDS => 13,
                _ => answer,
            }
        }
    ),
    after!("crackle_short_state_written", "a state that is too short is cleared", |lent, _, _, answer| {
        if lent.state().len() < STATE_WORDS {
            lent.state.lend().fill(0);
        }
        answer
    }),
    after!("crackle_short_state_keeps_value", "with too short a state no value is written", |lent, _, call, answer| {
        if lent.state().len() < STATE_WORDS {
            return forget(lent, call, answer, 6);
        }
        answer
    }),
    after!("crackle_begin_keeps_floor", "an announcement leaves the floor", |lent, before, call, answer| {
        keeps_word(lent, before, call, answer, 4)
    }),
    after!("crackle_begin_keeps_factor", "an announcement leaves the factor", |lent, before, call, answer| {
        keeps_word(lent, before, call, answer, 3)
    }),
    after!("crackle_begin_keeps_last", "an announcement leaves the last sample", |lent, before, call, answer| {
        keeps_word(lent, before, call, answer, 6)
    }),
    after!("crackle_begin_keeps_eighth", "an announcement leaves the eighth word", |lent, before, call, answer| {
        keeps_word(lent, before, call, answer, 7)
    }),
    after!("crackle_begin_writes_value", "an announcement writes a value", |lent, _, call, answer| {
        if matches!(call, Call::Begin { .. }) {
            lent.set_value(0);
        }
        answer
    }),
    after!("crackle_begin_floor_0", "the floor starts at 0", |lent, _, call, answer| {
        if matches!(call, Call::Begin { .. }) && answer == 0 {
            lent.state.lend()[4] = 0;
        }
        answer
    }),
];

/// Wrong on both sides, and to be found by what an announcement has to answer and to leave.
const ALIKE_ANNOUNCED: &[Standin] = &[
    both!("crackle_both_4_before_2", "4 is tested before 2", FOUR_BEFORE_2),
    both!(
        "crackle_both_2_at_most",
        "2 is given for 1,048,576 samples already",
        Rules { most: MOST_SAMPLES - 1, ..RULES }
    ),
    both!("crackle_both_state_after_2", "2 and 4 are tested before the state's length", STATE_AFTER_2),
    Standin {
        name: "crackle_both_begin_writes_refused",
        says: "an announcement that is refused stops the run",
        how: Detectors(|areas, call| {
            let answer = areas.make(call);
            if matches!(call, Call::Begin { .. }) && matches!(answer.number(), 2 | 4) {
                areas.state[2] = 0;
            }
            answer
        }),
    },
];

/// What shows only on words that no call leaves.
const WORDS: &[Standin] = &[
    hand!(
        "crackle_goes_on_unless_0",
        "a run goes on where the third word is not 0",
        Rules { goes_on: |word| word != 0, ..RULES }
    ),
    hand!(
        "crackle_goes_on_by_digit",
        "a run goes on where the third word's last binary digit is 1",
        Rules { goes_on: |word| word & 1 == 1, ..RULES }
    ),
    hand!(
        "crackle_goes_on_by_byte",
        "of the third word the first byte is read",
        Rules { goes_on: |word| word & 0xff == 1, ..RULES }
    ),
    hand!(
        "crackle_sum_of_32_digits",
        "what is in and the piece are summed in 32 binary digits",
        Rules { over: |run, n| run.taken.wrapping_add(n as u32) > run.total, ..RULES },
    ),
    hand!(
        "crackle_rest_of_32_digits",
        "how many samples are left is worked out in 32 binary digits, and wraps",
        Rules { over: |run, n| n > run.total.wrapping_sub(run.taken) as usize, ..RULES },
    ),
    hand!(
        "crackle_empty_never_too_many",
        "an empty piece is never too many",
        Rules { over: |run, n| n > 0 && run.taken as usize + n > run.total as usize, ..RULES },
    ),
    hand!(
        "crackle_end_past_total",
        "an end is accepted where more are in than announced",
        Rules { lacks: |run| run.taken < run.total, ..RULES },
    ),
    hand!(
        "crackle_total_limited",
        "a piece is refused by 13 where the total is above 1,048,576",
        Rules { over: |run, n| more(run, n) || run.total as usize > MOST_SAMPLES, ..RULES },
    ),
    hand!(
        "crackle_nan_floor_wins",
        "a floor that is a NaN is not lost to 1e-6: nothing is flagged",
        Rules { limit: |_, floor| if floor.is_nan() { floor } else { floor.max(1e-6) }, ..RULES },
    ),
    hand!(
        "crackle_ends_never_flagged",
        "the first and the last place are not flagged, whatever the factor",
        Rules { ends_flagged: false, ..RULES },
    ),
    hand!(
        "crackle_first_by_word",
        "whether a sample is in is told by the words of the samples",
        Rules { is_first: |run| run.taken == 0 && run.last.to_bits() == 0, ..RULES },
    ),
    after!("crackle_nan_kept", "a NaN in the state is written back as it was", |lent, before, call, answer| {
        if call == Call::End || answer != 0 {
            restore_nan(lent, before, 3..7);
        }
        answer
    }),
    after!(
        "crackle_nan_factor_kept",
        "a factor that is a NaN is written back as it was",
        |lent, before, call, answer| {
            if !matches!(call, Call::Begin { .. }) {
                restore_nan(lent, before, 3..4);
            }
            answer
        }
    ),
    after!("crackle_nan_negative", "the floor's NaN is written as FFC00000", |lent, _, call, answer| {
        if call == Call::Piece && answer == 0 && f32::from_bits(lent.state()[4]).is_nan() {
            lent.state.lend()[4] = 0xffc0_0000;
        }
        answer
    }),
    after!("crackle_6_quiets_nan", "6 writes a NaN of the state as 7FC00000", |lent, _, call, answer| {
        if call == Call::Piece && answer == 6 {
            lent.state.lend()[3..7]
                .iter_mut()
                .filter(|word| f32::from_bits(**word).is_nan())
                .for_each(|word| *word = 0x7fc0_0000);
        }
        answer
    }),
    after!("crackle_6_clears_eighth", "6 clears the eighth word", |lent, _, call, answer| {
        if call == Call::Piece && answer == 6 {
            lent.state.lend()[7] = 0;
        }
        answer
    }),
    after!(
        "crackle_end_6_clears_eighth",
        "an end that is refused by 6 clears the eighth word",
        |lent, _, call, answer| {
            if (call, answer) == (Call::End, 6) {
                lent.state.lend()[7] = 0;
            }
            answer
        }
    ),
    after!("crackle_eighth_kept", "an accepted piece leaves the eighth word", |lent, before, call, answer| {
        if (call, answer) == (Call::Piece, 0) {
            lent.state.lend()[7] = before.state[7];
        }
        answer
    }),
    after!("crackle_eighth_kept_by_stop", "a stop leaves the eighth word", |lent, before, _, answer| {
        if matches!(answer, 13 | 7) {
            lent.state.lend()[7] = before.state[7];
        }
        answer
    }),
    after!("crackle_third_kept_by_13", "13 leaves the third word", |lent, before, _, answer| {
        if answer == 13 {
            lent.state.lend()[2] = before.state[2];
        }
        answer
    }),
    after!("crackle_empty_leaves_words", "an empty piece leaves every word as it was", |lent, before, call, answer| {
        if (call, answer) == (Call::Piece, 0) && before.piece.is_empty() {
            lent.put(&Areas { flags: lent.flags().to_vec(), ..before.clone() });
        }
        answer
    }),
    after!("crackle_place_of_31_digits", "7 tells 31 binary digits of the place", |lent, _, _, answer| {
        if answer == 7 {
            let value = lent.value() & 0x7fff_ffff;
            lent.set_value(value);
        }
        answer
    }),
];

/// What gives the same on every word.
const RIGHT_ANY: &[Standin] = &[
    hand!("crackle_by_hand", "the detector written by hand, by rules that are right", RULES),
    hand!(
        "crackle_sum_reversed",
        "the neighbours are summed in the other order",
        Rules { value: |run, x| run.last - 0.5 * (x + run.before), ..RULES },
    ),
];

const FLOOR_ANEW: Rules = Rules { at_piece: |run, _| run.floor = 1e-6, ..RULES };
const NOT_CARRIED: Rules = Rules { at_piece: forgotten, ..RULES };
const BEFORE_NOT_CARRIED: Rules =
    Rules { at_piece: |run, n| run.before = if n > 0 { 0.0 } else { run.before }, ..RULES };
const FLOOR_NOT_AT_0: Rules = Rules { floor_at_0: false, ..RULES };
const FLOOR_AFTER_FLAG: Rules = Rules { limit: |floor, _| floor.max(1e-6), ..RULES };
const NO_LEAST_FLOOR: Rules = Rules { limit: |_, floor| floor, ..RULES };
const AT_LIMIT: Rules = Rules { stands_out: |a, limit| a >= limit, ..RULES };
const UNDER_8_FLAGGED: Rules = Rules { may_flag: |_, _| true, ..RULES };
const UNDER_9: Rules = Rules { may_flag: |run, _| run.total >= 9, ..RULES };
const UNDER_8_BY_PIECE: Rules = Rules { may_flag: |_, n| n >= 8, ..RULES };
const NOT_HELD_TO_10: Rules = Rules { held: |sensitivity| sensitivity.max(1.0), ..RULES };
const AT_ONCE: Rules = Rules {
    at_once: true,
    needs: |run, n| if run.start == Start::Old { n } else { run.brought_by(n) },
    end_needs: |run| if run.start == Start::Old { 0 } else { run.brought_by_end() },
    end_gives: |run, flags| if run.start == Start::Old { Vec::new() } else { flags },
    ..RULES
};
const LAST_MISSING: Rules =
    Rules { end_gives: |_, flags| flags.split_last().map_or(&[][..], |(_, all)| all).to_vec(), ..RULES };
const TWO_LAST: Rules = Rules { end_gives: |_, flags| flags.iter().chain(flags.last()).copied().collect(), ..RULES };
const END_OF_NONE_NEEDS_ROOM: Rules = Rules { end_needs: |run| run.brought_by_end().max(1), ..RULES };
const ROOM_FOR_EACH: Rules = Rules { needs: |run, n| run.brought_by(n).max(n), ..RULES };
const SEVEN_BEFORE_6: Rules =
    Rules { refused: |not| first(&[(13, not.closed || not.more), (7, not.bad), (6, not.short)]), ..RULES };
const SIX_BEFORE_13: Rules =
    Rules { refused: |not| first(&[(6, not.short), (13, not.closed || not.more), (7, not.bad)]), ..RULES };
const PLACE_IN_PIECE: Rules = Rules { place: |_, bad| bad[0], ..RULES };
const HIGHEST_PLACE: Rules = Rules { place: |run, bad| run.taken as usize + bad[bad.len() - 1], ..RULES };
const ONE_MORE: Rules = Rules { over: |run, n| run.taken as usize + n > run.total as usize + 1, ..RULES };
const END_WITH_FEWER: Rules = Rules { lacks: |_| false, ..RULES };
const SEVEN_DOES_NOT_STOP: Rules = Rules { closes: |_, number| number != 7, ..RULES };
const MORE_DOES_NOT_STOP: Rules = Rules { closes: |call, number| !(call == Call::Piece && number == 13), ..RULES };
const END_NOT_SEEN: Rules = Rules { closes: |_, number| number != 0, ..RULES };
const END_6_ENDS: Rules = Rules { six_closes: |call| call == Call::End, ..RULES };
const EMPTY_AFTER_STOP: Rules = Rules {
    refused: |not| first(&[(13, (not.closed || not.more) && !not.empty), (6, not.short), (7, not.bad)]),
    ..RULES
};
const FOUR_BEFORE_2: Rules = Rules { announced: |over, setting| first(&[(4, setting), (2, over)]), ..RULES };
const STATE_AFTER_2: Rules = Rules { words_first: false, ..RULES };

/// Before a piece that is not empty the last two samples change places.
fn swapped(run: &mut Run, n: usize) {
    if n > 0 {
        (run.before, run.last) = (run.last, run.before);
    }
}

/// Before a piece that is not empty both are 0.
fn forgotten(run: &mut Run, n: usize) {
    if n > 0 {
        (run.before, run.last) = (0.0, 0.0);
    }
}

/// The library makes the call; then its work is altered, with the areas before it and the answer told.
fn altered(lent: &mut Crackle, call: Call, alters: fn(&mut Crackle, &Areas, Call, u32) -> u32) -> u32 {
    let before = lent.areas();
    let answer = lent.call(call);
    alters(lent, &before, call, answer)
}

/// How many flags the last call gave.
fn given(lent: &Crackle, answer: u32) -> usize {
    if answer == 0 && lent.value() != VALUE_BEFORE {
        lent.value()
    } else {
        0
    }
}

/// The value is not written where this is the answer. An announcement has none.
fn forget(lent: &mut Crackle, call: Call, answer: u32, number: u32) -> u32 {
    if answer == number && !matches!(call, Call::Begin { .. }) {
        lent.set_value(VALUE_BEFORE);
    }
    answer
}

/// An accepted announcement leaves this word as it was.
fn keeps_word(lent: &mut Crackle, before: &Areas, call: Call, answer: u32, word: usize) -> u32 {
    if matches!(call, Call::Begin { .. }) && answer == 0 {
        lent.state.lend()[word] = before.state[word];
    }
    answer
}

/// Those of these words that were NaN are as they were.
fn restore_nan(lent: &mut Crackle, before: &Areas, words: Range<usize>) {
    for word in words.filter(|word| f32::from_bits(before.state[*word]).is_nan()) {
        lent.state.lend()[word] = before.state[word];
    }
}

/// The samples of the piece before the first that is not in range, the state with them in, and the flags that they
/// give.
fn good_part(before: &Areas) -> Areas {
    let mut areas = before.clone();
    areas.piece = before.piece.iter().copied().take_while(|word| in_range(*word)).collect();
    areas.flags = vec![0; areas.piece.len() + MEAN_OVER];
    let given = areas.make(Call::Piece).value();
    areas.flags.truncate(given);
    areas
}

thread_local! {
    /// The floor of the last call, whichever run it was made on.
    static FLOOR: Cell<u32> = Cell::new(0);
}

fn floor_in_library(lent: &mut Crackle, call: Call) -> u32 {
    if !matches!(call, Call::Begin { .. }) {
        lent.state.lend()[4] = FLOOR.with(Cell::get);
    }
    let answer = lent.call(call);
    FLOOR.with(|floor| floor.set(lent.state()[4]));
    answer
}

fn sample_by_sample(lent: &mut Crackle, call: Call) -> u32 {
    let before = lent.areas();
    let answer = lent.call(call);
    if (call, answer) != (Call::Piece, 0) || before.piece.is_empty() {
        return answer;
    }
    let (mut state, mut flags) = (before.state, Vec::new());
    for sample in before.piece {
        let (mut room, mut value) = ([0; MEAN_OVER], 0);
        cathar::crackle_piece(&mut state, &[sample], &mut room, &mut value);
        flags.extend(room.into_iter().take(value));
    }
    lent.state.lend().copy_from_slice(&state);
    lent.flags.lend().iter_mut().zip(flags).for_each(|(flag, of)| *flag = of);
    answer
}
