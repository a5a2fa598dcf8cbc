//! Stand-ins for the reader of frames. Some alter what the library's own leaves; most are a reader written by hand, by
//! rules of which one is wrong.
use super::recording::quiet;
use super::How::{Reader, Readers};
use super::{Finds, Standin, Table};
use crate::frames::{Read, Rooms, FRAME_BYTES, FRAME_WORDS};
use crate::lent::frames::Frames;
use crate::lent::{GUARDS, VALUE_BEFORE};
use crate::recording::MOST_SAMPLES;

pub(super) const TABLES: &[Table] = &[
    Table { file: "frames", test: "reads", finds: Finds::Always, standins: ORDER },
    Table { file: "frames", test: "reads", finds: Finds::Always, standins: MADE },
    Table { file: "frames", test: "reads", finds: Finds::Always, standins: FIGURES },
    Table { file: "frames", test: "reads", finds: Finds::Always, standins: REFUSALS },
    Table { file: "frames", test: "reads", finds: Finds::Always, standins: LEFT },
    Table { file: "frames", test: "reads", finds: Finds::Always, standins: ALIKE },
    Table { file: "frames", test: "reads", finds: Finds::Never, standins: RIGHT },
];

/// Which frames are taken, and how many are missing.
const ORDER: &[Standin] = &[
    Standin {
        name: "frames_1000_ahead_dropped",
        says: "a frame 1000 ahead is dropped",
        how: Reader(|lent| read_by(lent, Rules { missing: |ahead| up_to(999, ahead), ..RULES })),
    },
    Standin {
        name: "frames_1001_ahead_filled",
        says: "a frame 1001 ahead is filled",
        how: Reader(|lent| read_by(lent, Rules { missing: |ahead| up_to(1001, ahead), ..RULES })),
    },
    Standin {
        name: "frames_1001_ahead_taken",
        says: "a frame that is more than 1000 ahead, and less than 32,768, is taken without filling",
        how: Reader(|lent| {
            let missing = |ahead| if (1001..32_768).contains(&ahead) { Some(0) } else { up_to(1000, ahead) };
            read_by(lent, Rules { missing, ..RULES })
        }),
    },
    Standin {
        name: "frames_one_too_few_missing",
        says: "of the missing frames one too few is filled",
        how: Reader(|lent| {
            read_by(lent, Rules { missing: |ahead| up_to(1000, ahead).map(|m| m.saturating_sub(1)), ..RULES })
        }),
    },
    Standin {
        name: "frames_missing_not_filled",
        says: "missing frames are not filled",
        how: Reader(|lent| read_by(lent, Rules { missing: |ahead| up_to(1000, ahead).map(|_| 0), ..RULES })),
    },
    Standin {
        name: "frames_repeat_taken",
        says: "a repeat is taken again",
        how: Reader(|lent| read_by(lent, REPEATS)),
    },
    Standin {
        name: "frames_late_filled",
        says: "a frame that is late by up to 1000 counts as that far ahead",
        how: Reader(|lent| read_by(lent, Rules { missing: |ahead| up_to(1000, ahead.min(65_536 - ahead)), ..RULES })),
    },
    Standin {
        name: "frames_late_taken",
        says: "a frame that is neither next nor ahead is taken where it comes",
        how: Reader(|lent| read_by(lent, Rules { missing: |ahead| up_to(1000, ahead).or(Some(0)), ..RULES })),
    },
    Standin {
        name: "frames_late_in_place_of_last",
        says: "the words of a dropped frame take the place of the last ones",
        how: Reader(|lent| read_by(lent, Rules { dropped: in_place_of_last, ..RULES })),
    },
    Standin {
        name: "frames_expects_after_dropped",
        says: "after a dropped frame the number behind it is expected",
        how: Reader(|lent| read_by(lent, Rules { after_dropped: |_, number| number.wrapping_add(1), ..RULES })),
    },
    Standin {
        name: "frames_expects_dropped",
        says: "after a dropped frame its number is expected",
        how: Reader(|lent| read_by(lent, Rules { after_dropped: |_, number| number, ..RULES })),
    },
    Standin {
        name: "frames_dropped_moves_on",
        says: "the expectation moves on by one after a dropped frame",
        how: Reader(|lent| read_by(lent, Rules { after_dropped: |expected, _| expected.wrapping_add(1), ..RULES })),
    },
    Standin {
        name: "frames_far_begins_anew",
        says: "a frame that is dropped and is not late by up to 1000 sets the expectation anew",
        how: Reader(|lent| read_by(lent, Rules { after_dropped: far_begins_anew, ..RULES })),
    },
    Standin {
        name: "frames_expects_taken",
        says: "after a frame that is taken its own number is expected",
        how: Reader(|lent| read_by(lent, Rules { after_taken: |_, number| number, ..RULES })),
    },
    Standin {
        name: "frames_missing_do_not_move",
        says: "the expectation moves on by one after a frame that is taken, however many are missing",
        how: Reader(|lent| read_by(lent, Rules { after_taken: |expected, _| expected.wrapping_add(1), ..RULES })),
    },
    Standin {
        name: "frames_first_expects_0",
        says: "the first frame does not set the expectation: 0 is expected",
        how: Reader(|lent| read_by(lent, FIRST_EXPECTS_0)),
    },
    Standin {
        name: "frames_first_one_ahead",
        says: "the first frame is 1 ahead",
        how: Reader(|lent| read_by(lent, Rules { first: |number| number.wrapping_sub(1), ..RULES })),
    },
    Standin {
        name: "frames_first_taken_before_0",
        says: "a first frame of number 65535 is dropped",
        how: Reader(|lent| read_by(lent, Rules { first: |number| if number == 65_535 { 0 } else { number }, ..RULES })),
    },
    Standin {
        name: "frames_number_swapped",
        says: "the sequence number's bytes are swapped",
        how: Reader(|lent| read_by(lent, NUMBER_SWAPPED)),
    },
    Standin {
        name: "frames_number_of_one_byte",
        says: "of the sequence number the first byte is read",
        how: Reader(|lent| read_by(lent, Rules { number: |bytes| bytes[0].into(), ..RULES })),
    },
    Standin {
        name: "frames_number_of_15_digits",
        says: "of the sequence number the highest binary digit is not read",
        how: Reader(|lent| read_by(lent, Rules { number: |bytes| u16::from_le_bytes(bytes) & 0x7fff, ..RULES })),
    },
    Standin {
        name: "frames_wraps_at_65535",
        says: "after 65534 comes 0",
        how: Reader(|lent| {
            let after_taken = |_, number: u16| if number >= 65_534 { 0 } else { number + 1 };
            read_by(lent, Rules { after_taken, ..RULES })
        }),
    },
    Standin {
        name: "frames_does_not_go_round",
        says: "after 65535 comes 65535",
        how: Reader(|lent| read_by(lent, Rules { after_taken: |_, number| number.saturating_add(1), ..RULES })),
    },
    Standin {
        name: "frames_ahead_by_65535",
        says: "the distance goes round at 65,535 instead of 65,536",
        how: Reader(|lent| {
            let ahead = |number: u16, expected: u16| (65_535 + u32::from(number) - u32::from(expected)) % 65_535;
            read_by(lent, Rules { ahead, ..RULES })
        }),
    },
    Standin {
        name: "frames_no_loss_across_wrap",
        says: "a number below the expected one is late, also across the wrap",
        how: Reader(|lent| {
            let ahead = |number: u16, expected: u16| number.checked_sub(expected).map_or(65_535, u32::from);
            read_by(lent, Rules { ahead, ..RULES })
        }),
    },
    Standin {
        name: "frames_repeat_across_wrap_taken",
        says: "65535 is taken where 0 is expected",
        how: Reader(|lent| {
            let ahead = |number, expected| if (number, expected) == (65_535, 0) { 0 } else { ahead(number, expected) };
            read_by(lent, Rules { ahead, ..RULES })
        }),
    },
    Standin {
        name: "frames_late_taken_across_wrap",
        says: "what is late across the wrap is taken, without filling",
        how: Reader(|lent| {
            let ahead = |number, expected| match ahead(number, expected) {
                60_000.. if number > expected => 0,
                ahead => ahead,
            };
            read_by(lent, Rules { ahead, ..RULES })
        }),
    },
];

/// The samples and marks that they make.
const MADE: &[Standin] = &[
    Standin {
        name: "frames_missing_behind",
        says: "the missing samples stand behind the frame",
        how: Reader(|lent| read_by(lent, MISSING_BEHIND)),
    },
    Standin {
        name: "frames_missing_of_one_sample",
        says: "a missing frame is one sample",
        how: Reader(|lent| {
            read_by(
                lent,
                Rules { taken: |made, missing, own| joined(made, &missing[missing.len() / 16 * 15..], own), ..RULES },
            )
        }),
    },
    Standin {
        name: "frames_missing_word_signalling",
        says: "a missing sample is 7F800001",
        how: Reader(|lent| read_by(lent, Rules { filled: (0x7f80_0001, 6), ..RULES })),
    },
    Standin {
        name: "frames_missing_word_payload",
        says: "a missing sample is 7FC00001",
        how: Reader(|lent| read_by(lent, Rules { filled: (0x7fc0_0001, 6), ..RULES })),
    },
    Standin {
        name: "frames_missing_word_negative",
        says: "a missing sample is FFC00000",
        how: Reader(|lent| read_by(lent, Rules { filled: (0xffc0_0000, 6), ..RULES })),
    },
    Standin {
        name: "frames_missing_word_0",
        says: "a missing sample is 0",
        how: Reader(|lent| read_by(lent, MISSING_WORD_0)),
    },
    Standin {
        name: "frames_missing_marked_0",
        says: "a missing sample is marked 0",
        how: Reader(|lent| read_by(lent, MISSING_MARKED_0)),
    },
    Standin {
        name: "frames_missing_marked_1",
        says: "a missing sample is marked 1",
        how: Reader(|lent| read_by(lent, Rules { filled: (0x7fc0_0000, 1), ..RULES })),
    },
    Standin {
        name: "frames_behind_missing_marked_6",
        says: "the samples of a frame behind missing ones are marked 6 too",
        how: Reader(|lent| read_by(lent, Rules { taken: behind_missing_marked_6, ..RULES })),
    },
    Standin {
        name: "frames_words_from_highest",
        says: "the words are read highest byte first",
        how: Reader(|lent| read_by(lent, WORDS_FROM_HIGHEST)),
    },
    Standin {
        name: "frames_words_halves_swapped",
        says: "the halves of the words are swapped",
        how: Reader(|lent| read_by(lent, Rules { word: |bytes| u32::from_le_bytes(bytes).rotate_left(16), ..RULES })),
    },
    Standin {
        name: "frames_words_reversed",
        says: "the words of a frame stand in reverse",
        how: Reader(|lent| read_by(lent, Rules { taken: words_reversed, ..RULES })),
    },
    Standin {
        name: "frames_nan_quieted",
        says: "a word is written by way of a float: a signalling NaN becomes quiet",
        how: Reader(|lent| read_by(lent, NAN_QUIETED)),
    },
    Standin {
        name: "frames_nan_one",
        says: "every NaN that was measured becomes 7FC00000",
        how: Reader(|lent| {
            let becomes = |word| if f32::from_bits(word).is_nan() { 0x7fc0_0000 } else { word };
            read_by(lent, Rules { becomes, ..RULES })
        }),
    },
    Standin {
        name: "frames_infinity_held",
        says: "an infinity that was measured becomes the largest float",
        how: Reader(|lent| {
            let becomes = |word| if f32::from_bits(word).is_infinite() { word - 1 } else { word };
            read_by(lent, Rules { becomes, ..RULES })
        }),
    },
    Standin {
        name: "frames_measured_nan_marked_6",
        says: "a NaN that was measured is marked 6",
        how: Reader(|lent| read_by(lent, Rules { measured: |word| f32::from_bits(word).is_nan(), ..RULES })),
    },
    Standin {
        name: "frames_measured_missing_word_marked_6",
        says: "7FC00000 that was measured is marked 6",
        how: Reader(|lent| read_by(lent, Rules { measured: |word| word == 0x7fc0_0000, ..RULES })),
    },
    Standin {
        name: "frames_measured_infinity_marked_6",
        says: "an infinity that was measured is marked 6",
        how: Reader(|lent| read_by(lent, Rules { measured: |word| f32::from_bits(word).is_infinite(), ..RULES })),
    },
];

/// What is told of them.
const FIGURES: &[Standin] = &[
    Standin {
        name: "frames_missing_in_samples",
        says: "missing is told in samples",
        how: Reader(|lent| read_by(lent, MISSING_IN_SAMPLES)),
    },
    Standin {
        name: "frames_missing_in_losses",
        says: "missing is the number of losses",
        how: Reader(|lent| read_by(lent, Rules { told: |f| [f.samples(), f.losses, f.dropped], ..RULES })),
    },
    Standin {
        name: "frames_missing_counts_dropped",
        says: "missing counts the dropped frames too",
        how: Reader(|lent| read_by(lent, Rules { told: |f| [f.samples(), f.missing + f.dropped, f.dropped], ..RULES })),
    },
    Standin {
        name: "frames_dropped_not_counted",
        says: "dropped frames are not counted",
        how: Reader(|lent| read_by(lent, DROPPED_NOT_COUNTED)),
    },
    Standin {
        name: "frames_dropped_repeats_only",
        says: "of the dropped frames only repeats are counted",
        how: Reader(|lent| read_by(lent, Rules { told: |f| [f.samples(), f.missing, f.repeats], ..RULES })),
    },
    Standin {
        name: "frames_dropped_of_16_digits",
        says: "dropped has 16 binary digits",
        how: Reader(|lent| read_by(lent, Rules { told: |f| [f.samples(), f.missing, f.dropped & 0xffff], ..RULES })),
    },
    Standin {
        name: "frames_missing_and_dropped_swapped",
        says: "missing and dropped are told the wrong way round",
        how: Reader(|lent| read_by(lent, Rules { told: |f| [f.samples(), f.dropped, f.missing], ..RULES })),
    },
    Standin {
        name: "frames_n_in_frames",
        says: "n is told in frames",
        how: Reader(|lent| read_by(lent, Rules { told: |f| [f.taken + f.missing, f.missing, f.dropped], ..RULES })),
    },
    Standin {
        name: "frames_n_measured_only",
        says: "n does not count the samples that were not received",
        how: Reader(|lent| read_by(lent, Rules { told: |f| [16 * f.taken, f.missing, f.dropped], ..RULES })),
    },
    Standin {
        name: "frames_n_of_16_digits",
        says: "n has 16 binary digits",
        how: Reader(|lent| read_by(lent, Rules { told: |f| [f.samples() & 0xffff, f.missing, f.dropped], ..RULES })),
    },
    Standin {
        name: "frames_empty_tells_nothing",
        says: "the figures are not written where there is no frame",
        how: Reader(|lent| {
            read_by(lent, Rules { told: |f| if f.taken == 0 { [VALUE_BEFORE; 3] } else { f.told() }, ..RULES })
        }),
    },
];

/// What is turned away.
const REFUSALS: &[Standin] = &[
    Standin {
        name: "frames_tests_12_before_2",
        says: "12 is tested before 2",
        how: Reader(|lent| {
            read_by(lent, Rules { refused: |not| first(&[(12, not.cut || not.short), (2, not.over)]), ..RULES })
        }),
    },
    Standin {
        name: "frames_tests_length_before_2",
        says: "the length is tested before 2",
        how: Reader(|lent| {
            read_by(lent, Rules { refused: |not| first(&[(12, not.cut), (2, not.over), (12, not.short)]), ..RULES })
        }),
    },
    Standin {
        name: "frames_tests_room_before_2",
        says: "the room is tested before 2",
        how: Reader(|lent| {
            read_by(lent, Rules { refused: |not| first(&[(12, not.short), (2, not.over), (12, not.cut)]), ..RULES })
        }),
    },
    Standin {
        name: "frames_room_of_samples_alone",
        says: "the room for marks is not tested",
        how: Reader(|lent| read_by(lent, Rules { short: |f| f.samples() > f.rooms[0], ..RULES })),
    },
    Standin {
        name: "frames_room_of_marks_alone",
        says: "the room for samples is not tested",
        how: Reader(|lent| read_by(lent, Rules { short: |f| f.samples() > f.rooms[1], ..RULES })),
    },
    Standin {
        name: "frames_samples_may_lack_one",
        says: "the room for samples may be one short",
        how: Reader(|lent| {
            read_by(lent, Rules { short: |f| f.samples() > f.rooms[0] + 1 || f.samples() > f.rooms[1], ..RULES })
        }),
    },
    Standin {
        name: "frames_marks_may_lack_one",
        says: "the room for marks may be one short",
        how: Reader(|lent| {
            read_by(lent, Rules { short: |f| f.samples() > f.rooms[0] || f.samples() > f.rooms[1] + 1, ..RULES })
        }),
    },
    Standin {
        name: "frames_samples_need_one_more",
        says: "the room for samples has to be one longer than needed",
        how: Reader(|lent| {
            read_by(lent, Rules { short: |f| f.samples() >= f.rooms[0] || f.samples() > f.rooms[1], ..RULES })
        }),
    },
    Standin {
        name: "frames_marks_need_one_more",
        says: "the room for marks has to be one longer than needed",
        how: Reader(|lent| {
            read_by(lent, Rules { short: |f| f.samples() > f.rooms[0] || f.samples() >= f.rooms[1], ..RULES })
        }),
    },
    Standin {
        name: "frames_room_for_dropped",
        says: "there has to be room for the dropped frames too",
        how: Reader(|lent| {
            read_by(lent, Rules { short: |f| short(f) || f.samples() + 16 * f.dropped > f.rooms[0], ..RULES })
        }),
    },
    Standin {
        name: "frames_room_without_missing",
        says: "the room is tested for the samples that were received",
        how: Reader(|lent| {
            read_by(lent, Rules { short: |f| 16 * f.taken > f.rooms[0] || 16 * f.taken > f.rooms[1], ..RULES })
        }),
    },
    Standin {
        name: "frames_rooms_have_to_agree",
        says: "rooms of different lengths are refused, with 12",
        how: Reader(|lent| read_by(lent, Rules { short: |f| short(f) || f.rooms[0] != f.rooms[1], ..RULES })),
    },
    Standin {
        name: "frames_room_over_limit",
        says: "2 is given where the room for samples is longer than 1,048,576",
        how: Reader(|lent| read_by(lent, Rules { over: |f| over(f) || f.rooms[0] > MOST_SAMPLES, ..RULES })),
    },
    Standin {
        name: "frames_limit_one_lower",
        says: "2 is given for 1,048,576 samples already",
        how: Reader(|lent| read_by(lent, Rules { over: |f| f.samples() >= MOST_SAMPLES, ..RULES })),
    },
    Standin {
        name: "frames_limit_one_higher",
        says: "2 is not given for one frame more than 1,048,576 samples",
        how: Reader(|lent| read_by(lent, Rules { over: |f| f.samples() > MOST_SAMPLES + FRAME_WORDS, ..RULES })),
    },
    Standin {
        name: "frames_limit_without_missing",
        says: "2 is given by the samples that were received",
        how: Reader(|lent| read_by(lent, Rules { over: |f| 16 * f.taken > MOST_SAMPLES, ..RULES })),
    },
    Standin {
        name: "frames_limit_with_dropped",
        says: "2 counts the dropped frames too",
        how: Reader(|lent| read_by(lent, Rules { over: |f| f.samples() + 16 * f.dropped > MOST_SAMPLES, ..RULES })),
    },
    Standin {
        name: "frames_limit_with_cut_frame",
        says: "2 counts the frame that is cut too",
        how: Reader(|lent| {
            read_by(lent, Rules { over: |f| f.samples() + 16 * usize::from(f.bytes % 66 > 0) > MOST_SAMPLES, ..RULES })
        }),
    },
    Standin {
        name: "frames_limit_by_32_digits",
        says: "the samples are summed in 32 binary digits",
        how: Reader(|lent| read_by(lent, Rules { over: |f| f.samples() as u32 as usize > MOST_SAMPLES, ..RULES })),
    },
    Standin {
        name: "frames_cut_frame_passed_over",
        says: "a frame that is cut is passed over",
        how: Reader(|lent| read_by(lent, Rules { cut: |_| false, ..RULES })),
    },
    Standin {
        name: "frames_one_byte_more_allowed",
        says: "one byte more is allowed",
        how: Reader(|lent| read_by(lent, Rules { cut: |bytes| bytes % 66 > 1, ..RULES })),
    },
    Standin {
        name: "frames_one_byte_less_allowed",
        says: "one byte less is allowed",
        how: Reader(|lent| read_by(lent, Rules { cut: |bytes| (1..65).contains(&(bytes % 66)), ..RULES })),
    },
    Standin {
        name: "frames_length_even",
        says: "the length is held to multiples of 2",
        how: Reader(|lent| read_by(lent, Rules { cut: |bytes| bytes % 2 != 0, ..RULES })),
    },
    Standin {
        name: "frames_half_a_frame_allowed",
        says: "the length is held to multiples of 33",
        how: Reader(|lent| read_by(lent, Rules { cut: |bytes| bytes % 33 != 0, ..RULES })),
    },
    Standin {
        name: "frames_empty_refused",
        says: "an empty input is refused with 12",
        how: Reader(|lent| read_by(lent, Rules { cut: |bytes| bytes % 66 != 0 || bytes == 0, ..RULES })),
    },
];

/// What an acceptance and a refusal leave.
const LEFT: &[Standin] = &[
    Standin {
        name: "frames_word_behind_written",
        says: "the sample behind the last becomes 0",
        how: Reader(|lent| read_and(lent, |lent, n| lent.samples.whole[GUARDS + n] = 0)),
    },
    Standin {
        name: "frames_mark_behind_written",
        says: "the mark behind the last becomes 0",
        how: Reader(|lent| read_and(lent, |lent, n| lent.marks.whole[GUARDS + n] = 0)),
    },
    Standin {
        name: "frames_samples_behind_cleared",
        says: "the room behind the samples becomes 0",
        how: Reader(|lent| read_and(lent, |lent, n| lent.samples.lend()[n..].fill(0))),
    },
    Standin {
        name: "frames_marks_behind_6",
        says: "the room behind the marks becomes 6",
        how: Reader(|lent| read_and(lent, |lent, n| lent.marks.lend()[n..].fill(6))),
    },
    Standin {
        name: "frames_input_written",
        says: "the first byte of the input is written",
        how: Reader(|lent| read_and(lent, |lent, _| lent.input.lend().iter_mut().take(1).for_each(|byte| *byte ^= 1))),
    },
    Standin {
        name: "frames_answers_n",
        says: "an acceptance answers the number of samples",
        how: Reader(|lent| match lent.call() {
            0 => lent.figures()[0] as u32,
            number => number,
        }),
    },
    Standin {
        name: "frames_refused_writes_samples",
        says: "a refusal leaves the samples written as far as there is room",
        how: Reader(|lent| refused_and(lent, |lent, made| fill_words(lent.samples.lend(), made))),
    },
    Standin {
        name: "frames_refused_writes_marks",
        says: "a refusal leaves the marks written as far as there is room",
        how: Reader(|lent| refused_and(lent, |lent, made| fill_marks(lent.marks.lend(), made))),
    },
    Standin {
        name: "frames_refused_clears_marks",
        says: "a refusal leaves the marks cleared",
        how: Reader(|lent| refused_and(lent, |lent, _| lent.marks.lend().fill(0))),
    },
    Standin {
        name: "frames_refused_tells_figures",
        says: "a refusal tells the figures",
        how: Reader(|lent| {
            let told = Facts::new(lent.input(), &fates(lent.input(), &RULES), [0; 2]).told();
            refused_and(lent, |lent, _| lent.set_figures(told))
        }),
    },
    Standin {
        name: "frames_refused_keeps_figures",
        says: "a refusal does not write the figures",
        how: Reader(|lent| refused_and(lent, |lent, _| lent.set_figures([VALUE_BEFORE; 3]))),
    },
    Standin {
        name: "frames_refused_keeps_dropped",
        says: "a refusal does not write the last figure",
        how: Reader(|lent| refused_and(lent, |lent, _| lent.set_figures([0, 0, VALUE_BEFORE]))),
    },
];

/// Wrong on both sides, and to be found by what has to hold whatever the model says.
const ALIKE: &[Standin] = &[
    Standin {
        name: "frames_both_missing_marked_0",
        says: "a missing sample is marked 0",
        how: Readers(|input, rooms| read_into(input, rooms, MISSING_MARKED_0)),
    },
    Standin {
        name: "frames_both_missing_word_0",
        says: "a missing sample is 0",
        how: Readers(|input, rooms| read_into(input, rooms, MISSING_WORD_0)),
    },
    Standin {
        name: "frames_both_missing_behind",
        says: "the missing samples stand behind the frame",
        how: Readers(|input, rooms| read_into(input, rooms, MISSING_BEHIND)),
    },
    Standin {
        name: "frames_both_missing_in_samples",
        says: "missing is told in samples",
        how: Readers(|input, rooms| read_into(input, rooms, MISSING_IN_SAMPLES)),
    },
    Standin {
        name: "frames_both_dropped_not_counted",
        says: "dropped frames are not counted",
        how: Readers(|input, rooms| read_into(input, rooms, DROPPED_NOT_COUNTED)),
    },
    Standin {
        name: "frames_both_words_from_highest",
        says: "the words are read highest byte first",
        how: Readers(|input, rooms| read_into(input, rooms, WORDS_FROM_HIGHEST)),
    },
    Standin {
        name: "frames_both_nan_quieted",
        says: "a signalling NaN becomes quiet",
        how: Readers(|input, rooms| read_into(input, rooms, NAN_QUIETED)),
    },
    Standin {
        name: "frames_both_repeat_taken",
        says: "a repeat is taken again",
        how: Readers(|input, rooms| read_into(input, rooms, REPEATS)),
    },
    Standin {
        name: "frames_both_first_expects_0",
        says: "the first frame does not set the expectation: 0 is expected",
        how: Readers(|input, rooms| read_into(input, rooms, FIRST_EXPECTS_0)),
    },
    Standin {
        name: "frames_both_number_swapped",
        says: "the sequence number's bytes are swapped",
        how: Readers(|input, rooms| read_into(input, rooms, NUMBER_SWAPPED)),
    },
    Standin {
        name: "frames_both_refused_writes",
        says: "a refusal clears samples and marks",
        how: Readers(|input, rooms| {
            let read = read_into(input, rooms, RULES);
            if read.number != 0 {
                rooms.samples.fill(0);
                rooms.marks.fill(0);
            }
            read
        }),
    },
    Standin {
        name: "frames_both_behind_cleared",
        says: "the room behind the samples becomes 0",
        how: Readers(|input, rooms| {
            let read = read_into(input, rooms, RULES);
            if read.number == 0 {
                rooms.samples[read.n..].fill(0);
            }
            read
        }),
    },
];

/// A distance of more than 32,767 is late, and so is one that is below 0.
const RIGHT: &[Standin] = &[
    Standin {
        name: "frames_by_hand",
        says: "the reader written by hand, by rules that are right",
        how: Reader(|lent| read_by(lent, RULES)),
    },
    Standin {
        name: "frames_signed_distance",
        says: "the distance is read as a number with a sign, and one below 0 is late",
        how: Reader(|lent| {
            let missing = |ahead: u32| usize::try_from(ahead as u16 as i16).ok().filter(|m| *m <= 1000);
            read_by(lent, Rules { missing, ..RULES })
        }),
    },
];

/// A sample, and its mark.
type Sample = (u32, u8);

/// What a reader goes by.
#[derive(Clone, Copy)]
struct Rules {
    number: fn([u8; 2]) -> u16,
    word: fn([u8; 4]) -> u32,
    /// What a word that was measured becomes, and whether it is marked 6.
    becomes: fn(u32) -> u32,
    measured: fn(u32) -> bool,
    /// Of a first frame's number, what is expected.
    first: fn(u16) -> u16,
    /// How far a number is ahead of the expected one.
    ahead: fn(u16, u16) -> u32,
    /// How many frames are missing before one that is so far ahead; nothing, where it is dropped.
    missing: fn(u32) -> Option<usize>,
    /// Of what was expected and of a frame's number, what is expected after it, where it is taken and where not.
    after_taken: fn(u16, u16) -> u16,
    after_dropped: fn(u16, u16) -> u16,
    /// A sample that is filled in for a missing one.
    filled: Sample,
    /// A frame that is taken adds to what was made: there are the samples of the missing frames, and its own. One that
    /// is dropped has its own.
    taken: fn(&mut Vec<Sample>, &[Sample], &[Sample]),
    dropped: fn(&mut Vec<Sample>, &[Sample]),
    /// What is not allowed: too many samples, a length in bytes, too little room.
    over: fn(&Facts) -> bool,
    cut: fn(usize) -> bool,
    short: fn(&Facts) -> bool,
    /// The number of the refusal, or 0.
    refused: fn(&Not) -> u32,
    /// The three figures.
    told: fn(&Facts) -> [usize; 3],
}

/// What it is to go by.
const RULES: Rules = Rules {
    number: u16::from_le_bytes,
    word: u32::from_le_bytes,
    becomes: |word| word,
    measured: |_| false,
    first: |number| number,
    ahead,
    missing: |ahead| up_to(1000, ahead),
    after_taken: |_, number| number.wrapping_add(1),
    after_dropped: |expected, _| expected,
    filled: (0x7fc0_0000, 6),
    taken: joined,
    dropped: |_, _| (),
    over,
    cut: |bytes| bytes % 66 != 0,
    short,
    refused: |not| first(&[(2, not.over), (12, not.cut || not.short)]),
    told: Facts::told,
};

/// What is not allowed of an input and its rooms.
struct Not {
    over: bool,
    cut: bool,
    short: bool,
}

/// What is known of an input and its rooms: its length, how many of its frames are taken, how many are missing and in
/// how many losses, how many are dropped and how many of these are repeats, and the rooms for samples and for marks.
struct Facts {
    bytes: usize,
    taken: usize,
    missing: usize,
    losses: usize,
    dropped: usize,
    repeats: usize,
    rooms: [usize; 2],
}

/// What becomes of a frame: how far ahead it is, and how many are missing before it, where it is taken.
type Fate = (u32, Option<usize>);

impl Facts {
    /// Those of an input with these fates of its frames, and with these rooms.
    fn new(input: &[u8], fates: &[Fate], rooms: [usize; 2]) -> Facts {
        let count = |of: fn(&Fate) -> bool| fates.iter().filter(|fate| of(fate)).count();
        Facts {
            bytes: input.len(),
            taken: count(|(_, missing)| missing.is_some()),
            missing: fates.iter().filter_map(|(_, missing)| *missing).sum(),
            losses: count(|(_, missing)| missing.map_or(false, |missing| missing > 0)),
            dropped: count(|(_, missing)| missing.is_none()),
            repeats: count(|(ahead, missing)| missing.is_none() && *ahead == 65_535),
            rooms,
        }
    }

    /// How many samples there are.
    fn samples(&self) -> usize {
        16 * (self.taken + self.missing)
    }

    /// The three figures.
    fn told(&self) -> [usize; 3] {
        [self.samples(), self.missing, self.dropped]
    }
}

const REPEATS: Rules = Rules { missing: |ahead| if ahead == 65_535 { Some(0) } else { up_to(1000, ahead) }, ..RULES };
const FIRST_EXPECTS_0: Rules = Rules { first: |_| 0, ..RULES };
const NUMBER_SWAPPED: Rules = Rules { number: u16::from_be_bytes, ..RULES };
const MISSING_BEHIND: Rules = Rules { taken: |made, missing, own| joined(made, own, missing), ..RULES };
const MISSING_WORD_0: Rules = Rules { filled: (0, 6), ..RULES };
const MISSING_MARKED_0: Rules = Rules { filled: (0x7fc0_0000, 0), ..RULES };
const WORDS_FROM_HIGHEST: Rules = Rules { word: u32::from_be_bytes, ..RULES };
const NAN_QUIETED: Rules = Rules { becomes: quieted, ..RULES };
const MISSING_IN_SAMPLES: Rules = Rules { told: |f| [f.samples(), 16 * f.missing, f.dropped], ..RULES };
const DROPPED_NOT_COUNTED: Rules = Rules { told: |f| [f.samples(), f.missing, 0], ..RULES };

/// How far a number is ahead of the expected one.
fn ahead(number: u16, expected: u16) -> u32 {
    number.wrapping_sub(expected).into()
}

/// As many missing as a frame is ahead, up to this many.
fn up_to(most: u32, ahead: u32) -> Option<usize> {
    (ahead <= most).then_some(ahead as usize)
}

fn over(facts: &Facts) -> bool {
    facts.samples() > MOST_SAMPLES
}

fn short(facts: &Facts) -> bool {
    facts.rooms.iter().any(|room| *room < facts.samples())
}

/// The first of these numbers that applies, or 0.
fn first(numbers: &[(u32, bool)]) -> u32 {
    numbers.iter().find(|(_, applies)| *applies).map_or(0, |(number, _)| *number)
}

fn joined(made: &mut Vec<Sample>, missing: &[Sample], own: &[Sample]) {
    made.extend(missing);
    made.extend(own);
}

fn behind_missing_marked_6(made: &mut Vec<Sample>, missing: &[Sample], own: &[Sample]) {
    let mark = if missing.is_empty() { 0 } else { 6 };
    made.extend(missing);
    made.extend(own.iter().map(|(word, _)| (*word, mark)));
}

fn words_reversed(made: &mut Vec<Sample>, missing: &[Sample], own: &[Sample]) {
    made.extend(missing);
    made.extend(own.iter().rev());
}

fn in_place_of_last(made: &mut Vec<Sample>, own: &[Sample]) {
    made.truncate(made.len() - own.len());
    made.extend(own);
}

fn far_begins_anew(expected: u16, number: u16) -> u16 {
    if ahead(number, expected) < 64_536 {
        number.wrapping_add(1)
    } else {
        expected
    }
}

/// A word by way of a float.
fn quieted(mut word: u32) -> u32 {
    quiet(&mut word);
    word
}

/// What becomes of each whole frame of an input.
fn fates(input: &[u8], rules: &Rules) -> Vec<Fate> {
    let mut expected = None;
    let fate = |frame: &[u8]| {
        let number = (rules.number)([frame[0], frame[1]]);
        let before = expected.unwrap_or_else(|| (rules.first)(number));
        let ahead = (rules.ahead)(number, before);
        let missing = (rules.missing)(ahead);
        let after = if missing.is_some() { rules.after_taken } else { rules.after_dropped };
        expected = Some(after(before, number));
        (ahead, missing)
    };
    input.chunks_exact(FRAME_BYTES).map(fate).collect()
}

/// The samples that the frames of an input make by these fates.
fn made(input: &[u8], fates: &[Fate], rules: &Rules) -> Vec<Sample> {
    let mut made = Vec::new();
    for (frame, (_, missing)) in input.chunks_exact(FRAME_BYTES).zip(fates) {
        let word = |four: &[u8]| (rules.becomes)((rules.word)([four[0], four[1], four[2], four[3]]));
        let marked = |word| (word, if (rules.measured)(word) { 6 } else { 0 });
        let own: Vec<Sample> = frame[2..].chunks(4).map(word).map(marked).collect();
        match missing {
            Some(missing) => (rules.taken)(&mut made, &vec![rules.filled; FRAME_WORDS * missing], &own),
            None => (rules.dropped)(&mut made, &own),
        }
    }
    made
}

/// The answer, the figures and, where it is accepted, the samples, of an input with these rooms.
fn read_of(input: &[u8], rooms: [usize; 2], rules: &Rules) -> (Read, Vec<Sample>) {
    let fates = fates(input, rules);
    let facts = Facts::new(input, &fates, rooms);
    let not = Not { over: (rules.over)(&facts), cut: (rules.cut)(facts.bytes), short: (rules.short)(&facts) };
    let number = (rules.refused)(&not);
    if number != 0 {
        return (Read { number, n: 0, missing: 0, dropped: 0 }, Vec::new());
    }
    let [n, missing, dropped] = (rules.told)(&facts);
    (Read { number, n, missing, dropped }, made(input, &fates, rules))
}

/// A reader written by hand, by these rules. Where they allow too much, it writes what stands around the lent parts.
fn read_by(lent: &mut Frames, rules: Rules) -> u32 {
    let rooms = [lent.samples().len(), lent.marks().len()];
    let (read, made) = read_of(lent.input(), rooms, &rules);
    fill_words(&mut lent.samples.whole[GUARDS..], &made);
    fill_marks(&mut lent.marks.whole[GUARDS..], &made);
    lent.set_figures(read.figures());
    read.number
}

/// Likewise into these rooms.
fn read_into(input: &[u8], rooms: &mut Rooms, rules: Rules) -> Read {
    let (read, made) = read_of(input, [rooms.samples.len(), rooms.marks.len()], &rules);
    fill_words(&mut rooms.samples, &made);
    fill_marks(&mut rooms.marks, &made);
    read
}

/// The words are those of the samples, as far as there is room.
fn fill_words(words: &mut [u32], made: &[Sample]) {
    words.iter_mut().zip(made).for_each(|(word, made)| *word = made.0);
}

/// The marks are those of the samples, as far as there is room.
fn fill_marks(marks: &mut [u8], made: &[Sample]) {
    marks.iter_mut().zip(made).for_each(|(mark, made)| *mark = made.1);
}

/// The library reads; where it accepts, its work is altered. The number of samples is told.
fn read_and(lent: &mut Frames, alter: impl FnOnce(&mut Frames, usize)) -> u32 {
    let number = lent.call();
    if number == 0 {
        let [n, ..] = lent.figures();
        alter(lent, n);
    }
    number
}

/// The library reads; where it refuses, its work is altered. The samples of the first frames are told.
fn refused_and(lent: &mut Frames, alter: impl FnOnce(&mut Frames, &[Sample])) -> u32 {
    let number = lent.call();
    if number != 0 {
        let few = &lent.input()[..lent.input().len().min(20 * FRAME_BYTES)];
        let made = made(few, &fates(few, &RULES), &RULES);
        alter(lent, &made);
    }
    number
}
