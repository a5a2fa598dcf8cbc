//! Stand-ins for the readers and writers of stored settings. Some alter what the library's own leave; most are written by
//! hand, by rules of which one is wrong.
use super::How::{Keeper, Keepers};
use super::{Finds, Standin, Table};
use crate::lent::stored::Stored;
use crate::lent::GUARDS;
use crate::stored::{
    is_allowed, Areas, Call, Version, BITS, HEAD, LONGEST_GAP, RATE, ROW, RUN_LENGTH, SENSITIVITY, STRENGTH, THRESHOLD,
    WORD,
};

pub(super) const TABLES: &[Table] = &[
    Table { file: "settings", test: "damaged", finds: Finds::Always, standins: CONTENTS },
    Table { file: "settings", test: "versions", finds: Finds::Always, standins: VERSIONS },
    Table { file: "settings", test: "both_ways", finds: Finds::Always, standins: ALLOWED },
    Table { file: "settings", test: "both_ways", finds: Finds::Always, standins: WRITTEN },
    Table { file: "settings", test: "rooms", finds: Finds::Always, standins: ROOMS },
    Table { file: "settings", test: "rooms", finds: Finds::Always, standins: LEFT },
    Table { file: "settings", test: "any_bytes", finds: Finds::Always, standins: FORMS },
    Table { file: "settings", test: "both_ways", finds: Finds::Always, standins: ALIKE },
    Table { file: "settings", test: "damaged", finds: Finds::Never, standins: RIGHT },
];

/// A stand-in that is written by hand, by these rules.
macro_rules! by_rules {
    ($name:expr, $says:expr, $($rule:ident: $is:expr),+ $(,)?) => {
        Standin {
            name: $name,
            says: $says,
            how: Keeper(|lent, call| keep_by(lent, call, Rules { $($rule: $is,)+ ..RULES })),
        }
    };
}

/// Likewise in the place of both sides.
macro_rules! alike {
    ($name:expr, $says:expr, $($rule:ident: $is:expr),+ $(,)?) => {
        Standin {
            name: $name,
            says: $says,
            how: Keepers(|areas, call| keep_in(areas, call, Rules { $($rule: $is,)+ ..RULES })),
        }
    };
}

/// A stand-in that alters what the library leaves.
macro_rules! altering {
    ($name:expr, $says:expr, $makes:expr $(,)?) => {
        Standin { name: $name, says: $says, how: Keeper($makes) }
    };
}

/// What a reader looks at in a block.
const CONTENTS: &[Standin] = &[
    by_rules!("stored_number_unread", "a part's number is not looked at", number: |_, _| true),
    by_rules!("stored_offset_unread", "a part's offset is not looked at", offset: |_, _| true),
    by_rules!("stored_length_unread", "a part's length is not looked at", length: |_, _| true),
    by_rules!("stored_parts_unread", "the number of parts is not looked at", parts: |_, _| true),
    by_rules!(
        "stored_first_offset_unread",
        "the offset of the first part is not looked at",
        offset: |has, at| at.part == 1 || has == at.body,
    ),
    by_rules!(
        "stored_last_offset_unread",
        "the offset of part 6 is not looked at",
        offset: |has, at| at.part == 6 || has == at.body,
    ),
    by_rules!(
        "stored_row_7_unread",
        "the row of part 7 is not looked at",
        number: |has, at| at.part == 7 || has == at.part,
        offset: |has, at| at.part == 7 || has == at.body,
        length: |has, at| at.part == 7 || has == 4,
    ),
    by_rules!(
        "stored_row_6_unread",
        "the row of part 6 is not looked at",
        number: |has, at| at.part == 6 || has == at.part,
        offset: |has, at| at.part == 6 || has == at.body,
        length: |has, at| at.part == 6 || has == 4,
    ),
    by_rules!("stored_number_any", "a part may have the number of another", number: |has, _| (1..=7).contains(&has)),
    by_rules!(
        "stored_number_of_8_digits",
        "of a part's number the last 8 binary digits are read",
        number: |has, at| has & 0xff == at.part,
    ),
    by_rules!(
        "stored_number_of_16_digits",
        "of a part's number the last 16 binary digits are read",
        number: |has, at| has & 0xffff == at.part,
    ),
    by_rules!(
        "stored_offset_of_8_digits",
        "of an offset the last 8 binary digits are read",
        offset: |has, at| has & 0xff == at.body,
    ),
    by_rules!(
        "stored_offset_of_24_digits",
        "of an offset the last 24 binary digits are read",
        offset: |has, at| has & 0xff_ffff == at.body,
    ),
    by_rules!(
        "stored_length_of_8_digits",
        "of a length the last 8 binary digits are read",
        length: |has, _| has & 0xff == 4,
    ),
    by_rules!("stored_length_at_least_4", "a length may be more than 4", length: |has, _| has >= 4),
    by_rules!("stored_length_at_most_4", "a length may be less than 4", length: |has, _| has <= 4),
    by_rules!(
        "stored_parts_of_8_digits",
        "of the number of parts the last 8 binary digits are read",
        parts: |has, right| has & 0xff == right,
    ),
    by_rules!("stored_parts_at_least", "there may be said to be more parts", parts: |has, right| has >= right),
    by_rules!("stored_parts_at_most", "there may be said to be fewer parts", parts: |has, right| has <= right),
    by_rules!("stored_parts_of_either", "there may be said to be 6 or 7 parts", parts: |has, _| has == 6 || has == 7),
    by_rules!(
        "stored_offset_either_way",
        "an offset may also count from the table's end",
        offset: |has, at| has == at.body || has + at.table == at.body,
    ),
    by_rules!(
        "stored_offset_from_table",
        "offsets count from the table's end",
        offset: |has, at| has + at.table == at.body,
    ),
    by_rules!(
        "stored_offset_behind_version",
        "offsets count from behind the version",
        offset: |has, at| has + 4 == at.body,
    ),
    by_rules!(
        "stored_offset_multiple",
        "an offset may be any multiple of 4 within the block",
        offset: |has, at| has % 4 == 0 && has < at.table + 28,
    ),
    by_rules!(
        "stored_body_at_offset",
        "a body is read where its offset says, anywhere in the block",
        offset: |has, at| has + 4 <= at.table + 24,
        at: |offset, _| offset,
    ),
    by_rules!(
        "stored_byte_behind",
        "a byte behind the last body is allowed",
        ends: |has, right| has == right || has == right + 1,
    ),
    by_rules!("stored_bytes_behind", "anything may follow the last body", ends: |has, right| has >= right),
    by_rules!(
        "stored_zeros_behind",
        "a word may follow the last body",
        ends: |has, right| has == right || has == right + 4,
    ),
    by_rules!(
        "stored_byte_short",
        "a block may be one byte short",
        ends: |has, right| has == right || has + 1 == right,
    ),
    by_rules!(
        "stored_cut_short",
        "a block may be cut short, and counts as ending in zeros",
        ends: |has, right| has <= right,
    ),
    by_rules!("stored_length_of_either", "a block may have 104 or 120 bytes", ends: |has, _| has == 104 || has == 120),
    by_rules!("stored_from_highest", "words are read highest byte first", word: u32::from_be_bytes),
    by_rules!(
        "stored_halves_swapped",
        "the halves of the words are swapped",
        word: |bytes| u32::from_le_bytes(bytes).rotate_left(16),
    ),
    by_rules!(
        "stored_version_of_8_digits",
        "of the version the last 8 binary digits are read",
        known: |by, number| by.known(number & 0xff),
    ),
    by_rules!(
        "stored_version_of_16_digits",
        "of the version the last 16 binary digits are read",
        known: |by, number| by.known(number & 0xffff),
    ),
];

/// Which versions are known, and what is tested first.
const VERSIONS: &[Standin] = &[
    by_rules!(
        "stored_v1_takes_v2",
        "the version 1 reader takes a version 2 block",
        known: |_, number| Version::Two.known(number),
    ),
    by_rules!(
        "stored_v2_is_18",
        "the version 1 reader turns version 2 away with 18",
        read: |not| if not.number == 2 && not.by == Version::One && !not.short { 18 } else { read(not) },
    ),
    by_rules!(
        "stored_new_without_v1",
        "the new reader does not know version 1",
        known: |by, number| by.known(number).filter(|version| *version == by),
    ),
    by_rules!("stored_version_0", "version 0 is known, and counts as 1", known: |by, number| by.known(number.max(1))),
    by_rules!(
        "stored_version_3",
        "version 3 is known to the new reader, and counts as 2",
        known: |by, number| by.known(if number == 3 { 2 } else { number }),
    ),
    by_rules!(
        "stored_version_above",
        "every version from 2 on is known to the new reader, and counts as 2",
        known: |by, number| by.known(number.min(2)),
    ),
    by_rules!(
        "stored_version_by_length",
        "the version is told by the length",
        known: |by, number| by.known(number).or(if number > 2 { Some(by) } else { None }),
    ),
    by_rules!(
        "stored_18_before_17",
        "18 is tested before 17",
        read: |not| first(&[(6, not.short), (18, not.cut || not.malformed || not.not_allowed), (17, not.unknown)]),
    ),
    by_rules!(
        "stored_form_before_17",
        "the form is tested before 17",
        read: |not| first(&[(6, not.short), (18, not.cut || not.malformed), (17, not.unknown), (18, not.not_allowed)]),
    ),
    by_rules!(
        "stored_settings_before_17",
        "the settings are tested before 17",
        read: |not| first(&[(6, not.short), (18, not.cut || not.not_allowed), (17, not.unknown), (18, not.malformed)]),
    ),
    by_rules!(
        "stored_length_before_17",
        "a block of fewer than 104 bytes is refused by 18 before 17",
        read: |not| if !not.short && not.bytes < 104 { 18 } else { read(not) },
    ),
    by_rules!(
        "stored_parts_before_17",
        "a block of fewer than 8 bytes is refused by 18 before 17",
        read: |not| if !not.short && not.bytes < 8 { 18 } else { read(not) },
    ),
    by_rules!(
        "stored_no_version_is_17",
        "a block that is too short to have a version is refused by 17",
        read: |not| first(&[(6, not.short), (17, not.cut || not.unknown), (18, not.malformed || not.not_allowed)]),
    ),
    by_rules!(
        "stored_no_version_of_zeros",
        "a version that is cut short counts as ending in zeros",
        read: |not| read(&Not { cut: false, ..*not }),
    ),
    by_rules!(
        "stored_empty_is_17",
        "an empty block is refused by 17",
        read: |not| if !not.short && not.bytes == 0 { 17 } else { read(not) },
    ),
    by_rules!(
        "stored_17_is_18",
        "18 is given for an unknown version",
        read: |not| if read(not) == 17 { 18 } else { read(not) },
    ),
    by_rules!(
        "stored_malformed_is_17",
        "17 is given for a malformed block",
        read: |not| if read(not) == 18 && not.malformed && !not.cut { 17 } else { read(not) },
    ),
];

/// Which settings are allowed.
const ALLOWED: &[Standin] = &[
    by_rules!(
        "stored_threshold_0",
        "a threshold of 0 is allowed",
        allowed: |_, part, word| if part == THRESHOLD {
            f32::from_bits(word) >= 0.0 && f32::from_bits(word).is_finite() && word >> 31 == 0
        } else {
            is_allowed(part, word)
        },
    ),
    by_rules!(
        "stored_threshold_minus_0",
        "a threshold of -0 is allowed",
        allowed: |_, part, word| if part == THRESHOLD {
            word == 0x8000_0000 || is_allowed(part, word)
        } else {
            is_allowed(part, word)
        },
    ),
    by_rules!(
        "stored_threshold_below_0",
        "a threshold below 0 is allowed",
        allowed: |_, part, word| if part == THRESHOLD {
            f32::from_bits(word) != 0.0 && f32::from_bits(word).is_finite()
        } else {
            is_allowed(part, word)
        },
    ),
    by_rules!(
        "stored_threshold_infinite",
        "an infinite threshold is allowed",
        allowed: |_, part, word| if part == THRESHOLD { f32::from_bits(word) > 0.0 } else { is_allowed(part, word) },
    ),
    by_rules!(
        "stored_threshold_nan",
        "a threshold that is a NaN is allowed",
        allowed: |_, part, word| if part == THRESHOLD {
            f32::from_bits(word).is_nan() || is_allowed(part, word)
        } else {
            is_allowed(part, word)
        },
    ),
    by_rules!(
        "stored_threshold_normal",
        "a subnormal threshold is turned away",
        allowed: |_, part, word| if part == THRESHOLD {
            f32::from_bits(word).is_normal() && f32::from_bits(word) > 0.0
        } else {
            is_allowed(part, word)
        },
    ),
    by_rules!(
        "stored_threshold_in_range",
        "a threshold above 65,536 is turned away",
        allowed: |_, part, word| if part == THRESHOLD {
            is_allowed(part, word) && f32::from_bits(word) <= 65536.0
        } else {
            is_allowed(part, word)
        },
    ),
    by_rules!(
        "stored_sensitivity_nan",
        "a sensitivity that is a NaN is allowed",
        allowed: |_, part, word| if part == SENSITIVITY { true } else { is_allowed(part, word) },
    ),
    by_rules!(
        "stored_sensitivity_signalling",
        "a sensitivity that is a signalling NaN is allowed",
        allowed: |_, part, word| if part == SENSITIVITY {
            !f32::from_bits(word).is_nan() || word & 0x0040_0000 == 0
        } else {
            is_allowed(part, word)
        },
    ),
    by_rules!(
        "stored_sensitivity_one_nan",
        "of all NaN only 7FC00000 is turned away as a sensitivity",
        allowed: |_, part, word| if part == SENSITIVITY { word != 0x7fc0_0000 } else { is_allowed(part, word) },
    ),
    by_rules!(
        "stored_sensitivity_infinite",
        "an infinite sensitivity is turned away",
        allowed: |_, part, word| if part == SENSITIVITY {
            f32::from_bits(word).is_finite()
        } else {
            is_allowed(part, word)
        },
    ),
    by_rules!(
        "stored_sensitivity_minus_infinity",
        "a sensitivity of -infinity is turned away",
        allowed: |_, part, word| if part == SENSITIVITY {
            f32::from_bits(word) > f32::NEG_INFINITY
        } else {
            is_allowed(part, word)
        },
    ),
    by_rules!(
        "stored_sensitivity_held",
        "a sensitivity that is not from 1 to 10 is turned away",
        allowed: |_, part, word| if part == SENSITIVITY {
            (1.0..=10.0).contains(&f32::from_bits(word))
        } else {
            is_allowed(part, word)
        },
    ),
    by_rules!(
        "stored_strength_nan",
        "a strength that is a NaN is allowed",
        allowed: |_, part, word| if part == STRENGTH { true } else { is_allowed(part, word) },
    ),
    by_rules!(
        "stored_strength_negative_nan",
        "a strength that is a NaN with its sign is allowed",
        allowed: |_, part, word| if part == STRENGTH {
            !f32::from_bits(word).is_nan() || word >> 31 == 1
        } else {
            is_allowed(part, word)
        },
    ),
    by_rules!(
        "stored_strength_infinite",
        "an infinite strength is turned away",
        allowed: |_, part, word| if part == STRENGTH {
            f32::from_bits(word).is_finite()
        } else {
            is_allowed(part, word)
        },
    ),
    by_rules!(
        "stored_strength_held",
        "a strength that is not from 0 to 1 is turned away",
        allowed: |_, part, word| if part == STRENGTH {
            (0.0..=1.0).contains(&f32::from_bits(word))
        } else {
            is_allowed(part, word)
        },
    ),
    by_rules!(
        "stored_bits_held",
        "bits that are not from 4 to 24 are turned away",
        allowed: |_, part, word| if part == BITS { (4..=24).contains(&word) } else { is_allowed(part, word) },
    ),
    by_rules!(
        "stored_bits_0",
        "0 bits are turned away",
        allowed: |_, part, word| if part == BITS { word != 0 } else { is_allowed(part, word) },
    ),
    by_rules!(
        "stored_bits_nan",
        "bits of the pattern of a NaN are turned away",
        allowed: |_, part, word| if part == BITS { !f32::from_bits(word).is_nan() } else { is_allowed(part, word) },
    ),
    by_rules!(
        "stored_gap_infinite",
        "an infinite longest gap is allowed",
        allowed: |_, part, word| if part == LONGEST_GAP {
            !f32::from_bits(word).is_nan()
        } else {
            is_allowed(part, word)
        },
    ),
    by_rules!(
        "stored_gap_minus_infinity",
        "a longest gap of -infinity is allowed",
        allowed: |_, part, word| if part == LONGEST_GAP {
            word == 0xff80_0000 || is_allowed(part, word)
        } else {
            is_allowed(part, word)
        },
    ),
    by_rules!(
        "stored_gap_nan",
        "a longest gap that is a NaN is allowed",
        allowed: |_, part, word| if part == LONGEST_GAP {
            f32::from_bits(word).is_nan() || is_allowed(part, word)
        } else {
            is_allowed(part, word)
        },
    ),
    by_rules!(
        "stored_gap_below_0",
        "a longest gap below 0 is turned away",
        allowed: |_, part, word| if part == LONGEST_GAP {
            is_allowed(part, word) && f32::from_bits(word) >= 0.0
        } else {
            is_allowed(part, word)
        },
    ),
    by_rules!(
        "stored_gap_0",
        "a longest gap of 0 is turned away",
        allowed: |_, part, word| if part == LONGEST_GAP {
            is_allowed(part, word) && f32::from_bits(word) != 0.0
        } else {
            is_allowed(part, word)
        },
    ),
    by_rules!(
        "stored_rate_above",
        "a rate of 16,777,217 is allowed",
        allowed: |_, part, word| if part == RATE { word <= 16_777_217 } else { is_allowed(part, word) },
    ),
    by_rules!(
        "stored_rate_at_most",
        "a rate of 16,777,216 is turned away",
        allowed: |_, part, word| if part == RATE { word < 16_777_216 } else { is_allowed(part, word) },
    ),
    by_rules!(
        "stored_rate_0",
        "a rate of 0 is turned away",
        allowed: |_, part, word| if part == RATE { is_allowed(part, word) && word > 0 } else { is_allowed(part, word) },
    ),
    by_rules!(
        "stored_rate_any",
        "any rate is allowed",
        allowed: |_, part, word| if part == RATE { true } else { is_allowed(part, word) },
    ),
    by_rules!(
        "stored_rate_signed",
        "a rate of 2^31 or more is allowed",
        allowed: |_, part, word| if part == RATE {
            is_allowed(part, word) || word >> 31 == 1
        } else {
            is_allowed(part, word)
        },
    ),
    by_rules!(
        "stored_run_0",
        "a run length of 0 is allowed",
        allowed: |_, part, word| if part == RUN_LENGTH {
            word == 0 || is_allowed(part, word)
        } else {
            is_allowed(part, word)
        },
    ),
    by_rules!(
        "stored_run_1",
        "a run length of 1 is allowed",
        allowed: |_, part, word| if part == RUN_LENGTH { (1..=4_096).contains(&word) } else { is_allowed(part, word) },
    ),
    by_rules!(
        "stored_run_2",
        "a run length of 2 is turned away",
        allowed: |_, part, word| if part == RUN_LENGTH { (3..=4_096).contains(&word) } else { is_allowed(part, word) },
    ),
    by_rules!(
        "stored_run_4096",
        "a run length of 4,096 is turned away",
        allowed: |_, part, word| if part == RUN_LENGTH { (2..4_096).contains(&word) } else { is_allowed(part, word) },
    ),
    by_rules!(
        "stored_run_4097",
        "a run length of 4,097 is allowed",
        allowed: |_, part, word| if part == RUN_LENGTH { (2..=4_097).contains(&word) } else { is_allowed(part, word) },
    ),
    by_rules!(
        "stored_run_16_alone",
        "a run length other than 16 is turned away",
        allowed: |_, part, word| if part == RUN_LENGTH { word == 16 } else { is_allowed(part, word) },
    ),
    by_rules!(
        "stored_run_of_16_digits",
        "of the run length the last 16 binary digits count",
        allowed: |_, part, word| if part == RUN_LENGTH {
            is_allowed(part, word & 0xffff)
        } else {
            is_allowed(part, word)
        },
    ),
    by_rules!(
        "stored_run_signed",
        "a run length of 2^31 or more is allowed",
        allowed: |_, part, word| if part == RUN_LENGTH {
            is_allowed(part, word) || word >> 31 == 1
        } else {
            is_allowed(part, word)
        },
    ),
    by_rules!(
        "stored_reader_unchecked",
        "a reader does not look whether settings are allowed",
        allowed: |call, part, word| matches!(call, Call::Read(_)) || is_allowed(part, word),
    ),
    by_rules!(
        "stored_writer_unchecked",
        "a writer does not look whether settings are allowed",
        allowed: |call, part, word| matches!(call, Call::Write(_)) || is_allowed(part, word),
    ),
    by_rules!(
        "stored_last_unchecked",
        "a writer does not look at the last setting",
        allowed: |call, part, word| call == Call::Write(Version::Two) && part == 7 || is_allowed(part, word),
    ),
];

/// What is written, and what becomes of it on the way.
const WRITTEN: &[Standin] = &[
    by_rules!("stored_run_of_v1_15", "a version 1 block gets the run length 15", run: Some(15)),
    by_rules!("stored_run_of_v1_17", "a version 1 block gets the run length 17", run: Some(17)),
    by_rules!("stored_run_of_v1_0", "a version 1 block gets the run length 0", run: Some(0)),
    by_rules!("stored_run_of_v1_2", "a version 1 block gets the run length 2", run: Some(2)),
    by_rules!("stored_run_of_v1_none", "a version 1 block gets no run length", run: None),
    by_rules!(
        "stored_zero_without_sign",
        "-0 becomes 0",
        becomes: |part, word| if part != BITS && word == 0x8000_0000 { 0 } else { word },
    ),
    by_rules!(
        "stored_subnormal_flushed",
        "a subnormal float becomes 0",
        becomes: |part, word| if part == STRENGTH && word & 0x7f80_0000 == 0 { word & 0x8000_0000 } else { word },
    ),
    by_rules!(
        "stored_infinity_held",
        "an infinity becomes the largest float",
        becomes: |part, word| if part == SENSITIVITY && word << 1 == 0xff00_0000 { word - 1 } else { word },
    ),
    by_rules!(
        "stored_sensitivity_clamped",
        "a sensitivity is held to 1..10 before it is stored",
        becomes: |part, word| if part == SENSITIVITY { f32::from_bits(word).clamp(1.0, 10.0).to_bits() } else { word },
    ),
    by_rules!(
        "stored_strength_clamped",
        "a strength is held to 0..1 before it is stored",
        becomes: |part, word| if part == STRENGTH { f32::from_bits(word).clamp(0.0, 1.0).to_bits() } else { word },
    ),
    by_rules!(
        "stored_bits_clamped",
        "bits are held to 4..24 before they are stored",
        becomes: |part, word| if part == BITS { word.clamp(4, 24) } else { word },
    ),
    by_rules!(
        "stored_bits_as_float",
        "bits go by way of a float: a signalling NaN becomes quiet",
        becomes: |part, word| if part == BITS && f32::from_bits(word).is_nan() { word | 0x0040_0000 } else { word },
    ),
    by_rules!(
        "stored_bits_one_nan",
        "bits go by way of a float: every NaN becomes 7FC00000",
        becomes: |part, word| if part == BITS && f32::from_bits(word).is_nan() { 0x7fc0_0000 } else { word },
    ),
    by_rules!(
        "stored_gap_without_sign",
        "a longest gap loses its sign",
        becomes: |part, word| if part == LONGEST_GAP { word & 0x7fff_ffff } else { word },
    ),
    by_rules!(
        "stored_rate_as_float",
        "a rate goes by way of a float of its number",
        becomes: |part, word| if part == RATE { word as f32 as u32 & !1 } else { word },
    ),
    by_rules!(
        "stored_run_of_8_digits",
        "a run length is stored in 8 binary digits, at least 2",
        becomes: |part, word| if part == RUN_LENGTH { (word & 0xff).max(2) } else { word },
    ),
    by_rules!("stored_written_from_highest", "words are written highest byte first", bytes: u32::to_be_bytes),
    by_rules!("stored_written_as_v1", "version 2 is written with the number 1", head: |of| [1, of.settings() as u32]),
    by_rules!(
        "stored_written_parts_8",
        "one part too many is said to be there",
        head: |of| [of.number(), of.settings() as u32 + 1],
    ),
    by_rules!(
        "stored_written_from_0",
        "parts are numbered from 0",
        row: |of, part| [part as u32 - 1, body(of, part), 4],
    ),
    by_rules!(
        "stored_written_from_table",
        "offsets are written from the table's end",
        row: |_, part| [part as u32, 4 * (part as u32 - 1), 4],
    ),
    by_rules!(
        "stored_written_behind_version",
        "offsets are written from behind the version",
        row: |of, part| [part as u32, body(of, part) - 4, 4],
    ),
    by_rules!(
        "stored_written_length_1",
        "lengths are written in words",
        row: |of, part| [part as u32, body(of, part), 1],
    ),
    by_rules!(
        "stored_written_at_80",
        "the bodies of version 2 are said to begin at 80",
        row: |_, part| [part as u32, 76 + 4 * part as u32, 4],
    ),
    by_rules!(
        "stored_parts_exchanged",
        "threshold and sensitivity are exchanged, both ways",
        place: |part| match part { 1 => 2, 2 => 1, _ => part },
    ),
    by_rules!(
        "stored_bits_last",
        "bits stand behind the rate, both ways",
        place: |part| match part { 4 => 6, 5 => 4, 6 => 5, _ => part },
    ),
];

/// How much has to be lent.
const ROOMS: &[Standin] = &[
    by_rules!(
        "stored_6_behind_18_read",
        "a reader tests 6 behind 18",
        read: |not| first(&[(18, not.cut), (17, not.unknown), (18, not.malformed || not.not_allowed), (6, not.short)]),
    ),
    by_rules!(
        "stored_6_behind_17",
        "a reader tests 6 behind 17",
        read: |not| first(&[(18, not.cut), (17, not.unknown), (6, not.short), (18, not.malformed || not.not_allowed)]),
    ),
    by_rules!(
        "stored_6_behind_version",
        "a reader tests 6 behind a missing version",
        read: |not| first(&[(18, not.cut), (6, not.short), (17, not.unknown), (18, not.malformed || not.not_allowed)]),
    ),
    by_rules!(
        "stored_6_behind_18_write",
        "a writer tests 6 behind 18",
        write: |not| first(&[(18, not.not_allowed), (6, not.short)]),
    ),
    by_rules!(
        "stored_area_one_short",
        "a reader takes an area that is one word short",
        words: |call, words| matches!(call, Call::Read(_)) && words + 1 >= needed(call) || words >= needed(call),
    ),
    by_rules!(
        "stored_area_one_more",
        "a reader needs one word more",
        words: |call, words| words >= needed(call) + usize::from(matches!(call, Call::Read(_))),
    ),
    by_rules!(
        "stored_area_of_6",
        "the new reader takes an area of 6 words for a version 1 block",
        read: |not| if not.short && not.number == 1 && not.words == 6 {
            read(&Not { short: false, ..*not })
        } else {
            read(not)
        },
    ),
    by_rules!(
        "stored_area_of_7_for_v1",
        "the version 1 reader needs 7 words",
        words: |call, words| words >= if call == Call::Read(Version::One) { 7 } else { needed(call) },
    ),
    by_rules!(
        "stored_area_exact",
        "an area for settings that is longer is refused by 6",
        words: |call, words| words == needed(call),
    ),
    by_rules!(
        "stored_area_untested",
        "a reader does not test its area",
        words: |call, words| matches!(call, Call::Read(_)) || words >= needed(call),
    ),
    by_rules!(
        "stored_settings_one_short",
        "a writer takes settings that are one word short",
        words: |call, words| words + usize::from(matches!(call, Call::Write(_))) >= needed(call),
    ),
    by_rules!(
        "stored_settings_of_7_for_v1",
        "the version 1 writer needs 7 words",
        words: |call, words| words >= if call == Call::Write(Version::One) { 7 } else { needed(call) },
    ),
    by_rules!(
        "stored_room_one_short",
        "a writer takes room that is one byte short",
        room: |of, bytes| bytes + 1 >= of.bytes(),
    ),
    by_rules!("stored_room_one_more", "a writer needs one byte more", room: |of, bytes| bytes > of.bytes()),
    by_rules!("stored_room_of_120_for_v1", "the version 1 writer needs 120 bytes", room: |_, bytes| bytes >= 120),
    by_rules!(
        "stored_room_of_104_for_v2",
        "the version 2 writer takes room of 104 bytes",
        room: |_, bytes| bytes >= 104,
    ),
    by_rules!(
        "stored_room_exact",
        "room for the block that is longer is refused by 6",
        room: |of, bytes| bytes == of.bytes(),
    ),
    by_rules!(
        "stored_room_by_18",
        "18 is given where the room is short",
        write: |not| if not.short { 18 } else { write(not) },
    ),
];

/// What an acceptance and a refusal leave.
const LEFT: &[Standin] = &[
    altering!("stored_word_behind_written", "a reader clears the word behind the settings", |lent, call| accepted_and(
        lent,
        call,
        |lent, call| if let Call::Read(by) = call {
            lent.settings.whole[GUARDS + by.settings()] = 0
        }
    )),
    altering!("stored_v1_writes_16", "the version 1 reader writes 16 behind its settings", |lent, call| accepted_and(
        lent,
        call,
        |lent, call| if call == Call::Read(Version::One) && lent.settings.lent().len() > 6 {
            lent.settings.lend()[6] = 16
        }
    )),
    altering!("stored_settings_behind_cleared", "a reader clears what stands behind the settings", |lent, call| {
        accepted_and(lent, call, |lent, call| {
            if let Call::Read(by) = call {
                lent.settings.lend()[by.settings()..].fill(0)
            }
        })
    }),
    altering!("stored_byte_behind_written", "a writer sets the byte behind the block to 1", |lent, call| accepted_and(
        lent,
        call,
        |lent, call| if let Call::Write(of) = call {
            lent.block.whole[GUARDS + of.bytes()] = 1
        }
    )),
    altering!(
        "stored_block_behind_cleared",
        "a writer clears what stands behind the block",
        |lent, call| accepted_and(lent, call, |lent, call| if let Call::Write(of) = call {
            lent.block.lend()[of.bytes()..].fill(0)
        })
    ),
    altering!("stored_block_read_written", "a reader clears the version of the block that it read", |lent, call| {
        accepted_and(lent, call, |lent, call| {
            if let Call::Read(_) = call {
                lent.block.lend()[0] = 0
            }
        })
    }),
    altering!("stored_settings_written_cleared", "a writer clears the settings that it wrote", |lent, call| {
        accepted_and(lent, call, |lent, call| {
            if let Call::Write(_) = call {
                lent.settings.lend().fill(0)
            }
        })
    }),
    altering!("stored_refused_clears_settings", "a reader that refuses clears the area for settings", |lent, call| {
        refused_and(lent, call, |lent, call, _| {
            if let Call::Read(_) = call {
                lent.settings.lend().fill(0)
            }
        })
    }),
    altering!("stored_refused_shows_settings", "a reader that refuses shows the bodies of the block", |lent, call| {
        refused_and(lent, call, |lent, call, _| show(lent, call, usize::MAX))
    }),
    altering!(
        "stored_17_shows_settings",
        "the version 1 reader that refuses version 2 shows its settings",
        |lent, call| refused_and(
            lent,
            call,
            |lent, call, number| if number == 17 && call == Call::Read(Version::One) {
                show(lent, call, 6)
            }
        )
    ),
    altering!("stored_18_shows_first", "a reader that refuses by 18 shows the first settings", |lent, call| {
        refused_and(lent, call, |lent, call, number| {
            if number == 18 {
                show(lent, call, 2)
            }
        })
    }),
    altering!("stored_6_shows_some", "a reader whose area is short shows as many settings as fit", |lent, call| {
        refused_and(lent, call, |lent, call, number| {
            if number == 6 {
                show(lent, call, usize::MAX)
            }
        })
    }),
    altering!(
        "stored_refused_writes_block",
        "a writer that refuses leaves the block as far as there is room",
        |lent, call| refused_and(lent, call, |lent, call, _| lay(lent, call, usize::MAX))
    ),
    altering!("stored_refused_writes_version", "a writer that refuses a setting leaves the version", |lent, call| {
        refused_and(lent, call, |lent, call, number| {
            if number == 18 {
                lay(lent, call, 4)
            }
        })
    }),
    altering!("stored_refused_clears_block", "a writer that refuses clears its room", |lent, call| refused_and(
        lent,
        call,
        |lent, call, _| if let Call::Write(_) = call {
            lent.block.lend().fill(0)
        }
    )),
    altering!("stored_answers_length", "a writer that accepts answers how many bytes it wrote", |lent, call| match (
        lent.call(call),
        call
    ) {
        (0, Call::Write(of)) => of.bytes() as u32,
        (number, _) => number,
    }),
    altering!("stored_answers_version", "a reader that accepts answers the version", |lent, call| match (
        lent.call(call),
        call
    ) {
        (0, Call::Read(_)) => lent.block.lent()[0].into(),
        (number, _) => number,
    }),
];

/// What several changes at once show.
const FORMS: &[Standin] = &[
    by_rules!(
        "stored_offsets_of_any_order",
        "the parts may stand in any order, with offsets that say so",
        offset: |has, at| has % 4 == 0 && (at.table..at.table + 28).contains(&has),
        at: |offset, _| offset,
    ),
    by_rules!(
        "stored_numbers_of_any_order",
        "the rows may stand in any order",
        number: |has, at| (1..=7).contains(&has) && at.part <= 7,
        offset: |_, _| true,
    ),
    by_rules!(
        "stored_offset_sum",
        "only the sum of an offset and a length is looked at",
        offset: |_, _| true,
        length: |_, _| true,
        pair: |offset, length, at| offset.wrapping_add(length) == at.body + 4,
    ),
    by_rules!(
        "stored_table_from_either",
        "a table whose offsets all count from its end is allowed",
        offset: |has, at| has == at.body || has + at.table == at.body,
    ),
];

/// Wrong on both sides, and to be found by what has to hold whatever the model says.
const ALIKE: &[Standin] = &[
    alike!("stored_both_run_of_v1_15", "a version 1 block gets the run length 15", run: Some(15)),
    alike!("stored_both_run_of_v1_none", "a version 1 block gets no run length", run: None),
    alike!(
        "stored_both_v1_takes_v2",
        "the version 1 reader takes a version 2 block",
        known: |_, number| Version::Two.known(number),
    ),
    alike!(
        "stored_both_from_highest",
        "words are read and written highest byte first",
        word: u32::from_be_bytes,
        bytes: u32::to_be_bytes,
    ),
    alike!(
        "stored_both_from_table",
        "offsets count from the table's end, read and written",
        offset: |has, at| has + at.table == at.body,
        row: |_, part| [part as u32, 4 * (part as u32 - 1), 4],
    ),
    alike!(
        "stored_both_from_0",
        "parts are numbered from 0, read and written",
        number: |has, at| has + 1 == at.part,
        row: |of, part| [part as u32 - 1, body(of, part), 4],
    ),
    alike!(
        "stored_both_exchanged",
        "threshold and sensitivity are exchanged, read and written",
        place: |part| match part { 1 => 2, 2 => 1, _ => part },
    ),
    alike!(
        "stored_both_zero_without_sign",
        "-0 becomes 0",
        becomes: |part, word| if part != BITS && word == 0x8000_0000 { 0 } else { word },
    ),
    alike!(
        "stored_both_threshold_0",
        "a threshold of 0 is allowed",
        allowed: |_, part, word| if part == THRESHOLD {
            f32::from_bits(word) >= 0.0 && f32::from_bits(word).is_finite() && word >> 31 == 0
        } else {
            is_allowed(part, word)
        },
    ),
    alike!(
        "stored_both_gap_infinite",
        "an infinite longest gap is allowed",
        allowed: |_, part, word| if part == LONGEST_GAP {
            !f32::from_bits(word).is_nan()
        } else {
            is_allowed(part, word)
        },
    ),
    alike!(
        "stored_both_run_1",
        "a run length of 1 is allowed",
        allowed: |_, part, word| if part == RUN_LENGTH { (1..=4_096).contains(&word) } else { is_allowed(part, word) },
    ),
    alike!(
        "stored_both_sensitivity_infinite",
        "an infinite sensitivity is turned away",
        allowed: |_, part, word| if part == SENSITIVITY {
            f32::from_bits(word).is_finite()
        } else {
            is_allowed(part, word)
        },
    ),
    alike!(
        "stored_both_v2_is_18",
        "the version 1 reader turns version 2 away with 18",
        read: |not| if not.number == 2 && not.by == Version::One && !not.short { 18 } else { read(not) },
    ),
];

/// Right ones.
const RIGHT: &[Standin] = &[
    by_rules!("stored_by_hand", "readers and writers written by hand, by rules that are right", run: Some(16)),
    altering!(
        "stored_read_by_writing",
        "a block is read where its bodies, written again, are the same",
        |lent, call| match call {
            Call::Read(by) => read_by_writing(lent, by),
            Call::Write(_) => lent.call(call),
        }
    ),
];

/// Where a part is: its number, where its body stands, and where the table ends.
#[derive(Clone, Copy)]
struct At {
    part: u32,
    body: u32,
    table: u32,
}

/// What readers and writers go by.
#[derive(Clone, Copy)]
struct Rules {
    /// The word of four bytes, and the bytes of one.
    word: fn([u8; 4]) -> u32,
    bytes: fn(u32) -> [u8; 4],
    /// The version that a reader takes a number for.
    known: fn(Version, u32) -> Option<Version>,
    /// Whether there may be said to be so many parts where so many are right; and whether a part may have this number,
    /// offset, length, and offset and length together.
    parts: fn(u32, u32) -> bool,
    number: fn(u32, At) -> bool,
    offset: fn(u32, At) -> bool,
    length: fn(u32, At) -> bool,
    pair: fn(u32, u32, At) -> bool,
    /// Of a part's offset and of where its body is to stand, where it is read.
    at: fn(u32, u32) -> u32,
    /// Whether a block may have so many bytes where so many are right.
    ends: fn(usize, usize) -> bool,
    /// Whether a call allows this word for a part; what becomes of it; and where a part's setting stands among all.
    allowed: fn(Call, usize, u32) -> bool,
    becomes: fn(usize, u32) -> u32,
    place: fn(usize) -> usize,
    /// The run length of a version 1 block in the new reader.
    run: Option<u32>,
    /// The first two words of a block that is written, and the row of a part.
    head: fn(Version) -> [u32; 2],
    row: fn(Version, usize) -> [u32; 3],
    /// Whether so many words are enough for a call, and so many bytes for a block that is written.
    words: fn(Call, usize) -> bool,
    room: fn(Version, usize) -> bool,
    /// The number of a reader's refusal, and of a writer's, or 0.
    read: fn(&Not) -> u32,
    write: fn(&Not) -> u32,
}

/// What they are to go by.
const RULES: Rules = Rules {
    word: u32::from_le_bytes,
    bytes: u32::to_le_bytes,
    known: Version::known,
    parts: |has, right| has == right,
    number: |has, at| has == at.part,
    offset: |has, at| has == at.body,
    length: |has, _| has == 4,
    pair: |_, _, _| true,
    at: |_, body| body,
    ends: |has, right| has == right,
    allowed: |_, part, word| is_allowed(part, word),
    becomes: |_, word| word,
    place: |part| part,
    run: Some(16),
    head: |of| [of.number(), of.settings() as u32],
    row: |of, part| [part as u32, body(of, part), 4],
    words: |call, words| words >= needed(call),
    room: |of, bytes| bytes >= of.bytes(),
    read,
    write,
};

/// What is not allowed of what is lent, with the version that leads the block, and how much is lent.
struct Not {
    by: Version,
    number: u32,
    bytes: usize,
    words: usize,
    short: bool,
    cut: bool,
    unknown: bool,
    malformed: bool,
    not_allowed: bool,
}

/// The first of these numbers that applies, or 0.
fn first(numbers: &[(u32, bool)]) -> u32 {
    numbers.iter().find(|(_, applies)| *applies).map_or(0, |(number, _)| *number)
}

fn read(not: &Not) -> u32 {
    first(&[(6, not.short), (18, not.cut), (17, not.unknown), (18, not.malformed || not.not_allowed)])
}

fn write(not: &Not) -> u32 {
    first(&[(6, not.short), (18, not.not_allowed)])
}

/// How many words a call needs.
fn needed(call: Call) -> usize {
    let (Call::Read(of) | Call::Write(of)) = call;
    of.settings()
}

/// Where the body of a part stands.
fn body(of: Version, part: usize) -> u32 {
    (of.table_end() + WORD * (part - 1)) as u32
}

/// The word at this place; what is not there counts as zeros.
fn word_at(bytes: &[u8], at: usize, rules: &Rules) -> u32 {
    let mut four = [0; 4];
    four.iter_mut().zip(bytes.iter().skip(at)).for_each(|(byte, of)| *byte = *of);
    (rules.word)(four)
}

/// The settings of a block of this version, and whether it is malformed.
fn settings_of(bytes: &[u8], n: usize, of: Version, rules: &Rules) -> (Vec<u32>, bool) {
    let parts = of.settings();
    let mut right = (rules.parts)(word_at(bytes, WORD, rules), parts as u32) && (rules.ends)(n, of.bytes());
    let mut settings = vec![0; parts];
    for part in 1..=parts {
        let at = At { part: part as u32, body: body(of, part), table: of.table_end() as u32 };
        let row = HEAD + ROW * (part - 1);
        let [number, offset, length] = [0, 1, 2].map(|place| word_at(bytes, row + WORD * place, rules));
        right &= (rules.number)(number, at) && (rules.offset)(offset, at) && (rules.length)(length, at);
        right &= (rules.pair)(offset, length, at);
        settings[(rules.place)(part) - 1] = word_at(bytes, (rules.at)(offset, at.body) as usize, rules);
    }
    (settings, !right)
}

/// A reader's answer, and the words that it shows where it accepts. Of the bytes so many are lent, and so many words.
fn read_of(bytes: &[u8], n: usize, words: usize, by: Version, rules: &Rules) -> (u32, Vec<u32>) {
    let number = word_at(bytes, 0, rules);
    let known = (rules.known)(by, number);
    let of = known.unwrap_or(by);
    let (settings, malformed) = settings_of(bytes, n, of, rules);
    let allows = |(place, word): (usize, &u32)| (rules.allowed)(Call::Read(by), place + 1, *word);
    let not = Not {
        by,
        number,
        bytes: n,
        words,
        short: !(rules.words)(Call::Read(by), words),
        cut: n < WORD,
        unknown: known.is_none(),
        malformed,
        not_allowed: !settings.iter().enumerate().all(allows),
    };
    let mut shown: Vec<u32> =
        settings.iter().enumerate().map(|(place, word)| (rules.becomes)(place + 1, *word)).collect();
    shown.extend(rules.run.filter(|_| of == Version::One));
    shown.truncate(by.settings());
    ((rules.read)(&not), shown)
}

/// A writer's answer, and the bytes that it writes where it accepts. So many words and so many bytes are lent.
fn write_of(settings: &[u32], words: usize, room: usize, of: Version, rules: &Rules) -> (u32, Vec<u8>) {
    let settings: Vec<u32> = (0..of.settings()).map(|place| settings.get(place).copied().unwrap_or(0)).collect();
    let allows = |(place, word): (usize, &u32)| (rules.allowed)(Call::Write(of), place + 1, *word);
    let not = Not {
        by: of,
        number: of.number(),
        bytes: room,
        words,
        short: !(rules.words)(Call::Write(of), words) || !(rules.room)(of, room),
        cut: false,
        unknown: false,
        malformed: false,
        not_allowed: !settings.iter().enumerate().all(allows),
    };
    ((rules.write)(&not), laid(&settings, of, rules))
}

/// The block of these settings.
fn laid(settings: &[u32], of: Version, rules: &Rules) -> Vec<u8> {
    let mut block = (rules.head)(of).to_vec();
    (1..=of.settings()).for_each(|part| block.extend((rules.row)(of, part)));
    let body = |part: usize| (rules.becomes)((rules.place)(part), settings[(rules.place)(part) - 1]);
    block.extend((1..=of.settings()).map(body));
    block.into_iter().flat_map(rules.bytes).collect()
}

/// The first of these become the others, as far as both go.
fn fill<T: Copy>(room: &mut [T], with: &[T]) {
    room.iter_mut().zip(with).for_each(|(at, of)| *at = *of);
}

/// The call is made by these rules. Where they allow too much, what stands around the lent parts is read and written.
fn keep_by(lent: &mut Stored, call: Call, rules: Rules) -> u32 {
    let (bytes, words) = (lent.block.lent().len(), lent.settings.lent().len());
    match call {
        Call::Read(by) => {
            let (number, shown) = read_of(&lent.block.whole[GUARDS..], bytes, words, by, &rules);
            fill(&mut lent.settings.whole[GUARDS..], if number == 0 { &shown } else { &[] });
            number
        }
        Call::Write(of) => {
            let (number, block) = write_of(&lent.settings.whole[GUARDS..], words, bytes, of, &rules);
            fill(&mut lent.block.whole[GUARDS..], if number == 0 { &block } else { &[] });
            number
        }
    }
}

/// Likewise on these areas.
fn keep_in(areas: &mut Areas, call: Call, rules: Rules) -> u32 {
    let (bytes, words) = (areas.block.len(), areas.settings.len());
    match call {
        Call::Read(by) => {
            let (number, shown) = read_of(&areas.block, bytes, words, by, &rules);
            fill(&mut areas.settings, if number == 0 { &shown } else { &[] });
            number
        }
        Call::Write(of) => {
            let (number, block) = write_of(&areas.settings, words, bytes, of, &rules);
            fill(&mut areas.block, if number == 0 { &block } else { &[] });
            number
        }
    }
}

/// The library makes the call; where it accepts, its work is altered.
fn accepted_and(lent: &mut Stored, call: Call, alter: fn(&mut Stored, Call)) -> u32 {
    let number = lent.call(call);
    if number == 0 {
        alter(lent, call);
    }
    number
}

/// The library makes the call; where it refuses, its work is altered. The number is told.
fn refused_and(lent: &mut Stored, call: Call, alter: fn(&mut Stored, Call, u32)) -> u32 {
    let number = lent.call(call);
    if number != 0 {
        alter(lent, call, number);
    }
    number
}

/// A reader shows so many of the words at the end of the block, as far as there is room.
fn show(lent: &mut Stored, call: Call, most: usize) {
    if let Call::Read(by) = call {
        let of = by.known(word_at(lent.block.lent(), 0, &RULES)).unwrap_or(Version::Two);
        let (settings, _) = settings_of(lent.block.lent(), 0, of, &RULES);
        fill(lent.settings.lend(), &settings[..most.min(by.settings()).min(settings.len())]);
    }
}

/// A writer leaves so many bytes of the block, as far as there is room.
fn lay(lent: &mut Stored, call: Call, most: usize) {
    if let Call::Write(of) = call {
        let (words, bytes) = (lent.settings.lent().len(), lent.block.lent().len());
        let (_, block) = write_of(lent.settings.lent(), words, bytes, of, &RULES);
        fill(lent.block.lend(), &block[..most.min(block.len())]);
    }
}

/// A reader that writes the bodies of a block again, and accepts it where it is the same.
fn read_by_writing(lent: &mut Stored, by: Version) -> u32 {
    let (block, words) = (lent.block.lent().to_vec(), lent.settings.lent().len());
    let known = by.known(word_at(&block, 0, &RULES));
    let not_read = [(6, words < by.settings()), (18, block.len() < WORD), (17, known.is_none())];
    if first(&not_read) != 0 {
        return first(&not_read);
    }
    let of = known.unwrap_or(by);
    let (mut settings, _) = settings_of(&block, block.len(), of, &RULES);
    let (number, again) = write_of(&settings, of.settings(), of.bytes(), of, &RULES);
    if number != 0 || again != block {
        return 18;
    }
    settings.resize(by.settings(), 16);
    fill(lent.settings.lend(), &settings);
    0
}
