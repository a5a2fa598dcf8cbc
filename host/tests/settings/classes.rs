//! What the calls on stored settings have to be.
use super::faults::Fault;
use super::made::{Change, Made};
use cathar_host::count::Class;
use cathar_host::stored::{Call, Version, BITS, LONGEST_GAP, RATE, RUN_LENGTH, SENSITIVITY, STRENGTH, THRESHOLD};

/// What all tests have.
pub const ANSWERS: &[Class<Made>] = &[
    Class { name: "calls", least: 7_400, holds: |_| true },
    Class { name: "accepted", least: 80, holds: |m| m.number == 0 },
];

/// Of damaged blocks: which are accepted, and what was done to those that are and that are not.
pub const DAMAGED: &[Class<Made>] = &[
    Class { name: "version 1, accepted by its reader", least: 18_000, holds: |m| m.accepts(Version::One, 1) },
    Class { name: "version 1, accepted by the new one", least: 18_000, holds: |m| m.accepts(Version::Two, 1) },
    Class { name: "version 2, accepted by the new one", least: 18_000, holds: |m| m.accepts(Version::Two, 2) },
    Class { name: "refused by 17", least: 120_000, holds: |m| m.reads(17) },
    Class { name: "refused by 18", least: 250_000, holds: |m| m.reads(18) },
    Class { name: "as written, accepted", least: 10, holds: |m| m.changed(Change::Nothing, 0) },
    Class { name: "one digit changed, accepted", least: 1_700, holds: |m| m.changed(Change::Digit, 0) },
    Class { name: "one byte changed, accepted", least: 56_000, holds: |m| m.changed(Change::Byte, 0) },
    Class { name: "one digit changed: 17", least: 3_800, holds: |m| m.changed(Change::Digit, 17) },
    Class { name: "one digit changed: 18", least: 7_300, holds: |m| m.changed(Change::Digit, 18) },
    Class { name: "one byte changed: 17", least: 120_000, holds: |m| m.changed(Change::Byte, 17) },
    Class { name: "one byte changed: 18", least: 230_000, holds: |m| m.changed(Change::Byte, 18) },
    Class { name: "cut short: 17", least: 410, holds: |m| m.changed(Change::Cut, 17) },
    Class { name: "cut short: 18", least: 1_100, holds: |m| m.changed(Change::Cut, 18) },
    Class { name: "made longer: 17", least: 690, holds: |m| m.changed(Change::Longer, 17) },
    Class { name: "made longer: 18", least: 2_000, holds: |m| m.changed(Change::Longer, 18) },
    Class { name: "a byte more: 17", least: 2_300, holds: |m| m.changed(Change::Inserted, 17) },
    Class { name: "a byte more: 18", least: 5_700, holds: |m| m.changed(Change::Inserted, 18) },
    Class { name: "a byte less: 17", least: 470, holds: |m| m.changed(Change::Removed, 17) },
    Class { name: "a byte less: 18", least: 1_100, holds: |m| m.changed(Change::Removed, 18) },
];

/// Each clause of the rule, where it alone turns a block away by 18.
pub const FAULTS: &[Class<Made>] = &[
    Class { name: "only longer than it is to be", least: 2_900, holds: |m| m.only(Fault::Longer) },
    Class { name: "only shorter than it is to be", least: 1_300, holds: |m| m.only(Fault::Shorter) },
    Class { name: "only the number of parts is wrong", least: 11_000, holds: |m| m.only(Fault::Parts) },
    Class { name: "only part 1's number is wrong", least: 11_000, holds: |m| m.only(Fault::Number(1)) },
    Class { name: "only part 2's number is wrong", least: 11_000, holds: |m| m.only(Fault::Number(2)) },
    Class { name: "only part 3's number is wrong", least: 11_000, holds: |m| m.only(Fault::Number(3)) },
    Class { name: "only part 4's number is wrong", least: 11_000, holds: |m| m.only(Fault::Number(4)) },
    Class { name: "only part 5's number is wrong", least: 11_000, holds: |m| m.only(Fault::Number(5)) },
    Class { name: "only part 6's number is wrong", least: 11_000, holds: |m| m.only(Fault::Number(6)) },
    Class { name: "only part 7's number is wrong", least: 3_700, holds: |m| m.only(Fault::Number(7)) },
    Class { name: "only part 1's offset is wrong", least: 11_000, holds: |m| m.only(Fault::Offset(1)) },
    Class { name: "only part 2's offset is wrong", least: 11_000, holds: |m| m.only(Fault::Offset(2)) },
    Class { name: "only part 3's offset is wrong", least: 11_000, holds: |m| m.only(Fault::Offset(3)) },
    Class { name: "only part 4's offset is wrong", least: 11_000, holds: |m| m.only(Fault::Offset(4)) },
    Class { name: "only part 5's offset is wrong", least: 11_000, holds: |m| m.only(Fault::Offset(5)) },
    Class { name: "only part 6's offset is wrong", least: 11_000, holds: |m| m.only(Fault::Offset(6)) },
    Class { name: "only part 7's offset is wrong", least: 3_700, holds: |m| m.only(Fault::Offset(7)) },
    Class { name: "only part 1's length is wrong", least: 11_000, holds: |m| m.only(Fault::Length(1)) },
    Class { name: "only part 2's length is wrong", least: 11_000, holds: |m| m.only(Fault::Length(2)) },
    Class { name: "only part 3's length is wrong", least: 11_000, holds: |m| m.only(Fault::Length(3)) },
    Class { name: "only part 4's length is wrong", least: 11_000, holds: |m| m.only(Fault::Length(4)) },
    Class { name: "only part 5's length is wrong", least: 11_000, holds: |m| m.only(Fault::Length(5)) },
    Class { name: "only part 6's length is wrong", least: 11_000, holds: |m| m.only(Fault::Length(6)) },
    Class { name: "only part 7's length is wrong", least: 3_700, holds: |m| m.only(Fault::Length(7)) },
    Class { name: "only the threshold is not allowed", least: 500, holds: |m| m.only(Fault::Setting(THRESHOLD)) },
    Class { name: "only the sensitivity is not allowed", least: 1_000, holds: |m| m.only(Fault::Setting(SENSITIVITY)) },
    Class { name: "only the strength is not allowed", least: 1_000, holds: |m| m.only(Fault::Setting(STRENGTH)) },
    Class { name: "only the longest gap is not allowed", least: 100, holds: |m| m.only(Fault::Setting(LONGEST_GAP)) },
    Class { name: "only the rate is not allowed", least: 2_000, holds: |m| m.only(Fault::Setting(RATE)) },
    Class { name: "only the run length is not allowed", least: 1_500, holds: |m| m.only(Fault::Setting(RUN_LENGTH)) },
];

/// Versions, and what stands behind them.
pub const VERSIONS: &[Class<Made>] = &[
    Class { name: "0 bytes: 18", least: 300, holds: |m| m.reads(18) && m.before.block.is_empty() },
    Class { name: "1 byte: 18", least: 300, holds: |m| m.reads(18) && m.before.block.len() == 1 },
    Class { name: "2 bytes: 18", least: 300, holds: |m| m.reads(18) && m.before.block.len() == 2 },
    Class { name: "3 bytes: 18", least: 300, holds: |m| m.reads(18) && m.before.block.len() == 3 },
    Class { name: "a known version alone: 18", least: 140, holds: |m| m.reads(18) && m.before.block.len() == 4 },
    Class { name: "an unknown version alone: 17", least: 2_000, holds: |m| m.reads(17) && m.before.block.len() == 4 },
    Class {
        name: "version 0, all else right: 17",
        least: 90,
        holds: |m| m.reads(17) && m.version() == Some(0) && m.is_right_but_version(),
    },
    Class {
        name: "version 3, all else right: 17",
        least: 90,
        holds: |m| m.reads(17) && m.version() == Some(3) && m.is_right_but_version(),
    },
    Class {
        name: "version 2^32-1, all else right: 17",
        least: 90,
        holds: |m| m.reads(17) && m.version() == Some(u32::MAX) && m.is_right_but_version(),
    },
    Class {
        name: "version 1, highest byte first, else right: 17",
        least: 90,
        holds: |m| m.reads(17) && m.version() == Some(0x0100_0000) && m.is_right_but_version(),
    },
    Class {
        name: "version 257, all else right: 17",
        least: 90,
        holds: |m| m.reads(17) && m.version() == Some(257) && m.is_right_but_version(),
    },
    Class {
        name: "version 65,537, all else right: 17",
        least: 90,
        holds: |m| m.reads(17) && m.version() == Some(0x0001_0001) && m.is_right_but_version(),
    },
    Class {
        name: "unknown, and malformed or not allowed: 17",
        least: 20_000,
        holds: |m| m.reads(17) && !m.is_right_but_version(),
    },
    Class {
        name: "version 2 in the version 1 reader: 17",
        least: 40,
        holds: |m| m.is(Call::Read(Version::One), 17) && m.version() == Some(2) && m.is_right_but_version(),
    },
    Class {
        name: "version 2 there, malformed or not allowed: 17",
        least: 460,
        holds: |m| m.is(Call::Read(Version::One), 17) && m.version() == Some(2) && !m.is_right_but_version(),
    },
    Class {
        name: "version 1 before the parts of version 2: 18",
        least: 20,
        holds: |m| m.reads(18) && m.version() == Some(1) && m.is_right_but_version(),
    },
    Class {
        name: "version 2 before the parts of version 1: 18",
        least: 30,
        holds: |m| m.reads(18) && m.version() == Some(2) && m.is_right_but_version(),
    },
    Class { name: "version 1, accepted by its reader", least: 30, holds: |m| m.accepts(Version::One, 1) },
    Class { name: "version 1, accepted by the new one", least: 30, holds: |m| m.accepts(Version::Two, 1) },
    Class { name: "version 2, accepted by the new one", least: 10, holds: |m| m.accepts(Version::Two, 2) },
];

/// What is written, and what is not.
pub const WAYS: &[Class<Made>] = &[
    Class { name: "version 1, written and read back", least: 25_000, holds: |m| m.is(Call::Write(Version::One), 0) },
    Class { name: "version 2, written and read back", least: 22_000, holds: |m| m.is(Call::Write(Version::Two), 0) },
    Class { name: "version 1, not written: 18", least: 13_000, holds: |m| m.is(Call::Write(Version::One), 18) },
    Class { name: "version 2, not written: 18", least: 16_000, holds: |m| m.is(Call::Write(Version::Two), 18) },
    Class {
        name: "not written, only the threshold is not allowed",
        least: 4_400,
        holds: |m| m.turns_away(THRESHOLD, |_| true),
    },
    Class {
        name: "not written, only the sensitivity is not allowed",
        least: 4_200,
        holds: |m| m.turns_away(SENSITIVITY, |_| true),
    },
    Class {
        name: "not written, only the strength is not allowed",
        least: 4_000,
        holds: |m| m.turns_away(STRENGTH, |_| true),
    },
    Class {
        name: "not written, only the longest gap is not allowed",
        least: 4_000,
        holds: |m| m.turns_away(LONGEST_GAP, |_| true),
    },
    Class { name: "not written, only the rate is not allowed", least: 4_400, holds: |m| m.turns_away(RATE, |_| true) },
    Class {
        name: "not written, only the run length is not allowed",
        least: 2_200,
        holds: |m| m.turns_away(RUN_LENGTH, |_| true),
    },
];

/// Settings on which something turns, those that are written first.
pub const EDGES: &[Class<Made>] = &[
    Class { name: "the least threshold", least: 2_000, holds: |m| m.writes(0) && m.keeps(THRESHOLD, |w| w == 1) },
    Class {
        name: "the largest threshold",
        least: 2_100,
        holds: |m| m.writes(0) && m.keeps(THRESHOLD, |w| w == 0x7f7f_ffff),
    },
    Class {
        name: "sensitivity +infinity",
        least: 1_400,
        holds: |m| m.writes(0) && m.keeps(SENSITIVITY, |w| w == 0x7f80_0000),
    },
    Class {
        name: "sensitivity -infinity",
        least: 1_300,
        holds: |m| m.writes(0) && m.keeps(SENSITIVITY, |w| w == 0xff80_0000),
    },
    Class {
        name: "sensitivity -0",
        least: 1_400,
        holds: |m| m.writes(0) && m.keeps(SENSITIVITY, |w| w == 0x8000_0000),
    },
    Class {
        name: "strength +infinity",
        least: 1_400,
        holds: |m| m.writes(0) && m.keeps(STRENGTH, |w| w == 0x7f80_0000),
    },
    Class {
        name: "strength -infinity",
        least: 1_400,
        holds: |m| m.writes(0) && m.keeps(STRENGTH, |w| w == 0xff80_0000),
    },
    Class { name: "strength -0", least: 1_300, holds: |m| m.writes(0) && m.keeps(STRENGTH, |w| w == 0x8000_0000) },
    Class { name: "bits 0", least: 1_100, holds: |m| m.writes(0) && m.keeps(BITS, |w| w == 0) },
    Class { name: "bits 2^32-1", least: 1_100, holds: |m| m.writes(0) && m.keeps(BITS, |w| w == u32::MAX) },
    Class {
        name: "bits of the pattern of a signalling NaN",
        least: 1_100,
        holds: |m| m.writes(0) && m.keeps(BITS, |w| w == 0x7f80_0001),
    },
    Class { name: "longest gap 0", least: 1_400, holds: |m| m.writes(0) && m.keeps(LONGEST_GAP, |w| w == 0) },
    Class {
        name: "longest gap -0",
        least: 1_500,
        holds: |m| m.writes(0) && m.keeps(LONGEST_GAP, |w| w == 0x8000_0000),
    },
    Class {
        name: "the lowest longest gap",
        least: 1_500,
        holds: |m| m.writes(0) && m.keeps(LONGEST_GAP, |w| w == 0xff7f_ffff),
    },
    Class {
        name: "the largest longest gap",
        least: 1_400,
        holds: |m| m.writes(0) && m.keeps(LONGEST_GAP, |w| w == 0x7f7f_ffff),
    },
    Class { name: "rate 0", least: 4_900, holds: |m| m.writes(0) && m.keeps(RATE, |w| w == 0) },
    Class { name: "rate 16,777,216", least: 4_900, holds: |m| m.writes(0) && m.keeps(RATE, |w| w == 16_777_216) },
    Class { name: "run length 2", least: 1_500, holds: |m| m.writes(0) && m.keeps(RUN_LENGTH, |w| w == 2) },
    Class { name: "run length 3", least: 1_400, holds: |m| m.writes(0) && m.keeps(RUN_LENGTH, |w| w == 3) },
    Class { name: "run length 15", least: 1_400, holds: |m| m.writes(0) && m.keeps(RUN_LENGTH, |w| w == 15) },
    Class { name: "run length 16", least: 1_500, holds: |m| m.writes(0) && m.keeps(RUN_LENGTH, |w| w == 16) },
    Class { name: "run length 17", least: 1_500, holds: |m| m.writes(0) && m.keeps(RUN_LENGTH, |w| w == 17) },
    Class { name: "run length 4,095", least: 1_500, holds: |m| m.writes(0) && m.keeps(RUN_LENGTH, |w| w == 4_095) },
    Class { name: "run length 4,096", least: 1_500, holds: |m| m.writes(0) && m.keeps(RUN_LENGTH, |w| w == 4_096) },
    Class { name: "threshold 0: 18", least: 160, holds: |m| m.turns_away(THRESHOLD, |w| w == 0) },
    Class { name: "threshold -0: 18", least: 170, holds: |m| m.turns_away(THRESHOLD, |w| w == 0x8000_0000) },
    Class { name: "a threshold below 0: 18", least: 190, holds: |m| m.turns_away(THRESHOLD, |w| w == 0xbf80_0000) },
    Class {
        name: "the threshold next below 0: 18",
        least: 190,
        holds: |m| m.turns_away(THRESHOLD, |w| w == 0x8000_0001),
    },
    Class { name: "threshold +infinity: 18", least: 170, holds: |m| m.turns_away(THRESHOLD, |w| w == 0x7f80_0000) },
    Class { name: "threshold -infinity: 18", least: 190, holds: |m| m.turns_away(THRESHOLD, |w| w == 0xff80_0000) },
    Class {
        name: "a threshold that is a NaN: 18",
        least: 2_400,
        holds: |m| m.turns_away(THRESHOLD, |w| f32::from_bits(w).is_nan()),
    },
    Class {
        name: "a sensitivity that is a quiet NaN: 18",
        least: 2_300,
        holds: |m| m.turns_away(SENSITIVITY, |w| w >> 22 & 0x1ff == 0x1ff),
    },
    Class {
        name: "a sensitivity of a signalling NaN: 18",
        least: 1_900,
        holds: |m| m.turns_away(SENSITIVITY, |w| w >> 22 & 0x1ff == 0x1fe && w << 10 != 0),
    },
    Class {
        name: "a sensitivity of the NaN next to infinity: 18",
        least: 340,
        holds: |m| m.turns_away(SENSITIVITY, |w| w == 0x7f80_0001),
    },
    Class {
        name: "a sensitivity of a NaN with its sign: 18",
        least: 310,
        holds: |m| m.turns_away(SENSITIVITY, |w| w == 0xff80_0001),
    },
    Class {
        name: "a strength that is a quiet NaN: 18",
        least: 2_100,
        holds: |m| m.turns_away(STRENGTH, |w| w >> 22 & 0x1ff == 0x1ff),
    },
    Class {
        name: "a strength of a signalling NaN: 18",
        least: 1_800,
        holds: |m| m.turns_away(STRENGTH, |w| w >> 22 & 0x1ff == 0x1fe && w << 10 != 0),
    },
    Class {
        name: "a strength of the NaN next to infinity: 18",
        least: 330,
        holds: |m| m.turns_away(STRENGTH, |w| w == 0x7f80_0001),
    },
    Class { name: "longest gap +infinity: 18", least: 250, holds: |m| m.turns_away(LONGEST_GAP, |w| w == 0x7f80_0000) },
    Class { name: "longest gap -infinity: 18", least: 280, holds: |m| m.turns_away(LONGEST_GAP, |w| w == 0xff80_0000) },
    Class {
        name: "a longest gap that is a NaN: 18",
        least: 3_500,
        holds: |m| m.turns_away(LONGEST_GAP, |w| f32::from_bits(w).is_nan()),
    },
    Class { name: "rate 16,777,217: 18", least: 320, holds: |m| m.turns_away(RATE, |w| w == 16_777_217) },
    Class { name: "rate 2^32-1: 18", least: 300, holds: |m| m.turns_away(RATE, |w| w == u32::MAX) },
    Class { name: "run length 0: 18", least: 120, holds: |m| m.turns_away(RUN_LENGTH, |w| w == 0) },
    Class { name: "run length 1: 18", least: 110, holds: |m| m.turns_away(RUN_LENGTH, |w| w == 1) },
    Class { name: "run length 4,097: 18", least: 120, holds: |m| m.turns_away(RUN_LENGTH, |w| w == 4_097) },
    Class { name: "run length 65,538: 18", least: 120, holds: |m| m.turns_away(RUN_LENGTH, |w| w == 65_538) },
    Class { name: "run length 2^32-1: 18", least: 100, holds: |m| m.turns_away(RUN_LENGTH, |w| w == u32::MAX) },
];

/// How much is lent.
pub const ROOMS: &[Class<Made>] = &[
    Class {
        name: "the version 1 reader, one word short: 6",
        least: 130,
        holds: |m| m.is(Call::Read(Version::One), 6) && m.beside()[0] == -1,
    },
    Class {
        name: "the version 1 reader, just enough",
        least: 10,
        holds: |m| m.is(Call::Read(Version::One), 0) && m.beside()[0] == 0,
    },
    Class {
        name: "the version 1 reader, one more",
        least: 10,
        holds: |m| m.is(Call::Read(Version::One), 0) && m.beside()[0] == 1,
    },
    Class {
        name: "the new reader, one word short: 6",
        least: 130,
        holds: |m| m.is(Call::Read(Version::Two), 6) && m.beside()[0] == -1,
    },
    Class {
        name: "the new reader, just enough",
        least: 20,
        holds: |m| m.is(Call::Read(Version::Two), 0) && m.beside()[0] == 0,
    },
    Class {
        name: "the new reader, one more",
        least: 20,
        holds: |m| m.is(Call::Read(Version::Two), 0) && m.beside()[0] == 1,
    },
    Class { name: "no word for settings: 6", least: 260, holds: |m| m.reads(6) && m.before.settings.is_empty() },
    Class { name: "read: 6, where it is else accepted", least: 240, holds: |m| m.reads(6) && m.would_be(0) },
    Class { name: "read: 6, where 17 applies too", least: 680, holds: |m| m.reads(6) && m.would_be(17) },
    Class { name: "read: 6, where 18 applies too", least: 790, holds: |m| m.reads(6) && m.would_be(18) },
    Class {
        name: "the version 1 writer, one word short: 6",
        least: 100,
        holds: |m| m.is(Call::Write(Version::One), 6) && m.beside()[0] == -1 && m.beside()[1] >= 0,
    },
    Class {
        name: "the version 1 writer, one byte short: 6",
        least: 70,
        holds: |m| m.is(Call::Write(Version::One), 6) && m.beside()[0] >= 0 && m.beside()[1] == -1,
    },
    Class {
        name: "the version 1 writer, both just enough",
        least: 8,
        holds: |m| m.is(Call::Write(Version::One), 0) && m.beside() == [0, 0],
    },
    Class {
        name: "the version 1 writer, both one more",
        least: 9,
        holds: |m| m.is(Call::Write(Version::One), 0) && m.beside() == [1, 1],
    },
    Class {
        name: "the version 2 writer, one word short: 6",
        least: 40,
        holds: |m| m.is(Call::Write(Version::Two), 6) && m.beside()[0] == -1 && m.beside()[1] >= 0,
    },
    Class {
        name: "the version 2 writer, one byte short: 6",
        least: 60,
        holds: |m| m.is(Call::Write(Version::Two), 6) && m.beside()[0] >= 0 && m.beside()[1] == -1,
    },
    Class {
        name: "the version 2 writer, both just enough",
        least: 10,
        holds: |m| m.is(Call::Write(Version::Two), 0) && m.beside() == [0, 0],
    },
    Class {
        name: "the version 2 writer, both one more",
        least: 8,
        holds: |m| m.is(Call::Write(Version::Two), 0) && m.beside() == [1, 1],
    },
    Class { name: "written: 6, where 18 applies too", least: 480, holds: |m| m.writes(6) && !m.lends_allowed() },
    Class {
        name: "written: 6, where all settings are allowed",
        least: 2_900,
        holds: |m| m.writes(6) && m.lends_allowed(),
    },
    Class {
        name: "no byte of room: 6",
        least: 130,
        holds: |m| m.writes(6) && m.before.block.is_empty() && m.beside()[0] >= 0,
    },
    Class { name: "enough lent, and 18", least: 170, holds: |m| m.writes(18) },
];

/// Blocks of any bytes.
pub const BYTES: &[Class<Made>] = &[
    Class { name: "several changes, accepted", least: 4_400, holds: |m| m.changed(Change::Several, 0) },
    Class { name: "several changes: 17", least: 24_000, holds: |m| m.changed(Change::Several, 17) },
    Class { name: "several changes: 18", least: 50_000, holds: |m| m.changed(Change::Several, 18) },
    Class { name: "with two faults", least: 35_000, holds: |m| m.change == Change::Several && m.faulty(2) },
    Class { name: "with three faults", least: 9_400, holds: |m| m.change == Change::Several && m.faulty(3) },
    Class { name: "two numbers exchanged", least: 190, holds: |m| m.has(&[Fault::Number(1), Fault::Number(2)]) },
    Class { name: "two offsets exchanged", least: 210, holds: |m| m.has(&[Fault::Offset(1), Fault::Offset(2)]) },
    Class {
        name: "two rows exchanged",
        least: 50,
        holds: |m| m.has(&[Fault::Number(1), Fault::Offset(1), Fault::Number(2), Fault::Offset(2)]),
    },
    Class { name: "all offsets wrong", least: 35_000, holds: |m| m.reads(18) && m.wrong_offsets() >= 6 },
    Class { name: "all lengths wrong", least: 34_000, holds: |m| m.reads(18) && m.wrong_lengths() >= 6 },
    Class { name: "any bytes: 17", least: 29_000, holds: |m| m.changed(Change::Nothing, 17) },
    Class { name: "any bytes: 18", least: 43_000, holds: |m| m.changed(Change::Nothing, 18) },
    Class { name: "with ten faults or more", least: 38_000, holds: |m| m.change == Change::Nothing && m.faulty(10) },
];
