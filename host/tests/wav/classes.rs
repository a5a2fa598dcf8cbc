//! What the calls on WAV files have to be.
use super::faults::Fault;
use super::made::{Change, Made};
use cathar_host::count::Class;
use cathar_host::recording::{in_range, MOST_SAMPLES};
use cathar_host::wav::Call;

/// What all tests have.
pub const ANSWERS: &[Class<Made>] = &[
    Class { name: "calls", least: 1_200, holds: |_| true },
    Class { name: "accepted", least: 4, holds: |m| m.answer.number == 0 },
];

/// Of damaged files: which are accepted, and what was done to those that are and that are not.
pub const DAMAGED: &[Class<Made>] = &[
    Class { name: "as written, accepted", least: 4, holds: |m| m.changed(Change::Nothing, 0) },
    Class { name: "one digit changed, accepted", least: 1_300, holds: |m| m.changed(Change::Digit, 0) },
    Class { name: "one digit changed: 19", least: 2_000, holds: |m| m.changed(Change::Digit, 19) },
    Class { name: "one digit changed: 20", least: 680, holds: |m| m.changed(Change::Digit, 20) },
    Class { name: "one byte changed, accepted", least: 41_000, holds: |m| m.changed(Change::Byte, 0) },
    Class { name: "one byte changed: 19", least: 65_000, holds: |m| m.changed(Change::Byte, 19) },
    Class { name: "one byte changed: 20", least: 21_000, holds: |m| m.changed(Change::Byte, 20) },
    Class { name: "cut short: 19", least: 510, holds: |m| m.changed(Change::Cut, 19) },
    Class { name: "cut short, size mended, accepted", least: 2, holds: |m| m.changed(Change::CutMended, 0) },
    Class { name: "cut short, size mended: 19", least: 510, holds: |m| m.changed(Change::CutMended, 19) },
    Class { name: "cut short, size mended: 20", least: 1, holds: |m| m.changed(Change::CutMended, 20) },
    Class { name: "made longer: 19", least: 560, holds: |m| m.changed(Change::Longer, 19) },
    Class { name: "made longer, size mended, accepted", least: 30, holds: |m| m.changed(Change::LongerMended, 0) },
    Class { name: "made longer, size mended: 19", least: 520, holds: |m| m.changed(Change::LongerMended, 19) },
    Class { name: "made longer, size mended: 20", least: 6, holds: |m| m.changed(Change::LongerMended, 20) },
    Class { name: "a byte more: 19", least: 2_000, holds: |m| m.changed(Change::Inserted, 19) },
    Class { name: "a byte more, size mended: 19", least: 2_000, holds: |m| m.changed(Change::InsertedMended, 19) },
    Class { name: "a byte less: 19", least: 500, holds: |m| m.changed(Change::Removed, 19) },
    Class { name: "a byte less, size mended: 19", least: 500, holds: |m| m.changed(Change::RemovedMended, 19) },
    Class { name: "0 bytes: 19", least: 15, holds: |m| m.reads(19) && m.before.file.is_empty() },
    Class { name: "1 to 11 bytes: 19", least: 180, holds: |m| m.reads(19) && (1..12).contains(&m.before.file.len()) },
    Class {
        name: "12 bytes, a size that is right, no chunk: 19",
        least: 6,
        holds: |m| m.reads(19) && m.before.file == b"RIFF\x04\0\0\0WAVE",
    },
];

/// Each clause that only damage meets, where it alone turns a file away by 19, and by 20.
pub const NAMES: &[Class<Made>] = &[
    Class { name: "only the first name is wrong: 19", least: 5_800, holds: |m| m.only(Fault::Riff) },
    Class { name: "only the second name is wrong: 19", least: 5_800, holds: |m| m.only(Fault::Wave) },
    Class { name: "only the tag is wrong: 20", least: 10_000, holds: |m| m.only(Fault::Tag) },
    Class { name: "only the bits are wrong: 20", least: 2_900, holds: |m| m.only(Fault::Bits) },
];

/// Each clause of the rule, where it alone turns a file away by 19, and by 20.
pub const FAULTS: &[Class<Made>] = &[
    Class { name: "only the RIFF size is wrong: 19", least: 1_200, holds: |m| m.only(Fault::Size) },
    Class { name: "only a chunk's head is cut short: 19", least: 390, holds: |m| m.only(Fault::Head) },
    Class { name: "only a chunk's body is cut short: 19", least: 60, holds: |m| m.only(Fault::Body) },
    Class { name: "only a pad byte is missing: 19", least: 7, holds: |m| m.only(Fault::Pad) },
    Class { name: "only there is no fmt chunk: 19", least: 980, holds: |m| m.only(Fault::NoFormat) },
    Class { name: "only the fmt chunk is too short: 19", least: 740, holds: |m| m.only(Fault::ShortFormat) },
    Class { name: "only there is no data chunk: 19", least: 4_500, holds: |m| m.only(Fault::NoData) },
    Class { name: "only data stand before fmt: 19", least: 2_300, holds: |m| m.only(Fault::Order) },
    Class { name: "only the data have an odd size: 19", least: 6, holds: |m| m.only(Fault::OddData) },
    Class { name: "only the channels are wrong: 20", least: 840, holds: |m| m.only(Fault::Channels) },
];

/// How chunks stand.
pub const CHUNKS: &[Class<Made>] = &[
    Class { name: "refused by 19", least: 46_000, holds: |m| m.reads(19) },
    Class { name: "refused by 20", least: 840, holds: |m| m.reads(20) },
    Class { name: "fmt and data alone, accepted", least: 10, holds: |m| m.reads(0) && m.pieces() == 2 },
    Class { name: "four chunks, accepted", least: 2_400, holds: |m| m.reads(0) && m.pieces() == 4 },
    Class { name: "a chunk of 5 bytes skipped, accepted", least: 510, holds: |m| m.has_chunk(b"LIST", 5) },
    Class { name: "a chunk of no bytes skipped, accepted", least: 520, holds: |m| m.has_chunk(b"junk", 0) },
    Class { name: "data of no bytes, accepted", least: 1_200, holds: |m| m.reads(0) && m.answer.value == 0 },
    Class { name: "data of 3 samples, accepted", least: 1_200, holds: |m| m.reads(0) && m.answer.value == 3 },
    Class { name: "two fmt chunks, accepted", least: 1_200, holds: |m| m.names(b"fmt ") == 2 },
    Class { name: "three fmt chunks, accepted", least: 700, holds: |m| m.names(b"fmt ") == 3 },
    Class { name: "two data chunks, accepted", least: 520, holds: |m| m.names(b"data") == 2 },
    Class { name: "three data chunks, accepted", least: 45, holds: |m| m.names(b"data") == 3 },
    Class { name: "a fmt chunk of 14 bytes too, accepted", least: 510, holds: |m| m.has_chunk(b"fmt ", 14) },
    Class { name: "a fmt chunk of 15 bytes too, accepted", least: 520, holds: |m| m.has_chunk(b"fmt ", 15) },
    Class { name: "a fmt chunk of 17 bytes, accepted", least: 1_100, holds: |m| m.has_chunk(b"fmt ", 17) },
    Class { name: "a fmt chunk of 18 bytes, accepted", least: 1_100, holds: |m| m.has_chunk(b"fmt ", 18) },
    Class { name: "data of 3 bytes behind the first, accepted", least: 190, holds: |m| m.has_chunk(b"data", 3) },
    Class { name: "an odd chunk last, accepted", least: 560, holds: |m| m.reads(0) && m.ends_odd() },
    Class {
        name: "a pad byte that is not 0, accepted",
        least: 110,
        holds: |m| m.reads(0) && m.ends_odd() && m.before.file.last() != Some(&0),
    },
    Class { name: "19, where 20 applies too", least: 8_700, holds: |m| m.reads(19) && m.also(Fault::Channels) },
    Class {
        name: "19, odd data where 20 applies too",
        least: 410,
        holds: |m| m.reads(19) && m.faults == [Fault::OddData, Fault::Channels],
    },
];

/// What a fmt chunk says.
pub const CODINGS: &[Class<Made>] = &[
    Class { name: "only the tag is wrong: 20", least: 46_000, holds: |m| m.only(Fault::Tag) && m.reads(20) },
    Class { name: "only the channels are wrong: 20", least: 49_000, holds: |m| m.only(Fault::Channels) && m.reads(20) },
    Class { name: "only the bits are wrong: 20", least: 46_000, holds: |m| m.only(Fault::Bits) && m.reads(20) },
    Class {
        name: "tag and bits are wrong: 20",
        least: 250,
        holds: |m| m.reads(20) && m.faults == [Fault::Tag, Fault::Bits],
    },
    Class { name: "extensible: 20", least: 250, holds: |m| m.reads(20) && m.coding() == Some([0xfffe, 1, 16]) },
    Class { name: "float: 20", least: 250, holds: |m| m.reads(20) && m.coding() == Some([3, 1, 32]) },
    Class { name: "stereo: 20", least: 250, holds: |m| m.reads(20) && m.coding() == Some([1, 2, 16]) },
    Class { name: "8 bits: 20", least: 250, holds: |m| m.reads(20) && m.coding() == Some([1, 1, 8]) },
    Class { name: "24 bits: 20", least: 1, holds: |m| m.reads(20) && m.coding() == Some([1, 1, 24]) },
    Class { name: "32 bits: 20", least: 1, holds: |m| m.reads(20) && m.coding() == Some([1, 1, 32]) },
    Class { name: "no channels: 20", least: 1, holds: |m| m.reads(20) && m.coding() == Some([1, 0, 16]) },
    Class { name: "tag 257: 20", least: 1, holds: |m| m.reads(20) && m.coding() == Some([257, 1, 16]) },
    Class {
        name: "a fmt chunk of fewer than 16 bytes: 19",
        least: 55,
        holds: |m| m.only(Fault::ShortFormat) && m.reads(19),
    },
    Class {
        name: "a fmt chunk of fewer, and then one, accepted",
        least: 55,
        holds: |m| (0..16).any(|bytes| m.has_chunk(b"fmt ", bytes)),
    },
    Class { name: "a fmt chunk of 16 bytes, accepted", least: 3_600, holds: |m| m.has_chunk(b"fmt ", 16) },
    Class { name: "a fmt chunk of 17 bytes, accepted", least: 3_500, holds: |m| m.has_chunk(b"fmt ", 17) },
    Class { name: "a fmt chunk of 18 bytes, accepted", least: 3_500, holds: |m| m.has_chunk(b"fmt ", 18) },
    Class { name: "a fmt chunk of 40 bytes, accepted", least: 1, holds: |m| m.has_chunk(b"fmt ", 40) },
    Class { name: "rate 0, accepted", least: 470, holds: |m| m.reads(0) && m.answer.rate == 0 },
    Class { name: "rate 2^32-1, accepted", least: 470, holds: |m| m.reads(0) && m.answer.rate == u32::MAX },
    Class { name: "rate 48,000, accepted", least: 480, holds: |m| m.reads(0) && m.answer.rate == 48_000 },
];

/// How much is lent.
pub const ROOMS: &[Class<Made>] = &[
    Class {
        name: "read: one sample short: 21",
        least: 160,
        holds: |m| m.reads(21) && m.beside().map_or(false, |by| by[0] == -1 && by[1] >= 0),
    },
    Class {
        name: "read: one mark short: 21",
        least: 160,
        holds: |m| m.reads(21) && m.beside().map_or(false, |by| by[0] >= 0 && by[1] == -1),
    },
    Class {
        name: "read: both short: 21",
        least: 840,
        holds: |m| m.reads(21) && m.beside().map_or(false, |by| by[0] < 0 && by[1] < 0),
    },
    Class {
        name: "read: no room: 21",
        least: 40,
        holds: |m| m.reads(21) && m.before.samples.is_empty() && m.before.marks.is_empty(),
    },
    Class { name: "read: both just enough", least: 55, holds: |m| m.reads(0) && m.beside() == Some([0, 0]) },
    Class { name: "read: one sample more", least: 55, holds: |m| m.reads(0) && m.beside() == Some([1, 0]) },
    Class { name: "read: one mark more", least: 55, holds: |m| m.reads(0) && m.beside() == Some([0, 1]) },
    Class {
        name: "read: both more",
        least: 500,
        holds: |m| m.reads(0) && m.beside().map_or(false, |by| by[0] > 0 && by[1] > 0),
    },
    Class {
        name: "read: no samples in no room",
        least: 10,
        holds: |m| m.reads(0) && m.beside() == Some([0, 0]) && m.answer.value == 0,
    },
    Class {
        name: "read: 19, where there is no room either",
        least: 550,
        holds: |m| m.reads(19) && m.before.samples.is_empty(),
    },
    Class {
        name: "read: 20, where there is no room either",
        least: 180,
        holds: |m| m.reads(20) && m.before.samples.is_empty(),
    },
    Class { name: "written: one byte short: 21", least: 65, holds: |m| m.writes(21) && m.bytes_beside() == -1 },
    Class { name: "written: two bytes short: 21", least: 65, holds: |m| m.writes(21) && m.bytes_beside() == -2 },
    Class {
        name: "written: 43 bytes for no samples: 21",
        least: 9,
        holds: |m| m.writes(21) && m.before.samples.is_empty() && m.before.file.len() == 43,
    },
    Class { name: "written: no room: 21", least: 65, holds: |m| m.writes(21) && m.before.file.is_empty() },
    Class { name: "written: just enough", least: 65, holds: |m| m.writes(0) && m.bytes_beside() == 0 },
    Class { name: "written: one byte more", least: 65, holds: |m| m.writes(0) && m.bytes_beside() == 1 },
    Class {
        name: "written: no samples, just enough",
        least: 9,
        holds: |m| m.writes(0) && m.bytes_beside() == 0 && m.before.samples.is_empty(),
    },
    Class {
        name: "written: 7, where there is no room either",
        least: 1_400,
        holds: |m| m.writes(7) && m.bytes_beside() < 0,
    },
    Class { name: "written: 7, where there is room", least: 160, holds: |m| m.writes(7) && m.bytes_beside() >= 0 },
];

/// Values that are read, and written again.
pub const VALUES: &[Class<Made>] = &[
    Class { name: "-32,768", least: 1, holds: |m| m.reads(0) && m.after.samples.contains(&0xbf80_0000) },
    Class { name: "-32,767", least: 1, holds: |m| m.reads(0) && m.after.samples.contains(&0xbf7f_fe00) },
    Class { name: "-1", least: 1, holds: |m| m.reads(0) && m.after.samples.contains(&0xb800_0000) },
    Class {
        name: "0",
        least: 1,
        holds: |m| m.reads(0) && m.answer.value > 0 && m.after.samples[..m.answer.value].contains(&0),
    },
    Class { name: "1", least: 1, holds: |m| m.reads(0) && m.after.samples.contains(&0x3800_0000) },
    Class { name: "32,767", least: 1, holds: |m| m.reads(0) && m.after.samples.contains(&0x3f7f_fe00) },
    Class { name: "one value alone", least: 45_000, holds: |m| m.reads(0) && m.answer.value == 1 },
    Class { name: "all values", least: 1, holds: |m| m.reads(0) && m.answer.value == 65_536 },
];

/// What is written, and what is not.
pub const WRITTEN: &[Class<Made>] = &[
    Class { name: "written", least: 41_000, holds: |m| m.writes(0) },
    Class { name: "not written: 7", least: 3_200, holds: |m| m.writes(7) },
    Class { name: "not written: 21", least: 6_400, holds: |m| m.writes(21) },
    Class { name: "no samples", least: 2_600, holds: |m| m.writes(0) && m.before.samples.is_empty() },
    Class { name: "+0", least: 860, holds: |m| m.gives(0x0000_0000, 0) },
    Class { name: "-0", least: 870, holds: |m| m.gives(0x8000_0000, 0) },
    Class { name: "the least subnormal", least: 870, holds: |m| m.gives(0x0000_0001, 0) },
    Class { name: "the least below 0", least: 860, holds: |m| m.gives(0x8000_0001, 0) },
    Class { name: "the largest subnormal", least: 850, holds: |m| m.gives(0x007f_ffff, 0) },
    Class { name: "a half becomes 1", least: 860, holds: |m| m.gives(0x3780_0000, 1) },
    Class { name: "minus a half becomes -1", least: 860, holds: |m| m.gives(0xb780_0000, -1) },
    Class { name: "next below a half", least: 860, holds: |m| m.gives(0x377f_ffff, 0) },
    Class { name: "next above minus a half", least: 870, holds: |m| m.gives(0xb77f_ffff, 0) },
    Class { name: "next above a half", least: 860, holds: |m| m.gives(0x3780_0001, 1) },
    Class { name: "one and a half becomes 2", least: 830, holds: |m| m.gives(0x3840_0000, 2) },
    Class { name: "minus one and a half becomes -2", least: 880, holds: |m| m.gives(0xb840_0000, -2) },
    Class { name: "next below one and a half", least: 860, holds: |m| m.gives(0x383f_ffff, 1) },
    Class { name: "32,767", least: 840, holds: |m| m.gives(0x3f7f_fe00, 32_767) },
    Class { name: "next below 32,767.5", least: 860, holds: |m| m.gives(0x3f7f_feff, 32_767) },
    Class { name: "32,767.5 is held to 32,767", least: 860, holds: |m| m.gives(0x3f7f_ff00, 32_767) },
    Class { name: "1 is held to 32,767", least: 830, holds: |m| m.gives(0x3f80_0000, 32_767) },
    Class { name: "-32,767", least: 850, holds: |m| m.gives(0xbf7f_fe00, -32_767) },
    Class { name: "next above -32,767.5", least: 850, holds: |m| m.gives(0xbf7f_feff, -32_767) },
    Class { name: "-32,767.5 becomes -32,768", least: 860, holds: |m| m.gives(0xbf7f_ff00, -32_768) },
    Class { name: "-1 becomes -32,768", least: 870, holds: |m| m.gives(0xbf80_0000, -32_768) },
    Class { name: "next below -1", least: 860, holds: |m| m.gives(0xbf80_0001, -32_768) },
    Class { name: "-32,768.5 is held to -32,768", least: 870, holds: |m| m.gives(0xbf80_0080, -32_768) },
    Class { name: "65,536 is held to 32,767", least: 870, holds: |m| m.gives(0x4780_0000, 32_767) },
    Class { name: "-65,536 is held to -32,768", least: 860, holds: |m| m.gives(0xc780_0000, -32_768) },
    Class { name: "next beyond 65,536: 7", least: 25, holds: |m| m.turns_away(|word| word == 0x4780_0001) },
    Class { name: "next beyond -65,536: 7", least: 25, holds: |m| m.turns_away(|word| word == 0xc780_0001) },
    Class { name: "+infinity: 7", least: 25, holds: |m| m.turns_away(|word| word == 0x7f80_0000) },
    Class { name: "-infinity: 7", least: 25, holds: |m| m.turns_away(|word| word == 0xff80_0000) },
    Class { name: "a quiet NaN: 7", least: 120, holds: |m| m.turns_away(|word| word >> 22 & 0x1ff == 0x1ff) },
    Class {
        name: "a signalling NaN: 7",
        least: 95,
        holds: |m| m.turns_away(|word| word >> 22 & 0x1ff == 0x1fe && word << 10 != 0),
    },
    Class { name: "7 at place 0", least: 850, holds: |m| m.writes(7) && m.answer.value == 0 },
    Class {
        name: "7 at the last place",
        least: 840,
        holds: |m| m.writes(7) && m.answer.value + 1 == m.before.samples.len(),
    },
    Class {
        name: "7, and another place behind",
        least: 160,
        holds: |m| m.writes(7) && m.before.samples[m.answer.value + 1..].iter().any(|word| !in_range(*word)),
    },
    Class { name: "7, where there is no room either", least: 690, holds: |m| m.writes(7) && m.bytes_beside() < 0 },
    Class { name: "rate 0", least: 1_900, holds: |m| m.writes(0) && m.call == Call::Write { rate: 0 } },
    Class { name: "rate 48,000", least: 1_900, holds: |m| m.writes(0) && m.call == Call::Write { rate: 48_000 } },
    Class { name: "rate 2^31", least: 1_900, holds: |m| m.writes(0) && m.call == Call::Write { rate: 0x8000_0000 } },
    Class { name: "rate 2^32-1", least: 1_900, holds: |m| m.writes(0) && m.call == Call::Write { rate: u32::MAX } },
];

/// Beside the most samples, and sizes past the end.
pub const LIMITS: &[Class<Made>] = &[
    Class { name: "only a body is cut short: 19", least: 730, holds: |m| m.only(Fault::Body) && m.reads(19) },
    Class { name: "only the RIFF size is wrong: 19", least: 45, holds: |m| m.only(Fault::Size) && m.reads(19) },
    Class { name: "read: 1,048,575 samples", least: 1, holds: |m| m.reads(0) && m.answer.value == MOST_SAMPLES - 1 },
    Class { name: "read: 1,048,576 samples", least: 1, holds: |m| m.reads(0) && m.answer.value == MOST_SAMPLES },
    Class {
        name: "read: 1,048,577 samples: 2",
        least: 3,
        holds: |m| m.reads(2) && m.samples() == Some(MOST_SAMPLES + 1),
    },
    Class {
        name: "read: 2, where there is no room either",
        least: 1,
        holds: |m| m.reads(2) && m.before.samples.is_empty(),
    },
    Class {
        name: "read: 20, where 2 applies too",
        least: 9,
        holds: |m| m.reads(20) && m.before.file.len() > 2 * MOST_SAMPLES + 50,
    },
    Class {
        name: "read: 1,048,576 samples, one short: 21",
        least: 1,
        holds: |m| m.reads(21) && m.samples() == Some(MOST_SAMPLES),
    },
    Class {
        name: "written: 1,048,575 samples",
        least: 1,
        holds: |m| m.writes(0) && m.before.samples.len() == MOST_SAMPLES - 1,
    },
    Class {
        name: "written: 1,048,576 samples",
        least: 1,
        holds: |m| m.writes(0) && m.before.samples.len() == MOST_SAMPLES,
    },
    Class { name: "written: 1,048,577 samples: 2", least: 6, holds: |m| m.writes(2) },
    Class {
        name: "written: 2, where there is no room either",
        least: 3,
        holds: |m| m.writes(2) && m.bytes_beside() < 0,
    },
    Class {
        name: "written: 2, where 7 applies too",
        least: 3,
        holds: |m| m.writes(2) && m.before.samples.iter().any(|word| !in_range(*word)),
    },
    Class {
        name: "written: 1,048,576 samples, one short: 21",
        least: 1,
        holds: |m| m.writes(21) && m.before.samples.len() == MOST_SAMPLES,
    },
    Class {
        name: "written: 7 at the last place of the most",
        least: 1,
        holds: |m| m.writes(7) && m.answer.value == MOST_SAMPLES - 1,
    },
];

/// Files of any bytes.
pub const BYTES: &[Class<Made>] = &[
    Class { name: "several changes, accepted", least: 5_300, holds: |m| m.changed(Change::Several, 0) },
    Class { name: "several changes: 19", least: 57_000, holds: |m| m.changed(Change::Several, 19) },
    Class { name: "several changes: 20", least: 6_600, holds: |m| m.changed(Change::Several, 20) },
    Class { name: "with two faults", least: 21_000, holds: |m| m.change == Change::Several && m.faults.len() == 2 },
    Class {
        name: "with three faults or more",
        least: 25_000,
        holds: |m| m.change == Change::Several && m.faults.len() >= 3,
    },
    Class { name: "any chunks, accepted", least: 6_400, holds: |m| m.changed(Change::Nothing, 0) },
    Class { name: "any chunks or bytes: 19", least: 75_000, holds: |m| m.changed(Change::Nothing, 19) },
    Class { name: "any chunks: 20", least: 2_100, holds: |m| m.changed(Change::Nothing, 20) },
    Class { name: "six chunks or more, accepted", least: 3_800, holds: |m| m.reads(0) && m.pieces() >= 6 },
];

/// Files that sox made.
pub const SOX: &[Class<Made>] = &[
    Class { name: "files", least: 120, holds: |_| true },
    Class { name: "accepted", least: 25, holds: |m| m.reads(0) },
    Class { name: "refused by 20", least: 45, holds: |m| m.reads(20) },
    Class { name: "refused by 19", least: 45, holds: |m| m.reads(19) },
    Class {
        name: "extensible: 20",
        least: 10,
        holds: |m| m.reads(20) && m.coding().map_or(false, |coding| coding[0] == 0xfffe),
    },
    Class { name: "float: 20", least: 10, holds: |m| m.reads(20) && m.coding().map_or(false, |coding| coding[0] == 3) },
    Class { name: "8 bits: 20", least: 1, holds: |m| m.reads(20) && m.coding() == Some([1, 1, 8]) },
    Class {
        name: "A-law or mu-law: 20",
        least: 2,
        holds: |m| m.reads(20) && m.coding().map_or(false, |coding| coding[0] == 6 || coding[0] == 7),
    },
    Class { name: "stereo: 20", least: 6, holds: |m| m.reads(20) && m.coding() == Some([1, 2, 16]) },
    Class {
        name: "odd data of another coding: 19",
        least: 20,
        holds: |m| m.reads(19) && m.faults.contains(&Fault::OddData),
    },
    Class { name: "RIFX: 19", least: 6, holds: |m| m.reads(19) && m.before.file.starts_with(b"RIFX") },
    Class { name: "all values, accepted", least: 2, holds: |m| m.reads(0) && m.answer.value == 65_536 },
    Class { name: "rate 192,000, accepted", least: 2, holds: |m| m.reads(0) && m.answer.rate == 192_000 },
];

/// Files that ffmpeg made.
pub const FFMPEG: &[Class<Made>] = &[
    Class { name: "files", least: 160, holds: |_| true },
    Class { name: "accepted", least: 45, holds: |m| m.reads(0) },
    Class { name: "refused by 20", least: 60, holds: |m| m.reads(20) },
    Class { name: "refused by 19", least: 50, holds: |m| m.reads(19) },
    Class { name: "with a LIST chunk, accepted", least: 40, holds: |m| m.names(b"LIST") > 0 },
    Class { name: "with a bext chunk, accepted", least: 5, holds: |m| m.names(b"bext") > 0 },
    Class { name: "with a levl chunk, accepted", least: 8, holds: |m| m.names(b"levl") > 0 },
    Class { name: "with fmt and data alone, accepted", least: 5, holds: |m| m.reads(0) && m.pieces() == 2 },
    Class { name: "with a chunk of an odd size, accepted", least: 3, holds: |m| m.reads(0) && m.has_odd() },
    Class {
        name: "odd data of another coding: 19",
        least: 35,
        holds: |m| m.reads(19) && m.faults.contains(&Fault::OddData),
    },
    Class {
        name: "of a size of 2^32-1, as to a pipe: 19",
        least: 6,
        holds: |m| m.reads(19) && m.before.file.starts_with(b"RIFF\xff\xff\xff\xff"),
    },
    Class { name: "RF64: 19", least: 6, holds: |m| m.reads(19) && m.before.file.starts_with(b"RF64") },
    Class {
        name: "mono 16-bit, but extensible: 20",
        least: 10,
        holds: |m| m.reads(20) && m.coding() == Some([0xfffe, 1, 16]),
    },
    Class {
        name: "extensible of 32 bits: 20",
        least: 10,
        holds: |m| m.reads(20) && m.coding() == Some([0xfffe, 1, 32]),
    },
    Class { name: "8 bits: 20", least: 1, holds: |m| m.reads(20) && m.coding() == Some([1, 1, 8]) },
    Class {
        name: "A-law or mu-law: 20",
        least: 2,
        holds: |m| m.reads(20) && m.coding().map_or(false, |coding| coding[0] == 6 || coding[0] == 7),
    },
    Class { name: "stereo: 20", least: 5, holds: |m| m.reads(20) && m.coding() == Some([1, 2, 16]) },
    Class { name: "all values, accepted", least: 4, holds: |m| m.reads(0) && m.answer.value == 65_536 },
    Class { name: "rate 48,000, accepted", least: 4, holds: |m| m.reads(0) && m.answer.rate == 48_000 },
];
