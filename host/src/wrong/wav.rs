//! Stand-ins for the reader and the writer of WAV files. Some alter what the library's own leave; most are written by
//! hand, by rules of which one is wrong.
use super::How::{Wave, WaveModel, Waves};
use super::{Finds, Standin, Table};
use crate::lent::wav::Wav;
use crate::lent::GUARDS;
use crate::wav::{Answer, Areas, Call};

pub(super) const TABLES: &[Table] = &[
    Table { file: "wav", test: "chunks", finds: Finds::Always, standins: CHUNKS },
    Table { file: "wav", test: "damaged", finds: Finds::Always, standins: WHOLE },
    Table { file: "wav", test: "codings", finds: Finds::Always, standins: CODINGS },
    Table { file: "wav", test: "rooms", finds: Finds::Always, standins: ROOMS },
    Table { file: "wav", test: "rooms", finds: Finds::Always, standins: LEFT },
    Table { file: "wav", test: "values", finds: Finds::Always, standins: VALUES },
    Table { file: "wav", test: "written", finds: Finds::Always, standins: WRITTEN },
    Table { file: "wav", test: "limits", finds: Finds::Always, standins: LIMITS },
    Table { file: "wav", test: "any_bytes", finds: Finds::Always, standins: BYTES },
    Table { file: "wav", test: "chunks", finds: Finds::Always, standins: CHUNKS_ALIKE },
    Table { file: "wav", test: "codings", finds: Finds::Always, standins: CODINGS_ALIKE },
    Table { file: "wav", test: "written", finds: Finds::Always, standins: WRITTEN_ALIKE },
    Table { file: "wav", test: "rooms", finds: Finds::Always, standins: ROOMS_ALIKE },
    Table { file: "wav", test: "rooms", finds: Finds::Always, standins: MODEL },
    Table { file: "wav", test: "chunks", finds: Finds::Never, standins: RIGHT },
    Table { file: "wav", test: "written", finds: Finds::Never, standins: RIGHT_WRITTEN },
];

/// A stand-in that is written by hand, by these rules.
macro_rules! by_rules {
    ($name:expr, $says:expr, $($rule:ident: $is:expr),+ $(,)?) => {
        Standin {
            name: $name,
            says: $says,
            how: Wave(|lent, call| wave_by(lent, call, Rules { $($rule: $is,)+ ..RULES })),
        }
    };
}

/// Likewise in the place of both sides.
macro_rules! alike {
    ($name:expr, $says:expr, $($rule:ident: $is:expr),+ $(,)?) => {
        Standin {
            name: $name,
            says: $says,
            how: Waves(|areas, call| wave_in(areas, call, Rules { $($rule: $is,)+ ..RULES })),
        }
    };
}

/// A stand-in that alters what the library leaves.
macro_rules! altering {
    ($name:expr, $says:expr, $makes:expr $(,)?) => {
        Standin { name: $name, says: $says, how: Wave($makes) }
    };
}

/// A stand-in that alters what the model leaves or answers.
macro_rules! model {
    ($name:expr, $says:expr, $alters:expr $(,)?) => {
        Standin { name: $name, says: $says, how: WaveModel($alters) }
    };
}

/// How chunks follow each other, and which are taken.
const CHUNKS: &[Standin] = &[
    by_rules!("wav_pad_not_skipped", "a pad byte is not skipped", padded: |size, _| size),
    by_rules!(
        "wav_pad_where_even",
        "a pad byte is skipped where the size is even",
        padded: |size, _| size + 1 - size % 2,
    ),
    by_rules!("wav_pad_always", "a pad byte is skipped behind every chunk", padded: |size, _| size + 1),
    by_rules!("wav_pad_to_four", "chunks are padded to four bytes", padded: |size, _| (size + 3) / 4 * 4),
    by_rules!(
        "wav_pad_not_last",
        "the last chunk may lack its pad byte",
        ends: |end, length| end == length || end == length + 1,
    ),
    by_rules!(
        "wav_last_pad_turned_away",
        "the last chunk has to lack its pad byte",
        padded: |size, left| if size + size % 2 == left { size } else { size + size % 2 },
    ),
    by_rules!(
        "wav_data_before_fmt",
        "data before fmt are accepted",
        pick: |formats, data| Some([*formats.first()?, *data.first()?]),
    ),
    by_rules!(
        "wav_data_behind_fmt",
        "data before fmt are skipped, and the first behind it taken",
        pick: |formats, data| {
            let format = *formats.first()?;
            Some([format, *data.iter().find(|data| **data > format)?])
        },
    ),
    by_rules!(
        "wav_last_fmt",
        "the last fmt chunk is taken",
        pick: |formats, data| picked(&formats[formats.len().saturating_sub(1)..], data),
    ),
    by_rules!(
        "wav_nearest_fmt",
        "the last fmt chunk before the data is taken",
        pick: |formats, data| {
            let data = *data.first()?;
            Some([*formats.iter().rev().find(|format| **format < data)?, data])
        },
    ),
    by_rules!(
        "wav_last_data",
        "the last data chunk is taken",
        pick: |formats, data| picked(formats, &data[data.len().saturating_sub(1)..]),
    ),
    by_rules!(
        "wav_two_fmt_refused",
        "two fmt chunks are refused by 19",
        pick: |formats, data| if formats.len() > 1 { None } else { picked(formats, data) },
    ),
    by_rules!(
        "wav_two_data_refused",
        "two data chunks are refused by 19",
        pick: |formats, data| if data.len() > 1 { None } else { picked(formats, data) },
    ),
    by_rules!(
        "wav_data_directly_behind",
        "data have to stand directly behind fmt",
        pick: |formats, data| picked(formats, data).filter(|[format, data]| format + 1 == *data),
    ),
    by_rules!(
        "wav_fmt_first",
        "fmt has to be the first chunk",
        pick: |formats, data| picked(formats, data).filter(|[format, _]| *format == 0),
    ),
    by_rules!(
        "wav_fmt_of_14",
        "a fmt chunk of 14 bytes is taken",
        is_format: |found| found.name == FMT && found.size >= 14,
    ),
    by_rules!(
        "wav_fmt_of_15",
        "a fmt chunk of 15 bytes is taken",
        is_format: |found| found.name == FMT && found.size >= 15,
    ),
    by_rules!(
        "wav_fmt_of_16_alone",
        "a fmt chunk has just 16 bytes",
        is_format: |found| found.name == FMT && found.size == 16,
    ),
    by_rules!(
        "wav_fmt_of_17",
        "a fmt chunk has at least 17 bytes",
        is_format: |found| found.name == FMT && found.size >= 17,
    ),
    by_rules!(
        "wav_fmt_of_16_or_18",
        "a fmt chunk has 16 or 18 bytes",
        is_format: |found| found.name == FMT && (found.size == 16 || found.size == 18),
    ),
    by_rules!(
        "wav_short_fmt_refused",
        "a fmt chunk of fewer than 16 bytes is refused by 19, whatever follows",
        pick_of: |found| found.iter().all(|found| found.name != FMT || found.size >= 16),
    ),
    by_rules!(
        "wav_short_fmt_counts",
        "a fmt chunk of fewer than 16 bytes counts where data come behind it",
        is_format: |found| found.name == FMT,
    ),
    by_rules!("wav_odd_data", "data of an odd size are accepted", even: |_| true),
    by_rules!(
        "wav_odd_any_data",
        "an odd size of any data chunk is refused by 19",
        pick_of: |found| found.iter().all(|found| found.name != DATA || found.size % 2 == 0),
    ),
    by_rules!("wav_empty_data", "data of no bytes are refused by 19", even: |size| size % 2 == 0 && size > 0),
    by_rules!("wav_data_of_four", "a data size has to be a multiple of 4", even: |size| size % 4 == 0),
    by_rules!(
        "wav_data_last",
        "what stands behind the data is not looked at",
        ends: |_, _| true,
        size: |_, _| true,
    ),
    by_rules!(
        "wav_list_unknown",
        "chunks that are not known are refused by 19",
        pick_of: |found| found.iter().all(|found| found.name == FMT || found.name == DATA),
    ),
    by_rules!(
        "wav_empty_chunk",
        "a chunk of no bytes is refused by 19",
        pick_of: |found| found.iter().all(|found| found.size > 0 || found.name == DATA),
    ),
    by_rules!(
        "wav_any_case",
        "names may be in capitals",
        is_format: |found| found.name.eq_ignore_ascii_case(b"fmt ") && found.size >= 16,
    ),
    by_rules!(
        "wav_data_any_case",
        "the name of the data may be in capitals",
        is_data: |found| found.name.eq_ignore_ascii_case(b"data"),
    ),
    by_rules!(
        "wav_fmt_of_three_letters",
        "of the name fmt three letters are read",
        is_format: |found| found.name.starts_with(b"fmt") && found.size >= 16,
    ),
    by_rules!(
        "wav_data_of_three_letters",
        "of the name data three letters are read",
        is_data: |found| found.name.starts_with(b"dat"),
    ),
    by_rules!("wav_size_unread", "the RIFF size is not looked at", size: |_, _| true),
    by_rules!("wav_size_at_least", "the RIFF size may be more", size: |size, length| size + 8 >= length),
    by_rules!("wav_size_at_most", "the RIFF size may be less", size: |size, length| size + 8 <= length),
    by_rules!("wav_size_of_all", "the RIFF size counts the whole file", size: |size, length| size == length),
    by_rules!(
        "wav_size_without_pad",
        "the RIFF size need not count the last pad byte",
        size: |size, length| size + 8 == length || size + 9 == length,
    ),
    by_rules!(
        "wav_byte_behind",
        "one byte behind the last chunk is accepted",
        ends: |end, length| end == length || end + 1 == length,
    ),
    by_rules!(
        "wav_bytes_behind",
        "fewer than eight bytes behind the last chunk are accepted",
        ends: |end, length| end <= length,
    ),
    by_rules!("wav_body_cut", "the last body may be cut short", ends: |end, length| end >= length),
    by_rules!(
        "wav_20_before_19",
        "20 is tested before 19",
        read: |not| first(&[(20, not.coding), (19, not.whole || not.sound || not.odd), (2, not.many), (21, not.short)]),
    ),
    by_rules!(
        "wav_20_before_odd",
        "20 is tested before an odd size of the data",
        read: |not| {
            let late = [(20, not.coding), (19, not.odd), (2, not.many), (21, not.short)];
            if not.whole || not.sound { 19 } else { first(&late) }
        },
    ),
    by_rules!(
        "wav_odd_is_20",
        "an odd size of the data is refused by 20",
        read: |not| first(&[(19, not.whole || not.sound), (20, not.coding || not.odd), (2, not.many), (21, not.short)]),
    ),
    by_rules!(
        "wav_no_data_empty",
        "a file without data has no samples, and is accepted",
        read: |not| if read(not) == 19 && !not.whole && not.no_data && !not.no_format { 0 } else { read(not) },
    ),
];

/// The beginning of a file, and its end.
const WHOLE: &[Standin] = &[
    by_rules!("wav_riff_unread", "the name RIFF is not looked at", riff: |_| true),
    by_rules!("wav_wave_unread", "the name WAVE is not looked at", wave: |_| true),
    by_rules!(
        "wav_riff_any_case",
        "the name RIFF may be in capitals or not",
        riff: |name| name.eq_ignore_ascii_case(b"RIFF"),
    ),
    by_rules!(
        "wav_wave_any_case",
        "the name WAVE may be in capitals or not",
        wave: |name| name.eq_ignore_ascii_case(b"WAVE"),
    ),
    by_rules!("wav_rifx", "RIFX is taken for RIFF", riff: |name| name == *b"RIFF" || name == *b"RIFX"),
    by_rules!(
        "wav_riff_of_three_letters",
        "of the name RIFF three letters are read",
        riff: |name| name.starts_with(b"RIF"),
    ),
    by_rules!(
        "wav_wave_of_three_letters",
        "of the name WAVE three letters are read",
        wave: |name| name.starts_with(b"WAV"),
    ),
    by_rules!(
        "wav_size_of_8_digits",
        "of the RIFF size the last 8 binary digits are read",
        size: |size, length| (size + 8) & 0xff == length & 0xff,
    ),
    by_rules!(
        "wav_size_of_16_digits",
        "of the RIFF size the last 16 binary digits are read",
        size: |size, length| (size + 8) & 0xffff == length & 0xffff,
    ),
    by_rules!(
        "wav_size_of_24_digits",
        "of the RIFF size the last 24 binary digits are read",
        size: |size, length| (size + 8) & 0xff_ffff == length & 0xff_ffff,
    ),
    by_rules!("wav_size_even", "the RIFF size may be odd by one", size: |size, length| size / 2 + 4 == length / 2),
    by_rules!("wav_from_highest", "sizes are read highest byte first", word: u32::from_be_bytes),
    by_rules!(
        "wav_size_of_16",
        "of a chunk's size the last 16 binary digits are read",
        word: |four| u32::from_le_bytes(four) & 0xffff,
    ),
    by_rules!(
        "wav_whole_is_20",
        "20 is given for a file that is not whole",
        read: |not| if not.whole { 20 } else { read(not) },
    ),
    by_rules!(
        "wav_19_is_21",
        "a file that is cut short is refused by 21",
        read: |not| if not.whole { 21 } else { read(not) },
    ),
    by_rules!("wav_first_at_8", "chunks begin behind the RIFF size", first: 8),
];

/// What a fmt chunk has to say.
const CODINGS: &[Standin] = &[
    by_rules!(
        "wav_stereo",
        "stereo is accepted",
        coding: |of| tag(of) == 1 && channels(of) <= 2 && channels(of) > 0 && bits(of) == 16,
    ),
    by_rules!("wav_channels_unread", "the channels are not looked at", coding: |of| tag(of) == 1 && bits(of) == 16),
    by_rules!(
        "wav_no_channels",
        "no channel counts as one",
        coding: |of| tag(of) == 1 && channels(of) <= 1 && bits(of) == 16,
    ),
    by_rules!(
        "wav_channels_of_8_digits",
        "of the channels the last 8 binary digits are read",
        coding: |of| tag(of) == 1 && channels(of) & 0xff == 1 && bits(of) == 16,
    ),
    by_rules!("wav_tag_unread", "the tag is not looked at", coding: |of| channels(of) == 1 && bits(of) == 16),
    by_rules!(
        "wav_extensible",
        "an extensible header is accepted",
        coding: |of| (tag(of) == 1 || tag(of) == 0xfffe) && channels(of) == 1 && bits(of) == 16,
    ),
    by_rules!(
        "wav_tag_of_8_digits",
        "of the tag the last 8 binary digits are read",
        coding: |of| tag(of) & 0xff == 1 && channels(of) == 1 && bits(of) == 16,
    ),
    by_rules!("wav_tag_0", "tag 0 counts as 1", coding: |of| tag(of) <= 1 && channels(of) == 1 && bits(of) == 16),
    by_rules!(
        "wav_float_tag",
        "tag 3 counts as 1",
        coding: |of| (tag(of) == 1 || tag(of) == 3) && channels(of) == 1 && bits(of) == 16,
    ),
    by_rules!("wav_bits_unread", "the bits are not looked at", coding: |of| tag(of) == 1 && channels(of) == 1),
    by_rules!(
        "wav_bits_from_9",
        "9 to 16 bits are accepted, since they take two bytes",
        coding: |of| tag(of) == 1 && channels(of) == 1 && (9..=16).contains(&bits(of)),
    ),
    by_rules!(
        "wav_bits_of_8_digits",
        "of the bits the last 8 binary digits are read",
        coding: |of| tag(of) == 1 && channels(of) == 1 && bits(of) & 0xff == 16,
    ),
    by_rules!(
        "wav_bits_from_block",
        "the bits are read from the block align",
        coding: |of| tag(of) == 1 && channels(of) == 1 && 8 * u32::from(half(of, 12)) == 16,
    ),
    by_rules!(
        "wav_byte_rate_checked",
        "bytes a second have to be twice the rate",
        coding: |of| is_pcm(of) && rate_of(of, 8) == rate_of(of, 4).wrapping_mul(2),
    ),
    by_rules!("wav_block_checked", "the block align has to be 2", coding: |of| is_pcm(of) && half(of, 12) == 2),
    by_rules!("wav_rate_0_refused", "a rate of 0 is refused by 20", coding: |of| is_pcm(of) && rate_of(of, 4) > 0),
    by_rules!(
        "wav_rate_above_refused",
        "a rate above 16,777,216 is refused by 20",
        coding: |of| is_pcm(of) && rate_of(of, 4) <= 16_777_216,
    ),
    by_rules!(
        "wav_rate_usual",
        "a rate above 192,000 is refused by 20",
        coding: |of| is_pcm(of) && rate_of(of, 4) <= 192_000,
    ),
    by_rules!("wav_rate_from_bytes", "the rate is read from the bytes a second", rate: |of| rate_of(of, 8)),
    by_rules!("wav_rate_halved", "the rate is half of the bytes a second", rate: |of| rate_of(of, 8) / 2),
    by_rules!(
        "wav_rate_of_16_digits",
        "of the rate the last 16 binary digits are read",
        rate: |of| rate_of(of, 4) & 0xffff,
    ),
    by_rules!(
        "wav_rate_of_24_digits",
        "of the rate the last 24 binary digits are read",
        rate: |of| rate_of(of, 4) & 0xff_ffff,
    ),
    by_rules!("wav_rate_from_highest", "the rate is read highest byte first", rate: |of| rate_of(of, 4).swap_bytes()),
    by_rules!("wav_rate_at_3", "the rate is read from a byte before it", rate: |of| rate_of(of, 3)),
    by_rules!(
        "wav_coding_is_19",
        "19 is given for another coding",
        read: |not| if read(not) == 20 { 19 } else { read(not) },
    ),
];

/// How much room is needed, and what is tested first.
const ROOMS: &[Standin] = &[
    by_rules!("wav_marks_unchecked", "the room for marks is not looked at", room: |n, samples, _| samples >= n),
    by_rules!("wav_samples_unchecked", "the room for samples is not looked at", room: |n, _, marks| marks >= n),
    by_rules!("wav_room_unchecked", "the rooms are not looked at", room: |_, _, _| true),
    by_rules!(
        "wav_either_room",
        "room for samples or for marks is enough",
        room: |n, samples, marks| samples >= n || marks >= n,
    ),
    by_rules!("wav_one_short", "rooms may be one short", room: |n, samples, marks| samples + 1 >= n && marks + 1 >= n),
    by_rules!(
        "wav_room_to_spare",
        "rooms have to be longer than needed",
        room: |n, samples, marks| samples > n && marks > n,
    ),
    by_rules!(
        "wav_room_exact",
        "rooms have to be as long as needed",
        room: |n, samples, marks| samples == n && marks == n,
    ),
    by_rules!(
        "wav_rooms_alike",
        "rooms have to be of the same length",
        room: |n, samples, marks| samples >= n && samples == marks,
    ),
    by_rules!(
        "wav_room_for_bytes",
        "rooms have to be as long as the data have bytes",
        room: |n, samples, marks| samples >= 2 * n && marks >= n,
    ),
    by_rules!(
        "wav_21_before_20",
        "21 is tested before 20",
        read: |not| first(&[(19, not.whole || not.sound || not.odd), (21, not.short), (20, not.coding), (2, not.many)]),
    ),
    by_rules!(
        "wav_21_before_19",
        "21 is tested before 19, where there is no room at all",
        read: |not| if not.no_room { 21 } else { read(not) },
    ),
    by_rules!("wav_out_unchecked", "the room for a file is not looked at", enough: |_, _| true),
    by_rules!(
        "wav_out_one_short",
        "the room for a file may be one byte short",
        enough: |n, room| room + 1 >= 44 + 2 * n,
    ),
    by_rules!(
        "wav_out_two_short",
        "the room for a file may be one sample short",
        enough: |n, room| room + 2 >= 44 + 2 * n,
    ),
    by_rules!(
        "wav_out_to_spare",
        "the room for a file has to be longer than needed",
        enough: |n, room| room > 44 + 2 * n,
    ),
    by_rules!("wav_out_exact", "the room for a file has to be as long as needed", enough: |n, room| room == 44 + 2 * n),
    by_rules!("wav_out_of_46", "a file needs room for two bytes more", enough: |n, room| room >= 46 + 2 * n),
    by_rules!("wav_out_without_head", "the room has to hold the samples alone", enough: |n, room| room >= 2 * n),
    by_rules!(
        "wav_21_before_7",
        "21 is tested before 7",
        write: |not| first(&[(2, not.many), (21, not.short), (7, not.loud)]),
    ),
    by_rules!(
        "wav_out_is_6",
        "6 is given where the room for a file is short",
        write: |not| if write(not) == 21 { 6 } else { write(not) },
    ),
    by_rules!(
        "wav_room_is_12",
        "12 is given where a reader's room is short",
        read: |not| if read(not) == 21 { 12 } else { read(not) },
    ),
];

/// What is left, and what is handed back.
const LEFT: &[Standin] = &[
    altering!("wav_marks_left", "the marks are left as they are", |lent, call| {
        let marks = lent.marks.lent().to_vec();
        let number = lent.call(call);
        lent.marks.lend().copy_from_slice(&marks);
        number
    }),
    altering!("wav_marks_all_cleared", "the marks behind the samples are cleared too", |lent, call| {
        accepted_and(lent, call, |lent, call| {
            if call == Call::Read {
                lent.marks.lend().fill(0)
            }
        })
    }),
    altering!("wav_last_mark_left", "the last mark is left as it is", |lent, call| {
        let marks = lent.marks.lent().to_vec();
        let number = lent.call(call);
        if let (Call::Read, 0, Some(last)) = (call, number, lent.value.lent()[0].checked_sub(1)) {
            lent.marks.lend()[last] = marks[last];
        }
        number
    }),
    altering!("wav_samples_behind", "the samples behind are cleared", |lent, call| {
        accepted_and(lent, call, |lent, call| {
            if call == Call::Read {
                let n = lent.value.lent()[0];
                lent.samples.lend()[n..].fill(0)
            }
        })
    }),
    altering!("wav_sample_behind", "a sample more is written behind them", |lent, call| {
        accepted_and(lent, call, |lent, call| {
            if call == Call::Read {
                let n = lent.value.lent()[0];
                lent.samples.whole[GUARDS + n] = 0
            }
        })
    }),
    altering!("wav_mark_behind", "a mark more is written behind them", |lent, call| {
        accepted_and(lent, call, |lent, call| {
            if call == Call::Read {
                let n = lent.value.lent()[0];
                lent.marks.whole[GUARDS + n] = 0
            }
        })
    }),
    altering!("wav_byte_behind_written", "a writer clears the byte behind the file", |lent, call| {
        accepted_and(lent, call, |lent, call| {
            if call != Call::Read {
                let bytes = lent.value.lent()[0];
                lent.file.whole[GUARDS + bytes] = 0
            }
        })
    }),
    altering!("wav_bytes_behind_written", "a writer clears what stands behind the file", |lent, call| {
        accepted_and(lent, call, |lent, call| {
            if call != Call::Read {
                let bytes = lent.value.lent()[0];
                lent.file.lend()[bytes..].fill(0)
            }
        })
    }),
    altering!("wav_file_read_written", "a reader clears the first byte of the file", |lent, call| {
        accepted_and(lent, call, |lent, call| {
            if call == Call::Read {
                lent.file.lend()[0] = 0
            }
        })
    }),
    altering!("wav_samples_held", "a writer leaves the samples held to -1 and 1", |lent, call| {
        accepted_and(lent, call, |lent, call| {
            if call != Call::Read {
                lent.samples.lend().iter_mut().for_each(|word| *word = f32::from_bits(*word).clamp(-1.0, 1.0).to_bits())
            }
        })
    }),
    altering!("wav_refused_clears_marks", "a reader that refuses clears the marks", |lent, call| {
        refused_and(lent, call, |lent, call, _| {
            if call == Call::Read {
                lent.marks.lend().fill(0)
            }
        })
    }),
    altering!("wav_refused_clears_samples", "a reader that refuses clears the samples", |lent, call| {
        refused_and(lent, call, |lent, call, _| {
            if call == Call::Read {
                lent.samples.lend().fill(0)
            }
        })
    }),
    altering!("wav_21_shows_some", "a reader whose rooms are short shows as many samples as fit", |lent, call| {
        refused_and(lent, call, |lent, call, number| {
            if call == Call::Read && number == 21 {
                let (_, _, samples) = read_of(lent.file.lent(), lent.file.lent().len(), [usize::MAX; 2], &RULES);
                fill(lent.samples.lend(), &samples)
            }
        })
    }),
    altering!("wav_21_clears_some", "a reader whose room for samples is short clears the marks", |lent, call| {
        refused_and(lent, call, |lent, call, number| {
            if call == Call::Read && number == 21 {
                lent.marks.lend().fill(0)
            }
        })
    }),
    altering!("wav_7_writes_before", "a writer writes the samples before the one that it refuses", |lent, call| {
        refused_and(lent, call, |lent, call, number| {
            if let (Call::Write { rate }, 7) = (call, number) {
                let place = lent.value.lent()[0];
                let (_, _, file) = write_of(&lent.samples.lent()[..place], usize::MAX, rate, &RULES);
                fill(lent.file.lend(), &file)
            }
        })
    }),
    altering!("wav_21_writes_some", "a writer whose room is short writes as much as fits", |lent, call| {
        refused_and(lent, call, |lent, call, number| {
            if let (Call::Write { rate }, 21) = (call, number) {
                let (_, _, file) = write_of(lent.samples.lent(), usize::MAX, rate, &RULES);
                fill(lent.file.lend(), &file)
            }
        })
    }),
    altering!("wav_21_writes_head", "a writer whose room is short writes the name RIFF", |lent, call| {
        refused_and(lent, call, |lent, call, number| {
            if call != Call::Read && number == 21 {
                fill(lent.file.lend(), b"RIFF")
            }
        })
    }),
    altering!("wav_n_not_handed", "the number of samples is not handed back", |lent, call| {
        let (value, rate) = lent.figures();
        let number = lent.call(call);
        let (now, told) = lent.figures();
        lent.set_figures(if call == Call::Read { value } else { now }, if call == Call::Read { told } else { rate });
        number
    }),
    altering!("wav_refused_tells_n", "a reader that refuses by 21 tells how many samples there are", |lent, call| {
        refused_and(lent, call, |lent, call, number| {
            if call == Call::Read && number == 21 {
                let (_, _, samples) = read_of(lent.file.lent(), lent.file.lent().len(), [usize::MAX; 2], &RULES);
                lent.set_figures(samples.len(), 0)
            }
        })
    }),
    altering!("wav_refused_tells_rate", "a reader that refuses by 21 tells the rate", |lent, call| {
        refused_and(lent, call, |lent, call, number| {
            if call == Call::Read && number == 21 {
                let (_, (_, rate), _) = read_of(lent.file.lent(), lent.file.lent().len(), [usize::MAX; 2], &RULES);
                lent.set_figures(0, rate)
            }
        })
    }),
    altering!("wav_refused_leaves_figures", "a reader that refuses leaves both figures as they were", |lent, call| {
        let (value, rate) = lent.figures();
        let number = lent.call(call);
        if number != 0 && call == Call::Read {
            lent.set_figures(value, rate);
        }
        number
    }),
    altering!("wav_refused_leaves_rate", "a reader that refuses leaves the rate as it was", |lent, call| {
        let (_, rate) = lent.figures();
        let number = lent.call(call);
        if number != 0 && call == Call::Read {
            lent.set_figures(0, rate);
        }
        number
    }),
    altering!("wav_writer_leaves_value", "a writer that refuses leaves the value as it was", |lent, call| {
        let (value, rate) = lent.figures();
        let number = lent.call(call);
        if number == 21 && call != Call::Read {
            lent.set_figures(value, rate);
        }
        number
    }),
    altering!("wav_21_tells_needed", "a writer whose room is short tells how many bytes are needed", |lent, call| {
        refused_and(lent, call, |lent, call, number| {
            if call != Call::Read && number == 21 {
                let needed = 44 + 2 * lent.samples.lent().len();
                let (_, rate) = lent.figures();
                lent.set_figures(needed, rate)
            }
        })
    }),
    altering!("wav_answers_n", "a reader that accepts answers the number of samples", |lent, call| {
        match (lent.call(call), call) {
            (0, Call::Read) => lent.value.lent()[0] as u32,
            (number, _) => number,
        }
    }),
    by_rules!(
        "wav_tells_samples",
        "a writer tells how many samples it wrote",
        wrote: |number, bytes, place| if number == 0 {
            (bytes - 44) / 2
        } else {
            wrote(number, bytes, place)
        },
    ),
    by_rules!(
        "wav_tells_data",
        "a writer tells how many bytes the samples have",
        wrote: |number, bytes, place| if number == 0 {
            bytes - 44
        } else {
            wrote(number, bytes, place)
        },
    ),
    by_rules!("wav_tells_size", "a writer tells the RIFF size", wrote: |number, bytes, place| if number == 0 {
        bytes - 8
    } else {
        wrote(number, bytes, place)
    }),
    by_rules!(
        "wav_tells_bytes_read",
        "a reader tells how many bytes the samples have",
        told: |number, n, rate| if number == 0 {
            (2 * n, rate)
        } else {
            (0, 0)
        },
    ),
    by_rules!("wav_told_either_way", "a reader that refuses tells figures", told: |_, n, rate| (n, rate)),
];

/// What the values of a file become.
const VALUES: &[Standin] = &[
    by_rules!(
        "wav_read_by_32767",
        "a value is divided by 32,767",
        sample: |value| (f32::from(value as i16) / 32_767.0).to_bits(),
    ),
    by_rules!(
        "wav_read_by_65535",
        "a value is divided by 65,535",
        sample: |value| (f32::from(value as i16) / 65_535.0).to_bits(),
    ),
    by_rules!(
        "wav_read_by_65536",
        "a value is divided by 65,536",
        sample: |value| (f32::from(value as i16) / 65_536.0).to_bits(),
    ),
    by_rules!(
        "wav_read_unsigned",
        "a value is read without its sign",
        sample: |value| (f32::from(value) / 32_768.0).to_bits(),
    ),
    by_rules!(
        "wav_read_offset",
        "a value is read as so much above the lowest",
        sample: |value| ((f32::from(value) - 32_768.0) / 32_768.0).to_bits(),
    ),
    by_rules!("wav_read_ones", "a value below zero is read as the complement of its digits", sample: |value| {
        let value = value as i16;
        (f32::from(if value < 0 { value + 1 } else { value }) / 32_768.0).to_bits()
    }),
    by_rules!(
        "wav_read_least_held",
        "-32,768 is held to -32,767",
        sample: |value| (f32::from((value as i16).max(-32_767)) / 32_768.0).to_bits(),
    ),
    by_rules!(
        "wav_read_minus_zero",
        "0 is read as -0",
        sample: |value| if value == 0 { 0x8000_0000 } else { sampled(value) },
    ),
    by_rules!("wav_read_turned", "values are read highest byte first", half: u16::from_be_bytes),
    by_rules!("wav_read_swapped_sign", "samples have the other sign", sample: |value| sampled(value) ^ 0x8000_0000),
    by_rules!("wav_read_by_parts", "values above and below zero have scales of their own", sample: |value| {
        let value = value as i16;
        (f32::from(value) / if value < 0 { 32_768.0 } else { 32_767.0 }).to_bits()
    }),
    by_rules!(
        "wav_read_half_more",
        "a half is added to each value",
        sample: |value| ((f32::from(value as i16) + 0.5) / 32_768.0).to_bits(),
    ),
    by_rules!("wav_read_eight_digits", "of a value the upper byte is read", sample: |value| sampled(value & 0xff00)),
    by_rules!("wav_read_last_digit", "the last digit of a value is lost", sample: |value| sampled(value & 0xfffe)),
    by_rules!("wav_read_from_head", "samples are read from the size of the data on", body: 4),
    by_rules!("wav_read_one_late", "samples are read from one byte behind their first", body: 9),
    by_rules!("wav_mark_6", "the marks become 6", mark: 6),
    by_rules!("wav_mark_1", "the marks become 1", mark: 1),
    by_rules!("wav_one_fewer", "one sample fewer is read", count: |size| (size / 2).saturating_sub(1)),
    by_rules!("wav_count_bytes", "as many samples are read as the data have bytes", count: |size| size),
    by_rules!(
        "wav_count_of_16_digits",
        "of the number of samples the last 16 binary digits are taken",
        count: |size| (size / 2) & 0xffff,
    ),
];

/// What samples become in a file.
const WRITTEN: &[Standin] = &[
    by_rules!("wav_round_even", "halves are rounded to even", value: |word| rounded(word, |x| {
        let down = x.floor();
        if x - down == 0.5 { down + down.rem_euclid(2.0) } else { x.round() }
    })),
    by_rules!("wav_round_to_zero", "samples are rounded toward zero", value: |word| rounded(word, f64::trunc)),
    by_rules!("wav_round_down", "samples are rounded down", value: |word| rounded(word, f64::floor)),
    by_rules!("wav_round_up", "samples are rounded up", value: |word| rounded(word, f64::ceil)),
    by_rules!("wav_half_up", "halves are rounded up", value: |word| rounded(word, |x| (x + 0.5).floor())),
    by_rules!("wav_half_down", "halves are rounded down", value: |word| rounded(word, |x| (x - 0.5).ceil())),
    by_rules!(
        "wav_half_to_zero",
        "halves are rounded toward zero",
        value: |word| rounded(word, |x| x.signum() * (x.abs() - 0.5).ceil()),
    ),
    by_rules!("wav_round_in_f32", "a half is added in f32 before the cut", value: |word| {
        let x = f32::from_bits(word) * 32_768.0;
        (x + if x < 0.0 { -0.5 } else { 0.5 }).trunc().clamp(-32_768.0, 32_767.0) as i16 as u16
    }),
    by_rules!("wav_least_held", "-32,768 is held to -32,767", value: |word| held(word, -32_767.0, 32_767.0)),
    by_rules!("wav_most_32766", "32,767 is held to 32,766", value: |word| held(word, -32_768.0, 32_766.0)),
    by_rules!(
        "wav_most_around",
        "what is above 32,767 goes round",
        value: |word| (f64::from(f32::from_bits(word)) * 32_768.0).round() as i64 as u16,
    ),
    by_rules!("wav_most_first", "1 becomes 32,767, and what is above it goes round", value: |word| {
        let whole = (f64::from(f32::from_bits(word)) * 32_768.0).round();
        (if whole == 32_768.0 { 32_767.0 } else { whole }) as i64 as u16
    }),
    by_rules!("wav_held_before", "samples are held to -1..1 before the product, and 1 goes round", value: |word| {
        (f64::from(f32::from_bits(word).clamp(-1.0, 1.0)) * 32_768.0).round() as i64 as u16
    }),
    by_rules!("wav_write_by_32767", "samples are multiplied by 32,767", value: |word| scaled(word, 32_767.0)),
    by_rules!("wav_write_by_65535", "samples are multiplied by 65,535", value: |word| scaled(word, 65_535.0)),
    by_rules!("wav_write_by_65536", "samples are multiplied by 65,536", value: |word| scaled(word, 65_536.0)),
    by_rules!("wav_write_by_parts", "samples above and below zero have scales of their own", value: |word| {
        scaled(word, if f32::from_bits(word) < 0.0 { 32_768.0 } else { 32_767.0 })
    }),
    by_rules!("wav_write_turned", "values are written highest byte first", bytes: u16::to_be_bytes),
    by_rules!("wav_write_sign_apart", "a value below zero is written as its size and a sign", value: |word| {
        let value = valued(word) as i16;
        if value < 0 { 0x8000 | value.unsigned_abs() } else { value as u16 }
    }),
    by_rules!(
        "wav_minus_zero_is_least",
        "-0 is written as -32,768",
        value: |word| if word == 0x8000_0000 { 0x8000 } else { valued(word) },
    ),
    by_rules!(
        "wav_subnormal_is_one",
        "a subnormal is written as 1",
        value: |word| if word > 0 && word < 0x0080_0000 { 1 } else { valued(word) },
    ),
    by_rules!("wav_loud_is_most", "samples that are not in range are held too", in_range: |_| true),
    by_rules!(
        "wav_nan_is_zero",
        "a NaN is written as 0",
        in_range: |word| f32::from_bits(word).is_nan() || is_in_range(word),
    ),
    by_rules!(
        "wav_infinite_is_most",
        "an infinity is held too",
        in_range: |word| f32::from_bits(word).is_infinite() || is_in_range(word),
    ),
    by_rules!(
        "wav_above_65536",
        "the next float above 65,536 is in range",
        in_range: |word| word & 0x7fff_ffff <= 0x4780_0001,
    ),
    by_rules!("wav_65536_out", "65,536 is not in range", in_range: |word| word & 0x7fff_ffff < 0x4780_0000),
    by_rules!(
        "wav_minus_65536_out",
        "-65,536 is not in range",
        in_range: |word| is_in_range(word) && word != 0xc780_0000,
    ),
    by_rules!("wav_one_out", "what is above 1 is not in range", in_range: |word| f32::from_bits(word).abs() <= 1.0),
    by_rules!(
        "wav_signalling_in",
        "a signalling NaN is in range",
        in_range: |word| is_in_range(word) || word == 0x7f80_0001,
    ),
    by_rules!(
        "wav_7_highest",
        "7 tells the highest place",
        place: |samples, in_range| samples.iter().rposition(|word| !in_range(*word)),
    ),
    by_rules!("wav_7_without_first", "7 is not given for the first sample", place: |samples, in_range| {
        samples.iter().skip(1).position(|word| !in_range(*word)).map(|place| place + 1)
    }),
    by_rules!("wav_7_without_last", "7 is not given for the last sample", place: |samples, in_range| {
        samples[..samples.len().saturating_sub(1)].iter().position(|word| !in_range(*word))
    }),
    by_rules!(
        "wav_7_from_one",
        "7 tells places from 1 on",
        wrote: |number, bytes, place| wrote(number, bytes, place) + usize::from(number == 7),
    ),
    by_rules!(
        "wav_7_tells_none",
        "7 tells no place",
        wrote: |number, bytes, place| if number == 7 { 0 } else { wrote(number, bytes, place) },
    ),
    by_rules!("wav_7_tells_byte", "7 tells the byte of the sample", wrote: |number, bytes, place| {
        if number == 7 { 44 + 2 * place } else { wrote(number, bytes, place) }
    }),
    by_rules!(
        "wav_7_is_8",
        "8 is given for a sample out of range",
        write: |not| if write(not) == 7 { 8 } else { write(not) },
    ),
    by_rules!("wav_head_of_46", "a fmt chunk of 18 bytes is written", header: |rate, n| {
        let mut head = headed(rate, n);
        head[16] = 18;
        head.splice(36..36, [0, 0]);
        head
    }),
    by_rules!(
        "wav_size_with_head",
        "the RIFF size counts the whole file",
        header: |rate, n| with(headed(rate, n), 4, 44 + 2 * n as u32),
    ),
    by_rules!(
        "wav_size_of_data",
        "the RIFF size is that of the data",
        header: |rate, n| with(headed(rate, n), 4, 2 * n as u32),
    ),
    by_rules!(
        "wav_size_without_wave",
        "the RIFF size does not count the name WAVE",
        header: |rate, n| with(headed(rate, n), 4, 32 + 2 * n as u32),
    ),
    by_rules!(
        "wav_data_size_of_n",
        "the data size is the number of samples",
        header: |rate, n| with(headed(rate, n), 40, n as u32),
    ),
    by_rules!("wav_data_size_0", "the data size is left 0", header: |rate, n| with(headed(rate, n), 40, 0)),
    by_rules!(
        "wav_byte_rate_of_one",
        "bytes a second are as many as samples",
        header: |rate, n| with(headed(rate, n), 28, rate),
    ),
    by_rules!(
        "wav_byte_rate_held",
        "bytes a second are held to 2^32-1",
        header: |rate, n| with(headed(rate, n), 28, rate.saturating_mul(2)),
    ),
    by_rules!("wav_byte_rate_0", "bytes a second are left 0", header: |rate, n| with(headed(rate, n), 28, 0)),
    by_rules!("wav_rate_48000", "the rate is always 48,000", header: |_, n| headed(48_000, n)),
    by_rules!(
        "wav_rate_44100_for_0",
        "a rate of 0 becomes 44,100",
        header: |rate, n| headed(if rate == 0 { 44_100 } else { rate }, n),
    ),
    by_rules!(
        "wav_rate_highest_first",
        "the rate is written highest byte first",
        header: |rate, n| with(headed(rate, n), 24, rate.swap_bytes()),
    ),
    by_rules!("wav_block_4", "the block align is 4", header: |rate, n| with(headed(rate, n), 32, 0x0010_0004)),
    by_rules!("wav_bits_8", "the bits are 8", header: |rate, n| with(headed(rate, n), 32, 0x0008_0002)),
    by_rules!(
        "wav_writes_stereo",
        "two channels are written",
        header: |rate, n| with(headed(rate, n), 20, 0x0002_0001),
    ),
    by_rules!("wav_writes_tag_3", "tag 3 is written", header: |rate, n| with(headed(rate, n), 20, 0x0001_0003)),
    by_rules!(
        "wav_writes_rifx",
        "RIFX is written",
        header: |rate, n| with(headed(rate, n), 0, u32::from_le_bytes(*b"RIFX")),
    ),
    by_rules!(
        "wav_writes_fmt_0",
        "the name fmt ends in a 0",
        header: |rate, n| with(headed(rate, n), 12, u32::from_le_bytes(*b"fmt\0")),
    ),
];

/// At the most samples, and past what a size can say.
const LIMITS: &[Standin] = &[
    by_rules!("wav_many_read", "one sample more than 1,048,576 is read", most: |n| n <= 1_048_577),
    by_rules!("wav_most_read_refused", "1,048,576 samples are refused by 2", most: |n| n < 1_048_576),
    by_rules!("wav_any_number_read", "any number of samples is read", most: |_| true),
    by_rules!("wav_many_written", "one sample more than 1,048,576 is written", most_written: |n| n <= 1_048_577),
    by_rules!("wav_most_written_refused", "1,048,576 samples are not written", most_written: |n| n < 1_048_576),
    by_rules!(
        "wav_2_before_20",
        "2 is tested before 20",
        read: |not| first(&[(19, not.whole || not.sound || not.odd), (2, not.many), (20, not.coding), (21, not.short)]),
    ),
    by_rules!(
        "wav_2_before_19",
        "2 is tested before 19",
        read: |not| first(&[(2, not.many), (19, not.whole || not.sound || not.odd), (20, not.coding), (21, not.short)]),
    ),
    by_rules!(
        "wav_21_before_2",
        "21 is tested before 2",
        read: |not| first(&[(19, not.whole || not.sound || not.odd), (20, not.coding), (21, not.short), (2, not.many)]),
    ),
    by_rules!(
        "wav_7_before_2",
        "7 is tested before 2",
        write: |not| first(&[(7, not.loud), (2, not.many), (21, not.short)]),
    ),
    by_rules!(
        "wav_21_before_2_written",
        "a writer tests 21 before 2",
        write: |not| first(&[(7, not.loud && !not.many), (21, not.short), (2, not.many)]),
    ),
    by_rules!(
        "wav_2_is_21",
        "too many samples are refused by 21",
        read: |not| if read(not) == 2 { 21 } else { read(not) },
    ),
    by_rules!("wav_sizes_signed", "a size from 2^31 on counts as 0", word: |four| {
        let word = u32::from_le_bytes(four);
        if word >> 31 == 1 { 0 } else { word }
    }),
    by_rules!("wav_size_around", "where a chunk ends is counted in 32 bits", next: |at, size| {
        let next = (at as u32).wrapping_add(8).wrapping_add(size as u32) as usize;
        if next > at { next } else { usize::MAX }
    }),
    by_rules!("wav_padded_around", "a size of 2^32-1 goes round where it is padded", padded: |size, _| {
        (size as u32).wrapping_add(size as u32 % 2) as usize
    }),
    by_rules!(
        "wav_samples_of_20_digits",
        "of the number of samples the last 20 binary digits are taken",
        count: |size| (size / 2) & 0xf_ffff,
    ),
];

/// What only files of many faults, or of many chunks, show.
const BYTES: &[Standin] = &[
    by_rules!("wav_most_chunks", "a file of more than six chunks is refused by 19", pick_of: |found| found.len() <= 6),
    by_rules!(
        "wav_fourth_pad",
        "a pad byte behind the fourth chunk is not skipped",
        padded_of: |place, size, padded| if place == 4 { size } else { padded },
    ),
    by_rules!(
        "wav_data_in_first_eight",
        "data behind the seventh chunk are not found",
        pick: |formats, data| picked(formats, data).filter(|[_, data]| *data < 7),
    ),
];

/// Wrong in library and model alike, and told by the way a file was built.
const CHUNKS_ALIKE: &[Standin] = &[
    alike!("wav_both_pad_not_skipped", "on both sides a pad byte is not skipped", padded: |size, _| size),
    alike!(
        "wav_both_data_before_fmt",
        "on both sides data before fmt are accepted",
        pick: |formats, data| Some([*formats.first()?, *data.first()?]),
    ),
    alike!(
        "wav_both_data_behind_fmt",
        "on both sides data before fmt are skipped",
        pick: |formats, data| {
            let format = *formats.first()?;
            Some([format, *data.iter().find(|data| **data > format)?])
        },
    ),
    alike!(
        "wav_both_last_fmt",
        "on both sides the last fmt chunk is taken",
        pick: |formats, data| picked(&formats[formats.len().saturating_sub(1)..], data),
    ),
    alike!(
        "wav_both_last_data",
        "on both sides the last data chunk is taken",
        pick: |formats, data| picked(formats, &data[data.len().saturating_sub(1)..]),
    ),
    alike!(
        "wav_both_fmt_of_14",
        "on both sides a fmt chunk of 14 bytes is taken",
        is_format: |found| found.name == FMT && found.size >= 14,
    ),
    alike!("wav_both_odd_data", "on both sides data of an odd size are accepted", even: |_| true),
    alike!("wav_both_size_unread", "on both sides the RIFF size is not looked at", size: |_, _| true),
    alike!(
        "wav_both_byte_behind",
        "on both sides one byte behind the last chunk is accepted",
        ends: |end, length| end == length || end + 1 == length,
    ),
    alike!(
        "wav_both_pad_not_last",
        "on both sides the last chunk may lack its pad byte",
        ends: |end, length| end == length || end == length + 1,
    ),
    alike!(
        "wav_both_20_before_19",
        "on both sides 20 is tested before an odd size",
        read: |not| {
            let late = [(20, not.coding), (19, not.odd), (2, not.many), (21, not.short)];
            if not.whole || not.sound { 19 } else { first(&late) }
        },
    ),
];

/// Likewise of what a fmt chunk says.
const CODINGS_ALIKE: &[Standin] = &[
    alike!(
        "wav_both_stereo",
        "on both sides stereo is accepted",
        coding: |of| tag(of) == 1 && channels(of) <= 2 && channels(of) > 0 && bits(of) == 16,
    ),
    alike!(
        "wav_both_extensible",
        "on both sides an extensible header is accepted",
        coding: |of| (tag(of) == 1 || tag(of) == 0xfffe) && channels(of) == 1 && bits(of) == 16,
    ),
    alike!(
        "wav_both_bits_unread",
        "on both sides the bits are not looked at",
        coding: |of| tag(of) == 1 && channels(of) == 1,
    ),
    alike!(
        "wav_both_byte_rate_checked",
        "on both sides bytes a second have to be twice the rate",
        coding: |of| is_pcm(of) && rate_of(of, 8) == rate_of(of, 4).wrapping_mul(2),
    ),
    alike!(
        "wav_both_rate_from_bytes",
        "on both sides the rate is read from the bytes a second",
        rate: |of| rate_of(of, 8),
    ),
    alike!(
        "wav_both_rate_0_refused",
        "on both sides a rate of 0 is refused by 20",
        coding: |of| is_pcm(of) && rate_of(of, 4) > 0,
    ),
    alike!(
        "wav_both_read_by_32767",
        "on both sides a value is divided by 32,767",
        sample: |value| (f32::from(value as i16) / 32_767.0).to_bits(),
    ),
    alike!("wav_both_read_turned", "on both sides values are read highest byte first", half: u16::from_be_bytes),
    alike!("wav_both_mark_6", "on both sides the marks become 6", mark: 6),
];

/// Likewise of what is written.
const WRITTEN_ALIKE: &[Standin] = &[
    alike!("wav_both_round_even", "on both sides halves are rounded to even", value: |word| rounded(word, |x| {
        let down = x.floor();
        if x - down == 0.5 { down + down.rem_euclid(2.0) } else { x.round() }
    })),
    alike!(
        "wav_both_half_up",
        "on both sides halves are rounded up",
        value: |word| rounded(word, |x| (x + 0.5).floor()),
    ),
    alike!(
        "wav_both_round_to_zero",
        "on both sides samples are rounded toward zero",
        value: |word| rounded(word, f64::trunc),
    ),
    alike!(
        "wav_both_least_held",
        "on both sides -32,768 is held to -32,767",
        value: |word| held(word, -32_767.0, 32_767.0),
    ),
    alike!(
        "wav_both_write_by_32767",
        "on both sides samples are multiplied by 32,767",
        value: |word| scaled(word, 32_767.0),
    ),
    alike!("wav_both_most_around", "on both sides what is above 32,767 goes round", value: |word| {
        (f64::from(f32::from_bits(word)) * 32_768.0).round() as i64 as u16
    }),
    alike!(
        "wav_both_byte_rate",
        "on both sides bytes a second are held to 2^32-1",
        header: |rate, n| with(headed(rate, n), 28, rate.saturating_mul(2)),
    ),
    alike!(
        "wav_both_size_with_head",
        "on both sides the RIFF size counts the whole file",
        header: |rate, n| with(headed(rate, n), 4, 44 + 2 * n as u32),
    ),
    alike!(
        "wav_both_7_highest",
        "on both sides 7 tells the highest place",
        place: |samples, in_range| samples.iter().rposition(|word| !in_range(*word)),
    ),
    alike!(
        "wav_both_65536_out",
        "on both sides 65,536 is not in range, and 7 is given",
        in_range: |word| word & 0x7fff_ffff < 0x4780_0000,
    ),
];

/// Likewise of what is left and told.
const ROOMS_ALIKE: &[Standin] = &[
    alike!(
        "wav_both_told_either_way",
        "on both sides a reader that refuses tells figures",
        told: |_, n, rate| (n, rate),
    ),
    alike!(
        "wav_both_tells_samples",
        "on both sides a writer tells how many samples it wrote",
        wrote: |number, bytes, place| if number == 0 {
            (bytes - 44) / 2
        } else {
            wrote(number, bytes, place)
        },
    ),
    Standin {
        name: "wav_both_refused_clears",
        says: "on both sides a reader that refuses clears the marks",
        how: Waves(|areas, call| {
            let answer = wave_in(areas, call, RULES);
            if answer.number != 0 {
                areas.marks.fill(0);
            }
            answer
        }),
    },
    Standin {
        name: "wav_both_marks_behind",
        says: "on both sides the marks behind the samples are cleared",
        how: Waves(|areas, call| {
            let answer = wave_in(areas, call, RULES);
            if answer.number == 0 {
                areas.marks.fill(0);
            }
            answer
        }),
    },
    Standin {
        name: "wav_both_bytes_behind",
        says: "on both sides what stands behind a written file is cleared",
        how: Waves(|areas, call| {
            let answer = wave_in(areas, call, RULES);
            if answer.number == 0 && call != Call::Read {
                areas.file[answer.value..].fill(0);
            }
            answer
        }),
    },
];

/// The model alone is wrong.
const MODEL: &[Standin] = &[
    model!("wav_model_marks_left", "the model leaves the marks", |_, before, after, _| after.marks =
        before.marks.clone()),
    model!("wav_model_samples_left", "the model leaves the samples", |_, before, after, _| after.samples =
        before.samples.clone()),
    model!("wav_model_file_left", "the model does not write", |_, before, after, _| after.file = before.file.clone()),
    model!("wav_model_20_is_19", "the model gives 19 for 20", |_, _, _, answer| if answer.number == 20 {
        answer.number = 19
    }),
    model!("wav_model_rate_0", "the model tells no rate", |_, _, _, answer| answer.rate = 0),
    model!("wav_model_value_0", "the model tells no value", |_, _, _, answer| answer.value = 0),
    model!("wav_model_pad_written", "the model pads what it writes to four bytes", |call, _, after, answer| {
        if answer.number == 0 && call != Call::Read && answer.value % 4 == 2 && after.file.len() > answer.value {
            after.file[answer.value] = 0
        }
    }),
];

/// Those that are right.
const RIGHT: &[Standin] =
    &[by_rules!("wav_by_hand", "a reader and a writer written by hand, by rules that are right", first: 12)];

const RIGHT_WRITTEN: &[Standin] = &[by_rules!(
    "wav_rounded_twice",
    "samples are rounded in f64 with a half added, which is exact there",
    value: |word| rounded(word, |x| x.signum() * (x.abs() + 0.5).floor()),
)];

const FMT: [u8; 4] = *b"fmt ";
const DATA: [u8; 4] = *b"data";

/// A chunk that is found: where its head begins, its name and its size.
#[derive(Clone, Copy)]
struct Found {
    at: usize,
    name: [u8; 4],
    size: usize,
}

/// Whether a sample may be written.
type InRange = fn(u32) -> bool;

/// What reader and writer go by.
#[derive(Clone, Copy)]
struct Rules {
    /// The word of four bytes, and the half of two.
    word: fn([u8; 4]) -> u32,
    half: fn([u8; 2]) -> u16,
    /// Whether the names at the beginning are right, and whether a file of so many bytes may have this RIFF size.
    riff: fn([u8; 4]) -> bool,
    wave: fn([u8; 4]) -> bool,
    size: fn(usize, usize) -> bool,
    /// Where the first chunk begins; how many bytes a body takes with what pads it, where so many are left; likewise by
    /// the chunk's place; where the next begins; and whether chunks may end here in a file of so many bytes.
    first: usize,
    padded: fn(usize, usize) -> usize,
    padded_of: fn(usize, usize, usize) -> usize,
    next: fn(usize, usize) -> usize,
    ends: fn(usize, usize) -> bool,
    /// Which chunks are of the format and of the data; which of these are taken; whether the chunks are allowed; and
    /// whether the data may have this size.
    is_format: fn(&Found) -> bool,
    is_data: fn(&Found) -> bool,
    pick: fn(&[usize], &[usize]) -> Option<[usize; 2]>,
    pick_of: fn(&[Found]) -> bool,
    even: fn(usize) -> bool,
    /// Whether 16 bytes of a format are allowed, and the rate that they say.
    coding: fn(&[u8]) -> bool,
    rate: fn(&[u8]) -> u32,
    /// Where the samples begin in the data; how many so many bytes are; whether so many may be read; whether rooms are
    /// enough; the word of a value; and the mark.
    body: usize,
    count: fn(usize) -> usize,
    most: fn(usize) -> bool,
    room: fn(usize, usize, usize) -> bool,
    sample: fn(u16) -> u32,
    mark: u8,
    /// The number of a reader's refusal, or 0; and what it tells.
    read: fn(&Not) -> u32,
    told: fn(u32, usize, u32) -> (usize, u32),
    /// Whether a sample may be written; which place is told; its value, and the bytes of that; the bytes before the
    /// samples; whether so many may be written, and into so many bytes.
    in_range: InRange,
    place: fn(&[u32], InRange) -> Option<usize>,
    value: fn(u32) -> u16,
    bytes: fn(u16) -> [u8; 2],
    header: fn(u32, usize) -> Vec<u8>,
    most_written: fn(usize) -> bool,
    enough: fn(usize, usize) -> bool,
    /// The number of a writer's refusal, or 0; and what it tells.
    write: fn(&Not) -> u32,
    wrote: fn(u32, usize, usize) -> usize,
}

/// What they are to go by.
const RULES: Rules = Rules {
    word: u32::from_le_bytes,
    half: u16::from_le_bytes,
    riff: |name| name == *b"RIFF",
    wave: |name| name == *b"WAVE",
    size: |size, length| size + 8 == length,
    first: 12,
    padded: |size, _| size + size % 2,
    padded_of: |_, _, padded| padded,
    next: |at, size| at + 8 + size,
    ends: |end, length| end == length,
    is_format: |found| found.name == FMT && found.size >= 16,
    is_data: |found| found.name == DATA,
    pick: picked,
    pick_of: |_| true,
    even: |size| size % 2 == 0,
    coding: is_pcm,
    rate: |of| rate_of(of, 4),
    body: 8,
    count: |size| size / 2,
    most: |n| n <= 1_048_576,
    room: |n, samples, marks| samples >= n && marks >= n,
    sample: sampled,
    mark: 0,
    read,
    told: |number, n, rate| if number == 0 { (n, rate) } else { (0, 0) },
    in_range: is_in_range,
    place: |samples, in_range| samples.iter().position(|word| !in_range(*word)),
    value: valued,
    bytes: u16::to_le_bytes,
    header: headed,
    most_written: |n| n <= 1_048_576,
    enough: |n, room| room >= 44 + 2 * n,
    write,
    wrote,
};

/// What is not as it is to be.
#[derive(Clone, Copy, Default)]
struct Not {
    whole: bool,
    sound: bool,
    no_format: bool,
    no_data: bool,
    odd: bool,
    coding: bool,
    many: bool,
    short: bool,
    no_room: bool,
    loud: bool,
}

/// The first of these numbers that applies, or 0.
fn first(numbers: &[(u32, bool)]) -> u32 {
    numbers.iter().find(|(_, applies)| *applies).map_or(0, |(number, _)| *number)
}

fn read(not: &Not) -> u32 {
    first(&[(19, not.whole || not.sound || not.odd), (20, not.coding), (2, not.many), (21, not.short)])
}

fn write(not: &Not) -> u32 {
    first(&[(2, not.many), (7, not.loud), (21, not.short)])
}

/// What a writer tells: the bytes, or the place.
fn wrote(number: u32, bytes: usize, place: usize) -> usize {
    match number {
        0 => bytes,
        7 => place,
        _ => 0,
    }
}

/// The first format and the first data, where they stand so.
fn picked(formats: &[usize], data: &[usize]) -> Option<[usize; 2]> {
    let (format, data) = (*formats.first()?, *data.first()?);
    (format < data).then_some([format, data])
}

/// So many bytes at this place; what is not there counts as zeros.
fn bytes_at<const N: usize>(bytes: &[u8], at: usize) -> [u8; N] {
    let mut some = [0; N];
    some.iter_mut().zip(bytes.iter().skip(at)).for_each(|(byte, of)| *byte = *of);
    some
}

/// What a format says.
fn half(of: &[u8], at: usize) -> u16 {
    u16::from_le_bytes(bytes_at(of, at))
}

fn tag(of: &[u8]) -> u16 {
    half(of, 0)
}

fn channels(of: &[u8]) -> u16 {
    half(of, 2)
}

fn bits(of: &[u8]) -> u16 {
    half(of, 14)
}

fn rate_of(of: &[u8], at: usize) -> u32 {
    u32::from_le_bytes(bytes_at(of, at))
}

fn is_pcm(of: &[u8]) -> bool {
    tag(of) == 1 && channels(of) == 1 && bits(of) == 16
}

/// A value's sample, and a sample's value.
fn sampled(value: u16) -> u32 {
    (f32::from(value as i16) / 32_768.0).to_bits()
}

fn valued(word: u32) -> u16 {
    rounded(word, f64::round)
}

/// The value with another rounding, with other ends, and with another scale.
fn rounded(word: u32, round: fn(f64) -> f64) -> u16 {
    round(f64::from(f32::from_bits(word)) * 32_768.0).clamp(-32_768.0, 32_767.0) as i16 as u16
}

fn held(word: u32, least: f64, most: f64) -> u16 {
    (f64::from(f32::from_bits(word)) * 32_768.0).round().clamp(least, most) as i16 as u16
}

fn scaled(word: u32, scale: f64) -> u16 {
    (f64::from(f32::from_bits(word)) * scale).round().clamp(-32_768.0, 32_767.0) as i16 as u16
}

fn is_in_range(word: u32) -> bool {
    f32::from_bits(word).abs() <= 65_536.0
}

/// The bytes before the samples.
fn headed(rate: u32, n: usize) -> Vec<u8> {
    let bytes = 2 * n as u32;
    let mut head = b"RIFF....WAVEfmt \x10\0\0\0\x01\0\x01\0........\x02\0\x10\0data....".to_vec();
    for (at, word) in [(4, bytes + 36), (24, rate), (28, rate.wrapping_add(rate)), (40, bytes)] {
        head = with(head, at, word);
    }
    head
}

/// They with this word at this place.
fn with(mut head: Vec<u8>, at: usize, word: u32) -> Vec<u8> {
    head[at..at + 4].copy_from_slice(&word.to_le_bytes());
    head
}

/// The chunks of a file of which so many bytes are lent, and where the last of them ends.
fn walk(bytes: &[u8], n: usize, rules: &Rules) -> (Vec<Found>, usize) {
    let (mut at, mut found) = (rules.first, Vec::new());
    while at.saturating_add(8) <= n {
        let size = (rules.word)(bytes_at(bytes, at + 4)) as usize;
        found.push(Found { at, name: bytes_at(bytes, at), size });
        let take = (rules.padded)(size, n - at - 8);
        at = (rules.next)(at, (rules.padded_of)(found.len(), size, take));
    }
    (found, at)
}

/// A reader's answer, what it tells, and the words that it shows where it accepts. Of the bytes so many are lent, and
/// so much room for samples and marks.
fn read_of(bytes: &[u8], n: usize, [samples, marks]: [usize; 2], rules: &Rules) -> (u32, (usize, u32), Vec<u32>) {
    let (found, end) = walk(bytes, n, rules);
    let places = |is: fn(&Found) -> bool| -> Vec<usize> {
        found.iter().enumerate().filter(|(_, found)| is(found)).map(|(place, _)| place).collect()
    };
    let (formats, data) = (places(rules.is_format), places(rules.is_data));
    let taken = (rules.pick)(&formats, &data).filter(|_| (rules.pick_of)(&found));
    let [format, sound] = taken.map_or([None, None], |[format, data]| [Some(found[format]), Some(found[data])]);
    let body: [u8; 16] = format.map_or([0; 16], |format| bytes_at(bytes, format.at + 8));
    let (at, size) = sound.map_or((0, 0), |data| (data.at + rules.body, data.size));
    let count = (rules.count)(size);
    let not = Not {
        whole: !(rules.riff)(bytes_at(&bytes[..n], 0))
            || !(rules.size)((rules.word)(bytes_at(&bytes[..n], 4)) as usize, n)
            || !(rules.wave)(bytes_at(&bytes[..n], 8))
            || !(rules.ends)(end, n),
        sound: taken.is_none(),
        no_format: formats.is_empty(),
        no_data: data.is_empty(),
        odd: !(rules.even)(size),
        coding: !(rules.coding)(&body),
        many: !(rules.most)(count),
        short: !(rules.room)(count, samples, marks),
        no_room: samples == 0 && marks == 0,
        loud: false,
    };
    let number = (rules.read)(&not);
    let rate = (rules.rate)(&body);
    let values =
        (0..if number == 0 { count.min(n) } else { 0 }).map(|place| (rules.half)(bytes_at(bytes, at + 2 * place)));
    (number, (rules.told)(number, count, rate), values.map(rules.sample).collect())
}

/// A writer's answer, what it tells, and the bytes that it writes where it accepts. So much room is lent.
fn write_of(samples: &[u32], room: usize, rate: u32, rules: &Rules) -> (u32, usize, Vec<u8>) {
    let place = (rules.place)(samples, rules.in_range);
    let not = Not {
        many: !(rules.most_written)(samples.len()),
        loud: place.is_some(),
        short: !(rules.enough)(samples.len(), room),
        ..Not::default()
    };
    let number = (rules.write)(&not);
    let mut file = Vec::new();
    if number == 0 {
        file = (rules.header)(rate, samples.len());
        file.extend(samples.iter().flat_map(|word| (rules.bytes)((rules.value)(*word))));
    }
    (number, (rules.wrote)(number, 44 + 2 * samples.len(), place.unwrap_or(0)), file)
}

/// The first of these become the others, as far as both go.
fn fill<T: Copy>(room: &mut [T], with: &[T]) {
    room.iter_mut().zip(with).for_each(|(at, of)| *at = *of);
}

/// The call is made by these rules. Where they allow too much, what stands around the lent parts is read and written.
fn wave_by(lent: &mut Wav, call: Call, rules: Rules) -> u32 {
    let bytes = lent.file.lent().len();
    match call {
        Call::Read => {
            let rooms = [lent.samples.lent().len(), lent.marks.lent().len()];
            let (number, (n, rate), shown) = read_of(&lent.file.whole[GUARDS..], bytes, rooms, &rules);
            fill(&mut lent.samples.whole[GUARDS..], &shown);
            fill(&mut lent.marks.whole[GUARDS..], &vec![rules.mark; shown.len()]);
            lent.set_figures(n, rate);
            number
        }
        Call::Write { rate } => {
            let (number, value, file) = write_of(lent.samples.lent(), bytes, rate, &rules);
            fill(&mut lent.file.whole[GUARDS..], &file);
            lent.value.lend()[0] = value;
            number
        }
    }
}

/// Likewise on these areas.
fn wave_in(areas: &mut Areas, call: Call, rules: Rules) -> Answer {
    let bytes = areas.file.len();
    match call {
        Call::Read => {
            let rooms = [areas.samples.len(), areas.marks.len()];
            let (number, (value, rate), shown) = read_of(&areas.file, bytes, rooms, &rules);
            fill(&mut areas.samples, &shown);
            fill(&mut areas.marks, &vec![rules.mark; shown.len()]);
            Answer { number, value, rate }
        }
        Call::Write { rate } => {
            let (number, value, file) = write_of(&areas.samples, bytes, rate, &rules);
            fill(&mut areas.file, &file);
            Answer { number, value, rate: 0 }
        }
    }
}

/// The library makes the call; where it accepts, its work is altered.
fn accepted_and(lent: &mut Wav, call: Call, alter: fn(&mut Wav, Call)) -> u32 {
    let number = lent.call(call);
    if number == 0 {
        alter(lent, call);
    }
    number
}

/// The library makes the call; where it refuses, its work is altered. The number is told.
fn refused_and(lent: &mut Wav, call: Call, alter: fn(&mut Wav, Call, u32)) -> u32 {
    let number = lent.call(call);
    if number != 0 {
        alter(lent, call, number);
    }
    number
}
