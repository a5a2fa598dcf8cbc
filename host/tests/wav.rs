//! The reader and the writer of WAV files against the model of them: every answer and figure, and every byte and word
//! of file, samples and marks, with what stands around each and behind what is used of it; and what has to hold of
//! every call, whatever the model says: of a refusal, of a file by the way it was built, of the bytes that are written,
//! and that what is read and written again, and written and read back, has the same values. Then files that other
//! programs made, and what these make of ours.
//!
//! `CATHAR_SEED` sets the seed.
mod wav {
    pub mod built;
    pub mod classes;
    pub mod damage;
    pub mod faults;
    pub mod laws;
    pub mod made;
    pub mod real;
    pub mod words;
}

use cathar_host::both::{self, Wrong};
use cathar_host::count::{Class, Count};
use cathar_host::draw::{self, Draw};
use cathar_host::recording::MOST_SAMPLES;
use cathar_host::room::{self, Room};
use cathar_host::wav::{laid, riff, Answer, Areas, Call, HEADER};
use wav::built::{self, Expected, Piece, PCM};
use wav::classes::{ANSWERS, BYTES, CHUNKS, CODINGS, DAMAGED, FAULTS, LIMITS, NAMES, ROOMS, VALUES, WRITTEN};
use wav::made::{Change, Made};
use wav::{damage, laws, real, words};

/// How many files have several changes, are of any chunks, and are of any bytes; and how many lists of any samples are
/// written.
const SEVERAL: u64 = 100_000;
const ANY_CHUNKS: u64 = 60_000;
const RANDOM: u64 = 60_000;
const LISTS: u64 = 60_000;

/// How often rooms of each length are lent.
const TURNS: usize = 5;

/// How many pieces a file has at most of which there is every row, and how many of these are looked at in every way.
const ROW: usize = 4;
const SHORT_ROW: usize = 2;

pub type Waves = Count<Made>;

/// A count of nothing yet, with these classes and those that all tests have.
fn counted(title: &'static str, classes: &[&'static [Class<Made>]]) -> Waves {
    Count::new(title, &[&[ANSWERS], classes].concat())
}

/// Both sides make the call on these areas, and what does not hold of it is told, whatever the model says. What the
/// library leaves and hands back.
fn made(call: Call, change: Change, before: &Areas) -> (Made, Areas, (usize, u32), Wrong) {
    let (answer, after, lent, mut wrong) = both::wave(before, call);
    let made = Made::new(call, change, before, after, answer);
    let (left, told) = (lent.areas(), lent.figures());
    wrong.extend(laws::broken(&made, &left, told));
    (made, left, told, wrong)
}

/// Both sides make the call on these areas, and it is counted. What was read is written again, and what was written is
/// read back, which is compared too, and not counted.
fn compare(count: &mut Waves, call: Call, change: Change, before: &Areas, expected: Option<&Expected>) {
    let (made, left, told, mut wrong) = made(call, change, before);
    if let Some(expected) = expected {
        wrong.extend(not_as_expected(&made, &left, told, expected));
    }
    if made.reads(0) {
        wrong.extend(written_again(&left, told));
    }
    if made.writes(0) {
        wrong.extend(read_back(call, &left, told));
    }
    count.take(&made, &wrong);
}

/// Whether a file is read as it has to be by the way it was built.
fn not_as_expected(made: &Made, left: &Areas, (n, rate): (usize, u32), expected: &Expected) -> Wrong {
    let is_read = (made.answer.number, rate) == (expected.number, expected.rate);
    let has_samples = left.samples.get(..n) == Some(&expected.samples[..]);
    let holds = [("the answer that has to be", is_read), ("the samples that have to be", has_samples)];
    holds.into_iter().filter(|(_, holds)| !holds).map(|(name, _)| name).collect()
}

/// Whether what was read, written again, has the values of the file that was read.
fn written_again(read: &Areas, (n, rate): (usize, u32)) -> Wrong {
    let samples = read.samples.get(..n).unwrap_or(&[]).to_vec();
    let room = Areas { file: vec![0xa5; HEADER + 2 * samples.len()], samples, marks: Vec::new() };
    let (again, left, _, mut wrong) = made(Call::Write { rate }, Change::Nothing, &room);
    if !again.writes(0) || !laws::has_values(&read.file, &left.file) {
        wrong.push("the same values again");
    }
    wrong
}

/// Whether what was written, read back, gives the rate and the samples that its values stand for.
fn read_back(call: Call, written: &Areas, (bytes, _): (usize, u32)) -> Wrong {
    let file = written.file.get(..bytes).unwrap_or(&[]).to_vec();
    let n = written.samples.len();
    let room = Areas { file, samples: vec![0x0123_4567; n], marks: vec![0xa5; n] };
    let (back, left, told, mut wrong) = made(Call::Read, Change::Nothing, &room);
    let patterns = written.samples.iter().map(|word| laws::pattern_of(laws::value_of(*word)));
    let is_rate = matches!(call, Call::Write { rate } if told == (n, rate));
    if !back.reads(0) || !is_rate || !patterns.eq(left.samples) {
        wrong.push("the values back");
    }
    wrong
}

/// Areas with this file and rooms of any words for so many samples and marks.
fn areas(draw: &mut Draw, file: &[u8], [samples, marks]: [usize; 2]) -> Areas {
    let marks = room::words(draw, marks).into_iter().map(|word| word as u8).collect();
    Areas { file: file.to_vec(), samples: room::words(draw, samples), marks }
}

/// Both sides read this file, into rooms that are enough for any samples that so many bytes can have.
fn read(count: &mut Waves, draw: &mut Draw, change: Change, file: &[u8], expected: Option<&Expected>) {
    let n = match expected {
        Some(expected) => expected.samples.len(),
        None => file.len() / 2,
    };
    let lengths = [Room::enough(draw).of(draw, n), Room::enough(draw).of(draw, n)];
    let before = areas(draw, file, lengths);
    compare(count, Call::Read, change, &before, expected);
}

/// Likewise a file of these pieces.
fn read_pieces(count: &mut Waves, draw: &mut Draw, pieces: &[Piece]) {
    read(count, draw, Change::Nothing, &built::file(pieces, 0), Some(&Expected::of(pieces)));
}

/// Both sides write these samples at this rate into a room of any bytes that has so many more than are needed.
fn write(count: &mut Waves, draw: &mut Draw, samples: &[u32], rate: u32, more: isize) {
    let room = (HEADER + 2 * samples.len()) as isize + more;
    let file = room::words(draw, room.max(0) as usize).into_iter().map(|word| word as u8).collect();
    let before = Areas { file, samples: samples.to_vec(), marks: Vec::new() };
    compare(count, Call::Write { rate }, Change::Nothing, &before, None);
}

/// A file with every one of its digits and bytes changed, of each length, with one byte more or less at each place.
#[test]
fn damaged() {
    let seed = draw::seed();
    let mut draw = Draw::new(seed);
    let mut count = counted("WAV files, damaged, against the model", &[DAMAGED, NAMES, FAULTS]);
    let bases = built::bases(&mut draw);
    count.begin("as they are written");
    bases.iter().for_each(|pieces| read_pieces(&mut count, &mut draw, pieces));
    let files: Vec<Vec<u8>> = bases.iter().map(|pieces| built::file(pieces, 0)).collect();
    count.begin("one binary digit changed");
    for file in &files {
        damage::digits(file, &mut |change, file| read(&mut count, &mut draw, change, &file, None));
    }
    count.begin("of each length, a byte more or less");
    for file in &files {
        let mut aside = draw.aside();
        damage::lengths(&mut aside, file, &mut |change, file| read(&mut count, &mut draw, change, &file, None));
    }
    count.begin("one byte changed to each value");
    for file in &files {
        damage::bytes(file, &mut |change, file| read(&mut count, &mut draw, change, &file, None));
    }
    count.begin("fewer than twelve bytes");
    for length in 0..12 {
        let file = &b"RIFF\x04\0\0\0WAVE"[..length];
        read(&mut count, &mut draw, Change::Cut, file, Some(&Expected::refused(19)));
        let file = damage::mended(file.to_vec());
        read(&mut count, &mut draw, Change::CutMended, &file, Some(&Expected::refused(19)));
    }
    count.close(seed);
}

/// Rows of chunks in every order, with what is to be skipped, with and without their pad bytes, and with sizes that are
/// not right.
#[test]
fn chunks() {
    let seed = draw::seed();
    let mut draw = Draw::new(seed);
    let mut count = counted("chunks of WAV files against the model", &[CHUNKS, FAULTS]);
    let kinds = built::kinds(&mut draw);
    count.begin("each row of up to four chunks");
    built::rows(&kinds, ROW, &mut |pieces| read_pieces(&mut count, &mut draw, pieces));
    count.begin("each row of up to two, in every other way");
    built::rows(&kinds, SHORT_ROW, &mut |pieces| {
        for way in 0..built::WAYS {
            let (file, expected) = built::otherwise(way, pieces);
            read(&mut count, &mut draw, Change::Nothing, &file, expected.as_ref());
        }
        built::misspelt(pieces, &mut |pieces| read_pieces(&mut count, &mut draw, pieces));
    });
    count.begin("each row of up to four, in any other way");
    built::rows(&kinds, ROW, &mut |pieces| {
        for _ in 0..2 {
            let (file, expected) = built::otherwise(draw.below(built::WAYS), pieces);
            read(&mut count, &mut draw, Change::Nothing, &file, expected.as_ref());
        }
    });
    count.close(seed);
}

/// Every tag, every number of channels and of bits, fmt chunks of each length, and what has no say.
#[test]
fn codings() {
    let seed = draw::seed();
    let mut draw = Draw::new(seed);
    let mut count = counted("codings of WAV files against the model", &[CODINGS]);
    for (field, name) in ["each tag", "each number of channels", "each number of bits"].into_iter().enumerate() {
        count.begin(name);
        for is in 0..=u16::MAX {
            let mut coding = PCM;
            coding[field] = is;
            let pieces = [Piece::format(&mut draw, 16, coding), Piece::data(&mut draw, 2)];
            read_pieces(&mut count, &mut draw, &pieces);
        }
    }
    count.begin("fmt chunks of each length");
    for bytes in 0..200 {
        for coding in [PCM, [0xfffe, 1, 16], [1, 2, 16], [1, 1, 8], [3, 1, 32]] {
            let pieces = [Piece::format(&mut draw, bytes, coding), Piece::data(&mut draw, 4)];
            read_pieces(&mut count, &mut draw, &pieces);
            let next = Piece::format(&mut draw, 16, PCM);
            read_pieces(&mut count, &mut draw, &[&pieces[..1], &[next], &pieces[1..]].concat());
        }
    }
    count.begin("any rate, bytes a second and block align");
    for turn in 0..20_000 {
        let mut format = Piece::format(&mut draw, 16 + turn % 3, PCM);
        format.body[4..8].copy_from_slice(&words::rate(&mut draw).to_le_bytes());
        let coded = if turn % 4 == 0 { draw.below(65_536) as u16 } else { 1 };
        format.body[2..4].copy_from_slice(&coded.to_le_bytes());
        let data = Piece::data(&mut draw, 6);
        read_pieces(&mut count, &mut draw, &[format, data]);
    }
    count.close(seed);
}

/// Files that a reader takes, and that it turns away by 19 and by 20, each of so many samples.
fn files_of_each_kind(draw: &mut Draw, n: usize) -> Vec<Vec<u8>> {
    let data = Piece::data(draw, 2 * n);
    let right = [Piece::format(draw, 16, PCM), data.clone()];
    let list = [Piece::new(b"LIST", &[7; 9]), Piece::format(draw, 18, PCM), data.clone(), Piece::new(b"id3 ", &[1; 3])];
    let stereo = [Piece::format(draw, 16, [1, 2, 16]), data.clone()];
    let turned = [data, Piece::format(draw, 16, PCM)];
    let mut files: Vec<Vec<u8>> = [&right[..], &list, &stereo, &turned].map(|pieces| built::file(pieces, 0)).to_vec();
    files.push([&files[0][..], &[0]].concat());
    files.push(Vec::new());
    files
}

/// Each number of samples, marks and bytes is lent beside those that are needed, whatever else is wrong.
#[test]
fn rooms() {
    let seed = draw::seed();
    let mut draw = Draw::new(seed);
    let mut count = counted("the rooms of WAV files against the model", &[ROOMS]);
    count.begin("read into rooms of each length");
    for n in [0, 0, 1, 1, 2, 3, 5, 9].repeat(TURNS) {
        for file in files_of_each_kind(&mut draw, n) {
            for (samples, marks) in (0..n + 4).flat_map(|samples| (0..n + 4).map(move |marks| (samples, marks))) {
                let before = areas(&mut draw, &file, [samples, marks]);
                compare(&mut count, Call::Read, Change::Nothing, &before, None);
            }
        }
    }
    count.begin("written into rooms of each length");
    for n in (0..9).collect::<Vec<usize>>().repeat(TURNS) {
        for room in 0..HEADER + 2 * n + 6 {
            for with in 0..3 {
                let mut samples = words::samples(&mut draw, n);
                if with == 2 && n > 0 {
                    samples[draw.below(n as u64) as usize] = words::one_of(&mut draw, &words::TOO_LOUD);
                }
                let more = room as isize - (HEADER + 2 * n) as isize;
                let rate = words::rate(&mut draw);
                write(&mut count, &mut draw, &samples, rate, more);
            }
        }
    }
    count.close(seed);
}

/// All 65,536 values: each is read as just that over 32,768, and is written as itself.
#[test]
fn values() {
    let seed = draw::seed();
    let mut draw = Draw::new(seed);
    let mut count = counted("the values of WAV files against the model", &[VALUES]);
    let all: Vec<u8> = (i16::MIN..=i16::MAX).flat_map(i16::to_le_bytes).collect();
    let format = Piece::format(&mut draw, 16, PCM);
    count.begin("all values in one file");
    read_pieces(&mut count, &mut draw, &[format.clone(), Piece::new(b"data", &all)]);
    count.begin("each value by itself");
    for two in all.chunks(2) {
        read_pieces(&mut count, &mut draw, &[format.clone(), Piece::new(b"data", two)]);
    }
    count.begin("each value among others");
    for some in all.chunks(128) {
        read_pieces(&mut count, &mut draw, &[format.clone(), Piece::new(b"data", some)]);
    }
    for value in i16::MIN..=i16::MAX {
        let (exact, word) = (f64::from(value) / 32_768.0, laws::pattern_of(value));
        assert!(f64::from(f32::from_bits(word)) == exact && laws::value_of(word) == value, "of {value}");
    }
    count.close(seed);
}

/// Samples on every edge of the rounding, at the two ends and out of range, at any rate.
#[test]
fn written() {
    let seed = draw::seed();
    let mut draw = Draw::new(seed);
    let mut count = counted("WAV files, written and read back, against the model", &[WRITTEN]);
    count.begin("halves, and the floats beside them");
    let halves: Vec<u32> = (-65_540..=65_540).flat_map(words::beside_halves).collect();
    for some in halves.chunks(60) {
        let rate = words::rate(&mut draw);
        write(&mut count, &mut draw, some, rate, 0);
    }
    count.begin("each edge at each rate");
    for word in words::LOUD {
        for rate in words::RATES {
            write(&mut count, &mut draw, &[word], rate, 0);
            let among = [&words::samples(&mut draw, 2)[..], &[word, word ^ 0x8000_0000]].concat();
            write(&mut count, &mut draw, &among, rate, 3);
        }
    }
    count.begin("out of range at each place");
    for word in words::TOO_LOUD {
        for (n, place) in (1..7).flat_map(|n| (0..n).map(move |place| (n, place))) {
            let mut samples = words::samples(&mut draw, n);
            samples[place] = word;
            let more = [0, 4, -1, -50][draw.below(4) as usize];
            write(&mut count, &mut draw, &samples, 48_000, more);
            samples[n - 1] = words::one_of(&mut draw, &words::TOO_LOUD);
            write(&mut count, &mut draw, &samples, 48_000, more);
        }
    }
    count.begin("any samples at any rate");
    for _ in 0..LISTS {
        let n = draw.below(13) as usize;
        let mut samples = words::samples(&mut draw, n);
        if n > 0 && draw.below(6) == 0 {
            samples[draw.below(n as u64) as usize] = draw.word() as u32;
        }
        let (rate, more) = (words::rate(&mut draw), [0, 0, 0, 1, 9, -1][draw.below(6) as usize]);
        write(&mut count, &mut draw, &samples, rate, more);
    }
    count.close(seed);
}

/// Chunk sizes near 2^32, and others that say more than there is: in front, between, and behind what is else accepted,
/// with as many zeros behind them as would make chunks of them where sizes go round.
fn large_sizes(count: &mut Waves, draw: &mut Draw) {
    let chunk = |name: &[u8; 4], size: u32, body: &[u8]| [&name[..], &size.to_le_bytes(), body].concat();
    let format = laid(b"fmt ", &Piece::format(draw, 16, PCM).body);
    let sound = [&format[..], &laid(b"data", &[1, 2, 3, 4])].concat();
    for under in (1..=64).chain([1 << 31, (1 << 31) - 2, 1 << 30, 1 << 24]) {
        let size = 0u32.wrapping_sub(under);
        let mut files = Vec::new();
        for name in [b"LIST", b"fmt ", b"data"] {
            let large = chunk(name, size, &format[8..]);
            files.extend([large.clone(), [&format[..], &large].concat(), [&large[..], &sound].concat()]);
            files.extend([0, 2, 4, 6, 8].map(|zeros| [&sound[..], &chunk(name, size, &[0; 8][..zeros])].concat()));
        }
        for chunks in files {
            read(count, draw, Change::Nothing, &riff(&chunks), Some(&Expected::refused(19)));
        }
        let mut file = riff(&sound);
        file[4..8].copy_from_slice(&size.to_le_bytes());
        read(count, draw, Change::Nothing, &file, Some(&Expected::refused(19)));
    }
}

/// At the most samples and past them, with rooms beside the right ones.
fn most_samples(count: &mut Waves, draw: &mut Draw) {
    for n in [MOST_SAMPLES - 1, MOST_SAMPLES, MOST_SAMPLES + 1] {
        let data: Vec<u8> = room::words(draw, n).into_iter().flat_map(|word| (word as u16).to_le_bytes()).collect();
        for coding in [PCM, [1, 2, 16]] {
            let pieces = [Piece::format(draw, 16, coding), Piece::new(b"data", &data), Piece::new(b"LIST", &[0; 3])];
            let file = built::file(&pieces, 0);
            for lengths in [[n, n], [n - 1, n], [n, n - 1], [n + 1, n + 2], [0, 0]] {
                let before = areas(draw, &file, lengths);
                compare(count, Call::Read, Change::Nothing, &before, None);
            }
            let cut = areas(draw, &file[..file.len() - 1], [n, n]);
            compare(count, Call::Read, Change::Cut, &cut, Some(&Expected::refused(19)));
        }
    }
}

/// Likewise written, with a sample out of range and without.
fn most_written(count: &mut Waves, draw: &mut Draw) {
    for n in [MOST_SAMPLES - 1, MOST_SAMPLES, MOST_SAMPLES + 1] {
        let mut samples = words::samples(draw, n);
        for more in [0, 5, -1, -2_000_000] {
            write(count, draw, &samples, 48_000, more);
        }
        for place in [n - 1, n - 1 - draw.below(1_000) as usize, 0] {
            samples[place] = 0x7fc0_0000;
            for more in [0, -1] {
                write(count, draw, &samples, 44_100, more);
            }
        }
    }
}

/// As many samples as may be, and one more, read and written; and sizes that no file has.
#[test]
fn limits() {
    let seed = draw::seed();
    let mut draw = Draw::new(seed);
    let mut count = counted("the limits of WAV files against the model", &[LIMITS]);
    count.begin("sizes near 2^32 and others past the end");
    large_sizes(&mut count, &mut draw);
    count.begin("read, beside the most samples");
    most_samples(&mut count, &mut draw);
    count.begin("written, beside the most samples");
    most_written(&mut count, &mut draw);
    count.close(seed);
}

/// Files with several changes, of any chunks, and of any bytes.
#[test]
fn any_bytes() {
    let seed = draw::seed();
    let mut draw = Draw::new(seed);
    let mut count = counted("any bytes as WAV files against the model", &[BYTES]);
    let bases = built::bases(&mut draw);
    count.begin("two or three changes");
    for _ in 0..SEVERAL {
        let pieces = &bases[draw.below(bases.len() as u64) as usize];
        let other = damage::several(&mut draw, &built::file(pieces, 0));
        read(&mut count, &mut draw, Change::Several, &other, None);
    }
    count.begin("any chunks");
    let kinds = built::kinds(&mut draw);
    for _ in 0..ANY_CHUNKS {
        let length = 2 + draw.below(7);
        let pieces: Vec<Piece> = (0..length).map(|_| kinds[draw.below(kinds.len() as u64) as usize].clone()).collect();
        let pad = draw.word() as u8;
        read(&mut count, &mut draw, Change::Nothing, &built::file(&pieces, pad), Some(&Expected::of(&pieces)));
    }
    count.begin("any bytes");
    for _ in 0..RANDOM {
        let bytes = damage::random(&mut draw);
        read(&mut count, &mut draw, Change::Nothing, &bytes, None);
    }
    count.close(seed);
}

/// A file of three samples at 48,000 a second, by hand: 0.5, -1 and the half of a step, which becomes 1.
#[test]
fn by_hand() {
    let file = [
        0x52, 0x49, 0x46, 0x46, 0x2a, 0, 0, 0, 0x57, 0x41, 0x56, 0x45, //
        0x66, 0x6d, 0x74, 0x20, 0x10, 0, 0, 0, 1, 0, 1, 0, 0x80, 0xbb, 0, 0, 0, 0x77, 1, 0, 2, 0, 0x10, 0, //
        0x64, 0x61, 0x74, 0x61, 6, 0, 0, 0, 0, 0x40, 0, 0x80, 1, 0,
    ];
    let odd = [
        0x52, 0x49, 0x46, 0x46, 0x3a, 0, 0, 0, 0x57, 0x41, 0x56, 0x45, //
        0x4c, 0x49, 0x53, 0x54, 1, 0, 0, 0, 0x3f, 0xff, //
        0x66, 0x6d, 0x74, 0x20, 0x12, 0, 0, 0, 1, 0, 1, 0, 0x40, 0x1f, 0, 0, 0, 0, 0, 0, 9, 9, 0x10, 0, 0, 0, //
        0x64, 0x61, 0x74, 0x61, 2, 0, 0, 0, 0xff, 0xff, 0x69, 0x64, 0x33, 0x20, 0, 0, 0, 0,
    ];
    let words = [0x3f00_0000, 0xbf80_0000, 0x3780_0000];
    let read = [0x3f00_0000, 0xbf80_0000, 0x3800_0000];
    let areas = |file: &[u8], samples: &[u32], marks: &[u8]| Areas {
        file: file.to_vec(),
        samples: samples.to_vec(),
        marks: marks.to_vec(),
    };
    let told = |number: u32, value: usize, rate: u32| Answer { number, value, rate };
    for (call, before, after, answer) in [
        (Call::Write { rate: 48_000 }, areas(&[9; 50], &words, &[]), areas(&file, &words, &[]), told(0, 50, 0)),
        (Call::Read, areas(&file, &[9; 3], &[9; 3]), areas(&file, &read, &[0; 3]), told(0, 3, 48_000)),
        (Call::Read, areas(&odd, &[9; 2], &[9; 1]), areas(&odd, &[0xb800_0000, 9], &[0]), told(0, 1, 8_000)),
        (Call::Read, areas(&file[..49], &[9; 3], &[9; 3]), areas(&file[..49], &[9; 3], &[9; 3]), told(19, 0, 0)),
        (Call::Read, areas(&file, &[9; 2], &[9; 3]), areas(&file, &[9; 2], &[9; 3]), told(21, 0, 0)),
        (
            Call::Write { rate: 1 },
            areas(&[9; 3], &[0, 0x7fc0_0000], &[]),
            areas(&[9; 3], &[0, 0x7fc0_0000], &[]),
            told(7, 1, 0),
        ),
    ] {
        let (made, left, _, wrong) = made(call, Change::Nothing, &before);
        assert_eq!((made.answer, left, wrong), (answer, after, vec![]), "{call:?}");
    }
}

/// Files that sox and ffmpeg made, and what these make of ours. Where one of them is missing, and cannot be installed,
/// that part is left out, and says so.
#[test]
fn of_other_programs() {
    real::all();
}
