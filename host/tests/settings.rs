//! The readers and writers of stored settings against the model of the block: every answer, and every byte of block and
//! settings, with what stands around each and behind what is used of it; and what has to hold of every call, whatever the
//! model says: of a refusal, of the block's bytes, and that what is read and written again is the same.
//!
//! `CATHAR_SEED` sets the seed.
mod settings {
    pub mod classes;
    pub mod damage;
    pub mod faults;
    pub mod forms;
    pub mod laws;
    pub mod made;
    pub mod ways;
    pub mod words;
}

use cathar_host::both::{self, Wrong};
use cathar_host::count::{Class, Count};
use cathar_host::draw::{self, Draw};
use cathar_host::room::{self, Room};
use cathar_host::stored::{block, word, Areas, Call, Version, RUN_LENGTH};
use settings::classes::{ANSWERS, BYTES, DAMAGED, EDGES, FAULTS, ROOMS, VERSIONS, WAYS};
use settings::made::{Change, Made};
use settings::{damage, forms, laws, ways, words};

/// How many settings are written and read back, and how many blocks have several changes, have parts exchanged, and are
/// of any bytes.
const SETTINGS: u64 = 60_000;
const SEVERAL: u64 = 60_000;
const EXCHANGED: u64 = 6_000;
const RANDOM: u64 = 60_000;

/// How often each version stands in front of everything, and how many others do.
const TURNS: usize = 20;
const ANY_VERSIONS: u64 = 100;

pub type Keeping = Count<Made>;

/// A count of nothing yet, with these classes and those that all tests have.
fn counted(title: &'static str, classes: &[&'static [Class<Made>]]) -> Keeping {
    Count::new(title, &[&[ANSWERS], classes].concat())
}

/// Both sides make the call on these areas, and what does not hold of it is told, whatever the model says.
pub fn made(call: Call, change: Change, before: &Areas) -> (Made, Areas, Wrong) {
    let (number, [after, left], mut wrong) = both::keep(before, call);
    let made = Made::new(call, change, before, after, number);
    wrong.extend(laws::broken(&made, &left));
    (made, left, wrong)
}

/// Both sides make the call on these areas, and it is counted. What the library leaves.
fn compare(count: &mut Keeping, call: Call, change: Change, before: &Areas) -> Areas {
    let (made, left, mut wrong) = made(call, change, before);
    if made.reads(0) {
        wrong.extend(written_again(&left));
    }
    count.take(&made, &wrong);
    left
}

/// Whether a block whose settings were read becomes the same, where they are written again in its version.
fn written_again(read: &Areas) -> Wrong {
    let version = if word(&read.block, 0) == Some(1) { Version::One } else { Version::Two };
    let room = Areas { block: vec![0xa5; version.bytes()], settings: read.settings.clone() };
    let (_, left, mut wrong) = made(Call::Write(version), Change::Nothing, &room);
    if left.block != read.block {
        wrong.push("the same bytes again");
    }
    wrong
}

/// Both readers read this block, each into an area of any words that is long enough.
fn read_by_both(count: &mut Keeping, draw: &mut Draw, change: Change, block: &[u8]) {
    for by in Version::BOTH {
        let length = Room::enough(draw).of(draw, by.settings());
        let before = Areas { block: block.to_vec(), settings: room::words(draw, length) };
        compare(count, Call::Read(by), change, &before);
    }
}

/// A block with every one of its digits and bytes changed, of each length, with one byte more or less at each place.
#[test]
fn damaged() {
    let seed = draw::seed();
    let mut draw = Draw::new(seed);
    let mut count = counted("stored settings, damaged, against the model", &[DAMAGED, FAULTS]);
    let bases = words::bases(&mut draw);
    let blocks: Vec<Vec<u8>> =
        Version::BOTH.iter().flat_map(|version| bases.iter().map(move |words| block(*version, words))).collect();
    count.begin("as they are written");
    blocks.iter().for_each(|block| read_by_both(&mut count, &mut draw, Change::Nothing, block));
    count.begin("one binary digit changed");
    for block in &blocks {
        damage::digits(block, &mut |change, block| read_by_both(&mut count, &mut draw, change, &block));
    }
    count.begin("of each length, a byte more or less");
    for block in &blocks {
        let mut aside = draw.aside();
        damage::lengths(&mut aside, block, &mut |change, block| read_by_both(&mut count, &mut draw, change, &block));
    }
    count.begin("one byte changed to each value");
    for block in &blocks {
        damage::bytes(block, &mut |change, block| read_by_both(&mut count, &mut draw, change, &block));
    }
    count.close(seed);
}

/// Versions on which something turns: known ones and those beside them, with the bytes the other way round, and with one
/// digit more.
const EACH_VERSION: [u32; 18] =
    [0, 1, 2, 3, 4, 6, 7, 16, 80, 255, 256, 257, 258, 0x0001_0001, 0x0100_0000, 0x0200_0000, 0x8000_0001, u32::MAX];

/// What may stand behind a version: all that stands there in a block of either version, allowed or not; parts of it;
/// more; and anything.
fn behind_version(draw: &mut Draw) -> Vec<Vec<u8>> {
    let settings = words::settings(draw);
    let mut others = settings.clone();
    others[0] = 0;
    let mut all = Vec::new();
    for version in Version::BOTH {
        for words in [&settings, &others] {
            let block = block(version, words);
            all.extend(
                [0, 1, 4, 76, 99, 100, 115, 116].map(|length| block[4..].iter().copied().take(length).collect()),
            );
            all.push([&block[4..], &[0]].concat());
        }
    }
    all.extend([1, 4, 100, 116, 200].map(|length| (0..length).map(|_| draw.word() as u8).collect::<Vec<u8>>()));
    all.extend([100, 116].map(|length| vec![0xff; length]));
    all
}

/// Each version in front of everything, and blocks that are too short to have one.
#[test]
fn versions() {
    let seed = draw::seed();
    let mut draw = Draw::new(seed);
    let mut count = counted("the version of stored settings against the model", &[VERSIONS]);
    count.begin("each version, in front of everything");
    let mut versions = EACH_VERSION.repeat(TURNS);
    versions.extend((0..ANY_VERSIONS).map(|_| draw.word() as u32));
    for version in versions {
        for behind in behind_version(&mut draw) {
            let block = [&version.to_le_bytes()[..], &behind].concat();
            read_by_both(&mut count, &mut draw, Change::Nothing, &block);
        }
    }
    count.begin("fewer than four bytes");
    for byte in 0..=u8::MAX {
        for length in 0..4 {
            read_by_both(&mut count, &mut draw, Change::Nothing, &[byte, 0, 0][..length]);
        }
    }
    count.close(seed);
}

/// Settings are written and read back by all that can; and where they are not allowed, they are neither written nor read.
#[test]
fn both_ways() {
    let seed = draw::seed();
    let mut draw = Draw::new(seed);
    let mut count = counted("stored settings, written and read back, against the model", &[WAYS, EDGES]);
    count.begin("each edge of each setting");
    for part in 1..=RUN_LENGTH {
        for word in words::edges(part) {
            for mut settings in words::bases(&mut draw) {
                settings[part - 1] = *word;
                ways::each(&mut count, &mut draw, &settings);
            }
        }
    }
    count.begin("each run length up to 4,200");
    for run in 0..4_200 {
        let mut settings = words::settings(&mut draw);
        settings[RUN_LENGTH - 1] = run;
        ways::each(&mut count, &mut draw, &settings);
    }
    count.begin("any settings");
    for _ in 0..SETTINGS {
        let settings = words::any_settings(&mut draw);
        ways::each(&mut count, &mut draw, &settings);
    }
    count.close(seed);
}

/// Blocks that a reader takes, and that it turns away by 17 and by 18.
fn blocks_of_each_kind(draw: &mut Draw) -> Vec<Vec<u8>> {
    let settings = words::settings(draw);
    let mut others = settings.clone();
    others[4] = f32::NAN.to_bits();
    let mut blocks: Vec<Vec<u8>> = Version::BOTH.map(|version| block(version, &settings)).to_vec();
    blocks.extend(Version::BOTH.map(|version| block(version, &others)));
    blocks.extend(Version::BOTH.map(|version| block(version, &settings)[..100].to_vec()));
    blocks.extend([vec![], vec![1], vec![9; 4], vec![0; 104], vec![0xff; 120]]);
    blocks
}

/// Each number of words and bytes is lent beside those that are needed, whatever else is wrong.
#[test]
fn rooms() {
    let seed = draw::seed();
    let mut draw = Draw::new(seed);
    let mut count = counted("the areas of stored settings against the model", &[ROOMS]);
    count.begin("read into areas of each length");
    for _ in 0..20 {
        for block in blocks_of_each_kind(&mut draw) {
            for (length, by) in (0..12).flat_map(|length| Version::BOTH.map(|by| (length, by))) {
                let before = Areas { block: block.clone(), settings: room::words(&mut draw, length) };
                compare(&mut count, Call::Read(by), Change::Nothing, &before);
            }
        }
    }
    count.begin("written from areas and into rooms of each length");
    for turn in 0..20 {
        for (length, of) in (0..12).flat_map(|length| Version::BOTH.map(|of| (length, of))) {
            for room in [0, 1, 4, 60, 102, 103, 104, 105, 106, 118, 119, 120, 121, 122, 150] {
                let more = room::words(&mut draw, 5);
                let words = if turn % 2 == 0 { words::settings(&mut draw) } else { words::any_settings(&mut draw) };
                let settings = [words, more].concat()[..length].to_vec();
                let block = room::words(&mut draw, room).into_iter().map(|word| word as u8).collect();
                compare(&mut count, Call::Write(of), Change::Nothing, &Areas { block, settings });
            }
        }
    }
    count.close(seed);
}

/// Blocks with several changes, in another form, and of any bytes.
#[test]
fn any_bytes() {
    let seed = draw::seed();
    let mut draw = Draw::new(seed);
    let mut count = counted("any bytes as stored settings against the model", &[BYTES]);
    count.begin("another form of the same settings");
    for settings in words::bases(&mut draw) {
        for form in Version::BOTH.iter().flat_map(|version| forms::each(*version, &settings)) {
            read_by_both(&mut count, &mut draw, Change::Nothing, &form);
        }
    }
    count.begin("two places exchanged");
    for _ in 0..EXCHANGED {
        let version = Version::BOTH[draw.below(2) as usize];
        let block = block(version, &words::settings(&mut draw));
        let other = damage::exchanged(&mut draw, &block, version.settings());
        read_by_both(&mut count, &mut draw, Change::Several, &other);
    }
    count.begin("two or three changes");
    for _ in 0..SEVERAL {
        let version = Version::BOTH[draw.below(2) as usize];
        let block = block(version, &words::settings(&mut draw));
        let other = damage::several(&mut draw, &block);
        read_by_both(&mut count, &mut draw, Change::Several, &other);
    }
    count.begin("any bytes");
    for _ in 0..RANDOM {
        let bytes = damage::random(&mut draw);
        read_by_both(&mut count, &mut draw, Change::Nothing, &bytes);
    }
    count.close(seed);
}

/// The bytes of a version 2 block, by hand: threshold 1, sensitivity 5, strength 0.5, 16 bits, 2 ms, 48,000 a second and
/// a run length of 259, whose two lowest bytes differ. The same settings without the last are a version 1 block.
#[test]
fn by_hand() {
    let settings = [0x3f80_0000, 0x40a0_0000, 0x3f00_0000, 16, 0x4000_0000, 48_000, 259];
    let mut two = vec![2, 0, 0, 0, 7, 0, 0, 0];
    let mut one = vec![1, 0, 0, 0, 6, 0, 0, 0];
    for part in 1..=7 {
        two.extend([part, 0, 0, 0, 88 + 4 * part, 0, 0, 0, 4, 0, 0, 0]);
        if part < 7 {
            one.extend([part, 0, 0, 0, 76 + 4 * part, 0, 0, 0, 4, 0, 0, 0]);
        }
    }
    let bodies = [
        [0, 0, 0x80, 0x3f],
        [0, 0, 0xa0, 0x40],
        [0, 0, 0, 0x3f],
        [16, 0, 0, 0],
        [0, 0, 0, 0x40],
        [0x80, 0xbb, 0, 0],
        [3, 1, 0, 0],
    ]
    .concat();
    two.extend(&bodies);
    one.extend(&bodies[..24]);
    assert_eq!((one.len(), two.len()), (104, 120));
    let with_16 = [&settings[..6], &[16]].concat();
    for (call, before, after, number) in [
        (Call::Write(Version::Two), (vec![9; 120], &settings[..]), (two.clone(), &settings[..]), 0),
        (Call::Write(Version::One), (vec![9; 104], &settings[..6]), (one.clone(), &settings[..6]), 0),
        (Call::Read(Version::Two), (two.clone(), &[9; 7][..]), (two.clone(), &settings[..]), 0),
        (Call::Read(Version::Two), (one.clone(), &[9; 7][..]), (one.clone(), &with_16[..]), 0),
        (Call::Read(Version::One), (one.clone(), &[9; 6][..]), (one.clone(), &settings[..6]), 0),
        (Call::Read(Version::One), (two.clone(), &[9; 6][..]), (two.clone(), &[9; 6][..]), 17),
    ] {
        let areas = |(block, settings): (Vec<u8>, &[u32])| Areas { block, settings: settings.to_vec() };
        let (made, left, wrong) = made(call, Change::Nothing, &areas(before));
        assert_eq!((made.number, left, wrong), (number, areas(after), vec![]), "{call:?}");
    }
}
