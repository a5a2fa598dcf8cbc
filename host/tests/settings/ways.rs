//! Settings on their way into a block and back.
use super::made::{Change, Made};
use super::words;
use crate::{made, Keeping};
use cathar_host::both::Wrong;
use cathar_host::draw::Draw;
use cathar_host::room::{self, Room};
use cathar_host::stored::{are_allowed, block, Areas, Call, Version};

/// The library makes the call on these areas. What it leaves; what is wrong is added to.
fn left_by(call: Call, before: &Areas, number: u32, all: &mut Wrong) -> Areas {
    let (made, left, wrong) = made(call, Change::Nothing, before);
    all.extend(wrong);
    if made.number != number {
        all.push("the answer that has to be");
    }
    left
}

/// What a reader leaves of a block, in an area of just as many words as it needs. It has to answer this.
fn read(by: Version, block: &[u8], number: u32, wrong: &mut Wrong) -> Vec<u32> {
    let before = Areas { block: block.to_vec(), settings: vec![0x0123_4567; by.settings()] };
    left_by(Call::Read(by), &before, number, wrong).settings
}

/// What does not hold of the way back, of a block that was written of these settings: each reader that knows the version
/// gives them back, the new one with 16 beside those of version 1, and the version 1 reader turns version 2 away and
/// shows none of it; and what is read and written again is the same.
fn way_back(version: Version, block: &[u8], settings: &[u32]) -> Wrong {
    let mut wrong = Wrong::new();
    let told = match version {
        Version::One => {
            let (one, two) = (read(Version::One, block, 0, &mut wrong), read(Version::Two, block, 0, &mut wrong));
            one == settings && two == [settings, &[16]].concat()
        }
        Version::Two => {
            let two = read(Version::Two, block, 0, &mut wrong);
            let one = read(Version::One, block, 17, &mut wrong);
            two == settings && one == [0x0123_4567; 6]
        }
    };
    if !told {
        wrong.push("the settings back");
    }
    let again = Areas { block: vec![0x3c; block.len()], settings: settings.to_vec() };
    if left_by(Call::Write(version), &again, 0, &mut wrong).block != block {
        wrong.push("the same bytes again");
    }
    wrong
}

/// What does not hold of a block of settings that are not allowed, which nobody wrote: the readers that know the version
/// turn it away by 18.
fn turned_away(version: Version, settings: &[u32]) -> Wrong {
    let (block, mut wrong) = (block(version, settings), Wrong::new());
    let one = if version == Version::One { 18 } else { 17 };
    read(Version::Two, &block, 18, &mut wrong);
    read(Version::One, &block, one, &mut wrong);
    wrong
}

/// Both sides write these settings in each version, into any room that is long enough, and what was written is read back.
pub fn each(count: &mut Keeping, draw: &mut Draw, settings: &[u32]) {
    for version in Version::BOTH {
        let (words, bytes) = (words::of(version, settings), version.bytes());
        let more = [0, 0, 1, 3][draw.below(4) as usize];
        let length = Room::enough(draw).of(draw, bytes);
        let room = room::words(draw, length).into_iter().map(|word| word as u8).collect();
        let before = Areas { block: room, settings: [words, &room::words(draw, more)].concat() };
        let (made, left, mut wrong): (Made, Areas, Wrong) = made(Call::Write(version), Change::Nothing, &before);
        if made.writes(0) != are_allowed(words) {
            wrong.push("whether the settings are allowed");
        }
        wrong.extend(match made.number {
            0 => way_back(version, &left.block[..bytes], words),
            _ => turned_away(version, words),
        });
        count.take(&made, &wrong);
    }
}
