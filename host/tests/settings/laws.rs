//! What has to hold of every call on a stored block, whatever the model says.
use super::made::Made;
use cathar_host::both::Wrong;
use cathar_host::stored::{Areas, Call, Version};

/// What does not hold of what the library left, where the call was accepted or not.
pub fn broken(made: &Made, left: &Areas) -> Wrong {
    let before = &made.before;
    let holds = match made.call {
        _ if made.number != 0 => vec![("what a refusal leaves", left == before)],
        Call::Read(by) => vec![
            ("the block that was read", left.block == before.block),
            ("what stands behind the settings", left.settings.get(words(by)..) == before.settings.get(words(by)..)),
            ("the settings of the block", is_of(by, &left.block, left.settings.get(..words(by)))),
        ],
        Call::Write(of) => vec![
            ("the settings that were written", left.settings == before.settings),
            ("what stands behind the block", left.block.get(bytes(of)..) == before.block.get(bytes(of)..)),
            (
                "the block of the settings",
                is_of(of, left.block.get(..bytes(of)).unwrap_or(&[]), left.settings.get(..words(of))),
            ),
        ],
    };
    holds.into_iter().filter(|(_, holds)| !holds).map(|(name, _)| name).collect()
}

/// How many settings there are, and how many bytes.
fn words(version: Version) -> usize {
    match version {
        Version::One => 6,
        Version::Two => 7,
    }
}

fn bytes(version: Version) -> usize {
    match version {
        Version::One => 104,
        Version::Two => 120,
    }
}

/// The bytes of version 1 and version 2 before the bodies.
const ONE: [u8; 80] = [
    1, 0, 0, 0, 6, 0, 0, 0, //
    1, 0, 0, 0, 80, 0, 0, 0, 4, 0, 0, 0, //
    2, 0, 0, 0, 84, 0, 0, 0, 4, 0, 0, 0, //
    3, 0, 0, 0, 88, 0, 0, 0, 4, 0, 0, 0, //
    4, 0, 0, 0, 92, 0, 0, 0, 4, 0, 0, 0, //
    5, 0, 0, 0, 96, 0, 0, 0, 4, 0, 0, 0, //
    6, 0, 0, 0, 100, 0, 0, 0, 4, 0, 0, 0,
];
const TWO: [u8; 92] = [
    2, 0, 0, 0, 7, 0, 0, 0, //
    1, 0, 0, 0, 92, 0, 0, 0, 4, 0, 0, 0, //
    2, 0, 0, 0, 96, 0, 0, 0, 4, 0, 0, 0, //
    3, 0, 0, 0, 100, 0, 0, 0, 4, 0, 0, 0, //
    4, 0, 0, 0, 104, 0, 0, 0, 4, 0, 0, 0, //
    5, 0, 0, 0, 108, 0, 0, 0, 4, 0, 0, 0, //
    6, 0, 0, 0, 112, 0, 0, 0, 4, 0, 0, 0, //
    7, 0, 0, 0, 116, 0, 0, 0, 4, 0, 0, 0,
];

/// Whether a block is that of these settings, and they are allowed: those of a version 1 block in the new reader have 16
/// beside them.
fn is_of(by: Version, block: &[u8], settings: Option<&[u32]>) -> bool {
    let settings = settings.unwrap_or(&[]);
    let (front, parts) = if block.first() == Some(&1) { (&ONE[..], 6) } else { (&TWO[..], 7) };
    let bodies: Vec<u8> = settings.iter().take(parts).flat_map(|word| word.to_le_bytes()).collect();
    let beside = match (by, parts) {
        (Version::One, 6) | (Version::Two, 7) => true,
        (Version::Two, 6) => settings.get(6) == Some(&16),
        _ => false,
    };
    beside && block.strip_prefix(front) == Some(&bodies[..]) && are_allowed(settings)
}

/// The same as document 01 says, by the words' patterns: a threshold from the least float above 0 to below infinity, two
/// that are no NaN, any bits, a finite one, a rate and a run length.
fn are_allowed(settings: &[u32]) -> bool {
    const INFINITY: u32 = 0x7f80_0000;
    let magnitude = |place: usize| settings[place] & 0x7fff_ffff;
    let run = settings.get(6).copied().unwrap_or(2);
    (1..INFINITY).contains(&settings[0])
        && magnitude(1) <= INFINITY
        && magnitude(2) <= INFINITY
        && magnitude(4) < INFINITY
        && settings[5] <= 0x0100_0000
        && (2..=0x1000).contains(&run)
}
