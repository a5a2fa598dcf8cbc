//! What has to hold of every reading, whatever the model says.
use cathar_host::both::Wrong;
use cathar_host::frames::{Rooms, FRAME_BYTES, FRAME_WORDS};
use cathar_host::lent::frames::Frames;

/// What does not hold of what the library left of these rooms.
pub fn broken(lent: &Frames, before: &Rooms, accepted: bool) -> Wrong {
    let [n, missing, dropped] = lent.figures();
    let stays = |from: usize| {
        lent.samples().get(from..) == before.samples.get(from..) && lent.marks().get(from..) == before.marks.get(from..)
    };
    let holds = if accepted {
        let taken = (lent.input().len() / FRAME_BYTES).checked_sub(dropped);
        vec![
            ("16 samples for each frame taken or missing", taken.map(|taken| 16 * (taken + missing)) == Some(n)),
            ("what stands behind the samples", stays(n)),
            ("each frame in its place", missing_in_place(lent, n) == Some(missing)),
        ]
    } else {
        vec![("figures of a refusal", [n, missing, dropped] == [0; 3]), ("rooms of a refusal", stays(0))]
    };
    holds.into_iter().filter(|(_, holds)| !holds).map(|(name, _)| name).collect()
}

/// Whether the first n samples are sixteens that are each measured or missing, and the k-th, where it was measured, is
/// the next frame of the input whose number is k behind the first one's. How many are missing, if so.
fn missing_in_place(lent: &Frames, n: usize) -> Option<usize> {
    let mut frames = lent.input().chunks_exact(FRAME_BYTES);
    let first = frames.clone().next().map_or(0, |frame| u16::from_le_bytes([frame[0], frame[1]]));
    let sixteens = lent.samples().get(..n)?.chunks(FRAME_WORDS).zip(lent.marks().get(..n)?.chunks(FRAME_WORDS));
    let mut missing = 0;
    for (k, (words, marks)) in sixteens.enumerate() {
        if marks == [6; FRAME_WORDS] && words == [0x7fc0_0000; FRAME_WORDS] {
            missing += 1;
            continue;
        }
        let number = first.wrapping_add(k as u16).to_le_bytes();
        let own = frames.find(|frame| frame[..2] == number)?;
        let same = own[2..].chunks(4).zip(words).all(|(bytes, word)| bytes == word.to_le_bytes());
        if !same || marks != [0; FRAME_WORDS] {
            return None;
        }
    }
    Some(missing)
}
