//! Any recording, and any call on a recording.
use super::calls::{Call, Proposal, Spans};
use cathar_host::damage::{self, DROPOUTS, ZEROS};
use cathar_host::draw::Draw;
use cathar_host::frames::{self, Rooms, FRAME_WORDS};
use cathar_host::inpaint::{qualified, Gap, MOST_GAPS};
use cathar_host::proposals::{self, candidates, Among, Damage};
use cathar_host::proposed::is_allowed;
use cathar_host::recording::{entry_words, in_range, Recording, NOT_RECEIVED};
use cathar_host::room::{self, Room};
use cathar_host::settings::{self, UNLIMITED, USUAL};
use cathar_host::shapes::Shape;
use cathar_host::whole::needed;

/// The longest dropout, the longest of most gaps, and the longest of nearly all that are not filled by a line.
const DROPOUT: usize = 30;
const SHORT: u64 = 60;
const LONG: u64 = 300;

/// The fewest samples of a gap that is filled by a line.
const LINE: usize = 2049;

/// The most samples of a recording in which a scan may find a run every few samples, and of one on which a list has as
/// many gaps as may be.
const FULL_OF_RUNS: usize = 300;
const FEW: usize = 40;

/// Whether it is that one time in so many.
fn once_in(draw: &mut Draw, times: u64) -> bool {
    draw.below(times) == 0
}

/// One number from the first to the last.
fn from_to(draw: &mut Draw, first: usize, last: usize) -> usize {
    first + draw.below((last - first + 1) as u64) as usize
}

/// Either way of opening.
pub fn opening(draw: &mut Draw) -> Call {
    if once_in(draw, 2) {
        Call::Open
    } else {
        Call::OpenReceived
    }
}

/// A recording of n samples that is not opened yet, with a journal for so many repairs or for fewer. Where it is to be
/// opened with what was not received, that is mostly what frames left out, and else any samples.
pub fn recording(draw: &mut Draw, n: usize, repairs: usize, opening: Call) -> Recording {
    let mut samples = shape(draw, n).samples(draw, n);
    let mut marks = vec![0; n];
    if n > 0 && !(opening == Call::OpenReceived && once_in(draw, 2)) {
        damaged(draw, &mut samples);
    }
    if opening == Call::OpenReceived && once_in(draw, 4) {
        let spread = 1 + draw.below(20);
        marks.iter_mut().filter(|_| once_in(draw, spread)).for_each(|mark| *mark = NOT_RECEIVED);
    } else if opening == Call::OpenReceived {
        (samples, marks) = received(draw, &samples);
    }
    let length = journal(draw, n, repairs);
    unopened(draw, Recording::new(samples, marks, vec![0; length], 0), opening)
}

/// What is received of these samples when they come in frames, of which some are lost: as many samples with their marks.
/// The first of them may stand anywhere in the first frame.
fn received(draw: &mut Draw, samples: &[u32]) -> (Vec<u32>, Vec<u8>) {
    let before = draw.below(FRAME_WORDS as u64) as usize;
    let (count, end) = ((before + samples.len()) / FRAME_WORDS + 3, before + samples.len());
    let sent = [&vec![0; before], samples, &vec![0; FRAME_WORDS * count - end]].concat();
    let (first, lost) = (draw.word() as u16, lost(draw, count));
    let mut input = Vec::new();
    for (place, words) in sent.chunks(FRAME_WORDS).enumerate().filter(|(place, _)| !lost.contains(place)) {
        input.extend(first.wrapping_add(place as u16).to_le_bytes());
        input.extend(words.iter().flat_map(|word| word.to_le_bytes()));
    }
    let mut rooms = Rooms { samples: vec![0; sent.len()], marks: vec![0; sent.len()] };
    let read = frames::read_frames(&input, &mut rooms);
    assert_eq!((read.number, read.n, read.missing), (0, sent.len(), lost.len()), "what frames make");
    (rooms.samples[before..end].to_vec(), rooms.marks[before..end].to_vec())
}

/// Which frames of so many, at least three, are lost: mostly up to three in one place, so that a scan may repair them, and
/// at times more. The first and the last two are not.
fn lost(draw: &mut Draw, count: usize) -> Vec<usize> {
    let losses = if once_in(draw, 3) { 1 + draw.below(4) } else { 1 };
    let mut lost = Vec::new();
    for _ in 0..losses {
        let start = from_to(draw, 1, count - 2);
        lost.extend(start..=start + draw.below(3) as usize);
    }
    lost.retain(|place| place + 2 < count);
    lost.sort_unstable();
    lost.dedup();
    lost
}

/// The shape of n samples. The one whose results are at times not in range is likelier than others. The one that is
/// full of runs is left out where there are many samples, since the original takes its time for each run.
fn shape(draw: &mut Draw, n: usize) -> Shape {
    let any = Shape::ALL[draw.below(Shape::ALL.len() as u64) as usize];
    if once_in(draw, 6) || any == Shape::Words && n > FULL_OF_RUNS {
        Shape::Signs
    } else {
        any
    }
}

/// A recording that is this one when it is opened in this way: counts, journal and used are any, and so are the marks,
/// but that 6 stands just where it does here, if it is to be kept.
pub fn unopened(draw: &mut Draw, opened: Recording, opening: Call) -> Recording {
    let length = opened.journal.len();
    let mut recording = room::recording(draw, opened.samples, length);
    recording.journal.truncate(length);
    if opening == Call::OpenReceived {
        for (mark, raw) in recording.marks.iter_mut().zip(opened.marks) {
            *mark = if raw == NOT_RECEIVED { NOT_RECEIVED } else { *mark - u8::from(*mark == NOT_RECEIVED) };
        }
    }
    recording
}

/// Samples that are clipped, have clicks, drop out, are held and are not in range: each or not. Mostly what drops out is in
/// range, so that a repair over the whole recording may follow.
fn damaged(draw: &mut Draw, samples: &mut [u32]) {
    if once_in(draw, 3) {
        damage::clip(draw, samples);
    }
    if once_in(draw, 3) {
        damage::click(draw, samples);
    }
    if !once_in(draw, 3) {
        let words = if once_in(draw, 3) { &DROPOUTS[..] } else { &DROPOUTS[..ZEROS] };
        let longest = from_to(draw, 2, DROPOUT);
        damage::drop_out(draw, samples, longest, words);
    }
    if once_in(draw, 3) {
        damage::hold(draw, samples);
    }
    if once_in(draw, 12) {
        damage::overload(draw, samples);
    }
}

/// The journal's length: a few words; room for part of a repair or for one; for some that name all samples that
/// dequantize does, and a word more or less; and half the time for all.
fn journal(draw: &mut Draw, n: usize, repairs: usize) -> usize {
    match draw.below(10) {
        0 => draw.below(12) as usize,
        1 => draw.below(3 * n as u64 + 9) as usize,
        2..=4 => {
            let most = entry_words(n.saturating_sub(2));
            most * from_to(draw, 1, 4) + 1 - draw.below(3) as usize
        }
        _ => entry_words(n) * repairs,
    }
}

/// Any call: mostly a repair, and one in six times an undo.
pub fn call(draw: &mut Draw, on: &Recording) -> Call {
    match draw.below(112) {
        0 => opening(draw),
        1..=16 => Call::Undo,
        17..=40 => gap(draw, &on.samples),
        41..=56 => scan(draw, &on.samples),
        57..=62 => list(draw, &on.samples),
        63..=72 => proposed(draw, &on.samples),
        _ => whole(draw, &on.samples),
    }
}

/// Any gap: one that is not within the samples, one over samples that are not in range, or any.
fn span(draw: &mut Draw, samples: &[u32]) -> Gap {
    let n = samples.len();
    if n == 0 || once_in(draw, 12) {
        return settings::outside(draw, n);
    }
    let over = if once_in(draw, 2) { out_of_range(draw, samples) } else { None };
    over.unwrap_or_else(|| within(draw, n))
}

/// The repair of any gap.
fn gap(draw: &mut Draw, samples: &[u32]) -> Call {
    let (n, passes, gap) = (samples.len(), settings::passes(draw), span(draw, samples));
    let work = if gap.is_outside(n) { draw.below(3_000) as usize } else { Room::any(draw).of(draw, gap.needed(n)) };
    Call::Gap { gap, passes, work }
}

/// A list of any gaps, of which some come again: mostly of a few, at times of none, and of the most or one more where
/// there are few samples. Rarely the lists for the answers have another length.
fn list(draw: &mut Draw, samples: &[u32]) -> Call {
    let (n, passes) = (samples.len(), settings::passes(draw));
    let count = match draw.below(64) {
        0..=3 => 0,
        4 if n <= FEW => MOST_GAPS,
        5 if n <= FEW => MOST_GAPS + 1,
        _ => from_to(draw, 1, 6),
    };
    let mut gaps: Vec<Gap> = Vec::new();
    while gaps.len() < count {
        let again = !gaps.is_empty() && once_in(draw, 6);
        let gap = if again { gaps[from_to(draw, 0, gaps.len() - 1)] } else { span(draw, samples) };
        gaps.push(gap);
    }
    let answers = if once_in(draw, 16) { from_to(draw, 0, count + 1) } else { count };
    let work = work_for(draw, gaps.iter().filter(|gap| !gap.is_outside(n)).map(|gap| gap.needed(n)).collect());
    Call::Gaps { spans: Spans::new(&gaps), answers, passes, work }
}

/// The samples that are not in range, from any one of them on and back to the first beside it; nothing, where all
/// are.
fn out_of_range(draw: &mut Draw, samples: &[u32]) -> Option<Gap> {
    let places: Vec<usize> = (0..samples.len()).filter(|place| !in_range(samples[*place])).collect();
    if places.is_empty() {
        return None;
    }
    let any = places[draw.below(places.len() as u64) as usize];
    let before = samples[..any].iter().rev().take_while(|word| !in_range(**word)).count();
    let from = samples[any..].iter().take_while(|word| !in_range(**word)).count();
    Some(Gap { start: any - before, len: before + from })
}

/// A gap within n samples: mostly short, at times longer, and of many samples at times by line.
fn within(draw: &mut Draw, n: usize) -> Gap {
    if n >= LINE && once_in(draw, 4) {
        let len = from_to(draw, LINE, n);
        return Gap { start: from_to(draw, 0, n - len), len };
    }
    let start = draw.below(n as u64) as usize;
    let most = if once_in(draw, 40) { LONG } else { 1 + draw.below(SHORT) };
    Gap { start, len: 1 + draw.below(most.min((n - start) as u64)) as usize }
}

/// A scan with settings that are not allowed.
fn refused_scan(draw: &mut Draw) -> Call {
    Call::Scan { settings: settings::no_scan(draw), work: work_for(draw, Vec::new()) }
}

/// Any scan. Where there are many samples, only the usual number of equal words is held, since the original takes its
/// time for each run.
fn scan(draw: &mut Draw, samples: &[u32]) -> Call {
    let limit = from_to(draw, 3, 18);
    let settings = match draw.below(16) {
        0 => return refused_scan(draw),
        1..=8 => USUAL,
        9..=13 => settings::near(draw, limit),
        _ => UNLIMITED,
    };
    let settings = if samples.len() > FULL_OF_RUNS { settings } else { settings::any_held_run(draw, settings) };
    let runs = qualified(samples, settings).unwrap_or_default();
    let work = work_for(draw, runs.iter().map(|run| run.needed(samples.len())).collect());
    Call::Scan { settings, work }
}

/// How long a workspace is for repairs that need so many doubles each: mostly enough for all, and at times for any one
/// of them.
fn work_for(draw: &mut Draw, needs: Vec<usize>) -> usize {
    let needed = match needs.len() {
        0 => draw.below(100) as usize,
        count if once_in(draw, 6) => needs[draw.below(count as u64) as usize],
        _ => needs.into_iter().max().unwrap_or(0),
    };
    Room::any(draw).of(draw, needed)
}

/// Any of the four repairs over the whole recording, decrackle from either start.
fn whole(draw: &mut Draw, samples: &[u32]) -> Call {
    let decrackles = [settings::decrackle, settings::decrackle_old_start];
    let all = [settings::declip, decrackles[0], decrackles[1], settings::dequantize, settings::cosparse];
    let repair = all[draw.below(5) as usize](draw, samples);
    Call::Whole { repair, work: Room::any(draw).of(draw, needed(samples.len())) }
}

/// What the original makes of any candidates for the samples as they stand; one time in four the words are damaged, or
/// it has another length.
fn proposed(draw: &mut Draw, samples: &[u32]) -> Call {
    let threshold = settings::threshold(draw, samples);
    let among = if once_in(draw, 8) { Among::OrAny } else { Among::OrNan };
    let candidates = candidates(draw, samples, threshold, among);
    let mut words = proposals::projected(&candidates, samples, threshold);
    match draw.below(20) {
        0..=3 if is_allowed(threshold) => {
            proposals::damaged(draw, samples, threshold, &mut words, 3);
        }
        4 => {
            let damage = Damage::OF_LENGTH[draw.below(3) as usize];
            damage.done(draw, samples, threshold, &mut words);
        }
        _ => {}
    }
    Call::Proposed { threshold, proposal: Proposal::new(words) }
}
