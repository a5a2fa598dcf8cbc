//! Wrong stand-ins, with which the comparisons are themselves tried. Each is wrong in one way: in what it leaves or
//! answers in the place of the library, in one order of gaps or in any, of the model, of both alike, of the host's own
//! prediction step, of both and the host's own flags of a whole recording, or of the second process, or in what a test
//! keeps account of. With none of them a comparison finds no difference; with any one of them it has to find one.
//! `CATHAR_WRONG` names the one that stands in, and `host/wrong` runs each and says which are found.

/// A stand-in for the library: its name, what is wrong with it, and what it does.
macro_rules! library {
    ($name:expr, $says:expr, $makes:expr $(,)?) => {
        $crate::wrong::Standin { name: $name, says: $says, how: $crate::wrong::How::Library($makes) }
    };
}

mod counts;
mod crackle;
mod either;
mod frames;
mod gaps;
mod held;
mod held_runs;
mod leaves;
mod opening;
mod orders;
mod proposed;
mod question;
mod received;
mod recording;
mod scans;
mod second;
mod sequences;
mod several;
mod stored;
mod wav;
mod whole;

use crate::call::Call;
use crate::cathar;
use crate::crackle::{self as model_of_crackle, Areas};
use crate::either::Way;
use crate::frames::{self as model_of_frames, Read, Rooms};
use crate::lent::crackle::Crackle;
use crate::lent::frames::Frames;
use crate::lent::stored::Stored;
use crate::lent::wav::Wav;
use crate::lent::Lent;
use crate::question::{self as model_of_question, Span, Told};
use crate::recording::{not_measured, Answer, Recording, BLOCK};
use crate::stored as model_of_stored;
use crate::wav as model_of_wav;
use crate::whole::{self as whole_repairs, Start};
use std::env;

/// A wrong stand-in.
pub struct Standin {
    pub name: &'static str,
    /// What is wrong with it.
    pub says: &'static str,
    how: How,
}

/// In whose place it stands, and what it does there.
#[derive(Clone, Copy)]
enum How {
    /// In the library's: it makes the call, mostly by the library's own, and gives the answer.
    Library(fn(&mut Lent, Call) -> u32),
    /// In the model's: it alters what the model left. It is told the call and the recording before it.
    Model(Alters),
    /// In the place of both alike.
    Alike(Alters),
    /// In what the test of sequences keeps account of, which has a function of this name.
    Account,
    /// In the library's, where it repairs gaps in the other order: it alters what was answered and left. It is told the
    /// recording before them.
    Other(fn(&Recording, &mut Way)),
    /// In the place of the library's reader of frames: it reads, at times by the library's own, and gives the answer.
    Reader(fn(&mut Frames) -> u32),
    /// In the place of both readers alike.
    Readers(fn(&[u8], &mut Rooms) -> Read),
    /// In the place of the library's crackle detector: it makes the call, at times by the library's own, and gives the
    /// answer.
    Detector(fn(&mut Crackle, model_of_crackle::Call) -> u32),
    /// In the place of both detectors alike.
    Detectors(fn(&mut Areas, model_of_crackle::Call) -> Answer),
    /// In the place of both detectors alike, and of the flags that the host works out over the whole recording.
    Throughout(fn(&mut Areas, model_of_crackle::Call) -> Answer, fn(&[f32], f32, Start) -> Vec<bool>),
    /// In the place of the library's answer to the question: it is asked, at times by the library's own, and gives the
    /// number.
    Asked(fn(&mut Lent, Span) -> u32),
    /// In the place of both answers alike.
    BothAsked(fn(&[u8], &[u16], Span) -> Told),
    /// In the place of the library's readers and writers of settings: it makes the call, at times by the library's own,
    /// and gives the answer.
    Keeper(fn(&mut Stored, model_of_stored::Call) -> u32),
    /// In the place of both sides' alike.
    Keepers(fn(&mut model_of_stored::Areas, model_of_stored::Call) -> u32),
    /// In the place of the library's reader and writer of WAV files: it makes the call, at times by the library's own, and
    /// gives the answer.
    Wave(fn(&mut Wav, model_of_wav::Call) -> u32),
    /// In the model's place: it alters what the model left and answered. It is told the areas before the call.
    WaveModel(fn(model_of_wav::Call, &model_of_wav::Areas, &mut model_of_wav::Areas, &mut model_of_wav::Answer)),
    /// In the place of both sides' alike.
    Waves(fn(&mut model_of_wav::Areas, model_of_wav::Call) -> model_of_wav::Answer),
    /// In the place of a leaf.
    Root(fn(f64) -> f64),
    Narrow(fn(f64) -> f32),
    Round(fn(f32) -> f32),
    /// In the place of the lags that the host's own prediction step works on: it alters them.
    Lags(fn(&mut [f64])),
    /// In the place of the second process: it alters the patterns that this answered.
    There(fn(&mut [u64])),
}

type Alters = fn(Call, &Recording, &mut Recording);

/// The stand-ins that one test has to find, or is known not to find.
pub struct Table {
    /// The file of the test, and its name there.
    pub file: &'static str,
    pub test: &'static str,
    pub finds: Finds,
    pub standins: &'static [Standin],
}

/// Whether a test finds what is wrong.
#[derive(Clone, Copy, Debug)]
pub enum Finds {
    Always,
    /// Where there is a second process.
    WithSecond,
    /// It cannot: the stand-in gives what the library gives, since what it leaves out follows from the rest.
    Never,
}

/// All of them.
pub const TABLES: [&[Table]; 21] = [
    leaves::TABLES,
    recording::TABLES,
    received::TABLES,
    gaps::TABLES,
    scans::TABLES,
    held::TABLES,
    held_runs::TABLES,
    orders::TABLES,
    several::TABLES,
    either::TABLES,
    whole::TABLES,
    proposed::TABLES,
    sequences::TABLES,
    counts::TABLES,
    question::TABLES,
    frames::TABLES,
    crackle::TABLES,
    crackle::HELD_TABLES,
    stored::TABLES,
    wav::TABLES,
    second::TABLES,
];

/// The one that `CATHAR_WRONG` names, if it is set.
fn named() -> Option<&'static Standin> {
    let name = env::var("CATHAR_WRONG").ok()?;
    let mut all = TABLES.iter().copied().flatten().flat_map(|table| table.standins);
    Some(all.find(|standin| standin.name == name).unwrap_or_else(|| panic!("CATHAR_WRONG: there is no {name}")))
}

thread_local! {
    static STANDIN: Option<&'static Standin> = named();
}

/// The one that stands in, if one does.
fn standin() -> Option<&'static Standin> {
    STANDIN.with(|standin| *standin)
}

fn how() -> Option<How> {
    standin().map(|standin| standin.how)
}

/// The library makes the call on what it is lent, or what stands in for it does.
pub(crate) fn library(lent: &mut Lent, call: Call) -> u32 {
    match how() {
        Some(How::Library(makes)) => makes(lent, call),
        Some(How::Alike(alters)) => {
            let before = lent.recording();
            let number = lent.call(call);
            let mut after = lent.recording();
            alter(alters, call, &before, &mut after);
            lent.put(&after);
            number
        }
        _ => lent.call(call),
    }
}

/// Alters what a call left. Where that moves a mark, the count of its block follows, so that what is wrong is the mark
/// alone.
fn alter(alters: Alters, call: Call, before: &Recording, after: &mut Recording) {
    let left = after.marks.clone();
    alters(call, before, after);
    let blocks = left.chunks(BLOCK).zip(after.marks.chunks(BLOCK));
    for (count, (_, marks)) in after.counts.iter_mut().zip(blocks).filter(|(_, (left, marks))| left != marks) {
        *count = not_measured(marks);
    }
}

/// The model makes the call, or what stands in for it does.
pub(crate) fn model<A>(model: &mut Recording, call: Call, make: impl FnOnce(&mut Recording) -> A) -> A {
    match how() {
        Some(How::Model(alters) | How::Alike(alters)) => {
            let before = model.clone();
            let answer = make(model);
            alter(alters, call, &before, model);
            answer
        }
        _ => make(model),
    }
}

/// What the library answered and left where it repaired gaps in the other order, or what stands in for that.
pub(crate) fn other_way(before: &Recording, way: &mut Way) {
    if let Some(How::Other(alters)) = how() {
        alters(before, way);
    }
}

/// The library reads the frames that it is lent, or what stands in for it does.
pub(crate) fn reader(lent: &mut Frames) -> u32 {
    match how() {
        Some(How::Reader(reads)) => reads(lent),
        Some(How::Readers(reads)) => {
            let mut rooms = lent.rooms();
            let read = reads(lent.input(), &mut rooms);
            lent.put(&rooms);
            lent.set_figures(read.figures());
            read.number
        }
        _ => lent.call(),
    }
}

/// The model reads the frames into the rooms, or what stands in for it does.
pub(crate) fn model_reader(input: &[u8], rooms: &mut Rooms) -> Read {
    match how() {
        Some(How::Readers(reads)) => reads(input, rooms),
        _ => model_of_frames::read_frames(input, rooms),
    }
}

/// The library's crackle detector makes the call on what it is lent, or what stands in for it does.
pub(crate) fn detector(lent: &mut Crackle, call: model_of_crackle::Call) -> u32 {
    match how() {
        Some(How::Detector(makes)) => makes(lent, call),
        Some(How::Detectors(makes) | How::Throughout(makes, _)) => {
            let mut areas = lent.areas();
            let answer = makes(&mut areas, call);
            lent.put(&areas);
            if !matches!(call, model_of_crackle::Call::Begin { .. }) {
                lent.set_value(answer.value());
            }
            answer.number()
        }
        _ => lent.call(call),
    }
}

/// The model's detector makes the call on these areas, or what stands in for it does.
pub(crate) fn model_detector(areas: &mut Areas, call: model_of_crackle::Call) -> Answer {
    match how() {
        Some(How::Detectors(makes) | How::Throughout(makes, _)) => makes(areas, call),
        _ => areas.make(call),
    }
}

/// Which samples of a whole recording are flagged, or what stands in for that.
pub fn flags(samples: &[f32], sensitivity: f32, start: Start) -> Vec<bool> {
    match how() {
        Some(How::Throughout(_, flags)) => flags(samples, sensitivity, start),
        _ => whole_repairs::flags(samples, sensitivity, start),
    }
}

/// The library is asked of a span, or what stands in for it is.
pub(crate) fn asked(lent: &mut Lent, span: Span) -> u32 {
    match how() {
        Some(How::Asked(asks)) => asks(lent, span),
        Some(How::BothAsked(tells)) => {
            let told = tells(lent.marks.lent(), lent.counts.lent(), span);
            lent.yes.lend()[0] = told.yes.into();
            told.number
        }
        _ => lent.question(span),
    }
}

/// The model is asked of a span, or what stands in for it is.
pub(crate) fn model_asked(marks: &[u8], counts: &[u16], span: Span) -> Told {
    match how() {
        Some(How::BothAsked(tells)) => tells(marks, counts, span),
        _ => model_of_question::measured(marks, counts, span),
    }
}

/// The library reads or writes the stored block that it is lent, or what stands in for it does.
pub(crate) fn keeper(lent: &mut Stored, call: model_of_stored::Call) -> u32 {
    match how() {
        Some(How::Keeper(makes)) => makes(lent, call),
        Some(How::Keepers(makes)) => {
            let mut areas = lent.areas();
            let number = makes(&mut areas, call);
            lent.put(&areas);
            number
        }
        _ => lent.call(call),
    }
}

/// The model reads or writes a stored block, or what stands in for it does.
pub(crate) fn model_keeper(areas: &mut model_of_stored::Areas, call: model_of_stored::Call) -> u32 {
    match how() {
        Some(How::Keepers(makes)) => makes(areas, call),
        _ => areas.make(call),
    }
}

/// The library reads or writes the WAV file that it is lent, or what stands in for it does.
pub(crate) fn wave(lent: &mut Wav, call: model_of_wav::Call) -> u32 {
    match how() {
        Some(How::Wave(makes)) => makes(lent, call),
        Some(How::Waves(makes)) => {
            let mut areas = lent.areas();
            let answer = makes(&mut areas, call);
            lent.put(&areas);
            lent.tell(call, answer);
            answer.number
        }
        _ => lent.call(call),
    }
}

/// The model reads or writes a WAV file, or what stands in for it does.
pub(crate) fn model_wave(areas: &mut model_of_wav::Areas, call: model_of_wav::Call) -> model_of_wav::Answer {
    match how() {
        Some(How::Waves(makes)) => makes(areas, call),
        Some(How::WaveModel(alters)) => {
            let before = areas.clone();
            let mut answer = areas.make(call);
            alters(call, &before, areas, &mut answer);
            answer
        }
        _ => areas.make(call),
    }
}

/// The name of the stand-in for what the test of sequences keeps account of, if one stands there.
pub fn account() -> Option<&'static str> {
    standin().filter(|standin| matches!(standin.how, How::Account)).map(|standin| standin.name)
}

/// The library's root, or what stands in for it.
pub fn sqrt(x: f64) -> f64 {
    match how() {
        Some(How::Root(of)) => of(x),
        _ => cathar::sqrt(x),
    }
}

/// The library's narrowing, or what stands in for it.
pub fn narrow(x: f64) -> f32 {
    match how() {
        Some(How::Narrow(of)) => of(x),
        _ => cathar::narrow(x),
    }
}

/// The library's rounding to whole, or what stands in for it.
pub fn round(x: f32) -> f32 {
    match how() {
        Some(How::Round(of)) => of(x),
        _ => cathar::round(x),
    }
}

/// The lags that the host's own prediction step works on, or what stands in for them.
pub(crate) fn lags(r: &mut [f64]) {
    if let Some(How::Lags(alters)) = how() {
        alters(r);
    }
}

/// What the second process answered, or what stands in for that.
pub(crate) fn there(mut patterns: Vec<u64>) -> Vec<u64> {
    if let Some(How::There(alters)) = how() {
        alters(&mut patterns);
    }
    patterns
}

/// A comparison tells a difference, and at the how manieth value, call or sequence it stands. Where a stand-in is
/// there, that is what was to be seen, and the test ends.
pub fn found(after: u64, what: impl FnOnce() -> String) {
    if let Some(standin) = standin() {
        panic!("{} is found, at number {after}: {}", standin.name, what());
    }
}
