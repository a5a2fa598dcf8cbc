//! The reader of frames against the model of it: every answer and figure, and every byte of samples and marks, with
//! what stands around each lent area and behind the samples; and what has to hold of every reading, whatever the model
//! says.
//!
//! `CATHAR_SEED` sets the seed.
mod frames {
    pub mod any;
    pub mod classes;
    pub mod laws;
    pub mod limits;
    pub mod short;
    pub mod stream;
}

use cathar_host::both;
use cathar_host::count::Count;
use cathar_host::draw::{self, Draw};
use cathar_host::frames::{told, whole_frames, Rooms};
use cathar_host::lent::frames::Frames;
use cathar_host::room::{self, Room};
use frames::classes::{Reading, ANSWERS, LIMITS, ORDER, ROOMS, WORDS, WRAPS};
use frames::stream::{Ending, Stream};
use frames::{any, laws, limits, short};

/// How many streams are of any frames.
const ANY: u64 = 150_000;

/// Rooms for so many samples and marks, of any words.
fn rooms(draw: &mut Draw, [samples, marks]: [usize; 2]) -> Rooms {
    let marks = room::words(draw, marks).into_iter().map(|word| word as u8).collect();
    Rooms { samples: room::words(draw, samples), marks }
}

/// Both sides read the input into rooms of these lengths, and it is counted.
fn compare(count: &mut Count<Reading>, draw: &mut Draw, input: &[u8], lengths: [usize; 2]) {
    let before = rooms(draw, lengths);
    let mut after = before.clone();
    let mut lent = Frames::new(input, &before);
    let (read, mut wrong) = both::read_frames(input, &mut after, &mut lent);
    wrong.extend(laws::broken(&lent, &before, read.number == 0));
    count.take(&Reading::new(input, lengths, read), &wrong);
}

/// Likewise, with rooms that are mostly enough, each by itself.
fn compare_any(count: &mut Count<Reading>, draw: &mut Draw, stream: &Stream) {
    let input = stream.bytes(draw);
    let n = told(&whole_frames(&input)).n;
    let lengths = [Room::any(draw).of(draw, n), Room::any(draw).of(draw, n)];
    compare(count, draw, &input, lengths);
}

/// At the most samples and past them, and at lengths and rooms beside the right ones.
fn at_the_limits(count: &mut Count<Reading>, draw: &mut Draw) {
    count.begin("few frames, lengths and rooms beside the right");
    limits::small(&mut |stream, beside| {
        let input = stream.bytes(draw);
        let n = told(&whole_frames(&input)).n as isize;
        compare(count, draw, &input, beside.map(|by| (n + by).max(0) as usize));
    });
    count.begin("beside the most samples");
    limits::large(&mut |stream, lengths| {
        let input = stream.bytes(draw);
        compare(count, draw, &input, lengths);
    });
}

#[test]
fn reads() {
    let seed = draw::seed();
    let mut draw = Draw::new(seed);
    let title = "cathar_read_frames against the model";
    let mut count = Count::new(title, &[ANSWERS, ORDER, WRAPS, WORDS, ROOMS, LIMITS]);
    at_the_limits(&mut count, &mut draw);
    count.begin("all short streams over a few numbers");
    short::each(&mut |numbers| compare_any(&mut count, &mut draw, &Stream::new(numbers, Ending::Whole)));
    count.begin("each distance, and then what is expected");
    for distance in 0..=u16::MAX {
        let stream = any::at_distance(&mut draw, distance);
        compare_any(&mut count, &mut draw, &stream);
    }
    count.begin("each first number");
    for first in 0..=u16::MAX {
        let stream = any::from_first(&mut draw, first);
        compare_any(&mut count, &mut draw, &stream);
    }
    count.begin("any frames");
    for _ in 0..ANY {
        let stream = any::stream(&mut draw);
        compare_any(&mut count, &mut draw, &stream);
    }
    count.close(seed);
}
