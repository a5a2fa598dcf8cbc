//! A recording that is given to a run piece by piece, to its end.
use super::classes::Calls;
use super::joined::{Joined, Recordings};
use super::run::{silent, Run};
use cathar_host::crackle::STATE_WORDS;
use cathar_host::draw::Draw;
use cathar_host::whole::Start;

/// A recording that is to be given: its samples, the sensitivity, the start, and how long its pieces are.
pub struct Given {
    pub samples: Vec<u32>,
    pub sensitivity: f32,
    pub start: Start,
    pub lengths: Vec<usize>,
}

pub struct Feed {
    run: Run,
    given: Given,
    /// How many samples and how many pieces were given.
    at: usize,
    pieces: usize,
    copied: bool,
}

impl Feed {
    /// The run of a recording is announced. Its state has as many words as it needs, or a few more.
    pub fn new(calls: &mut Calls, draw: &mut Draw, given: Given) -> Feed {
        let words = STATE_WORDS + [0, 0, 1, 3][draw.below(4) as usize];
        let mut run = Run::new(silent(draw, words));
        run.begin(calls, given.samples.len(), given.sensitivity, given.start);
        Feed { run, given, at: 0, pieces: 0, copied: false }
    }

    /// Gives the next piece, or ends the run; at times from a copy of its state. Whether there is more to do.
    pub fn step(&mut self, calls: &mut Calls, draw: &mut Draw) -> bool {
        if draw.below(8) == 0 {
            self.run.go_on_from_copy();
            self.copied = true;
        }
        match self.given.lengths.get(self.pieces) {
            Some(length) => {
                let piece = &self.given.samples[self.at..self.at + length];
                self.run.piece_again(calls, draw, piece);
                self.at += length;
                self.pieces += 1;
                true
            }
            None => {
                self.run.end_again(calls, draw);
                false
            }
        }
    }

    /// All flags that were given are held to those of the whole.
    pub fn close(self, recordings: &mut Recordings, in_turn: bool) {
        let (mut joined, wrong) = Joined::new(self.given, &self.run.account.flags);
        (joined.copied, joined.in_turn) = (self.copied, in_turn);
        recordings.take(&joined, &wrong);
    }
}

/// Gives all of one recording.
pub fn give((calls, recordings): (&mut Calls, &mut Recordings), draw: &mut Draw, given: Given) {
    let mut feed = Feed::new(calls, draw, given);
    while feed.step(calls, draw) {}
    feed.close(recordings, false);
}

/// Gives two recordings, piece by piece in any turn.
pub fn give_in_turn((calls, recordings): (&mut Calls, &mut Recordings), draw: &mut Draw, mut two: [Feed; 2]) {
    let mut more = [true; 2];
    while more.contains(&true) {
        let which = draw.below(2) as usize;
        let which = if more[which] { which } else { 1 - which };
        more[which] = two[which].step(calls, draw);
    }
    two.into_iter().for_each(|feed| feed.close(recordings, true));
}
