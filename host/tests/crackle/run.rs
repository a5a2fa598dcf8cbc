//! A run of the detector on both sides, with the account of it. Each call is compared and counted.
use super::account::{broken, Account, Standing};
use super::classes::{Calls, Made};
use cathar_host::both::{Detector, Wrong};
use cathar_host::crackle::{Areas, Call};
use cathar_host::draw::Draw;
use cathar_host::recording::Answer;
use cathar_host::room::{self, Room};
use cathar_host::whole::Start;

pub struct Run {
    both: Detector,
    pub account: Account,
    /// The number that the call before answered.
    last: Option<u32>,
}

/// Room for so many flags, of any bytes.
pub fn room(draw: &mut Draw, length: usize) -> Vec<u8> {
    room::words(draw, length).into_iter().map(|word| (word >> 24) as u8).collect()
}

/// A state of so many words that no call wrote, in which no run goes on.
pub fn silent(draw: &mut Draw, words: usize) -> Vec<u32> {
    let mut state = room::words(draw, words);
    state.iter_mut().skip(2).take(1).for_each(|word| *word &= !1);
    state
}

impl Run {
    /// No call was made on these words.
    pub fn new(state: Vec<u32>) -> Run {
        Run { both: Detector::new(state), account: Account::new(Standing::NotAnnounced), last: None }
    }

    /// The words may be such as no call leaves.
    pub fn wild(state: Vec<u32>) -> Run {
        Run { account: Account::new(Standing::Wild), ..Run::new(state) }
    }

    /// The state as it stands.
    pub fn state(&self) -> &[u32] {
        &self.both.model.state
    }

    /// The run goes on from a copy of its state, in other memory.
    pub fn go_on_from_copy(&mut self) {
        self.both = Detector::new(self.both.lent.state().to_vec());
    }

    pub fn begin(&mut self, calls: &mut Calls, total: usize, sensitivity: f32, start: Start) -> Answer {
        self.make(calls, Call::Begin { total, sensitivity, start })
    }

    /// A piece, with room of these bytes.
    pub fn piece(&mut self, calls: &mut Calls, piece: &[u32], flags: Vec<u8>) -> Answer {
        self.both.lend(piece, flags);
        self.make(calls, Call::Piece)
    }

    /// The end, with room of these bytes.
    pub fn end(&mut self, calls: &mut Calls, flags: Vec<u8>) -> Answer {
        self.both.lend(&[], flags);
        self.make(calls, Call::End)
    }

    /// How many flags the call would give, with a piece of so many samples.
    pub fn gives(&self, call: Call, piece: usize) -> usize {
        self.account.gives(call, piece)
    }

    /// A piece with any room, mostly enough, but half of the time one short where flags come that were held back. Where
    /// that is refused by 6, it is given again with enough.
    pub fn piece_again(&mut self, calls: &mut Calls, draw: &mut Draw, piece: &[u32]) -> Answer {
        let needed = self.gives(Call::Piece, piece.len());
        let short = needed > piece.len() && draw.below(2) == 0;
        let length = if short { Room::OneShort } else { Room::any(draw) }.of(draw, needed);
        let answer = self.piece(calls, piece, room(draw, length));
        if answer.number() != 6 {
            return answer;
        }
        let length = Room::enough(draw).of(draw, needed);
        self.piece(calls, piece, room(draw, length))
    }

    /// Likewise the end.
    pub fn end_again(&mut self, calls: &mut Calls, draw: &mut Draw) -> Answer {
        let needed = self.gives(Call::End, 0);
        let length = Room::any(draw).of(draw, needed);
        let answer = self.end(calls, room(draw, length));
        if answer.number() != 6 {
            return answer;
        }
        let length = Room::enough(draw).of(draw, needed);
        self.end(calls, room(draw, length))
    }

    /// Both sides make the call on what they are lent.
    fn make(&mut self, calls: &mut Calls, call: Call) -> Answer {
        let before = self.both.model.clone();
        let (answer, mut wrong) = self.both.make(call);
        wrong.extend(broken(&self.both.lent, &before, call, answer));
        let standing = self.account.standing;
        if standing != Standing::Wild {
            wrong.extend(self.not_by_account(call, answer, &before));
        }
        let made = Made::new(call, &before, answer, self.both.lent.flags(), (standing, self.last));
        self.account.take(call, answer, &before.piece, &made.given);
        if standing == Standing::Open && self.account.standing != Standing::Open && !self.account.flags_stand() {
            wrong.push("flags given in all");
        }
        calls.take(&made, &wrong);
        self.last = Some(answer.number());
        answer
    }

    /// The answer is wrong where it is not what the account of the run says.
    fn not_by_account(&self, call: Call, answer: Answer, before: &Areas) -> Wrong {
        let right = answer == self.account.answer(call, before);
        (!right).then_some("answer by what was given").into_iter().collect()
    }
}
