//! What the crackle detector is lent: a run's state, the samples of a piece, and room for its flags.
use super::{not_right, number, patterns, Part, VALUE_BEFORE};
use crate::cathar;
use crate::crackle::{Areas, Call};
use crate::whole::Start;
use crate::wrong;

/// The three areas, and the number that is handed back.
pub struct Crackle {
    pub(crate) state: Part<u32>,
    pub(crate) piece: Part<u32>,
    pub(crate) flags: Part<u8>,
    pub(crate) value: Part<usize>,
}

/// A state. Around it stands 1, by which a run would go on, or be of one sample.
fn state(words: &[u32]) -> Part<u32> {
    Part::new(words, 1)
}

/// A piece. What stands around it is no sample in range, so that a call that reads it is found out.
fn piece(words: &[u32]) -> Part<u32> {
    Part::new(words, 0x7fc0_0000)
}

/// Room for flags. What stands around it is no flag.
fn flags(bytes: &[u8]) -> Part<u8> {
    Part::new(bytes, 0x5a)
}

impl Crackle {
    /// The same words and bytes.
    pub fn new(areas: &Areas) -> Crackle {
        Crackle { state: state(&areas.state), piece: piece(&areas.piece), flags: flags(&areas.flags), value: number() }
    }

    /// From here on this piece is lent, and room of these bytes.
    pub fn lend(&mut self, words: &[u32], bytes: &[u8]) {
        self.piece = piece(words);
        self.flags = flags(bytes);
    }

    /// The library makes the call, or what stands in for it does. The number that it hands back is forgotten before.
    pub fn make(&mut self, call: Call) -> u32 {
        self.set_value(VALUE_BEFORE);
        wrong::detector(self, call)
    }

    /// The library makes the call.
    pub(crate) fn call(&mut self, call: Call) -> u32 {
        let (state, flags, value) = (self.state.lend(), self.flags.lend(), &mut self.value.lend()[0]);
        match call {
            Call::Begin { total, sensitivity, start: Start::Mean } => cathar::crackle_begin(total, sensitivity, state),
            Call::Begin { total, sensitivity, start: Start::Old } => {
                cathar::crackle_begin_old_start(total, sensitivity, state)
            }
            Call::Piece => cathar::crackle_piece(state, self.piece.lent(), flags, value),
            Call::End => cathar::crackle_end(state, flags, value),
        }
    }

    /// The room as the last call left it.
    pub fn flags(&self) -> &[u8] {
        self.flags.lent()
    }

    /// The state as the last call left it.
    pub fn state(&self) -> &[u32] {
        self.state.lent()
    }

    /// The value that the last call handed back.
    pub fn value(&self) -> usize {
        self.value.lent()[0]
    }

    /// This value is handed back.
    pub(crate) fn set_value(&mut self, value: usize) {
        self.value.lend()[0] = value;
    }

    /// The areas as they are lent.
    pub(crate) fn areas(&self) -> Areas {
        Areas { state: self.state().to_vec(), piece: self.piece.lent().to_vec(), flags: self.flags().to_vec() }
    }

    /// The state and the room become these, which are as long.
    pub(crate) fn put(&mut self, areas: &Areas) {
        self.state.lend().copy_from_slice(&areas.state);
        self.flags.lend().copy_from_slice(&areas.flags);
    }

    /// The parts that are not these areas and this value, or whose guards do not stand.
    pub fn wrong(&self, areas: &Areas, value: usize) -> Vec<&'static str> {
        not_right([
            ("state", self.state.holds(patterns(&areas.state))),
            ("piece", self.piece.holds(patterns(&areas.piece))),
            ("flags", self.flags.holds(patterns(&areas.flags))),
            ("value", self.value.holds(patterns(&[value]))),
        ])
    }
}
