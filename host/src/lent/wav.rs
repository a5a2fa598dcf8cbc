//! A WAV file, samples and marks as they are lent to the library.
use super::{not_right, number, patterns, Part, VALUE_BEFORE};
use crate::cathar;
use crate::wav::{Answer, Areas, Call};
use crate::wrong;

/// What stands where a file's rate comes, before it is read: a rate that no file has that is read.
pub const RATE_BEFORE: u32 = 0xfedc_ba98;

/// The file, or the room for it; the samples, or the room for them; the room for marks; and the two figures that are
/// handed back, of which a writing has the first.
pub struct Wav {
    pub(crate) file: Part<u8>,
    pub(crate) samples: Part<u32>,
    pub(crate) marks: Part<u8>,
    pub(crate) value: Part<usize>,
    pub(crate) rate: Part<u32>,
}

impl Wav {
    /// The same bytes and words. Around the file stand bytes that could be a pad byte or a sample's, and around the
    /// samples a word that is in range, so that a call that reads them is found out.
    pub fn new(areas: &Areas) -> Wav {
        Wav {
            file: Part::new(&areas.file, 0x01),
            samples: Part::new(&areas.samples, 0x3e80_0000),
            marks: Part::new(&areas.marks, 0x5a),
            value: number(),
            rate: Part::new(&[RATE_BEFORE], 0xa5a5_a5a5),
        }
    }

    /// The library makes the call, or what stands in for it does. The figures are forgotten before.
    pub fn make(&mut self, call: Call) -> u32 {
        self.set_figures(VALUE_BEFORE, RATE_BEFORE);
        wrong::wave(self, call)
    }

    /// The library makes the call.
    pub(crate) fn call(&mut self, call: Call) -> u32 {
        let value = &mut self.value.lend()[0];
        match call {
            Call::Read => {
                let rate = &mut self.rate.lend()[0];
                cathar::read_wav(self.file.lent(), self.samples.lend(), self.marks.lend(), value, rate)
            }
            Call::Write { rate } => cathar::write_wav(self.samples.lent(), rate, self.file.lend(), value),
        }
    }

    /// The figures that were handed back: the number of samples or of bytes, or a place; and the rate.
    pub fn figures(&self) -> (usize, u32) {
        (self.value.lent()[0], self.rate.lent()[0])
    }

    /// These are handed back.
    pub(crate) fn set_figures(&mut self, value: usize, rate: u32) {
        self.value.lend()[0] = value;
        self.rate.lend()[0] = rate;
    }

    /// Those of this answer are. A writing hands no rate back.
    pub(crate) fn tell(&mut self, call: Call, answer: Answer) {
        self.set_figures(answer.value, told_rate(call, answer));
    }

    /// File, samples and marks as they are lent.
    pub fn areas(&self) -> Areas {
        Areas {
            file: self.file.lent().to_vec(),
            samples: self.samples.lent().to_vec(),
            marks: self.marks.lent().to_vec(),
        }
    }

    /// They become these, which are as long.
    pub(crate) fn put(&mut self, areas: &Areas) {
        self.file.lend().copy_from_slice(&areas.file);
        self.samples.lend().copy_from_slice(&areas.samples);
        self.marks.lend().copy_from_slice(&areas.marks);
    }

    /// The parts that are not these and the figures of this answer, or whose guards do not stand.
    pub fn wrong(&self, call: Call, areas: &Areas, answer: Answer) -> Vec<&'static str> {
        not_right([
            ("file", self.file.holds(patterns(&areas.file))),
            ("samples", self.samples.holds(patterns(&areas.samples))),
            ("marks", self.marks.holds(patterns(&areas.marks))),
            ("value", self.value.holds(patterns(&[answer.value]))),
            ("rate", self.rate.holds(patterns(&[told_rate(call, answer)]))),
        ])
    }
}

/// What stands in the place of the rate after a call.
fn told_rate(call: Call, answer: Answer) -> u32 {
    match call {
        Call::Read => answer.rate,
        Call::Write { .. } => RATE_BEFORE,
    }
}
