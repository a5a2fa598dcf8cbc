//! An input of frames, and the rooms for what it makes, as they are lent to the library.
use super::{not_right, number, patterns, Part, VALUE_BEFORE};
use crate::cathar;
use crate::frames::{Read, Rooms};
use crate::wrong;

/// The input, the two rooms, and the three figures that are handed back.
pub struct Frames {
    pub(crate) input: Part<u8>,
    pub(crate) samples: Part<u32>,
    pub(crate) marks: Part<u8>,
    pub(crate) figures: [Part<usize>; 3],
}

impl Frames {
    /// The same bytes, and rooms of the same words. Around the input stand bytes that could be a frame's.
    pub fn new(input: &[u8], rooms: &Rooms) -> Frames {
        Frames {
            input: Part::new(input, 0x01),
            samples: Part::new(&rooms.samples, 0x5a5a_5a5a),
            marks: Part::new(&rooms.marks, 0x5a),
            figures: [number(), number(), number()],
        }
    }

    /// The library reads the frames, or what stands in for it does. The figures are forgotten before.
    pub fn read(&mut self) -> u32 {
        self.set_figures([VALUE_BEFORE; 3]);
        wrong::reader(self)
    }

    /// The library reads the frames.
    pub(crate) fn call(&mut self) -> u32 {
        let [n, missing, dropped] = &mut self.figures;
        let (n, missing, dropped) = (&mut n.lend()[0], &mut missing.lend()[0], &mut dropped.lend()[0]);
        cathar::read_frames(self.input.lent(), self.samples.lend(), self.marks.lend(), n, missing, dropped)
    }

    /// The input as it is lent.
    pub fn input(&self) -> &[u8] {
        self.input.lent()
    }

    /// The rooms of the samples and of the marks as the reading left them.
    pub fn samples(&self) -> &[u32] {
        self.samples.lent()
    }

    pub fn marks(&self) -> &[u8] {
        self.marks.lent()
    }

    /// The figures that were handed back.
    pub fn figures(&self) -> [usize; 3] {
        let [n, missing, dropped] = &self.figures;
        [n.lent()[0], missing.lent()[0], dropped.lent()[0]]
    }

    /// These figures are handed back.
    pub(crate) fn set_figures(&mut self, figures: [usize; 3]) {
        for (part, figure) in self.figures.iter_mut().zip(figures) {
            part.lend()[0] = figure;
        }
    }

    /// The rooms as they are lent.
    pub(crate) fn rooms(&self) -> Rooms {
        Rooms { samples: self.samples().to_vec(), marks: self.marks().to_vec() }
    }

    /// The rooms become these, which are as long.
    pub(crate) fn put(&mut self, rooms: &Rooms) {
        self.samples.lend().copy_from_slice(&rooms.samples);
        self.marks.lend().copy_from_slice(&rooms.marks);
    }

    /// The parts that are not the input, these rooms and these figures, or whose guards do not stand.
    pub fn wrong(&self, input: &[u8], rooms: &Rooms, read: Read) -> Vec<&'static str> {
        let [n, missing, dropped] = &self.figures;
        not_right([
            ("frames", self.input.holds(patterns(input))),
            ("samples", self.samples.holds(patterns(&rooms.samples))),
            ("marks", self.marks.holds(patterns(&rooms.marks))),
            ("n", n.holds(patterns(&[read.n]))),
            ("missing", missing.holds(patterns(&[read.missing]))),
            ("dropped", dropped.holds(patterns(&[read.dropped]))),
        ])
    }
}
