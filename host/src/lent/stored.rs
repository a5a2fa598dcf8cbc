//! A stored block and its settings as they are lent to the library.
use super::{not_right, patterns, Part};
use crate::cathar;
use crate::stored::{Areas, Call, Version};
use crate::wrong;

/// The block, or the room for it, and the settings, or the area for them.
pub struct Stored {
    pub(crate) block: Part<u8>,
    pub(crate) settings: Part<u32>,
}

impl Stored {
    /// The same bytes and words. Around the block stand bytes that could be its last, and around the settings a word that
    /// could be a held run's length, so that a call that reads them is found out.
    pub fn new(areas: &Areas) -> Stored {
        Stored { block: Part::new(&areas.block, 0), settings: Part::new(&areas.settings, 16) }
    }

    /// The library makes the call, or what stands in for it does.
    pub fn make(&mut self, call: Call) -> u32 {
        wrong::keeper(self, call)
    }

    /// The library makes the call.
    pub(crate) fn call(&mut self, call: Call) -> u32 {
        match call {
            Call::Read(Version::One) => cathar::read_settings_v1(self.block.lent(), self.settings.lend()),
            Call::Read(Version::Two) => cathar::read_settings(self.block.lent(), self.settings.lend()),
            Call::Write(Version::One) => cathar::write_settings_v1(self.settings.lent(), self.block.lend()),
            Call::Write(Version::Two) => cathar::write_settings(self.settings.lent(), self.block.lend()),
        }
    }

    /// Block and settings as they are lent.
    pub fn areas(&self) -> Areas {
        Areas { block: self.block.lent().to_vec(), settings: self.settings.lent().to_vec() }
    }

    /// They become these, which are as long.
    pub(crate) fn put(&mut self, areas: &Areas) {
        self.block.lend().copy_from_slice(&areas.block);
        self.settings.lend().copy_from_slice(&areas.settings);
    }

    /// The parts that are not these, or whose guards do not stand.
    pub fn wrong(&self, areas: &Areas) -> Vec<&'static str> {
        not_right([
            ("block", self.block.holds(patterns(&areas.block))),
            ("settings", self.settings.holds(patterns(&areas.settings))),
        ])
    }
}
