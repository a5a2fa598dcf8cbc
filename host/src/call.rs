//! A call of the library on a recording, without the memory that is lent to it, which has the lists of several gaps and
//! a proposal among it.
use crate::inpaint::Gap;
use crate::settings::OfScan;
use crate::whole::Repair;

#[derive(Clone, Copy, Debug, PartialEq)]
pub enum Call {
    Open,
    OpenReceived,
    Undo,
    Gap { gap: Gap, passes: u32 },
    Gaps { passes: u32 },
    Scan(OfScan),
    Whole(Repair),
    Proposed { threshold: f32 },
}

impl Call {
    /// Whether it is one of the two openings.
    pub fn opens(self) -> bool {
        matches!(self, Call::Open | Call::OpenReceived)
    }
}
