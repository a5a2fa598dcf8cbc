//! A number's digits, cut in two where rounding cuts them, and numbers by what is cut off.
use cathar_host::draw::Draw;
use cathar_host::float::Format;

/// The digits kept, the part dropped, and what one half is in the part's measure.
pub struct Cut {
    pub kept: u64,
    pub part: u64,
    pub half: u64,
}

impl Cut {
    /// The digits without the last few, at least one.
    pub fn new(digits: u64, drop: u32) -> Cut {
        Cut { kept: digits >> drop, part: digits % (1 << drop), half: 1 << (drop - 1) }
    }

    /// Whether the part is one half, and the last digit kept is this one.
    pub fn is_tie(&self, last: u64) -> bool {
        self.part == self.half && self.kept % 2 == last
    }
}

/// Numbers with this sign and field whose last few digits are dropped, at most as many as the tail has
/// and the one before it. Each kind of kept digits (odd, even, all ones, all zeros) comes with each
/// kind of part: nothing, the least, half with its neighbours, the largest, and any.
pub fn shapes(draw: &mut Draw, format: Format, top: u64, drop: u32, put: &mut dyn FnMut(u64)) {
    let half = 1 << (drop - 1);
    let odd = draw.word() | 1;
    for kept in [odd, odd - 1, u64::MAX, 0] {
        for part in [0, 1, half - 1, half, half + 1, 2 * half - 1, draw.digits(drop)] {
            put(format.pattern(top, format.tail((kept << drop) | part)));
        }
    }
}
