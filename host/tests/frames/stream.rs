//! Inputs of the reader: frames of given numbers, with words of every kind.
use cathar_host::draw::Draw;
use cathar_host::frames::FRAME_BYTES;

/// How an input ends.
#[derive(Clone, Copy, Debug, PartialEq, Eq)]
pub enum Ending {
    /// With a whole frame.
    Whole,
    /// The last frame lacks its last byte.
    OneLess,
    /// So many bytes follow, fewer than a frame has.
    More(usize),
}

/// The numbers of the frames, and how it ends.
#[derive(Clone, Debug)]
pub struct Stream {
    pub numbers: Vec<u16>,
    pub ending: Ending,
}

/// Words on which something could turn: zeros, the least and the largest, infinities, the NaN that stands for a missing
/// sample, and others, signalling ones among them.
const WORDS: [u32; 16] = [
    0x0000_0000,
    0x8000_0000,
    0x0000_0001,
    0x807f_ffff,
    0x3f80_0000,
    0x4780_0001,
    0x7f7f_ffff,
    0x7f80_0000,
    0xff80_0000,
    0x7f80_0001,
    0xffbf_ffff,
    0x7fc0_0000,
    0x7fc0_0001,
    0xffc0_0000,
    0x7fff_ffff,
    0xffff_ffff,
];

impl Stream {
    pub fn new(numbers: &[u16], ending: Ending) -> Stream {
        Stream { numbers: numbers.to_vec(), ending }
    }

    /// The input, with words that are drawn.
    pub fn bytes(&self, draw: &mut Draw) -> Vec<u8> {
        let mut bytes = Vec::with_capacity(FRAME_BYTES * (self.numbers.len() + 1));
        for number in &self.numbers {
            bytes.extend(number.to_le_bytes());
            bytes.extend((0..16).flat_map(|_| word(draw).to_le_bytes()));
        }
        match self.ending {
            Ending::Whole => {}
            Ending::OneLess => drop(bytes.pop()),
            Ending::More(count) => bytes.extend((0..count).map(|_| draw.word() as u8)),
        }
        bytes
    }
}

/// Any word, and as often one of those above.
fn word(draw: &mut Draw) -> u32 {
    let any = draw.word();
    if any >> 63 == 0 {
        any as u32
    } else {
        WORDS[any as usize % WORDS.len()]
    }
}
