//! WAV in and out as request P12 of document 02 has it: the reader and the writer of mono 16-bit PCM. It is written
//! from the request's text, with what its record says of chunks, and to be seen right rather than to be fast, so that
//! the library can be held to it.
use crate::recording::{first_of, in_range, MOST_SAMPLES};

/// The fewest bytes of a `fmt ` chunk.
pub const FORMAT: usize = 16;

/// What stands before the samples of a file that is written.
pub const HEADER: usize = 44;

/// How many values there are on either side of 0, and so what 1 is for a sample of 16 bits.
pub const FULL: f64 = 32_768.0;

/// A call: a file is read into samples and marks, or samples are written as a file at this rate.
#[derive(Clone, Copy, Debug, PartialEq, Eq)]
pub enum Call {
    Read,
    Write { rate: u32 },
}

/// What a call answers: 0 or the number of the refusal; of a reading the number of samples and the rate; and of a
/// writing the number of bytes, or the place of a sample.
#[derive(Clone, Copy, Debug, PartialEq, Eq)]
pub struct Answer {
    pub number: u32,
    pub value: usize,
    pub rate: u32,
}

impl Answer {
    /// A refusal, of which nothing else is told.
    pub fn refused(number: u32) -> Answer {
        Answer { number, value: 0, rate: 0 }
    }
}

/// What is lent to a call: the file, or the room for it; the samples, or the room for them; and the room for marks,
/// which a writing does not have.
#[derive(Clone, Debug, PartialEq, Eq)]
pub struct Areas {
    pub file: Vec<u8>,
    pub samples: Vec<u32>,
    pub marks: Vec<u8>,
}

impl Areas {
    /// Makes the call.
    pub fn make(&mut self, call: Call) -> Answer {
        match call {
            Call::Read => self.read(),
            Call::Write { rate } => self.write(rate),
        }
    }

    /// Reads the file. "19, not a whole RIFF WAVE file with fmt before data and an even data length; 20, not mono
    /// 16-bit PCM; 21, output room short; in that order. Reading more than 1,048,576 samples gives 2, after 20." "The
    /// output is then unwritten." "The fresh recording has marks 0."
    fn read(&mut self) -> Answer {
        let Sound { rate, values } = match sound(&self.file) {
            Ok(sound) => sound,
            Err(number) => return Answer::refused(number),
        };
        let n = values.len();
        let is_short = self.samples.len() < n || self.marks.len() < n;
        if let Some(number) = first_of([(2, n > MOST_SAMPLES), (21, is_short)]) {
            return Answer::refused(number);
        }
        for (place, value) in values.into_iter().enumerate() {
            self.samples[place] = sample(value);
            self.marks[place] = 0;
        }
        Answer { number: 0, value: n, rate }
    }

    /// Writes the samples: 2 for too many of them, "writing a sample out of range gives 7 with the lowest place, before
    /// 21", and 21 where the room is short.
    fn write(&mut self, rate: u32) -> Answer {
        if self.samples.len() > MOST_SAMPLES {
            return Answer::refused(2);
        }
        if let Some(place) = self.samples.iter().position(|word| !in_range(*word)) {
            return Answer { number: 7, value: place, rate: 0 };
        }
        let values: Vec<i16> = self.samples.iter().map(|word| value(*word)).collect();
        let file = file(rate, &values);
        if self.file.len() < file.len() {
            return Answer::refused(21);
        }
        self.file[..file.len()].copy_from_slice(&file);
        Answer { number: 0, value: file.len(), rate: 0 }
    }
}

/// A chunk: "four bytes of name, a 32-bit size, the body, and one byte more where the size is odd".
#[derive(Clone, Copy, Debug)]
pub struct Chunk<'a> {
    pub name: [u8; 4],
    pub body: &'a [u8],
}

/// The first so many bytes, and the others; nothing, where there are fewer.
fn parted(bytes: &[u8], at: usize) -> Option<(&[u8], &[u8])> {
    (at <= bytes.len()).then(|| bytes.split_at(at))
}

/// The number that four bytes are, lowest first, and the bytes behind them.
fn number(bytes: &[u8]) -> Option<(usize, &[u8])> {
    let (four, behind) = parted(bytes, 4)?;
    Some((four.iter().rev().fold(0, |number, byte| 256 * number + usize::from(*byte)), behind))
}

/// Takes a chunk off the front, with its byte more.
fn chunk(bytes: &[u8]) -> Option<(Chunk<'_>, &[u8])> {
    let (name, behind) = parted(bytes, 4)?;
    let (size, behind) = number(behind)?;
    let (body, behind) = parted(behind, size)?;
    let (_, behind) = parted(behind, size % 2)?;
    Some((Chunk { name: [name[0], name[1], name[2], name[3]], body }, behind))
}

/// The chunks of a file, where it is "a whole RIFF WAVE file": it begins with `RIFF`, "the file's length is 8 plus the
/// RIFF size", then comes `WAVE`, and "the chunks with their pad bytes fill it exactly".
pub fn chunks(file: &[u8]) -> Option<Vec<Chunk<'_>>> {
    let (size, behind) = number(file.strip_prefix(b"RIFF")?)?;
    if behind.len() != size {
        return None;
    }
    let mut rest = behind.strip_prefix(b"WAVE")?;
    let mut chunks = Vec::new();
    while !rest.is_empty() {
        let (next, behind) = chunk(rest)?;
        chunks.push(next);
        rest = behind;
    }
    Some(chunks)
}

/// What a file has: its rate and the values of its samples.
#[derive(Clone, Debug, PartialEq, Eq)]
pub struct Sound {
    pub rate: u32,
    pub values: Vec<i16>,
}

/// The sound of a file, or the number of the refusal. "The first `fmt ` chunk has at least 16 bytes: format tag,
/// channels, rate, bytes a second, block align, bits. The first `data` chunk behind it holds the samples." "A `fmt ` of
/// fewer than 16 bytes is none." "20: not mono 16-bit PCM: tag 1, 1 channel, 16 bits."
pub fn sound(file: &[u8]) -> Result<Sound, u32> {
    let chunks = chunks(file).ok_or(19u32)?;
    let first = |is: &dyn Fn(&Chunk) -> bool| chunks.iter().position(is).ok_or(19u32);
    let format = first(&|chunk| chunk.name == *b"fmt " && chunk.body.len() >= FORMAT)?;
    let data = first(&|chunk| chunk.name == *b"data")?;
    let (body, bytes) = (chunks[format].body, chunks[data].body);
    if data < format || bytes.len() % 2 != 0 {
        return Err(19);
    }
    let half = |at: usize| u16::from_le_bytes([body[at], body[at + 1]]);
    if [half(0), half(2), half(14)] != [1, 1, 16] {
        return Err(20);
    }
    let rate = u32::from_le_bytes([body[4], body[5], body[6], body[7]]);
    let values = bytes.chunks(2).map(|two| i16::from_le_bytes([two[0], two[1]])).collect();
    Ok(Sound { rate, values })
}

/// "Sample v becomes exactly v/32768": its word.
pub fn sample(value: i16) -> u32 {
    let exact = f64::from(value) / FULL;
    (exact as f32).to_bits()
}

/// "Sample times 32768, rounded to whole with halves away from zero, held to -32768..32767."
pub fn value(word: u32) -> i16 {
    let whole = (f64::from(f32::from_bits(word)) * FULL).round();
    whole.clamp(f64::from(i16::MIN), f64::from(i16::MAX)) as i16
}

/// The file of these values: "`RIFF`, a 16-byte fmt chunk, data, 44 bytes and 2 for each sample, at the given rate
/// (bytes a second are twice the rate, modulo 2^32)".
pub fn file(rate: u32, values: &[i16]) -> Vec<u8> {
    let format = [
        &1u16.to_le_bytes()[..],
        &1u16.to_le_bytes(),
        &rate.to_le_bytes(),
        &rate.wrapping_mul(2).to_le_bytes(),
        &2u16.to_le_bytes(),
        &16u16.to_le_bytes(),
    ]
    .concat();
    let data: Vec<u8> = values.iter().flat_map(|value| value.to_le_bytes()).collect();
    riff(&[laid(b"fmt ", &format), laid(b"data", &data)].concat())
}

/// A chunk of this name and body, with a 0 behind it where its size is odd.
pub fn laid(name: &[u8; 4], body: &[u8]) -> Vec<u8> {
    let mut chunk = [name, &(body.len() as u32).to_le_bytes()[..], body].concat();
    chunk.resize(chunk.len() + body.len() % 2, 0);
    chunk
}

/// A file of these chunks.
pub fn riff(chunks: &[u8]) -> Vec<u8> {
    [b"RIFF", &(chunks.len() as u32 + 4).to_le_bytes()[..], b"WAVE", chunks].concat()
}
