//! Which clauses of the rule a file does not keep.
use cathar_host::wav::FORMAT;

/// A clause that a file does not keep. All but the last three are of refusal 19, and those of 20.
#[derive(Clone, Copy, Debug, PartialEq, Eq)]
pub enum Fault {
    /// It has fewer than the 12 bytes that stand before the first chunk.
    Short,
    /// The names at its beginning, and its length beside the size.
    Riff,
    Size,
    Wave,
    /// The last chunk's head, its body or its pad byte is not all there.
    Head,
    Body,
    Pad,
    /// No chunk is a fmt chunk; those that are have fewer than 16 bytes; or none is a data chunk.
    NoFormat,
    ShortFormat,
    NoData,
    /// The first data chunk stands before the first fmt chunk, or has an odd size.
    Order,
    OddData,
    /// The format tag, the channels and the bits of a sample.
    Tag,
    Channels,
    Bits,
}

/// A chunk: where its head begins, its name and its size.
struct Chunk {
    at: usize,
    name: [u8; 4],
    size: usize,
}

fn word(file: &[u8], at: usize) -> usize {
    file[at..at + 4].iter().rev().fold(0, |word, byte| word << 8 | usize::from(*byte))
}

/// The chunks, up to the first that is not all there, and what of that is missing.
fn walk(file: &[u8]) -> (Vec<Chunk>, Option<Fault>) {
    let (mut at, mut chunks) = (12, Vec::new());
    loop {
        let left = file.len() - at;
        if left < 8 {
            return (chunks, (left > 0).then_some(Fault::Head));
        }
        let size = word(file, at + 4);
        chunks.push(Chunk { at, name: [file[at], file[at + 1], file[at + 2], file[at + 3]], size });
        if size > left - 8 {
            return (chunks, Some(Fault::Body));
        }
        if size % 2 == 1 && size == left - 8 {
            return (chunks, Some(Fault::Pad));
        }
        at += 8 + size + size % 2;
    }
}

/// The clauses that a file does not keep. Of one that is not whole, those are told of which enough is there.
pub fn faults(file: &[u8]) -> Vec<Fault> {
    if file.len() < 12 {
        return vec![Fault::Short];
    }
    let (chunks, missing) = walk(file);
    let mut faults = Vec::new();
    let mut note = |fault: Fault, is_broken: bool| faults.extend(is_broken.then_some(fault));
    note(Fault::Riff, file[..4] != *b"RIFF");
    note(Fault::Size, file.len() != 8 + word(file, 4));
    note(Fault::Wave, file[8..12] != *b"WAVE");
    missing.into_iter().for_each(|fault| note(fault, true));
    let is_named = chunks.iter().any(|chunk| chunk.name == *b"fmt ");
    let format = chunks.iter().find(|chunk| chunk.name == *b"fmt " && chunk.size >= FORMAT);
    let data = chunks.iter().find(|chunk| chunk.name == *b"data");
    note(Fault::NoFormat, !is_named);
    note(Fault::ShortFormat, is_named && format.is_none());
    note(Fault::NoData, data.is_none());
    note(Fault::Order, format.zip(data).map_or(false, |(format, data)| data.at < format.at));
    note(Fault::OddData, data.map_or(false, |data| data.size % 2 == 1));
    let half = |at: usize| file.get(at..at + 2).map(|two| [two[0], two[1]]);
    let differs =
        |at: usize, right: u8| format.and_then(|format| half(format.at + at)).map_or(false, |is| is != [right, 0]);
    note(Fault::Tag, differs(8, 1));
    note(Fault::Channels, differs(10, 1));
    note(Fault::Bits, differs(22, 16));
    faults
}
