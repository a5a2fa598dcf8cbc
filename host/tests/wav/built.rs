//! Files that are built of chunks, with the answer that each has to get by the way it was built.
use super::damage::mended;
use super::laws::pattern_of;
use cathar_host::draw::Draw;
use cathar_host::wav::{laid, riff};

/// A chunk of a file that is built: its name and its body.
#[derive(Clone, Debug)]
pub struct Piece {
    pub name: [u8; 4],
    pub body: Vec<u8>,
}

impl Piece {
    pub fn new(name: &[u8; 4], body: &[u8]) -> Piece {
        Piece { name: *name, body: body.to_vec() }
    }

    /// A fmt chunk of so many bytes of this coding: tag, channels and bits. All else in it is any.
    pub fn format(draw: &mut Draw, bytes: usize, [tag, channels, bits]: [u16; 3]) -> Piece {
        let mut body: Vec<u8> = (0..bytes.max(16)).map(|_| draw.word() as u8).collect();
        for (at, half) in [(0, tag), (2, channels), (14, bits)] {
            body[at..at + 2].copy_from_slice(&half.to_le_bytes());
        }
        body.truncate(bytes);
        Piece { name: *b"fmt ", body }
    }

    /// A data chunk of so many bytes.
    pub fn data(draw: &mut Draw, bytes: usize) -> Piece {
        Piece { name: *b"data", body: (0..bytes).map(|_| draw.word() as u8).collect() }
    }

    fn is_format(&self) -> bool {
        self.name == *b"fmt " && self.body.len() >= 16
    }

    fn is_data(&self) -> bool {
        self.name == *b"data"
    }
}

/// Mono 16-bit PCM.
pub const PCM: [u16; 3] = [1, 1, 16];

/// What a reading has to answer and to give: the number, the rate and the samples.
#[derive(Clone, Debug, PartialEq, Eq)]
pub struct Expected {
    pub number: u32,
    pub rate: u32,
    pub samples: Vec<u32>,
}

impl Expected {
    pub fn refused(number: u32) -> Expected {
        Expected { number, rate: 0, samples: Vec::new() }
    }

    /// Of a file of these pieces, one behind the other.
    pub fn of(pieces: &[Piece]) -> Expected {
        let format = pieces.iter().position(Piece::is_format);
        let data = pieces.iter().position(Piece::is_data);
        let (format, data) = match (format, data) {
            (Some(format), Some(data)) if format < data => (&pieces[format].body, &pieces[data].body),
            _ => return Expected::refused(19),
        };
        if data.len() % 2 == 1 {
            return Expected::refused(19);
        }
        if format[..4] != [1, 0, 1, 0] || format[14..16] != [16, 0] {
            return Expected::refused(20);
        }
        let rate = u32::from_le_bytes([format[4], format[5], format[6], format[7]]);
        let samples = data.chunks(2).map(|two| pattern_of(i16::from_le_bytes([two[0], two[1]]))).collect();
        Expected { number: 0, rate, samples }
    }
}

/// The file of these pieces, with this byte behind each body of an odd size.
pub fn file(pieces: &[Piece], pad: u8) -> Vec<u8> {
    let chunk = |piece: &Piece| {
        let mut chunk = laid(&piece.name, &piece.body);
        if piece.body.len() % 2 == 1 {
            *chunk.last_mut().expect("a chunk has a head") = pad;
        }
        chunk
    };
    riff(&pieces.iter().flat_map(chunk).collect::<Vec<u8>>())
}

/// Chunks of each kind: fmt chunks that are right, of each length on which something turns, and of another coding; data
/// of an even, an odd and no length; and others.
pub fn kinds(draw: &mut Draw) -> Vec<Piece> {
    let mut kinds: Vec<Piece> = [14, 15, 16, 17, 18].map(|bytes| Piece::format(draw, bytes, PCM)).to_vec();
    kinds.push(Piece::format(draw, 16, [1, 2, 16]));
    kinds.extend([0, 3, 6].map(|bytes| Piece::data(draw, bytes)));
    kinds.extend([Piece::new(b"LIST", b"INFO?"), Piece::new(b"fact", &[4, 0, 0, 0]), Piece::new(b"junk", b"")]);
    kinds
}

/// Hands on every row of up to so many pieces of these kinds.
pub fn rows(kinds: &[Piece], most: usize, put: &mut dyn FnMut(&[Piece])) {
    fn longer(kinds: &[Piece], row: &mut Vec<Piece>, most: usize, put: &mut dyn FnMut(&[Piece])) {
        put(row);
        if row.len() < most {
            for kind in kinds {
                row.push(kind.clone());
                longer(kinds, row, most, put);
                row.pop();
            }
        }
    }
    longer(kinds, &mut Vec::new(), most, put);
}

/// The file with a RIFF size that is so much more.
fn sized(mut file: Vec<u8>, more: i32) -> Vec<u8> {
    let size = (file.len() as u32 - 8).wrapping_add(more as u32).to_le_bytes();
    file[4..8].copy_from_slice(&size);
    file
}

/// How many ways there are in which a file of a row is not as it is to be, or is and looks otherwise.
pub const WAYS: u64 = 16;

/// A file of these pieces in one of these ways, with what it has to get, where that is told by the way.
pub fn otherwise(way: u64, pieces: &[Piece]) -> (Vec<u8>, Option<Expected>) {
    let plain = file(pieces, 0);
    let is_odd = pieces.last().map_or(false, |piece| piece.body.len() % 2 == 1);
    let refused = Some(Expected::refused(19));
    let without = |at: usize| mended([&plain[..at], &plain[at + 1..]].concat());
    let odd = |piece: &Piece| piece.body.len() % 2 == 1;
    match way {
        0 => (file(pieces, 0xff), Some(Expected::of(pieces))),
        1 => (file(pieces, b'd'), Some(Expected::of(pieces))),
        2..=6 => (sized(plain, [-2, -1, 1, 2, 8][way as usize - 2]), refused),
        7..=10 => (mended([&plain[..], &[0; 7][..[1, 2, 4, 7][way as usize - 7]]].concat()), refused),
        11 => ([&plain[..], &[0]].concat(), refused),
        12 if is_odd => (without(plain.len() - 1), refused),
        13 if is_odd => (plain[..plain.len() - 1].to_vec(), refused),
        14 => match pieces.iter().position(odd) {
            // The first pad byte is left out, wherever it stands.
            Some(at) => (without(file(&pieces[..=at], 0).len() - 1), None),
            None => (mended(plain[..plain.len() - 1].to_vec()), refused),
        },
        _ => (mended([&plain[..], b"data\0\0\0"].concat()), refused),
    }
}

/// The pieces with one letter of one name in the other case, or a space for a 0.
pub fn misspelt(pieces: &[Piece], put: &mut dyn FnMut(&[Piece])) {
    for (piece, letter) in (0..pieces.len()).flat_map(|piece| (0..4).map(move |letter| (piece, letter))) {
        let mut others = pieces.to_vec();
        others[piece].name[letter] ^= 0x20;
        put(&others);
    }
}

/// Files that are damaged in every way: plain ones, with chunks before, between and behind, of odd sizes, with short
/// and longer fmt chunks, with two fmt and two data chunks, and of other codings.
pub fn bases(draw: &mut Draw) -> Vec<Vec<Piece>> {
    let right = Piece::format(draw, 16, PCM);
    let other = Piece::format(draw, 16, PCM);
    let (some, none) = (Piece::data(draw, 6), Piece::data(draw, 0));
    let list = |bytes: usize| Piece::new(b"LIST", &b"INFOICMT"[..bytes]);
    vec![
        vec![right.clone(), some.clone()],
        vec![right.clone(), none],
        vec![list(5), right.clone(), list(3), some.clone(), list(1)],
        vec![list(4), right.clone(), list(0), some.clone(), list(2)],
        vec![Piece::format(draw, 14, PCM), right.clone(), some.clone()],
        vec![Piece::format(draw, 17, PCM), some.clone()],
        vec![Piece::format(draw, 18, PCM), some.clone(), list(7)],
        vec![right.clone(), other, some.clone(), Piece::data(draw, 4)],
        vec![Piece::format(draw, 16, [1, 2, 16]), some.clone(), list(2)],
        vec![Piece::format(draw, 40, [0xfffe, 1, 16]), some.clone()],
        vec![some, right],
    ]
}
