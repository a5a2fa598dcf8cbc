//! What has to hold of every call on a WAV file, whatever the model says.
use super::faults::Fault;
use super::made::Made;
use cathar_host::both::Wrong;
use cathar_host::lent::wav::RATE_BEFORE;
use cathar_host::wav::{Areas, Call};

/// What does not hold of what the library left and handed back, where the call was accepted or not.
pub fn broken(made: &Made, left: &Areas, (value, rate): (usize, u32)) -> Wrong {
    let before = &made.before;
    let mut holds = match (made.call, made.answer.number) {
        (Call::Read, 0) => vec![
            ("the file that was read", left.file == before.file),
            ("what stands behind the samples", left.samples.get(value..) == before.samples.get(value..)),
            ("what stands behind the marks", left.marks.get(value..) == before.marks.get(value..)),
            ("marks of 0", left.marks.get(..value).map_or(false, |marks| marks.iter().all(|mark| *mark == 0))),
            ("the sound of the file", is_sound_of(&left.file, left.samples.get(..value), rate)),
        ],
        (Call::Write { rate: at }, 0) => vec![
            ("the samples that were written", left.samples == before.samples && left.marks == before.marks),
            ("how many bytes there are", value == 44 + 2 * left.samples.len() && rate == RATE_BEFORE),
            ("what stands behind the file", left.file.get(value..) == before.file.get(value..)),
            ("the file of the samples", left.file.get(..value) == Some(&file_of(at, &left.samples)[..])),
        ],
        (call, number) => {
            let no_rate = if call == Call::Read { 0 } else { RATE_BEFORE };
            let is_told = if number == 7 { is_first(&before.samples, value) } else { value == 0 };
            vec![("what a refusal leaves", left == before), ("what a refusal tells", is_told && rate == no_rate)]
        }
    };
    holds.push(("the answer to what is wrong with the file", answers(made)));
    holds.into_iter().filter(|(_, holds)| !holds).map(|(name, _)| name).collect()
}

/// Whether a reading answers 20 to what is wrong with the coding alone, 19 to all else that is, and neither to nothing.
fn answers(made: &Made) -> bool {
    let is_coding = |fault: &Fault| matches!(fault, Fault::Tag | Fault::Channels | Fault::Bits);
    match made.answer.number {
        19 => !made.faults.iter().all(is_coding),
        20 => !made.faults.is_empty() && made.faults.iter().all(is_coding),
        _ => made.faults.is_empty(),
    }
}

/// Whether the sample at this place is the first that is not in range, by the words' patterns.
fn is_first(samples: &[u32], place: usize) -> bool {
    let is_in_range = |word: &u32| word & 0x7fff_ffff <= 0x4780_0000;
    place < samples.len() && samples[..place].iter().all(is_in_range) && !is_in_range(&samples[place])
}

/// The pattern of a value's sample, by whole numbers: the exponent counts its digits, and the others stand behind.
pub fn pattern_of(value: i16) -> u32 {
    let size = u32::from(value.unsigned_abs());
    if size == 0 {
        return 0;
    }
    let digits = 31 - size.leading_zeros();
    let sign = u32::from(value < 0) << 31;
    sign | (127 - 15 + digits) << 23 | (size << (23 - digits) & 0x7f_ffff)
}

/// The value of a sample that is in range, by whole numbers: twice the product, cut to a whole number, tells the
/// nearest.
pub fn value_of(word: u32) -> i16 {
    let (exponent, tail) = (word >> 23 & 0xff, u64::from(word & 0x7f_ffff));
    let digits = if exponent == 0 { tail } else { tail | 0x80_0000 };
    let power = exponent.max(1) as i32 - 150 + 15 + 1;
    let twice = if power >= 0 { digits << power } else { digits.checked_shr(power.unsigned_abs()).unwrap_or(0) };
    let size = ((twice + 1) / 2) as i64;
    let whole = if word >> 31 == 1 { -size } else { size };
    whole.clamp(-32_768, 32_767) as i16
}

/// Whether a data chunk of just this stands in a file, and in front of it a fmt chunk of mono 16-bit PCM of this rate.
fn is_sound_of(file: &[u8], samples: Option<&[u32]>, rate: u32) -> bool {
    let samples = samples.unwrap_or(&[]);
    let size = (2 * samples.len() as u32).to_le_bytes();
    let is_it = |at: usize| {
        let values = file.get(at + 8..at + 8 + 2 * samples.len()).unwrap_or(&[]).chunks(2);
        let patterns = values.map(|two| pattern_of(i16::from_le_bytes([two[0], two[1]])));
        file.get(at + 4..at + 8) == Some(&size) && patterns.eq(samples.iter().copied())
    };
    let formats = places(file, b"fmt ").filter(|at| is_format_of(&file[*at..], rate));
    formats.min().map_or(false, |format| places(file, b"data").any(|at| at > format + 16 && is_it(at)))
}

/// Whether a fmt chunk of mono 16-bit PCM of this rate stands here.
fn is_format_of(bytes: &[u8], rate: u32) -> bool {
    let front = [&[1, 0, 1, 0][..], &rate.to_le_bytes()].concat();
    let is_large = bytes.get(4..8).map_or(false, |size| size[0] >= 16 || size[1..] != [0, 0, 0]);
    is_large && bytes.get(8..16) == Some(&front[..]) && bytes.get(22..24) == Some(&[16, 0])
}

/// Where these four letters stand.
fn places<'a>(file: &'a [u8], name: &'a [u8; 4]) -> impl Iterator<Item = usize> + 'a {
    file.windows(4).enumerate().filter(move |(_, window)| window == name).map(|(at, _)| at)
}

/// Whether the bytes of a file that was written, behind its first 44, are the body of a data chunk of the other.
pub fn has_values(file: &[u8], written: &[u8]) -> bool {
    let data = [b"data", &(written.len() as u32 - 44).to_le_bytes()[..], &written[44..]].concat();
    places(file, b"data").any(|at| file[at..].starts_with(&data))
}

/// The bytes before the samples; what is 0 here and differs from file to file are the four sizes and rates.
const HEAD: [u8; 44] = [
    b'R', b'I', b'F', b'F', 0, 0, 0, 0, b'W', b'A', b'V', b'E', //
    b'f', b'm', b't', b' ', 16, 0, 0, 0, //
    1, 0, 1, 0, 0, 0, 0, 0, 0, 0, 0, 0, 2, 0, 16, 0, //
    b'd', b'a', b't', b'a', 0, 0, 0, 0,
];

/// The file of these samples at this rate, by the bytes.
pub fn file_of(rate: u32, samples: &[u32]) -> Vec<u8> {
    let (mut file, bytes) = (HEAD.to_vec(), 2 * samples.len() as u64);
    for (at, number) in [(4, 36 + bytes), (24, rate.into()), (28, 2 * u64::from(rate)), (40, bytes)] {
        (0..4).for_each(|place| file[at + place] = (number >> (8 * place)) as u8);
    }
    file.extend(samples.iter().flat_map(|word| value_of(*word).to_le_bytes()));
    file
}
