//! Reads a WAV file from Rust, repairs a gap in it, and writes it again. On x86-64, from the repository's root, with
//! the library that `./staticlib` proves and builds:
//!
//!     rustc -L target/staticlib examples/wav.rs -o wav
//!     ./wav
//!
//! It prints what `wav.c` prints, and is explained there. (`host/src/cathar.rs` has a safe function for each of the
//! library's.)
//!
//!     read:    answer 0, 12 samples, 8000 a second
//!     0 11585 16384 11585 0 0 -16384 -11585 0 11585 16384 11585
//!     gap:     answer 0, value 2
//!     4:3d2dc94f:1 5:be74737b:1
//!     written: answer 0, 68 bytes
//!     0 11585 16384 11585 1390 -7822 -16384 -11585 0 11585 16384 11585
//!     stereo:  answer 20, 0 samples, 0 a second
//!     a NaN:   answer 7, value 3

// As in include/cathar.h, which says what each does.
#[rustfmt::skip]
#[link(name = "cathar", kind = "static")]
extern "C" {
    fn cathar_read_wav(file: *const u8, file_n: usize, samples: *mut u32, samples_n: usize,
                       marks: *mut u8, marks_n: usize, n: *mut usize, rate: *mut u32) -> u32;
    fn cathar_write_wav(samples: *const u32, n: usize, rate: u32, out: *mut u8, out_n: usize, value: *mut usize) -> u32;
    fn cathar_open(samples: *const u32, n: usize, marks: *mut u8, marks_n: usize,
                   counts: *mut u16, counts_n: usize, journal: *mut u32, journal_n: usize, used: *mut usize) -> u32;
    fn cathar_inpaint_gap(samples: *mut u32, n: usize, marks: *mut u8, marks_n: usize,
                          counts: *mut u16, counts_n: usize, journal: *mut u32, journal_n: usize, used: *mut usize,
                          start: usize, len: usize, passes: u32,
                          work: *mut f64, work_n: usize, value: *mut usize, order: *mut u32) -> u32;
}

/// What stands before the samples of the file: a LIST chunk of 3 bytes and one more, and mono 16-bit PCM.
const HEAD: &[u8; 56] = b"RIFF\x48\0\0\0WAVELIST\x03\0\0\0abc\0\
    fmt \x10\0\0\0\x01\0\x01\0\x40\x1f\0\0\x80\x3e\0\0\x02\0\x10\0data\x18\0\0\0";

/// Where its channels stand.
const CHANNELS: usize = 34;

/// Reads a file into samples and marks, and prints what it is told. The number of samples, and the rate.
fn read(call: &str, file: &[u8], samples: &mut [u32], marks: &mut [u8]) -> (usize, u32) {
    let (mut n, mut rate) = (0, 0);
    // Each area goes with its own length, no two overlap, and nothing else is asked.
    let answer = unsafe {
        let (samples_n, marks_n) = (samples.len(), marks.len());
        let (samples, marks) = (samples.as_mut_ptr(), marks.as_mut_ptr());
        cathar_read_wav(file.as_ptr(), file.len(), samples, samples_n, marks, marks_n, &mut n, &mut rate)
    };
    println!("{call} answer {answer}, {n} samples, {rate} a second");
    (n, rate)
}

/// Writes samples as a file. The answer, and what is told with it.
fn write(samples: &[u32], rate: u32, out: &mut [u8]) -> (u32, usize) {
    let mut value = 0;
    // As above.
    let answer =
        unsafe { cathar_write_wav(samples.as_ptr(), samples.len(), rate, out.as_mut_ptr(), out.len(), &mut value) };
    (answer, value)
}

/// Opens a recording of these samples and marks, and repairs the gap of 2 samples from place 4 on. One count is enough
/// for up to 256 samples, 38 journal words for one repair of 12, and 216 doubles for this gap.
#[rustfmt::skip]
fn repair(samples: &mut [u32], marks: &mut [u8]) {
    let (mut counts, mut journal, mut used) = ([0; 1], [0; 38], 0);
    let (mut work, mut value, mut order) = ([0.0; 216], 0, 0);
    // Open raw samples, and once: a second opening would mark made samples as measured. As above for what is unsafe.
    let answer = unsafe {
        cathar_open(samples.as_ptr(), samples.len(), marks.as_mut_ptr(), marks.len(),
                    counts.as_mut_ptr(), counts.len(), journal.as_mut_ptr(), journal.len(), &mut used)
    };
    assert_eq!(answer, 0, "the recording is opened");
    // As above.
    let answer = unsafe {
        cathar_inpaint_gap(samples.as_mut_ptr(), samples.len(), marks.as_mut_ptr(), marks.len(),
                           counts.as_mut_ptr(), counts.len(), journal.as_mut_ptr(), journal.len(), &mut used,
                           4, 2, 1, work.as_mut_ptr(), work.len(), &mut value, &mut order)
    };
    println!("gap:     answer {answer}, value {value}");
}

/// Prints the values of 16 bits that end a file.
fn show_values(file: &[u8]) {
    let values = file[file.len() - 24..].chunks(2).map(|two| i16::from_le_bytes([two[0], two[1]]).to_string());
    println!("{}", values.collect::<Vec<String>>().join(" "));
}

fn main() {
    // A tone, of which two samples are lost. The room for samples and marks is longer than needed.
    let sound = [0i16, 11585, 16384, 11585, 0, 0, -16384, -11585, 0, 11585, 16384, 11585];
    let mut file = HEAD.to_vec();
    file.extend(sound.iter().flat_map(|value| value.to_le_bytes()));
    let (mut samples, mut marks, mut out) = ([0; 16], [0; 16], [0; 68]);
    let (n, rate) = read("read:   ", &file, &mut samples, &mut marks);
    show_values(&file);

    repair(&mut samples[..n], &mut marks[..n]);
    let made = (0..n).filter(|place| marks[*place] != 0);
    let made = made.map(|place| format!("{place}:{:08x}:{:x}", samples[place], marks[place]));
    println!("{}", made.collect::<Vec<String>>().join(" "));

    let (answer, bytes) = write(&samples[..n], rate, &mut out);
    println!("written: answer {answer}, {bytes} bytes");
    show_values(&out);

    // Of another kind of file nothing is read.
    file[CHANNELS] = 2;
    read("stereo: ", &file, &mut samples, &mut marks);

    // The pattern of a NaN is no sample that can be written.
    samples[3] = 0x7fc0_0000;
    let (answer, place) = write(&samples[..12], 8_000, &mut out);
    println!("a NaN:   answer {answer}, value {place}");
}
