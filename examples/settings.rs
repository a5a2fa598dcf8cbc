//! Keeps a recorder's settings in a stored block from Rust, reads that of an older recorder, and scans a recording by
//! each. On x86-64, from the repository's root, with the library that `./staticlib` proves and builds:
//!
//!     rustc -L target/staticlib examples/settings.rs -o settings
//!     ./settings
//!
//! It prints what `settings.c` prints, and is explained there. (`host/src/cathar.rs` has a safe function for each
//! of the library's.)
//!
//!     written:    answer 0, 120 bytes: 00000002 00000007 .. 00000004
//!     read:       answer 0, 3f7ae148 40c00000 3f000000 00000010 3f800000 0000bb80 00000004
//!     by v1:      answer 17, 00000000 00000000 00000000 00000000 00000000 00000000
//!     older:      answer 0, 104 bytes: 00000001 00000006 .. 0000bb80
//!     older:      answer 0, 3f7ae148 40c00000 3f000000 00000010 3f800000 0000bb80 00000010
//!     scan at 16: answer 0, qualified 0, repaired 0:
//!     scan at  4: answer 0, qualified 1, repaired 1: 3:3cf85bd9:1 4:bc435bfd:1 5:bcd5106c:1

// As in include/cathar.h, which says what each does.
#[rustfmt::skip]
#[link(name = "cathar", kind = "static")]
extern "C" {
    fn cathar_read_settings(block: *const u8, block_n: usize, settings: *mut u32, settings_n: usize) -> u32;
    fn cathar_read_settings_v1(block: *const u8, block_n: usize, settings: *mut u32, settings_n: usize) -> u32;
    fn cathar_write_settings(settings: *const u32, settings_n: usize, block: *mut u8, block_n: usize) -> u32;
    fn cathar_write_settings_v1(settings: *const u32, settings_n: usize, block: *mut u8, block_n: usize) -> u32;
    fn cathar_open(samples: *const u32, n: usize, marks: *mut u8, marks_n: usize,
                   counts: *mut u16, counts_n: usize, journal: *mut u32, journal_n: usize, used: *mut usize) -> u32;
    fn cathar_inpaint_auto(samples: *mut u32, n: usize, marks: *mut u8, marks_n: usize,
                           counts: *mut u16, counts_n: usize, journal: *mut u32, journal_n: usize, used: *mut usize,
                           rate: u32, max_gap_ms: f32, held_run: u32,
                           work: *mut f64, work_n: usize, orders: *mut u32, orders_n: usize,
                           qualified: *mut usize, repaired: *mut usize) -> u32;
}

/// The four calls have the same form: what is read and what is written, each with its length.
type Reader = unsafe extern "C" fn(*const u8, usize, *mut u32, usize) -> u32;
type Writer = unsafe extern "C" fn(*const u32, usize, *mut u8, usize) -> u32;

/// A reader reads the block into settings. The answer.
fn read(by: Reader, block: &[u8], settings: &mut [u32]) -> u32 {
    // Each area goes with its own length, the two do not overlap, and nothing else is asked.
    unsafe { by(block.as_ptr(), block.len(), settings.as_mut_ptr(), settings.len()) }
}

/// A writer writes the settings into the block. The answer.
fn write(by: Writer, settings: &[u32], block: &mut [u8]) -> u32 {
    // As above.
    unsafe { by(settings.as_ptr(), settings.len(), block.as_mut_ptr(), block.len()) }
}

/// Prints the answer, and of a block its length, first two words and last one.
fn show_block(call: &str, answer: u32, block: &[u8]) {
    let word = |at: usize| u32::from_le_bytes([block[at], block[at + 1], block[at + 2], block[at + 3]]);
    let last = block.len() - 4;
    println!("{call} answer {answer}, {} bytes: {:08x} {:08x} .. {:08x}", block.len(), word(0), word(4), word(last));
}

/// Prints the answer, and the settings.
fn show_settings(call: &str, answer: u32, settings: &[u32]) {
    let words: String = settings.iter().map(|word| format!(" {word:08x}")).collect();
    println!("{call} answer {answer},{words}");
}

/// A recording of 10 samples. One count is enough for up to 256 samples, 33 journal words for one scan at a held run of
/// 4, and 502 doubles for any gap.
struct Recording {
    samples: [u32; 10],
    marks: [u8; 10],
    counts: [u16; 1],
    journal: [u32; 33],
    used: usize,
}

impl Recording {
    /// Scans by these settings, and prints what was found and what is left.
    #[rustfmt::skip]
    fn scan(&mut self, settings: &[u32; 7]) {
        let [.., max_gap_ms, rate, held_run] = *settings;
        let (mut work, mut orders, mut qualified, mut repaired) = ([0.0; 502], [0; 10], 0, 0);
        // As above.
        let answer = unsafe {
            cathar_inpaint_auto(self.samples.as_mut_ptr(), self.samples.len(),
                                self.marks.as_mut_ptr(), self.marks.len(),
                                self.counts.as_mut_ptr(), self.counts.len(),
                                self.journal.as_mut_ptr(), self.journal.len(), &mut self.used,
                                rate, f32::from_bits(max_gap_ms), held_run, work.as_mut_ptr(), work.len(),
                                orders.as_mut_ptr(), orders.len(), &mut qualified, &mut repaired)
        };
        print!("scan at {held_run:2}: answer {answer}, qualified {qualified}, repaired {repaired}:");
        for place in (0..self.samples.len()).filter(|place| self.marks[*place] != 0) {
            print!(" {place}:{:08x}:{:x}", self.samples[place], self.marks[place]);
        }
        println!();
    }
}

#[rustfmt::skip]
fn main() {
    let float = f32::to_bits;
    let settings = [float(0.98), float(6.0), float(0.5), 16, float(1.0), 48_000, 4];
    let (mut ours, mut older, mut none) = ([0; 7], [0; 7], [0; 6]);
    let (mut block, mut older_block) = ([0; 120], [0; 104]);

    // The settings go into a block, and come back from it. The version 1 reader does not know it.
    let answer = write(cathar_write_settings, &settings, &mut block);
    show_block("written:   ", answer, &block);
    let answer = read(cathar_read_settings, &block, &mut ours);
    show_settings("read:      ", answer, &ours);
    let answer = read(cathar_read_settings_v1, &block, &mut none);
    show_settings("by v1:     ", answer, &none);

    // The older recorder had the same settings, as far as it knew them.
    let answer = write(cathar_write_settings_v1, &settings[..6], &mut older_block);
    show_block("older:     ", answer, &older_block);
    let answer = read(cathar_read_settings, &older_block, &mut older);
    show_settings("older:     ", answer, &older);

    let samples = [0.5f32, -0.25, 0.125, 0.125, 0.125, 0.125, -0.5, 0.75, 0.25, -0.125].map(f32::to_bits);
    let mut of = Recording { samples, marks: [0; 10], counts: [0], journal: [0; 33], used: 0 };
    // Open raw samples, and once: a second opening would mark made samples as measured. As above for what is unsafe.
    let answer = unsafe {
        cathar_open(of.samples.as_ptr(), of.samples.len(), of.marks.as_mut_ptr(), of.marks.len(),
                    of.counts.as_mut_ptr(), of.counts.len(), of.journal.as_mut_ptr(), of.journal.len(), &mut of.used)
    };
    assert_eq!(answer, 0, "the recording is opened");
    of.scan(&older);
    of.scan(&ours);
}
