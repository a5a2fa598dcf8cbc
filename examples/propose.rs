//! Proposes samples for a clipped top from Rust, and takes them back. On x86-64, from the repository's root, with the
//! library that `./staticlib` proves and builds:
//!
//!     rustc -L target/staticlib examples/propose.rs -o propose
//!     ./propose
//!
//! It prints what `propose.c` prints, and is explained there. (`host/src/cathar.rs` has a safe function for each
//! of the library's.)
//!
//!     open:  answer 0, value 0, 00000000:0 3f200000:0 3f800000:0 3f800000:0 3f800000:0 3f200000:0 00000000:0
//!     taken: answer 0, value 3, 00000000:0 3f200000:0 3f800000:8 3f880000:8 3f800000:8 3f200000:0 00000000:0
//!     other: answer 15, value 1, 00000000:0 3f200000:0 3f800000:8 3f880000:8 3f800000:8 3f200000:0 00000000:0
//!     changed by the other: nothing
//!     undo:  answer 0, value 3, 00000000:0 3f200000:0 3f800000:0 3f800000:0 3f800000:0 3f200000:0 00000000:0

// As in include/cathar.h, which says what each does.
#[rustfmt::skip]
#[link(name = "cathar", kind = "static")]
extern "C" {
    fn cathar_open(samples: *const u32, n: usize, marks: *mut u8, marks_n: usize,
                   counts: *mut u16, counts_n: usize, journal: *mut u32, journal_n: usize, used: *mut usize) -> u32;
    fn cathar_declip_proposed(samples: *mut u32, n: usize, marks: *mut u8, marks_n: usize,
                              counts: *mut u16, counts_n: usize, journal: *mut u32, journal_n: usize,
                              used: *mut usize, threshold: f32,
                              proposal: *const u32, proposal_n: usize, value: *mut usize) -> u32;
    fn cathar_undo(samples: *mut u32, n: usize, marks: *mut u8, marks_n: usize,
                   counts: *mut u16, counts_n: usize, journal: *mut u32, journal_n: usize, used: *mut usize,
                   value: *mut usize) -> u32;
}

/// Where the samples were cut off.
const THRESHOLD: f32 = 1.0;

/// A recording of 7 samples. One count is enough for up to 256 samples, and 23 journal words for one repair, whatever
/// it names.
struct Recording {
    samples: [u32; 7],
    marks: [u8; 7],
    counts: [u16; 1],
    journal: [u32; 23],
    used: usize,
}

impl Recording {
    /// Hands a proposal over. The answer, and the value.
    #[rustfmt::skip]
    fn take(&mut self, proposal: &[u32]) -> (u32, usize) {
        let mut value = 0;
        // Each area goes with its own length, no two overlap, and nothing else is asked. The proposal is only read.
        let answer = unsafe {
            cathar_declip_proposed(self.samples.as_mut_ptr(), self.samples.len(),
                                   self.marks.as_mut_ptr(), self.marks.len(),
                                   self.counts.as_mut_ptr(), self.counts.len(),
                                   self.journal.as_mut_ptr(), self.journal.len(), &mut self.used, THRESHOLD,
                                   proposal.as_ptr(), proposal.len(), &mut value)
        };
        (answer, value)
    }

    /// Prints what a call gave, and what it left.
    fn show(&self, call: &str, (answer, value): (u32, usize)) {
        print!("{call} answer {answer}, value {value},");
        for (word, mark) in self.samples.iter().zip(&self.marks) {
            print!(" {word:08x}:{mark:x}");
        }
        println!();
    }
}

/// Proposes for each sample at the threshold or above it an arch, drawn a little too low, or the threshold where that
/// is lower, and for every other its own word.
fn propose(samples: &[u32]) -> Vec<u32> {
    let candidate = |place: usize| (place * (samples.len() - 1 - place)) as f32 / 8.0 - 0.0625;
    let proposed = |(place, word): (usize, &u32)| match f32::from_bits(*word) >= THRESHOLD {
        true => candidate(place).max(THRESHOLD).to_bits(),
        false => *word,
    };
    samples.iter().enumerate().map(proposed).collect()
}

#[rustfmt::skip]
fn main() {
    // Each word is a float's pattern, as f32::to_bits gives it.
    let samples = [0.0f32, 0.625, 1.0, 1.0, 1.0, 0.625, 0.0].map(f32::to_bits);
    let mut of = Recording { samples, marks: [0; 7], counts: [0], journal: [0; 23], used: 0 };
    // Open raw samples, and once: a second opening would mark made samples as measured. As above for what is unsafe.
    let answer = unsafe {
        cathar_open(of.samples.as_ptr(), of.samples.len(), of.marks.as_mut_ptr(), of.marks.len(),
                    of.counts.as_mut_ptr(), of.counts.len(), of.journal.as_mut_ptr(), of.journal.len(), &mut of.used)
    };
    of.show("open: ", (answer, 0));

    let proposal = propose(&of.samples);
    let told = of.take(&proposal);
    of.show("taken:", told);

    // The other has another word for a sample under the threshold. A refusal leaves everything as it is.
    let before = of.samples;
    let mut proposal = propose(&of.samples);
    proposal[1] = 0.6875f32.to_bits();
    let told = of.take(&proposal);
    of.show("other:", told);
    println!("changed by the other: {}", if of.samples == before { "nothing" } else { "samples" });

    let mut value = 0;
    let answer = unsafe {
        cathar_undo(of.samples.as_mut_ptr(), of.samples.len(), of.marks.as_mut_ptr(), of.marks.len(),
                    of.counts.as_mut_ptr(), of.counts.len(), of.journal.as_mut_ptr(), of.journal.len(),
                    &mut of.used, &mut value)
    };
    of.show("undo: ", (answer, value));
}
