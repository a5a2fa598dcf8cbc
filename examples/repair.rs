//! Repairs a recording of six samples from Rust, and takes the repair back. On x86-64, from the repository's root,
//! with the library that `./staticlib` proves and builds:
//!
//!     rustc -L target/staticlib examples/repair.rs -o repair
//!     ./repair
//!
//! It prints what `repair.c` prints, and is explained there. (`host/src/cathar.rs` has a safe function for each
//! of the library's.)
//!
//!     open: answer 0, value 0, 30800000:0 30800000:0 00000000:0 00000000:0 30800000:0 30800000:0
//!     all measured: yes, the first two: yes
//!     gap:  answer 0, value 2, 30800000:0 30800000:0 80000000:1 00000000:1 30800000:0 30800000:0
//!     all measured: no, the first two: yes
//!     order of the model: 0 of 32
//!     undo: answer 0, value 2, 30800000:0 30800000:0 00000000:0 00000000:0 30800000:0 30800000:0
//!     all measured: yes, the first two: yes

// As in include/cathar.h, which says what each does.
#[rustfmt::skip]
#[link(name = "cathar", kind = "static")]
extern "C" {
    fn cathar_open(samples: *const u32, n: usize, marks: *mut u8, marks_n: usize,
                   counts: *mut u16, counts_n: usize, journal: *mut u32, journal_n: usize, used: *mut usize) -> u32;
    fn cathar_inpaint_gap(samples: *mut u32, n: usize, marks: *mut u8, marks_n: usize,
                          counts: *mut u16, counts_n: usize, journal: *mut u32, journal_n: usize, used: *mut usize,
                          start: usize, len: usize, passes: u32,
                          work: *mut f64, work_n: usize, value: *mut usize, order: *mut u32) -> u32;
    fn cathar_undo(samples: *mut u32, n: usize, marks: *mut u8, marks_n: usize,
                   counts: *mut u16, counts_n: usize, journal: *mut u32, journal_n: usize, used: *mut usize,
                   value: *mut usize) -> u32;
    fn cathar_measured(marks: *const u8, n: usize, counts: *const u16, counts_n: usize,
                       start: usize, len: usize, yes: *mut u32) -> u32;
}

/// Whether the samples of a span are all measured. It is asked of marks and counts that these calls alone wrote.
fn measured(marks: &[u8], counts: &[u16], start: usize, len: usize) -> &'static str {
    let mut yes = 0;
    // Each area goes with its own length, and nothing is written but `yes`.
    let answer =
        unsafe { cathar_measured(marks.as_ptr(), marks.len(), counts.as_ptr(), counts.len(), start, len, &mut yes) };
    match (answer, yes) {
        (0, 1) => "yes",
        (0, _) => "no",
        _ => "refused",
    }
}

/// Prints what a call gave, and what it left.
fn show(call: &str, answer: u32, value: usize, samples: &[u32], marks: &[u8], counts: &[u16]) {
    print!("{call} answer {answer}, value {value},");
    for (word, mark) in samples.iter().zip(marks) {
        print!(" {word:08x}:{mark:x}");
    }
    let (all, two) = (measured(marks, counts, 0, marks.len()), measured(marks, counts, 0, 2));
    println!("\nall measured: {all}, the first two: {two}");
}

#[rustfmt::skip]
fn main() {
    // Each word is a float's pattern, as f32::to_bits gives it.
    let mut samples = [0x30800000, 0x30800000, 0, 0, 0x30800000, 0x30800000];
    // One count is enough for up to 256 samples; 20 journal words are for one repair, whatever it names, and 210
    // doubles for this gap.
    let (mut marks, mut counts, mut journal, mut work) = ([0; 6], [0; 1], [0; 20], [0.0; 210]);
    let (mut used, mut value, mut order) = (0, 0, 0);
    // Open raw samples, and once: a second opening would mark made samples as measured.
    // All that is unsafe: each area goes with its own length, no two overlap, and nothing else is asked.
    unsafe {
        let answer = cathar_open(samples.as_ptr(), samples.len(), marks.as_mut_ptr(), marks.len(),
                                 counts.as_mut_ptr(), counts.len(), journal.as_mut_ptr(), journal.len(), &mut used);
        show("open:", answer, value, &samples, &marks, &counts);
        let answer = cathar_inpaint_gap(samples.as_mut_ptr(), samples.len(), marks.as_mut_ptr(), marks.len(),
                                        counts.as_mut_ptr(), counts.len(), journal.as_mut_ptr(), journal.len(),
                                        &mut used, 2, 2, 1, work.as_mut_ptr(), work.len(), &mut value, &mut order);
        show("gap: ", answer, value, &samples, &marks, &counts);
        println!("order of the model: {order} of 32");
        let answer = cathar_undo(samples.as_mut_ptr(), samples.len(), marks.as_mut_ptr(), marks.len(),
                                 counts.as_mut_ptr(), counts.len(), journal.as_mut_ptr(), journal.len(),
                                 &mut used, &mut value);
        show("undo:", answer, value, &samples, &marks, &counts);
    }
}
