//! Repairs three gaps in one call from Rust, of which one is refused, and takes the last one back. On x86-64, from the
//! repository's root, with the library that `./staticlib` proves and builds:
//!
//!     rustc -L target/staticlib examples/gaps.rs -o gaps
//!     ./gaps
//!
//! It prints what `gaps.c` prints, and is explained there. (`host/src/cathar.rs` has a safe function for each of the
//! library's.)
//!
//!     open: 3f800000:0 3f800000:0 00000000:0 3f800000:0 3f800000:0 00000000:0 00000000:0 3f800000:0, used 0
//!     gap of 1 from 2 on: answer 0, value 1, order 32
//!     gap of 2 from 7 on: answer 5, value 0, order 0
//!     gap of 2 from 5 on: answer 0, value 2, order 32
//!     gaps: 3f800000:0 3f800000:0 3d23a03a:1 3f800000:0 3f800000:0 3dd0df31:1 3e4a0c9d:1 3f800000:0, used 13
//!     undo: 3f800000:0 3f800000:0 3d23a03a:1 3f800000:0 3f800000:0 00000000:0 00000000:0 3f800000:0, used 5

// As in include/cathar.h, which says what each does.
#[rustfmt::skip]
#[link(name = "cathar", kind = "static")]
extern "C" {
    fn cathar_open(samples: *const u32, n: usize, marks: *mut u8, marks_n: usize,
                   counts: *mut u16, counts_n: usize, journal: *mut u32, journal_n: usize, used: *mut usize) -> u32;
    fn cathar_inpaint_gaps(samples: *mut u32, n: usize, marks: *mut u8, marks_n: usize,
                           counts: *mut u16, counts_n: usize, journal: *mut u32, journal_n: usize, used: *mut usize,
                           starts: *const usize, starts_n: usize, lens: *const usize, lens_n: usize, passes: u32,
                           work: *mut f64, work_n: usize, numbers: *mut u32, numbers_n: usize,
                           values: *mut usize, values_n: usize, orders: *mut u32, orders_n: usize) -> u32;
    fn cathar_undo(samples: *mut u32, n: usize, marks: *mut u8, marks_n: usize,
                   counts: *mut u16, counts_n: usize, journal: *mut u32, journal_n: usize, used: *mut usize,
                   value: *mut usize) -> u32;
}

/// Prints each sample's word and mark, and how many journal words are taken.
fn show(when: &str, samples: &[u32], marks: &[u8], used: usize) {
    print!("{when}");
    for (word, mark) in samples.iter().zip(marks) {
        print!(" {word:08x}:{mark:x}");
    }
    println!(", used {used}");
}

#[rustfmt::skip]
fn main() {
    // Each word is a float's pattern, as f32::to_bits gives it.
    let one = 0x3f800000;
    let mut samples = [one, one, 0, one, one, 0, 0, one];
    // One count is enough for up to 256 samples; 78 journal words are for three repairs, whatever they name, and 212
    // doubles for any gap of up to 2 samples.
    let (mut marks, mut counts, mut journal, mut work) = ([0; 8], [0; 1], [0; 78], [0.0; 212]);
    let (mut used, mut value) = (0, 0);
    // The sample at 2; two from 7 on, where there is only one; and the two from 5 on.
    let (starts, lens) = ([2, 7, 5], [1, 2, 2]);
    let (mut numbers, mut values, mut orders) = ([0; 3], [0; 3], [0; 3]);
    // All that is unsafe: each area goes with its own length, no two overlap, and nothing else is asked.
    unsafe {
        let answer = cathar_open(samples.as_ptr(), samples.len(), marks.as_mut_ptr(), marks.len(),
                                 counts.as_mut_ptr(), counts.len(), journal.as_mut_ptr(), journal.len(), &mut used);
        assert_eq!(answer, 0);
        show("open:", &samples, &marks, used);
        // The call is accepted whatever becomes of the gaps: each has an answer of its own in its own place.
        let answer = cathar_inpaint_gaps(samples.as_mut_ptr(), samples.len(), marks.as_mut_ptr(), marks.len(),
                                         counts.as_mut_ptr(), counts.len(), journal.as_mut_ptr(), journal.len(),
                                         &mut used, starts.as_ptr(), starts.len(), lens.as_ptr(), lens.len(), 1,
                                         work.as_mut_ptr(), work.len(), numbers.as_mut_ptr(), numbers.len(),
                                         values.as_mut_ptr(), values.len(), orders.as_mut_ptr(), orders.len());
        assert_eq!(answer, 0);
        for k in 0..starts.len() {
            println!("gap of {} from {} on: answer {}, value {}, order {}", lens[k], starts[k], numbers[k], values[k],
                     orders[k]);
        }
        show("gaps:", &samples, &marks, used);
        let answer = cathar_undo(samples.as_mut_ptr(), samples.len(), marks.as_mut_ptr(), marks.len(),
                                 counts.as_mut_ptr(), counts.len(), journal.as_mut_ptr(), journal.len(),
                                 &mut used, &mut value);
        assert_eq!(answer, 0);
        show("undo:", &samples, &marks, used);
    }
}
