//! Flags crackle from Rust while the sound arrives, in pieces of 480 samples. On x86-64, from the repository's root,
//! with the library that `./staticlib` proves and builds:
//!
//!     rustc -L target/staticlib examples/crackle.rs -o crackle
//!     ./crackle
//!
//! It prints what `crackle.c` prints, and is explained there. (`host/src/cathar.rs` has a safe function for each of the
//! library's.)
//!
//!     piece of 480 from 0 on: 0 flags from 0 on, flagged none
//!     piece of 480 from 480 on: 0 flags from 0 on, flagged none
//!     piece of 480 from 960 on: 1439 flags from 0 on, flagged 299 300 301 958 959 960
//!     piece of 480 from 1440 on: 480 flags from 1439 on, flagged 1699 1700 1701
//!     piece of 80 from 1920 on: 80 flags from 1919 on, flagged none
//!     end: 1 flag from 1999 on, flagged none
//!     piece of 0 after the end: answer 13
//!     old start, piece of 480 from 0 on: 479 flags, 140 of them set

// As in include/cathar.h, which says what each does.
#[rustfmt::skip]
#[link(name = "cathar", kind = "static")]
extern "C" {
    fn cathar_crackle_begin(total: usize, sensitivity: f32, state: *mut u32, state_n: usize) -> u32;
    fn cathar_crackle_begin_old_start(total: usize, sensitivity: f32, state: *mut u32, state_n: usize) -> u32;
    fn cathar_crackle_piece(state: *mut u32, state_n: usize, piece: *const u32, piece_n: usize,
                            flags: *mut u8, flags_n: usize, value: *mut usize) -> u32;
    fn cathar_crackle_end(state: *mut u32, state_n: usize, flags: *mut u8, flags_n: usize, value: *mut usize) -> u32;
}

const TOTAL: usize = 2000;
const PIECE: usize = 480;

/// As in include/cathar.h: over so many samples the mean is taken, and so many words are the run's between its calls.
const MEAN_OVER: usize = 1024;
const STATE: usize = 1032;

/// The sample at this place, as its word: arches of 400 samples, up and down in turn, and the clicks.
fn sample(place: usize) -> u32 {
    let within = (place % 400) as i32;
    let arch = within * (400 - within);
    let hum = if place / 400 % 2 == 0 { arch } else { -arch };
    let click = if [300, 959, 1700].contains(&place) { 16384 } else { 0 };
    ((hum + click) as f32 / 16384.0).to_bits()
}

/// Prints how many flags came, from this sample on, and which samples are flagged.
fn show(flags: &[u8], from: usize) {
    let places: Vec<String> = (0..flags.len()).filter(|i| flags[*i] != 0).map(|i| (from + i).to_string()).collect();
    let flagged = if places.is_empty() { String::from("none") } else { places.join(" ") };
    println!("{} flag{} from {from} on, flagged {flagged}", flags.len(), if flags.len() == 1 { "" } else { "s" });
}

#[rustfmt::skip]
fn main() {
    // Room for as many flags as a piece has samples, and as can be held back before it, is always enough.
    let (mut state, mut flags) = ([0; STATE], [0; PIECE + MEAN_OVER - 1]);
    let (mut value, mut given) = (0, 0);
    let samples: Vec<u32> = (0..TOTAL).map(sample).collect();
    // All that is unsafe: each area goes with its own length, no two overlap, and nothing else is asked.
    unsafe {
        let answer = cathar_crackle_begin(TOTAL, 5.0, state.as_mut_ptr(), state.len());
        assert_eq!(answer, 0);
        for (k, piece) in samples.chunks(PIECE).enumerate() {
            let answer = cathar_crackle_piece(state.as_mut_ptr(), state.len(), piece.as_ptr(), piece.len(),
                                              flags.as_mut_ptr(), flags.len(), &mut value);
            assert_eq!(answer, 0);
            print!("piece of {} from {} on: ", piece.len(), k * PIECE);
            show(&flags[..value], given);
            given += value;
        }
        let answer = cathar_crackle_end(state.as_mut_ptr(), state.len(), flags.as_mut_ptr(), flags.len(), &mut value);
        assert_eq!(answer, 0);
        print!("end: ");
        show(&flags[..value], given);

        let answer = cathar_crackle_piece(state.as_mut_ptr(), state.len(), samples.as_ptr(), 0,
                                          flags.as_mut_ptr(), flags.len(), &mut value);
        println!("piece of 0 after the end: answer {answer}");

        let answer = cathar_crackle_begin_old_start(TOTAL, 5.0, state.as_mut_ptr(), state.len());
        assert_eq!(answer, 0);
        let answer = cathar_crackle_piece(state.as_mut_ptr(), state.len(), samples.as_ptr(), PIECE,
                                          flags.as_mut_ptr(), flags.len(), &mut value);
        assert_eq!(answer, 0);
        let set = flags[..value].iter().filter(|flag| **flag == 1).count();
        println!("old start, piece of {PIECE} from 0 on: {value} flags, {set} of them set");
    }
}
