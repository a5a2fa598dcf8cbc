//! The functions of `libcathar.a`, each behind a safe one of the same name without the prefix.
//! The linker does not check the declarations here: a test holds them, and `include/cathar.h`, to the text of the exports.

mod exports {
    extern "C" {
        pub fn cathar_sqrt(x: f64) -> f64;
        pub fn cathar_narrow(x: f64) -> f32;
        pub fn cathar_round(x: f32) -> f32;
        pub fn cathar_read_frames(
            frames: *const u8,
            frames_n: usize,
            samples: *mut u32,
            samples_n: usize,
            marks: *mut u8,
            marks_n: usize,
            n: *mut usize,
            missing: *mut usize,
            dropped: *mut usize,
        ) -> u32;
        pub fn cathar_open(
            samples: *const u32,
            n: usize,
            marks: *mut u8,
            marks_n: usize,
            counts: *mut u16,
            counts_n: usize,
            journal: *mut u32,
            journal_n: usize,
            used: *mut usize,
        ) -> u32;
        pub fn cathar_open_received(
            samples: *const u32,
            n: usize,
            marks: *mut u8,
            marks_n: usize,
            counts: *mut u16,
            counts_n: usize,
            journal: *mut u32,
            journal_n: usize,
            used: *mut usize,
        ) -> u32;
        pub fn cathar_undo(
            samples: *mut u32,
            n: usize,
            marks: *mut u8,
            marks_n: usize,
            counts: *mut u16,
            counts_n: usize,
            journal: *mut u32,
            journal_n: usize,
            used: *mut usize,
            value: *mut usize,
        ) -> u32;
        pub fn cathar_measured(
            marks: *const u8,
            n: usize,
            counts: *const u16,
            counts_n: usize,
            start: usize,
            len: usize,
            yes: *mut u32,
        ) -> u32;
        pub fn cathar_inpaint_gap(
            samples: *mut u32,
            n: usize,
            marks: *mut u8,
            marks_n: usize,
            counts: *mut u16,
            counts_n: usize,
            journal: *mut u32,
            journal_n: usize,
            used: *mut usize,
            start: usize,
            len: usize,
            passes: u32,
            work: *mut f64,
            work_n: usize,
            value: *mut usize,
            order: *mut u32,
        ) -> u32;
        pub fn cathar_inpaint_gaps(
            samples: *mut u32,
            n: usize,
            marks: *mut u8,
            marks_n: usize,
            counts: *mut u16,
            counts_n: usize,
            journal: *mut u32,
            journal_n: usize,
            used: *mut usize,
            starts: *const usize,
            starts_n: usize,
            lens: *const usize,
            lens_n: usize,
            passes: u32,
            work: *mut f64,
            work_n: usize,
            numbers: *mut u32,
            numbers_n: usize,
            values: *mut usize,
            values_n: usize,
            orders: *mut u32,
            orders_n: usize,
        ) -> u32;
        pub fn cathar_inpaint_auto(
            samples: *mut u32,
            n: usize,
            marks: *mut u8,
            marks_n: usize,
            counts: *mut u16,
            counts_n: usize,
            journal: *mut u32,
            journal_n: usize,
            used: *mut usize,
            rate: u32,
            max_gap_ms: f32,
            held_run: u32,
            work: *mut f64,
            work_n: usize,
            orders: *mut u32,
            orders_n: usize,
            qualified: *mut usize,
            repaired: *mut usize,
        ) -> u32;
        pub fn cathar_declip(
            samples: *mut u32,
            n: usize,
            marks: *mut u8,
            marks_n: usize,
            counts: *mut u16,
            counts_n: usize,
            journal: *mut u32,
            journal_n: usize,
            used: *mut usize,
            threshold: f32,
            work: *mut u32,
            work_n: usize,
            value: *mut usize,
        ) -> u32;
        pub fn cathar_decrackle(
            samples: *mut u32,
            n: usize,
            marks: *mut u8,
            marks_n: usize,
            counts: *mut u16,
            counts_n: usize,
            journal: *mut u32,
            journal_n: usize,
            used: *mut usize,
            sensitivity: f32,
            work: *mut u32,
            work_n: usize,
            value: *mut usize,
        ) -> u32;
        pub fn cathar_decrackle_old_start(
            samples: *mut u32,
            n: usize,
            marks: *mut u8,
            marks_n: usize,
            counts: *mut u16,
            counts_n: usize,
            journal: *mut u32,
            journal_n: usize,
            used: *mut usize,
            sensitivity: f32,
            work: *mut u32,
            work_n: usize,
            value: *mut usize,
        ) -> u32;
        pub fn cathar_dequantize(
            samples: *mut u32,
            n: usize,
            marks: *mut u8,
            marks_n: usize,
            counts: *mut u16,
            counts_n: usize,
            journal: *mut u32,
            journal_n: usize,
            used: *mut usize,
            bits: u32,
            strength: f32,
            work: *mut u32,
            work_n: usize,
            value: *mut usize,
        ) -> u32;
        pub fn cathar_dequantize_cosparse(
            samples: *mut u32,
            n: usize,
            marks: *mut u8,
            marks_n: usize,
            counts: *mut u16,
            counts_n: usize,
            journal: *mut u32,
            journal_n: usize,
            used: *mut usize,
            bits: u32,
            strength: f32,
            iterations: u32,
            work: *mut u32,
            work_n: usize,
            value: *mut usize,
        ) -> u32;
        pub fn cathar_declip_proposed(
            samples: *mut u32,
            n: usize,
            marks: *mut u8,
            marks_n: usize,
            counts: *mut u16,
            counts_n: usize,
            journal: *mut u32,
            journal_n: usize,
            used: *mut usize,
            threshold: f32,
            proposal: *const u32,
            proposal_n: usize,
            value: *mut usize,
        ) -> u32;
        pub fn cathar_crackle_begin(total: usize, sensitivity: f32, state: *mut u32, state_n: usize) -> u32;
        pub fn cathar_crackle_begin_old_start(total: usize, sensitivity: f32, state: *mut u32, state_n: usize) -> u32;
        pub fn cathar_crackle_piece(
            state: *mut u32,
            state_n: usize,
            piece: *const u32,
            piece_n: usize,
            flags: *mut u8,
            flags_n: usize,
            value: *mut usize,
        ) -> u32;
        pub fn cathar_crackle_end(
            state: *mut u32,
            state_n: usize,
            flags: *mut u8,
            flags_n: usize,
            value: *mut usize,
        ) -> u32;
        pub fn cathar_read_settings(block: *const u8, block_n: usize, settings: *mut u32, settings_n: usize) -> u32;
        pub fn cathar_read_settings_v1(block: *const u8, block_n: usize, settings: *mut u32, settings_n: usize) -> u32;
        pub fn cathar_write_settings(settings: *const u32, settings_n: usize, block: *mut u8, block_n: usize) -> u32;
        pub fn cathar_write_settings_v1(settings: *const u32, settings_n: usize, block: *mut u8, block_n: usize)
            -> u32;
        pub fn cathar_read_wav(
            file: *const u8,
            file_n: usize,
            samples: *mut u32,
            samples_n: usize,
            marks: *mut u8,
            marks_n: usize,
            n: *mut usize,
            rate: *mut u32,
        ) -> u32;
        pub fn cathar_write_wav(
            samples: *const u32,
            n: usize,
            rate: u32,
            out: *mut u8,
            out_n: usize,
            value: *mut usize,
        ) -> u32;
    }
}

/// The square root of x, correctly rounded.
pub fn sqrt(x: f64) -> f64 {
    // Numbers go in and out by value, and the function is total.
    unsafe { exports::cathar_sqrt(x) }
}

/// The f32 nearest to x, ties to even.
pub fn narrow(x: f64) -> f32 {
    // As above.
    unsafe { exports::cathar_narrow(x) }
}

/// x to the nearest whole number, halves away from zero.
pub fn round(x: f32) -> f32 {
    // As above.
    unsafe { exports::cathar_round(x) }
}

/// Reads frames into samples and marks. Answers 0, with how many samples there are in `n`, how many frames are missing
/// in `missing` and how many were dropped in `dropped`, or the number of the refusal, with 0 in each.
pub fn read_frames(
    frames: &[u8],
    samples: &mut [u32],
    marks: &mut [u8],
    n: &mut usize,
    missing: &mut usize,
    dropped: &mut usize,
) -> u32 {
    // Each slice goes as its pointer and its own length, the references hold for the whole call and keep
    // what is written apart from all else, and the function is total.
    unsafe {
        exports::cathar_read_frames(
            frames.as_ptr(),
            frames.len(),
            samples.as_mut_ptr(),
            samples.len(),
            marks.as_mut_ptr(),
            marks.len(),
            n,
            missing,
            dropped,
        )
    }
}

/// Opens a recording. Answers 0, or the number of the refusal.
pub fn open(samples: &[u32], marks: &mut [u8], counts: &mut [u16], journal: &mut [u32], used: &mut usize) -> u32 {
    // As above.
    unsafe {
        exports::cathar_open(
            samples.as_ptr(),
            samples.len(),
            marks.as_mut_ptr(),
            marks.len(),
            counts.as_mut_ptr(),
            counts.len(),
            journal.as_mut_ptr(),
            journal.len(),
            used,
        )
    }
}

/// Opens a recording that keeps which of its samples were not received. Answers as `open` does.
pub fn open_received(
    samples: &[u32],
    marks: &mut [u8],
    counts: &mut [u16],
    journal: &mut [u32],
    used: &mut usize,
) -> u32 {
    // As above.
    unsafe {
        exports::cathar_open_received(
            samples.as_ptr(),
            samples.len(),
            marks.as_mut_ptr(),
            marks.len(),
            counts.as_mut_ptr(),
            counts.len(),
            journal.as_mut_ptr(),
            journal.len(),
            used,
        )
    }
}

/// Takes back the last entry. Answers 0, with how many samples it named in `value`, or the number of the
/// refusal, with 0 there.
pub fn undo(
    samples: &mut [u32],
    marks: &mut [u8],
    counts: &mut [u16],
    journal: &mut [u32],
    used: &mut usize,
    value: &mut usize,
) -> u32 {
    // As above.
    unsafe {
        exports::cathar_undo(
            samples.as_mut_ptr(),
            samples.len(),
            marks.as_mut_ptr(),
            marks.len(),
            counts.as_mut_ptr(),
            counts.len(),
            journal.as_mut_ptr(),
            journal.len(),
            used,
            value,
        )
    }
}

/// Asks whether all samples of a span are measured. Answers 0, with 1 in `yes` where they are and 0 where not, or the
/// number of the refusal, with 0 there.
pub fn measured(marks: &[u8], counts: &[u16], start: usize, len: usize, yes: &mut u32) -> u32 {
    // As above.
    unsafe { exports::cathar_measured(marks.as_ptr(), marks.len(), counts.as_ptr(), counts.len(), start, len, yes) }
}

/// Repairs the gap of `len` samples from `start` on. Answers 0, with `len` in `value`, or the number of the
/// refusal, with the place there for 7 and 8 and 0 for the others. `order` receives the highest order that the model
/// used, and 0 for a straight line and for every refusal.
// The arguments are those of the C function.
#[allow(clippy::too_many_arguments)]
pub fn inpaint_gap(
    samples: &mut [u32],
    marks: &mut [u8],
    counts: &mut [u16],
    journal: &mut [u32],
    used: &mut usize,
    start: usize,
    len: usize,
    passes: u32,
    work: &mut [f64],
    value: &mut usize,
    order: &mut u32,
) -> u32 {
    // As above.
    unsafe {
        exports::cathar_inpaint_gap(
            samples.as_mut_ptr(),
            samples.len(),
            marks.as_mut_ptr(),
            marks.len(),
            counts.as_mut_ptr(),
            counts.len(),
            journal.as_mut_ptr(),
            journal.len(),
            used,
            start,
            len,
            passes,
            work.as_mut_ptr(),
            work.len(),
            value,
            order,
        )
    }
}

/// Repairs several gaps, one after the other: each is the samples from its place of `starts` on, as many as its place
/// of `lens` says. Answers 0, or 4 with nothing done. Each has its answer in its place: in `numbers` 0 or the number of
/// the refusal, and in `values` and `orders` what `inpaint_gap` hands back.
// The arguments are those of the C function.
#[allow(clippy::too_many_arguments)]
pub fn inpaint_gaps(
    samples: &mut [u32],
    marks: &mut [u8],
    counts: &mut [u16],
    journal: &mut [u32],
    used: &mut usize,
    starts: &[usize],
    lens: &[usize],
    passes: u32,
    work: &mut [f64],
    numbers: &mut [u32],
    values: &mut [usize],
    orders: &mut [u32],
) -> u32 {
    // As above.
    unsafe {
        exports::cathar_inpaint_gaps(
            samples.as_mut_ptr(),
            samples.len(),
            marks.as_mut_ptr(),
            marks.len(),
            counts.as_mut_ptr(),
            counts.len(),
            journal.as_mut_ptr(),
            journal.len(),
            used,
            starts.as_ptr(),
            starts.len(),
            lens.as_ptr(),
            lens.len(),
            passes,
            work.as_mut_ptr(),
            work.len(),
            numbers.as_mut_ptr(),
            numbers.len(),
            values.as_mut_ptr(),
            values.len(),
            orders.as_mut_ptr(),
            orders.len(),
        )
    }
}

/// Finds the dropouts and repairs each. Answers 0, or the number of the first refusal; `qualified` receives
/// how many runs were found, and `repaired` how many of them were repaired. `orders` receives, at each place where a
/// sample was repaired by the model, the order of that model, as far as the list goes.
// The arguments are those of the C function.
#[allow(clippy::too_many_arguments)]
pub fn inpaint_auto(
    samples: &mut [u32],
    marks: &mut [u8],
    counts: &mut [u16],
    journal: &mut [u32],
    used: &mut usize,
    rate: u32,
    max_gap_ms: f32,
    held_run: u32,
    work: &mut [f64],
    orders: &mut [u32],
    qualified: &mut usize,
    repaired: &mut usize,
) -> u32 {
    // As above.
    unsafe {
        exports::cathar_inpaint_auto(
            samples.as_mut_ptr(),
            samples.len(),
            marks.as_mut_ptr(),
            marks.len(),
            counts.as_mut_ptr(),
            counts.len(),
            journal.as_mut_ptr(),
            journal.len(),
            used,
            rate,
            max_gap_ms,
            held_run,
            work.as_mut_ptr(),
            work.len(),
            orders.as_mut_ptr(),
            orders.len(),
            qualified,
            repaired,
        )
    }
}

/// Bridges clipped runs by a cubic. Answers 0, with how many samples it named in `value`, or the number of the
/// refusal, with the place there for 7 and 8 and 0 for the others.
// The arguments are those of the C function.
#[allow(clippy::too_many_arguments)]
pub fn declip(
    samples: &mut [u32],
    marks: &mut [u8],
    counts: &mut [u16],
    journal: &mut [u32],
    used: &mut usize,
    threshold: f32,
    work: &mut [u32],
    value: &mut usize,
) -> u32 {
    // As above.
    unsafe {
        exports::cathar_declip(
            samples.as_mut_ptr(),
            samples.len(),
            marks.as_mut_ptr(),
            marks.len(),
            counts.as_mut_ptr(),
            counts.len(),
            journal.as_mut_ptr(),
            journal.len(),
            used,
            threshold,
            work.as_mut_ptr(),
            work.len(),
            value,
        )
    }
}

/// Rewrites samples that stand out from their neighbours by more than a running floor, which starts from the mean.
/// Answers as `declip` does.
// The arguments are those of the C function.
#[allow(clippy::too_many_arguments)]
pub fn decrackle(
    samples: &mut [u32],
    marks: &mut [u8],
    counts: &mut [u16],
    journal: &mut [u32],
    used: &mut usize,
    sensitivity: f32,
    work: &mut [u32],
    value: &mut usize,
) -> u32 {
    // As above.
    unsafe {
        exports::cathar_decrackle(
            samples.as_mut_ptr(),
            samples.len(),
            marks.as_mut_ptr(),
            marks.len(),
            counts.as_mut_ptr(),
            counts.len(),
            journal.as_mut_ptr(),
            journal.len(),
            used,
            sensitivity,
            work.as_mut_ptr(),
            work.len(),
            value,
        )
    }
}

/// Likewise, with a floor that starts at 1e-6.
// The arguments are those of the C function.
#[allow(clippy::too_many_arguments)]
pub fn decrackle_old_start(
    samples: &mut [u32],
    marks: &mut [u8],
    counts: &mut [u16],
    journal: &mut [u32],
    used: &mut usize,
    sensitivity: f32,
    work: &mut [u32],
    value: &mut usize,
) -> u32 {
    // As above.
    unsafe {
        exports::cathar_decrackle_old_start(
            samples.as_mut_ptr(),
            samples.len(),
            marks.as_mut_ptr(),
            marks.len(),
            counts.as_mut_ptr(),
            counts.len(),
            journal.as_mut_ptr(),
            journal.len(),
            used,
            sensitivity,
            work.as_mut_ptr(),
            work.len(),
            value,
        )
    }
}

/// Moves samples that were recorded with so many bits toward what their neighbours predict. Answers as `declip`
/// does.
// The arguments are those of the C function.
#[allow(clippy::too_many_arguments)]
pub fn dequantize(
    samples: &mut [u32],
    marks: &mut [u8],
    counts: &mut [u16],
    journal: &mut [u32],
    used: &mut usize,
    bits: u32,
    strength: f32,
    work: &mut [u32],
    value: &mut usize,
) -> u32 {
    // As above.
    unsafe {
        exports::cathar_dequantize(
            samples.as_mut_ptr(),
            samples.len(),
            marks.as_mut_ptr(),
            marks.len(),
            counts.as_mut_ptr(),
            counts.len(),
            journal.as_mut_ptr(),
            journal.len(),
            used,
            bits,
            strength,
            work.as_mut_ptr(),
            work.len(),
            value,
        )
    }
}

/// The same from two neighbours on either side, in so many iterations. Answers as `declip` does.
// The arguments are those of the C function.
#[allow(clippy::too_many_arguments)]
pub fn dequantize_cosparse(
    samples: &mut [u32],
    marks: &mut [u8],
    counts: &mut [u16],
    journal: &mut [u32],
    used: &mut usize,
    bits: u32,
    strength: f32,
    iterations: u32,
    work: &mut [u32],
    value: &mut usize,
) -> u32 {
    // As above.
    unsafe {
        exports::cathar_dequantize_cosparse(
            samples.as_mut_ptr(),
            samples.len(),
            marks.as_mut_ptr(),
            marks.len(),
            counts.as_mut_ptr(),
            counts.len(),
            journal.as_mut_ptr(),
            journal.len(),
            used,
            bits,
            strength,
            iterations,
            work.as_mut_ptr(),
            work.len(),
            value,
        )
    }
}

/// Takes a proposal for the samples whose magnitude is at or above the threshold, where every word of it keeps to the
/// rule. Answers 0, with how many samples it names in `value`, or the number of the refusal, with the place there for
/// 7 and 15 and 0 for the others.
// The arguments are those of the C function.
#[allow(clippy::too_many_arguments)]
pub fn declip_proposed(
    samples: &mut [u32],
    marks: &mut [u8],
    counts: &mut [u16],
    journal: &mut [u32],
    used: &mut usize,
    threshold: f32,
    proposal: &[u32],
    value: &mut usize,
) -> u32 {
    // As above.
    unsafe {
        exports::cathar_declip_proposed(
            samples.as_mut_ptr(),
            samples.len(),
            marks.as_mut_ptr(),
            marks.len(),
            counts.as_mut_ptr(),
            counts.len(),
            journal.as_mut_ptr(),
            journal.len(),
            used,
            threshold,
            proposal.as_ptr(),
            proposal.len(),
            value,
        )
    }
}

/// Announces a run of the crackle detector over `total` samples, with a floor that starts from the mean. Answers 0, or
/// the number of the refusal.
pub fn crackle_begin(total: usize, sensitivity: f32, state: &mut [u32]) -> u32 {
    // As above.
    unsafe { exports::cathar_crackle_begin(total, sensitivity, state.as_mut_ptr(), state.len()) }
}

/// Likewise, with a floor that starts at 1e-6.
pub fn crackle_begin_old_start(total: usize, sensitivity: f32, state: &mut [u32]) -> u32 {
    // As above.
    unsafe { exports::cathar_crackle_begin_old_start(total, sensitivity, state.as_mut_ptr(), state.len()) }
}

/// Gives the run its next samples. Answers 0, with how many flags it gave in `value`, or the number of the refusal, with
/// the place there for 7 and 0 for the others.
pub fn crackle_piece(state: &mut [u32], piece: &[u32], flags: &mut [u8], value: &mut usize) -> u32 {
    // As above.
    unsafe {
        exports::cathar_crackle_piece(
            state.as_mut_ptr(),
            state.len(),
            piece.as_ptr(),
            piece.len(),
            flags.as_mut_ptr(),
            flags.len(),
            value,
        )
    }
}

/// Ends the run. Answers 0, with how many flags it gave in `value`, or the number of the refusal, with 0 there.
pub fn crackle_end(state: &mut [u32], flags: &mut [u8], value: &mut usize) -> u32 {
    // As above.
    unsafe { exports::cathar_crackle_end(state.as_mut_ptr(), state.len(), flags.as_mut_ptr(), flags.len(), value) }
}

/// Reads a block of version 1 or 2 into seven settings. Answers 0, or the number of the refusal, with nothing written.
pub fn read_settings(block: &[u8], settings: &mut [u32]) -> u32 {
    // As above.
    unsafe { exports::cathar_read_settings(block.as_ptr(), block.len(), settings.as_mut_ptr(), settings.len()) }
}

/// Reads a block of version 1 into six settings. Answers as `read_settings` does.
pub fn read_settings_v1(block: &[u8], settings: &mut [u32]) -> u32 {
    // As above.
    unsafe { exports::cathar_read_settings_v1(block.as_ptr(), block.len(), settings.as_mut_ptr(), settings.len()) }
}

/// Writes seven settings as a block of version 2. Answers 0, or the number of the refusal, with nothing written.
pub fn write_settings(settings: &[u32], block: &mut [u8]) -> u32 {
    // As above.
    unsafe { exports::cathar_write_settings(settings.as_ptr(), settings.len(), block.as_mut_ptr(), block.len()) }
}

/// Writes six settings as a block of version 1. Answers as `write_settings` does.
pub fn write_settings_v1(settings: &[u32], block: &mut [u8]) -> u32 {
    // As above.
    unsafe { exports::cathar_write_settings_v1(settings.as_ptr(), settings.len(), block.as_mut_ptr(), block.len()) }
}

/// Reads a WAV file of mono 16-bit PCM into samples and marks. Answers 0, with the number of samples and the file's rate
/// in `n` and `rate`, or the number of the refusal, with 0 in both and nothing else written.
pub fn read_wav(file: &[u8], samples: &mut [u32], marks: &mut [u8], n: &mut usize, rate: &mut u32) -> u32 {
    // As above.
    unsafe {
        exports::cathar_read_wav(
            file.as_ptr(),
            file.len(),
            samples.as_mut_ptr(),
            samples.len(),
            marks.as_mut_ptr(),
            marks.len(),
            n,
            rate,
        )
    }
}

/// Writes samples as a WAV file at this rate. Answers 0, with how many bytes it wrote in `value`, or the number of the
/// refusal, with the place there for 7 and 0 for the others, and nothing else written.
pub fn write_wav(samples: &[u32], rate: u32, out: &mut [u8], value: &mut usize) -> u32 {
    // As above.
    unsafe { exports::cathar_write_wav(samples.as_ptr(), samples.len(), rate, out.as_mut_ptr(), out.len(), value) }
}
