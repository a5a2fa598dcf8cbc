//! The searches behind what docs/DIFFERENCES.md says of the smallest recordings in which a result of the original is
//! not in range. (That for a NaN is `where_the_original_writes_nan` of `inpaint.rs`.)
use cathar_host::original;
use cathar_host::recording::in_range;

/// The loudest sample that is in range.
const MOST: f32 = 65536.0;

/// The fewest samples of which a gap gets a result that is not in range, and such a recording: its signs, with the gap
/// at 6 of length 2.
const FEWEST: usize = 14;
const SIGNS: &str = "------..+--+-+";

fn is_loud(samples: &[f32]) -> bool {
    samples.iter().any(|x| !in_range(x.to_bits()))
}

/// The sample of this sign. What stands in a gap has no say, and is 0 here.
fn loudest(sign: char) -> f32 {
    match sign {
        '+' => MOST,
        '-' => -MOST,
        _ => 0.0,
    }
}

/// Every gap in every recording of fewer samples over 65,536 and its negative.
#[test]
fn of_gaps() {
    let mut searched = 0;
    for n in 1..FEWEST {
        for (start, len) in (0..n).flat_map(|start| (1..=n - start).map(move |len| (start, len))) {
            for signs in 0..1u32 << (n - len) {
                let known = |place: usize| if signs >> place & 1 == 1 { MOST } else { -MOST };
                let samples: Vec<f32> =
                    (0..start).map(known).chain(vec![0.0; len]).chain((start..n - len).map(known)).collect();
                assert!(!is_loud(&original::inpaint_gap(&samples, start, len, 1)), "{samples:?}, {start}, {len}");
                searched += 1;
            }
        }
    }
    println!(
        "gaps of recordings of fewer than {FEWEST} samples over 65,536 and its negative: {searched}, none is loud"
    );
    let samples: Vec<f32> = SIGNS.chars().map(loudest).collect();
    let after = original::inpaint_gap(&samples, 6, 2, 1);
    assert_eq!(after.len(), FEWEST);
    assert!(in_range(after[6].to_bits()) && (after[7] + 66669.9).abs() < 0.1, "{after:?}");
}

/// Of a fill each result is a sum of two products by weights that depend on its place alone. Rounded, these too never
/// fall as the sample at an end rises, or never rise, so that a fill of so many steps gives its loudest results where
/// both ends are 65,536 or its negative; and turning all signs turns those of the results. Here all samples are one
/// run, and the fill goes from the first to the last.
#[test]
fn of_declips() {
    let fill = |steps: usize, end: f32| {
        let mut samples = vec![MOST; steps + 1];
        samples[steps] = end;
        is_loud(&original::declip(&samples, 1.0))
    };
    let fewest = (5..).find(|steps| fill(*steps, MOST) || fill(*steps, -MOST));
    println!("the shortest fill with a result that is not in range has {fewest:?} steps");
    assert_eq!(fewest, Some(8195));
}

/// Fewer than 5 samples `dequantize_cosparse` leaves alone, and fewer than 8 `decrackle`.
#[test]
fn of_the_others() {
    let after = original::dequantize_cosparse(&[-MOST, MOST, MOST, MOST, -MOST], 4, 1.0, 1);
    assert_eq!(after[2], 65536.0625);
    let after = original::decrackle(&[-MOST, MOST, MOST, MOST, 0.0, 0.0, 0.0, 0.0], 5.0);
    assert!((after[3] - 77672.3).abs() < 0.1, "{after:?}");
}
