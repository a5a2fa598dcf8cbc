//! What request P7 is about: "because the floor starts at 1e-6, a steady tone has its first hundred-odd samples flagged
//! and redrawn". How many samples of steady tones decrackle redraws from either start, by library and model alike, and
//! the shortest of which the old start flags the beginning and the new one nothing.
use cathar_host::both::Both;
use cathar_host::recording::{entry_words, Answer, Recording};
use cathar_host::whole::{flags, needed, Repair, Start};

/// How many samples a tone has, and how many there are in a second.
const SAMPLES: usize = 2_000;
const RATE: usize = 48_000;

/// The frequencies of the tones, the amplitudes, and the sensitivities at which they are tried.
const FREQUENCIES: [usize; 5] = [100, 440, 1_000, 4_000, 8_000];
const AMPLITUDES: [f64; 4] = [0.05, 0.5, 1.0, 20_000.0];
const SENSITIVITIES: [f32; 3] = [1.0, 5.0, 10.0];

/// How many samples of the tones of amplitude 0.5 the old start redraws, at each of the sensitivities.
const BY_OLD_START: [[usize; 3]; 5] = [[94, 144, 778], [97, 157, 811], [94, 157, 813], [96, 158, 839], [97, 160, 923]];

/// The sine of so many parts of a whole turn, of which there are so many: by its power series within a quarter of a
/// turn, so that it is the same on every machine.
fn sine(parts: usize, turn: usize) -> f64 {
    let (parts, sign) = (parts % turn, if 2 * (parts % turn) < turn { 1.0 } else { -1.0 });
    let half = if 2 * parts < turn { 2 * parts } else { 2 * parts - turn };
    let x = half.min(turn - half) as f64 / turn as f64 * std::f64::consts::PI;
    let (mut term, mut sum) = (x, x);
    for k in 1..14 {
        term *= -x * x / (2 * k * (2 * k + 1)) as f64;
        sum += term;
    }
    sign * sum
}

/// So many samples of a steady tone of this frequency and amplitude.
fn tone(samples: usize, frequency: usize, amplitude: f64) -> Vec<f32> {
    (0..samples).map(|place| (amplitude * sine(frequency * place, RATE)) as f32).collect()
}

/// The places that library and model alike redraw in these samples, the recording freshly opened.
fn redraws(samples: &[f32], sensitivity: f32, start: Start) -> Vec<usize> {
    let (n, words) = (samples.len(), samples.iter().map(|x| x.to_bits()).collect());
    let repair = Repair::Decrackle { sensitivity, start };
    let mut both = Both::new(Recording::new(words, vec![0; n], vec![0; entry_words(n)], 0));
    let (answer, wrong) = both.repair(repair, vec![0; needed(n)]);
    let marked: Vec<usize> = (0..n).filter(|place| both.model.marks[*place] == repair.mark()).collect();
    assert_eq!((answer, wrong), (Answer::Accepted(marked.len()), vec![]), "{repair:?}");
    marked
}

#[test]
fn of_2000_samples() {
    println!("redrawn of {SAMPLES} samples at {RATE} a second, at the sensitivities {SENSITIVITIES:?}");
    for (frequency, expected) in FREQUENCIES.into_iter().zip(BY_OLD_START) {
        for amplitude in AMPLITUDES {
            let samples = tone(SAMPLES, frequency, amplitude);
            let redrawn = |start| SENSITIVITIES.map(|sensitivity| redraws(&samples, sensitivity, start));
            let (old, mean) = (redrawn(Start::Old), redrawn(Start::Mean));
            let (by_old, by_mean) = (old.clone().map(|places| places.len()), mean.map(|places| places.len()));
            let last = old.map(|places| places.last().copied().unwrap_or(0));
            let told = format!("old start {by_old:?}, the last at {last:?}; new start {by_mean:?}");
            println!("  {frequency:>6} Hz, amplitude {amplitude:>5}: {told}");
            assert_eq!(by_mean, [0; 3], "what the new start redraws of {frequency} Hz at {amplitude}");
            if amplitude == 0.5 {
                assert_eq!(by_old, expected, "what the old start redraws of {frequency} Hz");
            }
        }
    }
}

/// At a quarter of the rate the detector is as high as the tone and 0 in turn, so that the mean is half of it. At the
/// sensitivity 10 the limit is twice the floor, and rounding decides whether the tone is above it.
#[test]
fn at_a_quarter_of_the_rate() {
    for amplitude in AMPLITUDES {
        let samples = tone(SAMPLES, RATE / 4, amplitude);
        let redrawn = |start| SENSITIVITIES.map(|sensitivity| redraws(&samples, sensitivity, start).len());
        let (old, mean) = (redrawn(Start::Old), redrawn(Start::Mean));
        println!("  {:>6} Hz, amplitude {amplitude:>5}: old start {old:?}, new start {mean:?}", RATE / 4);
        assert_eq!((old, mean[..2].to_vec()), ([100, 168, 999], vec![0, 0]));
    }
}

/// The numbers of samples in a period of a tone that are tried, and the sensitivities, from the usual one on.
const PERIODS: [usize; 10] = [3, 4, 5, 6, 8, 10, 12, 16, 24, 48];
const FROM_USUAL: [f32; 10] = [5.0, 6.0, 7.0, 8.0, 9.0, 10.0, 4.0, 3.0, 2.0, 1.0];

/// So many samples of each tone, with how many a period of it has. The one of four is 0, 1, 0, -1 and so on.
fn tones(samples: usize) -> Vec<(usize, Vec<f32>)> {
    PERIODS.into_iter().map(|period| (period, tone(samples, RATE / period, 1.0))).collect()
}

#[test]
fn the_shortest() {
    let mut found = Vec::new();
    for (n, sensitivity) in (0..=8).flat_map(|n| FROM_USUAL.map(|sensitivity| (n, sensitivity))) {
        for (period, samples) in tones(n) {
            let by = |start| flags(&samples, sensitivity, start);
            if by(Start::Old).contains(&true) && !by(Start::Mean).contains(&true) {
                assert!(redraws(&samples, sensitivity, Start::Mean).is_empty());
                found.push((n, sensitivity, period, redraws(&samples, sensitivity, Start::Old)));
            }
        }
    }
    println!("steady tones of up to 8 samples that the old start redraws, and the new one not: {}", found.len());
    let (n, _, _, _) = found[0];
    assert_eq!(n, 8, "fewer are never redrawn");
    let usual: Vec<_> = found.iter().filter(|(_, sensitivity, ..)| *sensitivity == 5.0).collect();
    usual.iter().for_each(|(n, _, period, places)| println!("  {n} samples of period {period} at 5: {places:?}"));
    assert!(found.contains(&(8, 5.0, 4, vec![1, 3, 5])), "the tone 0, 1, 0, -1, 0, 1, 0, -1");
}
