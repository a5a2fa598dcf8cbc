//! The host's own prediction step, by hand: what it makes of a few lags, and where it stops; and how little e may
//! become. That its fills are the original's is held wherever the model fills a gap (`host/src/inpaint.rs`). Here it
//! also stops after a k, as no recording is known to make it.
use cathar_host::draw::{self, Draw};
use cathar_host::inpaint::Gap;
use cathar_host::prediction::{levinson, Model, Reach, Stop, Window, SHARE};
use cathar_host::sounds::Sound;

/// How many windows are begun with, and how often each is changed.
const WINDOWS: usize = 2_000;
const CHANGES: usize = 100;

/// The patterns of a model's coefficients, which tell -0 from +0.
fn patterns(coefficients: &[f64]) -> Vec<u64> {
    coefficients.iter().map(|a| a.to_bits()).collect()
}

/// The model has these coefficients, and got so far.
fn holds(model: &Model, coefficients: &[f64], order: u32, stop: Stop) {
    let p = coefficients.len() as u32 - 1;
    let nonzero = coefficients.iter().skip(1).filter(|a| **a != 0.0).count() as u32;
    assert_eq!(patterns(&model.coefficients), patterns(coefficients), "{model:?}");
    assert_eq!(model.reach, Reach { order, p, stop, nonzero });
}

/// Of 4, 2 and 2 the first k is -1/2, which leaves e = 3, and the second -(2 - 1)/3; of 4, 2 and 1 the second is a
/// zero, which is used like any other.
#[test]
fn not_stopped() {
    let third = -1.0 / 3.0;
    holds(&levinson(&[4.0, 2.0, 2.0]), &[1.0, -0.5 + third * -0.5, third], 2, Stop::Nowhere);
    holds(&levinson(&[4.0, 2.0, 1.0]), &[1.0, -0.5, -0.0], 2, Stop::Nowhere);
    // Each k is -0, and -0 + (-0)*(-0) is +0.
    holds(&levinson(&[1.0, 0.0, 0.0]), &[1.0, 0.0, -0.0], 2, Stop::Nowhere);
}

/// "It stops at |e|<1e-12 before using k": an e of just 1e-12 does not stop it, and the next double below it does; so
/// does its negative, before any k.
#[test]
fn stopped_before_k() {
    let below = f64::from_bits(1e-12f64.to_bits() - 1);
    holds(&levinson(&[below, 0.0, 0.0]), &[1.0, 0.0, 0.0], 0, Stop::BeforeK);
    holds(&levinson(&[-below, 1.0, 0.0]), &[1.0, 0.0, 0.0], 0, Stop::BeforeK);
    holds(&levinson(&[1e-12, 0.0, 0.0]), &[1.0, 0.0, -0.0], 2, Stop::Nowhere);
    // The first k is -3/4, which leaves 7/16 of e.
    holds(&levinson(&[2e-12, 1.5e-12, 1.0, 1.0]), &[1.0, -0.75, 0.0, 0.0], 1, Stop::BeforeK);
    // Of an e of 1.25e-12 the first k, a zero, takes nothing, and the second, -3/5, leaves 0.8e-12.
    let model = levinson(&[1.25e-12, 0.0, 0.75e-12, 1.0]);
    assert_eq!((model.reach.order, model.reach.stop, model.reach.nonzero), (2, Stop::BeforeK, 1));
}

/// "And at e≤0 after it": the k is used, and of its order are the coefficients. Where it is the last one, that is
/// still where it stops.
#[test]
fn stopped_after_k() {
    holds(&levinson(&[1.0, 1.0, 1.0]), &[1.0, -1.0, 0.0], 1, Stop::AfterK);
    holds(&levinson(&[1.0, 2.0, 0.0]), &[1.0, -2.0, 0.0], 1, Stop::AfterK);
    holds(&levinson(&[4.0, 2.0, 4.0]), &[1.0, 0.0, -1.0], 2, Stop::AfterK);
    holds(&levinson(&[1.0, -1.0]), &[1.0, 1.0], 1, Stop::AfterK);
}

/// "If r[0]≤0 the model is 1,0,..,0": where there is no known sample, or all are zeros. What stands in the gap has no
/// say.
#[test]
fn stopped_at_once() {
    for doubles in [vec![9.0], vec![0.0, 9.0, -0.0], vec![-0.0, 9.0]] {
        let place = doubles.iter().position(|x| *x == 9.0).expect("the gap's sample");
        let window = Window { doubles, gap: place..place + 1, p: 2 };
        holds(&window.model(), &[1.0, 0.0, 0.0], 0, Stop::AtOnce);
    }
}

/// The lags are of known pairs: of 1, 2, a gap, 3 and 4 r[0] is 1+4+9+16, r[1] is 2+12, r[2], over the gap, 2*3, and
/// r[3] is 1*3+2*4. Only r[0] is then raised.
#[test]
fn lags_by_hand() {
    let window = Window { doubles: vec![1.0, 2.0, f64::NAN, 3.0, 4.0], gap: 2..3, p: 6 };
    assert_eq!(window.lags(), [30.0, 14.0, 6.0, 11.0, 4.0, 0.0, 0.0]);
    let raised = levinson(&[30.0 * (1.0 + 1e-6), 14.0, 6.0, 11.0, 4.0, 0.0, 0.0]);
    assert_eq!(patterns(&window.model().coefficients), patterns(&raised.coefficients));
}

/// The share of r[0] that is left of e by the model of a gap, which is to stop after no k; all of it, where r[0] is 0.
fn share(samples: &[u32], gap: Gap) -> f64 {
    let window = gap.widened(samples);
    let model = window.model();
    assert_ne!(model.reach.stop, Stop::AfterK, "{gap:?}, {samples:08x?}");
    match window.lags()[0] {
        r0 if r0 > 0.0 => model.e / r0,
        _ => 1.0,
    }
}

/// So many samples that rise and fall again, as smooth as a power of this makes them.
fn bell(n: usize, smooth: i32) -> Vec<u32> {
    let at = |place: usize| 4.0 * (place + 1) as f64 * (n - place) as f64 / ((n + 1) * (n + 1)) as f64;
    (0..n).map(|place| ((1000.0 * at(place).powi(smooth)) as f32).to_bits()).collect()
}

/// One to three of the samples become zero, their negative, that of another or a little louder or softer.
fn changed(draw: &mut Draw, samples: &[u32]) -> Vec<u32> {
    let mut other = samples.to_vec();
    for _ in 0..1 + draw.below(3) {
        let [place, from] = [draw.below(other.len() as u64) as usize, draw.below(other.len() as u64) as usize];
        other[place] = match draw.below(4) {
            0 => 0,
            1 => other[place] ^ 0x8000_0000,
            2 => other[from],
            _ => (f32::from_bits(other[place]) * (0.9 + 0.2 * draw.below(100) as f32 / 99.0)).to_bits(),
        };
    }
    other
}

/// The lags are those of the window with zeros in its gap, so that their matrix has no negative eigenvalue; r[0] is
/// then raised by 1e-6 of itself, so that e, worked out exactly, never falls below 1e-6*r[0]. What is rounded adds up
/// to far less, so that e does not come to be at most 0: no model of a window is known that stops after a k. Here
/// samples are changed again and again, as long as that makes e less.
#[test]
fn e_keeps_its_share() {
    let mut draw = Draw::new(draw::seed());
    let mut least = f64::MAX;
    for turn in 0..WINDOWS {
        let (len, more) = ([1 + draw.below(40), 128][turn % 2] as usize, 20 + draw.below(150) as usize);
        let (n, gap) = (len + more, Gap { start: draw.below(more as u64 + 1) as usize, len });
        let mut samples = match Sound::ALL.get(turn % 12) {
            Some(sound) => sound.samples(&mut draw, n, gap.read(n), 1e6),
            None => bell(n, 1 + draw.below(20) as i32),
        };
        let mut found = share(&samples, gap);
        for _ in 0..CHANGES {
            let other = changed(&mut draw, &samples);
            let left = share(&other, gap);
            if left < found {
                (samples, found) = (other, left);
            }
        }
        least = least.min(found);
    }
    println!("{} models: e is {least:e} of r[0] or more", WINDOWS * (CHANGES + 1));
    assert!(least > 0.999 * SHARE, "e is {least:e} of r[0]");
}
