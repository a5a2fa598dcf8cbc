//! Stand-ins for both forms of dequantize.
use super::{asks, at, names};
use crate::call::Call;
use crate::lent::Lent;
use crate::whole::Repair;
use crate::wrong::How::Library;
use crate::wrong::{Finds, Standin, Table};

pub(super) const WRONG: Table = Table {
    file: "whole",
    test: "dequantizes",
    finds: Finds::Always,
    standins: &[
        Standin {
            name: "dequantize_first_on_snapshot",
            says: "the first pass reads the samples as they stood when the call began",
            how: Library(|lent, call| dequantizes(lent, call, Rules { first_on_output: false, ..RULES })),
        },
        Standin {
            name: "dequantize_second_on_output",
            says: "the second pass reads changed neighbours instead of a snapshot",
            how: Library(|lent, call| dequantizes(lent, call, Rules { second_on_output: true, ..RULES })),
        },
        Standin {
            name: "dequantize_second_at_limit",
            says: "there is a second pass at a strength of 0.3 as well, instead of only above it",
            how: Library(|lent, call| dequantizes(lent, call, Rules { is_strong: |x| x >= 0.3, ..RULES })),
        },
        Standin {
            name: "dequantize_second_from_6",
            says: "there is no second pass on 5 samples",
            how: Library(|lent, call| dequantizes(lent, call, Rules { fewest_of_second: 6, ..RULES })),
        },
        Standin {
            name: "dequantize_step_halved",
            says: "the step is 1/2^bits",
            how: Library(|lent, call| dequantizes(lent, call, Rules { full: 1.0, ..RULES })),
        },
        Standin {
            name: "dequantize_not_held_to_24",
            says: "bits above 24 are not held to 24",
            how: Library(|lent, call| dequantizes(lent, call, Rules { bits: |bits| bits.clamp(4, 63), ..RULES })),
        },
        Standin {
            name: "dequantize_not_held_to_4",
            says: "bits below 4 are not held to 4",
            how: Library(|lent, call| dequantizes(lent, call, Rules { bits: |bits| bits.min(24), ..RULES })),
        },
        Standin { name: "dequantize_names_fewer", says: "places 2..n-3 are named", how: Library(names_fewer) },
        Standin {
            name: "dequantize_not_kept_near",
            says: "the prediction is not kept within half a step of the sample's level",
            how: Library(|lent, call| dequantizes(lent, call, Rules { is_kept_near: false, ..RULES })),
        },
        Standin {
            name: "dequantize_halves_to_even",
            says: "a sample halfway between two levels goes to the even one instead of away from zero",
            how: Library(|lent, call| dequantizes(lent, call, Rules { round: halves_to_even, ..RULES })),
        },
        Standin {
            name: "dequantize_nan_allowed",
            says: "a strength that is NaN is taken as 0",
            how: Library(nan_allowed),
        },
        Standin {
            name: "dequantize_not_held_to_1",
            says: "a strength above 1 is not held to 1",
            how: Library(|lent, call| dequantizes(lent, call, Rules { held: |x| x.max(0.0), ..RULES })),
        },
    ],
};

pub(super) const RIGHT: Table = Table {
    file: "whole",
    test: "dequantizes",
    finds: Finds::Never,
    standins: &[Standin {
        name: "dequantize_second_on_4",
        says: "there is a second pass on 4 samples as well, which has no place to write to",
        how: Library(|lent, call| dequantizes(lent, call, Rules { fewest_of_second: 4, ..RULES })),
    }],
};

pub(super) const WRONG_COSPARSE: Table = Table {
    file: "whole",
    test: "cosparse",
    finds: Finds::Always,
    standins: &[
        Standin {
            name: "cosparse_17_iterations",
            says: "at most 17 iterations are run instead of 16",
            how: Library(seventeen_iterations),
        },
        Standin { name: "cosparse_0_as_1", says: "0 iterations are taken as 1", how: Library(zero_as_one) },
        Standin { name: "cosparse_names_more", says: "places 1..n-2 are named", how: Library(names_more) },
        Standin {
            name: "cosparse_on_output",
            says: "an iteration reads changed neighbours instead of a snapshot",
            how: Library(on_output),
        },
        Standin {
            name: "cosparse_0_names",
            says: "a strength of 0 or below names the places all the same, and changes none",
            how: Library(zero_names),
        },
    ],
};

/// What a stand-in alters one of.
struct Rules {
    /// Holds the bits and the strength.
    bits: fn(u32) -> u32,
    held: fn(f32) -> f32,
    /// What is divided into 2^bits steps.
    full: f32,
    round: fn(f32) -> f32,
    /// Whether the prediction is kept within half a step of the sample's level.
    is_kept_near: bool,
    /// Whether the passes read changed neighbours.
    first_on_output: bool,
    second_on_output: bool,
    /// The strengths at which there is a second pass, and the fewest samples.
    is_strong: fn(f32) -> bool,
    fewest_of_second: usize,
}

/// The rules as they are.
const RULES: Rules = Rules {
    bits: |bits| bits.clamp(4, 24),
    held: |strength| strength.clamp(0.0, 1.0),
    full: 2.0,
    round: f32::round,
    is_kept_near: true,
    first_on_output: true,
    second_on_output: false,
    is_strong: |strength| strength > 0.3,
    fewest_of_second: 5,
};

impl Rules {
    /// The sample goes part of the way to what is predicted for it.
    fn moved(&self, x: f32, predicted: f32, step: f32, part: f32) -> f32 {
        let (level, half) = ((self.round)(x / step) * step, step * 0.5);
        let (least, most) = (level - half, level + half);
        let target = match predicted {
            p if self.is_kept_near && p < least => least,
            p if self.is_kept_near && p > most => most,
            p => p,
        };
        x + part * (target - x)
    }

    /// The samples after both passes.
    fn after(&self, began: &[f32], bits: u32, strength: f32) -> Vec<f32> {
        let (n, strength) = (began.len(), (self.held)(strength));
        let step = self.full / (1u64 << (self.bits)(bits)) as f32;
        let mut samples = began.to_vec();
        for i in 1..n - 1 {
            let from = if self.first_on_output { &samples } else { began };
            let predicted = (from[i - 1] + from[i + 1]) * 0.5;
            samples[i] = self.moved(samples[i], predicted, step, strength);
        }
        if (self.is_strong)(strength) && n >= self.fewest_of_second {
            let snapshot = samples.clone();
            for i in 2..n - 2 {
                let from = if self.second_on_output { &samples } else { &snapshot };
                let predicted = (from[i - 2] + from[i - 1] + from[i + 1] + from[i + 2]) * 0.25;
                samples[i] = self.moved(samples[i], predicted, step, strength * 0.5);
            }
        }
        samples
    }
}

/// Dequantize by these rules. It names the places that it has to.
fn dequantizes(lent: &mut Lent, call: Call, rules: Rules) -> u32 {
    names(lent, call, |repair, began| match (repair, repair.named(began)) {
        (Repair::Dequantize { bits, strength }, named) if !named.is_empty() => {
            at(named, &rules.after(began, bits, strength))
        }
        _ => Vec::new(),
    })
}

fn halves_to_even(x: f32) -> f32 {
    if x.fract().abs() == 0.5 {
        x.trunc() + x.trunc() % 2.0
    } else {
        x.round()
    }
}

fn names_fewer(lent: &mut Lent, call: Call) -> u32 {
    names(lent, call, |repair, began| {
        let named = repair.named(began).into_iter().filter(|place| (2..began.len() - 2).contains(place));
        at(named, &repair.after(began))
    })
}

fn nan_allowed(lent: &mut Lent, call: Call) -> u32 {
    asks(lent, call, |repair| match repair {
        Repair::Dequantize { bits, strength } if strength.is_nan() => Repair::Dequantize { bits, strength: 0.0 },
        _ => repair,
    })
}

/// The samples after so many iterations with the other settings of the repair.
fn iterated(repair: Repair, samples: &[f32], iterations: u32) -> Vec<f32> {
    match repair {
        Repair::Cosparse { bits, strength, .. } => Repair::Cosparse { bits, strength, iterations }.after(samples),
        _ => samples.to_vec(),
    }
}

/// How many iterations are asked for; of another repair none.
fn iterations(repair: Repair) -> u32 {
    match repair {
        Repair::Cosparse { iterations, .. } => iterations,
        _ => 0,
    }
}

fn seventeen_iterations(lent: &mut Lent, call: Call) -> u32 {
    names(lent, call, |repair, began| {
        let once_more = u32::from(iterations(repair) > 16);
        let after = iterated(repair, &repair.after(began), once_more);
        at(repair.named(began), &after)
    })
}

fn zero_as_one(lent: &mut Lent, call: Call) -> u32 {
    asks(lent, call, |repair| match repair {
        Repair::Cosparse { bits, strength, iterations: 0 } => Repair::Cosparse { bits, strength, iterations: 1 },
        _ => repair,
    })
}

fn names_more(lent: &mut Lent, call: Call) -> u32 {
    names(lent, call, |repair, began| match repair.named(began).is_empty() {
        true => Vec::new(),
        false => at(1..began.len() - 1, &repair.after(began)),
    })
}

/// An iteration on 5 samples writes the middle alone, and so gives it for any 5 of more.
fn on_output(lent: &mut Lent, call: Call) -> u32 {
    names(lent, call, |repair, began| {
        let (named, mut samples) = (repair.named(began), began.to_vec());
        for _ in 0..iterations(repair).min(16) {
            for place in &named {
                samples[*place] = iterated(repair, &samples[place - 2..place + 3], 1)[2];
            }
        }
        at(named, &samples)
    })
}

fn zero_names(lent: &mut Lent, call: Call) -> u32 {
    names(lent, call, |repair, began| match repair {
        Repair::Cosparse { strength, iterations, .. } if strength <= 0.0 && iterations > 0 && began.len() >= 5 => {
            at(2..began.len() - 2, began)
        }
        _ => at(repair.named(began), &repair.after(began)),
    })
}
