//! Stand-ins for the four repairs over the whole recording.
mod common;
mod declip;
mod decrackle;
mod dequant;

use super::Table;
use crate::call::Call;
use crate::lent::Lent;
use crate::recording::{Answer, Recording};
use crate::whole::{floats, Repair};

pub(super) const TABLES: &[Table] = &[
    common::IN_DECLIPS,
    common::IN_DECRACKLES,
    common::IN_DECRACKLES_OLD_START,
    common::IN_DEQUANTIZES,
    common::IN_COSPARSE,
    declip::WRONG,
    declip::RIGHT,
    decrackle::WRONG,
    decrackle::WRONG_OLD,
    decrackle::WRONG_MEAN,
    decrackle::WRONG_START,
    decrackle::WRONG_OLD_START,
    decrackle::RIGHT,
    dequant::WRONG,
    dequant::RIGHT,
    dequant::WRONG_COSPARSE,
];

/// The library makes another repair than it is asked for.
fn asks(lent: &mut Lent, call: Call, other: fn(Repair) -> Repair) -> u32 {
    match call {
        Call::Whole(repair) => lent.call(Call::Whole(other(repair))),
        _ => lent.call(call),
    }
}

/// Refusals 1 to 7 are the library's, and the workspace is as it leaves it. Where none of them applies, named are
/// these places, ascending, each with its new sample.
fn names(lent: &mut Lent, call: Call, named: impl FnOnce(Repair, &[f32]) -> Vec<(usize, f32)>) -> u32 {
    let mut recording = lent.recording();
    let number = lent.call(call);
    match call {
        Call::Whole(repair) if is_end(number) => {
            let named = named(repair, &floats(&recording.samples));
            let words: Vec<(usize, u32)> = named.into_iter().map(|(place, x)| (place, x.to_bits())).collect();
            let answer = recording.commit(repair.mark(), &words);
            answers(lent, &recording, answer)
        }
        _ => number,
    }
}

/// Whether this is the answer of a repair that none of the refusals 1 to 7 turns away.
fn is_end(number: u32) -> bool {
    matches!(number, 0 | 8 | 9)
}

/// The recording is left like this, and this is answered.
pub(super) fn answers(lent: &mut Lent, recording: &Recording, answer: Answer) -> u32 {
    lent.put(recording);
    set_value(lent, answer.value());
    answer.number()
}

/// The value that the last call handed back.
pub(super) fn value(lent: &Lent) -> usize {
    lent.numbers[0].lent()[0]
}

/// The call hands back this value.
pub(super) fn set_value(lent: &mut Lent, value: usize) {
    lent.numbers[0].lend()[0] = value;
}

/// These places with the samples that stand there.
fn at(places: impl IntoIterator<Item = usize>, samples: &[f32]) -> Vec<(usize, f32)> {
    places.into_iter().map(|place| (place, samples[place])).collect()
}
