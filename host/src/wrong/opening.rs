//! Floors that decrackle's detector starts from wrongly, by its values from the first place on: in the whole recording
//! all of them, and in pieces those that are held back, of which there are 1,024 or else all.
use crate::whole::{opening_floor, Start, MEAN_OVER};

/// The magnitudes of these values.
fn magnitudes(values: &[f32]) -> Vec<f32> {
    values.iter().map(|value| value.abs()).collect()
}

/// Those of the first values, of which the mean is to be.
fn first(values: &[f32]) -> Vec<f32> {
    magnitudes(&values[..values.len().min(MEAN_OVER)])
}

/// The sum of these, from the first on.
fn sum(magnitudes: &[f32]) -> f32 {
    magnitudes.iter().fold(0.0, |sum, a| sum + a)
}

/// How many there are.
fn count(magnitudes: &[f32]) -> f32 {
    magnitudes.len() as f32
}

/// The mean of the magnitudes of these values, raised to 1e-6.
fn mean(values: &[f32]) -> f32 {
    (sum(&magnitudes(values)) / count(values)).max(1e-6)
}

/// What it is to start from.
pub(super) fn right(values: &[f32]) -> f32 {
    opening_floor(Start::Mean, &magnitudes(values))
}

/// The old start.
pub(super) fn least(_: &[f32]) -> f32 {
    1e-6
}

/// The mean of one value less, and of one more.
pub(super) fn of_1023(values: &[f32]) -> f32 {
    mean(&values[..values.len().min(MEAN_OVER - 1)])
}

pub(super) fn of_1025(values: &[f32]) -> f32 {
    mean(&values[..values.len().min(MEAN_OVER + 1)])
}

/// The mean of all values.
pub(super) fn of_all(values: &[f32]) -> f32 {
    mean(values)
}

/// The mean of the values from the second place on, as many as it is to be of.
pub(super) fn from_second(values: &[f32]) -> f32 {
    mean(&values[1..values.len().min(MEAN_OVER + 1)])
}

/// The mean of the values without the two ends.
pub(super) fn without_ends(values: &[f32]) -> f32 {
    mean(&values[1..(values.len() - 1).clamp(2, MEAN_OVER)])
}

/// The sum without place 0, where the value is 0: the mean is the same.
pub(super) fn without_place_0(values: &[f32]) -> f32 {
    let first = first(values);
    (sum(&first[1..]) / count(&first)).max(1e-6)
}

/// Each magnitude is divided, and then they are summed.
pub(super) fn divided_at_each_step(values: &[f32]) -> f32 {
    let first = first(values);
    let parts: Vec<f32> = first.iter().map(|a| a / count(&first)).collect();
    sum(&parts).max(1e-6)
}

/// The mean is carried from magnitude to magnitude.
pub(super) fn carried(values: &[f32]) -> f32 {
    let places = first(values).into_iter().zip(1u16..);
    places.fold(0.0, |mean: f32, (a, known)| mean + (a - mean) / f32::from(known)).max(1e-6)
}

/// The sum is multiplied by the reciprocal of their number.
pub(super) fn by_reciprocal(values: &[f32]) -> f32 {
    let first = first(values);
    (sum(&first) * (1.0 / count(&first))).max(1e-6)
}

/// The sum is divided by 1,024, also where there are fewer; by one less, and by one more.
pub(super) fn by_1024(values: &[f32]) -> f32 {
    (sum(&first(values)) / 1024.0).max(1e-6)
}

pub(super) fn by_one_less(values: &[f32]) -> f32 {
    let first = first(values);
    (sum(&first) / (count(&first) - 1.0)).max(1e-6)
}

pub(super) fn by_one_more(values: &[f32]) -> f32 {
    let first = first(values);
    (sum(&first) / (count(&first) + 1.0)).max(1e-6)
}

/// The sum is worked out in doubles and rounded once, and so is the mean.
pub(super) fn in_doubles(values: &[f32]) -> f32 {
    let first = first(values);
    let sum: f64 = first.iter().map(|a| f64::from(*a)).sum();
    ((sum / first.len() as f64) as f32).max(1e-6)
}

pub(super) fn sum_in_doubles(values: &[f32]) -> f32 {
    let first = first(values);
    let sum: f64 = first.iter().map(|a| f64::from(*a)).sum();
    (sum as f32 / count(&first)).max(1e-6)
}

/// The magnitudes are summed from the last on.
pub(super) fn from_last(values: &[f32]) -> f32 {
    let mut first = first(values);
    first.reverse();
    (sum(&first) / count(&first)).max(1e-6)
}

/// Every fourth is summed, and then the four sums.
pub(super) fn in_four_sums(values: &[f32]) -> f32 {
    let first = first(values);
    let every_fourth = |from: usize| first.iter().skip(from).step_by(4).fold(0.0, |sum: f32, a| sum + a);
    let sums: Vec<f32> = (0..4).map(every_fourth).collect();
    (sum(&sums) / count(&first)).max(1e-6)
}

/// The values are summed with their signs.
pub(super) fn of_values(values: &[f32]) -> f32 {
    let first = &values[..values.len().min(MEAN_OVER)];
    (sum(first) / count(first)).max(1e-6)
}

pub(super) fn magnitude_of_mean(values: &[f32]) -> f32 {
    let first = &values[..values.len().min(MEAN_OVER)];
    (sum(first) / count(first)).abs().max(1e-6)
}

/// The mean is not raised, or only from 0, or 1e-6 is added to it.
pub(super) fn not_raised(values: &[f32]) -> f32 {
    let first = first(values);
    sum(&first) / count(&first)
}

pub(super) fn raised_from_0(values: &[f32]) -> f32 {
    let mean = not_raised(values);
    if mean == 0.0 {
        1e-6
    } else {
        mean
    }
}

pub(super) fn added(values: &[f32]) -> f32 {
    not_raised(values) + 1e-6
}

/// Each magnitude is raised, and then they are summed.
pub(super) fn each_raised(values: &[f32]) -> f32 {
    let raised: Vec<f32> = first(values).iter().map(|a| a.max(1e-6)).collect();
    sum(&raised) / count(&raised)
}

/// The sum starts at 1e-6.
pub(super) fn from_least(values: &[f32]) -> f32 {
    let first = first(values);
    first.iter().fold(1e-6, |sum: f32, a| sum + a) / count(&first)
}

/// The root of the mean of the squares, the largest magnitude, and the one in the middle of their order.
pub(super) fn of_squares(values: &[f32]) -> f32 {
    let squares: Vec<f32> = first(values).iter().map(|a| a * a).collect();
    (sum(&squares) / count(&squares)).sqrt().max(1e-6)
}

pub(super) fn largest(values: &[f32]) -> f32 {
    first(values).into_iter().fold(1e-6, f32::max)
}

pub(super) fn middle(values: &[f32]) -> f32 {
    let mut first = first(values);
    first.sort_by(f32::total_cmp);
    first[first.len() / 2].max(1e-6)
}

/// The running floor of the first values.
pub(super) fn running(values: &[f32]) -> f32 {
    first(values).into_iter().fold(1e-6, |floor: f32, a| floor * (1.0 - 0.001) + a * 0.001).max(1e-6)
}
