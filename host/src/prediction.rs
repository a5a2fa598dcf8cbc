//! The prediction step of a gap's repair and the fill that rests on it, as document 01 has them from "r[lag]" to
//! "narrowed to f32", written from the document's text. The original answers no order: by request P8 of document 02
//! this step does. Wherever the model of the calls fills a gap, these fills have to be the original's, bit for bit
//! (`inpaint.rs`).
use crate::wrong;
use std::ops::Range;

/// The bound of "|e|<1e-12", and what a pivot is raised to.
pub const BOUND: f64 = 1e-12;

/// The 1e-6 of "1+1e-6" and of "1e-6*b[0]".
pub const SHARE: f64 = 1e-6;

/// Where the recursion ends.
#[derive(Clone, Copy, Debug, PartialEq, Eq)]
pub enum Stop {
    /// It does not begin, since r[0] is at most 0.
    AtOnce,
    /// Before the k of the next order is used, since |e| is below 1e-12.
    BeforeK,
    /// After the k of its last order was used, since e is then at most 0.
    AfterK,
    /// Nowhere: the k of every order is used.
    Nowhere,
}

/// How far a model got.
#[derive(Clone, Copy, Debug, PartialEq, Eq)]
pub struct Reach {
    /// "The highest order it used, 0 when it stopped at once", and the highest that it could use.
    pub order: u32,
    pub p: u32,
    pub stop: Stop,
    /// How many of the coefficients behind the first are not zero.
    pub nonzero: u32,
}

/// The coefficients 1, a[1], .., a[p], how far the model got, and what e was then.
#[derive(Clone, Debug)]
pub struct Model {
    pub coefficients: Vec<f64>,
    pub reach: Reach,
    pub e: f64,
}

impl Model {
    fn new(coefficients: Vec<f64>, order: usize, stop: Stop, e: f64) -> Model {
        let p = coefficients.len() as u32 - 1;
        let nonzero = coefficients[1..].iter().filter(|a| **a != 0.0).count() as u32;
        Model { coefficients, reach: Reach { order: order as u32, p, stop, nonzero }, e }
    }

    /// b[j]: the sum of a[k]*a[k+j].
    fn autocorrelation(&self) -> Vec<f64> {
        let a = &self.coefficients;
        (0..a.len()).map(|j| a.iter().zip(&a[j..]).fold(0.0, |sum, (x, y)| sum + x * y)).collect()
    }
}

/// "The model is 1,0,..,0."
fn unit(p: usize) -> Vec<f64> {
    let mut a = vec![0.0; p + 1];
    a[0] = 1.0;
    a
}

/// "`levinson` runs: it stops at |e|<1e-12 before using k, and at e≤0 after it." The lags are r[0] to r[p].
pub fn levinson(r: &[f64]) -> Model {
    let p = r.len() - 1;
    let (mut a, mut e) = (unit(p), r[0]);
    for i in 1..=p {
        let missing = (1..i).fold(r[i], |sum, j| sum + a[j] * r[i - j]);
        if e.abs() < BOUND {
            return Model::new(a, i - 1, Stop::BeforeK, e);
        }
        let k = -missing / e;
        let before = a.clone();
        for j in 1..i {
            a[j] = before[j] + k * before[i - j];
        }
        a[i] = k;
        e *= 1.0 - k * k;
        if e <= 0.0 {
            return Model::new(a, i, Stop::AfterK, e);
        }
    }
    Model::new(a, p, Stop::Nowhere, e)
}

/// The doubles of a window, the places of its gap, and p.
pub struct Window {
    pub doubles: Vec<f64>,
    pub gap: Range<usize>,
    pub p: usize,
}

impl Window {
    /// "Everything in it outside the gap is known."
    fn is_known(&self, place: usize) -> bool {
        !self.gap.contains(&place)
    }

    /// "r[lag], lag 0..p: sum over ascending i of products of known pairs."
    pub fn lags(&self) -> Vec<f64> {
        let x = &self.doubles;
        let known = |lag: usize| (lag..x.len()).filter(move |i| self.is_known(*i) && self.is_known(i - lag));
        (0..=self.p).map(|lag| known(lag).fold(0.0, |sum, i| sum + x[i] * x[i - lag])).collect()
    }

    /// "If r[0]≤0 the model is 1,0,..,0. Else r[0] is multiplied by 1+1e-6 and `levinson` runs."
    pub fn model(&self) -> Model {
        let mut r = self.lags();
        if r[0] <= 0.0 {
            return Model::new(unit(self.p), 0, Stop::AtOnce, r[0]);
        }
        r[0] *= 1.0 + SHARE;
        wrong::lags(&mut r);
        levinson(&r)
    }

    /// "Right side from known neighbours within p", for each place of the gap.
    fn right_side(&self, b: &[f64]) -> Vec<f64> {
        let of = |place: usize| {
            let near = place.saturating_sub(self.p)..(place + self.p + 1).min(self.doubles.len());
            let known = near.filter(|other| self.is_known(*other));
            -known.fold(0.0, |sum, other| sum + b[place.abs_diff(other)] * self.doubles[other])
        };
        self.gap.clone().map(of).collect()
    }

    /// The gap's new samples by a model: "forward and back solves; narrowed to f32".
    pub fn fill(&self, model: &Model) -> Vec<f32> {
        let b = model.autocorrelation();
        let band = Band::factored(&b, self.gap.len());
        let y = band.forward(&self.right_side(&b));
        band.backward(&y).into_iter().map(|x| x as f32).collect()
    }

    /// The pivots of that fill, of each of which a square root is taken.
    pub fn pivots(&self, model: &Model) -> Vec<f64> {
        let b = model.autocorrelation();
        let band = Band::factored(&b, self.gap.len());
        band.rows.iter().map(|row| pivot(&b, &row[..row.len() - 1])).collect()
    }
}

/// "Diagonal plus 1e-6*b[0]; .. pivot raised to at least 1e-12", of the row that has these places before its diagonal.
fn pivot(b: &[f64], before: &[f64]) -> f64 {
    before.iter().fold(b[0] + SHARE * b[0], |sum, x| sum - x * x).max(BOUND)
}

/// The lower triangle of the banded matrix: of each row the places from p before the diagonal on, or from the first one
/// on, up to the diagonal.
struct Band {
    p: usize,
    rows: Vec<Vec<f64>>,
}

impl Band {
    /// "Banded Cholesky, pivot raised to at least 1e-12 before its square root."
    fn factored(b: &[f64], len: usize) -> Band {
        let mut band = Band { p: b.len() - 1, rows: Vec::new() };
        for i in 0..len {
            band.rows.push(Vec::new());
            for j in band.first(i)..=i {
                let cell = band.cell(b, i, j);
                band.rows[i].push(cell);
            }
        }
        band
    }

    /// The first column of row i that the band has.
    fn first(&self, i: usize) -> usize {
        i.saturating_sub(self.p)
    }

    /// The factor's place in row i and column j, which is the next one to be worked out.
    fn cell(&self, b: &[f64], i: usize, j: usize) -> f64 {
        if i == j {
            return pivot(b, &self.rows[i]).sqrt();
        }
        let above = &self.rows[j][self.first(i) - self.first(j)..];
        let sum = self.rows[i].iter().zip(above).fold(b[i - j], |sum, (x, y)| sum - x * y);
        sum / self.at(j, j)
    }

    fn at(&self, i: usize, j: usize) -> f64 {
        self.rows[i][j - self.first(i)]
    }

    fn forward(&self, right: &[f64]) -> Vec<f64> {
        let mut y: Vec<f64> = Vec::new();
        for (i, row) in self.rows.iter().enumerate() {
            let sum = row.iter().zip(&y[self.first(i)..]).fold(right[i], |sum, (cell, y)| sum - cell * y);
            y.push(sum / self.at(i, i));
        }
        y
    }

    fn backward(&self, y: &[f64]) -> Vec<f64> {
        let mut x = y.to_vec();
        for i in (0..y.len()).rev() {
            let behind = i + 1..(i + self.p + 1).min(y.len());
            x[i] = behind.fold(y[i], |sum, k| sum - self.at(k, i) * x[k]) / self.at(i, i);
        }
        x
    }
}
