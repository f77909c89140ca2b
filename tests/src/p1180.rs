//! The IEEE P1180 measurement (ISO/IEC 11172-2, Annex A): compares an inverse transform with the cosine sum in floating point.

use std::f64::consts::PI;

use crate::decoder::{Transform, Transformed};

const BLOCKS: usize = 10_000;

/// The ranges of the blocks' pels: -L..H.
const RANGES: [(i32, i32); 3] = [(256, 255), (5, 5), (300, 300)];

const MAX_PEAK: f64 = 1.0;
const MAX_PLACE_SQUARE: f64 = 0.06;
const MAX_SQUARE: f64 = 0.02;
const MAX_PLACE_MEAN: f64 = 0.015;
const MAX_MEAN: f64 = 0.0015;

/// The errors over the blocks of one range: the worst of the 64 raster indices, and all of them together.
#[derive(Debug)]
pub struct Figures {
    pub low: i32,
    pub high: i32,
    pub negated: bool,
    pub peak: f64,
    pub place_square: f64,
    pub square: f64,
    pub place_mean: f64,
    pub mean: f64,
}

impl Figures {
    pub fn met(&self) -> bool {
        self.peak <= MAX_PEAK
            && self.place_square <= MAX_PLACE_SQUARE
            && self.square <= MAX_SQUARE
            && self.place_mean <= MAX_PLACE_MEAN
            && self.mean <= MAX_MEAN
    }

    pub fn line(&self) -> String {
        format!(
            "{}..{}{}: peak {}, square {:.6} at worst, {:.6} in all, mean {:.6} at worst, {:.6} in all: {}",
            self.low,
            self.high,
            if self.negated { " negated" } else { "" },
            self.peak,
            self.place_square,
            self.square,
            self.place_mean,
            self.mean,
            if self.met() { "met" } else { "NOT MET" },
        )
    }
}

/// The errors for each range, and for each range negated.
pub fn measure(transform: Transform) -> Vec<Figures> {
    let cosines = Cosines::new();
    RANGES
        .into_iter()
        .flat_map(|range| [false, true].map(|negated| (range, negated)))
        .map(|((l, h), negated)| measure_range(transform, &cosines, l, h, negated))
        .collect()
}

/// "Zero in gives zero out"; no row is worked.
pub fn zero_gives_zero(transform: Transform) -> bool {
    let zeros = Transformed {
        residues: [0; 64],
        rows: 0,
    };
    transform(&[0; 64]) == (0, zeros)
}

fn measure_range(
    transform: Transform,
    cosines: &Cosines,
    l: i32,
    h: i32,
    negated: bool,
) -> Figures {
    let mut random = StandardRandom { state: 1 };
    let mut peak: f64 = 0.0;
    let mut sums = [0.0; 64];
    let mut squares = [0.0; 64];
    for _ in 0..BLOCKS {
        let sign = if negated { -1 } else { 1 };
        let pels = std::array::from_fn(|_| f64::from(sign * random.next(l, h)));
        let coefficients = cosines.forward(&pels).map(|c| rounded(c, -2048.0, 2047.0));
        let reference = cosines
            .inverse(&coefficients)
            .map(|p| rounded(p, -256.0, 255.0));
        let (number, Transformed { residues, .. }) = transform(&coefficients.map(|c| c as i16));
        assert_eq!(number, 0, "coefficients in range are not refused");
        for place in 0..64 {
            let error = f64::from(residues[place]) - reference[place];
            peak = peak.max(error.abs());
            sums[place] += error;
            squares[place] += error * error;
        }
    }
    let blocks = BLOCKS as f64;
    let worst = |sums: &[f64; 64]| {
        sums.iter()
            .fold(0.0, |worst: f64, sum| worst.max(sum.abs()))
    };
    let total = |sums: &[f64; 64]| sums.iter().sum::<f64>().abs();
    Figures {
        low: -l,
        high: h,
        negated,
        peak,
        place_square: worst(&squares) / blocks,
        square: total(&squares) / (64.0 * blocks),
        place_mean: worst(&sums) / blocks,
        mean: total(&sums) / (64.0 * blocks),
    }
}

fn rounded(value: f64, low: f64, high: f64) -> f64 {
    (value + 0.5).floor().clamp(low, high)
}

/// The standard's random number generator, on 32 bits.
struct StandardRandom {
    state: u32,
}

impl StandardRandom {
    fn next(&mut self, l: i32, h: i32) -> i32 {
        self.state = self.state.wrapping_mul(1103515245).wrapping_add(12345);
        let bits = self.state & 0x7fff_fffe;
        let x = f64::from(bits) / f64::from(0x7fff_ffff);
        (x * f64::from(l + h + 1)) as i32 - l
    }
}

/// `factors[u][p]`: cos((2p+1) × u × pi / 16), times sqrt(1/8) for u = 0 and 1/2 for the others.
struct Cosines {
    factors: [[f64; 8]; 8],
}

impl Cosines {
    fn new() -> Cosines {
        let factor = |u: usize, p: usize| {
            let scale = if u == 0 { 0.125_f64.sqrt() } else { 0.5 };
            scale * (((2 * p + 1) * u) as f64 * PI / 16.0).cos()
        };
        Cosines {
            factors: std::array::from_fn(|u| std::array::from_fn(|p| factor(u, p))),
        }
    }

    fn forward(&self, pels: &[f64; 64]) -> [f64; 64] {
        both_ways(pels, |u, p| self.factors[u][p])
    }

    fn inverse(&self, coefficients: &[f64; 64]) -> [f64; 64] {
        both_ways(coefficients, |p, u| self.factors[u][p])
    }
}

/// At each row and column: the sum of `factor(row, i) * factor(column, j) * block[i][j]`.
fn both_ways(block: &[f64; 64], factor: impl Fn(usize, usize) -> f64) -> [f64; 64] {
    let rows: [f64; 64] = std::array::from_fn(|at| {
        let (i, column) = (at / 8, at % 8);
        (0..8).map(|j| factor(column, j) * block[8 * i + j]).sum()
    });
    std::array::from_fn(|at| {
        let (row, column) = (at / 8, at % 8);
        (0..8).map(|i| factor(row, i) * rows[8 * i + column]).sum()
    })
}
