//! "Vectors and prediction (2.4.4.2, 2.4.4.3)": from codes to vectors and back, and from vectors to predicted pels.

use std::ops::RangeInclusive;

use super::size::{Plane, Size};

/// Horizontal and vertical component, in half pels.
pub type Vector = [i64; 2];

/// A macroblock's forward and backward vector, if it uses them.
pub type Vectors = [Option<Vector>; 2];

/// "With f = 2^(f_code - 1)".
pub fn f_of(f_code: i64) -> i64 {
    1 << (f_code - 1)
}

/// The codes that there are.
const CODES: RangeInclusive<i64> = -16..=16;

/// "A code is -16..16".
pub fn code_legal(code: i64) -> bool {
    CODES.contains(&code)
}

/// "Its residual is below f, and 0 when the code is 0."
pub fn residual_legal(f: i64, code: i64, residual: i64) -> bool {
    (0..f).contains(&residual) && (code != 0 || residual == 0)
}

/// "The difference is 0 for code 0, else (|code| - 1) × f + residual + 1 with the code's sign."
fn difference(f: i64, code: i64, residual: i64) -> i64 {
    code.signum() * ((code.abs() - 1) * f + residual + 1)
}

/// "It is added to the past; a sum outside -16f..16f-1 moves by 32f back inside."
pub fn decoded(f: i64, past: i64, code: i64, residual: i64) -> i64 {
    let sum = past + difference(f, code, residual);
    if sum < -16 * f {
        sum + 32 * f
    } else if sum > 16 * f - 1 {
        sum - 32 * f
    } else {
        sum
    }
}

/// Every code with every residual that it may have.
pub fn legal_pairs(f: i64) -> impl Iterator<Item = (i64, i64)> {
    let pairs = CODES.flat_map(move |code| (0..f).map(move |residual| (code, residual)));
    pairs.filter(move |(code, residual)| residual_legal(f, *code, *residual))
}

/// The code and residual from which the wanted vector is decoded, found among all of them. Request No. 12: "At most one pair can do
/// so, except where wanted and past, both in range, differ by 16f; there two can, and the positive code is given."
pub fn encoded(f: i64, past: i64, wanted: i64) -> Option<(i64, i64)> {
    let reaches = |(code, residual): &(i64, i64)| decoded(f, past, *code, *residual) == wanted;
    legal_pairs(f).filter(reaches).max_by_key(|(code, _)| *code)
}

/// "Luma takes the floor of half and the odd bit": whole pels, and 1 for an extra half pel.
pub fn luma(vector: i64) -> (i64, i64) {
    (vector.div_euclid(2), vector.rem_euclid(2))
}

/// "Chroma first halves towards zero, then does the same."
pub fn chroma(vector: i64) -> (i64, i64) {
    luma(vector / 2)
}

/// "At leftmost pel X in a plane W wide, vector r fits when 0 ≤ 2X + r ≤ 2(W - 16), likewise down".
pub fn fits(size: Size, address: usize, vector: Vector) -> bool {
    let [plane, ..] = size.planes();
    let (column, row) = size.column_row(address);
    fits_along(plane.width, 16 * column, vector[0]) && fits_along(plane.height, 16 * row, vector[1])
}

fn fits_along(extent: usize, start: usize, vector: i64) -> bool {
    let reach = 2 * start as i64 + vector;
    0 <= reach && reach <= 2 * (extent as i64 - 16)
}

/// "Means of two and four round halves up, as does the mean of both directions."
pub fn mean(sum: i64, count: i64) -> i64 {
    (sum + count / 2) / count
}

/// The pel predicted at column `x` and line `y` of a plane from one reference, whose vector fits.
fn from_reference(reference: &[u8], plane: Plane, x: usize, y: usize, vector: Vector) -> i64 {
    let split = if plane.side == 16 { luma } else { chroma };
    let [(right, half_right), (down, half_down)] = vector.map(split);
    let mut sum = 0;
    for line in 0..=half_down {
        for column in 0..=half_right {
            let from_x = x as i64 + right + column;
            let from_y = y as i64 + down + line;
            sum += i64::from(reference[plane.offset(from_x as usize, from_y as usize)]);
        }
    }
    mean(sum, (1 + half_right) * (1 + half_down))
}

/// The pel predicted at column `x` and line `y` of a plane: from the one direction used, or the mean of both.
pub fn prediction(
    references: [&[u8]; 2],
    plane: Plane,
    x: usize,
    y: usize,
    vectors: Vectors,
) -> i64 {
    let mut sum = 0;
    let mut count = 0;
    for (reference, vector) in references.into_iter().zip(vectors) {
        if let Some(vector) = vector {
            sum += from_reference(reference, plane, x, y, vector);
            count += 1;
        }
    }
    mean(sum, count)
}
