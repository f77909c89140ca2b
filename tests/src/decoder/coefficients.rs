//! "Coefficients (2.4.4.1 to 2.4.4.3)": from levels to coefficients.

/// Sixty-four weights or coefficients, row by row. "Row is vertical frequency."
pub type Block = [i64; 64];

/// The standard's `scan[m][n]`: the zigzag position of the coefficient in row m and column n.
#[rustfmt::skip]
const SCAN: [usize; 64] = [
     0,  1,  5,  6, 14, 15, 27, 28,
     2,  4,  7, 13, 16, 26, 29, 42,
     3,  8, 12, 17, 25, 30, 41, 43,
     9, 11, 18, 24, 31, 40, 44, 53,
    10, 19, 23, 32, 39, 45, 52, 54,
    20, 22, 33, 38, 46, 51, 55, 60,
    21, 34, 37, 47, 50, 56, 59, 61,
    35, 36, 48, 49, 57, 58, 62, 63,
];

#[rustfmt::skip]
pub const DEFAULT_INTRA_MATRIX: Block = [
     8, 16, 19, 22, 26, 27, 29, 34,
    16, 16, 22, 24, 27, 29, 34, 37,
    19, 22, 26, 27, 29, 34, 34, 38,
    22, 22, 26, 27, 29, 34, 37, 40,
    22, 26, 27, 29, 32, 35, 40, 48,
    26, 27, 29, 32, 35, 40, 48, 58,
    26, 27, 29, 34, 38, 46, 56, 69,
    27, 29, 35, 38, 46, 56, 69, 83,
];

pub const DEFAULT_NON_INTRA_MATRIX: Block = [16; 64];

/// The raster index, 8 × row + column, of a zigzag position below 64.
pub fn raster_index(position: usize) -> usize {
    let index = SCAN.iter().position(|scanned| *scanned == position);
    index.expect("the scan has every position")
}

/// Reorders 64 numbers from zigzag order to row by row.
pub fn from_zigzag(zigzag: &Block) -> Block {
    SCAN.map(|position| zigzag[position])
}

/// "Intra AC: 2 × level × scale × weight / 16." Division truncates towards zero.
pub fn intra_ac(level: i64, scale: i64, weight: i64) -> i64 {
    limited(odd(2 * level * scale * weight / 16))
}

/// "Non-intra: (2 × level + sign) × scale × weight / 16."
pub fn non_intra(level: i64, scale: i64, weight: i64) -> i64 {
    limited(odd((2 * level + level.signum()) * scale * weight / 16))
}

/// "Then an even result moves one towards zero, 0 staying 0".
fn odd(result: i64) -> i64 {
    if result % 2 == 0 {
        result - result.signum()
    } else {
        result
    }
}

/// "Then it is limited to -2048..2047."
fn limited(result: i64) -> i64 {
    result.clamp(-2048, 2047)
}

/// "Pasts are 1024 at a slice's start and after any skipped or non-intra macroblock."
pub const FIRST_DC_PAST: i64 = 1024;

/// The levels of a block by zigzag position, each scaled by `scaled(level, weight)`.
pub fn coefficients(levels: &Block, matrix: &Block, scaled: impl Fn(i64, i64) -> i64) -> Block {
    let levels = from_zigzag(levels);
    std::array::from_fn(|place| scaled(levels[place], matrix[place]))
}
