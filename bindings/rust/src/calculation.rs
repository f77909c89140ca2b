//! Single steps of reconstruction, on numbers, and the encoding of a vector.

use crate::{raw, Refusal};

/// A transformed block.
#[derive(Clone, Copy, Debug, PartialEq, Eq)]
#[non_exhaustive]
pub struct Transformed {
    /// Row by row.
    pub residues: [i16; 64],
    /// How many of the eight rows of coefficients the transform worked: those that are not all zero.
    pub rows: usize,
}

/// The inverse transform: 64 coefficients in -2048 to 2047 to 64 residues, both row by row. It skips each row of eight zero
/// coefficients.
///
/// ```
/// use format3::{transform, Refusal};
///
/// let mut coefficients = [0; 64];
/// coefficients[0] = 8;
/// let transformed = transform(&coefficients)?;
/// assert_eq!(transformed.residues, [1; 64]);
/// assert_eq!(transformed.rows, 1);
///
/// coefficients[0] = 2048;
/// assert_eq!(transform(&coefficients), Err(Refusal::NumberOutOfRange));
/// # Ok::<(), Refusal>(())
/// ```
///
/// # Errors
///
/// [`Refusal::NumberOutOfRange`] if a coefficient is out of range.
pub fn transform(coefficients: &[i16; 64]) -> Result<Transformed, Refusal> {
    let mut residues = [0; 64];
    let mut rows = 0;
    // SAFETY: the pointers belong to separate live arrays of 64 numbers, and to a live number.
    let answer = unsafe { raw::format3_transform(coefficients, &mut residues, &mut rows) };
    Refusal::check(answer)?;
    Ok(Transformed { residues, rows })
}

/// The intra AC coefficient for a level in -255 to 255, a scale in 1 to 31 and a weight in 1 to 255.
///
/// ```
/// assert_eq!(format3::intra_coefficient(-255, 31, 83), Ok(-2048));
/// ```
///
/// # Errors
///
/// [`Refusal::NumberOutOfRange`] if the level, the scale or the weight is out of range.
pub fn intra_coefficient(level: i32, scale: i32, weight: i32) -> Result<i16, Refusal> {
    let mut coefficient = 0;
    // SAFETY: the pointer belongs to a live number.
    let answer = unsafe { raw::format3_intra_coefficient(level, scale, weight, &mut coefficient) };
    Refusal::check(answer)?;
    Ok(coefficient)
}

/// The non-intra coefficient for a level, with the same ranges as [`intra_coefficient`].
///
/// ```
/// assert_eq!(format3::non_intra_coefficient(-1, 2, 16), Ok(-5));
/// ```
///
/// # Errors
///
/// [`Refusal::NumberOutOfRange`] if the level, the scale or the weight is out of range.
pub fn non_intra_coefficient(level: i32, scale: i32, weight: i32) -> Result<i16, Refusal> {
    let mut coefficient = 0;
    // SAFETY: the pointer belongs to a live number.
    let answer =
        unsafe { raw::format3_non_intra_coefficient(level, scale, weight, &mut coefficient) };
    Refusal::check(answer)?;
    Ok(coefficient)
}

/// Decodes one component of a motion vector from its code, its residual and the past, which is the component's previous
/// value. The result is the next past, before the full-pel flag doubles it.
///
/// ```
/// use format3::{vector, Refusal};
///
/// // 15 + 1 leaves the range of f_code 1, -16 to 15, and moves back inside.
/// assert_eq!(vector(1, 15, 1, 0), Ok(-16));
/// assert_eq!(vector(0, 0, 0, 0), Err(Refusal::NumberOutOfRange));
/// ```
///
/// # Errors
///
/// [`Refusal::NumberOutOfRange`] if `f_code` is outside 1 to 7, `past` outside -16f to 16f - 1 with f = 2^(`f_code` - 1), or
/// `code` outside -16 to 16; or if `residual` is f or more, or is not 0 with code 0.
pub fn vector(f_code: u32, past: i32, code: i32, residual: u32) -> Result<i32, Refusal> {
    let mut vector = 0;
    // SAFETY: the pointer belongs to a live number.
    let answer = unsafe { raw::format3_vector(f_code, past, code, residual, &mut vector) };
    Refusal::check(answer)?;
    Ok(vector)
}

/// An encoded component of a motion vector.
#[derive(Clone, Copy, Debug, PartialEq, Eq)]
#[non_exhaustive]
pub struct EncodedVector {
    /// In -16 to 16.
    pub code: i32,
    /// Below 2^(`f_code` - 1), and 0 with code 0.
    pub residual: u32,
}

/// Encodes one component of a motion vector: the code and the residual from which [`vector`] decodes `wanted`. `past` and `wanted`
/// are numbers as [`vector`] takes and gives them, before the full-pel flag doubles them.
///
/// Every `wanted` in range is reached from every `past` in range. No other code and residual reach it, except where the two differ
/// by 16f: there both 16 and -16 do, with residual f - 1, and the code is the positive one.
///
/// ```
/// use format3::{encode_vector, vector, Refusal};
///
/// // 15 + 1 leaves the range of f_code 1, -16 to 15, and moves back inside.
/// let encoded = encode_vector(1, 15, -16)?;
/// assert_eq!((encoded.code, encoded.residual), (1, 0));
/// assert_eq!(vector(1, 15, encoded.code, encoded.residual), Ok(-16));
///
/// // 0 and -16 differ by 16f: code -16 reaches it too.
/// let encoded = encode_vector(1, 0, -16)?;
/// assert_eq!((encoded.code, encoded.residual), (16, 0));
///
/// assert_eq!(encode_vector(1, 0, 16), Err(Refusal::VectorUnreachable));
/// # Ok::<(), Refusal>(())
/// ```
///
/// # Errors
///
/// [`Refusal::VectorUnreachable`] if `f_code` is outside 1 to 7, or `past` or `wanted` outside -16f to 16f - 1 with
/// f = 2^(`f_code` - 1).
pub fn encode_vector(f_code: u32, past: i32, wanted: i32) -> Result<EncodedVector, Refusal> {
    let mut code = 0;
    let mut residual = 0;
    // SAFETY: the pointers belong to separate live numbers.
    let answer =
        unsafe { raw::format3_encode_vector(f_code, past, wanted, &mut code, &mut residual) };
    Refusal::check(answer)?;
    Ok(EncodedVector { code, residual })
}
