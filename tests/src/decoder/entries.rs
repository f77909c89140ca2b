//! The public entries other than the readers of pictures, each with its refusal, and all entries as one table.

use super::coefficients::{intra_ac, non_intra};
use super::file::{first_header, record};
use super::refusals::{Answer, Refusal};
use super::slice::ReadSlice;
use super::transform::{inverse_transform, rows_worked};
use super::vectors::{code_legal, decoded, encoded, f_of, residual_legal};

/// What a file's header says of its picture, with width and height in macroblocks, and the offset of the records after it.
#[derive(Clone, Copy, Debug, PartialEq, Eq)]
pub struct FileStart {
    pub picture_type: u32,
    pub width: u32,
    pub height: u32,
    pub records_start: usize,
}

/// A record shown by itself: its kind, and where its body is in the file.
#[derive(Clone, Copy, Debug, PartialEq, Eq)]
pub struct Shown {
    pub kind: u8,
    pub start: usize,
    pub length: usize,
}

/// The residues of a block, row by row, and how many rows of its coefficients the transform worked.
#[derive(Clone, Copy, Debug, PartialEq, Eq)]
pub struct Transformed {
    pub residues: [i16; 64],
    pub rows: usize,
}

/// The code and residual of a component of a vector.
#[derive(Clone, Copy, Debug, PartialEq, Eq)]
pub struct EncodedVector {
    pub code: i32,
    pub residual: u32,
}

/// Reads the header of a file.
pub type ReadHeader = fn(&[u8]) -> (u32, FileStart);

/// Makes a picture in the output from a file, a forward and a backward reference.
pub type Reconstruct = fn(&[u8], &[u8], &[u8], &mut [u8]) -> Answer;

/// Transforms 64 coefficients, row by row.
pub type Transform = fn(&[i16; 64]) -> (u32, Transformed);

/// Decodes a component of a vector, given an f_code, a past, a code and a residual.
pub type DecodeVector = fn(i32, i32, i32, i32) -> (u32, i32);

/// Encodes a component of a vector, given an f_code, a past and the wanted vector.
pub type EncodeVector = fn(i32, i32, i32) -> (u32, EncodedVector);

/// The entries of an implementation. A number beside a value is 0 or a refusal's.
#[derive(Clone, Copy)]
pub struct Entries {
    pub read_header: ReadHeader,
    pub reconstruct: Reconstruct,
    /// For pictures of at most 99 macroblocks.
    pub reconstruct_small: Reconstruct,
    pub transform: Transform,
    pub intra_coefficient: fn(i32, i32, i32) -> (u32, i16),
    pub non_intra_coefficient: fn(i32, i32, i32) -> (u32, i16),
    pub vector: DecodeVector,
    pub encode_vector: EncodeVector,
    pub show_record: fn(&[u8], usize) -> (u32, Shown),
    pub read_slice: ReadSlice,
}

/// This decoder's entries.
pub const ENTRIES: Entries = Entries {
    read_header,
    reconstruct: super::picture::reconstruct,
    reconstruct_small: super::picture::reconstruct_small,
    transform,
    intra_coefficient: |level, scale, weight| coefficient(intra_ac, level, scale, weight),
    non_intra_coefficient: |level, scale, weight| coefficient(non_intra, level, scale, weight),
    vector,
    encode_vector,
    show_record,
    read_slice: super::slice::read_slice,
};

/// "22 a number out of the ranges above, given straight to the coefficient, transform or vector entry. These then give
/// zeros."
fn refused<T>(zeros: T) -> (u32, T) {
    (Refusal::NumberOutOfRange.number(), zeros)
}

/// Request No. 6: "With 22 it is 0."
fn transform(coefficients: &[i16; 64]) -> (u32, Transformed) {
    if coefficients.iter().any(|c| !(-2048..=2047).contains(c)) {
        return refused(Transformed {
            residues: [0; 64],
            rows: 0,
        });
    }
    let coefficients = coefficients.map(i64::from);
    let residues = inverse_transform(&coefficients);
    let transformed = Transformed {
        residues: residues.map(|residue| residue as i16),
        rows: rows_worked(&coefficients),
    };
    (0, transformed)
}

/// "A level of 0 is in range there, and a weight is 1..255."
fn coefficient(rule: fn(i64, i64, i64) -> i64, level: i32, scale: i32, weight: i32) -> (u32, i16) {
    let in_range =
        (-255..=255).contains(&level) && (1..=31).contains(&scale) && (1..=255).contains(&weight);
    if !in_range {
        return refused(0);
    }
    (0, rule(level.into(), scale.into(), weight.into()) as i16)
}

/// f, if the f_code and the past are in range: "An f_code is 1..7", and a past is in "-16f..16f-1".
fn f_in_range(f_code: i32, past: i64) -> Option<i64> {
    let f = (1..=7).contains(&f_code).then(|| f_of(f_code.into()))?;
    (-16 * f..16 * f).contains(&past).then_some(f)
}

fn vector(f_code: i32, past: i32, code: i32, residual: i32) -> (u32, i32) {
    let [past, code, residual] = [past, code, residual].map(i64::from);
    match f_in_range(f_code, past) {
        Some(f) if code_legal(code) && residual_legal(f, code, residual) => {
            (0, decoded(f, past, code, residual) as i32)
        }
        _ => refused(0),
    }
}

/// Request No. 12: "33 when no pair reaches the wanted vector, or past or f_code is out of range; both are then 0."
fn encode_vector(f_code: i32, past: i32, wanted: i32) -> (u32, EncodedVector) {
    let [past, wanted] = [past, wanted].map(i64::from);
    let pair = f_in_range(f_code, past).and_then(|f| encoded(f, past, wanted));
    let Some((code, residual)) = pair else {
        let zeros = EncodedVector {
            code: 0,
            residual: 0,
        };
        return (Refusal::VectorUnreachable.number(), zeros);
    };
    let encoded = EncodedVector {
        code: code as i32,
        residual: residual as u32,
    };
    (0, encoded)
}

/// A refusal gives zeros.
fn read_header(file: &[u8]) -> (u32, FileStart) {
    match first_header(file) {
        Ok((header, records_start)) => {
            let start = FileStart {
                picture_type: header.picture_type.number().into(),
                width: header.size.width as u32,
                height: header.size.height as u32,
                records_start,
            };
            (0, start)
        }
        Err(refusal) => {
            let zeros = FileStart {
                picture_type: 0,
                width: 0,
                height: 0,
                records_start: 0,
            };
            (refusal.number(), zeros)
        }
    }
}

/// "A record can be shown by itself, from an offset." "A refusal shows kind 0 and an empty part."
fn show_record(file: &[u8], offset: usize) -> (u32, Shown) {
    match record(file, offset) {
        Ok(record) => {
            let shown = Shown {
                kind: record.kind,
                start: offset + 3,
                length: record.body.len(),
            };
            (0, shown)
        }
        Err(refusal) => {
            let empty = Shown {
                kind: 0,
                start: 0,
                length: 0,
            };
            (refusal.number(), empty)
        }
    }
}
