//! The exported library as entries, with the numbers and structs that it returns. Each result holds other numbers before the
//! call, so that one that is not written shows.
#![allow(unsafe_code)]

use format3::raw;

use crate::decoder::entries::{Entries, FileStart, Shown};
use crate::decoder::{Answer, EncodedVector, Given, SliceAnswer, Transformed};

/// The library's entries.
pub const ENTRIES: Entries = Entries {
    read_header,
    reconstruct: |file, forward, backward, output| {
        reconstruct(raw::format3_reconstruct, file, [forward, backward], output)
    },
    reconstruct_small: |file, forward, backward, output| {
        reconstruct(
            raw::format3_reconstruct_small,
            file,
            [forward, backward],
            output,
        )
    },
    transform,
    intra_coefficient: |level, scale, weight| {
        coefficient(raw::format3_intra_coefficient, level, scale, weight)
    },
    non_intra_coefficient: |level, scale, weight| {
        coefficient(raw::format3_non_intra_coefficient, level, scale, weight)
    },
    vector,
    encode_vector,
    show_record,
    read_slice,
};

type Coefficient = unsafe extern "C" fn(i32, i32, i32, *mut i16) -> u32;

/// What a result holds before the call.
const UNWRITTEN: usize = 0x5a5a_5a5a;

fn read_header(file: &[u8]) -> (u32, FileStart) {
    let mut header = raw::Header {
        coding_type: UNWRITTEN as u32,
        width: UNWRITTEN as u32,
        height: UNWRITTEN as u32,
        records_start: UNWRITTEN,
    };
    // SAFETY: the file's pointer goes with its length; the other belongs to a live struct.
    let number = unsafe { raw::format3_read_header(file.as_ptr(), file.len(), &mut header) };
    let start = FileStart {
        picture_type: header.coding_type,
        width: header.width,
        height: header.height,
        records_start: header.records_start,
    };
    (number, start)
}

fn reconstruct(
    entry: raw::Reconstruct,
    file: &[u8],
    references: [&[u8]; 2],
    output: &mut [u8],
) -> Answer {
    let [forward, backward] = references;
    let mut result = raw::PictureResult {
        place: UNWRITTEN,
        made: UNWRITTEN,
        rows: UNWRITTEN,
    };
    // SAFETY: each pointer belongs to a live slice, with its length, or to a live struct, and what is written overlaps nothing.
    let number = unsafe {
        entry(
            file.as_ptr(),
            file.len(),
            forward.as_ptr(),
            forward.len(),
            backward.as_ptr(),
            backward.len(),
            output.as_mut_ptr(),
            output.len(),
            &mut result,
        )
    };
    Answer {
        number,
        place: result.place,
        made: result.made,
        rows: result.rows,
    }
}

fn transform(coefficients: &[i16; 64]) -> (u32, Transformed) {
    let mut residues = [UNWRITTEN as i16; 64];
    let mut rows = UNWRITTEN;
    // SAFETY: the pointers belong to separate live arrays of 64 numbers and to a live number.
    let number = unsafe { raw::format3_transform(coefficients, &mut residues, &mut rows) };
    (number, Transformed { residues, rows })
}

fn coefficient(entry: Coefficient, level: i32, scale: i32, weight: i32) -> (u32, i16) {
    let mut coefficient = UNWRITTEN as i16;
    // SAFETY: the pointer belongs to a live number.
    let number = unsafe { entry(level, scale, weight, &mut coefficient) };
    (number, coefficient)
}

/// A negative f_code or residual wraps to one far above its range, as in C.
fn vector(f_code: i32, past: i32, code: i32, residual: i32) -> (u32, i32) {
    let mut vector = UNWRITTEN as i32;
    let (f_code, residual) = (f_code as u32, residual as u32);
    // SAFETY: the pointer belongs to a live number.
    let number = unsafe { raw::format3_vector(f_code, past, code, residual, &mut vector) };
    (number, vector)
}

/// A negative f_code wraps, as above.
fn encode_vector(f_code: i32, past: i32, wanted: i32) -> (u32, EncodedVector) {
    let mut code = UNWRITTEN as i32;
    let mut residual = UNWRITTEN as u32;
    // SAFETY: the pointers belong to separate live numbers.
    let number = unsafe {
        raw::format3_encode_vector(f_code as u32, past, wanted, &mut code, &mut residual)
    };
    (number, EncodedVector { code, residual })
}

fn show_record(file: &[u8], offset: usize) -> (u32, Shown) {
    let mut shown = raw::Record {
        kind: UNWRITTEN as u8,
        start: UNWRITTEN,
        length: UNWRITTEN,
    };
    // SAFETY: the file's pointer goes with its length; the other belongs to a live struct.
    let number = unsafe { raw::format3_show_record(file.as_ptr(), file.len(), offset, &mut shown) };
    let raw::Record {
        kind,
        start,
        length,
    } = shown;
    let shown = Shown {
        kind,
        start,
        length,
    };
    (number, shown)
}

fn read_slice(slice: &[u8], given: Given, records: &mut [u8]) -> SliceAnswer {
    let mut result = raw::SliceResult {
        written: UNWRITTEN,
        byte: UNWRITTEN,
        bit: UNWRITTEN,
    };
    let [forward_f_code, backward_f_code] = given.f_codes;
    let parameters = raw::PictureParameters {
        width: given.width,
        height: given.height,
        coding_type: given.picture_type,
        forward_f_code,
        backward_f_code,
    };
    // SAFETY: each pointer belongs to a live slice, with its length, or to a live struct, and what is written overlaps nothing.
    let number = unsafe {
        raw::format3_read_slice(
            slice.as_ptr(),
            slice.len(),
            &parameters,
            records.as_mut_ptr(),
            records.len(),
            &mut result,
        )
    };
    SliceAnswer {
        number,
        written: result.written,
        byte: result.byte,
        bit: result.bit,
    }
}
