//! The functions and structs of `format3.h` as they are in C: numbers, pointers and lengths.
//!
//! This is for a caller who needs the plain numbers, for example to compare what a refused call writes. Anyone else calls
//! the safe functions of the crate. The header has each function's contract. In short, a caller must ensure:
//!
//! - A pointer and the length after it describe one buffer, all of which may be read, and written if it is `*mut`. If the
//!   length is 0, the pointer is not used and may be null.
//! - Every other pointer is aligned, not null, and points to a value of its type.
//! - What is written through one pointer overlaps nothing that another pointer of the call points to.
//! - Nobody else writes to these buffers during the call, or reads what the call writes.
//! - There is enough stack for the call ([`stack`](crate::stack)).
//!
//! A function that returns a number returns 0 if it accepts, or that of a [`Refusal`](crate::Refusal). Either way it sets
//! every field, or every number, that it has a pointer to.

/// `struct format3_header`.
#[repr(C)]
#[derive(Clone, Copy, Debug, Default, PartialEq, Eq)]
pub struct Header {
    /// 1 for I, 2 for P, 3 for B.
    pub coding_type: u32,
    /// In macroblocks.
    pub width: u32,
    /// In macroblocks.
    pub height: u32,
    /// The offset in the file of the records after the header.
    pub records_start: usize,
}

/// `struct format3_record`.
#[repr(C)]
#[derive(Clone, Copy, Debug, Default, PartialEq, Eq)]
pub struct Record {
    /// 1 for a header, 2 for a matrix, 3 for a slice, 4 for a macroblock.
    pub kind: u8,
    /// The offset of the body in the file.
    pub start: usize,
    /// The length of the body.
    pub length: usize,
}

/// `struct format3_picture_result`.
#[repr(C)]
#[derive(Clone, Copy, Debug, Default, PartialEq, Eq)]
pub struct PictureResult {
    /// Where reconstruction ended: a byte offset in the file.
    pub place: usize,
    /// The count of macroblocks that are in the output.
    pub made: usize,
    /// The count of rows that the transform worked for these.
    pub rows: usize,
}

/// `struct format3_picture_parameters`.
#[repr(C)]
#[derive(Clone, Copy, Debug, Default, PartialEq, Eq)]
pub struct PictureParameters {
    /// In macroblocks.
    pub width: u32,
    /// In macroblocks.
    pub height: u32,
    /// 1 for I, 2 for P, 3 for B.
    pub coding_type: u32,
    /// 1 to 7 for P and B, else 0.
    pub forward_f_code: u32,
    /// 1 to 7 for B, else 0.
    pub backward_f_code: u32,
}

/// `struct format3_slice_result`.
#[repr(C)]
#[derive(Clone, Copy, Debug, Default, PartialEq, Eq)]
pub struct SliceResult {
    /// The count of bytes written to the records.
    pub written: usize,
    /// A byte of the slice.
    pub byte: usize,
    /// A bit of that byte; 0 is the most significant.
    pub bit: usize,
}

/// A reader of pictures: [`format3_reconstruct`] or [`format3_reconstruct_small`].
pub type Reconstruct = unsafe extern "C" fn(
    file: *const u8,
    file_length: usize,
    forward: *const u8,
    forward_length: usize,
    backward: *const u8,
    backward_length: usize,
    output: *mut u8,
    output_length: usize,
    result: *mut PictureResult,
) -> u32;

// The build script links the library.
extern "C" {
    /// Returns the version of the interface that the library was built with.
    pub fn format3_api_version() -> u32;

    /// Reads the header of a file.
    pub fn format3_read_header(file: *const u8, file_length: usize, header: *mut Header) -> u32;

    /// Finds the record at an offset of a file.
    pub fn format3_show_record(
        file: *const u8,
        file_length: usize,
        offset: usize,
        shown: *mut Record,
    ) -> u32;

    /// Reconstructs the picture of a file.
    pub fn format3_reconstruct(
        file: *const u8,
        file_length: usize,
        forward: *const u8,
        forward_length: usize,
        backward: *const u8,
        backward_length: usize,
        output: *mut u8,
        output_length: usize,
        result: *mut PictureResult,
    ) -> u32;

    /// Reconstructs the picture of a file, if it has at most 99 macroblocks.
    pub fn format3_reconstruct_small(
        file: *const u8,
        file_length: usize,
        forward: *const u8,
        forward_length: usize,
        backward: *const u8,
        backward_length: usize,
        output: *mut u8,
        output_length: usize,
        result: *mut PictureResult,
    ) -> u32;

    /// Turns a slice of a video stream into records.
    pub fn format3_read_slice(
        slice: *const u8,
        slice_length: usize,
        parameters: *const PictureParameters,
        records: *mut u8,
        records_length: usize,
        result: *mut SliceResult,
    ) -> u32;

    /// The inverse transform.
    pub fn format3_transform(
        coefficients: *const [i16; 64],
        residues: *mut [i16; 64],
        rows: *mut usize,
    ) -> u32;

    /// Dequantizes an intra AC level.
    pub fn format3_intra_coefficient(
        level: i32,
        scale: i32,
        weight: i32,
        coefficient: *mut i16,
    ) -> u32;

    /// Dequantizes a non-intra level.
    pub fn format3_non_intra_coefficient(
        level: i32,
        scale: i32,
        weight: i32,
        coefficient: *mut i16,
    ) -> u32;

    /// Decodes one component of a motion vector.
    pub fn format3_vector(
        f_code: u32,
        past: i32,
        code: i32,
        residual: u32,
        vector: *mut i32,
    ) -> u32;

    /// Encodes one component of a motion vector.
    pub fn format3_encode_vector(
        f_code: u32,
        past: i32,
        wanted: i32,
        code: *mut i32,
        residual: *mut u32,
    ) -> u32;
}
