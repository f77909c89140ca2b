//! Slices of a video stream.

use crate::{raw, CodingType, Refusal, RefusedSlice};

/// The numbers of a picture's header that its slices are read with.
#[derive(Clone, Copy, Debug, PartialEq, Eq)]
pub struct PictureParameters {
    /// In macroblocks.
    pub width: u32,
    /// In macroblocks.
    pub height: u32,
    /// How the picture is predicted.
    pub coding_type: CodingType,
    /// 1 to 7 for P and B pictures, else 0.
    pub forward_f_code: u32,
    /// 1 to 7 for B pictures, else 0.
    pub backward_f_code: u32,
}

/// A position in a slice.
#[derive(Clone, Copy, Debug, PartialEq, Eq)]
pub struct BitPosition {
    /// The byte.
    pub byte: usize,
    /// The bit of that byte; 0 is the most significant.
    pub bit: usize,
}

/// An accepted slice.
#[derive(Clone, Copy, Debug, PartialEq, Eq)]
#[non_exhaustive]
pub struct ReadSlice {
    /// How many bytes the records take.
    pub written: usize,
    /// Where the unread rest of the slice starts; its length and bit 0 if nothing is left.
    pub rest: BitPosition,
}

/// Turns the bytes of one slice of a video stream, from its start code up to the next one, into records at the start of
/// `records`. A refused slice leaves `records` as it was.
///
/// ```
/// use format3::{read_slice, CodingType, PictureParameters, Refusal};
///
/// let parameters = PictureParameters {
///     width: 1,
///     height: 1,
///     coding_type: CodingType::I,
///     forward_f_code: 0,
///     backward_f_code: 0,
/// };
/// // The start code of row 1, scale 8, and an intra macroblock whose six blocks are all 0.
/// let slice = [0, 0, 1, 1, 0x43, 0x94, 0xa5, 0x22, 0x20];
/// let mut records = [0; 100];
/// let read = read_slice(&slice, parameters, &mut records)?;
/// // A slice record, and a macroblock record.
/// assert_eq!(records[..read.written][..10], [0, 4, 3, 8, 0, 0, 0, 22, 4, 16]);
/// assert_eq!((read.rest.byte, read.rest.bit), (8, 4));
///
/// let refused = read_slice(&slice[..8], parameters, &mut records).unwrap_err();
/// assert_eq!(refused.refusal, Refusal::SliceCut);
/// # Ok::<(), format3::RefusedSlice>(())
/// ```
///
/// # Errors
///
/// [`Refusal::Header`] if a parameter is out of range, [`Refusal::SliceCode`] or [`Refusal::SliceCut`] with the place in the
/// slice, or [`Refusal::RecordsLength`] if `records` is too short.
pub fn read_slice(
    slice: &[u8],
    parameters: PictureParameters,
    records: &mut [u8],
) -> Result<ReadSlice, RefusedSlice> {
    let parameters = raw::PictureParameters {
        width: parameters.width,
        height: parameters.height,
        coding_type: parameters.coding_type.number(),
        forward_f_code: parameters.forward_f_code,
        backward_f_code: parameters.backward_f_code,
    };
    let mut result = raw::SliceResult::default();
    // SAFETY: each pointer belongs to a live slice, with its length, or to a live struct, and what is written overlaps nothing.
    let answer = unsafe {
        raw::format3_read_slice(
            slice.as_ptr(),
            slice.len(),
            &parameters,
            records.as_mut_ptr(),
            records.len(),
            &mut result,
        )
    };
    let raw::SliceResult { written, byte, bit } = result;
    let place = BitPosition { byte, bit };
    match Refusal::check(answer) {
        Ok(()) => Ok(ReadSlice {
            written,
            rest: place,
        }),
        Err(refusal) => Err(RefusedSlice { refusal, place }),
    }
}
