//! Reconstruction of a picture.

use crate::{raw, Refusal, RefusedPicture};

/// An accepted picture.
#[derive(Clone, Copy, Debug, PartialEq, Eq)]
#[non_exhaustive]
pub struct Reconstructed {
    /// How many macroblocks were made: all of the picture's.
    pub made: usize,
    /// How many rows of coefficients the transform worked for these. In each coded block it works those of the eight rows that
    /// are not all zero, so at most 48 a macroblock.
    pub rows: usize,
}

/// Reconstructs the picture of a Format 3 file into `output`.
///
/// A reference is a picture with the same number of macroblocks. P pictures use the forward reference, B pictures both; an
/// unused one must be empty. If the picture is refused, `output` holds the macroblocks that the records before the refused
/// one gave, and is otherwise as it was.
///
/// ```
/// use format3::{read_header, reconstruct, Refusal};
///
/// // A grey picture of one macroblock: version, header, slice, and an intra macroblock whose six blocks are all 0.
/// let mut file = vec![3, 0, 8, 1, 1, 1, 1, 0, 0, 0, 0, 0, 4, 3, 8, 0, 0, 0, 22, 4, 16, 0, 1];
/// file.extend([0; 18]);
/// let mut output = vec![0; read_header(&file)?.picture_bytes()];
/// let picture = reconstruct(&file, &[], &[], &mut output)?;
/// // Each block has a row: that of its DC.
/// assert_eq!((picture.made, picture.rows), (1, 6));
/// assert_eq!(output, [128; 384]);
///
/// let refused = reconstruct(&file[..40], &[], &[], &mut output).unwrap_err();
/// assert_eq!(refused.refusal, Refusal::RecordCut);
/// assert_eq!((refused.place, refused.made, refused.rows), (17, 0, 0));
/// # Ok::<(), Box<dyn std::error::Error>>(())
/// ```
///
/// # Errors
///
/// Refusals 1 to 21 ([`Refusal::FileEmpty`] to [`Refusal::BackwardLength`]) and 23 ([`Refusal::BackwardVectorOutside`]), with the
/// place in the file, and how many macroblocks were made and rows worked before.
pub fn reconstruct(
    file: &[u8],
    forward: &[u8],
    backward: &[u8],
    output: &mut [u8],
) -> Result<Reconstructed, RefusedPicture> {
    reconstruct_by(raw::format3_reconstruct, file, [forward, backward], output)
}

/// Reconstructs a picture of at most [`MAX_MACROBLOCKS_SMALL`](crate::MAX_MACROBLOCKS_SMALL) macroblocks, as [`reconstruct`] does,
/// and refuses a larger one. It is for a device that has memory only for pictures of that size: the output and each reference never
/// need more than 99 × 384 bytes.
///
/// ```
/// use format3::{reconstruct_small, Refusal};
///
/// // A P picture, 11 macroblocks wide and 9 high: version, header, slice, and the first and the last macroblock. These, and those
/// // skipped between them, copy the forward reference.
/// let mut file = vec![3, 0, 8, 1, 11, 9, 2, 0, 1, 0, 0, 0, 4, 3, 8, 0, 0];
/// file.extend([0, 8, 4, 2, 0, 1, 0, 0, 0, 0, 0, 8, 4, 2, 0, 98, 0, 0, 0, 0]);
/// let forward = vec![7; 99 * 384];
/// let mut output = vec![0; 99 * 384];
/// let picture = reconstruct_small(&file, &forward, &[], &mut output)?;
/// assert_eq!(picture.made, 99);
/// assert_eq!(output, forward);
///
/// // 10 macroblocks wide and 10 high.
/// file[4..6].fill(10);
/// let refused = reconstruct_small(&file, &forward, &[], &mut output).unwrap_err();
/// assert_eq!(refused.refusal, Refusal::MacroblockLimit);
/// assert_eq!((refused.place, refused.made), (1, 0));
/// # Ok::<(), format3::RefusedPicture>(())
/// ```
///
/// # Errors
///
/// [`Refusal::MacroblockLimit`] if [`read_header`](crate::read_header) accepts the header, but the picture has more macroblocks;
/// `output` is then as it was, whatever its length and those of the references. Else the refusals of [`reconstruct`].
pub fn reconstruct_small(
    file: &[u8],
    forward: &[u8],
    backward: &[u8],
    output: &mut [u8],
) -> Result<Reconstructed, RefusedPicture> {
    reconstruct_by(
        raw::format3_reconstruct_small,
        file,
        [forward, backward],
        output,
    )
}

/// Reconstructs a picture by one of the library's readers. The references are forward, then backward.
fn reconstruct_by(
    reader: raw::Reconstruct,
    file: &[u8],
    references: [&[u8]; 2],
    output: &mut [u8],
) -> Result<Reconstructed, RefusedPicture> {
    let [forward, backward] = references;
    let mut result = raw::PictureResult::default();
    // SAFETY: a reader asks only for this: each pointer belongs to a live slice, with its length, or to a live struct, and what is
    // written overlaps nothing.
    let answer = unsafe {
        reader(
            file.as_ptr(),
            file.len(),
            forward.as_ptr(),
            forward.len(),
            backward.as_ptr(),
            backward.len(),
            output.as_mut_ptr(),
            output.len(),
            &mut result,
        )
    };
    let raw::PictureResult { place, made, rows } = result;
    match Refusal::check(answer) {
        Ok(()) => Ok(Reconstructed { made, rows }),
        Err(refusal) => Err(RefusedPicture {
            refusal,
            place,
            made,
            rows,
        }),
    }
}
