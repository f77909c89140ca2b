//! Reels: per picture, in coded order, a 4-byte big-endian length and a Format 3 file.

use core::error::Error;
use core::fmt::{Display, Formatter};

#[cfg(feature = "alloc")]
pub use decoder::{Decoder, Picture};

/// The files of a reel, in order. A cut file is the last item.
#[derive(Clone, Debug)]
pub struct Files<'a> {
    rest: &'a [u8],
    offset: usize,
}

/// A reel ends within a file, or within its length.
#[derive(Clone, Copy, Debug, PartialEq, Eq)]
#[non_exhaustive]
pub struct CutReel {
    /// The offset of that file's length in the reel.
    pub offset: usize,
}

/// The files of a reel.
///
/// ```
/// use format3::reel::files;
///
/// let mut files = files(&[0, 0, 0, 1, 3, 0, 0, 0, 2, 3]);
/// assert_eq!(files.next(), Some(Ok(&[3][..])));
/// let cut = files.next().unwrap().unwrap_err();
/// assert_eq!(cut.offset, 5);
/// assert_eq!(files.next(), None);
/// ```
pub fn files(reel: &[u8]) -> Files<'_> {
    Files {
        rest: reel,
        offset: 0,
    }
}

impl<'a> Iterator for Files<'a> {
    type Item = Result<&'a [u8], CutReel>;

    fn next(&mut self) -> Option<Self::Item> {
        if self.rest.is_empty() {
            return None;
        }
        let Some((file, rest)) = first_file(self.rest) else {
            self.rest = &[];
            return Some(Err(CutReel {
                offset: self.offset,
            }));
        };
        self.rest = rest;
        self.offset += 4 + file.len();
        Some(Ok(file))
    }
}

/// The first file of what is left of a reel, and what follows it.
fn first_file(reel: &[u8]) -> Option<(&[u8], &[u8])> {
    let (length, rest) = reel.split_first_chunk()?;
    rest.split_at_checked(u32::from_be_bytes(*length) as usize)
}

impl Display for CutReel {
    fn fmt(&self, formatter: &mut Formatter<'_>) -> core::fmt::Result {
        let offset = self.offset;
        write!(
            formatter,
            "the reel is cut: the file whose length is at byte {offset} is not whole"
        )
    }
}

impl Error for CutReel {}

#[cfg(feature = "alloc")]
mod decoder {
    use alloc::vec::Vec;
    use core::mem::swap;

    use crate::{read_header, reconstruct, CodingType, Header, Refusal, RefusedPicture};

    /// Reconstructs pictures in coded order and keeps their references: a P picture is predicted from the last accepted I or
    /// P picture, a B picture from the last two, the newer one as backward.
    #[derive(Clone, Debug, Default)]
    pub struct Decoder {
        /// The last two accepted I or P pictures; empty if there are none.
        older: Vec<u8>,
        newer: Vec<u8>,
        /// The picture that is being made.
        current: Vec<u8>,
    }

    /// A reconstructed picture.
    #[derive(Clone, Copy, Debug, PartialEq, Eq)]
    #[non_exhaustive]
    pub struct Picture<'a> {
        /// Its header, with its size.
        pub header: Header,
        /// Its planes Y, Cb and Cr, each row by row.
        pub bytes: &'a [u8],
        /// How many rows of coefficients the transform worked, as in [`Reconstructed`](crate::Reconstructed).
        pub rows: usize,
    }

    impl Decoder {
        /// Reconstructs the picture of a file. A refused picture changes no reference.
        ///
        /// ```
        /// use format3::reel::{files, Decoder};
        ///
        /// // A grey picture of one macroblock, in a file of 41 bytes.
        /// let mut reel = vec![0, 0, 0, 41, 3, 0, 8, 1, 1, 1, 1, 0, 0, 0, 0];
        /// reel.extend([0, 4, 3, 8, 0, 0, 0, 22, 4, 16, 0, 1]);
        /// reel.extend([0; 18]);
        ///
        /// let mut decoder = Decoder::default();
        /// for file in files(&reel) {
        ///     let picture = decoder.decode(file?)?;
        ///     assert_eq!((picture.header.width, picture.header.height), (1, 1));
        ///     assert_eq!(picture.bytes, [128; 384]);
        ///     // Each of its six blocks has a row: that of its DC.
        ///     assert_eq!(picture.rows, 6);
        /// }
        /// # Ok::<(), Box<dyn std::error::Error>>(())
        /// ```
        ///
        /// # Errors
        ///
        /// The refusals of [`reconstruct`], except [`Refusal::OutputLength`]. [`Refusal::ForwardLength`] and
        /// [`Refusal::BackwardLength`] mean that too few accepted I or P pictures came before, or that they have another
        /// size.
        pub fn decode(&mut self, file: &[u8]) -> Result<Picture<'_>, RefusedPicture> {
            let header = read_header(file).map_err(|refusal| refused_header(file, refusal))?;
            let (forward, backward): (&[u8], &[u8]) = match header.coding_type {
                CodingType::P => (&self.newer, &[]),
                CodingType::B => (&self.older, &self.newer),
                _ => (&[], &[]),
            };
            self.current.resize(header.picture_bytes(), 0);
            let rows = reconstruct(file, forward, backward, &mut self.current)?.rows;
            // Only I and P pictures are references.
            let bytes = if matches!(header.coding_type, CodingType::I | CodingType::P) {
                swap(&mut self.older, &mut self.newer);
                swap(&mut self.newer, &mut self.current);
                &self.newer
            } else {
                &self.current
            };
            Ok(Picture {
                header,
                bytes,
                rows,
            })
        }
    }

    /// What `reconstruct` answers to a file whose header is refused: the same refusal, and where.
    fn refused_header(file: &[u8], refusal: Refusal) -> RefusedPicture {
        let refused = reconstruct(file, &[], &[], &mut []).err();
        refused.unwrap_or(RefusedPicture {
            refusal,
            place: 0,
            made: 0,
            rows: 0,
        })
    }
}
