//! MPEG-1 pictures from the proved library `libformat3.a`: from the slices of a video stream to macroblock symbols
//! (Format 3), and from these to pels.
//!
//! The functions take Rust slices instead of pointers and lengths, and return `Result`s instead of numbers. The borrow
//! checker ensures what `format3.h` asks of a caller in C about buffers: whatever the arguments are, a function returns and
//! does nothing undefined. Two things are left to the caller: enough stack ([`stack`]), and a library of this crate's version
//! ([`check_version`]; the build script compares the header, if it is there).
//!
//! | to | call |
//! |---|---|
//! | know how large a file's picture is | [`read_header`] |
//! | reconstruct one picture | [`reconstruct`] |
//! | reconstruct one picture on a device with little memory | [`reconstruct_small`] |
//! | reconstruct a sequence, with its references | [`reel::Decoder`](reel) |
//! | turn a slice of a video stream into records | [`read_slice`] |
//! | step through the records of a file | [`show_record`] |
//! | check a number of another decoder | [`transform`], [`intra_coefficient`], [`non_intra_coefficient`], [`vector`] |
//! | encode a motion vector, as for a test pattern | [`encode_vector`] |
//!
//! A picture's bytes are its Y plane (16 × 16 pels per macroblock), then Cb, then Cr (8 × 8 per macroblock), each row by row.
//!
//! The crate needs only `core`; with the default feature `alloc` it has the decoder of reels.
#![no_std]
#![deny(missing_docs)]

#[cfg(feature = "alloc")]
extern crate alloc;

mod api_version;
mod calculation;
mod error;
mod file;
mod picture;
pub mod raw;
pub mod reel;
mod refusal;
mod slice;

pub use api_version::API_VERSION;
pub use calculation::{
    encode_vector, intra_coefficient, non_intra_coefficient, transform, vector, EncodedVector,
    Transformed,
};
pub use error::{RefusedPicture, RefusedSlice, VersionMismatch};
pub use file::{read_header, show_record, CodingType, Header, Record, RecordKind};
pub use picture::{reconstruct, reconstruct_small, Reconstructed};
pub use refusal::Refusal;
pub use slice::{read_slice, BitPosition, PictureParameters, ReadSlice};

/// The most macroblocks that a picture may be wide.
pub const MAX_WIDTH: usize = 48;

/// The most macroblocks that a picture may be high.
pub const MAX_HEIGHT: usize = 36;

/// The most macroblocks that a picture may have.
pub const MAX_MACROBLOCKS: usize = 396;

/// The most macroblocks that a picture may have for [`reconstruct_small`].
pub const MAX_MACROBLOCKS_SMALL: usize = 99;

/// The bytes of a macroblock in a picture: 256 of Y, 64 of Cb and 64 of Cr.
pub const MACROBLOCK_BYTES: usize = 384;

/// The bytes of a slice record.
pub const SLICE_RECORD_BYTES: usize = 6;

/// The most bytes that a macroblock record takes. The records of a slice of M coded macroblocks take at most
/// [`SLICE_RECORD_BYTES`] + M × this.
pub const MAX_MACROBLOCK_RECORD_BYTES: usize = 1174;

/// The most stack that a call into the library takes, in bytes. It is measured, not proved. The frames of this crate's own
/// functions are not included.
pub mod stack {
    /// For [`read_slice`](crate::read_slice).
    pub const READ_SLICE: usize = 20480;
    /// For [`reconstruct`](crate::reconstruct), whatever the size of the picture.
    pub const RECONSTRUCT: usize = 4096;
    /// For [`reconstruct_small`](crate::reconstruct_small), whatever the size of the picture.
    pub const RECONSTRUCT_SMALL: usize = 4096;
    /// For [`transform`](crate::transform).
    pub const TRANSFORM: usize = 2048;
    /// For every other function.
    pub const DEFAULT: usize = 1024;
}

/// Checks that the linked library has the version of the interface that this crate is written for. Call it once, before
/// anything else: with another version, the other functions may do anything.
///
/// ```
/// format3::check_version()?;
/// # Ok::<(), format3::VersionMismatch>(())
/// ```
///
/// # Errors
///
/// [`VersionMismatch`] if the library has another version.
pub fn check_version() -> Result<(), VersionMismatch> {
    // SAFETY: it takes nothing and only returns a number.
    same_version(unsafe { raw::format3_api_version() })
}

fn same_version(library: u32) -> Result<(), VersionMismatch> {
    if library == API_VERSION {
        return Ok(());
    }
    Err(VersionMismatch {
        needed: API_VERSION,
        library,
    })
}

#[cfg(test)]
mod tests {
    extern crate std;

    use std::string::ToString;

    use super::{check_version, same_version, VersionMismatch, API_VERSION};

    #[test]
    fn versions() {
        assert_eq!(check_version(), Ok(()));
        assert_eq!(same_version(API_VERSION), Ok(()));
        let mismatch = VersionMismatch {
            needed: 2,
            library: 1,
        };
        assert_eq!(same_version(1), Err(mismatch));
        let message = "the library has version 1 of the interface, but this crate needs version 2";
        assert_eq!(mismatch.to_string(), message);
    }
}
