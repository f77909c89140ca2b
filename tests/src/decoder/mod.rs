//! A second decoder of Format 3, to compare with: written for clarity, not speed, from document 01 and requests No. 1, 4, 6, 11 and
//! 12 alone, and for raw slices from request No. 2 and Annex B. Each module follows one heading, and each function one sentence,
//! which its comment quotes.

pub mod annex_b;
pub mod bits;
pub mod coefficients;
pub mod entries;
pub mod file;
pub mod macroblock;
pub mod panel;
pub mod picture;
pub mod refusals;
pub mod size;
pub mod slice;
pub mod transform;
pub mod vector_list;
pub mod vectors;

pub use entries::{
    DecodeVector, EncodeVector, EncodedVector, Entries, FileStart, ReadHeader, Reconstruct,
    Transform, Transformed, ENTRIES,
};
pub use picture::{reconstruct, reconstruct_small, reconstruct_within};
pub use refusals::Answer;
pub use slice::{Given, ReadSlice, SliceAnswer};
