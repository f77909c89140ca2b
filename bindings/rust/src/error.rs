//! What the functions return if they refuse, as errors with a text.

use core::error::Error;
use core::fmt::{Display, Formatter, Result};

use crate::{BitPosition, Refusal};

/// A refused picture: why, where in the file, and what was made before.
#[derive(Clone, Copy, Debug, PartialEq, Eq)]
#[non_exhaustive]
pub struct RefusedPicture {
    /// Why.
    pub refusal: Refusal,
    /// The offset of the refused record's length field; 0 if the file is empty or has another version, the file's length
    /// if it ends too early.
    pub place: usize,
    /// How many macroblocks the records before it gave. These, from address 0 on, are in the output.
    pub made: usize,
    /// How many rows of coefficients the transform worked for these, as in [`Reconstructed`](crate::Reconstructed).
    pub rows: usize,
}

/// A refused slice: why, and where.
#[derive(Clone, Copy, Debug, PartialEq, Eq)]
#[non_exhaustive]
pub struct RefusedSlice {
    /// Why.
    pub refusal: Refusal,
    /// Where the refused code starts; the slice's start if the parameters or the buffer's length are refused.
    pub place: BitPosition,
}

/// The linked library has another version of the interface than this crate.
#[derive(Clone, Copy, Debug, PartialEq, Eq)]
#[non_exhaustive]
pub struct VersionMismatch {
    /// The version that this crate is written for: [`API_VERSION`](crate::API_VERSION).
    pub needed: u32,
    /// The library's version.
    pub library: u32,
}

impl Display for Refusal {
    fn fmt(&self, formatter: &mut Formatter<'_>) -> Result {
        write!(formatter, "{} (refusal {})", self.text(), self.number())
    }
}

impl Display for RefusedPicture {
    fn fmt(&self, formatter: &mut Formatter<'_>) -> Result {
        let Self {
            refusal,
            place,
            made,
            ..
        } = self;
        write!(
            formatter,
            "{refusal}, at byte {place} of the file, after {made} macroblocks"
        )
    }
}

impl Display for RefusedSlice {
    fn fmt(&self, formatter: &mut Formatter<'_>) -> Result {
        let Self { refusal, place } = self;
        // Refused parameters and a buffer that is too short have no place in the slice.
        if matches!(refusal, Refusal::Header | Refusal::RecordsLength) {
            return refusal.fmt(formatter);
        }
        let BitPosition { byte, bit } = place;
        write!(
            formatter,
            "{refusal}, at byte {byte}, bit {bit} of the slice"
        )
    }
}

impl Display for VersionMismatch {
    fn fmt(&self, formatter: &mut Formatter<'_>) -> Result {
        let Self { needed, library } = self;
        write!(
            formatter,
            "the library has version {library} of the interface, but this crate needs version {needed}"
        )
    }
}

impl Error for Refusal {}
impl Error for RefusedPicture {}
impl Error for RefusedSlice {}
impl Error for VersionMismatch {}
