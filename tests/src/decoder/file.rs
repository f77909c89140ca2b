//! "The Format 3 file": its records, and the fields of header, matrix and slice records.

use super::coefficients::{from_zigzag, Block};
use super::refusals::{require, Refusal};
use super::size::Size;
use super::vectors::Vector;

pub const VERSION: u8 = 3;

pub const HEADER: u8 = 1;
pub const MATRIX: u8 = 2;
pub const SLICE: u8 = 3;
pub const MACROBLOCK: u8 = 4;

/// "Each is a 2-byte length (of what comes after it), a kind byte and a body."
#[derive(Clone, Copy, Debug, PartialEq, Eq)]
pub struct Record<'a> {
    pub kind: u8,
    pub body: &'a [u8],
    /// The offset just after the record.
    pub end: usize,
}

/// "The first byte is the version, 3."
pub fn version(file: &[u8]) -> Result<(), Refusal> {
    let first = file.first().ok_or(Refusal::FileEmpty)?;
    require(*first == VERSION, Refusal::Version)
}

/// The record whose length is at `offset`. "3 record cut: fewer than 3 bytes left, length 0, or past the end."
/// "4 kind not 1..4."
pub fn record(file: &[u8], offset: usize) -> Result<Record<'_>, Refusal> {
    let left = file.get(offset..).ok_or(Refusal::RecordCut)?;
    let [high, low, kind, ..] = *left else {
        return Err(Refusal::RecordCut);
    };
    let length = usize::from(u16::from_be_bytes([high, low]));
    require(length != 0, Refusal::RecordCut)?;
    let body = left.get(3..2 + length).ok_or(Refusal::RecordCut)?;
    require((HEADER..=MACROBLOCK).contains(&kind), Refusal::RecordKind)?;
    let end = offset + 2 + length;
    Ok(Record { kind, body, end })
}

/// The body of a record of kinds 1 to 3, whose length is fixed. "6 body too short or too long."
fn sized<const LENGTH: usize>(body: &[u8]) -> Result<[u8; LENGTH], Refusal> {
    body.try_into().map_err(|_| Refusal::BodyLength)
}

#[derive(Clone, Copy, Debug, PartialEq, Eq, PartialOrd, Ord)]
pub enum PictureType {
    I,
    P,
    B,
}

/// A direction's full-pel flag and f_code; the f_code is 0 if the type doesn't use that direction.
#[derive(Clone, Copy, Debug, PartialEq, Eq)]
pub struct Direction {
    pub full_pel: bool,
    pub f_code: i64,
}

impl Direction {
    /// A vector as it is used: "the full-pel flag doubles it".
    pub fn used(self, vector: Vector) -> Vector {
        let factor = if self.full_pel { 2 } else { 1 };
        vector.map(|part| factor * part)
    }
}

#[derive(Clone, Copy, Debug, PartialEq, Eq)]
pub struct Header {
    pub size: Size,
    pub picture_type: PictureType,
    /// Forward, then backward.
    pub directions: [Direction; 2],
}

impl PictureType {
    /// "(P forward, B both)": whether the type uses the forward and the backward direction.
    pub fn uses(self) -> [bool; 2] {
        match self {
            PictureType::I => [false, false],
            PictureType::P => [true, false],
            PictureType::B => [true, true],
        }
    }

    /// "Type (1 I, 2 P, 3 B)".
    pub fn number(self) -> u8 {
        match self {
            PictureType::I => 1,
            PictureType::P => 2,
            PictureType::B => 3,
        }
    }

    pub fn letter(self) -> char {
        match self {
            PictureType::I => 'I',
            PictureType::P => 'P',
            PictureType::B => 'B',
        }
    }
}

/// "Kind 1, header, 7 bytes: width and height in macroblocks, type (1 I, 2 P, 3 B), full-pel forward flag (0 or 1),
/// forward f_code, full-pel backward flag, backward f_code."
pub fn header(body: &[u8]) -> Result<Header, Refusal> {
    let [width, height, picture_type, forward_flag, forward_code, backward_flag, backward_code] =
        sized(body)?;
    let size = Size::new(width.into(), height.into()).ok_or(Refusal::Header)?;
    let picture_type = match picture_type {
        1 => PictureType::I,
        2 => PictureType::P,
        3 => PictureType::B,
        _ => return Err(Refusal::Header),
    };
    let [uses_forward, uses_backward] = picture_type.uses();
    let forward = direction(uses_forward, forward_flag, forward_code)?;
    let backward = direction(uses_backward, backward_flag, backward_code)?;
    Ok(Header {
        size,
        picture_type,
        directions: [forward, backward],
    })
}

/// The header at the start of a file, and the offset of the records after it. "Order: 1, 2; in each record 3, 4, 5", then the
/// header's own tests; "5 out of turn: kind 1 is first", "7 file ends with .. the header missing."
pub fn first_header(file: &[u8]) -> Result<(Header, usize), Refusal> {
    version(file)?;
    require(file.len() > 1, Refusal::FileEnds)?;
    let first = record(file, 1)?;
    require(first.kind == HEADER, Refusal::OutOfTurn)?;
    Ok((header(first.body)?, first.end))
}

/// "An f_code is 1..7 where the type uses that direction; where it doesn't, flag and f_code are 0."
fn direction(used: bool, flag: u8, f_code: u8) -> Result<Direction, Refusal> {
    let legal = if used {
        flag <= 1 && (1..=7).contains(&f_code)
    } else {
        flag == 0 && f_code == 0
    };
    require(legal, Refusal::Header)?;
    Ok(Direction {
        full_pel: flag == 1,
        f_code: f_code.into(),
    })
}

/// The index of the intra matrix; the other one is non-intra.
pub const INTRA: usize = 0;
pub const NON_INTRA: usize = 1;

/// "Kind 2, matrix, 65 bytes: which (0 intra, 1 non-intra), then 64 weights in zigzag order."
/// "9 matrix: which above 1, given twice, a weight 0, intra first weight not 8."
pub fn matrix(body: &[u8], given: [bool; 2]) -> Result<(usize, Block), Refusal> {
    let [which, weights @ ..]: [u8; 65] = sized(body)?;
    let which = usize::from(which);
    let twice = *given.get(which).ok_or(Refusal::Matrix)?;
    require(!twice, Refusal::Matrix)?;
    require(!weights.contains(&0), Refusal::Matrix)?;
    require(which != INTRA || weights[0] == 8, Refusal::Matrix)?;
    Ok((which, from_zigzag(&weights.map(i64::from))))
}

/// "Kind 3, slice, 3 bytes: quantizer scale 1..31, 2-byte start address." Gives the scale.
pub fn slice(body: &[u8], next_address: usize) -> Result<i64, Refusal> {
    let [given, high, low] = sized(body)?;
    let scale = scale(given)?;
    let start = usize::from(u16::from_be_bytes([high, low]));
    require(start == next_address, Refusal::SliceStart)?;
    Ok(scale)
}

/// "Quantizer scale 1..31".
pub fn scale(given: u8) -> Result<i64, Refusal> {
    require((1..=31).contains(&given), Refusal::QuantizerScale)?;
    Ok(given.into())
}
