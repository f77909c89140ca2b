//! The header and the records of a file.

use crate::{raw, Refusal, MACROBLOCK_BYTES};

/// How a picture is predicted.
#[derive(Clone, Copy, Debug, PartialEq, Eq, Hash)]
#[non_exhaustive]
pub enum CodingType {
    /// From nothing.
    I,
    /// From a forward reference.
    P,
    /// From a forward and a backward reference.
    B,
    /// A number that this crate does not know.
    Unknown(u32),
}

impl CodingType {
    /// The number that the standard gives it.
    ///
    /// ```
    /// use format3::CodingType;
    ///
    /// assert_eq!(CodingType::P.number(), 2);
    /// assert_eq!(CodingType::from(2), CodingType::P);
    /// assert_eq!(CodingType::from(4), CodingType::Unknown(4));
    /// ```
    pub const fn number(self) -> u32 {
        match self {
            CodingType::I => 1,
            CodingType::P => 2,
            CodingType::B => 3,
            CodingType::Unknown(number) => number,
        }
    }
}

impl From<u32> for CodingType {
    fn from(number: u32) -> CodingType {
        match number {
            1 => CodingType::I,
            2 => CodingType::P,
            3 => CodingType::B,
            _ => CodingType::Unknown(number),
        }
    }
}

/// What the header of a file says about its picture.
#[derive(Clone, Copy, Debug, PartialEq, Eq)]
#[non_exhaustive]
pub struct Header {
    /// How the picture is predicted.
    pub coding_type: CodingType,
    /// In macroblocks.
    pub width: u32,
    /// In macroblocks.
    pub height: u32,
    /// The offset in the file of the records after the header.
    pub records_start: usize,
}

impl Header {
    /// The picture's count of macroblocks.
    ///
    /// ```
    /// // An I picture, 22 macroblocks wide and 18 high.
    /// let header = format3::read_header(&[3, 0, 8, 1, 22, 18, 1, 0, 0, 0, 0])?;
    /// assert_eq!(header.macroblocks(), 396);
    /// # Ok::<(), format3::Refusal>(())
    /// ```
    pub const fn macroblocks(&self) -> usize {
        self.width as usize * self.height as usize
    }

    /// The picture's count of bytes: how much output to lend.
    ///
    /// ```
    /// let header = format3::read_header(&[3, 0, 8, 1, 22, 18, 1, 0, 0, 0, 0])?;
    /// assert_eq!(header.picture_bytes(), 352 * 288 * 3 / 2);
    /// # Ok::<(), format3::Refusal>(())
    /// ```
    pub const fn picture_bytes(&self) -> usize {
        MACROBLOCK_BYTES * self.macroblocks()
    }
}

/// Reads a file's header, for example to know how much output to lend. It refuses what [`reconstruct`](crate::reconstruct)
/// refuses before it tests the lengths of its buffers. Of the headers that it accepts,
/// [`reconstruct_small`](crate::reconstruct_small) refuses those with more than
/// [`MAX_MACROBLOCKS_SMALL`](crate::MAX_MACROBLOCKS_SMALL) macroblocks.
///
/// ```
/// use format3::{read_header, CodingType, Refusal};
///
/// // The version, then the header's record: length, kind, width, height, type, and for each direction a flag and an f_code.
/// let header = read_header(&[3, 0, 8, 1, 2, 1, 2, 0, 1, 0, 0])?;
/// assert_eq!(header.coding_type, CodingType::P);
/// assert_eq!((header.width, header.height), (2, 1));
/// assert_eq!(header.records_start, 11);
/// assert_eq!(read_header(&[4]), Err(Refusal::Version));
/// # Ok::<(), Refusal>(())
/// ```
///
/// # Errors
///
/// Refusals 1 to 8: [`Refusal::FileEmpty`] to [`Refusal::Header`].
pub fn read_header(file: &[u8]) -> Result<Header, Refusal> {
    let mut header = raw::Header::default();
    // SAFETY: the file's pointer goes with its length; the other belongs to a live struct.
    let answer = unsafe { raw::format3_read_header(file.as_ptr(), file.len(), &mut header) };
    Refusal::check(answer)?;
    Ok(Header {
        coding_type: header.coding_type.into(),
        width: header.width,
        height: header.height,
        records_start: header.records_start,
    })
}

/// What a record holds.
#[derive(Clone, Copy, Debug, PartialEq, Eq, Hash)]
#[non_exhaustive]
pub enum RecordKind {
    /// The picture's header.
    Header,
    /// A quantizer matrix.
    Matrix,
    /// The start of a slice.
    Slice,
    /// A macroblock.
    Macroblock,
    /// A number that this crate does not know.
    Unknown(u8),
}

impl RecordKind {
    /// Its number in a file.
    ///
    /// ```
    /// use format3::RecordKind;
    ///
    /// assert_eq!(RecordKind::Slice.number(), 3);
    /// assert_eq!(RecordKind::from(3), RecordKind::Slice);
    /// assert_eq!(RecordKind::from(5), RecordKind::Unknown(5));
    /// ```
    pub const fn number(self) -> u8 {
        match self {
            RecordKind::Header => 1,
            RecordKind::Matrix => 2,
            RecordKind::Slice => 3,
            RecordKind::Macroblock => 4,
            RecordKind::Unknown(number) => number,
        }
    }
}

impl From<u8> for RecordKind {
    fn from(number: u8) -> RecordKind {
        match number {
            1 => RecordKind::Header,
            2 => RecordKind::Matrix,
            3 => RecordKind::Slice,
            4 => RecordKind::Macroblock,
            _ => RecordKind::Unknown(number),
        }
    }
}

/// A record of a file.
#[derive(Clone, Copy, Debug, PartialEq, Eq)]
#[non_exhaustive]
pub struct Record<'a> {
    /// What it holds.
    pub kind: RecordKind,
    /// Its bytes after the kind.
    pub body: &'a [u8],
    /// The offset of the next record, or the file's length.
    pub end: usize,
}

/// Finds the record at an offset of a file. The first record is at 1, the next one at the first one's end.
///
/// ```
/// use format3::{show_record, RecordKind, Refusal};
///
/// let file = [3, 0, 8, 1, 1, 1, 1, 0, 0, 0, 0, 0, 4, 3, 8, 0, 0];
/// let header = show_record(&file, 1)?;
/// assert_eq!(header.kind, RecordKind::Header);
/// let slice = show_record(&file, header.end)?;
/// assert_eq!(slice.kind, RecordKind::Slice);
/// assert_eq!(slice.body, [8, 0, 0]);
/// assert_eq!(slice.end, file.len());
/// assert_eq!(show_record(&file, file.len()), Err(Refusal::RecordCut));
/// # Ok::<(), Refusal>(())
/// ```
///
/// # Errors
///
/// [`Refusal::RecordCut`], also for an offset at or past the file's end, or [`Refusal::RecordKind`].
pub fn show_record(file: &[u8], offset: usize) -> Result<Record<'_>, Refusal> {
    let mut shown = raw::Record::default();
    // SAFETY: the file's pointer goes with its length; the other belongs to a live struct.
    let answer = unsafe { raw::format3_show_record(file.as_ptr(), file.len(), offset, &mut shown) };
    Refusal::check(answer)?;
    let end = shown.start + shown.length;
    Ok(Record {
        kind: shown.kind.into(),
        body: &file[shown.start..end],
        end,
    })
}
