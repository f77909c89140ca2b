// Made from include/answers.tsv by cargo run --manifest-path tests/Cargo.toml --bin answers
//! The refusals of the library.

/// Why the library refused. The number is that of `enum format3_answer` in `format3.h`.
#[derive(Clone, Copy, Debug, PartialEq, Eq, Hash)]
#[non_exhaustive]
pub enum Refusal {
    /// 1: the file is empty.
    ///
    /// Caused by the writer of the file. Check whether the file was stored at all.
    FileEmpty,
    /// 2: the file's version is not 3.
    ///
    /// Caused by the writer of the file. It is not a Format 3 file.
    Version,
    /// 3: a record is cut: fewer than 3 bytes are left, its length is 0, or it goes past the end of the file.
    ///
    /// Caused by the writer of the file. The file was cut or a length is wrong; store it again.
    RecordCut,
    /// 4: a record's kind is not 1 to 4.
    ///
    /// Caused by the writer of the file. The record is unknown, or a length before it is wrong.
    RecordKind,
    /// 5: a record is out of turn.
    ///
    /// Caused by the writer of the file. The records are in the wrong order, or there are too many.
    OutOfTurn,
    /// 6: a record's body is too short or too long for its fields.
    ///
    /// Caused by the writer of the file. The record's length and fields disagree.
    BodyLength,
    /// 7: the file ends before its header or before its last macroblock.
    ///
    /// Caused by the writer of the file. The recording stopped early; the macroblocks that were made are right.
    FileEnds,
    /// 8: a number in the header, or one given with a raw slice, is out of range.
    ///
    /// Caused by the encoder, or the caller of a raw slice. Check size, type, full-pel flags and f_codes.
    Header,
    /// 9: a quantizer matrix is neither 0 nor 1, is given twice, or has a wrong weight.
    ///
    /// Caused by the encoder. Give a matrix at most once, with weights of 1 to 255; the first intra weight is 8.
    Matrix,
    /// 10: a quantizer scale is not 1 to 31.
    ///
    /// Caused by the encoder. Check the encoder's rate control.
    QuantizerScale,
    /// 11: a slice does not start at the next address.
    ///
    /// Caused by the encoder. A slice is missing or doubled.
    SliceStart,
    /// 12: a macroblock type is not allowed in a picture of this type.
    ///
    /// Caused by the encoder. Check the type of the picture.
    MacroblockType,
    /// 13: an address increment is 0, is not 1 at a slice's start, goes past the last macroblock, or skips where that is not allowed.
    ///
    /// Caused by the encoder. A macroblock is missing or doubled, or the picture has another type.
    AddressIncrement,
    /// 14: a motion code or its residual is out of range.
    ///
    /// Caused by the encoder. A code is -16 to 16, its residual below 2^(f_code - 1), and 0 with code 0.
    VectorCode,
    /// 15: a coded block pattern is not 1 to 63.
    ///
    /// Caused by the encoder. A macroblock without coded blocks has no pattern.
    Pattern,
    /// 16: a block's count of pairs, a level or a position is out of range.
    ///
    /// Caused by the encoder. A block has 0 to 63 pairs if intra, else 1 to 64; a level is -255 to 255 and not 0; the last position is at most 63.
    Coefficient,
    /// 17: a DC difference or a DC coefficient is out of range.
    ///
    /// Caused by the encoder. A difference is -255 to 255, a DC coefficient 0 to 2040.
    DcCoefficient,
    /// 18: a forward vector points outside the forward reference.
    ///
    /// Caused by the encoder. Check the forward motion codes, residuals and full-pel flag; a backward vector was not tested.
    ForwardVectorOutside,
    /// 19: the output's length is not 384 bytes per macroblock.
    ///
    /// Caused by the caller. Lend 384 bytes per macroblock (`panel` lends none above 40 macroblocks).
    OutputLength,
    /// 20: the forward reference's length is wrong.
    ///
    /// Caused by the caller. Lend a whole forward picture to a P or B, an empty one to an I (in a reel: too few accepted I or P pictures came before).
    ForwardLength,
    /// 21: the backward reference's length is wrong.
    ///
    /// Caused by the caller. Lend a whole backward picture to a B, an empty one to an I or P.
    BackwardLength,
    /// 22: a number given to the transform, coefficient or vector function is out of range.
    ///
    /// Caused by the caller. Check the ranges; the function gave zeros.
    NumberOutOfRange,
    /// 23: a backward vector points outside the backward reference.
    ///
    /// Caused by the encoder. Check the backward motion codes, residuals and full-pel flag; a forward vector of the same macroblock fits.
    BackwardVectorOutside,
    /// 24: a raw slice has bits that begin no code, a row outside the picture, or a code that goes too far.
    ///
    /// Caused by the writer of the slice. The slice is damaged, or the next start code was included; a code goes too far if it takes an increment past 396 or a coefficient past position 63.
    SliceCode,
    /// 25: a raw slice ends before its first macroblock is complete, or within a later one.
    ///
    /// Caused by the writer of the slice. The slice was cut.
    SliceCut,
    /// 26: the records of a raw slice don't fit the buffer.
    ///
    /// Caused by the caller. Lend a longer buffer.
    RecordsLength,
    /// 27: the picture has more macroblocks than the reader's limit.
    ///
    /// Caused by the encoder, or the caller. Encode at most 99 macroblocks a picture, or call the reader that takes 396.
    MacroblockLimit,
    /// 33: no motion code and residual reach the wanted vector, or the past or the f_code given with it is out of range.
    ///
    /// Caused by the caller. An f_code is 1 to 7; the past and the wanted vector are -16f to 16f - 1, with f = 2^(f_code - 1).
    VectorUnreachable,
    /// A number that this crate does not know, from a newer library.
    Unknown(u32),
}

impl Refusal {
    /// The refusals that this crate knows, in order of their numbers.
    pub const ALL: [Refusal; 28] = [
        Refusal::FileEmpty,
        Refusal::Version,
        Refusal::RecordCut,
        Refusal::RecordKind,
        Refusal::OutOfTurn,
        Refusal::BodyLength,
        Refusal::FileEnds,
        Refusal::Header,
        Refusal::Matrix,
        Refusal::QuantizerScale,
        Refusal::SliceStart,
        Refusal::MacroblockType,
        Refusal::AddressIncrement,
        Refusal::VectorCode,
        Refusal::Pattern,
        Refusal::Coefficient,
        Refusal::DcCoefficient,
        Refusal::ForwardVectorOutside,
        Refusal::OutputLength,
        Refusal::ForwardLength,
        Refusal::BackwardLength,
        Refusal::NumberOutOfRange,
        Refusal::BackwardVectorOutside,
        Refusal::SliceCode,
        Refusal::SliceCut,
        Refusal::RecordsLength,
        Refusal::MacroblockLimit,
        Refusal::VectorUnreachable,
    ];

    /// What the number that a function of [`raw`](crate::raw) returned means: 0 is `Ok`.
    ///
    /// ```
    /// use format3::Refusal;
    ///
    /// assert_eq!(Refusal::check(0), Ok(()));
    /// assert_eq!(Refusal::check(2), Err(Refusal::Version));
    /// assert_eq!(Refusal::check(1000), Err(Refusal::Unknown(1000)));
    /// ```
    ///
    /// # Errors
    ///
    /// The refusal with that number, if it is not 0.
    pub const fn check(answer: u32) -> Result<(), Refusal> {
        Err(match answer {
            0 => return Ok(()),
            1 => Refusal::FileEmpty,
            2 => Refusal::Version,
            3 => Refusal::RecordCut,
            4 => Refusal::RecordKind,
            5 => Refusal::OutOfTurn,
            6 => Refusal::BodyLength,
            7 => Refusal::FileEnds,
            8 => Refusal::Header,
            9 => Refusal::Matrix,
            10 => Refusal::QuantizerScale,
            11 => Refusal::SliceStart,
            12 => Refusal::MacroblockType,
            13 => Refusal::AddressIncrement,
            14 => Refusal::VectorCode,
            15 => Refusal::Pattern,
            16 => Refusal::Coefficient,
            17 => Refusal::DcCoefficient,
            18 => Refusal::ForwardVectorOutside,
            19 => Refusal::OutputLength,
            20 => Refusal::ForwardLength,
            21 => Refusal::BackwardLength,
            22 => Refusal::NumberOutOfRange,
            23 => Refusal::BackwardVectorOutside,
            24 => Refusal::SliceCode,
            25 => Refusal::SliceCut,
            26 => Refusal::RecordsLength,
            27 => Refusal::MacroblockLimit,
            33 => Refusal::VectorUnreachable,
            _ => Refusal::Unknown(answer),
        })
    }

    /// Its number.
    ///
    /// ```
    /// assert_eq!(format3::Refusal::Version.number(), 2);
    /// ```
    pub const fn number(self) -> u32 {
        match self {
            Refusal::FileEmpty => 1,
            Refusal::Version => 2,
            Refusal::RecordCut => 3,
            Refusal::RecordKind => 4,
            Refusal::OutOfTurn => 5,
            Refusal::BodyLength => 6,
            Refusal::FileEnds => 7,
            Refusal::Header => 8,
            Refusal::Matrix => 9,
            Refusal::QuantizerScale => 10,
            Refusal::SliceStart => 11,
            Refusal::MacroblockType => 12,
            Refusal::AddressIncrement => 13,
            Refusal::VectorCode => 14,
            Refusal::Pattern => 15,
            Refusal::Coefficient => 16,
            Refusal::DcCoefficient => 17,
            Refusal::ForwardVectorOutside => 18,
            Refusal::OutputLength => 19,
            Refusal::ForwardLength => 20,
            Refusal::BackwardLength => 21,
            Refusal::NumberOutOfRange => 22,
            Refusal::BackwardVectorOutside => 23,
            Refusal::SliceCode => 24,
            Refusal::SliceCut => 25,
            Refusal::RecordsLength => 26,
            Refusal::MacroblockLimit => 27,
            Refusal::VectorUnreachable => 33,
            Refusal::Unknown(number) => number,
        }
    }

    /// What is wrong, in English.
    ///
    /// ```
    /// assert_eq!(format3::Refusal::Version.text(), "the file's version is not 3");
    /// ```
    #[rustfmt::skip]
    pub const fn text(self) -> &'static str {
        match self {
            Refusal::FileEmpty => "the file is empty",
            Refusal::Version => "the file's version is not 3",
            Refusal::RecordCut => "a record is cut: fewer than 3 bytes are left, its length is 0, or it goes past the end of the file",
            Refusal::RecordKind => "a record's kind is not 1 to 4",
            Refusal::OutOfTurn => "a record is out of turn",
            Refusal::BodyLength => "a record's body is too short or too long for its fields",
            Refusal::FileEnds => "the file ends before its header or before its last macroblock",
            Refusal::Header => "a number in the header, or one given with a raw slice, is out of range",
            Refusal::Matrix => "a quantizer matrix is neither 0 nor 1, is given twice, or has a wrong weight",
            Refusal::QuantizerScale => "a quantizer scale is not 1 to 31",
            Refusal::SliceStart => "a slice does not start at the next address",
            Refusal::MacroblockType => "a macroblock type is not allowed in a picture of this type",
            Refusal::AddressIncrement => "an address increment is 0, is not 1 at a slice's start, goes past the last macroblock, or skips where that is not allowed",
            Refusal::VectorCode => "a motion code or its residual is out of range",
            Refusal::Pattern => "a coded block pattern is not 1 to 63",
            Refusal::Coefficient => "a block's count of pairs, a level or a position is out of range",
            Refusal::DcCoefficient => "a DC difference or a DC coefficient is out of range",
            Refusal::ForwardVectorOutside => "a forward vector points outside the forward reference",
            Refusal::OutputLength => "the output's length is not 384 bytes per macroblock",
            Refusal::ForwardLength => "the forward reference's length is wrong",
            Refusal::BackwardLength => "the backward reference's length is wrong",
            Refusal::NumberOutOfRange => "a number given to the transform, coefficient or vector function is out of range",
            Refusal::BackwardVectorOutside => "a backward vector points outside the backward reference",
            Refusal::SliceCode => "a raw slice has bits that begin no code, a row outside the picture, or a code that goes too far",
            Refusal::SliceCut => "a raw slice ends before its first macroblock is complete, or within a later one",
            Refusal::RecordsLength => "the records of a raw slice don't fit the buffer",
            Refusal::MacroblockLimit => "the picture has more macroblocks than the reader's limit",
            Refusal::VectorUnreachable => "no motion code and residual reach the wanted vector, or the past or the f_code given with it is out of range",
            Refusal::Unknown(_) => "an answer that this crate does not know",
        }
    }
}
