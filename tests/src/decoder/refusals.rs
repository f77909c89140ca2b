//! "Refusals by who can cause them", and those that later requests add.

#[derive(Clone, Copy, Debug, PartialEq, Eq)]
pub enum Refusal {
    FileEmpty = 1,
    Version = 2,
    RecordCut = 3,
    RecordKind = 4,
    OutOfTurn = 5,
    BodyLength = 6,
    FileEnds = 7,
    Header = 8,
    Matrix = 9,
    QuantizerScale = 10,
    SliceStart = 11,
    MacroblockType = 12,
    AddressIncrement = 13,
    VectorCode = 14,
    Pattern = 15,
    Coefficient = 16,
    DcCoefficient = 17,
    ForwardVectorOutside = 18,
    OutputLength = 19,
    ForwardLength = 20,
    BackwardLength = 21,
    NumberOutOfRange = 22,
    BackwardVectorOutside = 23,
    SliceCode = 24,
    SliceCut = 25,
    RecordsLength = 26,
    MacroblockLimit = 27,
    VectorUnreachable = 33,
}

impl Refusal {
    pub fn number(self) -> u32 {
        self as u32
    }
}

/// `Ok` if a test holds, else its refusal.
pub fn require(holds: bool, refusal: Refusal) -> Result<(), Refusal> {
    if holds {
        Ok(())
    } else {
        Err(refusal)
    }
}

/// "The answer is number, place, made." 0 is an acceptance. Request No. 6 adds the rows that the transform worked.
#[derive(Clone, Copy, Debug, PartialEq, Eq)]
pub struct Answer {
    pub number: u32,
    pub place: usize,
    pub made: usize,
    pub rows: usize,
}
