//! Makes pictures with sizes around the limits of the readers, each without a fault, and with each of those that a reader tests just
//! before its limit or after it.

use super::cases::{lend_other_length, lent, Case};
use super::file::HEADER_END;
use super::picture::{picture, random_header, Style};
use super::TYPES;
use crate::decoder::file::PictureType;
use crate::decoder::refusals::Refusal;
use crate::decoder::size::{Size, MAX_MACROBLOCKS_SMALL};
use crate::random::Random;

/// What a header says, and the numbers that the readers answer to its file.
#[derive(Clone, Copy, Debug, PartialEq, Eq, PartialOrd, Ord)]
pub struct LimitKind {
    pub picture_type: PictureType,
    /// Width and height in macroblocks.
    pub size: [usize; 2],
    /// Of the reader that takes 396 macroblocks.
    pub large: u32,
    /// Of the reader that takes 99.
    pub small: u32,
}

/// What is wrong with a case besides its size.
#[derive(Clone, Copy, PartialEq, Eq)]
enum Fault {
    None,
    /// The header has a forward f_code that its type doesn't allow.
    FCode,
    /// What is lent has a wrong length: the output, the forward or the backward reference, or all of them.
    Output,
    Forward,
    Backward,
    AllLent,
    /// Nothing follows the header.
    Ended,
    /// The record after the header has a kind that is not known.
    Kind,
    /// The last record is cut.
    Cut,
}

const FAULTS: [Fault; 9] = {
    use Fault::{AllLent, Backward, Cut, Ended, FCode, Forward, Kind, None, Output};
    [
        None, FCode, Output, Forward, Backward, AllLent, Ended, Kind, Cut,
    ]
};

/// Legal sizes, those nearest to 99 macroblocks first. Among the largest are counts of which the low byte is at most 99.
const LEGAL_SIZES: [[usize; 2]; 34] = [
    [11, 9],
    [9, 11],
    [33, 3],
    [3, 33],
    [14, 7],
    [7, 14],
    [10, 10],
    [20, 5],
    [5, 20],
    [25, 4],
    [4, 25],
    [48, 2],
    [32, 3],
    [4, 24],
    [34, 3],
    [3, 34],
    [47, 2],
    [15, 7],
    [12, 9],
    [9, 12],
    [3, 36],
    [2, 36],
    [48, 3],
    [48, 1],
    [1, 36],
    [1, 1],
    [16, 16],
    [18, 19],
    [22, 16],
    [48, 8],
    [11, 36],
    [44, 9],
    [22, 18],
    [18, 22],
];

/// Illegal sizes: without a macroblock, too wide, too high, or of more than 396 macroblocks. Some have at most 99.
const ILLEGAL_SIZES: [[usize; 2]; 17] = [
    [0, 0],
    [0, 9],
    [11, 0],
    [49, 1],
    [49, 2],
    [50, 2],
    [99, 1],
    [100, 1],
    [1, 37],
    [2, 37],
    [3, 37],
    [1, 99],
    [2, 50],
    [45, 9],
    [48, 9],
    [20, 20],
    [255, 255],
];

/// Each type with each size.
fn types_and_sizes() -> impl Iterator<Item = (PictureType, [usize; 2])> {
    let sizes = ILLEGAL_SIZES.into_iter().chain(LEGAL_SIZES);
    sizes.flat_map(|size| TYPES.map(|picture_type| (picture_type, size)))
}

/// The kinds of every type and size with every fault.
pub fn all_limit_kinds() -> Vec<LimitKind> {
    let kinds = |(picture_type, size): (PictureType, [usize; 2])| {
        let [width, height] = size;
        FAULTS.map(|fault| {
            let large = match Size::new(width, height) {
                Some(_) => fault.number(),
                None => Refusal::Header.number(),
            };
            LimitKind {
                picture_type,
                size,
                large,
                small: small_number(large, width * height),
            }
        })
    };
    types_and_sizes().flat_map(kinds).collect()
}

/// Request No. 4: "27 when a header that 8 lets through has more than 99 macroblocks .., before 19."
fn small_number(large: u32, macroblocks: usize) -> u32 {
    if large != Refusal::Header.number() && macroblocks > MAX_MACROBLOCKS_SMALL {
        Refusal::MacroblockLimit.number()
    } else {
        large
    }
}

impl Fault {
    /// The number by which it is refused in a picture of any legal size.
    fn number(self) -> u32 {
        let refusal = match self {
            Fault::None => return 0,
            Fault::FCode => Refusal::Header,
            Fault::Output | Fault::AllLent => Refusal::OutputLength,
            Fault::Forward => Refusal::ForwardLength,
            Fault::Backward => Refusal::BackwardLength,
            Fault::Ended => Refusal::FileEnds,
            Fault::Kind => Refusal::RecordKind,
            Fault::Cut => Refusal::RecordCut,
        };
        refusal.number()
    }

    /// A legal case with this fault.
    fn put_into(self, random: &mut Random, case: &Case) -> Case {
        let mut case = case.clone();
        let is_unused = case.file[FORWARD_F_CODE] == 0;
        match self {
            Fault::FCode => case.file[FORWARD_F_CODE] = u8::from(is_unused),
            Fault::Ended => case.file.truncate(HEADER_END),
            Fault::Kind => case.file[HEADER_END + 2] = 9,
            Fault::Cut => case.file.truncate(case.file.len() - 1),
            _ => (),
        }
        let lent = [
            (Fault::Output, &mut case.output),
            (Fault::Forward, &mut case.forward),
            (Fault::Backward, &mut case.backward),
        ];
        for (fault, lent) in lent {
            if [fault, Fault::AllLent].contains(&self) {
                lend_other_length(random, lent);
            }
        }
        case.legal &= self == Fault::None;
        case
    }
}

/// The offsets of a header's fields.
const WIDTH: usize = 4;
const HEIGHT: usize = 5;
const FORWARD_F_CODE: usize = 8;

/// A picture for each type, size and fault.
pub fn limit_cases(seed: u64) -> impl Iterator<Item = Case> {
    let cases = move |(number, (picture_type, size)): (u64, (PictureType, [usize; 2]))| {
        let random = &mut Random::new(&[seed, number, 27]);
        let case = faultless(random, picture_type, size);
        FAULTS.map(|fault| fault.put_into(random, &case))
    };
    (0..).zip(types_and_sizes()).flat_map(cases)
}

/// A picture of this size. If that is illegal, the records and what is lent are those of one macroblock.
fn faultless(random: &mut Random, picture_type: PictureType, [width, height]: [usize; 2]) -> Case {
    let legal = Size::new(width, height);
    let one = Size {
        width: 1,
        height: 1,
    };
    let header = random_header(random, picture_type, legal.unwrap_or(one));
    let style = Style::random(random, 2);
    let file = picture(random, header, style);
    let mut case = lent(random, header, &file);
    case.file[WIDTH] = width as u8;
    case.file[HEIGHT] = height as u8;
    case.legal = legal.is_some();
    case
}
