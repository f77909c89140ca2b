//! Makes single pictures: each case is one call of `reconstruct`.

use super::damage::damaged;
use super::file::File;
use super::picture::{numbered_header, picture, random_header, Style};
use super::TYPES;
use crate::decoder::file::{Header, PictureType};
use crate::decoder::size::{Size, MACROBLOCK_BYTES, MAX_MACROBLOCKS, MAX_MACROBLOCKS_SMALL};
use crate::random::Random;

/// One call of `reconstruct`.
#[derive(Clone)]
pub struct Case {
    pub file: Vec<u8>,
    pub forward: Vec<u8>,
    pub backward: Vec<u8>,
    /// The output before the call: random bytes, so that each byte written or left untouched shows.
    pub output: Vec<u8>,
    /// Nothing was damaged, so the picture must be accepted.
    pub legal: bool,
}

impl Case {
    /// A file without references or output. It is not legal, since every picture needs an output.
    pub fn with_nothing_lent(file: Vec<u8>) -> Case {
        Case {
            file,
            forward: Vec::new(),
            backward: Vec::new(),
            output: Vec::new(),
            legal: false,
        }
    }
}

/// What is wrong with a case.
#[derive(Clone, Copy, PartialEq, Eq)]
enum Fault {
    None,
    /// Now and then a vector or a DC is just out of range.
    Stray,
    Damage,
    /// The output or a reference has a wrong length.
    Lengths,
}

/// How likely each fault is: half of the cases are legal.
const FAULTS: [Fault; 12] = {
    use Fault::{Damage, Lengths, None, Stray};
    [
        None, None, None, None, None, None, Stray, Stray, Damage, Damage, Damage, Lengths,
    ]
};

/// The case with this seed and number.
pub fn case(seed: u64, number: u64) -> Case {
    let random = &mut Random::new(&[seed, number]);
    let header = numbered_header(random, number);
    // Large pictures get short blocks, to save time.
    let most_pairs = if header.size.macroblocks() > 60 {
        5
    } else {
        64
    };
    let mut style = Style::random(random, most_pairs);
    let fault = random.pick(&FAULTS);
    if fault == Fault::Stray {
        style.stray_once_in = random.pick(&[2, 8, 40]);
    }
    let (file, mut case) = written(random, header, style);
    if fault == Fault::None {
        return case;
    }
    case.legal = false;
    // Another fault may come with damage, so that the order of the tests matters.
    if fault == Fault::Damage || random.once_in(4) {
        case.file = damaged(random, &file);
    }
    if fault == Fault::Lengths {
        lend_other_lengths(random, &mut case);
    }
    case
}

/// A picture that is legal except for its style's strays, with references and output.
fn written(random: &mut Random, header: Header, style: Style) -> (File, Case) {
    let file = picture(random, header, style);
    let case = lent(random, header, &file);
    (file, case)
}

/// A file with the references and output that its header asks for. `legal` is true; the caller may change it.
pub fn lent(random: &mut Random, header: Header, file: &File) -> Case {
    let bytes = header.size.bytes();
    let [forward, backward] = header
        .picture_type
        .uses()
        .map(|used| random.bytes(if used { bytes } else { 0 }));
    Case {
        file: file.bytes.clone(),
        forward,
        backward,
        output: random.bytes(bytes),
        legal: true,
    }
}

/// The output or a reference, or several of them, have the wrong length.
fn lend_other_lengths(random: &mut Random, case: &mut Case) {
    let lent = [&mut case.output, &mut case.forward, &mut case.backward];
    let surely = random.below(3);
    for (index, lent) in lent.into_iter().enumerate() {
        if index == surely || random.once_in(3) {
            lend_other_length(random, lent);
        }
    }
}

/// Lends another length: none, a byte or a macroblock more or fewer, or that of the largest picture for a reader.
pub fn lend_other_length(random: &mut Random, lent: &mut Vec<u8>) {
    let length = lent.len();
    let longer = [length + 1, length + MACROBLOCK_BYTES];
    let shorter = [1, MACROBLOCK_BYTES].map(|fewer| length.saturating_sub(fewer));
    let largest = [MAX_MACROBLOCKS_SMALL, MAX_MACROBLOCKS].map(|most| MACROBLOCK_BYTES * most);
    let mut others = [&[0], &longer[..], &shorter, &largest].concat();
    others.retain(|other| *other != length);
    lent.resize(random.pick(&others), 77);
}

/// A small legal picture of each type, to be changed field by field.
pub fn small_cases(seed: u64) -> [(File, Case); 3] {
    TYPES.map(|picture_type: PictureType| {
        let random = &mut Random::new(&[seed, u64::from(picture_type.letter())]);
        let size = Size {
            width: 3,
            height: 2,
        };
        let header = random_header(random, picture_type, size);
        written(random, header, Style::SMALL)
    })
}
