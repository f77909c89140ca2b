//! Makes raw slices: each case is one call of `read_slice`.

use super::codes::{bytes_of, slice, Code, SliceStyle};
use super::picture::{numbered_header, random_header};
use super::slice_damage::damaged;
use super::TYPES;
use crate::decoder::file::Header;
use crate::decoder::size::Size;
use crate::decoder::slice::read_slice;
use crate::decoder::Given;
use crate::random::Random;

/// One call of `read_slice`.
#[derive(Clone)]
pub struct SliceCase {
    pub slice: Vec<u8>,
    pub given: Given,
    /// The buffer before the call: random bytes, so that each byte written or left untouched shows.
    pub buffer: Vec<u8>,
    /// The codes that it was made from, before any damage.
    pub codes: Vec<Code>,
    /// Nothing was damaged, so the slice must be accepted.
    pub legal: bool,
}

/// What is wrong with a case.
#[derive(Clone, Copy, PartialEq, Eq)]
enum Fault {
    None,
    Damage,
    /// A given number is out of range.
    Given,
    /// The buffer is too short for the records.
    Buffer,
}

/// How likely each fault is: a third of the cases are legal.
const FAULTS: [Fault; 12] = {
    use Fault::{Buffer, Damage, Given, None};
    [
        None, None, None, None, Damage, Damage, Damage, Damage, Damage, Damage, Given, Buffer,
    ]
};

/// The case with this seed and number.
pub fn slice_case(seed: u64, number: u64) -> SliceCase {
    let random = &mut Random::new(&[seed, number, 3]);
    let header = numbered_header(random, number);
    let style = SliceStyle::random(random);
    let mut case = written(random, header, style);
    let fault = random.pick(&FAULTS);
    if fault == Fault::None {
        return case;
    }
    case.legal = false;
    // Another fault may come with damage, so that the order of the tests matters.
    if fault == Fault::Damage || random.once_in(4) {
        case.slice = damaged(random, &case.codes, &header);
        case.buffer = random_buffer(random, &case);
    }
    if fault == Fault::Given {
        give_wrong_number(random, &mut case.given);
    }
    if fault == Fault::Buffer {
        let short = case.buffer.len().min(records_length(&case));
        let length = random.pick(&[0, 1, short / 2, short.saturating_sub(1), short]);
        case.buffer.truncate(length);
    }
    case
}

/// A legal slice in a buffer that holds its records. Zeros may follow its last code.
fn written(random: &mut Random, header: Header, style: SliceStyle) -> SliceCase {
    let codes = slice(random, &header, style);
    let mut case = SliceCase {
        slice: bytes_of(&codes),
        given: given(&header),
        buffer: Vec::new(),
        codes,
        legal: true,
    };
    if random.once_in(3) {
        let zeros = random.pick(&[1, 2, 3, 9]);
        case.slice.resize(case.slice.len() + zeros, 0);
    }
    case.buffer = random_buffer(random, &case);
    case
}

/// The numbers that a header gives.
pub(super) fn given(header: &Header) -> Given {
    Given {
        width: header.size.width as u32,
        height: header.size.height as u32,
        picture_type: header.picture_type.number().into(),
        f_codes: header.directions.map(|direction| direction.f_code as u32),
    }
}

/// More than the records of any slice made here.
const LARGE: usize = 1 << 20;

/// The length of an accepted slice's records, else 0.
fn records_length(case: &SliceCase) -> usize {
    read_slice(&case.slice, case.given, &mut vec![0; LARGE]).written
}

/// A buffer that just holds the records, or a longer one.
fn random_buffer(random: &mut Random, case: &SliceCase) -> Vec<u8> {
    let more = random.pick(&[0, 0, 1, 2, 100, 3000]);
    random.bytes(records_length(case) + more)
}

/// Sets one or two of the numbers to an end of their range, just past it, or far outside: also 256 off, as if only their low byte
/// counted.
fn give_wrong_number(random: &mut Random, given: &mut Given) {
    for _ in 0..random.pick(&[1, 1, 2]) {
        let field = match random.below(5) {
            0 => &mut given.width,
            1 => &mut given.height,
            2 => &mut given.picture_type,
            3 => &mut given.f_codes[0],
            _ => &mut given.f_codes[1],
        };
        *field = random.pick(&other_numbers(*field));
    }
}

fn other_numbers(number: u32) -> Vec<u32> {
    let ends = [0, 1, 4, 7, 8, 36, 37, 48, 49];
    let near = [number.wrapping_add(256), number.wrapping_add(1 << 16)];
    [&ends[..], &near, &[1 << 31, u32::MAX]].concat()
}

/// A small legal slice of each type, to be changed bit by bit.
pub fn small_slice_cases(seed: u64) -> [SliceCase; 3] {
    TYPES.map(|picture_type| {
        let random = &mut Random::new(&[seed, u64::from(picture_type.letter()), 4]);
        let size = Size {
            width: 3,
            height: 2,
        };
        let header = random_header(random, picture_type, size);
        let style = SliceStyle {
            macroblocks: 2,
            most_pairs: 3,
            extra_once_in: 3,
            stuffing_once_in: 3,
            escape_once_in: 3,
        };
        written(random, header, style)
    })
}

/// Slices whose records take more than 65,536 bytes, one of each type: in a buffer that holds them, in one that is a byte too
/// short, and cut before their last byte.
pub fn long_slice_cases(seed: u64) -> Vec<SliceCase> {
    let mut cases = Vec::new();
    for picture_type in TYPES {
        let random = &mut Random::new(&[seed, u64::from(picture_type.letter()), 6]);
        let size = Size {
            width: 22,
            height: 18,
        };
        let header = random_header(random, picture_type, size);
        let style = SliceStyle {
            macroblocks: 600,
            most_pairs: 64,
            extra_once_in: 8,
            stuffing_once_in: 8,
            escape_once_in: 8,
        };
        let whole = written(random, header, style);
        let mut short = whole.clone();
        short.buffer.truncate(records_length(&whole) - 1);
        let mut cut = whole.clone();
        cut.slice = bytes_of(&whole.codes);
        cut.slice.pop();
        cases.extend([whole, short, cut]);
    }
    cases
}

impl SliceCase {
    /// The case with each bit flipped, cut before each byte, followed by each of a few bytes, read with each given number changed, and
    /// into a buffer of each length that may matter.
    pub fn each_change(&self) -> Vec<SliceCase> {
        let mut cases = Vec::new();
        let mut add = |case: SliceCase| cases.push(case);
        for bit in 0..8 * self.slice.len() {
            let mut slice = self.slice.clone();
            slice[bit / 8] ^= 0x80 >> (bit % 8);
            add(self.with_slice(slice));
        }
        for length in 0..self.slice.len() {
            add(self.with_slice(self.slice[..length].to_vec()));
        }
        for more in [
            &[0][..],
            &[0, 0],
            &[1],
            &[0, 1],
            &[0x80],
            &[0, 0, 1, 2],
            &[0xff, 0xff],
        ] {
            add(self.with_slice([&self.slice, more].concat()));
        }
        for length in 0..self.buffer.len() {
            let mut case = self.clone();
            case.buffer.truncate(length);
            add(case);
        }
        for given in self.given.each_change() {
            add(SliceCase {
                given,
                ..self.clone()
            });
        }
        cases
    }

    fn with_slice(&self, slice: Vec<u8>) -> SliceCase {
        SliceCase {
            slice,
            ..self.clone()
        }
    }
}

impl Given {
    /// The given numbers with one of them changed in every way that is tried.
    fn each_change(self) -> Vec<Given> {
        let fields: [fn(&mut Given) -> &mut u32; 5] = [
            |given| &mut given.width,
            |given| &mut given.height,
            |given| &mut given.picture_type,
            |given| &mut given.f_codes[0],
            |given| &mut given.f_codes[1],
        ];
        let mut changes = Vec::new();
        for field in fields {
            for number in other_numbers(*field(&mut self.clone())) {
                let mut given = self;
                *field(&mut given) = number;
                changes.push(given);
            }
        }
        changes
    }
}
