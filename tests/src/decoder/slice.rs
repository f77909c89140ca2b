//! Request No. 2, "Raw slices": "a reader that turns the bytes of one slice, from its start code, into Format 3 slice and
//! macroblock records in a lent buffer, by the tables of Annex B".

use super::annex_b::{self, Coefficient, Increment, Words};
use super::bits::{Bits, Stop};
use super::file::{self, Header, PictureType, MACROBLOCK, SLICE};
use super::refusals::Refusal;
use super::size::MAX_MACROBLOCKS;

/// "Picture size, type and f_codes are given as in a header."
#[derive(Clone, Copy, Debug, PartialEq, Eq)]
pub struct Given {
    pub width: u32,
    pub height: u32,
    pub picture_type: u32,
    /// Forward, then backward.
    pub f_codes: [u32; 2],
}

/// "The answer has the bytes written, and the byte and its bit, from 0 as read, where the refused code or the unread rest
/// starts".
#[derive(Clone, Copy, Debug, PartialEq, Eq)]
pub struct SliceAnswer {
    pub number: u32,
    pub written: usize,
    pub byte: usize,
    pub bit: usize,
}

/// Turns the bytes of a slice into records in the buffer.
pub type ReadSlice = fn(&[u8], Given, &mut [u8]) -> SliceAnswer;

impl Given {
    /// The fields of a header with these numbers and both flags 0.
    pub fn fields(self) -> [u32; 7] {
        let [forward, backward] = self.f_codes;
        [
            self.width,
            self.height,
            self.picture_type,
            0,
            forward,
            0,
            backward,
        ]
    }

    /// "A wrong given number is 8": the header with these numbers.
    pub fn header(self) -> Result<Header, Refusal> {
        let mut body = Vec::new();
        for field in self.fields() {
            body.push(u8::try_from(field).map_err(|_| Refusal::Header)?);
        }
        file::header(&body)
    }
}

/// "A wrong given number is 8, tested first." "26 when the records don't fit the buffer, tested last." "For 8 and 26 both are
/// 0." "A refused slice leaves the buffer untouched, an accepted one what lies past its records."
pub fn read_slice(bytes: &[u8], given: Given, buffer: &mut [u8]) -> SliceAnswer {
    match read_into(bytes, given, buffer) {
        Ok((written, rest)) => answer(0, written, rest),
        Err(stop) => answer(stop.refusal.number(), 0, stop.at),
    }
}

fn answer(number: u32, written: usize, at: usize) -> SliceAnswer {
    SliceAnswer {
        number,
        written,
        byte: at / 8,
        bit: at % 8,
    }
}

/// How many bytes are written, and at which bit the unread rest starts.
fn read_into(bytes: &[u8], given: Given, buffer: &mut [u8]) -> Result<(usize, usize), Stop> {
    let at_0 = |refusal| Stop { refusal, at: 0 };
    let header = given.header().map_err(at_0)?;
    let bits = &mut Bits::of_bytes(bytes);
    let records = slice(bits, &header)?;
    let place = buffer.get_mut(..records.len());
    let place = place.ok_or(at_0(Refusal::RecordsLength))?;
    place.copy_from_slice(&records);
    Ok((records.len(), bits.at))
}

/// The records of a slice. "The first increment goes into the start address and the record carries 1." "It ends after a
/// macroblock where only zero bits are left."
fn slice(bits: &mut Bits, header: &Header) -> Result<Vec<u8>, Stop> {
    let row = bits.code(&start_codes(header.size.height))?;
    let scale = bits.number(5)? as u8;
    extra_information(bits)?;
    let start = (row - 1) * header.size.width + increment(bits)? - 1;
    let [high, low] = word(start as i64);
    let mut records = record(SLICE, &[scale, high, low]);
    records.extend(macroblock(bits, header, 1)?);
    while bits.left().contains('1') {
        let increment = increment(bits)?;
        records.extend(macroblock(bits, header, increment)?);
    }
    Ok(records)
}

/// "Each is a 2-byte length (of what comes after it), a kind byte and a body."
fn record(kind: u8, body: &[u8]) -> Vec<u8> {
    let length = word(1 + body.len() as i64);
    [&length[..], &[kind], body].concat()
}

/// "Numbers are big-endian; signed ones two's complement."
fn word(number: i64) -> [u8; 2] {
    (number as u16).to_be_bytes()
}

/// "The start code is one code": 00 00 01 and the row, from 1. "24 when .. the row isn't in the picture".
fn start_codes(height: usize) -> Vec<(String, usize)> {
    let start_code = |row| (format!("{:024b}{row:08b}", 1), row);
    (1..=height).map(start_code).collect()
}

/// "Stuffing .. and extra information are dropped": extra_bit_slice and, if it is 1, a byte and another such bit.
fn extra_information(bits: &mut Bits) -> Result<(), Stop> {
    while bits.number(1)? == 1 {
        bits.number(8)?;
    }
    Ok(())
}

/// "Stuffing, which begins a macroblock and is no code after an escape, .. [is] dropped and escapes are added into the
/// increment." "24 when .. a code takes an increment past 396".
fn increment(bits: &mut Bits) -> Result<usize, Stop> {
    let after_escape: Vec<_> = annex_b::INCREMENTS
        .iter()
        .copied()
        .filter(|(_, value)| *value != Increment::Stuffing)
        .collect();
    let mut words = annex_b::INCREMENTS;
    let mut sum = 0;
    loop {
        let start = bits.at;
        let (more, last) = match bits.code(words)? {
            Increment::Stuffing => (0, false),
            Increment::Escape => (33, false),
            Increment::Count(count) => (count, true),
        };
        sum += more;
        require_code(sum <= MAX_MACROBLOCKS, start)?;
        if last {
            return Ok(sum);
        }
        if more > 0 {
            words = &after_escape;
        }
    }
}

/// `Ok` if a code that was read from `start` on is allowed there.
fn require_code(holds: bool, start: usize) -> Result<(), Stop> {
    let refused = Stop {
        refusal: Refusal::SliceCode,
        at: start,
    };
    holds.then_some(()).ok_or(refused)
}

/// The record of a macroblock after its increment: "type byte, 2-byte address increment, then as the type says: scale; forward
/// codes ..; backward codes; pattern byte; blocks".
fn macroblock(bits: &mut Bits, header: &Header, increment: usize) -> Result<Vec<u8>, Stop> {
    let macroblock_type = bits.code(types(header.picture_type))?;
    let given = |bit: u8| macroblock_type & bit != 0;
    let intra = given(16);
    let mut body = vec![macroblock_type];
    body.extend(word(increment as i64));
    if given(1) {
        body.push(bits.number(5)? as u8);
    }
    for (direction, bit) in header.directions.iter().zip([2, 4]) {
        if given(bit) {
            body.extend(motion(bits, direction.f_code as usize)?);
            body.extend(motion(bits, direction.f_code as usize)?);
        }
    }
    let mut pattern = if intra { 63 } else { 0 };
    if given(8) {
        pattern = bits.code(annex_b::PATTERNS)?;
        body.push(pattern);
    }
    for index in 0..6 {
        if pattern & (32 >> index) != 0 {
            body.extend(block(bits, intra, index)?);
        }
    }
    Ok(record(MACROBLOCK, &body))
}

fn types(picture_type: PictureType) -> &'static Words<u8> {
    match picture_type {
        PictureType::I => annex_b::I_TYPES,
        PictureType::P => annex_b::P_TYPES,
        PictureType::B => annex_b::B_TYPES,
    }
}

/// A component's code and residual, "a byte each". The residual has f_code - 1 bits, or none if the code is 0.
fn motion(bits: &mut Bits, f_code: usize) -> Result<[u8; 2], Stop> {
    let code = bits.code(annex_b::MOTION_CODES)?;
    let residual = if f_code > 1 && code != 0 {
        bits.number(f_code - 1)?
    } else {
        0
    };
    Ok([code as u8, residual as u8])
}

/// "A block is: intra only, a 2-byte DC difference; a count of pairs ..; the pairs, each a run byte and a 2-byte level."
fn block(bits: &mut Bits, intra: bool, index: usize) -> Result<Vec<u8>, Stop> {
    let mut body = Vec::new();
    if intra {
        body.extend(word(dc_difference(bits, index)?));
    }
    let pairs = pairs(bits, intra)?;
    body.push(pairs.len() as u8);
    for (run, level) in pairs {
        body.push(run as u8);
        body.extend(word(level));
    }
    Ok(body)
}

/// dct_dc_size, by the table of the block's component, and a dct_dc_differential of that many bits, negative if it starts with
/// a 0.
fn dc_difference(bits: &mut Bits, index: usize) -> Result<i64, Stop> {
    let size = if index < 4 {
        bits.code(annex_b::LUMA_DC_SIZES)?
    } else {
        bits.code(annex_b::CHROMA_DC_SIZES)?
    };
    if size == 0 {
        return Ok(0);
    }
    let differential = bits.number(size)? as i64;
    let negative = differential < 1 << (size - 1);
    Ok(if negative {
        differential - (1 << size) + 1
    } else {
        differential
    })
}

/// The runs and levels up to the end of the block. "24 when .. a code takes .. a coefficient past position 63".
fn pairs(bits: &mut Bits, intra: bool) -> Result<Vec<(usize, i64)>, Stop> {
    let mut pairs = Vec::new();
    let mut words = match intra {
        true => &annex_b::NEXT_COEFFICIENTS,
        false => &annex_b::FIRST_COEFFICIENTS,
    };
    let mut from = if intra { 1 } else { 0 };
    loop {
        let start = bits.at;
        let Some((run, level)) = bits.one_code(|bits| coefficient(bits, words))? else {
            return Ok(pairs);
        };
        let position = from + run;
        require_code(position <= 63, start)?;
        pairs.push((run, level));
        from = position + 1;
        words = &annex_b::NEXT_COEFFICIENTS;
    }
}

/// A run and a level with its sign, or the end of the block. "The start code is one code, and so is an escape with its run
/// and level."
fn coefficient(bits: &mut Bits, words: &Words<Coefficient>) -> Result<Option<(usize, i64)>, Stop> {
    match bits.code(words)? {
        Coefficient::EndOfBlock => Ok(None),
        Coefficient::Pair(run, level) => {
            let negative = bits.number(1)? == 1;
            Ok(Some((run, if negative { -level } else { level })))
        }
        Coefficient::Escape => {
            let run = bits.number(6)?;
            Ok(Some((run, bits.code(&annex_b::ESCAPED_LEVELS)?)))
        }
    }
}
