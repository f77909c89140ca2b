//! Damages slices: bits that are no code, codes that go too far, and bits flipped, cut, lost or added.

use super::codes::{bytes_of, bytes_of_text, escape, text_of, word_of, Code, Place};
use crate::decoder::annex_b::Increment;
use crate::decoder::file::Header;
use crate::random::Random;

/// The bytes of a slice's codes, damaged in one or two ways. They may happen to stay a legal slice.
pub fn damaged(random: &mut Random, codes: &[Code], header: &Header) -> Vec<u8> {
    let mut codes = codes.to_vec();
    let of_codes = random.below(3);
    if of_codes > 0 {
        damage_codes(random, &mut codes, header);
    }
    if of_codes == 2 && random.once_in(2) {
        return bytes_of(&codes);
    }
    if random.once_in(4) {
        return cut(random, &codes);
    }
    damaged_bytes(random, bytes_of(&codes))
}

/// The bytes of a slice with bits flipped, or bytes added or lost.
pub fn damaged_bytes(random: &mut Random, bytes: Vec<u8>) -> Vec<u8> {
    match random.below(3) {
        0 => flipped(random, bytes),
        1 => lengthened(random, bytes),
        _ => shifted(random, bytes),
    }
}

/// Replaces a code, or removes it.
fn damage_codes(random: &mut Random, codes: &mut Vec<Code>, header: &Header) {
    match random.below(6) {
        0 => codes[0].1 = wrong_start_code(random, header),
        1 => replace(random, codes, &[Place::Increment], wrong_increment),
        2 => replace(random, codes, &COEFFICIENTS, forbidden_level),
        3 => replace(random, codes, &COEFFICIENTS, past_63),
        4 => replace(random, codes, &[], no_code),
        _ => drop(codes.remove(random.below(codes.len()))),
    }
}

const COEFFICIENTS: [Place; 2] = [Place::FirstCoefficient, Place::NextCoefficient];

/// Replaces one of the codes at these places, or, if there is none, any code, by these bits.
fn replace(
    random: &mut Random,
    codes: &mut [Code],
    places: &[Place],
    bits: fn(&mut Random) -> String,
) {
    let at_place = |index: &usize| places.contains(&codes[*index].0);
    let mut found: Vec<usize> = (0..codes.len()).filter(at_place).collect();
    if found.is_empty() {
        found = (0..codes.len()).collect();
    }
    codes[random.pick(&found)].1 = bits(random);
}

/// Row 0 or one past the picture's last, another start code's number, or not 00 00 01.
fn wrong_start_code(random: &mut Random, header: &Header) -> String {
    let row = random.pick(&[0, header.size.height + 1, 0xaf, 0xb3, 0xff]);
    let start = random.pick(&[1, 1, 1, 0, 2, 0x80_0001]);
    format!("{start:024b}{row:08b}")
}

/// Up to 13 escapes and an increment, or stuffing after an escape.
fn wrong_increment(random: &mut Random) -> String {
    let escapes = random.pick(&[1, 11, 12, 13]);
    let count = random.within(1, 33) as usize;
    let last = random.pick(&[Increment::Count(count), Increment::Stuffing]);
    word_of(Increment::Escape).repeat(escapes) + word_of(last)
}

/// A level of 0 or -256, or a small one in 16 bits.
fn forbidden_level(random: &mut Random) -> String {
    let low = random.below(128);
    let level = match random.below(4) {
        0 => "0".repeat(16),
        1 => format!("00000000{low:08b}"),
        2 => "1000000000000000".into(),
        _ => format!("10000000{:08b}", 129 + low.min(126)),
    };
    escape(random.below(64), &level)
}

/// Coefficients that end at position 63 or go past it.
fn past_63(random: &mut Random) -> String {
    let run = random.within(61, 63) as usize;
    let far = escape(run, random.pick(&["00000001", "0000000010000000"]));
    match random.below(3) {
        0 => far,
        1 => "110".repeat(random.within(62, 65) as usize),
        _ => "110".repeat(random.within(0, 3) as usize) + &far,
    }
}

/// Bits that begin no code at most points: zeros, or ones, and perhaps the other after them.
fn no_code(random: &mut Random) -> String {
    let count = random.within(5, 24) as usize;
    let bit = random.pick(&["0", "0", "1"]);
    bit.repeat(count) + random.pick(&["", "0", "1"])
}

/// Flips up to three bits.
fn flipped(random: &mut Random, mut bytes: Vec<u8>) -> Vec<u8> {
    for _ in 0..random.pick(&[1, 1, 2, 3]) {
        if !bytes.is_empty() {
            let at = random.below(bytes.len());
            bytes[at] ^= 1 << random.below(8);
        }
    }
    bytes
}

/// Ends the slice at any bit, at a code's start, or at any byte. An incomplete byte is padded with zeros or ones; or extra
/// information, nine bits at a time, is inserted until the slice ends with a byte.
fn cut(random: &mut Random, codes: &[Code]) -> Vec<u8> {
    let text = text_of(codes);
    let before = random.below(codes.len());
    let at_code = codes[..before].iter().map(|code| code.1.len()).sum();
    let anywhere = random.below(text.len() + 1);
    let at = random.pick(&[anywhere, at_code, anywhere / 8 * 8]);
    let missing = (8 - at % 8) % 8;
    let (header, rest) = text[..at].split_at(at.min(HEADER_BITS));
    bytes_of_text(&match random.below(4) {
        0 => format!("{header}{rest}{}", "0".repeat(missing)),
        1 => format!("{header}{rest}{}", "1".repeat(missing)),
        _ => format!("{header}{}{rest}", "101010101".repeat(missing)),
    })
}

/// The start code and the scale.
pub(super) const HEADER_BITS: usize = 32 + 5;

/// Appends bytes: zeros, zeros and something else, a start code, or any.
fn lengthened(random: &mut Random, mut bytes: Vec<u8>) -> Vec<u8> {
    let zeros = random.pick(&[0, 1, 2, 5]);
    bytes.resize(bytes.len() + zeros, 0);
    let start_code = [0, 0, 1, random.pick(&[0x00, 0x02, 0xb3, 0xb7])];
    match random.below(4) {
        0 => bytes.extend(start_code),
        1 => bytes.push(1 << random.below(8)),
        2 => {
            let count = random.within(1, 4) as usize;
            bytes.extend(random.bytes(count));
        }
        _ => (),
    }
    bytes
}

/// Drops bytes, or inserts zeros.
fn shifted(random: &mut Random, mut bytes: Vec<u8>) -> Vec<u8> {
    let at = random.below(bytes.len() + 1);
    let count = random.pick(&[1, 2]);
    if random.once_in(2) {
        bytes.splice(at..at, vec![0; count]);
    } else {
        bytes.drain(at..(at + count).min(bytes.len()));
    }
    bytes
}
