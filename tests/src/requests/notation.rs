//! How the cases of requests are written: a line a case, with fields separated by tabs. Numbers are decimal, and those of a list
//! are separated by commas; bytes are lower-case hexadecimal digits. `-` stands for an empty list or no bytes.

use std::fmt;

/// Why a line can't be run as a case.
#[derive(Debug, PartialEq, Eq)]
pub enum Unread {
    /// It is not written as its file's lines are.
    Malformed(String),
    /// The entry's type has no such number.
    NoSuchNumber(String),
}

impl fmt::Display for Unread {
    fn fmt(&self, formatter: &mut fmt::Formatter) -> fmt::Result {
        match self {
            Unread::Malformed(what) => formatter.write_str(what),
            Unread::NoSuchNumber(number) => {
                write!(formatter, "the entry's type has no number {number}")
            }
        }
    }
}

/// The fields of a line, which has just so many.
pub fn fields<const COUNT: usize>(line: &str) -> Result<[&str; COUNT], Unread> {
    counted("fields", line.split('\t').collect())
}

/// The items, if there are just so many.
fn counted<T, const COUNT: usize>(what: &str, items: Vec<T>) -> Result<[T; COUNT], Unread> {
    let found = items.len();
    let malformed = |_| Unread::Malformed(format!("{found} {what}, not {COUNT}"));
    items.try_into().map_err(malformed)
}

/// A decimal number, without needless zeros or signs.
pub fn number<N: TryFrom<i128>>(text: &str) -> Result<N, Unread> {
    let number: Option<i128> = text.parse().ok();
    let Some(number) = number.filter(|number| number.to_string() == text) else {
        return Err(Unread::Malformed(format!("no number: {text:?}")));
    };
    let no_such_number = |_| Unread::NoSuchNumber(text.into());
    number.try_into().map_err(no_such_number)
}

/// A list of just so many numbers.
pub fn numbers<N: TryFrom<i128>, const COUNT: usize>(text: &str) -> Result<[N; COUNT], Unread> {
    // What is malformed is told first: a wide case is left out only if it is written well.
    let written: [&str; COUNT] = counted("numbers", written_numbers(text)?)?;
    let numbers: Result<Vec<N>, Unread> = written.into_iter().map(number).collect();
    counted("numbers", numbers?)
}

/// The numbers of a list as they are written, of any size.
fn written_numbers(text: &str) -> Result<Vec<&str>, Unread> {
    if text == "-" {
        return Ok(Vec::new());
    }
    let written = |item| number::<i128>(item).map(|_| item);
    text.split(',').map(written).collect()
}

/// The bytes written as two hexadecimal digits each.
pub fn bytes(text: &str) -> Result<Vec<u8>, Unread> {
    if text == "-" {
        return Ok(Vec::new());
    }
    let byte = |digits: &[u8]| match digits {
        [high, low] => Some(16 * digit(*high)? + digit(*low)?),
        _ => None,
    };
    let bytes: Option<Vec<u8>> = text.as_bytes().chunks(2).map(byte).collect();
    bytes
        .filter(|bytes| !bytes.is_empty())
        .ok_or_else(|| Unread::Malformed(format!("no bytes: {text:?}")))
}

fn digit(digit: u8) -> Option<u8> {
    match digit {
        b'0'..=b'9' => Some(digit - b'0'),
        b'a'..=b'f' => Some(digit - b'a' + 10),
        _ => None,
    }
}

/// The picture that `seed:length` stands for.
pub fn picture(text: &str) -> Result<Vec<u8>, Unread> {
    if text == "-" {
        return Ok(Vec::new());
    }
    let malformed = || Unread::Malformed(format!("no picture: {text:?}"));
    let (seed, length) = text.split_once(':').ok_or_else(malformed)?;
    let (seed, length) = (number(seed)?, number(length)?);
    if length > LONGEST {
        return Err(malformed());
    }
    Ok(picture_from_seed(seed, length))
}

/// Far longer than any picture; a longer one is a mistake of writing, which should not take the memory.
const LONGEST: usize = 1 << 24;

/// The bytes of a linear congruential generator, each the high byte of a state of 64 bits.
fn picture_from_seed(seed: u64, length: usize) -> Vec<u8> {
    let next = |state: &u64| {
        let product = state.wrapping_mul(6364136223846793005);
        Some(product.wrapping_add(1442695040888963407))
    };
    let states = std::iter::successors(Some(seed), next).skip(1);
    states
        .take(length)
        .map(|state| (state >> 56) as u8)
        .collect()
}

/// A sum, written as 16 hexadecimal digits.
pub fn sum(text: &str) -> Result<u64, Unread> {
    let bytes = bytes(text)?.try_into().map(u64::from_be_bytes);
    bytes.map_err(|_| Unread::Malformed(format!("no sum: {text:?}")))
}

/// The 64-bit FNV-1a of all bytes.
pub fn sum_of(bytes: &[u8]) -> u64 {
    bytes.iter().fold(0xcbf2_9ce4_8422_2325, |sum, byte| {
        (sum ^ u64::from(*byte)).wrapping_mul(0x100_0000_01b3)
    })
}

#[cfg(test)]
mod tests {
    use super::*;

    fn malformed<T>(read: Result<T, Unread>) -> bool {
        matches!(read, Err(Unread::Malformed(_)))
    }

    #[test]
    fn pictures_follow_from_their_seeds() {
        let first = [0x6c, 0x82, 0xa5, 0x62, 0xcb, 0x80, 0x8d, 0x10];
        let second = [0xc4, 0xea, 0xb0, 0x5d, 0x35, 0x70, 0x07, 0xc6];
        assert_eq!(picture("1:8"), Ok(first.into()));
        assert_eq!(picture("2:8"), Ok(second.into()));
        assert_eq!(picture("1:0"), Ok(vec![]));
        assert_eq!(picture("-"), Ok(vec![]));
        for text in ["", "1", ":", "1:", ":8", "1:8:8", "1:-8", "1:16777217"] {
            assert!(picture(text).is_err(), "{text}");
        }
    }

    #[test]
    fn sums_are_those_of_fnv_1a() {
        assert_eq!(Ok(sum_of(&[])), sum("cbf29ce484222325"));
        assert_eq!(
            Ok(sum_of(&picture_from_seed(1, 384))),
            sum("ea2c49134a3df333")
        );
        for text in [
            "-",
            "ea2c49134a3df3",
            "ea2c49134a3df33300",
            "EA2C49134A3DF333",
        ] {
            assert!(malformed(sum(text)), "{text}");
        }
    }

    #[test]
    fn bytes_have_two_lower_case_digits() {
        assert_eq!(bytes("00ff1a"), Ok(vec![0, 255, 26]));
        assert_eq!(bytes("-"), Ok(vec![]));
        for text in ["", "0", "000", "FF", "+1", "0g", "00 01"] {
            assert!(malformed(bytes(text)), "{text}");
        }
    }

    #[test]
    fn numbers_are_decimal_and_fit_their_type() {
        assert_eq!(number("255"), Ok(255_u8));
        assert_eq!(number("-128"), Ok(-128_i8));
        let no_such_number = |text: &str| Unread::NoSuchNumber(text.into());
        assert_eq!(number::<u8>("256"), Err(no_such_number("256")));
        assert_eq!(number::<u8>("-1"), Err(no_such_number("-1")));
        for text in ["", "-", "+1", "01", "-0", "1 ", "0x1", "1.0"] {
            assert!(malformed(number::<i32>(text)), "{text}");
        }
    }

    #[test]
    fn lists_have_commas_and_are_counted() {
        assert_eq!(numbers("0,-1,255"), Ok([0_i16, -1, 255]));
        assert_eq!(numbers("7"), Ok([7_u8]));
        assert_eq!(numbers::<u8, 0>("-"), Ok([]));
        for text in [
            "", "-", ",", "1", "1,2", "1,2,3,4", "1,2,", ",1,2", "1,,2", "1, 2,3", "1;2;3",
            "1,-,2", "256,2", "256,x,2",
        ] {
            assert!(malformed(numbers::<u8, 3>(text)), "{text}");
        }
        let no_such_number = Err(Unread::NoSuchNumber("256".into()));
        assert_eq!(numbers::<u8, 3>("1,256,2"), no_such_number);
    }

    #[test]
    fn fields_are_counted() {
        assert_eq!(fields("a\tb c\t-"), Ok(["a", "b c", "-"]));
        assert!(malformed(fields::<2>("a\tb c\t-")));
        assert!(malformed(fields::<4>("a\tb c\t-")));
    }
}
