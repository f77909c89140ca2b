//! Tests the other decoder against document 01's "Figures to check against" and its sample reel.

mod common;

use common::{file_of, I, SLICE};
use format3_tests::decoder::coefficients::{intra_ac, non_intra};
use format3_tests::decoder::file::header;
use format3_tests::decoder::panel::{play, text, PANEL_LIMITS};
use format3_tests::decoder::reconstruct;
use format3_tests::decoder::refusals::Refusal;
use format3_tests::decoder::size::Size;
use format3_tests::decoder::transform::inverse_transform;
use format3_tests::decoder::vectors::{chroma, decoded, f_of, fits, luma, mean};

#[test]
fn coefficients() {
    assert_eq!(intra_ac(1, 1, 16), 1);
    assert_eq!(intra_ac(1, 1, 1), 0);
    assert_eq!(intra_ac(-255, 31, 83), -2048);
    assert_eq!(non_intra(1, 1, 16), 3);
    assert_eq!(non_intra(-1, 2, 16), -5);
}

#[test]
fn vectors() {
    assert_eq!(decoded(f_of(1), 15, 1, 0), -16);
    assert_eq!(decoded(f_of(2), 0, 1, 0), 1);
    assert_eq!(decoded(f_of(2), 0, -1, 0), -1);
    assert_eq!(luma(-3), (-2, 1));
    assert_eq!(chroma(-3), (-1, 1));
}

#[test]
fn means() {
    assert_eq!(mean(1, 4), 0);
    assert_eq!(mean(1 + 2, 2), 2);
}

#[test]
fn transform() {
    let dc = |dc| std::array::from_fn(|place| if place == 0 { dc } else { 0 });
    assert_eq!(inverse_transform(&dc(8)), [1; 64]);
    assert_eq!(inverse_transform(&dc(4)), [0; 64]);
}

#[test]
fn sizes() {
    assert!(header(&[22, 18, 1, 0, 0, 0, 0]).is_ok());
    let refused = header(&[48, 9, 1, 0, 0, 0, 0]);
    assert_eq!(refused, Err(Refusal::Header));
}

/// An I-picture of one macroblock whose first block has this DC difference and these pairs.
fn intra_picture(difference: i16, pairs: &[u8]) -> Vec<u8> {
    let count = pairs.len() / 3;
    let first = [&difference.to_be_bytes()[..], &[count as u8], pairs].concat();
    let macroblock = [&[4, 16, 0, 1], &first[..], &[0; 15]].concat();
    file_of(&[I, SLICE, &macroblock])
}

/// The answer's number for a first block with this DC difference and one pair, of run 0 and this level.
fn intra_number(difference: i16, level: i16) -> u32 {
    let [high, low] = level.to_be_bytes();
    let file = intra_picture(difference, &[0, high, low]);
    reconstruct(&file, &[], &[], &mut [0; 384]).number
}

#[test]
fn levels_and_differences() {
    let coefficient = Refusal::Coefficient.number();
    assert_eq!(intra_number(0, 255), 0);
    assert_eq!(intra_number(0, 256), coefficient);
    let dc = Refusal::DcCoefficient.number();
    assert_eq!(intra_number(127, 1), 0);
    assert_eq!(intra_number(128, 1), dc);
    assert_eq!(intra_number(-128, 1), 0);
    assert_eq!(intra_number(-129, 1), dc);
}

/// "First DC difference 127 gives 2040", "-128 gives 0": the flat blocks of those coefficients.
#[test]
fn ends_of_the_dc() {
    for (difference, pel) in [(127_i16, 255), (-128, 0)] {
        let file = intra_picture(difference, &[]);
        let mut output = [9; 384];
        let answer = reconstruct(&file, &[], &[], &mut output);
        assert_eq!(answer.number, 0);
        assert_eq!(output[0], pel);
        assert_eq!(output[7 * 16 + 7], pel);
    }
}

#[test]
fn vectors_that_fit() {
    let two_wide = Size::new(2, 1).expect("two macroblocks fit");
    assert!(fits(two_wide, 0, [32, 0]));
    assert!(!fits(two_wide, 0, [33, 0]));
    assert!(!fits(two_wide, 0, [-1, 0]));
}

/// The reel that document 01 gives in hexadecimal, and the three lines printed for it.
#[test]
fn the_worked_reel() {
    let intra = "00000029 03 0008 01 01010100000000 0004 03 080000 0016 04 100001";
    let copy = "0000001B 03 0008 01 01010200010000 0004 03 080000 0008 04 02000100000000";
    let reel = [bytes(intra), vec![0; 18], bytes(copy), bytes("00000001 04")].concat();
    let lines = play(&reel, PANEL_LIMITS, reconstruct);
    let printed = "1 I 0 41 1 32768 8192 8192\n2 P 0 27 1 32768 8192 8192\n3 ? 2 0 0 - - -\n";
    assert_eq!(text(&lines), printed);
}

fn bytes(hexadecimal: &str) -> Vec<u8> {
    let digits: Vec<u32> = hexadecimal
        .chars()
        .filter_map(|digit| digit.to_digit(16))
        .collect();
    digits
        .chunks(2)
        .map(|pair| (16 * pair[0] + pair[1]) as u8)
        .collect()
}
