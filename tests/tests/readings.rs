//! Tests the other decoder against settled readings of document 01 and requests No. 1, 4, 6 and 12, where their words leave a
//! choice.

mod common;

use common::{file_of, I, SLICE};
use format3_tests::decoder::entries::{FileStart, Shown};
use format3_tests::decoder::panel::{play, text, PANEL_LIMITS};
use format3_tests::decoder::refusals::Answer;
use format3_tests::decoder::{
    reconstruct, reconstruct_small, Given, Reconstruct, Transformed, ENTRIES,
};

/// The header of a P-picture of one macroblock.
const P: &[u8] = &[1, 1, 1, 2, 0, 1, 0, 0];

/// An intra macroblock without AC: each block has a DC difference of 0 and no pairs.
const GREY: &[u8] = &[
    4, 16, 0, 1, 0, 0, 0, 0, 0, 0, 0, 0, 0, 0, 0, 0, 0, 0, 0, 0, 0, 0,
];

/// The answer, with references of `macroblocks` macroblocks in each direction that the first header's type uses.
fn whole_answer(file: &[u8], macroblocks: usize) -> Answer {
    let bytes = vec![100; 384 * macroblocks];
    let picture_type = file.get(6).copied().unwrap_or(0);
    let forward = if picture_type >= 2 { &bytes[..] } else { &[] };
    let backward = if picture_type >= 3 { &bytes[..] } else { &[] };
    reconstruct(file, forward, backward, &mut bytes.clone())
}

/// Its number, place and made.
fn answer_with(file: &[u8], macroblocks: usize) -> (u32, usize, usize) {
    let Answer {
        number,
        place,
        made,
        ..
    } = whole_answer(file, macroblocks);
    (number, place, made)
}

fn answer(file: &[u8]) -> (u32, usize, usize) {
    answer_with(file, 1)
}

/// The number for a picture whose last record is a macroblock with this body.
fn macroblock_number(header: &[u8], body: &[u8]) -> u32 {
    let (number, ..) = answer(&file_of(&[header, SLICE, &[&[4], body].concat()]));
    number
}

#[test]
fn the_end_of_the_file() {
    assert_eq!(answer(&[]), (1, 0, 0));
    assert_eq!(answer(&[4]), (2, 0, 0));
    assert_eq!(answer(&[3]), (7, 1, 0));
    assert_eq!(answer(&[3, 0]), (3, 1, 0));
    assert_eq!(answer(&[3, 0, 8]), (3, 1, 0));
    assert_eq!(answer(&file_of(&[I])), (7, 11, 0));
    assert_eq!(answer(&file_of(&[I, SLICE])), (7, 17, 0));
    assert_eq!(answer(&file_of(&[I, SLICE, GREY])), (0, 41, 1));
}

#[test]
fn after_the_last_macroblock() {
    let whole = file_of(&[I, SLICE, GREY]);
    let then = |more: &[u8]| answer(&[&whole[..], more].concat());
    assert_eq!(then(&[0]), (3, 41, 1));
    assert_eq!(then(&[0, 0, 9]), (3, 41, 1));
    assert_eq!(then(&[0, 1, 9]), (4, 41, 1));
    for kind in 1..=4 {
        assert_eq!(then(&[0, 1, kind]), (5, 41, 1));
    }
}

#[test]
fn records_out_of_turn() {
    let matrix = [&[2, 1][..], &[16; 64]].concat();
    assert_eq!(answer(&file_of(&[SLICE])), (5, 1, 0));
    assert_eq!(answer(&file_of(&[I, &[1, 1]])), (5, 11, 0));
    assert_eq!(answer(&file_of(&[I, GREY])), (5, 11, 0));
    assert_eq!(answer(&file_of(&[I, SLICE, SLICE])), (5, 17, 0));
    assert_eq!(answer(&file_of(&[I, SLICE, &matrix])), (5, 17, 0));
    assert_eq!(answer(&file_of(&[I, &matrix, SLICE, GREY])), (0, 109, 1));
    assert_eq!(answer(&file_of(&[I, &matrix, &matrix])), (9, 79, 0));
}

#[test]
fn lengths_before_fields_and_fields_in_order() {
    assert_eq!(answer(&file_of(&[&[1, 0]])), (6, 1, 0));
    assert_eq!(answer(&file_of(&[I, &[3, 0, 0]])), (6, 11, 0));
    assert_eq!(answer(&file_of(&[I, &[3, 0, 0, 9]])), (10, 11, 0));
    assert_eq!(answer(&file_of(&[I, &[3, 1, 0, 9]])), (11, 11, 0));
    assert_eq!(answer(&file_of(&[I, &[2]])), (6, 11, 0));
}

#[test]
fn what_is_lent() {
    let number = |file: &[u8], forward: usize, backward: usize, output: usize| {
        let [forward, backward, mut output] = [forward, backward, output].map(|n| vec![0; n]);
        reconstruct(file, &forward, &backward, &mut output).number
    };
    let intra = file_of(&[I, SLICE, GREY]);
    assert_eq!(number(&intra, 384, 384, 383), 19);
    assert_eq!(number(&intra, 384, 384, 384), 20);
    assert_eq!(number(&intra, 0, 384, 384), 21);
    let predicted = file_of(&[P, SLICE, GREY]);
    assert_eq!(number(&predicted, 0, 384, 384), 20);
    assert_eq!(number(&predicted, 384, 384, 384), 21);
    assert_eq!(number(&predicted, 384, 0, 384), 0);
}

/// The answer of a reader to a file, if these many bytes are lent, and whether it changed the output.
fn answer_to_lent(reader: Reconstruct, file: &[u8], lent: [usize; 3]) -> (Answer, bool) {
    let [forward, backward, before] = lent.map(|length| vec![9; length]);
    let mut output = before.clone();
    let answer = reader(file, &forward, &backward, &mut output);
    (answer, output != before)
}

/// A header of 10 by 10 macroblocks is refused by 27 whatever was lent and whatever follows it: at the header's place, with nothing
/// made or written. The other reader tests the lengths, then reads on.
#[test]
fn above_the_small_limit() {
    let p = &[1, 10, 10, 2, 0, 1, 0, 0];
    let first = &[4, 2, 0, 1, 0, 0, 0, 0];
    let skipping = &[4, 2, 0, 99, 0, 0, 0, 0];
    let whole = file_of(&[p, SLICE, first, skipping]);
    let refused = Answer {
        number: 27,
        place: 1,
        made: 0,
        rows: 0,
    };
    let right = [38_400, 0, 38_400];
    for (file, lent, number) in [
        (&whole[..], right, 0),
        (&whole[..11], right, 7),
        (&whole[..12], right, 3),
        (&file_of(&[p, p]), right, 5),
        (&whole, [38_400, 0, 38_016], 19),
        (&whole, [0, 0, 38_400], 20),
        (&whole, [38_400, 38_400, 38_400], 21),
        (&whole, [0, 0, 0], 19),
    ] {
        let small = answer_to_lent(reconstruct_small, file, lent);
        assert_eq!(small, (refused, false));
        let (large, _) = answer_to_lent(reconstruct, file, lent);
        assert_eq!(large.number, number);
    }
}

/// What is refused by 8 or sooner is refused so by both readers: a size beyond 396 macroblocks, wrong codes with any size, and a
/// header that is too short.
#[test]
fn refused_before_the_small_limit() {
    for (header, number) in [
        (&[1, 48, 9, 1, 0, 0, 0, 0][..], 8),
        (&[1, 50, 2, 1, 0, 0, 0, 0], 8),
        (&[1, 10, 10, 2, 0, 0, 0, 0], 8),
        (&[1, 10, 10, 3, 0, 1, 0, 8], 8),
        (&[1, 10, 10, 1, 0, 1, 0, 0], 8),
        (&[1, 10, 10, 4, 0, 0, 0, 0], 8),
        (&[1, 10, 10, 1, 0, 0, 0], 6),
    ] {
        for reader in [reconstruct, reconstruct_small] {
            let (answer, _) = answer_to_lent(reader, &file_of(&[header]), [0, 0, 38_400]);
            assert_eq!(answer.number, number, "{header:?}");
        }
    }
}

/// The reader of raw slices takes sizes up to 396 macroblocks: a start code alone is cut, not refused by its size.
#[test]
fn slices_keep_the_large_limit() {
    let given = |width, height| Given {
        width,
        height,
        picture_type: 1,
        f_codes: [0, 0],
    };
    let number = |given| (ENTRIES.read_slice)(&[0, 0, 1, 1], given, &mut []).number;
    assert_eq!(number(given(10, 10)), 25);
    assert_eq!(number(given(22, 18)), 25);
    assert_eq!(number(given(48, 9)), 8);
}

#[test]
fn macroblock_fields_as_they_stand() {
    assert_eq!(macroblock_number(P, &[]), 6);
    assert_eq!(macroblock_number(P, &[32 + 2]), 12);
    assert_eq!(macroblock_number(P, &[4, 0, 0]), 12);
    assert_eq!(macroblock_number(P, &[2, 0]), 6);
    assert_eq!(macroblock_number(P, &[11, 0, 2, 0]), 13);
    assert_eq!(macroblock_number(P, &[11, 0, 1, 0]), 10);
    assert_eq!(macroblock_number(P, &[11, 0, 1, 1, 17]), 14);
    assert_eq!(macroblock_number(P, &[11, 0, 1, 1, 16]), 6);
    assert_eq!(macroblock_number(P, &[11, 0, 1, 1, 0, 1]), 14);
    assert_eq!(macroblock_number(P, &[10, 0, 1, 0, 0, 0, 0, 64]), 15);
    assert_eq!(macroblock_number(P, &[10, 0, 1, 0, 0, 0, 0, 1, 0]), 16);
    assert_eq!(macroblock_number(P, &[10, 0, 1, 0, 0, 0, 0, 1, 65]), 16);
    assert_eq!(macroblock_number(P, &[8, 0, 1, 1, 1, 64]), 16);
    assert_eq!(macroblock_number(P, &[8, 0, 1, 1, 1, 63]), 6);
    assert_eq!(macroblock_number(P, &[8, 0, 1, 1, 1, 63, 0, 0]), 16);
    assert_eq!(macroblock_number(P, &[8, 0, 1, 1, 1, 63, 0, 1]), 0);
    assert_eq!(macroblock_number(I, &[16, 0, 1, 1, 0]), 17);
    assert_eq!(macroblock_number(I, &[16, 0, 1, 0, 0, 64]), 16);
    assert_eq!(macroblock_number(I, &[16, 0, 1, 0, 0, 1, 63]), 16);
}

/// Vector 1 leaves a picture of one macroblock; an extra byte is refused before that.
#[test]
fn bytes_left_over_before_vectors() {
    assert_eq!(macroblock_number(P, &[2, 0, 1, 1, 0, 0, 0]), 18);
    assert_eq!(macroblock_number(P, &[2, 0, 1, 1, 0, 0, 0, 0]), 6);
}

/// Three macroblocks side by side: the second record tries to skip one.
#[test]
fn skips() {
    let p = &[1, 3, 1, 2, 0, 1, 0, 0];
    let b = &[1, 3, 1, 3, 0, 1, 0, 1];
    let next = &[4, 2, 0, 1, 0, 0, 0, 0];
    let skipping = &[4, 2, 0, 2, 0, 0, 0, 0];
    let number = |records: &[&[u8]]| answer_with(&file_of(records), 3);
    assert_eq!(number(&[p, SLICE, GREY, skipping]), (0, 51, 3));
    assert_eq!(number(&[b, SLICE, GREY, skipping]), (13, 41, 1));
    assert_eq!(number(&[p, SLICE, skipping]), (13, 17, 0));
    assert_eq!(number(&[p, SLICE, next, &[4, 2, 0, 3]]), (13, 27, 1));
}

/// A B skip repeats the last vector and is tested at its own address: two macroblocks further right, it fits only the first.
#[test]
fn a_skip_that_does_not_fit() {
    let header = &[1, 3, 1, 3, 0, 4, 0, 1];
    let right = &[4, 2, 0, 1, 8, 7, 0, 0];
    let back_skipping = &[4, 2, 0, 2, -8_i8 as u8, 7, 0, 0];
    let file = file_of(&[header, SLICE, right, back_skipping]);
    assert_eq!(answer_with(&file, 3), (18, 27, 1));
    let p_header = &[1, 3, 1, 2, 0, 4, 0, 0];
    let p_skips_by_zero = &[4, 2, 0, 2, 0, 0, 0, 0];
    let file = file_of(&[p_header, SLICE, right, p_skips_by_zero]);
    assert_eq!(answer_with(&file, 3), (0, 37, 3));
}

/// 18 is for the forward vector, 23 for the backward one, which is tested after it. In a picture of one macroblock only vector 0
/// fits.
#[test]
fn the_direction_that_does_not_fit() {
    let b = &[1, 1, 1, 3, 0, 1, 0, 1];
    assert_eq!(macroblock_number(b, &[2, 0, 1, 1, 0, 0, 0]), 18);
    assert_eq!(macroblock_number(b, &[4, 0, 1, 1, 0, 0, 0]), 23);
    assert_eq!(macroblock_number(b, &[4, 0, 1, 0, 0, 1, 0]), 23);
    let both = |forward, backward| [6, 0, 1, forward, 0, 0, 0, backward, 0, 0, 0];
    assert_eq!(macroblock_number(b, &both(0, 0)), 0);
    assert_eq!(macroblock_number(b, &both(1, 0)), 18);
    assert_eq!(macroblock_number(b, &both(0, 1)), 23);
    assert_eq!(macroblock_number(b, &both(1, 1)), 18);
    assert_eq!(macroblock_number(b, &[4, 0, 1, 1, 0, 0, 0, 0]), 6);
    // A P has no backward vector: the type is refused first.
    assert_eq!(macroblock_number(P, &[2, 0, 1, 1, 0, 0, 0]), 18);
    assert_eq!(macroblock_number(P, &[4, 0, 1, 1, 0, 0, 0]), 12);
    assert_eq!(macroblock_number(P, &both(0, 1)), 12);
}

/// Two by two macroblocks: from the first one, the skipped ones repeat vectors to the right, which leave the picture at the
/// second, or down, which leave it at the third.
#[test]
fn the_direction_of_a_skip_that_does_not_fit() {
    let b = &[1, 2, 2, 3, 0, 1, 0, 1];
    let number = |records: &[&[u8]]| answer_with(&file_of(&[&[b, SLICE], records].concat()), 4);
    let forward_right = &[4, 2, 0, 1, 1, 0, 0, 0];
    let backward_right = &[4, 4, 0, 1, 1, 0, 0, 0];
    // Their own vectors leave the picture at the left.
    let forward_left = &[4, 2, 0, 2, -2_i8 as u8, 0, 0, 0];
    let backward_left = &[4, 4, 0, 2, -2_i8 as u8, 0, 0, 0];
    assert_eq!(number(&[forward_right, forward_left]), (18, 27, 1));
    assert_eq!(number(&[forward_right, backward_left]), (18, 27, 1));
    assert_eq!(number(&[backward_right, forward_left]), (23, 27, 1));
    assert_eq!(number(&[backward_right, backward_left]), (23, 27, 1));
    let both_right = &[4, 6, 0, 1, 1, 0, 0, 0, 1, 0, 0, 0];
    assert_eq!(number(&[both_right, backward_left]), (18, 31, 1));
    // The second macroblock is tested in both directions before the third.
    let skips_two = &[4, 4, 0, 3, -1_i8 as u8, 0, 0, 0];
    let down_and_right = &[4, 6, 0, 1, 0, 0, 1, 0, 1, 0, 0, 0];
    assert_eq!(number(&[down_and_right, skips_two]), (23, 31, 1));
    let right_and_down = &[4, 6, 0, 1, 1, 0, 0, 0, 0, 0, 1, 0];
    assert_eq!(number(&[right_and_down, skips_two]), (18, 31, 1));
}

/// Two macroblocks side by side: the first has a backward vector to the right, which does not fit the second. A direction that is
/// not used is not tested, although it keeps its past.
#[test]
fn an_unused_direction_that_does_not_fit() {
    let b = &[1, 2, 1, 3, 0, 1, 0, 1];
    let number = |second: &[u8]| {
        let first = &[4, 6, 0, 1, 0, 0, 0, 0, 1, 0, 0, 0];
        answer_with(&file_of(&[b, SLICE, first, second]), 2)
    };
    assert_eq!(number(&[4, 2, 0, 1, 0, 0, 0, 0]), (0, 41, 2));
    assert_eq!(number(&[4, 4, 0, 1, 0, 0, 0, 0]), (23, 31, 1));
    assert_eq!(number(GREY), (0, 55, 2));
}

/// Two macroblocks side by side: from the first one, 32 fits and 33 doesn't. The vector that is used is tested: a full-pel flag
/// doubles that of its own direction.
#[test]
fn a_doubled_vector_that_does_not_fit() {
    // Differences of 16, 17, 32 and 33 with f_code 3.
    let [sixteen, seventeen, thirty_two, thirty_three] = [[4, 3], [5, 0], [8, 3], [9, 0]];
    let number = |full_pel: [u8; 2], macroblock_type: u8, [code, residual]: [u8; 2]| {
        let header = &[1, 2, 1, 3, full_pel[0], 3, full_pel[1], 3];
        let first = &[4, macroblock_type, 0, 1, code, residual, 0, 0];
        let back = &[
            4,
            macroblock_type,
            0,
            1,
            code.wrapping_neg(),
            residual,
            0,
            0,
        ];
        let (number, ..) = answer_with(&file_of(&[header, SLICE, first, back]), 2);
        number
    };
    for (way, macroblock_type, refusal) in [(0, 2, 18), (1, 4, 23)] {
        let mut own_flag = [0; 2];
        own_flag[way] = 1;
        let mut other_flag = [1; 2];
        other_flag[way] = 0;
        assert_eq!(number(own_flag, macroblock_type, sixteen), 0);
        assert_eq!(number(own_flag, macroblock_type, seventeen), refusal);
        assert_eq!(number(other_flag, macroblock_type, thirty_two), 0);
        assert_eq!(number(other_flag, macroblock_type, thirty_three), refusal);
    }
}

#[test]
fn a_difference_of_16f() {
    assert_eq!((ENTRIES.vector)(2, 0, 16, 1), (0, -32));
    assert_eq!((ENTRIES.vector)(2, -1, 16, 1), (0, 31));
    assert_eq!((ENTRIES.vector)(2, 0, -16, 1), (0, -32));
}

#[test]
fn numbers_out_of_range() {
    assert_eq!((ENTRIES.vector)(0, 0, 0, 0), (22, 0));
    assert_eq!((ENTRIES.vector)(1, 16, 0, 0), (22, 0));
    assert_eq!((ENTRIES.vector)(1, -16, 0, 0), (0, -16));
    assert_eq!((ENTRIES.intra_coefficient)(0, 31, 255), (0, 0));
    assert_eq!((ENTRIES.intra_coefficient)(256, 31, 255), (22, 0));
    assert_eq!((ENTRIES.non_intra_coefficient)(1, 32, 16), (22, 0));
    assert_eq!((ENTRIES.non_intra_coefficient)(1, 1, 0), (22, 0));
    let mut block = [0; 64];
    block[63] = 2048;
    let zeros = Transformed {
        residues: [0; 64],
        rows: 0,
    };
    assert_eq!((ENTRIES.transform)(&block), (22, zeros));
}

/// The number, code and residual for a wanted vector.
fn encoded(f_code: i32, past: i32, wanted: i32) -> (u32, i32, u32) {
    let (number, encoded) = (ENTRIES.encode_vector)(f_code, past, wanted);
    (number, encoded.code, encoded.residual)
}

/// From every past in range, every wanted vector in range is read from one pair, or from two if they differ by 16f; and no other.
#[test]
fn pairs_that_reach_a_wanted_vector() {
    for f_code in 1..=7 {
        let f = 1 << (f_code - 1);
        for past in -16 * f..16 * f {
            let pairs = (-16..=16).flat_map(|code| (0..f).map(move |residual| (code, residual)));
            let read = |(code, residual)| (ENTRIES.vector)(f_code, past, code, residual);
            let mut found = vec![0; 32 * f as usize];
            for (_, wanted) in pairs.map(read).filter(|(number, _)| *number == 0) {
                found[(wanted + 16 * f) as usize] += 1;
            }
            let expected = |wanted: i32| {
                if past.abs_diff(wanted) == 16 * f as u32 {
                    2
                } else {
                    1
                }
            };
            assert_eq!(found, Vec::from_iter((-16 * f..16 * f).map(expected)));
        }
    }
}

/// From both sides, and at the ends of the range: both codes are read as the wanted vector, and the positive one is given.
#[test]
fn a_wanted_vector_16f_from_the_past() {
    for f_code in 1..=7 {
        let f = 1 << (f_code - 1);
        let high = 16 * f - 1;
        for (past, wanted) in [(0, -16 * f), (-16 * f, 0), (-1, high), (high, -1)] {
            for code in [-16, 16] {
                assert_eq!((ENTRIES.vector)(f_code, past, code, f - 1), (0, wanted));
            }
            assert_eq!(encoded(f_code, past, wanted), (0, 16, f as u32 - 1));
        }
    }
}

/// The wanted vector is the undoubled number, so 2 × 15 is out of range for f_code 1. Code 0 reaches neither a wanted vector 32f from
/// the past nor one that is the past, if that is out of range.
#[test]
fn wanted_vectors_that_are_not_reached() {
    assert_eq!(encoded(1, 0, 15), (0, 15, 0));
    for (past, wanted) in [(0, 16), (0, -17), (0, 30), (-16, 16), (15, -17)] {
        assert_eq!(encoded(1, past, wanted), (33, 0, 0));
    }
    for past in [16, -17] {
        assert_eq!(encoded(1, past, past), (33, 0, 0));
        assert_eq!(encoded(1, past, 0), (33, 0, 0));
        assert_eq!(encoded(2, past, past), (0, 0, 0));
    }
}

/// Any numbers may be given: an f_code out of range is refused whatever comes with it, and a difference may be beyond any type.
#[test]
fn free_numbers_to_encode() {
    for f_code in [i32::MIN, -1, 0, 8, i32::MAX] {
        assert_eq!(encoded(f_code, 0, 0), (33, 0, 0));
    }
    let far = [i32::MIN, -65_536, 65_536, i32::MAX];
    for number in far {
        for f_code in 1..=7 {
            assert_eq!(encoded(f_code, 0, number), (33, 0, 0));
            assert_eq!(encoded(f_code, number, 0), (33, 0, 0));
            for other in far {
                assert_eq!(encoded(f_code, number, other), (33, 0, 0));
            }
        }
    }
}

/// The rows worked for a P-picture of one macroblock, whose first block alone is coded, with these pairs.
fn rows_of_block(before: &[&[u8]], pairs: &[[u8; 3]]) -> usize {
    let fields = [4, 8, 0, 1, 32, pairs.len() as u8];
    let macroblock = [&fields, pairs.as_flattened()].concat();
    let file = file_of(&[&[P], before, &[&macroblock]].concat());
    let answer = whole_answer(&file, 1);
    assert_eq!(answer.number, 0);
    answer.rows
}

/// A row is a vertical frequency: positions 0 and 1 are in the first one, position 2 in the second.
#[test]
fn rows_are_vertical_frequencies() {
    let next = [0, 0, 1];
    assert_eq!(rows_of_block(&[SLICE], &[next]), 1);
    assert_eq!(rows_of_block(&[SLICE], &[next, next]), 1);
    assert_eq!(rows_of_block(&[SLICE], &[next, [1, 0, 1]]), 2);
    assert_eq!(rows_of_block(&[SLICE], &[[2, 0, 1]]), 1);
    assert_eq!(rows_of_block(&[SLICE], &[[63, 0, 1]]), 1);
    assert_eq!(rows_of_block(&[SLICE], &[next; 64]), 8);
}

/// With scale 1 and weight 1, the coefficient is (2 × level + 1) / 16: 0 up to level 7, and 1 for level 8.
#[test]
fn a_level_scaled_to_0_works_no_row() {
    let matrix = [&[2, 1], &[1; 64][..]].concat();
    let before: &[&[u8]] = &[&matrix, &[3, 1, 0, 0]];
    assert_eq!(rows_of_block(before, &[[0, 0, 1]]), 0);
    assert_eq!(rows_of_block(before, &[[0, 0, 7]; 64]), 0);
    assert_eq!(rows_of_block(before, &[[0, 0, 8]]), 1);
    assert_eq!(rows_of_block(before, &[[0, 0, 8], [1, 0, 7]]), 1);
    assert_eq!(rows_of_block(before, &[[0, 0, 7], [0, 0, 8]]), 1);
}

/// A block with a DC of 0 alone works no row: a difference of -128 for the first block of Y, or of each component.
#[test]
fn a_dc_of_0_works_no_row() {
    let rows = |differences: [u8; 3]| {
        let [y, cb, cr] = differences.map(|low| [if low == 0 { 0 } else { 255 }, low, 0]);
        let body = [&[4, 16, 0, 1], &y[..], &[0; 9], &cb, &cr].concat();
        let answer = whole_answer(&file_of(&[I, SLICE, &body]), 1);
        assert_eq!(answer.number, 0);
        answer.rows
    };
    assert_eq!(rows([0, 0, 0]), 6);
    assert_eq!(rows([128, 0, 0]), 2);
    assert_eq!(rows([0, 128, 0]), 5);
    assert_eq!(rows([128, 128, 128]), 0);
}

/// A macroblock of which the first and the last block are coded, with two rows and one.
const THREE_ROWS: &[u8] = &[4, 8, 0, 1, 33, 2, 0, 0, 1, 1, 0, 1, 1, 0, 0, 1];

/// Three macroblocks side by side: those that are skipped or have no pattern work no row, nor do blocks that are not coded.
#[test]
fn rows_of_coded_blocks_alone() {
    let p = &[1, 3, 1, 2, 0, 1, 0, 0];
    let no_pattern = &[4, 2, 0, 1, 0, 0, 0, 0];
    let skipping = &[4, 2, 0, 2, 0, 0, 0, 0];
    let rows = |records: &[&[u8]]| {
        let answer = whole_answer(&file_of(&[&[p, SLICE], records].concat()), 3);
        assert_eq!((answer.number, answer.made), (0, 3));
        answer.rows
    };
    assert_eq!(rows(&[no_pattern, skipping]), 0);
    assert_eq!(rows(&[THREE_ROWS, skipping]), 3);
    assert_eq!(rows(&[THREE_ROWS, no_pattern, THREE_ROWS]), 6);
    assert_eq!(rows(&[THREE_ROWS, THREE_ROWS, GREY]), 12);
}

/// Two macroblocks side by side. A refused record adds no row, wherever it is refused. All rows count if what follows the last
/// macroblock is refused.
#[test]
fn rows_of_a_refused_picture() {
    let p = &[1, 2, 1, 2, 0, 1, 0, 0];
    let rows = |records: &[&[u8]]| {
        let Answer { number, rows, .. } = whole_answer(&file_of(records), 2);
        (number, rows)
    };
    let first = &[p, SLICE, THREE_ROWS];
    let then = |second: &[u8]| rows(&[&first[..], &[second]].concat());
    assert_eq!(rows(first), (7, 3));
    let long = [THREE_ROWS, &[0]].concat();
    assert_eq!(then(&long), (6, 3));
    assert_eq!(then(&THREE_ROWS[..THREE_ROWS.len() - 1]), (6, 3));
    let level_0 = [&THREE_ROWS[..THREE_ROWS.len() - 1], &[0]].concat();
    assert_eq!(then(&level_0), (16, 3));
    let misfit = [&[4, 10, 0, 1, 0, 0, 1, 0], &THREE_ROWS[4..]].concat();
    assert_eq!(then(&misfit), (18, 3));
    assert_eq!(then(THREE_ROWS), (0, 6));
    let whole = [&first[..], &[THREE_ROWS]].concat();
    assert_eq!(rows(&[&whole[..], &[THREE_ROWS]].concat()), (5, 6));
    assert_eq!(rows(&[&whole[..], &[&[9]]].concat()), (4, 6));
}

/// No row is worked if no macroblock is made.
#[test]
fn rows_without_a_macroblock() {
    let intra = file_of(&[I, SLICE, GREY]);
    let lent = |forward: usize, backward: usize, output: usize| {
        let [forward, backward, mut output] = [forward, backward, output].map(|n| vec![0; n]);
        let answer = reconstruct(&intra, &forward, &backward, &mut output);
        (answer.number, answer.rows)
    };
    assert_eq!(lent(0, 0, 383), (19, 0));
    assert_eq!(lent(384, 0, 384), (20, 0));
    assert_eq!(lent(0, 384, 384), (21, 0));
    assert_eq!(lent(0, 0, 384), (0, 6));
    for file in [&[][..], &[4], &[3], &intra[..40], &intra[..17]] {
        assert_eq!(whole_answer(file, 1).rows, 0, "{file:?}");
    }
}

#[test]
fn headers_read() {
    let read = |picture_type, width, height, records_start| {
        let start = FileStart {
            picture_type,
            width,
            height,
            records_start,
        };
        (0, start)
    };
    let header = |header: &[u8]| (ENTRIES.read_header)(&file_of(&[header]));
    assert_eq!(header(I), read(1, 1, 1, 11));
    assert_eq!(header(&[1, 11, 36, 2, 1, 7, 0, 0]), read(2, 11, 36, 11));
    assert_eq!(header(&[1, 48, 8, 3, 0, 1, 1, 1]), read(3, 48, 8, 11));
    // What follows the header doesn't matter.
    assert_eq!((ENTRIES.read_header)(&file_of(&[I, I])), read(1, 1, 1, 11));
    let cut = [&file_of(&[I])[..], &[0]].concat();
    assert_eq!((ENTRIES.read_header)(&cut), read(1, 1, 1, 11));
}

/// Files that each number refuses; where two apply, the first in the order 1, 2, 3, 4, 5, 6, 8.
#[test]
fn headers_refused() {
    let refused: [(u32, &[&[u8]]); 8] = [
        (1, &[&[]]),
        (2, &[&[0], &[2], &[4, 0, 8, 1, 1, 1, 1, 0, 0, 0, 0]]),
        (
            3,
            &[
                &[3, 0],
                &[3, 0, 8],
                &[3, 0, 0, 1],
                &[3, 0, 0, 5],
                &[3, 0, 2, 5],
                &[3, 0, 8, 1, 1, 1, 1, 0, 0, 0],
            ],
        ),
        (4, &[&[3, 0, 1, 0], &[3, 0, 1, 5], &[3, 0, 1, 255]]),
        (5, &[&[3, 0, 1, 2], &[3, 0, 4, 3, 8, 0, 0], &[3, 0, 1, 4]]),
        (
            6,
            &[
                &[3, 0, 1, 1],
                &[3, 0, 7, 1, 0, 1, 1, 0, 0, 0],
                &[3, 0, 9, 1, 1, 1, 1, 0, 0, 0, 0, 0],
            ],
        ),
        (7, &[&[3]]),
        (
            8,
            &[
                &[3, 0, 8, 1, 0, 1, 1, 0, 0, 0, 0],
                &[3, 0, 8, 1, 49, 1, 1, 0, 0, 0, 0],
                &[3, 0, 8, 1, 1, 37, 1, 0, 0, 0, 0],
                &[3, 0, 8, 1, 48, 9, 1, 0, 0, 0, 0],
                &[3, 0, 8, 1, 1, 1, 0, 0, 0, 0, 0],
                &[3, 0, 8, 1, 1, 1, 4, 0, 1, 0, 1],
                &[3, 0, 8, 1, 1, 1, 1, 1, 0, 0, 0],
                &[3, 0, 8, 1, 1, 1, 2, 2, 1, 0, 0],
                &[3, 0, 8, 1, 1, 1, 2, 0, 0, 0, 0],
                &[3, 0, 8, 1, 1, 1, 3, 0, 1, 0, 8],
                &[3, 0, 8, 1, 1, 1, 2, 0, 1, 0, 1],
            ],
        ),
    ];
    let zeros = FileStart {
        picture_type: 0,
        width: 0,
        height: 0,
        records_start: 0,
    };
    for (number, files) in refused {
        for file in files {
            assert_eq!((ENTRIES.read_header)(file), (number, zeros), "{file:?}");
            // The readers give the same answer, whatever is lent.
            assert_eq!(answer(file).0, number, "{file:?}");
            let (small, _) = answer_to_lent(reconstruct_small, file, [0, 0, 0]);
            assert_eq!(small.number, number, "{file:?}");
        }
    }
}

#[test]
fn records_shown() {
    let shown = |kind, start, length| Shown {
        kind,
        start,
        length,
    };
    let file = [9, 0, 1, 4, 0, 3, 2, 7, 7, 0, 1, 5];
    assert_eq!((ENTRIES.show_record)(&file, 1), (0, shown(4, 4, 0)));
    assert_eq!((ENTRIES.show_record)(&file, 4), (0, shown(2, 7, 2)));
    let refused = |offset| {
        let (number, shown) = (ENTRIES.show_record)(&file, offset);
        (number, shown.kind, shown.length)
    };
    assert_eq!(refused(9), (4, 0, 0));
    for offset in [10, 12, 13, usize::MAX] {
        assert_eq!(refused(offset), (3, 0, 0));
    }
}

fn printed(reel: &[u8]) -> String {
    text(&play(reel, PANEL_LIMITS, reconstruct))
}

/// A reel of files.
fn reel_of(files: &[&[u8]]) -> Vec<u8> {
    let mut reel = Vec::new();
    for file in files {
        reel.extend((file.len() as u32).to_be_bytes());
        reel.extend(*file);
    }
    reel
}

#[test]
fn reels_cut_long_and_empty() {
    let intra = file_of(&[I, SLICE, GREY]);
    let line = "1 I 0 41 1 32768 8192 8192\n";
    assert_eq!(printed(&[]), "");
    let whole = reel_of(&[&intra]);
    assert_eq!(
        printed(&[&whole[..], &[0, 0]].concat()),
        format!("{line}cut 45\n")
    );
    let short_file = [&whole[..], &[0, 0, 0, 2, 3]].concat();
    assert_eq!(printed(&short_file), format!("{line}cut 45\n"));
    assert_eq!(
        printed(&reel_of(&[&[], &[3]])),
        "1 ? 1 0 0 - - -\n2 ? 7 1 0 - - -\n"
    );
    let exactly = reel_of(&[&[0; 16_380]]);
    assert_eq!(printed(&exactly), "1 ? 2 0 0 - - -\n");
    let above = reel_of(&[&[0; 16_381]]);
    assert_eq!(printed(&above), "long\n");
}

#[test]
fn letters_and_references() {
    let intra = file_of(&[I, SLICE, GREY]);
    let copy = file_of(&[P, SLICE, &[4, 2, 0, 1, 0, 0, 0, 0]]);
    let both = file_of(&[
        &[1, 1, 1, 3, 0, 1, 0, 1],
        SLICE,
        &[4, 6, 0, 1, 0, 0, 0, 0, 0, 0, 0, 0],
    ]);
    let twice = file_of(&[I, I]);
    let large = file_of(&[&[1, 41, 1, 1, 0, 0, 0, 0]]);
    let illegal = file_of(&[&[1, 0, 1, 1, 0, 0, 0, 0]]);
    let reel = reel_of(&[
        &copy, &both, &intra, &both, &copy, &both, &twice, &large, &illegal,
    ]);
    let lines = "1 P 20 1 0 - - -\n\
        2 B 20 1 0 - - -\n\
        3 I 0 41 1 32768 8192 8192\n\
        4 B 20 1 0 - - -\n\
        5 P 0 27 1 32768 8192 8192\n\
        6 B 0 31 1 32768 8192 8192\n\
        7 I 5 11 0 - - -\n\
        8 I 19 1 0 - - -\n\
        9 ? 8 1 0 - - -\n";
    assert_eq!(printed(&reel), lines);
}
