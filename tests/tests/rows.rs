//! Tests the count of rows that the transform works: over the macroblocks made, with no kind of picture missing; and wrong counts are
//! found.

mod common;
mod found;
mod missing;

use std::collections::BTreeSet;

use common::{file_of, I, SLICE};
use format3_tests::compare::transforms;
use format3_tests::compare_rows::{
    require_every_row_kind, require_every_row_mask, row_kinds, row_masks, rows,
};
use format3_tests::decoder::coefficients::{from_zigzag, Block};
use format3_tests::decoder::file::PictureType;
use format3_tests::decoder::macroblock::{CodedBlock, Macroblock};
use format3_tests::decoder::transform::rows_worked;
use format3_tests::decoder::{
    reconstruct, Answer, Entries, Reconstruct, Transform, Transformed, ENTRIES,
};
use format3_tests::generator::{
    all_row_kinds, all_row_masks, row_cases, Case, End, Row, RowKind, Shape,
};
use format3_tests::records::{macroblock_records, made_and_refused, MacroblockRecord};
use found::require_found;
use missing::require_missing_reported;

const SEED: u64 = 1;

/// The answer to the first bytes of a case's file.
fn answer_to(case: &Case, length: usize) -> Answer {
    let file = &case.file[..length];
    reconstruct(
        file,
        &case.forward,
        &case.backward,
        &mut case.output.clone(),
    )
}

/// The total is that of the records made; a refused picture has the rows of the file that ends before the refused record.
#[test]
fn rows_are_those_of_the_macroblocks_made() {
    for (number, case) in row_cases(SEED).iter().enumerate() {
        let answer = answer_to(case, case.file.len());
        assert_eq!(answer.number == 0, case.legal, "picture {number}");
        let records = macroblock_records(&case.file);
        let (made, _) = made_and_refused(&records, answer);
        let total: usize = made.iter().map(MacroblockRecord::rows).sum();
        assert_eq!(answer.rows, total, "picture {number}");
        assert!(answer.rows <= 48 * answer.made, "picture {number}");
        if !case.legal {
            let ended = answer_to(case, answer.place);
            assert_eq!(ended.rows, answer.rows, "picture {number}");
        }
    }
}

/// A missing kind is reported.
///
/// A block has 256 sets of rows worked; the others are empty or are scaled to 0, unless there are none. A non-intra block is not all
/// empty. It has one of 64 + 8 + 8 shapes. A macroblock has 0 to 48 rows. All of these are for intra and non-intra.
///
/// A DC is 0 or not, and the rest of its row holds one of three things. There are 63 patterns. A macroblock of P or B is without
/// blocks because it is skipped, or because it has no pattern.
///
/// A picture is accepted; refused after the last macroblock by 3 to 5; before any block of a record by 3 to 7 and 10 to 15; after one
/// to five blocks by 6 or 16, intra and non-intra, or by 17, intra; or after all six by 6, intra and non-intra, 18 or 23.
#[test]
fn missing_kinds_are_reported() {
    let blocks = (256 + 255) + (255 + 255) + 2 * (64 + 8 + 8);
    let ends = 1 + 3 + (5 + 6) + 5 * 5 + 4;
    let all = BTreeSet::from_iter(all_row_kinds());
    assert_eq!(all.len(), blocks + 2 * 49 + 2 * 3 + 63 + 2 * 2 + ends);
    let made = rows(&ENTRIES, SEED).expect("the decoder is itself");
    require_missing_reported("picture", &all, &made.kinds, require_every_row_kind);
}

/// Of blocks for the transform, a missing set of rows is reported: 256 accepted, and 255 refused.
#[test]
fn missing_sets_of_rows_are_reported() {
    let all = BTreeSet::from_iter(all_row_masks());
    assert_eq!(all.len(), 256 + 255);
    let made = row_masks(&ENTRIES, SEED).expect("the decoder is itself");
    require_missing_reported("block", &all, &made, require_every_row_mask);
}

/// The kinds of a picture of this file, with a reference if it is a P-picture.
fn kinds_of(file: Vec<u8>) -> Vec<RowKind> {
    let (width, is_p) = (usize::from(file[4]), file[6] == 2);
    let case = Case {
        file,
        forward: vec![0; if is_p { 384 * width } else { 0 }],
        backward: Vec::new(),
        output: vec![0; 384 * width],
        legal: true,
    };
    row_kinds(&case, answer_to(&case, case.file.len()))
}

/// The kinds of a block whose first rows hold this, and the others nothing.
fn block_kinds(intra: bool, first: &[Row], shape: Option<Shape>) -> Vec<RowKind> {
    let rows = std::array::from_fn(|row| first.get(row).copied().unwrap_or(Row::Empty));
    let shape = shape.map(|shape| RowKind::Shape { intra, shape });
    [RowKind::Rows { intra, rows }]
        .into_iter()
        .chain(shape)
        .collect()
}

/// With weights of 1 and scale 1, a level of 1 is scaled to 0, and one of 16 is not. The first two blocks have a DC of 0. The first has
/// a level of 16 at position 2, raster index 8, and a level of 1 at position 4, raster index 9; the second has a level of 1 at
/// position 1. The other blocks have a DC of 8 alone.
#[test]
fn kinds_of_intra_blocks_are_told_from_the_file() {
    let matrix = [&[2, 0, 8], &[1; 63][..]].concat();
    let body = [
        &[4, 16, 0, 1][..],
        &[255, 128, 2, 1, 0, 16, 1, 0, 1],
        &[0, 0, 1, 0, 0, 1],
        &[0, 1, 0],
        &[0, 0, 0],
        &[255, 129, 0],
        &[255, 129, 0],
    ];
    let file = file_of(&[I, &matrix, &[3, 1, 0, 0], &body.concat()]);
    let dc = |zero, rest| vec![RowKind::Dc { zero, rest }];
    let dc_alone = [
        block_kinds(true, &[Row::Worked], Some(Shape::Alone(0))),
        dc(false, Row::Empty),
    ];
    let total = RowKind::Total {
        intra: true,
        rows: 5,
    };
    let expected = [
        vec![total],
        block_kinds(true, &[Row::Empty, Row::Worked], Some(Shape::Alone(8))),
        dc(true, Row::Empty),
        block_kinds(true, &[Row::Zeros], None),
        dc(true, Row::Zeros),
        dc_alone.concat().repeat(4),
        vec![RowKind::End(End::Accepted)],
    ];
    assert_eq!(kinds_of(file), expected.concat());
}

/// The header of a P-picture of three macroblocks.
const P: &[u8] = &[1, 3, 1, 2, 0, 1, 0, 0];

/// The first block has coefficients at raster indices 0 and 1, the third has one at 8.
const CODED: &[u8] = &[4, 8, 0, 1, 40, 2, 0, 0, 1, 0, 0, 1, 1, 2, 0, 1];

/// A macroblock without a pattern; one is skipped before it.
const SKIPS: &[u8] = &[4, 2, 0, 2, 0, 0, 0, 0];

#[test]
fn kinds_of_macroblocks_are_told_from_the_file() {
    let no_blocks = |skipped| RowKind::NoBlocks {
        picture_type: PictureType::P,
        skipped,
    };
    let total = RowKind::Total {
        intra: false,
        rows: 2,
    };
    let expected = [
        vec![total, RowKind::Pattern(40)],
        block_kinds(false, &[Row::Worked], None),
        block_kinds(false, &[Row::Empty, Row::Worked], Some(Shape::Alone(8))),
        vec![no_blocks(true), no_blocks(false)],
        vec![RowKind::End(End::Accepted)],
    ];
    let file = file_of(&[P, SLICE, CODED, SKIPS]);
    assert_eq!(kinds_of(file), expected.concat());
    // Nothing has rows.
    let file = file_of(&[P, SLICE, &[4, 2, 0, 1, 0, 0, 0, 0], SKIPS]);
    assert_eq!(kinds_of(file), []);
}

/// Each case is what follows the first macroblock, and how the picture ends.
#[test]
fn ends_are_told_from_the_file() {
    let after = |number, intra, blocks| End::AfterBlocks {
        number,
        intra,
        blocks,
    };
    let cases: [(&[&[u8]], End); 10] = [
        (&[], End::BeforeBlocks(7)),
        (&[SLICE], End::BeforeBlocks(11)),
        (&[CODED, &[4, 255]], End::BeforeBlocks(12)),
        (&[SKIPS], End::Accepted),
        (&[SKIPS, CODED], End::AfterLast(5)),
        (
            &[&[4, 10, 0, 1, 0, 0, 1, 0, 32, 1, 0, 0, 1]],
            after(18, false, 1),
        ),
        (
            &[&[4, 8, 0, 1, 63, 1, 0, 0, 1, 1, 0, 0, 0]],
            after(16, false, 1),
        ),
        (
            &[&[4, 16, 0, 1, 0, 0, 0, 0, 0, 0, 1, 0]],
            after(17, true, 2),
        ),
        // A block is read, but has no row to work.
        (&[&[4, 16, 0, 1, 255, 128, 0, 1, 0]], End::BeforeBlocks(17)),
        (&[&[4, 16, 0, 1, 0, 0, 0, 0]], after(6, true, 1)),
    ];
    for (records, end) in cases {
        let file = file_of(&[&[P, SLICE, CODED], records].concat());
        let last = kinds_of(file).pop();
        assert_eq!(last, Some(RowKind::End(end)), "{records:?}");
    }
}

/// The columns with a coefficient that is not 0.
fn columns(block: &Block) -> usize {
    let held = |column: &usize| (0..8).any(|row| block[8 * row + column] != 0);
    (0..8).filter(held).count()
}

fn rows_but_the_last(block: &Block) -> usize {
    let mut block = *block;
    block[56..].fill(0);
    rows_worked(&block)
}

/// The rows up to the last that is not all 0.
fn rows_up_to_the_last(block: &Block) -> usize {
    let last = block.iter().rposition(|coefficient| *coefficient != 0);
    last.map_or(0, |index| index / 8 + 1)
}

/// The records made, and the refused one if it is a macroblock record.
type Read<'a, 'b> = (&'a [MacroblockRecord<'b>], Option<&'a MacroblockRecord<'b>>);

/// The answer to a picture, with this count of rows.
fn answer_by(
    file: &[u8],
    references: [&[u8]; 2],
    output: &mut [u8],
    count: fn(Answer, Read) -> usize,
) -> Answer {
    let [forward, backward] = references;
    let answer = (ENTRIES.reconstruct)(file, forward, backward, output);
    let records = macroblock_records(file);
    let rows = count(answer, made_and_refused(&records, answer));
    Answer { rows, ..answer }
}

/// A decoder that counts so.
macro_rules! counting {
    ($count:expr) => {
        |file, forward, backward, output| answer_by(file, [forward, backward], output, $count)
    };
}

/// The comparison must find each of these decoders.
fn require_wrong_found(decoders: &[(&str, Reconstruct)]) {
    for (name, reconstruct) in decoders {
        let wrong = Entries {
            reconstruct: *reconstruct,
            ..ENTRIES
        };
        require_found(name, rows(&wrong, SEED));
    }
}

/// The sum over all coded blocks.
fn sum_over_blocks(made: &[MacroblockRecord], count: fn(&Block) -> usize) -> usize {
    let blocks = made.iter().flat_map(MacroblockRecord::coefficients);
    blocks.map(|block| count(&block)).sum()
}

/// The sum over all coded blocks as they are read.
fn sum_over_coded(made: &[MacroblockRecord], count: fn(&CodedBlock) -> usize) -> usize {
    let read = made.iter().filter_map(|record| record.read.as_ref().ok());
    let blocks = read.flat_map(|read| read.blocks.iter().flatten());
    blocks.map(count).sum()
}

/// The rows with a level or a DC that is not 0.
fn rows_of_levels(block: &CodedBlock) -> usize {
    let mut levels = from_zigzag(&block.levels);
    levels[0] += block.dc.unwrap_or(0);
    rows_worked(&levels)
}

/// The count that is right is not found to be wrong.
#[test]
fn the_right_count_passes() {
    let right = Entries {
        reconstruct: counting!(|_, (made, _)| sum_over_blocks(made, rows_worked)),
        transform: |block| transformed_by(block, rows_worked),
        ..ENTRIES
    };
    assert!(rows(&right, SEED).is_ok());
    assert!(row_masks(&right, SEED).is_ok());
}

/// Decoders that count something else in each block.
#[test]
fn wrong_counts_of_blocks_are_found() {
    require_wrong_found(&[
        (
            "columns",
            counting!(|_, (made, _)| sum_over_blocks(made, columns)),
        ),
        (
            "the last row never counted",
            counting!(|_, (made, _)| sum_over_blocks(made, rows_but_the_last)),
        ),
        (
            "all rows up to the last that is worked",
            counting!(|_, (made, _)| sum_over_blocks(made, rows_up_to_the_last)),
        ),
        (
            "rows of levels",
            counting!(|_, (made, _)| sum_over_coded(made, rows_of_levels)),
        ),
        (
            "a DC of 0 counted as a row",
            counting!(|answer, (made, _)| {
                answer.rows + sum_over_coded(made, |block| usize::from(block.dc == Some(0)))
            }),
        ),
        (
            "eight rows for each block",
            counting!(|_, (made, _)| sum_over_blocks(made, |_| 8)),
        ),
    ]);
}

/// The rows of a macroblock's blocks, where one that is not coded counts like the one before it.
fn rows_with_uncoded(record: &MacroblockRecord) -> usize {
    let Ok(read) = &record.read else {
        return 0;
    };
    let mut last = 0;
    let mut rows = |block: Option<Block>| {
        last = block.map_or(last, |block| rows_worked(&block));
        last
    };
    let blocks = read.coefficients(record.matrices);
    blocks.map(&mut rows).into_iter().sum()
}

/// The rows of the records that come before one that satisfies this.
fn rows_before(made: &[MacroblockRecord], is_next: fn(&Macroblock) -> bool) -> usize {
    let pairs = made.windows(2);
    let next = pairs.filter(|pair| pair[1].read.as_ref().is_ok_and(is_next));
    next.map(|pair| pair[0].rows()).sum()
}

/// Decoders that count rows where no block is coded.
#[test]
fn rows_without_coded_blocks_are_found() {
    require_wrong_found(&[
        (
            "blocks that are not coded",
            counting!(|_, (made, _)| made.iter().map(rows_with_uncoded).sum()),
        ),
        (
            "skipped macroblocks, as the one before",
            counting!(|answer, (made, _)| {
                answer.rows + rows_before(made, |read| read.skipped > 0)
            }),
        ),
        (
            "macroblocks without a pattern, as the one before",
            counting!(|answer, (made, _)| {
                let uncoded = |read: &Macroblock| read.blocks.iter().all(Option::is_none);
                answer.rows + rows_before(made, uncoded)
            }),
        ),
    ]);
}

/// The rows of a refused record if so many of its blocks are read.
fn rows_refused_after(refused: Option<&MacroblockRecord>, blocks: usize) -> usize {
    let after = refused.filter(|record| record.coefficients().len() == blocks);
    after.map_or(0, MacroblockRecord::rows)
}

/// Decoders whose total is wrong where a picture is refused, or is large.
#[test]
fn wrong_totals_are_found() {
    require_wrong_found(&[
        (
            "the rows of a refused record",
            counting!(|answer, (_, refused)| {
                answer.rows + refused.map_or(0, MacroblockRecord::rows)
            }),
        ),
        (
            "those of one block before the refusal",
            counting!(|answer, (_, refused)| answer.rows + rows_refused_after(refused, 1)),
        ),
        (
            "those of all blocks before the refusal",
            counting!(|answer, (_, refused)| answer.rows + rows_refused_after(refused, 6)),
        ),
        (
            "those before a vector that does not fit backward",
            counting!(|answer, (_, refused)| match answer.number {
                23 => answer.rows + rows_refused_after(refused, 6),
                _ => answer.rows,
            }),
        ),
        (
            "no rows of a refused picture",
            counting!(|answer, _| if answer.number == 0 { answer.rows } else { 0 }),
        ),
        (
            "no rows of the last macroblock before a refusal",
            counting!(|answer, (made, _)| match answer.number {
                0 => answer.rows,
                _ => made.iter().rev().skip(1).map(MacroblockRecord::rows).sum(),
            }),
        ),
        (
            "the last macroblock alone",
            counting!(|_, (made, _)| made.last().map_or(0, MacroblockRecord::rows)),
        ),
        (
            "a total of a byte",
            counting!(|answer, _| answer.rows % 256),
        ),
    ]);
}

/// What the transform gives a block, with this count of its rows if it is not refused.
fn transformed_by(coefficients: &[i16; 64], count: fn(&Block) -> usize) -> (u32, Transformed) {
    let (number, transformed) = (ENTRIES.transform)(coefficients);
    let rows = match number {
        0 => count(&coefficients.map(i64::from)),
        _ => transformed.rows,
    };
    (
        number,
        Transformed {
            rows,
            ..transformed
        },
    )
}

/// Transforms that count something else.
#[test]
fn wrong_transforms_are_found() {
    let wrong: [(&str, Transform); 6] = [
        ("columns", |block| transformed_by(block, columns)),
        ("the last row never counted", |block| {
            transformed_by(block, rows_but_the_last)
        }),
        ("all rows up to the last that is worked", |block| {
            transformed_by(block, rows_up_to_the_last)
        }),
        ("eight rows for each block", |block| {
            transformed_by(block, |_| 8)
        }),
        ("rows of a refused block", |block| {
            let (number, transformed) = (ENTRIES.transform)(block);
            let rows = rows_worked(&block.map(i64::from));
            (
                number,
                Transformed {
                    rows,
                    ..transformed
                },
            )
        }),
        ("eight rows of a refused block", |block| {
            let (number, transformed) = (ENTRIES.transform)(block);
            let rows = if number == 0 { transformed.rows } else { 8 };
            (
                number,
                Transformed {
                    rows,
                    ..transformed
                },
            )
        }),
    ];
    for (name, transform) in wrong {
        let wrong = Entries {
            transform,
            ..ENTRIES
        };
        require_found(name, row_masks(&wrong, SEED));
        require_found(name, transforms(&wrong, SEED, 200));
    }
}
