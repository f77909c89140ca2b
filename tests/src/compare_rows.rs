//! Compares the count of rows that the transform works: over pictures, and for single blocks.

use crate::compare::{same_transform, Answers};
use crate::compare_cases::{compare_cases, require_every, Compared, KindCounts};
use crate::decoder::coefficients::{from_zigzag, Block};
use crate::decoder::macroblock::{CodedBlock, Macroblock};
use crate::decoder::transform::rows_worked;
use crate::decoder::{Answer, Entries};
use crate::generator::{
    all_row_kinds, all_row_masks, row_cases, row_mask_blocks, Case, End, Row, RowKind, RowMask,
    Shape,
};
use crate::records::{macroblock_records, made_and_refused, MacroblockRecord};

/// Compares pictures of every kind. Also fails if a kind never occurred, told from the file as the other decoder reads it, and from
/// its answer.
pub fn rows(tested: &Entries, seed: u64) -> Result<Compared<RowKind>, String> {
    let told = |number| format!("picture {number} of rows of seed {seed}");
    let kinds = |case: &Case, answers: Answers| row_kinds(case, answers.large);
    let compared = compare_cases(tested, row_cases(seed), told, kinds)?;
    require_every_row_kind(&compared.kinds)?;
    Ok(compared)
}

/// Fails if a kind never occurred.
pub fn require_every_row_kind(counts: &KindCounts<RowKind>) -> Result<(), String> {
    require_every("picture", all_row_kinds(), counts)
}

/// Compares the transform of blocks with every set of rows, in range and out of it. Also fails if one never occurred.
pub fn row_masks(tested: &Entries, seed: u64) -> Result<KindCounts<RowMask>, String> {
    let mut counts = KindCounts::new();
    for block in row_mask_blocks(seed) {
        let refused = same_transform(tested, &block)? != 0;
        let rows = row_mask(&block);
        *counts.entry(RowMask { rows, refused }).or_default() += 1;
    }
    require_every_row_mask(&counts)?;
    Ok(counts)
}

/// Fails if a set of rows never occurred.
pub fn require_every_row_mask(counts: &KindCounts<RowMask>) -> Result<(), String> {
    require_every("block", all_row_masks(), counts)
}

/// The rows that hold a number that is not 0, as bits.
fn row_mask(block: &[i16; 64]) -> u8 {
    let bit = |index: usize| u8::from(block[index] != 0) << (index / 8);
    (0..64).map(bit).fold(0, |mask, bit| mask | bit)
}

/// The kinds of a case with this answer: those of the macroblocks made, and how it ends.
pub fn row_kinds(case: &Case, answer: Answer) -> Vec<RowKind> {
    let records = macroblock_records(&case.file);
    let (made, refused) = made_and_refused(&records, answer);
    let mut kinds = Vec::new();
    let mut rows_before = 0;
    for record in made {
        if let Ok(read) = &record.read {
            kinds.extend(macroblock_kinds(record, read, rows_before));
        }
        rows_before = record.rows();
    }
    kinds.extend(end(made, refused, answer).map(RowKind::End));
    kinds
}

/// How a case ends whose macroblocks made have rows worked.
fn end(
    made: &[MacroblockRecord],
    refused: Option<&MacroblockRecord>,
    answer: Answer,
) -> Option<End> {
    let last = made.iter().rfind(|record| record.rows() > 0)?;
    let number = answer.number;
    if number == 0 {
        return Some(End::Accepted);
    }
    if answer.made == last.header.size.macroblocks() {
        return Some(End::AfterLast(number));
    }
    let with_rows = refused.filter(|record| record.rows() > 0);
    Some(match with_rows {
        None => End::BeforeBlocks(number),
        Some(record) => End::AfterBlocks {
            number,
            intra: record.body[0] & 16 != 0,
            blocks: record.coefficients().len(),
        },
    })
}

/// The kinds of a record's macroblocks. The record before has so many rows worked.
fn macroblock_kinds(
    record: &MacroblockRecord,
    read: &Macroblock,
    rows_before: usize,
) -> Vec<RowKind> {
    let no_blocks = |skipped| RowKind::NoBlocks {
        picture_type: record.header.picture_type,
        skipped,
    };
    let mut kinds = Vec::new();
    if read.skipped > 0 && rows_before > 0 {
        kinds.push(no_blocks(true));
    }
    let coefficients = record.coefficients();
    if coefficients.is_empty() {
        kinds.extend((rows_before > 0).then_some(no_blocks(false)));
        return kinds;
    }
    let intra = read.intra;
    let rows = record.rows();
    kinds.push(RowKind::Total { intra, rows });
    if !intra && coefficients.iter().all(|block| rows_worked(block) > 0) {
        kinds.push(RowKind::Pattern(pattern(read)));
    }
    for (block, coefficients) in read.blocks.iter().flatten().zip(&coefficients) {
        kinds.extend(block_kinds(block, coefficients));
    }
    kinds
}

/// The pattern of the coded blocks.
fn pattern(read: &Macroblock) -> u8 {
    let coded = read.blocks.iter().map(|block| u8::from(block.is_some()));
    coded.fold(0, |pattern, bit| 2 * pattern + bit)
}

/// The kinds of a coded block with these coefficients.
fn block_kinds(block: &CodedBlock, coefficients: &Block) -> Vec<RowKind> {
    let intra = block.dc.is_some();
    let levels = from_zigzag(&block.levels);
    let held = |indices: std::ops::Range<usize>| {
        let worked = coefficients[indices.clone()].iter().any(|c| *c != 0);
        let level = levels[indices].iter().any(|level| *level != 0);
        match (worked, level) {
            (true, _) => Row::Worked,
            (false, true) => Row::Zeros,
            (false, false) => Row::Empty,
        }
    };
    let rows = std::array::from_fn(|row| held(8 * row..8 * row + 8));
    let mut kinds = vec![RowKind::Rows { intra, rows }];
    let not_zero: Vec<usize> = (0..64).filter(|index| coefficients[*index] != 0).collect();
    kinds.extend(Shape::of(&not_zero).map(|shape| RowKind::Shape { intra, shape }));
    kinds.extend(block.dc.map(|dc| RowKind::Dc {
        zero: dc == 0,
        rest: held(1..8),
    }));
    kinds
}
