//! Makes blocks by what their rows hold: coded ones, and blocks of coefficients for the transform.

use std::ops::Range;

use super::strip::pair;
use crate::decoder::coefficients::{raster_index, Block};
use crate::random::Random;

/// What a row of a coded block holds.
#[derive(Clone, Copy, Debug, PartialEq, Eq, PartialOrd, Ord)]
pub enum Row {
    /// No level; perhaps a DC of 0.
    Empty,
    /// Levels, but all of them are scaled to 0.
    Zeros,
    /// A coefficient that is not 0.
    Worked,
}

pub const ROWS: [Row; 3] = [Row::Empty, Row::Zeros, Row::Worked];

/// Which coefficients of a block are not 0.
#[derive(Clone, Copy, Debug, PartialEq, Eq, PartialOrd, Ord)]
pub enum Shape {
    /// The one with this raster index.
    Alone(usize),
    /// All of this row.
    Row(usize),
    /// All of this column.
    Column(usize),
}

/// Every set of rows that are worked; the others are all empty, or all have levels that are scaled to 0. The sets are in falling order, so that a row
/// left over from one block shows in the next.
pub fn all_rows(intra: bool) -> impl Iterator<Item = [Row; 8]> {
    let falling = |other| (0..=u8::MAX).rev().map(move |mask| rows_of(mask, other));
    // A non-intra block has a level.
    let empty = falling(Row::Empty).take(256 - usize::from(!intra));
    // If all rows are worked, there are no others.
    empty.chain(falling(Row::Zeros).skip(1))
}

/// The rows of a block: `Worked` where the bit of the mask is set; the others are all the same.
fn rows_of(mask: u8, other: Row) -> [Row; 8] {
    std::array::from_fn(|row| match mask >> row & 1 {
        1 => Row::Worked,
        _ => other,
    })
}

impl Shape {
    pub fn all() -> impl Iterator<Item = Shape> {
        let lines = (0..8).flat_map(|line| [Shape::Row(line), Shape::Column(line)]);
        (0..64).map(Shape::Alone).chain(lines)
    }

    /// The shape of a block whose coefficients that are not 0 have these raster indices, in rising order.
    pub fn of(indices: &[usize]) -> Option<Shape> {
        Shape::all().find(|shape| shape.indices() == indices)
    }

    fn indices(self) -> Vec<usize> {
        match self {
            Shape::Alone(index) => vec![index],
            Shape::Row(row) => (8 * row..8 * row + 8).collect(),
            Shape::Column(column) => (column..64).step_by(8).collect(),
        }
    }
}

/// A coded block before it is written.
#[derive(Clone, Copy)]
pub struct PlannedBlock {
    intra: bool,
    /// The DC divided by 8, if the block is intra.
    dc: u8,
    /// Row by row.
    levels: Block,
}

impl PlannedBlock {
    fn empty(intra: bool) -> PlannedBlock {
        PlannedBlock {
            intra,
            dc: 0,
            levels: [0; 64],
        }
    }

    /// A block whose rows hold this.
    pub fn with_rows(random: &mut Random, intra: bool, rows: [Row; 8]) -> PlannedBlock {
        let mut block = PlannedBlock::empty(intra);
        for (row, held) in rows.into_iter().enumerate() {
            block.put_row(random, row, held);
        }
        block
    }

    /// A block with so many rows worked.
    pub fn with_count(random: &mut Random, intra: bool, count: usize) -> PlannedBlock {
        let mut mask = 0_u8;
        while mask.count_ones() < count as u32 {
            mask |= 1 << random.below(8);
        }
        // A non-intra block has a level.
        let other = match (intra, count) {
            (false, 0) => Row::Zeros,
            _ => random.pick(&[Row::Empty, Row::Zeros]),
        };
        PlannedBlock::with_rows(random, intra, rows_of(mask, other))
    }

    /// A block whose coefficients that are not 0 have this shape.
    pub fn with_shape(random: &mut Random, intra: bool, shape: Shape) -> PlannedBlock {
        let mut block = PlannedBlock::empty(intra);
        for index in shape.indices() {
            block.put(random, index);
        }
        block
    }

    /// An intra block whose DC is 0 or not, and whose first row otherwise holds this.
    pub fn with_dc(random: &mut Random, zero: bool, rest: Row) -> PlannedBlock {
        let mut block = PlannedBlock::empty(true);
        if !zero {
            block.put(random, 0);
        }
        block.put_levels(random, 1..8, rest);
        block
    }

    /// Puts a coefficient that is not 0.
    fn put(&mut self, random: &mut Random, index: usize) {
        if self.intra && index == 0 {
            self.dc = random.within(1, 255) as u8;
        } else {
            self.levels[index] = kept_level(random);
        }
    }

    /// Puts levels, and perhaps a DC, so that the row holds this.
    fn put_row(&mut self, random: &mut Random, row: usize, held: Row) {
        let indices = 8 * row..8 * row + 8;
        if !self.intra || row > 0 {
            return self.put_levels(random, indices, held);
        }
        // The DC alone may make it a row to work.
        let mut rest = held;
        if held == Row::Worked && random.once_in(2) {
            self.put(random, 0);
            rest = random.pick(&ROWS);
        }
        self.put_levels(random, 1..8, rest);
    }

    /// Puts levels so that these indices hold this.
    fn put_levels(&mut self, random: &mut Random, indices: Range<usize>, held: Row) {
        let surely = indices.start + random.below(indices.len());
        for index in indices {
            let (zero, kept) = (level_to_zero(random), kept_level(random));
            self.levels[index] = match held {
                Row::Empty => 0,
                Row::Zeros if index == surely => zero,
                Row::Zeros => random.pick(&[0, zero]),
                Row::Worked if index == surely => kept,
                Row::Worked => random.pick(&[0, zero, kept]),
            };
        }
    }

    /// The bytes of the block after this DC past, which is divided by 8.
    pub fn bytes(&self, past: &mut i16) -> Vec<u8> {
        let mut block = Vec::new();
        if self.intra {
            let dc = i16::from(self.dc);
            block.extend((dc - *past).to_be_bytes());
            *past = dc;
        }
        let mut pairs = Vec::new();
        let first = usize::from(self.intra);
        let mut from = first;
        for position in first..64 {
            let level = self.levels[raster_index(position)];
            if level != 0 {
                pairs.push(pair(position - from, level));
                from = position + 1;
            }
        }
        block.push(pairs.len() as u8);
        block.extend(pairs.as_flattened());
        block
    }
}

/// With scale 1 and any of these weights, a level of 1 or -1 is scaled to 0, and one of 16 or more, or -16 or less, is not.
pub const LIGHT_WEIGHTS: [u8; 5] = [1, 2, 3, 4, 5];

fn level_to_zero(random: &mut Random) -> i64 {
    random.pick(&[-1, 1])
}

fn kept_level(random: &mut Random) -> i64 {
    let size = random.within(16, 255);
    random.pick(&[-size, size])
}

/// Which rows of a block of coefficients are not all 0, as bits, and whether the transform refuses the block.
#[derive(Clone, Copy, Debug, PartialEq, Eq, PartialOrd, Ord)]
pub struct RowMask {
    pub rows: u8,
    pub refused: bool,
}

/// All that must occur: every set of rows, accepted and refused. A block of zeros is not refused.
pub fn all_row_masks() -> Vec<RowMask> {
    let accepted = (0..=u8::MAX).map(|rows| (rows, false));
    let refused = (1..=u8::MAX).map(|rows| (rows, true));
    let mask = |(rows, refused)| RowMask { rows, refused };
    accepted.chain(refused).map(mask).collect()
}

/// Blocks of coefficients for the transform: for every set of rows one with few and one with many coefficients in each row, and both
/// again with one of them out of range.
pub fn row_mask_blocks(seed: u64) -> Vec<[i16; 64]> {
    let random = &mut Random::new(&[seed, 12]);
    let mut blocks = Vec::new();
    for mask in 0..=u8::MAX {
        for often in [8, 1] {
            let block = row_mask_block(random, mask, often);
            blocks.push(block);
            blocks.extend(out_of_range(random, block));
        }
    }
    blocks
}

/// A block of coefficients in range. Each row of the mask has one that is not 0, and once in `often` places more of them.
fn row_mask_block(random: &mut Random, mask: u8, often: usize) -> [i16; 64] {
    let mut block = [0; 64];
    for row in (0..8).filter(|row| mask >> row & 1 == 1) {
        let surely = random.below(8);
        for column in 0..8 {
            if column == surely || random.once_in(often) {
                let size = random.within(1, 2047) as i16;
                block[8 * row + column] = random.pick(&[-2048, -size, -1, 1, size, 2047]);
            }
        }
    }
    block
}

/// The block with one of its coefficients that are not 0 out of range, if it has one.
fn out_of_range(random: &mut Random, mut block: [i16; 64]) -> Option<[i16; 64]> {
    let not_zero: Vec<usize> = (0..64).filter(|index| block[*index] != 0).collect();
    if not_zero.is_empty() {
        return None;
    }
    block[random.pick(&not_zero)] = random.pick(&[i16::MIN, -2049, 2048, i16::MAX]);
    Some(block)
}
