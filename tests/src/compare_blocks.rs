//! Compares pictures with blocks pair by pair.

use crate::compare_cases::{compare_cases, require_every, Compared, KindCounts};
use crate::decoder::coefficients::{raster_index, Block};
use crate::decoder::macroblock::{CodedBlock, Macroblock};
use crate::decoder::Entries;
use crate::generator::{all_stages, stage_cases, Case, Fault, Next, Pairs, Scaled, Stage};
use crate::records::{lengths_before, macroblock_records, MacroblockRecord};

/// Compares pictures with blocks in each stage. Also fails if a stage never occurred, told from the file as the other decoder reads
/// it.
pub fn blocks(tested: &Entries, seed: u64) -> Result<Compared<Stage>, String> {
    let told = |number| format!("picture {number} of blocks of seed {seed}");
    let stages = |case: &Case, _| stages(&case.file);
    let compared = compare_cases(tested, stage_cases(seed), told, stages)?;
    require_every_stage(&compared.kinds)?;
    Ok(compared)
}

/// Fails if a stage never occurred.
pub fn require_every_stage(counts: &KindCounts<Stage>) -> Result<(), String> {
    require_every("block", all_stages(), counts)
}

/// The stages of a file's blocks, up to the first pair that is refused; blocks whose pairs have different runs are left out. In a
/// refused record, the type must be 8 or 16.
pub fn stages(file: &[u8]) -> Vec<Stage> {
    let records = macroblock_records(file);
    let stages = |record: &MacroblockRecord| match &record.read {
        Ok(read) => whole(record.matrices, read),
        Err(_) => Vec::from_iter(refused(record.body)),
    };
    records.iter().flat_map(stages).collect()
}

/// The stages of a macroblock's blocks.
fn whole(matrices: [Option<Block>; 2], read: &Macroblock) -> Vec<Stage> {
    let stage = |block: &CodedBlock| {
        let positions = Vec::from_iter((0..64).filter(|position| block.levels[*position] != 0));
        let coefficients = block.coefficients(matrices, read.after.scale);
        let last = positions.last().map(|position| {
            let coefficient = coefficients[raster_index(*position)];
            Scaled::of(block.levels[*position], coefficient)
        });
        Some(Stage {
            pairs: Pairs::at(read.intra, &positions)?,
            next: Next::End(last),
        })
    };
    read.blocks.iter().flatten().filter_map(stage).collect()
}

/// The stage of the block that has the first pair with a fault.
fn refused(body: &[u8]) -> Option<Stage> {
    let macroblock_type = *body.first()?;
    let intra = macroblock_type == 16;
    let (fields, difference) = lengths_before(macroblock_type);
    let mut left = body.get(fields..)?;
    loop {
        let (count, pairs) = left.get(difference..)?.split_first()?;
        left = pairs;
        let (positions, fault) = positions(&mut left, *count, intra);
        if let Some(fault) = fault {
            return Some(Stage {
                pairs: Pairs::at(intra, &positions)?,
                next: Next::Refused(fault),
            });
        }
    }
}

/// Where the pairs of a block land, up to the first with a fault, and that fault.
fn positions(left: &mut &[u8], count: u8, intra: bool) -> (Vec<usize>, Option<Fault>) {
    let mut positions = Vec::new();
    let mut from = usize::from(intra);
    for _ in 0..count {
        if let Some(fault) = fault(left, from) {
            return (positions, Some(fault));
        }
        let position = from + usize::from(left[0]);
        positions.push(position);
        from = position + 1;
        *left = &left[3..];
    }
    (positions, None)
}

/// The fault of the pair that these bytes start with.
fn fault(left: &[u8], from: usize) -> Option<Fault> {
    match *left {
        [run, ..] if from + usize::from(run) > 63 => Some(Fault::Position),
        [_, high, low, ..] => match i16::from_be_bytes([high, low]) {
            ..-255 => Some(Fault::LowLevel),
            0 => Some(Fault::ZeroLevel),
            256.. => Some(Fault::HighLevel),
            _ => None,
        },
        _ => Some(Fault::Cut(left.len())),
    }
}
