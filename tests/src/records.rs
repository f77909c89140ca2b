//! The macroblock records of a file, as the other decoder reads them.

use crate::decoder::coefficients::Block;
use crate::decoder::file::{
    first_header, matrix, record, slice, Header, Record, MACROBLOCK, MATRIX, SLICE,
};
use crate::decoder::macroblock::{
    coded_block, component, macroblock, CodedBlock, Fields, Last, Macroblock, SliceState,
};
use crate::decoder::refusals::{require, Refusal};
use crate::decoder::transform::rows_worked;
use crate::decoder::Answer;

/// A macroblock record, and what it depends on.
pub struct MacroblockRecord<'a> {
    pub header: Header,
    /// Intra, then non-intra, if given.
    pub matrices: [Option<Block>; 2],
    /// The next address before the record.
    pub next: usize,
    /// The slice's state before the record.
    pub before: SliceState,
    pub body: &'a [u8],
    pub read: Result<Macroblock, Refusal>,
}

impl MacroblockRecord<'_> {
    /// The coefficients of the coded blocks that are read before a field is refused. If one is, they are told only for a type with
    /// all blocks coded and nothing else: 16, or 8 with pattern 63.
    pub fn coefficients(&self) -> Vec<Block> {
        if let Ok(read) = &self.read {
            let blocks = read.coefficients(self.matrices);
            return blocks.into_iter().flatten().collect();
        }
        let blocks = self.blocks_before_refusal();
        let coefficients = |block: CodedBlock| block.coefficients(self.matrices, self.before.scale);
        blocks.into_iter().map(coefficients).collect()
    }

    fn blocks_before_refusal(&self) -> Vec<CodedBlock> {
        let (intra, blocks) = match self.body {
            [16, _, _, blocks @ ..] => (true, blocks),
            [8, _, _, 63, blocks @ ..] => (false, blocks),
            _ => return Vec::new(),
        };
        let fields = &mut Fields(blocks);
        let mut pasts = self.before.dc_pasts;
        let block = |index| {
            let past = &mut pasts[component(index)];
            coded_block(fields, intra, past).ok()
        };
        (0..6).map_while(block).collect()
    }

    /// The rows worked in these blocks.
    pub fn rows(&self) -> usize {
        self.coefficients().iter().map(rows_worked).sum()
    }
}

/// How many bytes come before the blocks of a macroblock of type 8 or 16, and in each block before its count of pairs.
pub fn lengths_before(macroblock_type: u8) -> (usize, usize) {
    if macroblock_type == 16 {
        (3, 2)
    } else {
        (4, 0)
    }
}

/// The macroblock records of a file, up to the first record that is refused; if that is a macroblock record, it is the last. Vectors
/// that don't fit are not refused here.
pub fn macroblock_records(file: &[u8]) -> Vec<MacroblockRecord<'_>> {
    let mut found = Vec::new();
    let Ok((header, mut offset)) = first_header(file) else {
        return found;
    };
    let mut progress = Progress {
        header,
        matrices: [None; 2],
        next: 0,
        slice: None,
    };
    while let Ok(record) = record(file, offset) {
        let Ok(macroblock) = progress.read(record) else {
            break;
        };
        found.extend(macroblock);
        if found.last().is_some_and(|last| last.read.is_err()) {
            break;
        }
        offset = record.end;
    }
    found
}

/// The records of a file that are made, by the answer to it, and the macroblock record that is refused, if one is.
pub fn made_and_refused<'a, 'b>(
    records: &'a [MacroblockRecord<'b>],
    answer: Answer,
) -> (&'a [MacroblockRecord<'b>], Option<&'a MacroblockRecord<'b>>) {
    let is_made = |record: &&MacroblockRecord| match &record.read {
        Ok(read) => record.next + read.skipped < answer.made,
        Err(_) => false,
    };
    let (made, rest) = records.split_at(records.iter().take_while(is_made).count());
    (made, rest.first())
}

/// How far a file is read after its header.
struct Progress {
    header: Header,
    matrices: [Option<Block>; 2],
    /// The next address.
    next: usize,
    slice: Option<SliceState>,
}

impl Progress {
    /// Reads a record, and gives it if it is a macroblock record.
    fn read<'a>(&mut self, record: Record<'a>) -> Result<Option<MacroblockRecord<'a>>, Refusal> {
        match (record.kind, self.slice.take()) {
            (MATRIX, None) => {
                let given = self.matrices.map(|matrix| matrix.is_some());
                let (which, weights) = matrix(record.body, given)?;
                self.matrices[which] = Some(weights);
                Ok(None)
            }
            (SLICE, before) => {
                let in_turn = before.is_none_or(|before| before.last != Last::None);
                require(in_turn, Refusal::OutOfTurn)?;
                let scale = slice(record.body, self.next)?;
                self.slice = Some(SliceState::start(scale));
                Ok(None)
            }
            (MACROBLOCK, Some(before)) => Ok(Some(self.read_macroblock(record.body, before))),
            _ => Err(Refusal::OutOfTurn),
        }
    }

    fn read_macroblock<'a>(&mut self, body: &'a [u8], before: SliceState) -> MacroblockRecord<'a> {
        let next = self.next;
        let read = macroblock(body, &self.header, next, &before);
        if let Ok(read) = &read {
            self.next += read.skipped + 1;
            self.slice = Some(read.after.clone());
        }
        MacroblockRecord {
            header: self.header,
            matrices: self.matrices,
            next,
            before,
            body,
            read,
        }
    }
}
