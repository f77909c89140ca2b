//! Makes a picture from the records of a file: the order of the tests, and what a refusal leaves.

use super::coefficients::Block;
use super::file::{self, Header, PictureType};
use super::macroblock::{component, macroblock, Last, Macroblock, SliceState};
use super::refusals::{require, Answer, Refusal};
use super::size::{MAX_MACROBLOCKS, MAX_MACROBLOCKS_SMALL};
use super::transform::{inverse_transform, rows_worked};
use super::vectors::{fits, prediction, Vector, Vectors};

/// Makes the picture of a file, for a caller with memory for 396 macroblocks.
pub fn reconstruct(file: &[u8], forward: &[u8], backward: &[u8], output: &mut [u8]) -> Answer {
    reconstruct_within(MAX_MACROBLOCKS, file, [forward, backward], output)
}

/// Makes the picture of a file, for a caller with memory for 99 macroblocks.
pub fn reconstruct_small(
    file: &[u8],
    forward: &[u8],
    backward: &[u8],
    output: &mut [u8],
) -> Answer {
    reconstruct_within(MAX_MACROBLOCKS_SMALL, file, [forward, backward], output)
}

/// Makes the picture of a file, of at most `limit` macroblocks. Request No. 4: "Both limits hold, each for its caller".
/// "Order: 1, 2; in each record 3, 4, 5", then the tests of its kind. The output is written record by record, so a refusal leaves
/// the macroblocks of the records before it.
pub fn reconstruct_within(
    limit: usize,
    file: &[u8],
    references: [&[u8]; 2],
    output: &mut [u8],
) -> Answer {
    let mut picture = Picture {
        limit,
        references,
        output,
        header: None,
        matrices: [None; 2],
        slice: None,
        made: 0,
        rows: 0,
    };
    // "Place is the offset of the refused record's length (0 for 1 and 2; file length for 7 ..)."
    let mut place = 0;
    let number = match picture.read(file, &mut place) {
        Ok(()) => 0,
        Err(refusal) => refusal.number(),
    };
    Answer {
        number,
        place,
        made: picture.made,
        rows: picture.rows,
    }
}

struct Picture<'a> {
    /// The most macroblocks that it may have.
    limit: usize,
    /// Forward, then backward.
    references: [&'a [u8]; 2],
    output: &'a mut [u8],
    header: Option<Header>,
    /// Intra, then non-intra, if given.
    matrices: [Option<Block>; 2],
    slice: Option<SliceState>,
    /// "Made is the count of macroblocks written"; it is also the next address.
    made: usize,
    /// ".. the picture's answer, carries the total over its coded blocks .. On a refused picture it is the total over the macroblocks
    /// made."
    rows: usize,
}

impl Picture<'_> {
    /// Reads the whole file; `place` is how far it got.
    fn read(&mut self, file: &[u8], place: &mut usize) -> Result<(), Refusal> {
        file::version(file)?;
        *place = 1;
        while *place < file.len() {
            *place = self.record(file, *place)?;
        }
        // "7 file ends with macroblocks or the header missing."
        require(self.whole(), Refusal::FileEnds)
    }

    /// "A record acts wholly, its skipped macroblocks included, or not at all." Returns the offset after it.
    fn record(&mut self, file: &[u8], offset: usize) -> Result<usize, Refusal> {
        let record = file::record(file, offset)?;
        require(self.in_turn(record.kind), Refusal::OutOfTurn)?;
        match (record.kind, self.header, &self.slice) {
            (file::HEADER, _, _) => self.act_header(record.body)?,
            (file::MATRIX, _, _) => self.act_matrix(record.body)?,
            (file::SLICE, _, _) => self.act_slice(record.body)?,
            (_, Some(header), Some(slice)) => {
                let read = macroblock(record.body, &header, self.made, slice)?;
                self.act_macroblock(&header, slice.last, read)?;
            }
            // A macroblock in turn has a header and a slice before it.
            _ => return Err(Refusal::OutOfTurn),
        }
        Ok(record.end)
    }

    /// "5 out of turn: kind 1 is first and only first; kind 2 before any slice; a slice needs a macroblock since the last
    /// one; a macroblock needs a slice; nothing follows the last macroblock."
    fn in_turn(&self, kind: u8) -> bool {
        if self.header.is_none() {
            return kind == file::HEADER;
        }
        if self.whole() {
            return false;
        }
        match (kind, &self.slice) {
            (file::MATRIX | file::SLICE, None) => true,
            (file::SLICE, Some(slice)) => slice.last != Last::None,
            (file::MACROBLOCK, slice) => slice.is_some(),
            _ => false,
        }
    }

    fn whole(&self) -> bool {
        self.header
            .is_some_and(|header| self.made == header.size.macroblocks())
    }

    /// Tests the header's fields. Request No. 4: "27 when a header that 8 lets through has more than 99 macroblocks .., before 19."
    /// Then "19 output, 20 forward, 21 backward length. Output is 384 × N; a used reference too, an unused one is empty."
    fn act_header(&mut self, body: &[u8]) -> Result<(), Refusal> {
        let header = file::header(body)?;
        let within = header.size.macroblocks() <= self.limit;
        require(within, Refusal::MacroblockLimit)?;
        let bytes = header.size.bytes();
        let [forward, backward] = header
            .picture_type
            .uses()
            .map(|used| if used { bytes } else { 0 });
        require(self.output.len() == bytes, Refusal::OutputLength)?;
        let [lent_forward, lent_backward] = self.references.map(<[u8]>::len);
        require(lent_forward == forward, Refusal::ForwardLength)?;
        require(lent_backward == backward, Refusal::BackwardLength)?;
        self.header = Some(header);
        Ok(())
    }

    fn act_matrix(&mut self, body: &[u8]) -> Result<(), Refusal> {
        let given = self.matrices.map(|matrix| matrix.is_some());
        let (which, weights) = file::matrix(body, given)?;
        self.matrices[which] = Some(weights);
        Ok(())
    }

    fn act_slice(&mut self, body: &[u8]) -> Result<(), Refusal> {
        let scale = file::slice(body, self.made)?;
        self.slice = Some(SliceState::start(scale));
        Ok(())
    }

    /// "Last 18: skipped macroblocks in order, then its own"; request No. 1 adds 23 to it. Then writes them all.
    fn act_macroblock(
        &mut self,
        header: &Header,
        last: Last,
        read: Macroblock,
    ) -> Result<(), Refusal> {
        let skip = skip_vectors(header.picture_type, last);
        let own = self.made + read.skipped;
        let skipped = self.made..own;
        for address in skipped.clone() {
            require_fit(header, address, skip)?;
        }
        require_fit(header, own, read.vectors)?;

        for address in skipped {
            self.write(header, address, skip, &[const { None }; 6]);
        }
        let blocks = read.coefficients(self.matrices);
        let residues = blocks.map(|block| Some(inverse_transform(&block?)));
        self.write(header, own, read.vectors, &residues);
        self.rows += blocks.iter().flatten().map(rows_worked).sum::<usize>();
        self.slice = Some(read.after);
        self.made = own + 1;
        Ok(())
    }

    /// "Prediction (0 for intra) plus residue is limited to 0..255", at every pel of the macroblock's six blocks.
    fn write(
        &mut self,
        header: &Header,
        address: usize,
        vectors: Vectors,
        residues: &[Option<Block>; 6],
    ) {
        let (column, row) = header.size.column_row(address);
        let planes = header.size.planes();
        for (index, residue) in residues.iter().enumerate() {
            let plane = planes[component(index)];
            let (right, down) = block_corner(index);
            for place in 0..64 {
                let x = plane.side * column + right + place % 8;
                let y = plane.side * row + down + place / 8;
                let predicted = if vectors == [None; 2] {
                    0
                } else {
                    prediction(self.references, plane, x, y, vectors)
                };
                let pel = predicted + residue.map_or(0, |residue| residue[place]);
                self.output[plane.offset(x, y)] = pel.clamp(0, 255) as u8;
            }
        }
    }
}

/// "Skipped: P copies with vector 0; B repeats the last macroblock's directions and vectors." An I picture skips none.
pub fn skip_vectors(picture_type: PictureType, last: Last) -> Vectors {
    match (picture_type, last) {
        (PictureType::B, Last::Predicted(vectors)) => vectors,
        _ => [Some([0; 2]), None],
    }
}

/// Request No. 1: "18 speaks of the forward vector alone." "23 when the backward vector doesn't fit, tested just after the same
/// macroblock's forward one."
fn require_fit(header: &Header, address: usize, vectors: Vectors) -> Result<(), Refusal> {
    let fits_if_used =
        |vector: Option<Vector>| vector.is_none_or(|used| fits(header.size, address, used));
    let [forward, backward] = vectors;
    require(fits_if_used(forward), Refusal::ForwardVectorOutside)?;
    require(fits_if_used(backward), Refusal::BackwardVectorOutside)
}

/// The offset of a block's first pel from its macroblock's in the plane: the four Y blocks go left to right, top to bottom.
fn block_corner(block: usize) -> (usize, usize) {
    if component(block) == 0 {
        (8 * (block % 2), 8 * (block / 2))
    } else {
        (0, 0)
    }
}
