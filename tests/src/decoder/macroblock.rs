//! "The Format 3 file", kind 4: the fields of a macroblock record, "each tested when read".

use super::coefficients::{
    coefficients, intra_ac, non_intra, Block, DEFAULT_INTRA_MATRIX, DEFAULT_NON_INTRA_MATRIX,
    FIRST_DC_PAST,
};
use super::file::{Direction, Header, PictureType};
use super::refusals::{require, Refusal};
use super::vectors::{code_legal, decoded, f_of, residual_legal, Vector, Vectors};

/// What a slice carries from macroblock to macroblock. A past is a predictor.
#[derive(Clone, Debug)]
pub struct SliceState {
    pub scale: i64,
    /// For Y, Cb and Cr.
    pub dc_pasts: [i64; 3],
    /// For the forward and the backward direction.
    pub vector_pasts: [Vector; 2],
    pub last: Last,
}

/// The last macroblock record of the slice.
#[derive(Clone, Copy, Debug, PartialEq, Eq)]
pub enum Last {
    None,
    Intra,
    Predicted(Vectors),
}

impl SliceState {
    /// "Pasts are 1024 at a slice's start"; "Pasts are 0 at a slice's start".
    pub fn start(scale: i64) -> SliceState {
        SliceState {
            scale,
            dc_pasts: [FIRST_DC_PAST; 3],
            vector_pasts: [[0; 2]; 2],
            last: Last::None,
        }
    }

    /// The DC pasts "after any skipped .. macroblock"; the vector pasts "in P also after a macroblock .. skipped".
    fn skip(&mut self, picture_type: PictureType) {
        self.dc_pasts = [FIRST_DC_PAST; 3];
        if picture_type == PictureType::P {
            self.vector_pasts = [[0; 2]; 2];
        }
    }
}

/// The type byte: "a sum of 1 scale given, 2 forward, 4 backward, 8 pattern, 16 intra".
#[derive(Clone, Copy)]
struct MacroblockType(u8);

impl MacroblockType {
    fn scale_given(self) -> bool {
        self.0 & 1 != 0
    }

    fn uses(self) -> [bool; 2] {
        [self.0 & 2 != 0, self.0 & 4 != 0]
    }

    fn has_pattern(self) -> bool {
        self.0 & 8 != 0
    }

    fn intra(self) -> bool {
        self.0 & 16 != 0
    }
}

/// "Legal types: I 16, 17. P 2, 8, 9, 10, 11, 16, 17. B 2, 4, 6, 10, 11, 12, 13, 14, 15, 16, 17."
pub fn legal_types(picture_type: PictureType) -> &'static [u8] {
    match picture_type {
        PictureType::I => &[16, 17],
        PictureType::P => &[2, 8, 9, 10, 11, 16, 17],
        PictureType::B => &[2, 4, 6, 10, 11, 12, 13, 14, 15, 16, 17],
    }
}

/// What a macroblock record says, with its vectors decoded.
pub struct Macroblock {
    /// How many macroblocks it skips before its own.
    pub skipped: usize,
    pub intra: bool,
    /// The vectors as used, doubled if the full-pel flag is set; none for intra.
    pub vectors: Vectors,
    /// Four of Y, then Cb, then Cr.
    pub blocks: [Option<CodedBlock>; 6],
    /// The slice's state after the record.
    pub after: SliceState,
}

impl Macroblock {
    /// The coefficients of each coded block. The matrices are intra, then non-intra, if given.
    pub fn coefficients(&self, matrices: [Option<Block>; 2]) -> [Option<Block>; 6] {
        self.blocks.each_ref().map(|block| {
            let block = block.as_ref()?;
            Some(block.coefficients(matrices, self.after.scale))
        })
    }
}

pub struct CodedBlock {
    /// Only for intra blocks.
    pub dc: Option<i64>,
    /// The levels by zigzag position.
    pub levels: Block,
}

impl CodedBlock {
    /// The coefficients, row by row: the levels scaled, and an intra block's DC. The matrices are intra, then non-intra, if given.
    pub fn coefficients(&self, matrices: [Option<Block>; 2], scale: i64) -> Block {
        // "It holds for this picture only; without it the standard's default does."
        let [intra_matrix, non_intra_matrix] = matrices;
        let Some(dc) = self.dc else {
            let matrix = non_intra_matrix.unwrap_or(DEFAULT_NON_INTRA_MATRIX);
            return coefficients(&self.levels, &matrix, |level, weight| {
                non_intra(level, scale, weight)
            });
        };
        let matrix = intra_matrix.unwrap_or(DEFAULT_INTRA_MATRIX);
        let mut coefficients = coefficients(&self.levels, &matrix, |level, weight| {
            intra_ac(level, scale, weight)
        });
        coefficients[0] = dc;
        coefficients
    }
}

/// The unread part of the body. "A field that isn't wholly inside its record is refused by 6."
pub struct Fields<'a>(pub &'a [u8]);

impl Fields<'_> {
    fn take<const LENGTH: usize>(&mut self) -> Result<[u8; LENGTH], Refusal> {
        let (field, rest) = self.0.split_first_chunk().ok_or(Refusal::BodyLength)?;
        self.0 = rest;
        Ok(*field)
    }

    fn byte(&mut self) -> Result<u8, Refusal> {
        Ok(u8::from_be_bytes(self.take()?))
    }

    fn signed_byte(&mut self) -> Result<i64, Refusal> {
        Ok(i8::from_be_bytes(self.take()?).into())
    }

    fn word(&mut self) -> Result<u16, Refusal> {
        Ok(u16::from_be_bytes(self.take()?))
    }

    fn signed_word(&mut self) -> Result<i64, Refusal> {
        Ok(i16::from_be_bytes(self.take()?).into())
    }
}

/// "Kind 4, macroblock: type byte, 2-byte address increment, then as the type says: scale; forward codes; backward codes;
/// pattern byte; blocks." `next_address` is the first address without a macroblock.
pub fn macroblock(
    body: &[u8],
    header: &Header,
    next_address: usize,
    before: &SliceState,
) -> Result<Macroblock, Refusal> {
    let fields = &mut Fields(body);
    let macroblock_type = macroblock_type(fields, header.picture_type)?;
    let skipped = increment(fields, header, next_address, before.last)? - 1;
    let mut state = before.clone();
    if skipped > 0 {
        state.skip(header.picture_type);
    }
    if macroblock_type.scale_given() {
        state.scale = super::file::scale(fields.byte()?)?;
    }
    let vectors = vectors(fields, header, macroblock_type, &mut state)?;
    let pattern = pattern(fields, macroblock_type)?;
    let blocks = blocks(fields, macroblock_type, pattern, &mut state)?;
    require(fields.0.is_empty(), Refusal::BodyLength)?;
    state.last = if macroblock_type.intra() {
        Last::Intra
    } else {
        Last::Predicted(vectors)
    };
    Ok(Macroblock {
        skipped,
        intra: macroblock_type.intra(),
        vectors,
        blocks,
        after: state,
    })
}

fn macroblock_type(
    fields: &mut Fields,
    picture_type: PictureType,
) -> Result<MacroblockType, Refusal> {
    let given = fields.byte()?;
    let legal = legal_types(picture_type).contains(&given);
    require(legal, Refusal::MacroblockType)?;
    Ok(MacroblockType(given))
}

/// "13 increment 0, past the last address, not 1 first in a slice, or above 1 in I or after intra in B."
fn increment(
    fields: &mut Fields,
    header: &Header,
    next_address: usize,
    last: Last,
) -> Result<usize, Refusal> {
    let increment = usize::from(fields.word()?);
    let left = header.size.macroblocks() - next_address;
    require((1..=left).contains(&increment), Refusal::AddressIncrement)?;
    let may_skip = match header.picture_type {
        PictureType::I => false,
        PictureType::P => last != Last::None,
        PictureType::B => matches!(last, Last::Predicted(_)),
    };
    require(may_skip || increment == 1, Refusal::AddressIncrement)?;
    Ok(increment)
}

/// The vectors of the directions that the type uses, and the new pasts.
fn vectors(
    fields: &mut Fields,
    header: &Header,
    macroblock_type: MacroblockType,
    state: &mut SliceState,
) -> Result<Vectors, Refusal> {
    let mut vectors = [None; 2];
    for (way, used) in macroblock_type.uses().into_iter().enumerate() {
        if used {
            let direction = header.directions[way];
            let decoded = vector(fields, direction, state.vector_pasts[way])?;
            // "The past keeps this number; the full-pel flag doubles it afterwards for use."
            state.vector_pasts[way] = decoded;
            vectors[way] = Some(direction.used(decoded));
        }
    }
    // "Pasts are 0 .. after intra; in P also after a macroblock without vector". In B every other one has a vector.
    if vectors == [None; 2] {
        state.vector_pasts = [[0; 2]; 2];
        // "P without vector uses vector 0."
        if !macroblock_type.intra() {
            vectors[0] = Some([0; 2]);
        }
    }
    Ok(vectors)
}

/// "Horizontal code, residual, vertical code, residual, a byte each".
fn vector(fields: &mut Fields, direction: Direction, past: Vector) -> Result<Vector, Refusal> {
    let f = f_of(direction.f_code);
    let mut vector = past;
    for part in &mut vector {
        let code = fields.signed_byte()?;
        require(code_legal(code), Refusal::VectorCode)?;
        let residual = fields.byte()?.into();
        require(residual_legal(f, code, residual), Refusal::VectorCode)?;
        *part = decoded(f, *part, code, residual);
    }
    Ok(vector)
}

/// "Pattern is 1..63, with 32 the first Y block and 1 Cr. An intra macroblock has all six blocks."
fn pattern(fields: &mut Fields, macroblock_type: MacroblockType) -> Result<u8, Refusal> {
    if macroblock_type.intra() {
        return Ok(63);
    }
    if !macroblock_type.has_pattern() {
        return Ok(0);
    }
    let pattern = fields.byte()?;
    require((1..=63).contains(&pattern), Refusal::Pattern)?;
    Ok(pattern)
}

/// The blocks that the pattern codes, and the new DC pasts.
fn blocks(
    fields: &mut Fields,
    macroblock_type: MacroblockType,
    pattern: u8,
    state: &mut SliceState,
) -> Result<[Option<CodedBlock>; 6], Refusal> {
    if !macroblock_type.intra() {
        state.dc_pasts = [FIRST_DC_PAST; 3];
    }
    let mut blocks = [const { None }; 6];
    for (index, block) in blocks.iter_mut().enumerate() {
        if pattern & (32 >> index) != 0 {
            let past = &mut state.dc_pasts[component(index)];
            *block = Some(coded_block(fields, macroblock_type.intra(), past)?);
        }
    }
    Ok(blocks)
}

/// The plane of a macroblock's block: four of Y, then Cb, then Cr.
pub fn component(block: usize) -> usize {
    block.saturating_sub(3)
}

/// "A block is: intra only, a 2-byte DC difference; a count of pairs (intra 0..63, else 1..64); the pairs".
pub fn coded_block(
    fields: &mut Fields,
    intra: bool,
    past: &mut i64,
) -> Result<CodedBlock, Refusal> {
    let (dc, counts, first) = if intra {
        *past = dc(fields, *past)?;
        (Some(*past), 0..=63, 1)
    } else {
        (None, 1..=64, 0)
    };
    let count = fields.byte()?;
    require(counts.contains(&count), Refusal::Coefficient)?;
    let levels = levels(fields, count, first)?;
    Ok(CodedBlock { dc, levels })
}

/// "Intra DC: 8 × difference is added to the past DC". "17 difference outside -255..255 or DC outside 0..2040."
fn dc(fields: &mut Fields, past: i64) -> Result<i64, Refusal> {
    let difference = fields.signed_word()?;
    let legal = (-255..=255).contains(&difference);
    require(legal, Refusal::DcCoefficient)?;
    let dc = past + 8 * difference;
    require((0..=2040).contains(&dc), Refusal::DcCoefficient)?;
    Ok(dc)
}

/// "The first pair lands at its run (intra: 1 plus run), each later one at run plus 1 further on, in zigzag order."
fn levels(fields: &mut Fields, count: u8, first: usize) -> Result<Block, Refusal> {
    let mut levels = [0; 64];
    let mut from = first;
    for _ in 0..count {
        let position = from + usize::from(fields.byte()?);
        let place = levels.get_mut(position).ok_or(Refusal::Coefficient)?;
        *place = level(fields)?;
        from = position + 1;
    }
    Ok(levels)
}

/// "Levels are -255..-1 and 1..255."
fn level(fields: &mut Fields) -> Result<i64, Refusal> {
    let level = fields.signed_word()?;
    let legal = (-255..=255).contains(&level) && level != 0;
    require(legal, Refusal::Coefficient)?;
    Ok(level)
}
