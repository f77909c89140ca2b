//! Makes pictures in which the rows that the transform works may be counted wrongly: by what the rows of coded blocks hold, by which
//! blocks are coded, and by where a picture is refused.

use super::cases::Case;
use super::row_blocks::{all_rows, PlannedBlock, Row, Shape, LIGHT_WEIGHTS, ROWS};
use super::strip::Strip;
use crate::decoder::file::{PictureType, INTRA, NON_INTRA};
use crate::decoder::macroblock::component;
use crate::random::Random;

/// What may be counted wrongly.
#[derive(Clone, Copy, Debug, PartialEq, Eq, PartialOrd, Ord)]
pub enum RowKind {
    /// A coded block, by what its rows hold.
    Rows { intra: bool, rows: [Row; 8] },
    /// A coded block, by which of its coefficients are not 0.
    Shape { intra: bool, shape: Shape },
    /// An intra block: whether its DC is 0, and what the rest of the first row holds.
    Dc { zero: bool, rest: Row },
    /// A non-intra macroblock with this pattern. Each of the coded blocks has rows worked.
    Pattern(u8),
    /// The coded blocks of a macroblock, with so many rows worked.
    Total { intra: bool, rows: usize },
    /// A macroblock without coded blocks, skipped or not. The record before has rows worked.
    NoBlocks {
        picture_type: PictureType,
        skipped: bool,
    },
    /// The end of a picture. The macroblocks made have rows worked.
    End(End),
}

/// How a picture ends.
#[derive(Clone, Copy, Debug, PartialEq, Eq, PartialOrd, Ord)]
pub enum End {
    Accepted,
    /// Refused by this number after the last macroblock.
    AfterLast(u32),
    /// Refused by this number before the last macroblock. No block with rows to work is read after those made.
    BeforeBlocks(u32),
    /// Refused by this number in a macroblock record, after so many of its blocks are read. They have rows to work.
    AfterBlocks {
        number: u32,
        intra: bool,
        blocks: usize,
    },
}

/// Everything that must occur.
pub fn all_row_kinds() -> Vec<RowKind> {
    let mut kinds = Vec::new();
    for intra in [false, true] {
        kinds.extend(all_rows(intra).map(|rows| RowKind::Rows { intra, rows }));
        kinds.extend(Shape::all().map(|shape| RowKind::Shape { intra, shape }));
        kinds.extend((0..=MOST_ROWS).map(|rows| RowKind::Total { intra, rows }));
    }
    kinds.extend(dcs().map(|(zero, rest)| RowKind::Dc { zero, rest }));
    kinds.extend((1..=63).map(RowKind::Pattern));
    for picture_type in [PictureType::P, PictureType::B] {
        kinds.extend([false, true].map(|skipped| RowKind::NoBlocks {
            picture_type,
            skipped,
        }));
    }
    kinds.extend(all_ends().into_iter().map(RowKind::End));
    kinds
}

/// "at most 48 a macroblock"
const MOST_ROWS: usize = 48;

/// Whether a DC is 0, and what the rest of its row holds.
fn dcs() -> impl Iterator<Item = (bool, Row)> {
    [false, true]
        .into_iter()
        .flat_map(|zero| ROWS.map(|rest| (zero, rest)))
}

fn all_ends() -> Vec<End> {
    let mut ends = vec![End::Accepted];
    ends.extend(AFTER_LAST.map(|(number, _)| End::AfterLast(number)));
    ends.extend(NEXT_RECORDS.map(|(number, _)| End::BeforeBlocks(number)));
    let after = |number, intra, blocks| End::AfterBlocks {
        number,
        intra,
        blocks,
    };
    for blocks in 1..6 {
        ends.extend([6, 16].map(|number| after(number, false, blocks)));
        ends.extend([6, 16, 17].map(|number| after(number, true, blocks)));
    }
    ends.extend([6, 18, 23].map(|number| after(number, false, 6)));
    ends.push(after(6, true, 6));
    ends
}

/// What follows the last macroblock, and the number that refuses it. The last is a macroblock record with a row to work.
const AFTER_LAST: [(u32, &[u8]); 3] = [
    (3, &[0]),
    (4, &[0, 1, 9]),
    (5, &[0, 9, 4, 8, 0, 1, 32, 1, 0, 0, 255]),
];

/// What follows the first of several macroblocks of a P-picture, and the number that refuses it.
const NEXT_RECORDS: [(u32, &[u8]); 11] = [
    (3, &[0]),
    (4, &[0, 1, 9]),
    (5, &[0, 1, 2]),
    (6, &[0, 1, 4]),
    (7, &[]),
    (10, &[0, 4, 3, 0, 0, 1]),
    (11, &[0, 4, 3, 1, 0, 9]),
    (12, &[0, 2, 4, 255]),
    (13, &[0, 4, 4, 2, 0, 0]),
    (14, &[0, 5, 4, 2, 0, 1, 17]),
    (15, &[0, 5, 4, 8, 0, 1, 0]),
];

/// Pictures in which everything occurs.
pub fn row_cases(seed: u64) -> Vec<Case> {
    let random = &mut Random::new(&[seed, 11]);
    let mut cases = Vec::new();
    for picture_type in [PictureType::I, PictureType::P] {
        cases.extend(coded_cases(random, picture_type));
        cases.extend(cases_refused_in_blocks(random, picture_type));
    }
    cases.extend(pattern_cases(random));
    for picture_type in [PictureType::P, PictureType::B] {
        cases.push(case_without_blocks(random, picture_type));
    }
    cases.push(refused_case(random, PictureType::P, FORWARD_MISFIT, |_| ()));
    cases.push(refused_case(
        random,
        PictureType::B,
        BACKWARD_MISFIT,
        |_| (),
    ));
    cases.extend(AFTER_LAST.map(|(_, bytes)| followed_case(random, 1, bytes)));
    cases.extend(NEXT_RECORDS.map(|(_, bytes)| followed_case(random, 3, bytes)));
    cases
}

/// The fields of a macroblock before its six blocks: intra, without a vector, and forward with vector 0.
const INTRA_FIELDS: &[u8] = &[16, 0, 1];
const NO_VECTOR_FIELDS: &[u8] = &[8, 0, 1, 63];
const FORWARD_FIELDS: &[u8] = &[10, 0, 1, 0, 0, 0, 0, 63];

/// Fields with a vector that points below the picture, forward and backward.
const FORWARD_MISFIT: &[u8] = &[10, 0, 1, 0, 0, 1, 0, 63];
const BACKWARD_MISFIT: &[u8] = &[12, 0, 1, 0, 0, 1, 0, 63];

/// The fields of the macroblocks that pictures of this type have here; only those of I are intra.
fn fields_of(picture_type: PictureType) -> &'static [u8] {
    match picture_type {
        PictureType::I => INTRA_FIELDS,
        PictureType::P => NO_VECTOR_FIELDS,
        PictureType::B => FORWARD_FIELDS,
    }
}

/// A picture with light weights in both matrices, and scale 1. The first intra weight is 8, as it must be.
fn strip(random: &mut Random, picture_type: PictureType, width: usize) -> Strip {
    let mut matrices = [INTRA, NON_INTRA].map(|which| {
        let weights = [(); 64].map(|()| random.pick(&LIGHT_WEIGHTS));
        (which, weights)
    });
    matrices[INTRA].1[0] = 8;
    Strip {
        picture_type,
        width,
        matrices: matrices.to_vec(),
        scale: 1,
    }
}

/// The DC pasts of a slice, divided by 8.
struct DcPasts([i16; 3]);

impl DcPasts {
    fn new() -> DcPasts {
        DcPasts([128; 3])
    }

    /// The bytes of a macroblock's blocks.
    fn blocks(&mut self, planned: &[PlannedBlock; 6]) -> [Vec<u8>; 6] {
        std::array::from_fn(|block| planned[block].bytes(&mut self.0[component(block)]))
    }

    /// The bytes of six blocks with at least three rows worked in each.
    fn six_blocks(&mut self, random: &mut Random, intra: bool) -> [Vec<u8>; 6] {
        let planned = [(); 6].map(|()| {
            let count = random.within(3, 8) as usize;
            PlannedBlock::with_count(random, intra, count)
        });
        self.blocks(&planned)
    }
}

/// Legal pictures of blocks with every set of rows, shape and kind of DC, and of macroblocks with every total.
fn coded_cases(random: &mut Random, picture_type: PictureType) -> Vec<Case> {
    let intra = picture_type == PictureType::I;
    let mut planned = Vec::new();
    for rows in all_rows(intra) {
        planned.push(PlannedBlock::with_rows(random, intra, rows));
    }
    for shape in Shape::all() {
        planned.push(PlannedBlock::with_shape(random, intra, shape));
    }
    for (zero, rest) in dcs().filter(|_| intra) {
        planned.push(PlannedBlock::with_dc(random, zero, rest));
    }
    let six =
        |planned: &[PlannedBlock]| std::array::from_fn(|block| planned[block % planned.len()]);
    let mut macroblocks: Vec<[PlannedBlock; 6]> = planned.chunks(6).map(six).collect();
    for rows in 0..=MOST_ROWS {
        let count = |block| (rows + block) / 6;
        let planned = |block| PlannedBlock::with_count(random, intra, count(block));
        macroblocks.push(std::array::from_fn(planned));
    }
    let case = |macroblocks: &[[PlannedBlock; 6]]| coded_case(random, picture_type, macroblocks);
    macroblocks.chunks(8).map(case).collect()
}

/// A legal picture of macroblocks with these blocks.
fn coded_case(
    random: &mut Random,
    picture_type: PictureType,
    macroblocks: &[[PlannedBlock; 6]],
) -> Case {
    let pasts = &mut DcPasts::new();
    let body = |planned| [fields_of(picture_type), &pasts.blocks(planned).concat()].concat();
    let bodies: Vec<Vec<u8>> = macroblocks.iter().map(body).collect();
    strip(random, picture_type, bodies.len()).case(random, bodies)
}

/// Pictures of macroblocks with every pattern.
fn pattern_cases(random: &mut Random) -> Vec<Case> {
    let mut body = |pattern: u8| {
        let blocks = DcPasts::new().six_blocks(random, false);
        let coded = (0..6).filter(|block| pattern & (32 >> block) != 0);
        let coded: Vec<u8> = coded.flat_map(|block| blocks[block].clone()).collect();
        [&[8, 0, 1, pattern], &coded[..]].concat()
    };
    let bodies: Vec<Vec<u8>> = (1..=63).map(&mut body).collect();
    let case = |bodies: &[Vec<u8>]| {
        let strip = strip(random, PictureType::P, bodies.len());
        strip.case(random, bodies.to_vec())
    };
    bodies.chunks(21).map(case).collect()
}

/// Macroblocks with coded blocks, and between them one without a pattern, one that is skipped, and both.
fn case_without_blocks(random: &mut Random, picture_type: PictureType) -> Case {
    let mut coded = |increment| {
        let blocks = DcPasts::new().six_blocks(random, false);
        let mut body = [FORWARD_FIELDS, &blocks.concat()].concat();
        body[2] = increment;
        body
    };
    let no_pattern = |increment| vec![2, 0, increment, 0, 0, 0, 0];
    let bodies = [
        coded(1),
        no_pattern(1),
        coded(1),
        coded(2),
        no_pattern(2),
        coded(1),
    ];
    strip(random, picture_type, 8).case(random, bodies)
}

/// A picture of three macroblocks. The second, with these fields and its blocks changed, is refused.
fn refused_case(
    random: &mut Random,
    picture_type: PictureType,
    fields: &[u8],
    change: impl FnOnce(&mut Vec<Vec<u8>>),
) -> Case {
    let intra = picture_type == PictureType::I;
    let pasts = &mut DcPasts::new();
    let first = pasts.six_blocks(random, intra);
    let mut second = pasts.six_blocks(random, intra).to_vec();
    change(&mut second);
    let bodies = [
        [fields_of(picture_type), &first.concat()].concat(),
        [fields, &second.concat()].concat(),
    ];
    Case {
        legal: false,
        ..strip(random, picture_type, 3).case(random, bodies)
    }
}

/// Pictures refused in each block but the first, or just after the last: by a level, by a DC difference, and by the body's length.
fn cases_refused_in_blocks(random: &mut Random, picture_type: PictureType) -> Vec<Case> {
    let fields = fields_of(picture_type);
    let mut cases = Vec::new();
    for at in 1..6 {
        let level: i16 = random.pick(&[i16::MIN, -256, 0, 256, i16::MAX]);
        cases.push(refused_case(random, picture_type, fields, |blocks| {
            let start = blocks[at].len() - 2;
            blocks[at][start..].copy_from_slice(&level.to_be_bytes());
        }));
        let missing = 1 + random.below(3);
        cases.push(refused_case(random, picture_type, fields, |blocks| {
            blocks.truncate(at + 1);
            let length = blocks[at].len() - missing;
            blocks[at].truncate(length);
        }));
        if picture_type == PictureType::I {
            let difference: i16 = random.pick(&[-256, 256]);
            cases.push(refused_case(random, picture_type, fields, |blocks| {
                blocks[at][..2].copy_from_slice(&difference.to_be_bytes());
            }));
        }
    }
    let byte_more = |blocks: &mut Vec<Vec<u8>>| blocks.push(vec![0]);
    cases.push(refused_case(random, picture_type, fields, byte_more));
    cases
}

/// A P-picture of this width with one macroblock, then these bytes.
fn followed_case(random: &mut Random, width: usize, bytes: &[u8]) -> Case {
    let blocks = DcPasts::new().six_blocks(random, false);
    let body = [NO_VECTOR_FIELDS, &blocks.concat()].concat();
    let mut case = strip(random, PictureType::P, width).case(random, [body]);
    case.file.extend(bytes);
    case.legal = false;
    case
}
