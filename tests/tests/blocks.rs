//! Tests blocks pair by pair: what the other decoder's block holds after each pair, and what a refused pair leaves. No stage is
//! missing, every pair shows, and wrong decoders are found.

mod common;
mod found;
mod missing;

use std::collections::BTreeSet;

use common::{file_of, I, SLICE};
use format3_tests::compare_blocks::{blocks, require_every_stage, stages};
use format3_tests::decoder::coefficients::{raster_index, Block};
use format3_tests::decoder::file::header;
use format3_tests::decoder::macroblock::{macroblock, SliceState};
use format3_tests::decoder::{reconstruct, Answer, Entries, Reconstruct, ENTRIES};
use format3_tests::generator::{all_stages, stage_cases, Case, Fault, Next, Pairs, Scaled, Stage};
use format3_tests::records::{lengths_before, macroblock_records};
use found::require_found;
use missing::require_missing_reported;

const SEED: u64 = 1;

/// The header of a P-picture of one macroblock.
const P: &[u8] = &[1, 1, 1, 2, 0, 1, 0, 0];

/// The coefficients of a macroblock's first block.
fn first_block(picture: &[u8], body: &[u8], scale: i64, matrices: [Option<Block>; 2]) -> Block {
    let header = header(&picture[1..]).expect("the header is legal");
    let read = macroblock(body, &header, 0, &SliceState::start(scale));
    let [first, ..] = read.expect("the macroblock is legal").blocks;
    first.expect("it is coded").coefficients(matrices, scale)
}

/// A block that is 0 except for these coefficients at these raster indices.
fn holding(coefficients: &[(usize, i64)]) -> Block {
    let mut block = [0; 64];
    for (index, coefficient) in coefficients {
        block[*index] = *coefficient;
    }
    block
}

/// Request No. 3: "after each pair the block holds the scaled coefficients read so far, in their places, and 0 elsewhere." Scale 2,
/// default matrix:
///
/// - DC: 1024 - 8 × 3 = 1000.
/// - Position 1, raster index 1, weight 16: 2 × 5 × 2 × 16 / 16 = 20, which moves to 19.
/// - Position 3, raster index 16, weight 19: -2 × 7 × 2 × 19 / 16 = -33.25, truncated to -33.
/// - Position 8, raster index 17, weight 22: 2 × 1 × 2 × 22 / 16 = 5.5, truncated to 5.
#[test]
fn an_intra_block_after_each_pair() {
    let pairs = [[0, 0, 5], [1, 0xff, 0xf9], [4, 0, 1]];
    let held = [(0, 1000), (1, 19), (16, -33), (17, 5)];
    for count in 0..=pairs.len() {
        let first = [&[0xff, 0xfd, count as u8], pairs[..count].as_flattened()].concat();
        let body = [&[16, 0, 1], &first[..], &[0; 15]].concat();
        let block = first_block(I, &body, 2, [None; 2]);
        assert_eq!(block, holding(&held[..=count]), "{count} pairs");
    }
}

/// The same for a non-intra block. A scaled level may be 0. Scale 1, all weights 4:
///
/// - Position 0, raster index 0: (2 × 1 + 1) × 1 × 4 / 16 = 0.75, truncated to 0.
/// - Position 3, raster index 16: (-2 × 100 - 1) × 1 × 4 / 16 = -50.25, truncated to -50, which moves to -49.
/// - Position 4, raster index 9: (2 × 2 + 1) × 1 × 4 / 16 = 1.25, truncated to 1.
#[test]
fn a_non_intra_block_after_each_pair() {
    let pairs = [[0, 0, 1], [2, 0xff, 0x9c], [0, 0, 2]];
    let held = [(0, 0), (16, -49), (9, 1)];
    for count in 1..=pairs.len() {
        let body = [&[8, 0, 1, 32, count as u8], pairs[..count].as_flattened()].concat();
        let block = first_block(P, &body, 1, [None, Some([4; 64])]);
        assert_eq!(block, holding(&held[..count]), "{count} pairs");
    }
}

/// The answer to a file with a case's references, and the output.
fn run(file: &[u8], case: &Case) -> (Answer, Vec<u8>) {
    let mut output = case.output.clone();
    let answer = reconstruct(file, &case.forward, &case.backward, &mut output);
    (answer, output)
}

/// The bytes of the left and the right one of two macroblocks side by side.
fn halves(picture: &[u8]) -> [Vec<u8>; 2] {
    let (luma, chroma) = picture.split_at(2 * 16 * 16);
    let rows = luma.chunks(2 * 16).chain(chroma.chunks(2 * 8));
    let split: Vec<_> = rows.map(|row| row.split_at(row.len() / 2)).collect();
    let left = split.iter().flat_map(|(left, _)| left.to_vec());
    let right = split.iter().flat_map(|(_, right)| right.to_vec());
    [left.collect(), right.collect()]
}

/// The answer to a picture whose last stage is this.
fn number(stage: &Stage) -> u32 {
    match stage.next {
        Next::End(_) => 0,
        Next::Refused(Fault::Cut(_)) => 6,
        Next::Refused(_) => 16,
    }
}

/// The macroblock before the refused record is the same as if the file ended there; that of the record is untouched.
#[test]
fn a_refused_pair_leaves_the_macroblock_before() {
    for (index, case) in stage_cases(SEED).iter().enumerate() {
        let (answer, output) = run(&case.file, case);
        let stages = stages(&case.file);
        let last = stages.last().expect("a block is read");
        assert_eq!(answer.number, number(last), "picture {index}");
        assert_eq!(answer.number == 0, case.legal, "picture {index}");
        assert_eq!(answer.made, 1, "picture {index}");
        if case.legal {
            continue;
        }
        let (ended, first_alone) = run(&case.file[..answer.place], case);
        assert_eq!((ended.number, ended.made), (7, 1), "picture {index}");
        assert_eq!(output, first_alone, "picture {index}");
        let [written, untouched] = halves(&output);
        let [left, right] = halves(&case.output);
        assert_ne!(written, left, "picture {index}");
        assert_eq!(untouched, right, "picture {index}");
    }
}

/// A missing stage is reported; to save time, only some are tried.
///
/// A block has room for 64 pairs, or 63 if it is intra. Pairs of run `step - 1` take `step` positions each, so there are at most
/// 64 / `step` or 63 / `step`; over all runs, that is 280 or 273 counts of pairs. No pair is one more.
///
/// In a whole block, the last level is scaled in 4 ways; if it is the only one, in 6. An intra block may have no pair.
///
/// A refused pair has one of 7 faults, after all counts but that of a full block; or one of 2, if the pair before it is at
/// position 63. That happens where `step` is above 1 and divides 64 (6 times) or 63 (5 times).
#[test]
fn missing_stages_are_reported() {
    let counts = |room: usize| (1..=room).map(|step| room / step).sum::<usize>();
    assert_eq!([counts(64), counts(63)], [280, 273]);
    let whole = (4 * 280 + 2 * 64) + (4 * 273 + 2 * 63 + 1);
    let refused = 7 * (280 + 273) - 5 * (6 + 5);
    let all = BTreeSet::from_iter(all_stages());
    assert_eq!(all.len(), whole + refused);
    let made = blocks(&ENTRIES, SEED).expect("the decoder is itself");
    let some = all.iter().step_by(97);
    require_missing_reported("block", some, &made.kinds, require_every_stage);
}

/// Pairs land at all 64 raster indices, or at all but that of the DC, and their levels are scaled in 6 ways at each.
#[test]
fn pairs_land_at_every_raster_index() {
    let made = blocks(&ENTRIES, SEED).expect("the decoder is itself");
    let landed = made.kinds.keys().filter_map(|stage| {
        let Next::End(Some(scaled)) = stage.next else {
            return None;
        };
        let position = stage.pairs.positions().last()?;
        Some((stage.pairs.intra, raster_index(position), scaled))
    });
    assert_eq!(BTreeSet::from_iter(landed).len(), 6 * (64 + 63));
}

/// An intra macroblock whose first block has pairs; in legal ones, five blocks without pairs follow. The slice after it is not read:
/// it starts at an address already made, or the macroblock is refused.
#[test]
fn stages_are_told_from_the_file() {
    let told = |blocks: &[u8]| {
        let body = [&[4, 16, 0, 1, 0, 0], blocks].concat();
        let grey = [&[4, 16, 0, 1], &[0; 18][..]].concat();
        stages(&file_of(&[I, SLICE, &body, SLICE, &grey]))
    };
    let stage = |run, count, next| {
        let intra = true;
        let pairs = Pairs { intra, run, count };
        Stage { pairs, next }
    };
    let positive = Next::End(Some(Scaled::Positive));
    let whole: [(&[u8], &[Stage]); 3] = [
        (&[1, 62, 0, 1], &[stage(62, 1, positive)]),
        (&[2, 1, 0, 1, 1, 0, 1], &[stage(1, 2, positive)]),
        // The runs differ.
        (&[2, 1, 0, 1, 2, 0, 1], &[]),
    ];
    for (first, stages) in whole {
        let others = [stage(0, 0, Next::End(None)); 5];
        let blocks = [first, &[0; 15]].concat();
        assert_eq!(told(&blocks), [stages, &others].concat(), "{first:?}");
    }
    let refused: [(&[u8], Fault); 7] = [
        (&[2, 3, 0, 1, 59, 0, 0], Fault::Position),
        (&[2, 3, 0, 1, 58, 0, 0], Fault::ZeroLevel),
        (&[2, 3, 0, 1, 58, 0xff, 0], Fault::LowLevel),
        (&[2, 3, 0, 1, 58, 1, 0], Fault::HighLevel),
        (&[2, 3, 0, 1, 58, 0], Fault::Cut(2)),
        (&[2, 3, 0, 1, 58], Fault::Cut(1)),
        (&[2, 3, 0, 1], Fault::Cut(0)),
    ];
    for (first, fault) in refused {
        assert_eq!(told(first), [stage(3, 1, Next::Refused(fault))]);
    }
}

/// The offset of each block's last level in a picture of one macroblock. It means nothing if the block has no pair.
fn last_levels(file: &[u8]) -> [usize; 6] {
    let records = macroblock_records(file);
    let body = records.last().expect("there is a macroblock").body;
    let (fields, difference) = lengths_before(body[0]);
    let mut end = file.len() - body.len() + fields;
    [(); 6].map(|()| {
        end += difference;
        end += 1 + 3 * usize::from(file[end]);
        end - 2
    })
}

fn level(file: &[u8], offset: usize) -> i16 {
    i16::from_be_bytes([file[offset], file[offset + 1]])
}

/// A file with the level at an offset negated.
fn negated(file: &[u8], offset: usize) -> Vec<u8> {
    let opposite = -level(file, offset);
    let mut file = file.to_vec();
    file[offset..offset + 2].copy_from_slice(&opposite.to_be_bytes());
    file
}

/// If the last level of a block had the other sign, the picture would show it, unless the level is scaled to 0. A limited level
/// before it, which is 255 or -255, may hide it.
#[test]
fn each_last_pair_shows() {
    for case in stage_cases(SEED).iter().filter(|case| case.legal) {
        let (_, picture) = run(&case.file, case);
        for (stage, offset) in stages(&case.file).into_iter().zip(last_levels(&case.file)) {
            let Next::End(Some(scaled)) = stage.next else {
                continue;
            };
            let first = offset - 3 * (stage.pairs.count - 1);
            if first < offset && level(&case.file, first).abs() == 255 {
                continue;
            }
            let zero = [Scaled::NegativeToZero, Scaled::PositiveToZero].contains(&scaled);
            let (_, changed) = run(&negated(&case.file, offset), case);
            assert_eq!(changed == picture, zero, "{stage:?}");
        }
    }
}

/// The comparison must find a decoder with this `reconstruct`.
fn require_wrong_found(name: &str, reconstruct: Reconstruct) {
    let wrong = Entries {
        reconstruct,
        ..ENTRIES
    };
    require_found(name, blocks(&wrong, SEED));
}

/// Makes the picture of a file, but negates the last level of each whole block in a stage that is `wrong`.
fn reconstruct_wrong(
    file: &[u8],
    references: [&[u8]; 2],
    output: &mut [u8],
    wrong: fn(&Stage) -> bool,
) -> Answer {
    let [forward, backward] = references;
    let mut changed = file.to_vec();
    let stages = stages(file);
    if stages.len() == 6 {
        let numbered = stages.iter().zip(last_levels(file));
        for (_, offset) in numbered.filter(|(stage, _)| wrong(stage)) {
            changed = negated(&changed, offset);
        }
    }
    (ENTRIES.reconstruct)(&changed, forward, backward, output)
}

/// Decoders whose blocks are wrong in few stages.
#[test]
fn wrong_blocks_are_found() {
    let last_of_64: Reconstruct = |file, forward, backward, output| {
        let wrong = |stage: &Stage| stage.pairs.count == 64;
        reconstruct_wrong(file, [forward, backward], output, wrong)
    };
    require_wrong_found("a wrong 64th pair", last_of_64);
    let last_of_63_intra: Reconstruct = |file, forward, backward, output| {
        let wrong = |stage: &Stage| stage.pairs.intra && stage.pairs.count == 63;
        reconstruct_wrong(file, [forward, backward], output, wrong)
    };
    require_wrong_found("a wrong 63rd pair of an intra block", last_of_63_intra);
    let second_after_a_run: Reconstruct = |file, forward, backward, output| {
        let wrong = |stage: &Stage| stage.pairs.run == 29 && stage.pairs.count == 2;
        reconstruct_wrong(file, [forward, backward], output, wrong)
    };
    require_wrong_found("a wrong second pair of run 29", second_after_a_run);
    let limited: Reconstruct = |file, forward, backward, output| {
        let wrong = |stage: &Stage| stage.next == Next::End(Some(Scaled::Lowest));
        reconstruct_wrong(file, [forward, backward], output, wrong)
    };
    require_wrong_found("a wrong sign of a limited level", limited);
}

/// The answer to a picture, with another number if a pair has a fault.
fn answer_by(
    file: &[u8],
    references: [&[u8]; 2],
    output: &mut [u8],
    number: fn(Fault) -> Option<u32>,
) -> Answer {
    let [forward, backward] = references;
    let answer = (ENTRIES.reconstruct)(file, forward, backward, output);
    let Some(Next::Refused(fault)) = stages(file).last().map(|stage| stage.next) else {
        return answer;
    };
    let number = number(fault).unwrap_or(answer.number);
    Answer { number, ..answer }
}

/// Decoders that answer a refused pair wrongly, or write before they refuse it.
#[test]
fn wrong_refusals_are_found() {
    let takes_zero: Reconstruct = |file, forward, backward, output| {
        let number = |fault| (fault == Fault::ZeroLevel).then_some(0);
        answer_by(file, [forward, backward], output, number)
    };
    require_wrong_found("a level of 0 that is taken", takes_zero);
    let position_as_length: Reconstruct = |file, forward, backward, output| {
        let number = |fault| (fault == Fault::Position).then_some(6);
        answer_by(file, [forward, backward], output, number)
    };
    require_wrong_found("6 for a position past 63", position_as_length);
    let cut_as_level: Reconstruct = |file, forward, backward, output| {
        let number = |fault| (fault == Fault::Cut(2)).then_some(16);
        answer_by(file, [forward, backward], output, number)
    };
    require_wrong_found("16 for a level that is cut", cut_as_level);
    let writes_first: Reconstruct = |file, forward, backward, output| {
        let answer = (ENTRIES.reconstruct)(file, forward, backward, output);
        if answer.number == 16 {
            output[16] ^= 1;
        }
        answer
    };
    require_wrong_found("a block written before the refusal", writes_first);
}
