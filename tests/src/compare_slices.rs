//! Compares an implementation's reader of raw slices with the other decoder's: answers and every byte of the buffer.

use std::collections::BTreeSet;

use crate::compare::{require_same, require_same_bytes, Counts};
use crate::decoder::refusals::Refusal;
use crate::decoder::{Entries, Given, SliceAnswer, ENTRIES};
use crate::fixtures::{stream_fixtures, StreamFixture};
use crate::generator::codes::{all_words, counted};
use crate::generator::{
    damaged_bytes, edge_slices, long_slice_cases, slice_case, small_slice_cases, SliceCase,
};
use crate::random::Random;
use crate::stream;

/// The answers that a raw slice can get.
pub const SLICE_ANSWERS: [u32; 5] = [
    0,
    Refusal::Header as u32,
    Refusal::SliceCode as u32,
    Refusal::SliceCut as u32,
    Refusal::RecordsLength as u32,
];

/// Compares raw slices by seed and number: the answer and every byte of the buffer, also for refused slices. Also fails if a word
/// of Annex B occurs in no accepted slice.
pub fn slices(tested: &Entries, seed: u64, count: u64) -> Result<Counts, String> {
    let mut counts = Counts::new();
    let mut missing = all_words();
    for number in 0..count {
        let case = slice_case(seed, number);
        let what = || format!("slice {number} of seed {seed}");
        let answer = same_slice(tested, &case, what)?;
        *counts.entry(answer.number).or_default() += 1;
        if case.legal {
            let words: BTreeSet<_> = case.codes.iter().flat_map(counted).collect();
            missing.retain(|word| !words.contains(word));
        }
    }
    match missing.first() {
        Some(word) => Err(format!("{word:?} stood in no slice")),
        None => Ok(counts),
    }
}

/// Compares small slices with each bit flipped, cut at each byte, and with each given number and buffer length that may matter.
pub fn changed_slices(tested: &Entries, seed: u64) -> Result<usize, String> {
    let mut compared = 0;
    for (slice, case) in small_slice_cases(seed).into_iter().enumerate() {
        for (number, changed) in case.each_change().iter().enumerate() {
            let what = || format!("change {number} of small slice {slice} of seed {seed}");
            same_slice(tested, changed, what)?;
            compared += 1;
        }
    }
    Ok(compared)
}

/// Compares slices with long records, accepted and refused. Also fails if an accepted one takes no more than 65,536 bytes.
pub fn long_slices(tested: &Entries, seed: u64) -> Result<usize, String> {
    let cases = long_slice_cases(seed);
    for (number, case) in cases.iter().enumerate() {
        let what = || format!("long slice {number} of seed {seed}");
        same_slice(tested, case, what)?;
        let expected = (ENTRIES.read_slice)(&case.slice, case.given, &mut case.buffer.clone());
        if expected.number == 0 && expected.written <= 1 << 16 {
            return Err(format!("{} has {} bytes", what(), expected.written));
        }
    }
    Ok(cases.len())
}

/// Compares slices that end within a code, at every point of the syntax and after every bit.
pub fn ended_slices(tested: &Entries) -> Result<usize, String> {
    let cases = edge_slices();
    for case in &cases {
        same_slice(tested, case, || format!("slice {:02x?}", case.slice))?;
    }
    Ok(cases.len())
}

/// How many times each slice of the streams is damaged.
const DAMAGES: u64 = 20;

/// Compares the slices of the streams, each intact and damaged.
pub fn stream_slices(tested: &Entries, seed: u64) -> Result<usize, String> {
    let mut compared = 0;
    for fixture in stream_fixtures() {
        for (number, (slice, given)) in slices_of(&fixture)?.into_iter().enumerate() {
            let random = &mut Random::new(&[seed, number as u64, 5]);
            for case in stream_cases(random, slice, given) {
                let what = || format!("slice {number} of {} with seed {seed}", fixture.name);
                same_slice(tested, &case, what)?;
                compared += 1;
            }
        }
    }
    Ok(compared)
}

/// The slices of a stream, each with the numbers it is read with.
fn slices_of(fixture: &StreamFixture) -> Result<Vec<(&[u8], Given)>, String> {
    let pictures = stream::pictures(&fixture.stream)?;
    let slices = pictures.into_iter().flat_map(|picture| {
        let given = picture.given;
        picture.slices.into_iter().map(move |slice| (slice, given))
    });
    Ok(slices.collect())
}

/// Compares a slice intact, then damaged, in buffers that hold its records or nearly do.
fn stream_cases(random: &mut Random, slice: &[u8], given: Given) -> Vec<SliceCase> {
    let case = |damage| {
        let slice = match damage {
            0 => slice.to_vec(),
            _ => damaged_bytes(random, slice.to_vec()),
        };
        let length = random.pick(&[2, 8, 16]) * slice.len();
        SliceCase {
            slice,
            given,
            buffer: random.bytes(length),
            codes: Vec::new(),
            legal: damage == 0,
        }
    };
    (0..=DAMAGES).map(case).collect()
}

/// The answer, if both give the same answer and bytes.
pub(crate) fn same_slice(
    tested: &Entries,
    case: &SliceCase,
    what: impl Fn() -> String,
) -> Result<SliceAnswer, String> {
    let run = |entries: &Entries| {
        let mut buffer = case.buffer.clone();
        let answer = (entries.read_slice)(&case.slice, case.given, &mut buffer);
        (answer, buffer)
    };
    let (ours, theirs) = (run(&ENTRIES), run(tested));
    require_same(&what, ours.0, theirs.0)?;
    require_same_bytes(&what, &ours.1, &theirs.1)?;
    Ok(ours.0)
}
