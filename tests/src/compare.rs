//! Compares an implementation's entries, and a program `panel`, with the other decoder. An error names the first case that
//! differs, by the seed and number that reproduce it.

use std::collections::BTreeMap;
use std::fmt::Debug;

use crate::decoder::panel::{play, text, PANEL_LIMITS};
use crate::decoder::refusals::Refusal;
use crate::decoder::vectors::f_of;
use crate::decoder::{reconstruct, Answer, Entries, Reconstruct, ENTRIES};
use crate::generator::{case, reel, small_cases, Case};
use crate::program::Program;
use crate::random::Random;

/// How often each answer occurred.
pub type Counts = BTreeMap<u32, usize>;

/// What the two readers answer to a picture.
#[derive(Clone, Copy, Debug)]
pub struct Answers {
    /// Of the reader that takes 396 macroblocks.
    pub large: Answer,
    /// Of the reader that takes 99.
    pub small: Answer,
}

/// How often the two readers gave each answer.
#[derive(Debug, Default)]
pub struct ReaderCounts {
    pub large: Counts,
    pub small: Counts,
}

impl ReaderCounts {
    pub(crate) fn add(&mut self, answers: Answers) {
        *self.large.entry(answers.large.number).or_default() += 1;
        *self.small.entry(answers.small.number).or_default() += 1;
    }
}

/// The answers that a picture can get from the reader that takes 396 macroblocks: 0 to 21, and 23.
pub fn picture_answers() -> impl Iterator<Item = u32> {
    let backward_vector = Refusal::BackwardVectorOutside.number();
    (0..=Refusal::BackwardLength.number()).chain([backward_vector])
}

/// The answers that a picture can get from the small reader: these, and 27.
pub fn small_picture_answers() -> impl Iterator<Item = u32> {
    picture_answers().chain([Refusal::MacroblockLimit.number()])
}

/// The answers that a header can get: 0 to 8.
pub fn header_answers() -> impl Iterator<Item = u32> {
    0..=Refusal::Header.number()
}

/// Fails if one of the answers never occurred: the cases then test too little.
pub fn require_every_answer(
    counts: &Counts,
    answers: impl IntoIterator<Item = u32>,
) -> Result<(), String> {
    let mut answers = answers.into_iter();
    match answers.find(|answer| !counts.contains_key(answer)) {
        Some(answer) => Err(format!("no case was answered by {answer}")),
        None => Ok(()),
    }
}

pub(crate) fn require_same<T: PartialEq + Debug>(
    what: impl FnOnce() -> String,
    ours: T,
    theirs: T,
) -> Result<(), String> {
    if ours == theirs {
        return Ok(());
    }
    let what = what();
    Err(format!(
        "{what}: {ours:?} by the other decoder, {theirs:?} by the one tested"
    ))
}

/// Compares pictures by seed and number: each reader's answer and every byte of its output, also for refused pictures, the header,
/// and some records.
pub fn pictures(tested: &Entries, seed: u64, count: u64) -> Result<ReaderCounts, String> {
    let mut counts = ReaderCounts::default();
    for number in 0..count {
        let case = case(seed, number);
        let what = || format!("picture {number} of seed {seed}");
        counts.add(same_picture(tested, &case, what)?);
        let random = &mut Random::new(&[seed, number, 1]);
        same_records_shown(tested, &case.file, random)?;
    }
    Ok(counts)
}

/// Compares small pictures with each field in turn at, and just past, the ends of its range.
pub fn changed_fields(tested: &Entries, seed: u64) -> Result<usize, String> {
    let mut compared = 0;
    for (picture, (file, case)) in small_cases(seed).into_iter().enumerate() {
        for (number, changed) in file.each_field_changed().enumerate() {
            let case = Case {
                file: changed,
                ..case.clone()
            };
            let what = || format!("change {number} of small picture {picture} of seed {seed}");
            same_picture(tested, &case, what)?;
            compared += 1;
        }
    }
    Ok(compared)
}

/// The start of a picture of one macroblock: a version and a header of each type.
const STARTS: [[u8; 11]; 3] = [
    [3, 0, 8, 1, 1, 1, 1, 0, 0, 0, 0],
    [3, 0, 8, 1, 1, 1, 2, 0, 1, 0, 0],
    [3, 0, 8, 1, 1, 1, 3, 0, 1, 0, 1],
];

/// Compares the headers of files that are a version and a header, and what the readers answer to them if nothing is lent: each type
/// cut after each byte; with each byte set to every value, alone and with a small number in the byte after it; and every width and
/// height.
pub fn headers(tested: &Entries) -> Result<Counts, String> {
    let mut files: Vec<Vec<u8>> = Vec::new();
    for start in STARTS {
        files.extend((0..start.len()).map(|length| start[..length].to_vec()));
        for (byte, value) in (0..start.len()).flat_map(|byte| (0..=255).map(move |v| (byte, v))) {
            let mut file = start.to_vec();
            file[byte] = value;
            files.push(file.clone());
            for next in 0..=5 {
                file[(byte + 1) % start.len()] = next;
                files.push(file.clone());
            }
        }
    }
    let sizes = (0..=255).flat_map(|width| (0..=255).map(move |height| (width, height)));
    files.extend(sizes.map(|(width, height)| vec![3, 0, 8, 1, width, height, 1, 0, 0, 0, 0]));
    let mut counts = Counts::new();
    for case in files.into_iter().map(Case::with_nothing_lent) {
        let what = || format!("header of {:02x?}", case.file);
        let answer = same_header(tested, &case.file, what)?;
        *counts.entry(answer).or_default() += 1;
        same_answers(tested, &case, what)?;
    }
    Ok(counts)
}

/// The answer's number, if both read the same header.
fn same_header(
    tested: &Entries,
    file: &[u8],
    what: impl FnOnce() -> String,
) -> Result<u32, String> {
    let [ours, theirs] = [&ENTRIES, tested].map(|entries| (entries.read_header)(file));
    require_same(what, ours, theirs)?;
    Ok(ours.0)
}

/// The answers of the two readers, if both implementations give the same answers and bytes, and read the same header.
pub(crate) fn same_picture(
    tested: &Entries,
    case: &Case,
    what: impl Fn() -> String,
) -> Result<Answers, String> {
    same_header(tested, &case.file, || format!("header of {}", what()))?;
    same_answers(tested, case, what)
}

/// The answers of the two readers, if both implementations give the same answers and bytes.
fn same_answers(
    tested: &Entries,
    case: &Case,
    what: impl Fn() -> String,
) -> Result<Answers, String> {
    let large = same_answer(tested, |entries| entries.reconstruct, case, &what)?;
    let by_small = || format!("{}, by the small reader", what());
    let small = same_answer(tested, |entries| entries.reconstruct_small, case, by_small)?;
    Ok(Answers { large, small })
}

/// The answer of a reader, if that of both implementations gives the same answer and bytes.
fn same_answer(
    tested: &Entries,
    reader: fn(&Entries) -> Reconstruct,
    case: &Case,
    what: impl Fn() -> String,
) -> Result<Answer, String> {
    let run = |entries: &Entries| {
        let mut output = case.output.clone();
        let answer = reader(entries)(&case.file, &case.forward, &case.backward, &mut output);
        (answer, output)
    };
    let (ours, theirs) = (run(&ENTRIES), run(tested));
    require_same(&what, ours.0, theirs.0)?;
    require_same_bytes(&what, &ours.1, &theirs.1)?;
    Ok(ours.0)
}

/// Checks that two buffers of the same length have the same bytes, and reports the first that differs.
pub(crate) fn require_same_bytes(
    what: impl Fn() -> String,
    ours: &[u8],
    theirs: &[u8],
) -> Result<(), String> {
    match (0..ours.len()).find(|byte| ours[*byte] != theirs[*byte]) {
        Some(byte) => {
            let what = || format!("{}, byte {byte}", what());
            require_same(what, ours[byte], theirs[byte])
        }
        None => Ok(()),
    }
}

/// Compares records shown from a few offsets of the file, and from past its end.
fn same_records_shown(tested: &Entries, file: &[u8], random: &mut Random) -> Result<(), String> {
    let [one, another] = [(); 2].map(|()| random.below(file.len() + 4));
    for offset in [0, 1, one, another, file.len(), usize::MAX] {
        let [ours, theirs] = [&ENTRIES, tested].map(|entries| (entries.show_record)(file, offset));
        require_same(
            || format!("record at {offset} of {file:02x?}"),
            ours,
            theirs,
        )?;
    }
    Ok(())
}

/// Numbers far outside every range.
pub(crate) const FAR: [i32; 4] = [i32::MIN, -40_000, 40_000, i32::MAX];

/// The numbers from `low` to `high`, and some far outside every range.
pub(crate) fn and_far(low: i32, high: i32) -> Vec<i32> {
    (low..=high).chain(FAR).collect()
}

/// Compares every level, scale and weight within its range and just past it.
pub fn coefficients(tested: &Entries) -> Result<usize, String> {
    let weights = and_far(-1, 257);
    let mut compared = 0;
    for level in and_far(-257, 257) {
        for scale in and_far(-1, 33) {
            for &weight in &weights {
                let what = |rule| format!("{rule}, level {level}, scale {scale}, weight {weight}");
                let intra = |entries: &Entries| (entries.intra_coefficient)(level, scale, weight);
                require_same(|| what("intra"), intra(&ENTRIES), intra(tested))?;
                let non_intra =
                    |entries: &Entries| (entries.non_intra_coefficient)(level, scale, weight);
                require_same(|| what("non-intra"), non_intra(&ENTRIES), non_intra(tested))?;
                compared += 2;
            }
        }
    }
    Ok(compared)
}

/// f of an f_code, or of the nearest legal one.
pub fn nearest_f(f_code: i32) -> i32 {
    f_of(i64::from(f_code).clamp(1, 7)) as i32
}

/// Compares every f_code, past, code and residual within its range and just past it.
pub fn vectors(tested: &Entries) -> Result<usize, String> {
    let mut compared = 0;
    for f_code in and_far(-1, 9) {
        let f = nearest_f(f_code);
        let residuals = and_far(-1, f);
        for past in and_far(-16 * f - 1, 16 * f) {
            for code in and_far(-17, 17) {
                for &residual in &residuals {
                    let vector = |entries: &Entries| (entries.vector)(f_code, past, code, residual);
                    let what = || {
                        format!("vector of f_code {f_code}, past {past}, code {code}, {residual}")
                    };
                    require_same(what, vector(&ENTRIES), vector(tested))?;
                    compared += 1;
                }
            }
        }
    }
    Ok(compared)
}

/// Compares blocks with one coefficient at each raster index, then random ones: few or many coefficients, small, extreme or out of range.
pub fn transforms(tested: &Entries, seed: u64, count: usize) -> Result<usize, String> {
    let random = &mut Random::new(&[seed]);
    let ends = [-32768, -2049, -2048, -4, -1, 1, 4, 8, 2047, 2048, 32767];
    let alone = (0..64).flat_map(|at| {
        ends.map(|end| std::array::from_fn(|place| if place == at { end } else { 0 }))
    });
    let mut blocks: Vec<[i16; 64]> = alone.collect();
    blocks.extend((0..count).map(|_| random_block(random)));
    for block in &blocks {
        same_transform(tested, block)?;
    }
    Ok(blocks.len())
}

/// The answer's number, if both transform a block alike: the number, the residues and the rows worked.
pub(crate) fn same_transform(tested: &Entries, block: &[i16; 64]) -> Result<u32, String> {
    let [ours, theirs] = [&ENTRIES, tested].map(|entries| (entries.transform)(block));
    require_same(|| format!("transform of {block:?}"), ours, theirs)?;
    Ok(ours.0)
}

fn random_block(random: &mut Random) -> [i16; 64] {
    let most = random.pick(&[3, 100, 2047]);
    let extreme = random.once_in(4);
    // Roughly how many of the 64 are not 0.
    let count = random.pick(&[1, 2, 60]);
    let mut block = std::array::from_fn(|_| match (random.below(64) < count, extreme) {
        (false, _) => 0,
        (true, true) => random.pick(&[-2048, 2047]),
        (true, false) => random.within(-most - 1, most) as i16,
    });
    if random.once_in(20) {
        block[random.below(64)] = random.pick(&[-2049, 2048]);
    }
    block
}

/// Compares what the program prints for reels by seed and number. Every other reel arrives in pieces.
pub fn panel(program: Program, seed: u64, count: u64) -> Result<usize, String> {
    let mut lines = 0;
    for number in 0..count {
        let reel = reel(seed, number);
        let expected = text(&play(&reel.bytes, PANEL_LIMITS, reconstruct));
        let what = || format!("reel {number} of seed {seed}");
        let printed = match number % 2 {
            0 => program.run(&reel.bytes),
            _ => program.run_in_pieces(&reel.bytes, &mut Random::new(&[seed, number, 2])),
        };
        let printed = printed.map_err(|error| format!("{}: {error}", what()))?;
        lines += expected.lines().count();
        require_same(what, expected, printed)?;
    }
    Ok(lines)
}
