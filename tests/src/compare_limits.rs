//! Compares pictures with sizes around the limits of the readers.

use crate::compare::Answers;
use crate::compare_cases::{compare_cases, require_every, Compared, KindCounts};
use crate::decoder::Entries;
use crate::generator::{all_limit_kinds, limit_cases, Case, LimitKind, TYPES};

/// Compares pictures of every kind. Also fails if a kind never occurred, told from the header's bytes and the other decoder's
/// answers. Among the kinds are accepted pictures of 99 macroblocks, and pictures of 100 that the small reader alone refuses.
pub fn limits(tested: &Entries, seed: u64) -> Result<Compared<LimitKind>, String> {
    let told = |number| format!("picture {number} around the limits of seed {seed}");
    let compared = compare_cases(tested, limit_cases(seed), told, limit_kinds)?;
    require_every_limit_kind(&compared.kinds)?;
    Ok(compared)
}

/// Fails if a kind never occurred.
pub fn require_every_limit_kind(counts: &KindCounts<LimitKind>) -> Result<(), String> {
    require_every("picture", all_limit_kinds(), counts)
}

/// The kind of a case with these answers; none if its file ends before the header's type.
pub fn limit_kinds(case: &Case, answers: Answers) -> Vec<LimitKind> {
    let [_, _, _, _, width, height, number, ..] = case.file[..] else {
        return Vec::new();
    };
    let of_number = TYPES.into_iter().filter(|typed| typed.number() == number);
    let kind = of_number.map(|picture_type| LimitKind {
        picture_type,
        size: [width, height].map(usize::from),
        large: answers.large.number,
        small: answers.small.number,
    });
    kind.collect()
}
