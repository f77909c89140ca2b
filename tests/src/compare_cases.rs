//! Compares pictures that are made so that each of a set of kinds occurs, such as each arrangement of vectors.

use std::collections::BTreeMap;
use std::fmt::Debug;

use crate::compare::{same_picture, Answers, ReaderCounts};
use crate::decoder::Entries;
use crate::generator::Case;

/// How often each kind occurred.
pub type KindCounts<Kind> = BTreeMap<Kind, usize>;

/// What was compared.
pub struct Compared<Kind> {
    pub answers: ReaderCounts,
    pub kinds: KindCounts<Kind>,
}

/// Compares each case, and counts the kinds that it has, given the other decoder's answers. A case is told by its number.
pub(crate) fn compare_cases<Kind: Ord>(
    tested: &Entries,
    cases: impl IntoIterator<Item = Case>,
    told: impl Fn(usize) -> String,
    kinds_of: fn(&Case, Answers) -> Vec<Kind>,
) -> Result<Compared<Kind>, String> {
    let mut compared = Compared {
        answers: ReaderCounts::default(),
        kinds: KindCounts::new(),
    };
    for (number, case) in cases.into_iter().enumerate() {
        let answers = same_picture(tested, &case, || told(number))?;
        compared.answers.add(answers);
        for kind in kinds_of(&case, answers) {
            *compared.kinds.entry(kind).or_default() += 1;
        }
    }
    Ok(compared)
}

/// Fails if one of these kinds never occurred; `what` has none.
pub(crate) fn require_every<Kind: Debug + Ord>(
    what: &str,
    all: Vec<Kind>,
    counts: &KindCounts<Kind>,
) -> Result<(), String> {
    match all.iter().find(|kind| !counts.contains_key(kind)) {
        Some(missing) => Err(format!("no {what} has {missing:?}")),
        None => Ok(()),
    }
}
