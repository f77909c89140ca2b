//! Requires that a comparison reports each kind that never occurred.

use std::fmt::Debug;

use format3_tests::compare_cases::KindCounts;

/// If one of these kinds is taken out of the counts, `require_every` must say that no `what` has it.
pub fn require_missing_reported<'a, Kind: Clone + Debug + Ord + 'a>(
    what: &str,
    kinds: impl IntoIterator<Item = &'a Kind>,
    made: &KindCounts<Kind>,
    require_every: fn(&KindCounts<Kind>) -> Result<(), String>,
) {
    for missing in kinds {
        let mut counts = made.clone();
        counts.remove(missing);
        let told = format!("no {what} has {missing:?}");
        assert_eq!(require_every(&counts), Err(told));
    }
}
