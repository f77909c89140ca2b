//! Compares a list of all legal vector inputs for f_code 1 and 2 with the other decoder's, and the vector entry with such a list.

use std::collections::BTreeMap;

use crate::compare::{nearest_f, require_same};
use crate::decoder::refusals::Refusal;
use crate::decoder::vector_list::vector_list;
use crate::decoder::Entries;

/// The number of lines, if the list is the other decoder's.
pub fn same_list(tested: &str) -> Result<usize, String> {
    let ours = vector_list();
    let lines = ours.split_inclusive('\n').zip(tested.split_inclusive('\n'));
    for (number, (ours, theirs)) in (1..).zip(lines) {
        require_same(|| format!("line {number}"), ours, theirs)?;
    }
    let bytes = |list: &str| format!("{} bytes", list.len());
    require_same(|| "the list".into(), bytes(&ours), bytes(tested))?;
    Ok(ours.lines().count())
}

/// The numbers of a line: f_code, past, code, residual and vector.
pub fn numbers_of(line: &str) -> Result<[i32; 5], String> {
    let numbers: Option<Vec<i32>> = line.split(' ').map(|number| number.parse().ok()).collect();
    let numbers = numbers.and_then(|numbers| numbers.try_into().ok());
    numbers.ok_or_else(|| format!("no line of five numbers: {line}"))
}

/// The number of lines, if the inputs that the vector entry accepts with f_code 1 and 2 are exactly those of the list, and each
/// gives the vector of its line.
pub fn listed_vectors(tested: &Entries, list: &str) -> Result<usize, String> {
    let mut listed = BTreeMap::new();
    for line in list.lines() {
        let [f_code, past, code, residual, vector] = numbers_of(line)?;
        let before = listed.insert([f_code, past, code, residual], vector);
        if before.is_some() {
            return Err(format!("a second line for the input of {line}"));
        }
    }
    let count = listed.len();
    for input in inputs() {
        let [f_code, past, code, residual] = input;
        let refused = (Refusal::NumberOutOfRange.number(), 0);
        let ours = listed.remove(&input).map_or(refused, |vector| (0, vector));
        let theirs = (tested.vector)(f_code, past, code, residual);
        require_same(|| format!("vector of {input:?}"), ours, theirs)?;
    }
    match listed.first_key_value() {
        Some((input, _)) => Err(format!("a line for {input:?}, far out of range")),
        None => Ok(count),
    }
}

/// f_code, past, code and residual, within their ranges and just past them.
fn inputs() -> Vec<[i32; 4]> {
    let mut inputs = Vec::new();
    for f_code in 1..=2 {
        let f = nearest_f(f_code);
        for past in -16 * f - 1..=16 * f {
            for code in -17..=17 {
                inputs.extend((-1..=f).map(|residual| [f_code, past, code, residual]));
            }
        }
    }
    inputs
}
