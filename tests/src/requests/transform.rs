//! The cases of `transform`.

use std::fmt;

use super::notation::{fields, number, numbers};
use super::{CaseResult, Difference, Tested};
use crate::decoder::Transformed;

/// What a case's line says of the answer.
#[derive(PartialEq, Eq)]
struct Outcome {
    number: u32,
    transformed: Transformed,
}

impl fmt::Display for Outcome {
    fn fmt(&self, formatter: &mut fmt::Formatter) -> fmt::Result {
        let number = self.number;
        let Transformed { residues, rows } = self.transformed;
        let residues = residues.map(|residue| residue.to_string()).join(",");
        write!(
            formatter,
            "number {number}, rows {rows}, residues {residues}"
        )
    }
}

/// Runs the case of a line: "name, 64 coefficients, number, rows, 64 residues".
pub fn check(line: &str, tested: Tested) -> CaseResult {
    let [_, coefficients, refusal, rows, residues] = fields(line)?;
    let expected = Outcome {
        number: number(refusal)?,
        transformed: Transformed {
            residues: numbers(residues)?,
            rows: number(rows)?,
        },
    };
    let (number, transformed) = (tested.entries.transform)(&numbers(coefficients)?);
    let given = Outcome {
        number,
        transformed,
    };
    Ok(Difference::between(expected, given))
}
