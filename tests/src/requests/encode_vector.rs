//! The cases of `encode_vector`.

use std::fmt;

use super::notation::{fields, number};
use super::{CaseResult, Difference, Tested};
use crate::decoder::EncodedVector;

/// What a case's line says of the answer.
#[derive(PartialEq, Eq)]
struct Outcome {
    number: u32,
    encoded: EncodedVector,
}

impl fmt::Display for Outcome {
    fn fmt(&self, formatter: &mut fmt::Formatter) -> fmt::Result {
        let number = self.number;
        let EncodedVector { code, residual } = self.encoded;
        write!(
            formatter,
            "number {number}, code {code}, residual {residual}"
        )
    }
}

/// Runs the case of a line: "name, f_code, past, wanted, number, code, residual".
pub fn check(line: &str, tested: Tested) -> CaseResult {
    let [_, f_code, past, wanted, refusal, code, residual] = fields(line)?;
    let expected = Outcome {
        number: number(refusal)?,
        encoded: EncodedVector {
            code: number(code)?,
            residual: number(residual)?,
        },
    };
    // The library's f_code has no sign: one that wraps here wraps back there.
    let f_code = number::<u32>(f_code)? as i32;
    let (number, encoded) = (tested.entries.encode_vector)(f_code, number(past)?, number(wanted)?);
    let given = Outcome { number, encoded };
    Ok(Difference::between(expected, given))
}
