//! The cases of the readers of pictures.

use std::fmt;

use super::notation::{bytes, fields, number, picture, sum, sum_of, Unread};
use super::{CaseResult, Difference, Tested};
use crate::decoder::Reconstruct;

/// What a case's line says of the answer, and the sum of the output after the call.
#[derive(PartialEq, Eq)]
struct Outcome {
    number: u32,
    place: usize,
    made: usize,
    /// None if the line says nothing of the rows.
    rows: Option<usize>,
    sum: u64,
}

impl Outcome {
    /// The outcome whose fields a line has in this order.
    fn read(written: [&str; 4], rows: Option<&str>) -> Result<Outcome, Unread> {
        let [refusal, place, made, output_sum] = written;
        Ok(Outcome {
            number: number(refusal)?,
            place: number(place)?,
            made: number(made)?,
            rows: rows.map(number).transpose()?,
            sum: sum(output_sum)?,
        })
    }

    /// The outcome whose fields, with rows, a line has in this order.
    fn read_with_rows(written: [&str; 5]) -> Result<Outcome, Unread> {
        let [refusal, place, made, rows, sum] = written;
        Outcome::read([refusal, place, made, sum], Some(rows))
    }

    /// What a reader gives for these inputs; without rows if these are not expected.
    fn given(reader: Reconstruct, inputs: &Inputs, expected: &Outcome) -> Outcome {
        let mut output = inputs.output.clone();
        let answer = reader(&inputs.file, &inputs.forward, &inputs.backward, &mut output);
        Outcome {
            number: answer.number,
            place: answer.place,
            made: answer.made,
            rows: expected.rows.map(|_| answer.rows),
            sum: sum_of(&output),
        }
    }
}

impl fmt::Display for Outcome {
    fn fmt(&self, formatter: &mut fmt::Formatter) -> fmt::Result {
        let Outcome {
            number,
            place,
            made,
            rows,
            sum,
        } = self;
        write!(formatter, "number {number}, place {place}, made {made}, ")?;
        if let Some(rows) = rows {
            write!(formatter, "rows {rows}, ")?;
        }
        write!(formatter, "sum {sum:016x}")
    }
}

/// The outcomes of both readers.
#[derive(PartialEq, Eq)]
struct Outcomes {
    large: Outcome,
    small: Outcome,
}

impl fmt::Display for Outcomes {
    fn fmt(&self, formatter: &mut fmt::Formatter) -> fmt::Result {
        let Outcomes { large, small } = self;
        write!(formatter, "{large}, by the small reader {small}")
    }
}

/// A file, and what is lent with it.
struct Inputs {
    file: Vec<u8>,
    forward: Vec<u8>,
    backward: Vec<u8>,
    output: Vec<u8>,
}

impl Inputs {
    /// The inputs whose fields a line has in this order.
    fn read(written: [&str; 4]) -> Result<Inputs, Unread> {
        let [file, forward, backward, output] = written;
        Ok(Inputs {
            file: bytes(file)?,
            forward: picture(forward)?,
            backward: picture(backward)?,
            output: picture(output)?,
        })
    }
}

/// Runs the case of a line: "name, file, forward, backward, output, number, place, made, sum".
pub fn check(line: &str, tested: Tested) -> CaseResult {
    let [_, file, forward, backward, output, refusal, place, made, sum] = fields(line)?;
    let expected = Outcome::read([refusal, place, made, sum], None)?;
    compare([file, forward, backward, output], expected, tested)
}

/// Runs the case of a line with rows: as above, "and `rows` before `sum`".
pub fn check_with_rows(line: &str, tested: Tested) -> CaseResult {
    let [_, file, forward, backward, output, refusal, place, made, rows, sum] = fields(line)?;
    let expected = Outcome::read_with_rows([refusal, place, made, rows, sum])?;
    compare([file, forward, backward, output], expected, tested)
}

/// Compares what `reconstruct` gives with what is expected.
fn compare(inputs: [&str; 4], expected: Outcome, tested: Tested) -> CaseResult {
    let inputs = Inputs::read(inputs)?;
    let given = Outcome::given(tested.entries.reconstruct, &inputs, &expected);
    Ok(Difference::between(expected, given))
}

/// Runs the case of a line for both readers: "name, file, forward, backward, output, then number, place, made, rows, sum" of the
/// one that takes 396 macroblocks, "then the same five" of the one that takes 99. "The output is lent afresh to each."
pub fn check_both_readers(line: &str, tested: Tested) -> CaseResult {
    let [_, file, forward, backward, output, refusal, place, made, rows, sum, small @ ..] =
        fields::<15>(line)?;
    let expected = Outcomes {
        large: Outcome::read_with_rows([refusal, place, made, rows, sum])?,
        small: Outcome::read_with_rows(small)?,
    };
    let inputs = Inputs::read([file, forward, backward, output])?;
    let given = Outcomes {
        large: Outcome::given(tested.entries.reconstruct, &inputs, &expected.large),
        small: Outcome::given(tested.entries.reconstruct_small, &inputs, &expected.small),
    };
    Ok(Difference::between(expected, given))
}
