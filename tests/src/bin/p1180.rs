//! `p1180`: makes the IEEE P1180 measurement of the exported transform.

use std::process::ExitCode;

use format3_tests::exit_code;
use format3_tests::library::ENTRIES;
use format3_tests::p1180::{measure, zero_gives_zero, Figures};

fn main() -> ExitCode {
    let zero = zero_gives_zero(ENTRIES.transform);
    println!(
        "zero in, zero out: {}",
        if zero { "met" } else { "NOT MET" }
    );
    let figures = measure(ENTRIES.transform);
    for figures in &figures {
        println!("{}", figures.line());
    }
    let met = zero && figures.iter().all(Figures::met);
    exit_code(
        "p1180",
        met.then_some(()).ok_or("a limit is not met".into()),
    )
}
