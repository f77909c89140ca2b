//! `answers`: writes what is made from include/answers.tsv. The test `answers` fails until that is done.

use std::process::ExitCode;

use format3_tests::answers::{answers, read_file, write_file, LIST, MADE};
use format3_tests::exit_code;

fn main() -> ExitCode {
    exit_code("answers", run())
}

fn run() -> Result<(), String> {
    let answers = answers(&read_file(LIST)?)?;
    for made in MADE {
        let before = match made.ends {
            Some(_) => read_file(made.path)?,
            None => String::new(),
        };
        write_file(made.path, &made.put_into(&before, &answers)?)?;
        println!("{}: {} answers", made.path, answers.len());
    }
    Ok(())
}
