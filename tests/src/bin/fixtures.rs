//! `fixtures [--panel PROGRAM]`: checks the exported library, and the program `panel` if given, against the fixtures.
//!
//! `fixtures --requests FOLDER [--programs FOLDER]`: checks the library, and the programs of the second folder (crates if it is
//! not given, where `rt` builds NAME/out/NAME), against the cases for requests in the first.

use std::path::Path;
use std::process::ExitCode;

use format3_tests::fixtures::{panel_fixtures, slice_fixtures, stream_fixtures};
use format3_tests::library::ENTRIES;
use format3_tests::program::Program;
use format3_tests::random::Random;
use format3_tests::requests::{self, found_in, Report, Tested, LANDED};
use format3_tests::{exit_code, panel_argument};

const USAGE: &str =
    "usage: fixtures [--panel PROGRAM] | fixtures --requests FOLDER [--programs FOLDER]";

fn main() -> ExitCode {
    let arguments: Vec<String> = std::env::args().skip(1).collect();
    if arguments.iter().any(|argument| argument == "--requests") {
        return report_requests(&arguments);
    }
    exit_code("fixtures", run(&arguments))
}

/// Prints nothing after the report, which ends with the total.
fn report_requests(arguments: &[String]) -> ExitCode {
    match run_requests(arguments) {
        Ok(report) => {
            print!("{report}");
            ExitCode::from(report.exit_status())
        }
        Err(failure) => exit_code("fixtures", Err(failure)),
    }
}

fn run_requests(arguments: &[String]) -> Result<Report, String> {
    let arguments: Vec<&str> = arguments.iter().map(String::as_str).collect();
    let built = Path::new(env!("CARGO_MANIFEST_DIR")).join("../crates");
    let (folder, programs) = match arguments[..] {
        ["--requests", folder] => (folder, built.as_path()),
        ["--requests", folder, "--programs", programs]
        | ["--programs", programs, "--requests", folder] => (folder, existing(programs)?),
        _ => return Err(USAGE.into()),
    };
    let tested = Tested {
        entries: &ENTRIES,
        programs,
    };
    let found = found_in(Path::new(folder))?;
    Ok(requests::run(&found, LANDED, tested))
}

/// A folder that is there.
fn existing(folder: &str) -> Result<&Path, String> {
    let path = Path::new(folder);
    if !path.is_dir() {
        return Err(format!("{folder}: no folder"));
    }
    Ok(path)
}

fn run(arguments: &[String]) -> Result<(), String> {
    let (program, []) = panel_argument(arguments)? else {
        return Err(USAGE.into());
    };
    for fixture in stream_fixtures() {
        let headers = fixture.check_headers(ENTRIES.read_header)?;
        fixture.check(ENTRIES.reconstruct)?;
        fixture.check_small(ENTRIES.reconstruct_small)?;
        let slices = fixture.check_slices(ENTRIES.read_slice)?;
        fixture.check_stream(&ENTRIES)?;
        println!(
            "{}: as expected by both readers of the library, its {headers} headers and its stream of {slices} slices too",
            fixture.name
        );
    }
    for fixture in panel_fixtures() {
        let headers = fixture.check_headers(ENTRIES.read_header)?;
        println!("{}: {headers} headers as expected", fixture.name);
    }
    let slices = slice_fixtures();
    for slice in &slices {
        slice.check(ENTRIES.read_slice)?;
    }
    println!("{} slices: as expected by the library", slices.len());
    program.map_or(Ok(()), check_panel)
}

/// Runs each reel in one piece, in random pieces, and from its file.
fn check_panel(program: Program) -> Result<(), String> {
    let random = &mut Random::new(&[1]);
    for fixture in panel_fixtures() {
        fixture.check(&program.run(&fixture.reel)?)?;
        fixture.check(&program.run_in_pieces(&fixture.reel, random)?)?;
        fixture.check(&program.run_on_file(&fixture.path)?)?;
        println!("{}: as expected by panel", fixture.name);
    }
    Ok(())
}
