//! Tests the definitions against the world: a second decoder of Format 3, cases for both decoders, fixtures from another codec,
//! and the IEEE P1180 measurement. It shares no code with the crates under test.

use std::path::Path;
use std::process::ExitCode;

use program::Program;

pub mod answers;
pub mod code_table;
pub mod compare;
pub mod compare_blocks;
pub mod compare_cases;
pub mod compare_encoding;
pub mod compare_limits;
pub mod compare_misfits;
pub mod compare_room_slices;
pub mod compare_rows;
pub mod compare_slices;
pub mod compare_vector_list;
pub mod decoder;
pub mod fixtures;
pub mod generator;
#[cfg(feature = "library")]
pub mod library;
pub mod p1180;
pub mod program;
pub mod random;
pub mod records;
pub mod requests;
pub mod sha256;
pub mod stream;

/// Ends a program: prints the error of a failure.
pub fn exit_code(program: &str, result: Result<(), String>) -> ExitCode {
    match result {
        Ok(()) => ExitCode::SUCCESS,
        Err(failure) => {
            eprintln!("{program}: {failure}");
            ExitCode::FAILURE
        }
    }
}

/// The program named by a leading `--panel`, if any, and the other arguments.
pub fn panel_argument(arguments: &[String]) -> Result<(Option<Program<'_>>, &[String]), String> {
    match arguments {
        [option, path, rest @ ..] if option == "--panel" => {
            Ok((Some(Program(Path::new(path))), rest))
        }
        [option, ..] if option == "--panel" => Err("--panel needs a program".into()),
        _ => Ok((None, arguments)),
    }
}
