//! `reel_to_yuv REEL`: decodes a reel and writes its pictures in coded order to standard output: the planes Y, Cb and Cr of
//! each, as raw video players read them (yuv420p). Stops at the first picture that is refused.

use std::error::Error;
use std::io::Write;
use std::process::ExitCode;

use format3::check_version;
use format3::reel::{files, Decoder};

fn main() -> ExitCode {
    match run() {
        Ok(()) => ExitCode::SUCCESS,
        Err(error) => {
            eprintln!("reel_to_yuv: {error}");
            ExitCode::FAILURE
        }
    }
}

fn run() -> Result<(), Box<dyn Error>> {
    check_version()?;
    let path = std::env::args().nth(1).ok_or("usage: reel_to_yuv REEL")?;
    let reel = std::fs::read(path)?;
    let mut output = std::io::stdout().lock();
    let mut decoder = Decoder::default();
    for (number, file) in (1..).zip(files(&reel)) {
        let picture = decoder
            .decode(file?)
            .map_err(|refused| format!("picture {number}: {refused}"))?;
        output.write_all(picture.bytes)?;
    }
    Ok(output.flush()?)
}
