//! `ppm REEL FOLDER`: compares the numbered pictures that the C example made of REEL in FOLDER with the other decoder's. Colours are
//! computed here in floating point by ITU-R BT.601 and may differ by 1. All pictures of REEL must have one size.

use std::fs;
use std::path::Path;
use std::process::ExitCode;

use format3_tests::decoder::panel::{header_of, play, NO_LIMITS};
use format3_tests::decoder::reconstruct;
use format3_tests::decoder::size::Size;
use format3_tests::exit_code;

fn main() -> ExitCode {
    let arguments: Vec<String> = std::env::args().skip(1).collect();
    let result = match &arguments[..] {
        [reel, folder] => check(Path::new(reel), Path::new(folder)),
        _ => Err("usage: ppm REEL FOLDER".into()),
    };
    exit_code("ppm", result)
}

fn check(reel: &Path, folder: &Path) -> Result<(), String> {
    let reel = read(reel)?;
    let header = reel.get(4..).and_then(header_of).ok_or("no picture")?;
    let pictures = play(&reel, NO_LIMITS, reconstruct);
    for (number, line) in (1..).zip(&pictures) {
        let path = folder.join(format!("{number:04}.ppm"));
        let picture = line.picture.as_ref().ok_or("a picture is refused")?;
        same_colours(&read(&path)?, &ppm(header.size, picture))
            .map_err(|difference| format!("{}: {difference}", path.display()))?;
    }
    let written = fs::read_dir(folder).map_err(|error| error.to_string())?;
    if written.count() != pictures.len() {
        return Err(format!("not {} pictures", pictures.len()));
    }
    println!("{} pictures in the same colours", pictures.len());
    Ok(())
}

fn read(path: &Path) -> Result<Vec<u8>, String> {
    fs::read(path).map_err(|error| format!("{}: {error}", path.display()))
}

/// The lengths are equal, and every byte is within 1.
fn same_colours(written: &[u8], expected: &[u8]) -> Result<(), String> {
    if written.len() != expected.len() {
        return Err(format!("{} bytes, not {}", written.len(), expected.len()));
    }
    match (0..written.len()).find(|&byte| written[byte].abs_diff(expected[byte]) > 1) {
        Some(byte) => Err(format!(
            "byte {byte} is {}, not {}",
            written[byte], expected[byte]
        )),
        None => Ok(()),
    }
}

fn ppm(size: Size, picture: &[u8]) -> Vec<u8> {
    let [luma, cb, cr] = size.planes();
    let mut ppm = format!("P6\n{} {}\n255\n", luma.width, luma.height).into_bytes();
    for y in 0..luma.height {
        for x in 0..luma.width {
            ppm.extend(colours(
                picture[luma.offset(x, y)],
                picture[cb.offset(x / 2, y / 2)],
                picture[cr.offset(x / 2, y / 2)],
            ));
        }
    }
    ppm
}

/// Red, green and blue: luma is their weighted sum, and chroma are the scaled differences of blue and red from it.
fn colours(luma: u8, cb: u8, cr: u8) -> [u8; 3] {
    const RED: f64 = 0.299;
    const BLUE: f64 = 0.114;
    let luma = (f64::from(luma) - 16.0) / 219.0;
    let [cb, cr] = [cb, cr].map(|chroma| (f64::from(chroma) - 128.0) / 224.0);
    let red = luma + 2.0 * (1.0 - RED) * cr;
    let blue = luma + 2.0 * (1.0 - BLUE) * cb;
    let green = (luma - RED * red - BLUE * blue) / (1.0 - RED - BLUE);
    [red, green, blue].map(|colour| (255.0 * colour).round().clamp(0.0, 255.0) as u8)
}
