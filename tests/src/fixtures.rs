//! Fixtures made outside the project: reels, what `panel` prints for them, the streams they come from, another codec's pictures,
//! and raw slices with their answers.

use std::fs;
use std::path::{Path, PathBuf};

use crate::decoder::panel::{play, text, Line, NO_LIMITS};
use crate::decoder::refusals::Refusal;
use crate::decoder::size::MAX_MACROBLOCKS_SMALL;
use crate::decoder::{Entries, FileStart, Given, ReadHeader, ReadSlice, Reconstruct, SliceAnswer};
use crate::generator::HEADER_END;
use crate::records::{macroblock_records, MacroblockRecord};
use crate::sha256;
use crate::stream;

/// A reel within the limits of `panel`, and what it prints.
pub struct PanelFixture {
    pub name: String,
    /// The reel's file.
    pub path: PathBuf,
    pub reel: Vec<u8>,
    pub printed: String,
}

/// A reel of any length, and the stream it comes from.
pub struct StreamFixture {
    pub name: String,
    /// The MPEG-1 video elementary stream.
    pub stream: Vec<u8>,
    pub reel: Vec<u8>,
    /// What `panel` would print without its limits; each line ends with 16 hexadecimal digits of its picture's SHA-256.
    pub expected: String,
    /// The pictures in order, as another codec decodes them.
    pub other: Option<Vec<u8>>,
}

/// A raw slice, the numbers it is read with, and the expected result.
pub struct SliceFixture {
    pub name: String,
    pub slice: Vec<u8>,
    pub given: Given,
    pub buffer_length: usize,
    pub answer: SliceAnswer,
    /// None if the slice is refused.
    pub records: Vec<u8>,
}

pub fn panel_fixtures() -> Vec<PanelFixture> {
    let read = |reel: PathBuf| PanelFixture {
        name: name_of(&reel),
        printed: read_text(&reel.with_extension("out")),
        reel: read_bytes(&reel),
        path: reel,
    };
    reels("panel").into_iter().map(read).collect()
}

pub fn stream_fixtures() -> Vec<StreamFixture> {
    let read = |reel: PathBuf| StreamFixture {
        name: name_of(&reel),
        stream: read_bytes(&reel.with_extension("m1v")),
        expected: read_text(&reel.with_extension("expect")),
        other: fs::read(reel.with_extension("other.yuv")).ok(),
        reel: read_bytes(&reel),
    };
    reels("streams").into_iter().map(read).collect()
}

/// The lines of `slices.txt`; at least one.
pub fn slice_fixtures() -> Vec<SliceFixture> {
    let path = fixture("slices.txt");
    let lines = read_text(&path);
    let lines = lines.lines().filter(|line| !line.starts_with('#'));
    let fixtures: Vec<SliceFixture> = lines.map(slice_fixture).collect();
    assert!(!fixtures.is_empty(), "no slice in {}", path.display());
    fixtures
}

/// "name, width height type forward_f_code backward_f_code, buffer length (-1: large), slice hex (- empty), number, written, byte,
/// bit, records hex (- none)", separated by tabs.
fn slice_fixture(line: &str) -> SliceFixture {
    let columns: Vec<&str> = line.split('\t').collect();
    let [name, given, length, slice, number, written, byte, bit, records] = columns[..] else {
        panic!("not the columns of a slice: {line}");
    };
    let given: Vec<u32> = given.split(' ').map(number_of).collect();
    let [width, height, picture_type, forward, backward] = given[..] else {
        panic!("not the numbers of a header: {line}");
    };
    SliceFixture {
        name: name.into(),
        slice: bytes_of(slice),
        given: Given {
            width,
            height,
            picture_type,
            f_codes: [forward, backward],
        },
        buffer_length: if length == "-1" {
            LARGE
        } else {
            number_of(length)
        },
        answer: SliceAnswer {
            number: number_of(number),
            written: number_of(written),
            byte: number_of(byte),
            bit: number_of(bit),
        },
        records: bytes_of(records),
    }
}

/// Longer than the records of any slice of the fixtures.
const LARGE: usize = 1 << 16;

fn number_of<N: std::str::FromStr>(text: &str) -> N {
    let number = text.parse();
    number.unwrap_or_else(|_| panic!("no number: {text}"))
}

/// The bytes written as hexadecimal digits; `-` stands for none.
fn bytes_of(digits: &str) -> Vec<u8> {
    let digits = digits.trim_matches('-');
    let byte = |at| u8::from_str_radix(&digits[at..at + 2], 16);
    let bytes: Result<_, _> = (0..digits.len()).step_by(2).map(byte).collect();
    bytes.unwrap_or_else(|_| panic!("no bytes: {digits}"))
}

/// The reels of a folder of fixtures, sorted by name; at least one.
fn reels(name: &str) -> Vec<PathBuf> {
    let path = fixture(name);
    let entries = fs::read_dir(&path).unwrap_or_else(|error| panic!("{}: {error}", path.display()));
    let mut reels: Vec<PathBuf> = entries
        .filter_map(|entry| Some(entry.ok()?.path()))
        .filter(|path| path.extension().is_some_and(|ending| ending == "reel"))
        .collect();
    assert!(!reels.is_empty(), "no reel in {}", path.display());
    reels.sort();
    reels
}

/// The contents of a named file in the folder of fixtures.
fn fixture(name: &str) -> PathBuf {
    let package = Path::new(env!("CARGO_MANIFEST_DIR"));
    package.join("fixtures").join(name)
}

fn name_of(reel: &Path) -> String {
    reel.file_stem()
        .map_or_else(String::new, |stem| stem.to_string_lossy().into_owned())
}

fn read_bytes(path: &Path) -> Vec<u8> {
    fs::read(path).unwrap_or_else(|error| panic!("{}: {error}", path.display()))
}

fn read_text(path: &Path) -> String {
    fs::read_to_string(path).unwrap_or_else(|error| panic!("{}: {error}", path.display()))
}

impl PanelFixture {
    /// Checks what a run of `panel` printed for the reel.
    pub fn check(&self, printed: &str) -> Result<(), String> {
        same_lines(&self.name, &self.printed, printed)
    }

    /// Checks the header of each file against the start of its line: type and size are read if there is a letter, else the
    /// header is refused by the line's number. Returns how many there are.
    pub fn check_headers(&self, read_header: ReadHeader) -> Result<usize, String> {
        let files = stream::files_of_reel(&self.reel)?;
        for (file, line) in files.iter().zip(self.printed.lines()) {
            let (number, start) = read_header(file);
            let letter = match start.picture_type {
                0 => "?",
                1 => "I",
                2 => "P",
                _ => "B",
            };
            let columns: Vec<&str> = line.split(' ').collect();
            let refused_alike = number == 0 || columns[2] == number.to_string();
            if columns[1] != letter || (number == 0) != (letter != "?") || !refused_alike {
                return Err(format!("{}: {number} {start:?} for {line}", self.name));
            }
        }
        Ok(files.len())
    }
}

impl StreamFixture {
    /// Checks that every picture of the reel, made by `reconstruct`, has the expected line and hash, counts the rows worked, and is
    /// within 1 per pel of the other codec's.
    pub fn check(&self, reconstruct: Reconstruct) -> Result<(), String> {
        let mut lines = play(&self.reel, NO_LIMITS, reconstruct);
        let pictures: Vec<u8> = lines
            .iter()
            .filter_map(|line| line.picture.clone())
            .flatten()
            .collect();
        lines.iter_mut().for_each(add_hash);
        same_lines(&self.name, &self.expected, &text(&lines))?;
        self.check_rows(&lines)?;
        match &self.other {
            Some(other) => within_one(&self.name, other, &pictures),
            None => Ok(()),
        }
    }

    /// Checks that the small reader makes the expected pictures of the reel if they are within its limit, and else refuses each.
    pub fn check_small(&self, reconstruct_small: Reconstruct) -> Result<(), String> {
        let mut lines = play(&self.reel, NO_LIMITS, reconstruct_small);
        lines.iter_mut().for_each(add_hash);
        let expected: String = self.expected.lines().map(small_line).collect();
        same_lines(&self.name, &expected, &text(&lines))
    }

    /// Checks that each answer has the rows of its file's macroblocks, as the other decoder reads them. All pictures are accepted.
    fn check_rows(&self, lines: &[Line]) -> Result<(), String> {
        let files = stream::files_of_reel(&self.reel)?;
        for (number, (file, line)) in (1..).zip(files.iter().zip(lines)) {
            let records = macroblock_records(file);
            let expected = records.iter().map(MacroblockRecord::rows).sum();
            let found = line.answer.map_or(0, |answer| answer.rows);
            if found != expected {
                let name = &self.name;
                return Err(format!(
                    "{name}, picture {number}: {found} rows, not {expected}"
                ));
            }
        }
        Ok(())
    }

    /// Checks that the stream's slices, turned into records, are those of the reel, so that the pictures' files are too.
    /// Returns how many slices there are.
    pub fn check_slices(&self, read_slice: ReadSlice) -> Result<usize, String> {
        let pictures = stream::pictures(&self.stream)?;
        let files = stream::files_of_reel(&self.reel)?;
        if pictures.len() != files.len() {
            let (found, expected) = (pictures.len(), files.len());
            return Err(format!("{}: {found} pictures, not {expected}", self.name));
        }
        let mut slices = 0;
        for (number, (picture, file)) in (1..).zip(pictures.iter().zip(files)) {
            let what = |error| format!("{}, picture {number}: {error}", self.name);
            picture.check_records(file, read_slice).map_err(what)?;
            slices += picture.slices.len();
        }
        Ok(slices)
    }

    /// Checks that the headers of the reel's files have the type and size that the stream's headers say. Returns how many there
    /// are.
    pub fn check_headers(&self, read_header: ReadHeader) -> Result<usize, String> {
        let pictures = stream::pictures(&self.stream)?;
        let files = stream::files_of_reel(&self.reel)?;
        for (number, (picture, file)) in (1..).zip(pictures.iter().zip(&files)) {
            let expected = FileStart {
                picture_type: picture.given.picture_type,
                width: picture.given.width,
                height: picture.given.height,
                records_start: HEADER_END,
            };
            let found = read_header(file);
            if found != (0, expected) {
                let name = &self.name;
                return Err(format!("{name}, picture {number}: {found:?}"));
            }
        }
        Ok(files.len())
    }

    /// Plays the stream with these entries, and checks that each picture has the expected line and hash.
    pub fn check_stream(&self, entries: &Entries) -> Result<(), String> {
        let reel = stream::reel(&self.stream, entries.read_slice)?;
        let mut lines = play(&reel, NO_LIMITS, entries.reconstruct);
        lines.iter_mut().for_each(add_hash);
        same_lines(&self.name, &self.expected, &text(&lines))
    }
}

/// What is expected of the small reader where this is expected of the other one, which accepts the picture.
fn small_line(line: &str) -> String {
    let columns: Vec<&str> = line.split(' ').collect();
    let [number, letter, _, _, made, ..] = columns[..] else {
        panic!("not the columns of a picture: {line}");
    };
    if number_of::<usize>(made) <= MAX_MACROBLOCKS_SMALL {
        return format!("{line}\n");
    }
    let refusal = Refusal::MacroblockLimit.number();
    format!("{number} {letter} {refusal} 1 0 - - -\n")
}

/// What a buffer holds before a slice is read, so that each byte written or left untouched shows.
fn pattern(length: usize) -> Vec<u8> {
    (0..length).map(|at| (91 * at + 37) as u8).collect()
}

impl SliceFixture {
    /// Checks that reading the slice gives the expected answer and records, and leaves every other byte of the buffer as it was.
    pub fn check(&self, read_slice: ReadSlice) -> Result<(), String> {
        let mut buffer = pattern(self.buffer_length);
        let mut expected = buffer.clone();
        expected[..self.records.len()].copy_from_slice(&self.records);
        let answer = read_slice(&self.slice, self.given, &mut buffer);
        if answer != self.answer {
            let (name, expected) = (&self.name, self.answer);
            return Err(format!("{name}: expected {expected:?}, found {answer:?}"));
        }
        match (0..buffer.len()).find(|byte| buffer[*byte] != expected[*byte]) {
            Some(byte) => Err(format!(
                "{}: byte {byte} of the buffer is {}, not {}",
                self.name, buffer[byte], expected[byte]
            )),
            None => Ok(()),
        }
    }
}

fn add_hash(line: &mut Line) {
    if let Some(picture) = &line.picture {
        line.text = format!("{} {}", line.text, &sha256::hex(picture)[..16]);
    }
}

fn same_lines(name: &str, expected: &str, found: &str) -> Result<(), String> {
    if expected == found {
        return Ok(());
    }
    let (expected, found) = expected
        .lines()
        .map(Some)
        .chain(std::iter::repeat(None))
        .zip(found.lines().map(Some).chain(std::iter::repeat(None)))
        .find(|(expected, found)| expected != found)
        .unwrap_or((None, None));
    Err(format!("{name}: expected {expected:?}, found {found:?}"))
}

fn within_one(name: &str, other: &[u8], pictures: &[u8]) -> Result<(), String> {
    if other.len() != pictures.len() {
        let (expected, found) = (other.len(), pictures.len());
        return Err(format!(
            "{name}: {found} bytes of pictures, the other codec has {expected}"
        ));
    }
    match other
        .iter()
        .zip(pictures)
        .position(|(a, b)| a.abs_diff(*b) > 1)
    {
        Some(byte) => Err(format!(
            "{name}: byte {byte} is more than 1 from the other codec's"
        )),
        None => Ok(()),
    }
}
