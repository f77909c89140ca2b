//! "The program `panel` reads a reel": the line it prints for each picture, and the pictures themselves.

use super::entries::Reconstruct;
use super::file::{self, Header, PictureType};
use super::refusals::Answer;
use super::size::Size;

/// "A whole reel above 16,384 bytes prints only `long`." "Above 40 macroblocks the output is lent empty."
#[derive(Clone, Copy)]
pub struct Limits {
    pub reel_bytes: usize,
    pub macroblocks: usize,
}

pub const PANEL_LIMITS: Limits = Limits {
    reel_bytes: 16_384,
    macroblocks: 40,
};

pub const NO_LIMITS: Limits = Limits {
    reel_bytes: usize::MAX,
    macroblocks: usize::MAX,
};

/// A printed line, the answer it shows, and the picture's bytes if it was accepted.
pub struct Line {
    pub text: String,
    pub answer: Option<Answer>,
    pub picture: Option<Vec<u8>>,
}

/// What is printed for a reel whose pictures `reconstruct` makes.
pub fn play(reel: &[u8], limits: Limits, reconstruct: Reconstruct) -> Vec<Line> {
    if reel.len() > limits.reel_bytes {
        return vec![word("long".into())];
    }
    let mut lines = Vec::new();
    let mut references = References::default();
    let mut offset = 0;
    while offset < reel.len() {
        let Some(file) = file_at(reel, offset) else {
            // "A cut length or file prints `cut` and the offset of that length, and ends it."
            lines.push(word(format!("cut {offset}")));
            return lines;
        };
        offset += 4 + file.len();
        let number = lines.len() + 1;
        lines.push(picture_line(
            number,
            file,
            limits,
            &mut references,
            reconstruct,
        ));
    }
    lines
}

/// The whole text that `panel` prints.
pub fn text(lines: &[Line]) -> String {
    lines
        .iter()
        .map(|line| format!("{}\n", line.text))
        .collect()
}

fn word(text: String) -> Line {
    Line {
        text,
        answer: None,
        picture: None,
    }
}

/// "Per picture a 4-byte length and a file."
fn file_at(reel: &[u8], offset: usize) -> Option<&[u8]> {
    let (length, rest) = reel.get(offset..)?.split_first_chunk()?;
    rest.get(..u32::from_be_bytes(*length) as usize)
}

/// The last two accepted I or P pictures.
#[derive(Default)]
struct References {
    older: Vec<u8>,
    newer: Vec<u8>,
}

impl References {
    /// "A P uses the last accepted I or P, a B the last two, the newer or only one as backward; missing ones are lent
    /// empty."
    fn lent(&self, picture_type: PictureType) -> [&[u8]; 2] {
        match picture_type {
            PictureType::I => [&[], &[]],
            PictureType::P => [&self.newer, &[]],
            PictureType::B => [&self.older, &self.newer],
        }
    }

    fn keep(&mut self, picture: &[u8]) {
        self.older = std::mem::replace(&mut self.newer, picture.to_vec());
    }
}

/// The header of a file, if it starts with a legal one.
pub fn header_of(file: &[u8]) -> Option<Header> {
    let (header, _) = file::first_header(file).ok()?;
    Some(header)
}

/// "A line: picture number from 1, letter (`?` if there is no kind 1 header or it was refused by 8 or sooner), answer, place,
/// made, sums of Y, Cb, Cr (`-` each if refused)."
fn picture_line(
    number: usize,
    file: &[u8],
    limits: Limits,
    references: &mut References,
    reconstruct: Reconstruct,
) -> Line {
    let header = header_of(file);
    let mut output = vec![0; header.map_or(0, |header| lent_bytes(header.size, limits))];
    let [forward, backward] = header.map_or([&[][..], &[]], |header| {
        references.lent(header.picture_type)
    });
    let answer = reconstruct(file, forward, backward, &mut output);
    let letter = header.map_or('?', |header| header.picture_type.letter());
    let start = format!(
        "{number} {letter} {} {} {}",
        answer.number, answer.place, answer.made
    );
    let accepted = header.filter(|_| answer.number == 0);
    let Some(header) = accepted else {
        return Line {
            text: format!("{start} - - -"),
            answer: Some(answer),
            picture: None,
        };
    };
    if header.picture_type != PictureType::B {
        references.keep(&output);
    }
    let [y, cb, cr] = sums(header.size, &output);
    Line {
        text: format!("{start} {y} {cb} {cr}"),
        answer: Some(answer),
        picture: Some(output),
    }
}

fn lent_bytes(size: Size, limits: Limits) -> usize {
    if size.macroblocks() > limits.macroblocks {
        0
    } else {
        size.bytes()
    }
}

/// The sum of each plane's pels.
fn sums(size: Size, picture: &[u8]) -> [u64; 3] {
    size.planes().map(|plane| {
        let pels = &picture[plane.start..][..plane.width * plane.height];
        pels.iter().map(|pel| u64::from(*pel)).sum()
    })
}
