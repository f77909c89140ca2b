//! Makes reels for `panel`: pictures one after another, each preceded by its length.

use super::damage::damaged;
use super::file::File;
use super::picture::{picture, random_header, Style};
use super::{small_size, TYPES};
use crate::decoder::file::PictureType;
use crate::decoder::panel::PANEL_LIMITS;
use crate::decoder::size::Size;
use crate::random::Random;

pub struct Reel {
    pub bytes: Vec<u8>,
    /// Nothing was damaged, so every picture must be accepted.
    pub legal: bool,
}

/// The reel with this seed and number, within the limits of `panel` except for a few that are too long.
pub fn reel(seed: u64, number: u64) -> Reel {
    let random = &mut Random::new(&[seed, number, 0]);
    let legal = random.once_in(3);
    let size = small_size(random);
    let mut bytes = Vec::new();
    for index in 0..1 + random.below(12) {
        let picture_type = match index {
            0 => PictureType::I,
            1 => PictureType::P,
            _ => random.pick(&TYPES),
        };
        let file = if legal {
            random_file(random, picture_type, size, 0).bytes
        } else {
            any_file(random, picture_type, size)
        };
        if bytes.len() + 4 + file.len() > PANEL_LIMITS.reel_bytes {
            break;
        }
        push(&mut bytes, &file);
    }
    if !legal {
        damage(random, &mut bytes);
    }
    Reel { bytes, legal }
}

fn push(reel: &mut Vec<u8>, file: &[u8]) {
    reel.extend((file.len() as u32).to_be_bytes());
    reel.extend(file);
}

/// A picture that is legal except for strays: one macroblock in this many, or none if that is 0.
fn random_file(
    random: &mut Random,
    picture_type: PictureType,
    size: Size,
    stray_once_in: usize,
) -> File {
    let header = random_header(random, picture_type, size);
    let most_pairs = random.pick(&[1, 3, 64]);
    let style = Style {
        stray_once_in,
        ..Style::random(random, most_pairs)
    };
    picture(random, header, style)
}

/// A picture that may differ from the reel in type or size, have strays, or be damaged or empty.
fn any_file(random: &mut Random, picture_type: PictureType, size: Size) -> Vec<u8> {
    let another_type = random.pick(&TYPES);
    let picture_type = random.pick(&[picture_type, picture_type, picture_type, another_type]);
    let size = any_size(random, size);
    let stray_once_in = random.pick(&[0, 0, 3, 8]);
    let file = random_file(random, picture_type, size, stray_once_in);
    match random.below(10) {
        0 => Vec::new(),
        1..=4 => damaged(random, &file),
        _ => file.bytes,
    }
}

/// Mostly the reel's size; else another small one, its transpose, or one above the limit of `panel`.
fn any_size(random: &mut Random, size: Size) -> Size {
    let Size { width, height } = size;
    match random.below(20) {
        0 => small_size(random),
        1 => Size {
            width: height,
            height: width,
        },
        2 => Size {
            width: 41,
            height: 1,
        },
        _ => size,
    }
}

/// Cuts the reel, or makes it too long, or just as long as `panel` reads, or longer. Three in four stay as they are.
fn damage(random: &mut Random, reel: &mut Vec<u8>) {
    let most = PANEL_LIMITS.reel_bytes;
    match random.below(32) {
        0 | 1 => reel.truncate(random.below(reel.len() + 1)),
        2 | 3 => {
            let count = 1 + random.below(6);
            reel.extend(random.bytes(count));
        }
        4 => pad(reel, most),
        5 => pad(reel, most + 1),
        6 => pad(reel, most + 4000),
        7 => reel.clear(),
        _ => (),
    }
}

/// Appends a file of zeros that makes the reel `length` bytes long, if there is room for its length field.
fn pad(reel: &mut Vec<u8>, length: usize) {
    if let Some(left) = length.checked_sub(reel.len() + 4) {
        push(reel, &vec![0; left]);
    }
}
