//! Writes pictures of macroblocks side by side, in one slice, from the bodies of their macroblock records.

use super::cases::{lent, Case};
use super::file::File;
use super::picture::{random_header, Style, Writer};
use crate::decoder::file::{PictureType, MACROBLOCK, MATRIX, SLICE};
use crate::decoder::size::Size;
use crate::random::Random;

/// What such a picture has before its macroblocks.
pub struct Strip {
    pub picture_type: PictureType,
    /// In macroblocks.
    pub width: usize,
    /// Which matrix, and its weights by zigzag position.
    pub matrices: Vec<(usize, [u8; 64])>,
    pub scale: u8,
}

impl Strip {
    /// The picture with these bodies, with references and output. `legal` is true; the caller may change it.
    pub fn case(&self, random: &mut Random, bodies: impl IntoIterator<Item = Vec<u8>>) -> Case {
        let size = Size {
            width: self.width,
            height: 1,
        };
        let header = random_header(random, self.picture_type, size);
        let mut file = Writer::new(random, header, Style::SMALL).file;
        for (which, weights) in &self.matrices {
            let matrix = [&[*which as u8], &weights[..]].concat();
            record(&mut file, MATRIX, &matrix);
        }
        record(&mut file, SLICE, &[self.scale, 0, 0]);
        for body in bodies {
            record(&mut file, MACROBLOCK, &body);
        }
        lent(random, header, &file)
    }
}

fn record(file: &mut File, kind: u8, body: &[u8]) {
    file.record(kind, |file| {
        for byte in body {
            file.byte("body", (*byte).into(), &[]);
        }
    });
}

/// The bytes of a pair.
pub fn pair(run: usize, level: i64) -> [u8; 3] {
    let [high, low] = (level as i16).to_be_bytes();
    [run as u8, high, low]
}
