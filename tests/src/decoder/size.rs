//! "The picture and its size": limits, planes and addresses.

const MAX_WIDTH: usize = 48;
const MAX_HEIGHT: usize = 36;
pub const MAX_MACROBLOCKS: usize = 396;

/// Request No. 4: "memory for 99 macroblocks. The other panels keep 396."
pub const MAX_MACROBLOCKS_SMALL: usize = 99;

/// "With N macroblocks it is 384 × N bytes".
pub const MACROBLOCK_BYTES: usize = 384;

/// Width and height in macroblocks.
#[derive(Clone, Copy, Debug, PartialEq, Eq)]
pub struct Size {
    pub width: usize,
    pub height: usize,
}

/// Where a plane lies in the picture's bytes, its size in pels, and how many pels wide and high a macroblock is in it.
#[derive(Clone, Copy, Debug, PartialEq, Eq)]
pub struct Plane {
    pub start: usize,
    pub width: usize,
    pub height: usize,
    pub side: usize,
}

impl Size {
    /// "A picture is at most 48 macroblocks wide, 36 high, 396 in all, and at least 1 by 1."
    pub fn new(width: usize, height: usize) -> Option<Size> {
        let legal = (1..=MAX_WIDTH).contains(&width)
            && (1..=MAX_HEIGHT).contains(&height)
            && width * height <= MAX_MACROBLOCKS;
        legal.then_some(Size { width, height })
    }

    /// Every legal size.
    pub fn all() -> Vec<Size> {
        (1..=MAX_WIDTH)
            .flat_map(|width| (1..=MAX_HEIGHT).filter_map(move |height| Size::new(width, height)))
            .collect()
    }

    pub fn macroblocks(self) -> usize {
        self.width * self.height
    }

    pub fn bytes(self) -> usize {
        MACROBLOCK_BYTES * self.macroblocks()
    }

    /// "The Y plane (16 pels by 16 lines a macroblock), then the Cb plane, then the Cr plane": Cb and Cr have 8 by 8.
    pub fn planes(self) -> [Plane; 3] {
        let plane = |start, side| Plane {
            start,
            width: side * self.width,
            height: side * self.height,
            side,
        };
        let n = self.macroblocks();
        [plane(0, 16), plane(256 * n, 8), plane(320 * n, 8)]
    }

    /// "Addresses count from 0, left to right, top to bottom": column and row of a macroblock.
    pub fn column_row(self, address: usize) -> (usize, usize) {
        (address % self.width, address / self.width)
    }
}

impl Plane {
    /// The index in the picture's bytes of the pel at column `x` of line `y`: "each row by row".
    pub fn offset(self, x: usize, y: usize) -> usize {
        self.start + y * self.width + x
    }
}
