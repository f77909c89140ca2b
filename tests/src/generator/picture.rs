//! Writes legal pictures: files of random symbols that no rule refuses, with extremes more often than by chance.

use super::file::File;
use super::{small_size, TYPES};
use crate::decoder::file::{
    Direction, Header, PictureType, HEADER, INTRA, MACROBLOCK, MATRIX, NON_INTRA, SLICE,
};
use crate::decoder::macroblock::{component, legal_types};
use crate::decoder::size::Size;
use crate::decoder::vectors::{f_of, fits, Vector, Vectors};
use crate::random::Random;

/// How a picture is written: how many pairs a block has at most, and how often it skips, starts a slice, or is intra.
#[derive(Clone, Copy)]
pub struct Style {
    pub most_pairs: usize,
    pub most_level: i64,
    pub most_skipped: usize,
    pub slice_once_in: usize,
    pub intra_once_in: usize,
    /// One macroblock in this many has something that doesn't fit: a vector or a DC out of range. 0: none.
    pub stray_once_in: usize,
}

impl Style {
    /// Short blocks, for small pictures.
    pub const SMALL: Style = Style {
        most_pairs: 2,
        most_level: 20,
        most_skipped: 1,
        slice_once_in: 3,
        intra_once_in: 4,
        stray_once_in: 0,
    };

    pub fn random(random: &mut Random, most_pairs: usize) -> Style {
        let pairs = [0, 1, 2, 5, 20, 64];
        Style {
            most_pairs: random.pick(&pairs).min(most_pairs),
            most_level: random.pick(&[1, 3, 20, 255]),
            most_skipped: random.pick(&[0, 1, 3, 40, 400]),
            slice_once_in: random.pick(&[1, 2, 5, 20, 1000]),
            intra_once_in: random.pick(&[2, 5, 50]),
            stray_once_in: 0,
        }
    }
}

/// The header of the case with this number: every fourth case takes the next of all legal sizes.
pub fn numbered_header(random: &mut Random, number: u64) -> Header {
    let size = if number.is_multiple_of(4) {
        let sizes = Size::all();
        sizes[number as usize / 4 % sizes.len()]
    } else {
        small_size(random)
    };
    let picture_type = random.pick(&TYPES);
    random_header(random, picture_type, size)
}

/// A legal header of this type and size; each direction used has a random flag and f_code.
pub fn random_header(random: &mut Random, picture_type: PictureType, size: Size) -> Header {
    let directions = picture_type.uses().map(|used| Direction {
        full_pel: used && random.once_in(2),
        f_code: if used { random.within(1, 7) } else { 0 },
    });
    Header {
        size,
        picture_type,
        directions,
    }
}

/// A file with a header, perhaps matrices, and all of the picture's macroblocks in slices.
pub fn picture(random: &mut Random, header: Header, style: Style) -> File {
    let mut writer = Writer::new(random, header, style);
    for which in [INTRA, NON_INTRA] {
        if writer.random.once_in(3) {
            writer.matrix(which);
        }
    }
    while !writer.whole() {
        writer.slice();
    }
    writer.file
}

/// The ends of a scale's range, and the values just past them.
const SCALE_ENDS: [i64; 5] = [0, 1, 31, 32, 255];

/// The DC predictor at a slice's start, divided by 8.
const FIRST_DC: i64 = 128;

/// What a macroblock record says of its place and its vectors.
struct Plan {
    macroblock_type: u8,
    skipped: usize,
    /// The vectors that the type has, not doubled.
    vectors: Vectors,
}

/// Writes a picture, one slice record or macroblock after another.
pub struct Writer<'a> {
    random: &'a mut Random,
    pub file: File,
    header: Header,
    style: Style,
    /// The next address.
    pub next: usize,
    /// The DC pasts (predictors) divided by 8, so that a coded difference is simply their difference.
    dc_pasts: [i64; 3],
    vector_pasts: [Vector; 2],
    /// The last macroblock's vectors as used, if skipped macroblocks may follow it.
    last: Option<Vectors>,
}

impl<'a> Writer<'a> {
    /// A picture of which only the header is written.
    pub fn new(random: &'a mut Random, header: Header, style: Style) -> Writer<'a> {
        let mut writer = Writer {
            random,
            file: File::versioned(),
            header,
            style,
            next: 0,
            dc_pasts: [FIRST_DC; 3],
            vector_pasts: [[0; 2]; 2],
            last: None,
        };
        writer.header();
        writer
    }

    fn header(&mut self) {
        let Header {
            size,
            picture_type,
            directions,
        } = self.header;
        self.file.record(HEADER, |file| {
            file.byte("width", size.width as i64, &[0, 1, 48, 49, 255]);
            file.byte("height", size.height as i64, &[0, 1, 36, 37, 255]);
            let number = picture_type.number();
            file.byte("picture type", number.into(), &[0, 1, 2, 3, 4, 255]);
            for direction in directions {
                file.byte("full-pel flag", direction.full_pel.into(), &[0, 1, 2, 255]);
                file.byte("f_code", direction.f_code, &[0, 1, 7, 8, 255]);
            }
        });
    }

    fn matrix(&mut self, which: usize) {
        let weights: [i64; 64] = match self.random.below(3) {
            0 => [1; 64],
            1 => [255; 64],
            _ => std::array::from_fn(|_| self.random.within(1, 255)),
        };
        self.file.record(MATRIX, |file| {
            file.byte("which matrix", which as i64, &[0, 1, 2, 255]);
            for (position, weight) in weights.into_iter().enumerate() {
                if which == INTRA && position == 0 {
                    file.byte("first weight", 8, &[0, 7, 9]);
                } else {
                    file.byte("weight", weight, &[0, 1, 255]);
                }
            }
        });
    }

    /// Writes a slice record and its macroblocks, at least one.
    fn slice(&mut self) {
        self.slice_record();
        loop {
            self.macroblock();
            if self.whole() || self.random.once_in(self.style.slice_once_in) {
                return;
            }
        }
    }

    /// True if the picture's last macroblock is written.
    pub fn whole(&self) -> bool {
        self.next == self.header.size.macroblocks()
    }

    /// Writes a slice record, which a macroblock must follow.
    pub fn slice_record(&mut self) {
        let start = self.next as i64;
        let scale = self.scale();
        self.file.record(SLICE, |file| {
            file.byte("scale", scale, &SCALE_ENDS);
            file.word("start", start, &[start - 1, start + 1, start + 256, 0]);
        });
        self.dc_pasts = [FIRST_DC; 3];
        self.vector_pasts = [[0; 2]; 2];
        self.last = None;
    }

    fn scale(&mut self) -> i64 {
        let within = self.random.within(1, 31);
        self.random.pick(&[1, 31, within, within])
    }

    /// Writes a random macroblock.
    pub fn macroblock(&mut self) {
        let stray = self.style.stray_once_in != 0 && self.random.once_in(self.style.stray_once_in);
        let plan = self.plan(stray);
        self.write(plan, stray);
    }

    fn plan(&mut self, stray: bool) -> Plan {
        let macroblock_type = self.macroblock_type();
        let skipped = self.skipped(stray);
        let mut vectors = [None; 2];
        for (way, vector) in vectors.iter_mut().enumerate() {
            if macroblock_type & (2 << way) != 0 {
                *vector = Some(self.vector(way, self.next + skipped, stray));
            }
        }
        Plan {
            macroblock_type,
            skipped,
            vectors,
        }
    }

    /// Writes a macroblock with these vectors, not doubled, of a random type that has just them.
    pub fn macroblock_with(&mut self, skipped: usize, vectors: Vectors, intra: bool) {
        let uses = vectors.map(|vector| vector.is_some());
        let has_them = |chosen: &u8| [chosen & 2 != 0, chosen & 4 != 0] == uses;
        let mut types = legal_types(self.header.picture_type).to_vec();
        types.retain(|chosen| has_them(chosen) && (chosen & 16 != 0) == intra);
        let plan = Plan {
            macroblock_type: self.random.pick(&types),
            skipped,
            vectors,
        };
        self.write(plan, false);
    }

    fn write(&mut self, plan: Plan, stray: bool) {
        let chosen = plan.macroblock_type;
        let mut body = File::empty();
        let others = [0, 1, 2, 4, 8, 9, 10, 12, 15, 16, 18, 31, 32, 48, 255];
        body.byte("macroblock type", chosen.into(), &others);
        self.increment(&mut body, plan.skipped);
        if chosen & 1 != 0 {
            body.byte("scale", self.scale(), &SCALE_ENDS);
        }
        self.vectors(&mut body, plan.vectors);
        let intra = chosen & 16 != 0;
        if !intra {
            self.dc_pasts = [FIRST_DC; 3];
        }
        let pattern = self.pattern(&mut body, chosen);
        for block in 0..6 {
            if pattern & (32 >> block) != 0 {
                self.block(&mut body, intra, component(block), stray);
            }
        }
        self.file.record(MACROBLOCK, |file| file.append(body));
        self.next += plan.skipped + 1;
    }

    fn macroblock_type(&mut self) -> u8 {
        let legal = legal_types(self.header.picture_type);
        if self.random.once_in(self.style.intra_once_in) {
            self.random.pick(&[16, 17])
        } else {
            self.random.pick(legal)
        }
    }

    /// Writes the increment, and updates the pasts for skipped macroblocks.
    fn increment(&mut self, body: &mut File, skipped: usize) {
        if skipped > 0 {
            self.dc_pasts = [FIRST_DC; 3];
            if self.header.picture_type == PictureType::P {
                self.vector_pasts = [[0; 2]; 2];
            }
        }
        let left = (self.header.size.macroblocks() - self.next) as i64;
        let others = [0, 1, 2, left, left + 1, left + 256, 0xffff];
        body.word("increment", skipped as i64 + 1, &others);
    }

    /// How many macroblocks to skip: only where that is legal, and only as long as the repeated vectors fit.
    fn skipped(&mut self, stray: bool) -> usize {
        let Some(vectors) = self.last else {
            return 0;
        };
        let most = self.header.size.macroblocks() - self.next - 1;
        let wanted = self.random.below(self.style.most_skipped.min(most) + 1);
        if stray || self.header.picture_type != PictureType::B {
            return wanted;
        }
        let fit = |address: &usize| {
            let mut used = vectors.iter().flatten();
            used.all(|vector| fits(self.header.size, *address, *vector))
        };
        (self.next..self.next + wanted).take_while(fit).count()
    }

    /// Writes the vectors, and keeps them as pasts.
    fn vectors(&mut self, body: &mut File, vectors: Vectors) {
        for (way, vector) in vectors.into_iter().enumerate() {
            if let Some(vector) = vector {
                self.codes(body, way, vector);
            }
        }
        if vectors == [None; 2] {
            self.vector_pasts = [[0; 2]; 2];
        }
        // A P may skip after any macroblock, a B after those that have a vector.
        let may_skip = match self.header.picture_type {
            PictureType::I => false,
            PictureType::P => true,
            PictureType::B => vectors != [None; 2],
        };
        let used = |way: usize| Some(self.header.directions[way].used(vectors[way]?));
        self.last = may_skip.then_some([used(0), used(1)]);
    }

    /// A vector, not doubled, that fits (or, if stray, perhaps just doesn't).
    fn vector(&mut self, way: usize, address: usize, stray: bool) -> Vector {
        let Direction { full_pel, f_code } = self.header.directions[way];
        let f = f_of(f_code);
        let factor = if full_pel { 2 } else { 1 };
        let (column, row) = self.header.size.column_row(address);
        let Size { width, height } = self.header.size;
        [(column, width), (row, height)].map(|(at, extent)| {
            let low = (-32 * at as i64 / factor).max(-16 * f);
            let high = (32 * (extent - 1 - at) as i64 / factor).min(16 * f - 1);
            let fit = self.edge_or_within(low, high);
            if !stray {
                return fit;
            }
            let any = self.random.pick(&[low - 1, high + 1, fit]);
            any.clamp(-16 * f, 16 * f - 1)
        })
    }

    /// Writes a vector as codes and residuals, and keeps it as past.
    fn codes(&mut self, body: &mut File, way: usize, vector: Vector) {
        let f = f_of(self.header.directions[way].f_code);
        for (axis, part) in vector.into_iter().enumerate() {
            let past = self.vector_pasts[way][axis];
            self.code_and_residual(body, f, part - past);
        }
        self.vector_pasts[way] = vector;
    }

    fn edge_or_within(&mut self, low: i64, high: i64) -> i64 {
        let within = self.random.within(low, high);
        self.random.pick(&[low, high, within, within])
    }

    /// Writes a code and residual for `difference`, moved by 32f into range if needed; at 16f, either form.
    fn code_and_residual(&mut self, body: &mut File, f: i64, difference: i64) {
        let mut difference = difference;
        if difference.abs() > 16 * f || (difference.abs() == 16 * f && self.random.once_in(2)) {
            difference -= 32 * f * difference.signum();
        }
        let steps = difference.abs() - 1;
        let (code, residual) = if difference == 0 {
            (0, 0)
        } else {
            (difference.signum() * (steps / f + 1), steps % f)
        };
        body.byte("code", code, &[-128, -17, -16, 0, 16, 17, 127]);
        body.byte("residual", residual, &[0, 1, f - 1, f, 255]);
    }

    /// The pattern of the blocks that follow; it is written if the type has one.
    fn pattern(&mut self, body: &mut File, chosen: u8) -> u8 {
        if chosen & 16 != 0 {
            return 63;
        }
        if chosen & 8 == 0 {
            return 0;
        }
        let within = self.random.within(1, 63);
        let pattern = self.random.pick(&[1, 32, 63, within, within]);
        body.byte("pattern", pattern, &[0, 1, 63, 64, 255]);
        pattern as u8
    }

    fn block(&mut self, body: &mut File, intra: bool, component: usize, stray: bool) {
        if intra {
            self.dc(body, component, stray);
        }
        let first = usize::from(intra);
        let most = self.style.most_pairs.min(64 - first);
        let within = self.random.below(most + 1);
        // A block without DC has at least one pair.
        let count = self
            .random
            .pick(&[within, within, within, most])
            .max(1 - first);
        body.byte("count", count as i64, &[0, 1, 63, 64, 65, 255]);
        let mut from = first;
        for left in (1..=count).rev() {
            let most_run = 64 - from - left;
            let run = self.run(most_run);
            let others = [0, 63, 64, 255, most_run as i64, most_run as i64 + 1];
            body.byte("run", run as i64, &others);
            let level = self.level();
            let others = [0, -1, 1, -255, 255, -256, 256, -32768, 32767];
            body.word("level", level, &others);
            from += run + 1;
        }
    }

    fn run(&mut self, most: usize) -> usize {
        let short = self.random.below(most.min(4) + 1);
        let any = self.random.below(most + 1);
        self.random.pick(&[0, short, short, short, any])
    }

    fn level(&mut self) -> i64 {
        let size = if self.random.once_in(16) {
            255
        } else {
            self.random.within(1, self.style.most_level)
        };
        self.random.pick(&[-size, size])
    }

    /// A DC difference that keeps the DC in 0..2040, often at its ends; if stray, it leaves the range by one step.
    fn dc(&mut self, body: &mut File, component: usize, stray: bool) {
        let past = self.dc_pasts[component];
        let wanted = if stray && self.random.once_in(6) {
            self.random.pick(&[-1, 256])
        } else {
            self.edge_or_within(0, 255)
        };
        let ends = [-1 - past, -past, 255 - past, 256 - past];
        let far = [-32768, -256, 256, 32767];
        body.word("difference", wanted - past, &[ends, far].concat());
        self.dc_pasts[component] = wanted;
    }
}
