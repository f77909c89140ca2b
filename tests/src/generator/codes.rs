//! Writes legal slices: codes of random symbols. Every word of a table is equally likely, so that all of them occur.

use std::collections::BTreeSet;

use crate::decoder::annex_b::{self, Coefficient, Increment, Words};
use crate::decoder::file::{Header, PictureType};
use crate::decoder::size::MAX_MACROBLOCKS;
use crate::random::Random;

/// Where in a slice a code occurs.
#[derive(Clone, Copy, Debug, PartialEq, Eq, PartialOrd, Ord)]
pub enum Place {
    StartCode,
    Scale,
    ExtraBit,
    ExtraInformation,
    Increment,
    IType,
    PType,
    BType,
    MotionCode,
    Residual,
    Pattern,
    LumaDcSize,
    ChromaDcSize,
    DcDifference,
    FirstCoefficient,
    NextCoefficient,
}

/// A code: its place, and its bits as a text of `0` and `1`.
pub type Code = (Place, String);

/// How a slice is written.
#[derive(Clone, Copy)]
pub struct SliceStyle {
    pub macroblocks: usize,
    pub most_pairs: usize,
    pub extra_once_in: usize,
    pub stuffing_once_in: usize,
    pub escape_once_in: usize,
}

impl SliceStyle {
    pub fn random(random: &mut Random) -> SliceStyle {
        SliceStyle {
            macroblocks: random.pick(&[1, 1, 2, 3, 8]),
            most_pairs: random.pick(&[0, 1, 3, 8, 64]),
            extra_once_in: random.pick(&[2, 8]),
            stuffing_once_in: random.pick(&[2, 8, 50]),
            escape_once_in: random.pick(&[2, 8, 50]),
        }
    }
}

/// The codes of a slice in a picture with this header.
pub fn slice(random: &mut Random, header: &Header, style: SliceStyle) -> Vec<Code> {
    let mut codes = slice_head(random, header, style);
    for _ in 0..style.macroblocks {
        codes.extend(macroblock(random, header, style));
    }
    codes
}

/// The codes of a slice before its first macroblock.
pub fn slice_head(random: &mut Random, header: &Header, style: SliceStyle) -> Vec<Code> {
    written(random, header, style, |writer| writer.start())
}

/// The codes of a macroblock.
pub fn macroblock(random: &mut Random, header: &Header, style: SliceStyle) -> Vec<Code> {
    written(random, header, style, |writer| writer.macroblock())
}

/// The codes that a method of the writer writes.
fn written(
    random: &mut Random,
    header: &Header,
    style: SliceStyle,
    write: fn(&mut Writer),
) -> Vec<Code> {
    let mut writer = Writer {
        random,
        header,
        style,
        codes: Vec::new(),
    };
    write(&mut writer);
    writer.codes
}

/// The bytes of codes; the last byte is padded with zeros.
pub fn bytes_of(codes: &[Code]) -> Vec<u8> {
    bytes_of_text(&text_of(codes))
}

/// The bits of codes.
pub fn text_of(codes: &[Code]) -> String {
    codes.iter().map(|code| &code.1[..]).collect()
}

/// The bytes of a text of `0` and `1`; the last byte is padded with zeros.
pub fn bytes_of_text(text: &str) -> Vec<u8> {
    let byte = |bits: &[u8]| {
        let set = bits.iter().enumerate().filter(|(_, bit)| **bit == b'1');
        set.fold(0, |byte, (at, _)| byte | 0x80 >> at)
    };
    text.as_bytes().chunks(8).map(byte).collect()
}

/// The bits of an escape: a run and the word of a level.
pub fn escape(run: usize, level: &str) -> String {
    format!("000001{run:06b}{level}")
}

struct Writer<'a> {
    random: &'a mut Random,
    header: &'a Header,
    style: SliceStyle,
    codes: Vec<Code>,
}

impl Writer<'_> {
    fn code(&mut self, place: Place, word: impl Into<String>) {
        self.codes.push((place, word.into()));
    }

    fn number(&mut self, place: Place, number: usize, width: usize) {
        self.code(place, format!("{number:0width$b}"));
    }

    fn any_number(&mut self, place: Place, width: usize) {
        let number = self.random.below(1 << width);
        self.number(place, number, width);
    }

    /// Writes a random word of a table, and returns its value.
    fn any_word<V: Copy>(&mut self, place: Place, words: &Words<V>) -> V {
        let (word, value) = self.random.pick(words);
        self.code(place, word);
        value
    }

    fn start(&mut self) {
        let row = 1 + self.random.below(self.header.size.height);
        self.code(Place::StartCode, format!("{:024b}{row:08b}", 1));
        self.any_number(Place::Scale, 5);
        while self.random.once_in(self.style.extra_once_in) {
            self.number(Place::ExtraBit, 1, 1);
            self.any_number(Place::ExtraInformation, 8);
        }
        self.number(Place::ExtraBit, 0, 1);
    }

    fn macroblock(&mut self) {
        self.increment();
        let macroblock_type = match self.header.picture_type {
            PictureType::I => self.any_word(Place::IType, annex_b::I_TYPES),
            PictureType::P => self.any_word(Place::PType, annex_b::P_TYPES),
            PictureType::B => self.any_word(Place::BType, annex_b::B_TYPES),
        };
        if macroblock_type & 1 != 0 {
            self.any_number(Place::Scale, 5);
        }
        for (direction, bit) in self.header.directions.iter().zip([2, 4]) {
            if macroblock_type & bit != 0 {
                self.motion(direction.f_code as usize);
                self.motion(direction.f_code as usize);
            }
        }
        let intra = macroblock_type & 16 != 0;
        let mut pattern = if intra { 63 } else { 0 };
        if macroblock_type & 8 != 0 {
            pattern = self.any_word(Place::Pattern, annex_b::PATTERNS);
        }
        for index in 0..6 {
            if pattern & (32 >> index) != 0 {
                self.block(intra, index);
            }
        }
    }

    /// Writes stuffing, then escapes, then an increment: at most 396 in all.
    fn increment(&mut self) {
        while self.random.once_in(self.style.stuffing_once_in) {
            self.code(Place::Increment, word_of(Increment::Stuffing));
        }
        if self.random.once_in(self.style.escape_once_in) {
            let most = MAX_MACROBLOCKS / 33 - 1;
            let escapes = self.random.pick(&[1, 1, 2, most]);
            for _ in 0..escapes {
                self.code(Place::Increment, word_of(Increment::Escape));
            }
        }
        let count = self.random.within(1, 33) as usize;
        self.code(Place::Increment, word_of(Increment::Count(count)));
    }

    fn motion(&mut self, f_code: usize) {
        let code = self.any_word(Place::MotionCode, annex_b::MOTION_CODES);
        if f_code > 1 && code != 0 {
            self.any_number(Place::Residual, f_code - 1);
        }
    }

    fn block(&mut self, intra: bool, index: usize) {
        if intra {
            self.dc(index);
        }
        self.coefficients(intra);
        self.code(Place::NextCoefficient, "10");
    }

    fn dc(&mut self, index: usize) {
        let size = if index < 4 {
            self.any_word(Place::LumaDcSize, annex_b::LUMA_DC_SIZES)
        } else {
            self.any_word(Place::ChromaDcSize, annex_b::CHROMA_DC_SIZES)
        };
        if size > 0 {
            self.any_number(Place::DcDifference, size);
        }
    }

    /// Writes pairs as long as they fit, and at least one in a non-intra block.
    fn coefficients(&mut self, intra: bool) {
        let (mut from, mut place, least) = match intra {
            true => (1, Place::NextCoefficient, 0),
            false => (0, Place::FirstCoefficient, 1),
        };
        let most = self.style.most_pairs;
        let dense = most == 64 && self.random.once_in(4);
        let count = self.random.below(most + 1).max(least);
        for _ in 0..if dense { 64 } else { count } {
            let (run, word) = if dense && place == Place::NextCoefficient {
                let sign = self.random.pick(&["0", "1"]);
                (0, format!("11{sign}"))
            } else {
                self.pair(place)
            };
            if from + run > 63 {
                return;
            }
            self.code(place, word);
            from += run + 1;
            place = Place::NextCoefficient;
        }
    }

    /// A run, and the code of it and a level: any word of the table, or an escape with any run and level.
    fn pair(&mut self, place: Place) -> (usize, String) {
        let words = coefficient_words(place);
        let (word, value) = self.random.pick(words);
        if let Coefficient::Pair(run, _) = value {
            if !self.random.once_in(4) {
                let sign = self.random.pick(&["0", "1"]);
                return (run, format!("{word}{sign}"));
            }
        }
        let most = self.random.pick(&[3, 20, 63]);
        let run = self.random.below(most + 1);
        let levels = &annex_b::ESCAPED_LEVELS;
        let level = &levels[self.random.below(levels.len())].0;
        (run, escape(run, level))
    }
}

/// The words of Tables B.5c to B.5e for a first or a later coefficient.
fn coefficient_words(place: Place) -> &'static Words<Coefficient> {
    match place {
        Place::FirstCoefficient => &annex_b::FIRST_COEFFICIENTS,
        _ => &annex_b::NEXT_COEFFICIENTS,
    }
}

/// The word of Table B.1 with this value.
pub fn word_of(increment: Increment) -> &'static str {
    let mut words = annex_b::INCREMENTS.iter();
    let found = words.find(|(_, value)| *value == increment);
    found.expect("Table B.1 has every increment up to 33").0
}

/// What the generated slices must contain: every word of every table at its place, coefficients with both signs, and every run and
/// level of an escape.
pub fn all_words() -> BTreeSet<Code> {
    let mut all = BTreeSet::new();
    let mut add = |place, words: Vec<String>| {
        all.extend(words.into_iter().map(|word| (place, word)));
    };
    add(Place::Increment, texts(annex_b::INCREMENTS));
    add(Place::IType, texts(annex_b::I_TYPES));
    add(Place::PType, texts(annex_b::P_TYPES));
    add(Place::BType, texts(annex_b::B_TYPES));
    add(Place::Pattern, texts(annex_b::PATTERNS));
    add(Place::MotionCode, texts(annex_b::MOTION_CODES));
    add(Place::LumaDcSize, texts(annex_b::LUMA_DC_SIZES));
    add(Place::ChromaDcSize, texts(annex_b::CHROMA_DC_SIZES));
    // A later coefficient has at least one position before it, so a run of 63 would go past the last.
    for (place, runs) in [(Place::FirstCoefficient, 64), (Place::NextCoefficient, 63)] {
        all.extend(plain_coefficients(place).map(|word| (place, word)));
        all.extend((0..runs).map(|run| escaped_run(place, run)));
    }
    let levels = annex_b::ESCAPED_LEVELS.iter();
    all.extend(levels.map(|(level, _)| escaped_level(level)));
    all
}

/// The words of a table without their values.
pub fn texts<V>(words: &Words<V>) -> Vec<String> {
    words.iter().map(|(word, _)| word.to_string()).collect()
}

/// The codes of a coefficient, the first of a non-intra block or another; escapes only with run 0 and run 63.
pub fn coefficient_texts(first: bool) -> Vec<String> {
    let place = if first {
        Place::FirstCoefficient
    } else {
        Place::NextCoefficient
    };
    let levels = annex_b::ESCAPED_LEVELS.iter();
    let escapes = levels.flat_map(|(level, _)| [0, 63].map(|run| escape(run, level)));
    plain_coefficients(place).chain(escapes).collect()
}

/// The codes of a first or later coefficient, without escapes.
fn plain_coefficients(place: Place) -> impl Iterator<Item = String> {
    let words = coefficient_words(place).iter();
    words.flat_map(|(word, value)| match value {
        Coefficient::Pair(..) => vec![format!("{word}0"), format!("{word}1")],
        Coefficient::EndOfBlock => vec![word.to_string()],
        Coefficient::Escape => Vec::new(),
    })
}

/// An escape as it counts for its run, with any level.
fn escaped_run(place: Place, run: usize) -> Code {
    (place, escape(run, ""))
}

/// An escape as it counts for its level, with any run and at any place.
fn escaped_level(level: &str) -> Code {
    (Place::NextCoefficient, format!("000001, {level}"))
}

/// What a code counts for in `all_words`: an escape counts for its run and for its level.
pub fn counted(code: &Code) -> Vec<Code> {
    let (place, word) = code;
    let coefficient = matches!(place, Place::FirstCoefficient | Place::NextCoefficient);
    if coefficient && word.starts_with("000001") {
        let (run, level) = word.split_at(12);
        return vec![(*place, run.to_string()), escaped_level(level)];
    }
    vec![code.clone()]
}
