//! The entries of the code table in crates/mpeg1_tables, made from the other decoder's word lists.

use crate::decoder::annex_b::{self, Coefficient, Increment, Words};

/// How many bits an index has.
const INDEX_BITS: usize = 8;

/// The longest line that `rt fmt` makes of an array.
const LINE_LENGTH: usize = 99;

/// The entry of bits that end within a word.
const TRUNCATED: usize = 31;

const HEAD: &str = "\
// tests/src/bin/code_table.rs makes this file from the other decoder's word lists, and tests/tests/code_table.rs compares the two.
// The proof of `CodeTable::new` checks every entry against the word lists of Annex B.
use crate::table::TABLE_LENGTH;

pub(crate) const CODES: [u16; TABLE_LENGTH] = [
";

/// A row of the table: how many zeros come before the index, and the words with their values.
struct Row {
    zeros: usize,
    words: Vec<(String, usize)>,
}

impl Row {
    /// A word's value and length, as 32 × value + length; or 31 for bits that end within a word, or 0 for no code.
    fn entry(&self, index: usize) -> usize {
        let bits = format!("{index:0width$b}", width = self.zeros + INDEX_BITS);
        if let Some((word, value)) = self.words.iter().find(|(word, _)| bits.starts_with(word)) {
            return 32 * value + word.len();
        }
        let truncated = self.words.iter().any(|(word, _)| word.starts_with(&bits));
        if truncated {
            TRUNCATED
        } else {
            0
        }
    }
}

/// One row for each number of zeros.
fn rows<V: Copy>(zeros: &[usize], words: &Words<V>, value: impl Fn(V) -> usize) -> Vec<Row> {
    let words: Vec<_> = words
        .iter()
        .map(|&(word, v)| (word.into(), value(v)))
        .collect();
    let row = |&zeros| Row {
        zeros,
        words: words.clone(),
    };
    zeros.iter().map(row).collect()
}

fn increment(meaning: Increment) -> usize {
    match meaning {
        Increment::Count(count) => count,
        Increment::Stuffing => 34,
        Increment::Escape => 35,
    }
}

fn coefficient(meaning: Coefficient) -> usize {
    match meaning {
        Coefficient::Pair(run, level) => 64 * run + level as usize,
        Coefficient::EndOfBlock => 0,
        Coefficient::Escape => 64,
    }
}

fn all_rows() -> Vec<Row> {
    let stuffing = |(_, meaning): &&(_, Increment)| *meaning != Increment::Stuffing;
    let after_escape: Vec<_> = annex_b::INCREMENTS
        .iter()
        .filter(stuffing)
        .copied()
        .collect();
    [
        rows(&[0, 5], annex_b::INCREMENTS, increment),
        rows(&[0, 5], &after_escape, increment),
        rows(&[0], annex_b::I_TYPES, usize::from),
        rows(&[0], annex_b::P_TYPES, usize::from),
        rows(&[0], annex_b::B_TYPES, usize::from),
        rows(&[0, 5], annex_b::PATTERNS, usize::from),
        rows(&[0, 5], annex_b::MOTION_CODES, |code| (code + 16) as usize),
        rows(&[0], annex_b::LUMA_DC_SIZES, |size| size),
        rows(&[0], annex_b::CHROMA_DC_SIZES, |size| size),
        rows(&[0, 6, 8], &annex_b::NEXT_COEFFICIENTS, coefficient),
    ]
    .into_iter()
    .flatten()
    .collect()
}

/// The text of crates/mpeg1_tables/src/entries.rt, in the layout of `rt fmt`: as many entries on a line as fit.
pub fn entries_file() -> String {
    let mut text = String::from(HEAD);
    let mut line = String::from("   ");
    for row in all_rows() {
        for index in 0..1 << INDEX_BITS {
            let entry = format!(" {},", row.entry(index));
            if line.len() + entry.len() > LINE_LENGTH {
                text += &line;
                text += "\n";
                line = "   ".into();
            }
            line += &entry;
        }
    }
    text + &line + "\n];\n"
}
