//! The bits of a slice, and reading a code from them.

use super::refusals::Refusal;

/// Bits in reading order, as a text of `0` and `1`, and how many of them are read.
pub struct Bits {
    text: String,
    pub at: usize,
}

/// A refusal: why, and at which bit.
#[derive(Clone, Copy, Debug, PartialEq, Eq)]
pub struct Stop {
    pub refusal: Refusal,
    pub at: usize,
}

impl Bits {
    /// The bits of bytes, most significant first.
    pub fn of_bytes(bytes: &[u8]) -> Bits {
        Bits::of_text(bytes.iter().map(|byte| format!("{byte:08b}")).collect())
    }

    pub fn of_text(text: String) -> Bits {
        Bits { text, at: 0 }
    }

    /// All bits left.
    pub fn left(&self) -> &str {
        &self.text[self.at..]
    }

    /// The value of the word that the bits left start with. "24 when the bits left, however they went on, begin no code"; 25 when
    /// they end within a word.
    pub fn code<W: AsRef<str>, V: Copy>(&mut self, words: &[(W, V)]) -> Result<V, Stop> {
        let left = self.left();
        let found = words
            .iter()
            .find(|(word, _)| left.starts_with(word.as_ref()));
        if let Some((word, value)) = found {
            self.at += word.as_ref().len();
            return Ok(*value);
        }
        let begun = words
            .iter()
            .any(|(word, _)| word.as_ref().starts_with(left));
        Err(Stop {
            refusal: if begun {
                Refusal::SliceCut
            } else {
                Refusal::SliceCode
            },
            at: self.at,
        })
    }

    /// A number of this many bits, at least one: every word of that length is a code.
    pub fn number(&mut self, width: usize) -> Result<usize, Stop> {
        let Some(word) = self.left().get(..width) else {
            return Err(Stop {
                refusal: Refusal::SliceCut,
                at: self.at,
            });
        };
        let number = word
            .bytes()
            .fold(0, |number, bit| 2 * number + usize::from(bit - b'0'));
        self.at += width;
        Ok(number)
    }

    /// Reads one code in several steps: if one of them stops, the code is refused at its start.
    pub fn one_code<V>(
        &mut self,
        read: impl FnOnce(&mut Bits) -> Result<V, Stop>,
    ) -> Result<V, Stop> {
        let start = self.at;
        read(self).map_err(|stop| Stop { at: start, ..stop })
    }
}
