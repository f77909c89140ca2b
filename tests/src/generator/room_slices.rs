//! Makes slices whose records end near the end of the room that the reader under test first writes to: each is put together from
//! random macroblocks, so that records end at given offsets.

use super::codes::{bytes_of_text, macroblock, slice_head, text_of, word_of, SliceStyle};
use super::picture::random_header;
use super::slice_damage::HEADER_BITS;
use super::slices::{given, SliceCase};
use super::TYPES;
use crate::decoder::annex_b::Increment;
use crate::decoder::file::{Header, PictureType};
use crate::decoder::size::Size;
use crate::decoder::slice::read_slice;
use crate::decoder::Given;
use crate::random::Random;

/// How many bytes of records the room holds.
pub const ROOM: usize = 8192;

/// How far from the room's end slices end at each byte: the length of the shortest macroblock record. An intra one has six
/// blocks, and any other at least a vector or a pair.
pub fn reach(picture_type: PictureType) -> usize {
    match picture_type {
        PictureType::I => 24,
        PictureType::P | PictureType::B => 10,
    }
}

/// What is done with a slice: it is read into a buffer that just holds its records, that is a byte too short, or longer; or it is
/// cut, or has a wrong code, before or after the first macroblock whose record doesn't fit the room.
#[derive(Clone, Copy, Debug, PartialEq, Eq, PartialOrd, Ord)]
pub enum RoomTrial {
    Exact,
    Short,
    Longer,
    CutBefore,
    CutAfter,
    WrongBefore,
    WrongAfter,
}

pub const TRIALS: [RoomTrial; 7] = {
    use RoomTrial::{CutAfter, CutBefore, Exact, Longer, Short, WrongAfter, WrongBefore};
    [
        Exact,
        Short,
        Longer,
        CutBefore,
        CutAfter,
        WrongBefore,
        WrongAfter,
    ]
};

/// A slice to be tried in each way. Its codes are texts of `0` and `1`.
pub struct RoomSlice {
    pub picture_type: PictureType,
    given: Given,
    head: String,
    /// The slice's macroblocks, and one more, which only damaged slices have.
    macroblocks: Vec<String>,
    /// The length of the slice's records.
    length: usize,
    /// The first macroblock whose record doesn't fit the room; if all do, the one that only damaged slices have.
    first_past: usize,
}

/// One trial of a slice, and the bits at which its macroblocks start.
pub struct RoomCase {
    pub case: SliceCase,
    pub starts: Vec<usize>,
}

/// The slices of each type. One is missing if no macroblocks in a row have the length it needs.
pub fn room_slices(seed: u64) -> Vec<RoomSlice> {
    let slices = TYPES.map(|picture_type| {
        let random = &mut Random::new(&[seed, u64::from(picture_type.letter()), 7]);
        let pool = Pool::new(random, picture_type);
        let chosen = pool.slices(random);
        let made = chosen.into_iter().flatten();
        made.map(|chosen| pool.slice(random, &chosen))
            .collect::<Vec<_>>()
    });
    slices.into_iter().flatten().collect()
}

/// Where each of the records ends.
pub fn record_ends(records: &[u8]) -> Vec<usize> {
    let mut ends = Vec::new();
    let mut end = 0;
    while let [high, low, ..] = records[end..] {
        end += 2 + usize::from(u16::from_be_bytes([high, low]));
        ends.push(end);
    }
    ends
}

/// How many macroblocks there are to choose from: enough to find some in a row with any length of records.
const POOL: usize = 2000;

/// Macroblocks to put slices together from.
struct Pool {
    header: Header,
    style: SliceStyle,
    macroblocks: Vec<String>,
    /// The length of each macroblock's record.
    lengths: Vec<usize>,
}

/// The length of a slice's record.
const SLICE_RECORD: usize = 6;

/// The macroblocks of a slice, as indices of a pool.
type Chosen = Vec<usize>;

impl Pool {
    fn new(random: &mut Random, picture_type: PictureType) -> Pool {
        let size = Size {
            width: 22,
            height: 18,
        };
        let header = random_header(random, picture_type, size);
        let style = SliceStyle {
            macroblocks: 1,
            most_pairs: 3,
            extra_once_in: 8,
            stuffing_once_in: 8,
            escape_once_in: 8,
        };
        let any_macroblock = |_| {
            let most_pairs = random.pick(&[0, 1, 3, 8, 8, 64]);
            let style = SliceStyle {
                most_pairs,
                ..style
            };
            text_of(&macroblock(random, &header, style))
        };
        let macroblocks: Vec<_> = (0..POOL).map(any_macroblock).collect();
        let head = text_of(&slice_head(random, &header, style));
        let slice = bytes_of_text(&(head + &macroblocks.concat()));
        let mut records = vec![0; 1 << 20];
        let read = read_slice(&slice, given(&header), &mut records);
        let ends = record_ends(&records[..read.written]);
        Pool {
            header,
            style,
            macroblocks,
            lengths: ends.windows(2).map(|pair| pair[1] - pair[0]).collect(),
        }
    }

    /// Slices that end at the room's end or up to `reach` bytes before or after it, or a record's length; that have a record which
    /// starts there or up to three bytes before; and that are two or three rooms long.
    fn slices(&self, random: &mut Random) -> Vec<Option<Chosen>> {
        let mut slices = Vec::new();
        let reach = reach(self.header.picture_type);
        for end in ROOM - reach..=ROOM + reach {
            slices.push(self.ending(random, &[end]));
        }
        let last = random.below(POOL);
        for before in [ROOM - 2 * self.lengths[last], ROOM] {
            let slice = self.ending(random, &[before]);
            slices.push(slice.map(|slice| [slice, vec![last]].concat()));
        }
        for end in ROOM - 3..=ROOM + 1 {
            let slice = self.ending(random, &[end]);
            slices.push(slice.map(|slice| [slice, vec![random.below(POOL)]].concat()));
        }
        for more in [ROOM, 2 * ROOM] {
            for end in ROOM - 2..=ROOM + 1 {
                slices.push(self.ending(random, &[end, end + more]));
            }
        }
        slices
    }

    /// Macroblocks of a slice in which a record ends at each of these offsets, the last of them at the last.
    fn ending(&self, random: &mut Random, ends: &[usize]) -> Option<Chosen> {
        let mut chosen = Chosen::new();
        let mut at = SLICE_RECORD;
        for end in ends {
            chosen.extend(self.row(random, end - at)?);
            at = *end;
        }
        Some(chosen)
    }

    /// Macroblocks in a row whose records have this length. The first follows the last.
    fn row(&self, random: &mut Random, length: usize) -> Option<Chosen> {
        let from = random.below(POOL);
        let row = |start: usize| {
            let mut rest = length;
            let mut row = Chosen::new();
            for index in (start..).map(|index| index % POOL) {
                if rest == 0 {
                    return Some(row);
                }
                rest = rest.checked_sub(self.lengths[index])?;
                row.push(index);
            }
            None
        };
        (from..from + POOL).find_map(row)
    }

    fn slice(&self, random: &mut Random, chosen: &[usize]) -> RoomSlice {
        let mut length = SLICE_RECORD;
        let mut first_past = 0;
        for index in chosen {
            length += self.lengths[*index];
            first_past += usize::from(length <= ROOM);
        }
        let next = random.below(POOL);
        let with_next = chosen.iter().chain([&next]);
        RoomSlice {
            picture_type: self.header.picture_type,
            given: given(&self.header),
            head: text_of(&slice_head(random, &self.header, self.style)),
            macroblocks: with_next
                .map(|index| self.macroblocks[*index].clone())
                .collect(),
            length,
            first_past,
        }
    }
}

impl RoomSlice {
    /// The slice tried in this way.
    pub fn trial(&self, random: &mut Random, trial: RoomTrial) -> RoomCase {
        let mut head = self.head.clone();
        let mut macroblocks = self.macroblocks.clone();
        let last = macroblocks.len() - 1;
        match trial {
            RoomTrial::Exact | RoomTrial::Short | RoomTrial::Longer => drop(macroblocks.pop()),
            RoomTrial::CutBefore => cut(random, &mut head, &mut macroblocks, self.first_past - 1),
            RoomTrial::CutAfter => cut(random, &mut head, &mut macroblocks, self.first_past),
            RoomTrial::WrongBefore => macroblocks[self.first_past - 1].insert_str(0, &wrong_code()),
            RoomTrial::WrongAfter => macroblocks[last].insert_str(0, &wrong_code()),
        }
        let length = match trial {
            RoomTrial::Exact => self.length,
            RoomTrial::Short => self.length - 1,
            RoomTrial::Longer => self.length + random.pick(&[1, 2, 100, 3000]),
            _ => random.pick(&[self.length, self.length - 1, 2 * self.length]),
        };
        let case = SliceCase {
            slice: bytes_of_text(&(head.clone() + &macroblocks.concat())),
            given: self.given,
            buffer: random.bytes(length),
            codes: Vec::new(),
            legal: matches!(trial, RoomTrial::Exact | RoomTrial::Longer),
        };
        let mut end = head.len();
        let starts = macroblocks.iter().map(|macroblock| {
            end += macroblock.len();
            end - macroblock.len()
        });
        RoomCase {
            case,
            starts: starts.collect(),
        }
    }
}

/// Ends the slice within this macroblock, after its first 1. Extra information, nine bits at a time, is inserted until the slice
/// ends with a byte.
fn cut(random: &mut Random, head: &mut String, macroblocks: &mut Vec<String>, within: usize) {
    macroblocks.truncate(within + 1);
    let last = &mut macroblocks[within];
    let begun = 1 + last.find('1').expect("an increment has a 1");
    last.truncate(begun + random.below(last.len() - begun));
    let bits = head.len() + macroblocks.iter().map(String::len).sum::<usize>();
    let missing = (8 - bits % 8) % 8;
    head.insert_str(HEADER_BITS, &"101010101".repeat(missing));
}

/// Stuffing after an escape.
fn wrong_code() -> String {
    [Increment::Escape, Increment::Stuffing]
        .map(word_of)
        .concat()
}
