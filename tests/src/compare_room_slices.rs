//! Compares slices whose records end near the end of the room that the reader under test first writes to.

use std::collections::BTreeMap;

use crate::compare_slices::same_slice;
use crate::decoder::file::PictureType;
use crate::decoder::refusals::Refusal;
use crate::decoder::{Entries, SliceAnswer, ENTRIES};
use crate::generator::{
    reach, record_ends, room_slices as generated, RoomCase, RoomSlice, RoomTrial, SliceCase, ROOM,
    TRIALS, TYPES,
};
use crate::random::Random;

/// Where a slice's records lie around the room's end.
#[derive(Clone, Copy, Debug, PartialEq, Eq, PartialOrd, Ord)]
pub enum RoomPlace {
    /// They end this many bytes after it.
    End(i64),
    /// They end before it, by the length of the last record.
    RecordBefore,
    /// They end after it, by the length of the last record.
    RecordAfter,
    /// A record ends there, and more follow.
    RecordEnd,
    /// A record starts this many bytes before it.
    RecordStart(usize),
    /// They fill this many rooms.
    Rooms(usize),
}

/// How often each trial of each place occurred, by the letter of the picture's type.
pub type RoomCounts = BTreeMap<(char, RoomPlace, RoomTrial), usize>;

/// How many slices were compared, and what they tested.
pub struct RoomSlices {
    pub compared: usize,
    pub counts: RoomCounts,
}

/// Compares slices around the room's end, each tried in every way. Also fails if a place or a trial of it is missing. Both are
/// told from the other decoder's records and answers.
pub fn room_slices(tested: &Entries, seed: u64) -> Result<RoomSlices, String> {
    let mut counts = RoomCounts::new();
    let mut compared = 0;
    for (number, slice) in generated(seed).iter().enumerate() {
        let random = &mut Random::new(&[seed, number as u64, 8]);
        let ends = ends(&slice.trial(random, RoomTrial::Exact).case);
        for trial in TRIALS {
            let tried = slice.trial(random, trial);
            let what = || format!("{trial:?} of room slice {number} of seed {seed}");
            let answer = same_slice(tested, &tried.case, what)?;
            compared += 1;
            count(&mut counts, slice, &ends, trial_of(answer, &ends, &tried));
        }
    }
    require_every_room_trial(&counts)?;
    Ok(RoomSlices { compared, counts })
}

/// Fails if a place never occurred, or was not tried in every way.
pub fn require_every_room_trial(counts: &RoomCounts) -> Result<(), String> {
    for picture_type in TYPES {
        let letter = picture_type.letter();
        for place in all_places(picture_type) {
            for trial in TRIALS {
                if !counts.contains_key(&(letter, place, trial)) {
                    return Err(format!(
                        "no {trial:?} of {place:?} in a slice of type {letter}"
                    ));
                }
            }
        }
    }
    Ok(())
}

/// The places that slices of this type must have.
fn all_places(picture_type: PictureType) -> Vec<RoomPlace> {
    let reach = reach(picture_type) as i64;
    let mut places: Vec<_> = (-reach..=reach).map(RoomPlace::End).collect();
    places.extend([
        RoomPlace::RecordBefore,
        RoomPlace::RecordAfter,
        RoomPlace::RecordEnd,
        RoomPlace::RecordStart(1),
        RoomPlace::RecordStart(2),
        RoomPlace::RecordStart(3),
        RoomPlace::Rooms(2),
        RoomPlace::Rooms(3),
    ]);
    places
}

/// Where the records of a slice end, by the other decoder; empty if it is refused.
fn ends(exact: &SliceCase) -> Vec<usize> {
    let mut records = exact.buffer.clone();
    let answer = (ENTRIES.read_slice)(&exact.slice, exact.given, &mut records);
    record_ends(&records[..answer.written])
}

/// Counts a trial of a slice whose records end at these offsets.
fn count(counts: &mut RoomCounts, slice: &RoomSlice, ends: &[usize], trial: Option<RoomTrial>) {
    let Some(trial) = trial else {
        return;
    };
    for place in places(ends) {
        let key = (slice.picture_type.letter(), place, trial);
        *counts.entry(key).or_default() += 1;
    }
}

/// Where records that end at these offsets lie.
fn places(ends: &[usize]) -> Vec<RoomPlace> {
    let [before @ .., last_start, end] = ends else {
        return Vec::new();
    };
    let past = *end as i64 - ROOM as i64;
    let last = (end - last_start) as i64;
    let mut places = vec![RoomPlace::End(past)];
    if past == -last {
        places.push(RoomPlace::RecordBefore);
    }
    if past == last {
        places.push(RoomPlace::RecordAfter);
    }
    for start in before.iter().chain([last_start]) {
        match ROOM.checked_sub(*start) {
            Some(0) => places.push(RoomPlace::RecordEnd),
            Some(left @ 1..=3) => places.push(RoomPlace::RecordStart(left)),
            _ => (),
        }
    }
    if end.is_multiple_of(ROOM) {
        places.push(RoomPlace::Rooms(end / ROOM));
    }
    places
}

/// What an answer shows to have been tried.
fn trial_of(answer: SliceAnswer, ends: &[usize], tried: &RoomCase) -> Option<RoomTrial> {
    const CODE: u32 = Refusal::SliceCode as u32;
    const CUT: u32 = Refusal::SliceCut as u32;
    const LENGTH: u32 = Refusal::RecordsLength as u32;
    let [_, macroblock_ends @ ..] = ends else {
        return None;
    };
    let length = *ends.last()?;
    let fit = macroblock_ends.iter().filter(|end| **end <= ROOM).count();
    let at = 8 * answer.byte + answer.bit;
    let begun = tried.starts.iter().filter(|start| **start <= at).count();
    let buffer = tried.case.buffer.len();
    match (answer.number, begun <= fit) {
        (0, _) if answer.written != length => None,
        (0, _) if buffer == length => Some(RoomTrial::Exact),
        (0, _) => Some(RoomTrial::Longer),
        (LENGTH, _) if buffer + 1 == length => Some(RoomTrial::Short),
        (CUT, true) => Some(RoomTrial::CutBefore),
        (CUT, false) => Some(RoomTrial::CutAfter),
        (CODE, true) => Some(RoomTrial::WrongBefore),
        (CODE, false) => Some(RoomTrial::WrongAfter),
        _ => None,
    }
}
