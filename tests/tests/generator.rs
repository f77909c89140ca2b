//! Tests the generator: its legal cases are accepted, and its damaged ones produce every answer.

use format3_tests::compare::{
    header_answers, headers, picture_answers, require_every_answer, small_picture_answers, Counts,
};
use format3_tests::compare_room_slices::{require_every_room_trial, room_slices};
use format3_tests::compare_slices::{slices, SLICE_ANSWERS};
use format3_tests::decoder::panel::{play, PANEL_LIMITS};
use format3_tests::decoder::{reconstruct, reconstruct_small, Reconstruct, ENTRIES};
use format3_tests::generator::{case, reel, slice_case, small_cases, small_slice_cases, ROOM};

const SEED: u64 = 1;

/// How often a reader gives each answer to single pictures. It accepts a legal one, unless that is above its limit, and refuses a
/// header that is refused by the same number.
fn answers_to_single_pictures(reader: Reconstruct) -> Counts {
    let mut counts = Counts::new();
    for number in 0..3000 {
        let mut case = case(SEED, number);
        let answer = reader(&case.file, &case.forward, &case.backward, &mut case.output);
        assert!(
            !case.legal || [0, 27].contains(&answer.number),
            "case {number}: {answer:?}"
        );
        *counts.entry(answer.number).or_default() += 1;
        let (header, _) = (ENTRIES.read_header)(&case.file);
        assert!(
            header == 0 || header == answer.number,
            "case {number}: {header}, {answer:?}"
        );
    }
    counts
}

/// And no other answer.
#[test]
fn single_pictures_bring_about_every_answer() {
    let counts = answers_to_single_pictures(reconstruct);
    assert!(counts.into_keys().eq(picture_answers()));
    let counts = answers_to_single_pictures(reconstruct_small);
    assert!(counts.into_keys().eq(small_picture_answers()));
}

#[test]
fn headers_bring_about_every_answer() {
    let counts = headers(&ENTRIES).expect("the decoder is itself");
    assert_eq!(require_every_answer(&counts, header_answers()), Ok(()));
}

#[test]
fn reels_bring_about_every_answer_and_word() {
    let mut counts = Counts::new();
    let mut words = Vec::new();
    for number in 0..1000 {
        let reel = reel(SEED, number);
        for line in play(&reel.bytes, PANEL_LIMITS, reconstruct) {
            let accepted = line.picture.is_some();
            assert!(!reel.legal || accepted, "reel {number}: {}", line.text);
            match line.answer {
                Some(answer) => *counts.entry(answer.number).or_default() += 1,
                None => words.push(line.text),
            }
        }
    }
    assert_eq!(require_every_answer(&counts, picture_answers()), Ok(()));
    assert!(words.iter().any(|word| word == "long"));
    assert!(words.iter().any(|word| word.starts_with("cut ")));
}

/// Each field of small pictures, at and just past the ends of its range, produces every refusal that a field can cause.
#[test]
fn changed_fields_bring_about_every_refusal_of_a_field() {
    let mut counts = Counts::new();
    for (file, case) in (SEED..SEED + 3).flat_map(small_cases) {
        for changed in file.each_field_changed() {
            let mut output = case.output.clone();
            let answer = reconstruct(&changed, &case.forward, &case.backward, &mut output);
            *counts.entry(answer.number).or_default() += 1;
        }
    }
    // No field empties the file or changes the references that are lent.
    let by_field = picture_answers().filter(|answer| ![1, 20, 21].contains(answer));
    assert_eq!(require_every_answer(&counts, by_field), Ok(()));
}

/// All answers occur and, as `slices` itself checks, every word of Annex B.
#[test]
fn slices_bring_about_every_answer_and_code() {
    let counts = slices(&ENTRIES, SEED, 6000).expect("every code stands in a slice");
    assert_eq!(require_every_answer(&counts, SLICE_ANSWERS), Ok(()));
    for number in 0..1000 {
        let mut case = slice_case(SEED, number);
        let answer = (ENTRIES.read_slice)(&case.slice, case.given, &mut case.buffer);
        assert!(
            !case.legal || answer.number == 0,
            "slice {number}: {answer:?}"
        );
    }
}

#[test]
fn few_slices_are_told_to_lack_codes() {
    assert!(slices(&ENTRIES, SEED, 10).is_err());
}

/// Small slices with each bit, byte, length and number changed in turn produce every answer to a slice.
#[test]
fn changed_slices_bring_about_every_answer() {
    let mut counts = Counts::new();
    for case in (SEED..SEED + 3).flat_map(small_slice_cases) {
        for mut changed in case.each_change() {
            let answer = (ENTRIES.read_slice)(&changed.slice, changed.given, &mut changed.buffer);
            *counts.entry(answer.number).or_default() += 1;
        }
    }
    assert_eq!(require_every_answer(&counts, SLICE_ANSWERS), Ok(()));
}

/// There are 57 places around the room's end for I, and 29 each for P and B, each tried in seven ways. A missing trial is
/// reported.
#[test]
fn missing_room_trials_are_reported() {
    let made = room_slices(&ENTRIES, SEED).expect("the decoder is itself");
    let required = made.counts.keys().filter(|trial| {
        let mut counts = made.counts.clone();
        counts.remove(trial);
        require_every_room_trial(&counts).is_err()
    });
    assert_eq!(required.count(), 7 * (57 + 29 + 29));
}

/// The source of the reader under test says how large its room is.
#[test]
fn the_room_is_the_readers() {
    let source = include_str!("../../crates/mpeg1_reader/src/entry.rt");
    let shift = ROOM.trailing_zeros();
    assert_eq!(ROOM, 1 << shift);
    let room = format!("const ROOM_BYTES: usize = 1 << {shift};");
    assert!(source.contains(&room), "{room}");
}
