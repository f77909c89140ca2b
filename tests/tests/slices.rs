//! Tests the other decoder's reader of raw slices against the fixtures, and its tables.

use format3_tests::decoder::annex_b::{self, Increment};
use format3_tests::decoder::bits::Bits;
use format3_tests::decoder::refusals::Refusal;
use format3_tests::decoder::{reconstruct, Given, ENTRIES};
use format3_tests::fixtures::{slice_fixtures, stream_fixtures, SliceFixture};
use format3_tests::generator::slice_case;

#[test]
fn slices_have_the_answers_and_records_of_the_fixtures() {
    let fixtures = slice_fixtures();
    assert_eq!(fixtures.len(), 363);
    for fixture in fixtures {
        assert_eq!(fixture.check(ENTRIES.read_slice), Ok(()));
    }
}

#[test]
fn slices_of_the_streams_have_the_records_of_the_reels() {
    let slices: Result<usize, String> = stream_fixtures()
        .iter()
        .map(|fixture| fixture.check_slices(ENTRIES.read_slice))
        .sum();
    assert_eq!(slices, Ok(298));
}

#[test]
fn streams_play_to_the_pictures_of_the_fixtures() {
    for fixture in stream_fixtures() {
        assert_eq!(fixture.check_stream(&ENTRIES), Ok(()));
    }
}

/// Reports a wrong answer, and a byte written past the records or for a refused slice.
#[test]
fn a_fixture_is_not_met_by_a_wrong_reader() {
    let unmet = |read_slice| {
        let fixtures = slice_fixtures();
        let unmet = |fixture: &&SliceFixture| fixture.check(read_slice).is_err();
        fixtures.iter().filter(unmet).count()
    };
    assert_eq!(unmet(ENTRIES.read_slice), 0);
    assert!(
        unmet(|slice, given, buffer| {
            let answer = (ENTRIES.read_slice)(slice, given, buffer);
            if let Some(past) = buffer.get_mut(answer.written) {
                *past = 0;
            }
            answer
        }) > 300
    );
    assert!(
        unmet(|slice, given, buffer| {
            let mut answer = (ENTRIES.read_slice)(slice, given, buffer);
            answer.bit = 7 - answer.bit;
            answer
        }) > 300
    );
}

/// The answers for a text of bits and a list of words: for each start of the text, and for the whole.
fn answers<W: AsRef<str>, V: Copy>(words: &[(W, V)], text: &str) -> Vec<Option<Refusal>> {
    let answer = |length| {
        let mut bits = Bits::of_text(text[..length].into());
        bits.code(words).err().map(|stop| stop.refusal)
    };
    (0..=text.len()).map(answer).collect()
}

/// The shortest texts that begin no word, in order: a text that begins a word is tried with either bit after it.
fn begin_no_code<W: AsRef<str>, V: Copy>(words: &[(W, V)]) -> Vec<String> {
    let mut found = Vec::new();
    let mut begun = vec![String::new()];
    while let Some(text) = begun.pop() {
        match answers(words, &text).last() {
            Some(Some(Refusal::SliceCut)) => {
                begun.extend(["1", "0"].map(|bit| text.clone() + bit));
            }
            Some(Some(Refusal::SliceCode)) => found.push(text),
            _ => (),
        }
    }
    found
}

/// No word is the start of another: each is read as itself, and is 25 before its end. The shortest texts that begin no word are
/// `no_codes`.
fn check_table<W: AsRef<str>, V: Copy>(words: &[(W, V)], no_codes: &str) {
    for (word, _) in words {
        let mut expected = vec![Some(Refusal::SliceCut); word.as_ref().len()];
        expected.push(None);
        assert_eq!(answers(words, word.as_ref()), expected);
    }
    let expected: Vec<&str> = no_codes.split_whitespace().collect();
    assert_eq!(begin_no_code(words), expected);
}

/// "Words that begin no code (minimal), a computed test against transcription errors".
#[test]
fn the_tables_are_prefix_free_and_leave_these_words_out() {
    let after_escape: Vec<(&str, Increment)> = annex_b::INCREMENTS
        .iter()
        .copied()
        .filter(|(_, value)| *value != Increment::Stuffing)
        .collect();
    check_table(
        annex_b::INCREMENTS,
        "00000000 00000001001 0000000101 0000000110 00000001110 00000010",
    );
    check_table(
        &after_escape,
        "00000000 00000001001 0000000101 000000011 00000010",
    );
    check_table(annex_b::I_TYPES, "00");
    check_table(annex_b::P_TYPES, "000000");
    check_table(annex_b::B_TYPES, "000000");
    check_table(annex_b::PATTERNS, "00000000");
    check_table(annex_b::MOTION_CODES, "0000000 00000010");
    check_table(annex_b::LUMA_DC_SIZES, "1111111");
    check_table(annex_b::CHROMA_DC_SIZES, "11111111");
    check_table(&annex_b::FIRST_COEFFICIENTS, "000000000000");
    check_table(&annex_b::NEXT_COEFFICIENTS, "000000000000");
    check_table(
        &annex_b::ESCAPED_LEVELS,
        "000000000 1000000000000000 1000000010000001 100000001000001 10000000100001 1000000010001 \
         100000001001 10000000101 1000000011",
    );
}

/// "The strict reader never answers 3, 4 or 6 to the records of an accepted slice put behind a header of the same numbers."
#[test]
fn records_of_accepted_slices_are_whole() {
    let mut accepted = 0;
    for number in 0..2000 {
        let mut case = slice_case(5, number);
        let answer = (ENTRIES.read_slice)(&case.slice, case.given, &mut case.buffer);
        if answer.number == 0 {
            let file = [&file_start(case.given), &case.buffer[..answer.written]].concat();
            let bytes = 384 * (case.given.width * case.given.height) as usize;
            let lent = case
                .given
                .f_codes
                .map(|f_code| vec![0; if f_code > 0 { bytes } else { 0 }]);
            let picture = reconstruct(&file, &lent[0], &lent[1], &mut vec![0; bytes]);
            assert!(
                ![3, 4, 6].contains(&picture.number),
                "slice {number}: {picture:?}"
            );
            accepted += 1;
        }
    }
    assert!(accepted > 500);
}

/// A version and the header with these numbers.
fn file_start(given: Given) -> Vec<u8> {
    let header = given.fields().map(|field| field as u8);
    [&[3, 0, 8, 1][..], &header].concat()
}
