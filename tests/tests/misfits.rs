//! Tests the pictures with vectors that don't fit: the first such vector decides the answer, no arrangement is missing, and panels
//! that test the vectors in a wrong order, or too many of them, are found.

mod common;
mod found;

use common::{file_of, I, SLICE};
use format3_tests::compare_misfits::{arrangements, misfits, require_every_arrangement};
use format3_tests::decoder::file::PictureType;
use format3_tests::decoder::{reconstruct, Answer, Entries, Reconstruct, ENTRIES};
use format3_tests::generator::{misfit_cases, Arrangement, Fit};
use found::require_found;

const SEED: u64 = 1;

/// The number of the first vector that doesn't fit, or 0.
fn first_misfit(numbered: impl IntoIterator<Item = (Fit, u32)>) -> u32 {
    let mut numbered = numbered.into_iter();
    let first = numbered.find(|(fit, _)| *fit == Fit::Outside);
    first.map_or(0, |(_, number)| number)
}

/// Each macroblock's forward vector with 18, then its backward one with 23.
fn numbered(macroblocks: impl IntoIterator<Item = [Fit; 2]>) -> impl Iterator<Item = (Fit, u32)> {
    let numbered = |[forward, backward]: [Fit; 2]| [(forward, 18), (backward, 23)];
    macroblocks.into_iter().flat_map(numbered)
}

/// Request No. 1: skipped macroblocks by address, then the record's own; each forward (18), then backward (23).
#[test]
fn misfits_are_answered_by_the_first() {
    for (number, mut case) in misfit_cases(SEED).into_iter().enumerate() {
        let answer = reconstruct(&case.file, &case.forward, &case.backward, &mut case.output);
        let arrangements = arrangements(&case.file);
        let last = arrangements.last().expect("a macroblock record is read");
        let first = first_misfit(numbered(last.macroblocks()));
        assert_eq!(answer.number, first, "misfit {number}");
        assert_eq!(answer.number == 0, case.legal, "misfit {number}");
    }
}

/// A missing arrangement is reported.
///
/// In B, `k` >= 1 skipped macroblocks have 2^k arrangements in a direction they use and one in a direction they don't; they use at
/// least one. The record's own macroblock has 3 in each direction. So there are 9 arrangements if none is skipped,
/// 9 * (3 * 3 - 1) if one is, and 9 * (5 * 5 - 1) if two are. Those with an unused direction count twice, once for each kind of
/// past; 4 * 4^k have none. All count four times, once for each pair of full-pel flags.
///
/// In P, the record's own macroblock has 4: intra, without a vector, with one that fits, and with one that doesn't. All but the
/// last two, if none is skipped, count twice, once for each kind of past. All count twice, once for each full-pel flag.
#[test]
fn missing_arrangements_are_reported() {
    let made = misfits(&ENTRIES, SEED).expect("the decoder is itself");
    let required = made.kinds.keys().filter(|arrangement| {
        let mut counts = made.kinds.clone();
        counts.remove(arrangement);
        require_every_arrangement(&counts).is_err()
    });
    let b = 2 * (9 + 9 * 8 + 9 * 24) - 4 * (1 + 4 + 16);
    let p = 2 * (4 + 4 + 4) - 2;
    assert_eq!(required.count(), 4 * b + 2 * p);
}

/// Two macroblocks side by side, each in a slice of its own. Each case is the index where more records are put in, these records,
/// and how many arrangements there are then. A record that is refused because its vector doesn't fit has one too.
#[test]
fn arrangements_end_at_the_first_record_that_is_refused() {
    let p: &[u8] = &[1, 2, 1, 2, 0, 1, 0, 0];
    let fits: &[u8] = &[4, 2, 0, 1, 0, 0, 0, 0];
    let down: &[u8] = &[4, 2, 0, 1, 0, 0, 1, 0];
    let next_slice: &[u8] = &[3, 8, 0, 1];
    let matrix = &[&[2, 1], &[1; 64][..]].concat()[..];
    let cases: &[(usize, &[&[u8]], usize)] = &[
        (1, &[], 2),
        (1, &[matrix], 2),
        (1, &[matrix, matrix], 0),
        (1, &[fits], 0),
        (2, &[SLICE], 0),
        (2, &[down], 1),
        (3, &[matrix], 1),
        (3, &[I], 1),
        (3, &[SLICE], 1),
        (3, &[next_slice], 1),
    ];
    for (index, more, count) in cases {
        let mut records = vec![p, SLICE, fits, next_slice, fits];
        records.splice(index..index, more.iter().copied());
        let found = arrangements(&file_of(&records));
        assert_eq!(found.len(), *count, "{more:?} at {index}");
    }
}

/// The answer to a picture, with another number if the refused record has a vector that doesn't fit.
fn answer_by(
    file: &[u8],
    references: [&[u8]; 2],
    output: &mut [u8],
    number: fn(&Arrangement) -> u32,
) -> Answer {
    let [forward, backward] = references;
    let answer = (ENTRIES.reconstruct)(file, forward, backward, output);
    match (answer.number, arrangements(file).last()) {
        (18 | 23, Some(arrangement)) => Answer {
            number: number(arrangement),
            ..answer
        },
        _ => answer,
    }
}

fn backward_first(arrangement: &Arrangement) -> u32 {
    let numbered = |[forward, backward]: [Fit; 2]| [(backward, 23), (forward, 18)];
    first_misfit(arrangement.macroblocks().flat_map(numbered))
}

fn forward_of_all_first(arrangement: &Arrangement) -> u32 {
    let forward = arrangement.macroblocks().map(|[forward, _]| (forward, 18));
    let backward = arrangement
        .macroblocks()
        .map(|[_, backward]| (backward, 23));
    first_misfit(forward.chain(backward))
}

fn own_first(arrangement: &Arrangement) -> u32 {
    let skipped = arrangement.skipped.iter().copied();
    first_misfit(numbered([arrangement.own].into_iter().chain(skipped)))
}

fn last_skipped_first(arrangement: &Arrangement) -> u32 {
    let skipped = arrangement.skipped.iter().copied().rev();
    first_misfit(numbered(skipped.chain([arrangement.own])))
}

/// The comparison must find a decoder with this `reconstruct`.
fn require_wrong_found(name: &str, reconstruct: Reconstruct) {
    let wrong = Entries {
        reconstruct,
        ..ENTRIES
    };
    require_found(name, misfits(&wrong, SEED));
}

/// Panels that test the vectors of a record in a wrong order.
#[test]
fn wrong_orders_are_found() {
    let one_number: Reconstruct =
        |file, forward, backward, output| answer_by(file, [forward, backward], output, |_| 18);
    require_wrong_found("one number for both directions", one_number);
    let backward_first: Reconstruct = |file, forward, backward, output| {
        answer_by(file, [forward, backward], output, backward_first)
    };
    require_wrong_found("backward before forward", backward_first);
    let forward_of_all_first: Reconstruct = |file, forward, backward, output| {
        answer_by(file, [forward, backward], output, forward_of_all_first)
    };
    require_wrong_found("all forward vectors first", forward_of_all_first);
    let own_first: Reconstruct =
        |file, forward, backward, output| answer_by(file, [forward, backward], output, own_first);
    require_wrong_found("its own vectors before skipped ones", own_first);
    let last_skipped_first: Reconstruct = |file, forward, backward, output| {
        answer_by(file, [forward, backward], output, last_skipped_first)
    };
    require_wrong_found("skipped macroblocks from the last", last_skipped_first);
}

/// The answer to a picture, with another number if it is accepted and a record that is `tested` has an unused past that doesn't
/// fit.
fn answer_by_pasts(
    file: &[u8],
    references: [&[u8]; 2],
    output: &mut [u8],
    number: u32,
    tested: fn(&Arrangement) -> bool,
) -> Answer {
    let [forward, backward] = references;
    let answer = (ENTRIES.reconstruct)(file, forward, backward, output);
    let refused = |arrangement: &Arrangement| arrangement.past_outside && tested(arrangement);
    if answer.number != 0 || !arrangements(file).iter().any(refused) {
        return answer;
    }
    Answer { number, ..answer }
}

/// True if every macroblock uses the forward direction, so that an unused past is a backward one.
fn all_use_forward(arrangement: &Arrangement) -> bool {
    let mut macroblocks = arrangement.macroblocks();
    macroblocks.all(|[forward, _]| forward != Fit::Unused)
}

/// True if every macroblock uses the backward direction, so that an unused past is a forward one.
fn all_use_backward(arrangement: &Arrangement) -> bool {
    let mut macroblocks = arrangement.macroblocks();
    macroblocks.all(|[_, backward]| backward != Fit::Unused)
}

fn predicted_in_p(arrangement: &Arrangement) -> bool {
    arrangement.picture_type == PictureType::P && !arrangement.intra
}

/// Panels that also test the past of a direction where a macroblock predicts without it: from the other direction alone or, in P,
/// with vector 0.
#[test]
fn tests_of_unused_pasts_are_found() {
    let backward_pasts: Reconstruct = |file, forward, backward, output| {
        answer_by_pasts(file, [forward, backward], output, 23, all_use_forward)
    };
    require_wrong_found("a test of unused backward pasts", backward_pasts);
    let forward_pasts: Reconstruct = |file, forward, backward, output| {
        answer_by_pasts(file, [forward, backward], output, 18, all_use_backward)
    };
    require_wrong_found("a test of unused forward pasts", forward_pasts);
    let p_pasts: Reconstruct = |file, forward, backward, output| {
        answer_by_pasts(file, [forward, backward], output, 18, predicted_in_p)
    };
    require_wrong_found("a test of unused pasts in P", p_pasts);
}
