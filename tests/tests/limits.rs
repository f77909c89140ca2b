//! Tests the limits of the two readers: every kind of header around them occurs, pictures within both come out the same, and wrong
//! readers are found, such as one with another limit or one that tests it too late.

mod found;
mod missing;

use std::collections::BTreeSet;

use format3_tests::compare::headers;
use format3_tests::compare_limits::{limits, require_every_limit_kind};
use format3_tests::decoder::file::PictureType;
use format3_tests::decoder::refusals::Refusal;
use format3_tests::decoder::{
    reconstruct, reconstruct_small, reconstruct_within, Answer, Entries, Reconstruct, ENTRIES,
};
use format3_tests::generator::{all_limit_kinds, case, limit_cases, Case, LimitKind, TYPES};
use found::require_found;
use missing::require_missing_reported;

const SEED: u64 = 1;

const LIMIT_REFUSED: u32 = Refusal::MacroblockLimit as u32;

/// What the small reader answers to a picture above its limit.
const REFUSED: Answer = Answer {
    number: LIMIT_REFUSED,
    place: 1,
    made: 0,
    rows: 0,
};

/// What a reader answers to a case, and its output.
fn read(reader: Reconstruct, case: &Case) -> (Answer, Vec<u8>) {
    let mut output = case.output.clone();
    let answer = reader(&case.file, &case.forward, &case.backward, &mut output);
    (answer, output)
}

/// Request No. 4: "a picture within 99 comes out the same on both." Of a larger one, nothing is written.
#[test]
fn pictures_within_both_limits_come_out_the_same() {
    let random = (0..400).map(|number| case(SEED, number));
    for (number, case) in limit_cases(SEED).chain(random).enumerate() {
        let large = read(reconstruct, &case);
        let small = read(reconstruct_small, &case);
        assert!(!case.legal || large.0.number == 0, "case {number}");
        let (header, start) = (ENTRIES.read_header)(&case.file);
        if header == 0 && start.width * start.height > 99 {
            assert_eq!(small, (REFUSED, case.output), "case {number}");
        } else {
            assert_eq!(small, large, "case {number}");
        }
    }
}

/// A missing kind is reported.
///
/// There are 34 legal sizes. With each, the reader that takes 396 macroblocks accepts a picture, or refuses it by 3, 4, 7, 8, 19,
/// 20 or 21. With each of 17 illegal sizes it refuses one by 8. All of these are for each of three types.
#[test]
fn missing_kinds_are_reported() {
    let all = BTreeSet::from_iter(all_limit_kinds());
    assert_eq!(all.len(), 3 * (34 * 8 + 17));
    let made = limits(&ENTRIES, SEED).expect("the decoder is itself");
    require_missing_reported("picture", &all, &made.kinds, require_every_limit_kind);
}

/// What must occur at least: for each type, on both sides of the limit, an accepted picture and each refusal after the limit's.
#[test]
fn kinds_on_either_side_of_the_limit() {
    let all = all_limit_kinds();
    let occurs = |picture_type: PictureType, macroblocks: usize, large, small| {
        let is_it = |kind: &LimitKind| {
            kind.picture_type == picture_type
                && kind.size[0] * kind.size[1] == macroblocks
                && (kind.large, kind.small) == (large, small)
        };
        all.iter().any(is_it)
    };
    for picture_type in TYPES {
        for number in [0, 3, 4, 7, 19, 20, 21] {
            assert!(occurs(picture_type, 99, number, number));
            assert!(!occurs(picture_type, 99, number, LIMIT_REFUSED));
            for macroblocks in [100, 396] {
                assert!(occurs(picture_type, macroblocks, number, LIMIT_REFUSED));
                assert!(!occurs(picture_type, macroblocks, number, number));
            }
        }
        for macroblocks in [99, 100, 396, 432] {
            assert!(occurs(picture_type, macroblocks, 8, 8));
        }
    }
}

/// The width and height of a file's header; 0 if it has none.
fn size(file: &[u8]) -> [usize; 2] {
    match *file {
        [3, 0, 8, 1, width, height, ..] => [width, height].map(usize::from),
        _ => [0; 2],
    }
}

fn require_small_found(wrong: &[(&str, Reconstruct)]) {
    for (name, reconstruct_small) in wrong {
        let wrong = Entries {
            reconstruct_small: *reconstruct_small,
            ..ENTRIES
        };
        require_found(name, limits(&wrong, SEED));
    }
}

/// A reader with this limit.
fn limited<const LIMIT: usize>(
    file: &[u8],
    forward: &[u8],
    backward: &[u8],
    output: &mut [u8],
) -> Answer {
    reconstruct_within(LIMIT, file, [forward, backward], output)
}

/// Small readers with another limit.
#[test]
fn wrong_limits_are_found() {
    require_small_found(&[
        ("no limit", reconstruct),
        ("a limit of 98", limited::<98>),
        ("a limit of 100", limited::<100>),
        ("a count in a byte", |file, forward, backward, output| {
            let [width, height] = size(file);
            let limit = if width * height % 256 > 99 { 99 } else { 396 };
            reconstruct_within(limit, file, [forward, backward], output)
        }),
        (
            "a limit of the height",
            |file, forward, backward, output| {
                let [_, height] = size(file);
                let limit = if height > 9 { 99 } else { 396 };
                reconstruct_within(limit, file, [forward, backward], output)
            },
        ),
    ]);
}

/// The answer of the small reader, except that this number of the other one comes first.
fn after<const NUMBER: u32>(
    file: &[u8],
    forward: &[u8],
    backward: &[u8],
    output: &mut [u8],
) -> Answer {
    let answer = reconstruct(file, forward, backward, &mut output.to_vec());
    if answer.number == NUMBER {
        return answer;
    }
    reconstruct_small(file, forward, backward, output)
}

/// Small readers that test their limit too late.
#[test]
fn late_limits_are_found() {
    require_small_found(&[
        ("27 after 3", after::<3>),
        ("27 after 4", after::<4>),
        ("27 after 7", after::<7>),
        ("27 after 19", after::<19>),
        ("27 after 20", after::<20>),
        ("27 after 21", after::<21>),
    ]);
}

/// Small readers that test their limit before 8: of all headers, of sizes that are legal, or of the others.
#[test]
fn early_limits_are_found() {
    require_small_found(&[
        (
            "27 before 8",
            |file, forward, backward, output| match size(file).iter().product() {
                100.. => REFUSED,
                _ => reconstruct(file, forward, backward, output),
            },
        ),
        (
            "27 before the codes of 8",
            |file, forward, backward, output| match size(file) {
                [10, 10] => REFUSED,
                _ => reconstruct_small(file, forward, backward, output),
            },
        ),
        (
            "27 above 396",
            |file, forward, backward, output| match size(file) {
                [48, 9] => REFUSED,
                _ => reconstruct_small(file, forward, backward, output),
            },
        ),
    ]);
}

/// Wrong answers in the place of 27 at the header's place, with nothing made and no row worked.
const WRONG: [Answer; 4] = [
    Answer {
        place: 0,
        ..REFUSED
    },
    Answer {
        place: 11,
        ..REFUSED
    },
    Answer {
        made: 99,
        ..REFUSED
    },
    Answer { rows: 1, ..REFUSED },
];

/// The answer of the small reader, with one of these in the place of 27.
fn instead_of_27<const AT: usize>(
    file: &[u8],
    forward: &[u8],
    backward: &[u8],
    output: &mut [u8],
) -> Answer {
    match reconstruct_small(file, forward, backward, output) {
        REFUSED => WRONG[AT],
        answer => answer,
    }
}

/// Small readers that answer 27 with a wrong place, made or rows, or write then; and some that differ within their limit.
#[test]
fn wrong_answers_of_the_small_reader_are_found() {
    require_small_found(&[
        ("27 at 0", instead_of_27::<0>),
        ("27 after the header", instead_of_27::<1>),
        ("99 made", instead_of_27::<2>),
        ("a row worked", instead_of_27::<3>),
        (
            "27 after writing",
            |file, forward, backward, output| match reconstruct(file, forward, backward, output) {
                answer if answer.made > 99 => REFUSED,
                _ => reconstruct_small(file, forward, backward, output),
            },
        ),
        ("a grey picture", |file, forward, backward, output| {
            let answer = reconstruct_small(file, forward, backward, output);
            if answer.number == 0 {
                output.fill(128);
            }
            answer
        }),
        ("no rows", |file, forward, backward, output| Answer {
            rows: 0,
            ..reconstruct_small(file, forward, backward, output)
        }),
    ]);
}

/// The other reader keeps its limit.
#[test]
fn wrong_large_readers_are_found() {
    let wrong: [(&str, Reconstruct); 3] = [
        ("the small reader for both", reconstruct_small),
        ("a limit of 395", limited::<395>),
        ("a limit of 100", limited::<100>),
    ];
    for (name, reconstruct) in wrong {
        let wrong = Entries {
            reconstruct,
            ..ENTRIES
        };
        require_found(name, limits(&wrong, SEED));
    }
}

/// Both readers are compared on every width and height, so a limit that is wrong for one size alone is found.
#[test]
fn a_limit_that_is_wrong_for_one_size_is_found() {
    let wrong: [(&str, Reconstruct); 2] = [
        (
            "17 by 6 taken",
            |file, forward, backward, output| match size(file) {
                [17, 6] => reconstruct(file, forward, backward, output),
                _ => reconstruct_small(file, forward, backward, output),
            },
        ),
        (
            "19 by 5 refused",
            |file, forward, backward, output| match size(file) {
                [19, 5] => REFUSED,
                _ => reconstruct_small(file, forward, backward, output),
            },
        ),
    ];
    for (name, reconstruct_small) in wrong {
        let wrong = Entries {
            reconstruct_small,
            ..ENTRIES
        };
        require_found(name, headers(&wrong));
    }
}
