//! Tests the comparison of encoded vectors: every pair and every refusal occurs, and wrong encoders are found, such as one that
//! gives the negative code where two reach the wanted vector, or one that subtracts before it tests the ranges.

mod found;
mod missing;

use std::collections::BTreeSet;

use format3_tests::compare::nearest_f;
use format3_tests::compare_encoding::{
    all_encodings, encoded_vectors, require_every_encoding, Encoding,
};
use format3_tests::decoder::refusals::Refusal;
use format3_tests::decoder::{EncodeVector, EncodedVector, Entries, ENTRIES};
use found::require_found;
use missing::require_missing_reported;

const SEED: u64 = 1;

/// How many random cases are compared.
const COUNT: usize = 20_000;

const UNREACHABLE: u32 = Refusal::VectorUnreachable as u32;

const ZEROS: EncodedVector = EncodedVector {
    code: 0,
    residual: 0,
};

/// A missing kind is reported.
///
/// An f_code has 32f + 1 pairs. All are given except (-16, f - 1). Each of these except (0, 0) is given both where the sum moves and
/// where it doesn't: 64f - 1 kinds. The f of the seven f_codes add up to 127. In 8 ways, past or wanted vector is out of range, or
/// both are. With each of nine illegal f_codes, both may also be within.
#[test]
fn missing_kinds_are_reported() {
    let all = BTreeSet::from_iter(all_encodings());
    assert_eq!(all.len(), (64 * 127 - 7) + 7 * 8 + 9 * 9);
    let made = encoded_vectors(&ENTRIES, SEED, 0).expect("the decoder is itself");
    let some = all.iter().step_by(97);
    require_missing_reported("vector", some, &made, require_every_encoding);
}

/// A difference of 16f occurs from both sides: where the wanted vector is above the past, the sum doesn't move; where it is below,
/// it does. The negative code never occurs there.
#[test]
fn differences_of_16f_occur() {
    let made = encoded_vectors(&ENTRIES, SEED, 0).expect("the decoder is itself");
    for f_code in 1..=7 {
        let given = |code, moves| Encoding::Given {
            f_code,
            code,
            residual: nearest_f(f_code) as u32 - 1,
            moves,
        };
        for moves in [false, true] {
            assert!(made.contains_key(&given(16, moves)));
            assert!(!made.contains_key(&given(-16, moves)));
        }
    }
}

fn compare(encode_vector: EncodeVector) -> Result<(), String> {
    let tested = Entries {
        encode_vector,
        ..ENTRIES
    };
    encoded_vectors(&tested, SEED, COUNT).map(|_| ())
}

fn require_all_found(wrong: &[(&str, EncodeVector)]) {
    for (name, encode_vector) in wrong {
        require_found(name, compare(*encode_vector));
    }
}

fn right(f_code: i32, past: i32, wanted: i32) -> (u32, EncodedVector) {
    (ENTRIES.encode_vector)(f_code, past, wanted)
}

/// The right answer, but where it is a pair, `pair` makes another one from f, the difference and that pair.
fn with_pair(
    pair: fn(i32, i32, EncodedVector) -> EncodedVector,
    f_code: i32,
    past: i32,
    wanted: i32,
) -> (u32, EncodedVector) {
    match right(f_code, past, wanted) {
        (0, encoded) => (0, pair(nearest_f(f_code), wanted - past, encoded)),
        refused => refused,
    }
}

/// The pair of a difference, by calculation.
fn pair_of(f: i32, difference: i32) -> EncodedVector {
    let (code, residual) = match difference.abs() {
        0 => (0, 0),
        size => ((size - 1) / f + 1, (size - 1) % f),
    };
    EncodedVector {
        code: difference.signum() * code,
        residual: residual as u32,
    }
}

/// The difference is first moved by 32f to -16f + 1 to 16f.
#[test]
fn an_encoder_that_calculates_is_right() {
    let calculated: EncodeVector = |f_code, past, wanted| {
        let pair = |f, difference: i32, _| {
            let low = -16 * f + 1;
            pair_of(f, low + (difference - low).rem_euclid(32 * f))
        };
        with_pair(pair, f_code, past, wanted)
    };
    assert_eq!(compare(calculated), Ok(()));
}

/// The right answer, but where wanted vector and past differ by 16f, `other` makes another one from f and the difference.
fn with_other_at_16f(
    other: fn(i32, i32) -> (u32, EncodedVector),
    f_code: i32,
    past: i32,
    wanted: i32,
) -> (u32, EncodedVector) {
    let f = nearest_f(f_code);
    match right(f_code, past, wanted) {
        (0, _) if past.abs_diff(wanted) == 16 * f as u32 => other(f, wanted - past),
        answer => answer,
    }
}

#[test]
fn wrong_answers_at_16f_are_found() {
    require_all_found(&[
        ("the negative code", |f_code, past, wanted| {
            with_other_at_16f(|f, _| (0, pair_of(f, -16 * f)), f_code, past, wanted)
        }),
        ("the difference's sign", |f_code, past, wanted| {
            with_other_at_16f(
                |f, difference| (0, pair_of(f, difference)),
                f_code,
                past,
                wanted,
            )
        }),
        ("33", |f_code, past, wanted| {
            with_other_at_16f(|_, _| (UNREACHABLE, ZEROS), f_code, past, wanted)
        }),
    ]);
}

/// Encoders that give another pair.
#[test]
fn wrong_pairs_are_found() {
    require_all_found(&[
        ("a difference that is not moved", |f_code, past, wanted| {
            let pair = |f, difference, _| pair_of(f, difference);
            with_pair(pair, f_code, past, wanted)
        }),
        ("a residual of |d| mod f", |f_code, past, wanted| {
            let pair = |f, _, encoded: EncodedVector| match encoded.code {
                0 => encoded,
                _ => EncodedVector {
                    residual: (encoded.residual + 1) % f as u32,
                    ..encoded
                },
            };
            with_pair(pair, f_code, past, wanted)
        }),
        ("a residual of five bits", |f_code, past, wanted| {
            let pair = |_, _, encoded: EncodedVector| EncodedVector {
                residual: encoded.residual % 32,
                ..encoded
            };
            with_pair(pair, f_code, past, wanted)
        }),
        ("past and wanted exchanged", |f_code, past, wanted| {
            right(f_code, wanted, past)
        }),
    ]);
}

/// The number moved by multiples of 32f into the range.
fn into_range(f_code: i32, number: i32) -> i32 {
    let f = i64::from(nearest_f(f_code));
    ((i64::from(number) + 16 * f).rem_euclid(32 * f) - 16 * f) as i32
}

/// Encoders that take a past or a wanted vector out of range, or refuse one within it.
#[test]
fn wrong_ranges_are_found() {
    require_all_found(&[
        ("a past that is not tested", |f_code, past, wanted| {
            right(f_code, into_range(f_code, past), wanted)
        }),
        ("a wanted that is not tested", |f_code, past, wanted| {
            right(f_code, past, into_range(f_code, wanted))
        }),
        ("a past of 16f", |f_code, past, wanted| {
            let is_end = past == 16 * nearest_f(f_code);
            right(f_code, if is_end { -past } else { past }, wanted)
        }),
        ("a wanted of 16f", |f_code, past, wanted| {
            let is_end = wanted == 16 * nearest_f(f_code);
            right(f_code, past, if is_end { -wanted } else { wanted })
        }),
        ("no past of -16f", |f_code, past, wanted| {
            let is_end = past == -16 * nearest_f(f_code);
            right(f_code, if is_end { past - 1 } else { past }, wanted)
        }),
        ("no wanted of -16f", |f_code, past, wanted| {
            let is_end = wanted == -16 * nearest_f(f_code);
            right(f_code, past, if is_end { wanted - 1 } else { wanted })
        }),
        ("code 0 at 32f", |f_code, past, wanted| {
            let is_apart = past.abs_diff(wanted) == 32 * nearest_f(f_code) as u32;
            right(f_code, past, if is_apart { past } else { wanted })
        }),
    ]);
}

/// Encoders that take f_codes out of range, or lose the high bits of a number.
#[test]
fn wrong_numbers_are_found() {
    require_all_found(&[
        ("an f_code below 1", |f_code, past, wanted| {
            right(f_code.max(1), past, wanted)
        }),
        ("an f_code above 7", |f_code, past, wanted| {
            right(f_code.min(7), past, wanted)
        }),
        ("an f_code in a byte", |f_code, past, wanted| {
            right(f_code & 0xff, past, wanted)
        }),
        ("an f_code in two bytes", |f_code, past, wanted| {
            right(f_code & 0xffff, past, wanted)
        }),
        ("a past in two bytes", |f_code, past, wanted| {
            right(f_code, i32::from(past as i16), wanted)
        }),
        ("a wanted in two bytes", |f_code, past, wanted| {
            right(f_code, past, i32::from(wanted as i16))
        }),
        (
            "a difference that wraps",
            |f_code, past, wanted| match wanted.checked_sub(past) {
                Some(_) => right(f_code, past, wanted),
                None => right(f_code, 0, wanted.wrapping_sub(past)),
            },
        ),
    ]);
}

/// Wrong answers in the place of 33 with zeros.
const WRONG: [(u32, EncodedVector); 4] = [
    (0, ZEROS),
    (Refusal::NumberOutOfRange as u32, ZEROS),
    (UNREACHABLE, EncodedVector { code: 1, ..ZEROS }),
    (
        UNREACHABLE,
        EncodedVector {
            residual: 1,
            ..ZEROS
        },
    ),
];

/// The right answer, with one of these in the place of 33.
fn instead_of_33<const AT: usize>(f_code: i32, past: i32, wanted: i32) -> (u32, EncodedVector) {
    match right(f_code, past, wanted) {
        (UNREACHABLE, ZEROS) => WRONG[AT],
        given => given,
    }
}

#[test]
fn wrong_refusals_are_found() {
    require_all_found(&[
        ("0 for 33", instead_of_33::<0>),
        ("22 for 33", instead_of_33::<1>),
        ("a code with 33", instead_of_33::<2>),
        ("a residual with 33", instead_of_33::<3>),
        (
            "22 for a past or an f_code",
            |f_code, past, wanted| match right(f_code, past, past) {
                (UNREACHABLE, ZEROS) => WRONG[1],
                _ => right(f_code, past, wanted),
            },
        ),
    ]);
}

/// An encoder that is wrong only within the range: for one past and wanted vector, if the f_code is at most 4; else for a hundred of
/// each.
#[test]
fn a_pair_that_is_wrong_within_a_range_is_found() {
    require_all_found(&[
        ("f_code 4", |f_code, past, wanted| {
            match (f_code, past, wanted) {
                (4, 37, -90) => (0, ZEROS),
                _ => right(f_code, past, wanted),
            }
        }),
        ("f_code 7", |f_code, past, wanted| {
            match (f_code, past, wanted) {
                (7, 100..200, 300..400) => (0, ZEROS),
                _ => right(f_code, past, wanted),
            }
        }),
    ]);
}

/// The implementation that is tested must read what was wanted from its own pairs.
#[test]
fn wrong_readings_are_found() {
    let doubled = Entries {
        vector: |f_code, past, code, residual| {
            let (number, vector) = (ENTRIES.vector)(f_code, past, code, residual);
            (number, 2 * vector)
        },
        ..ENTRIES
    };
    let codes_to_15 = Entries {
        vector: |f_code, past, code, residual| match code {
            16 => (Refusal::NumberOutOfRange.number(), 0),
            _ => (ENTRIES.vector)(f_code, past, code, residual),
        },
        ..ENTRIES
    };
    for (name, wrong) in [("a doubled vector", doubled), ("codes to 15", codes_to_15)] {
        require_found(name, encoded_vectors(&wrong, SEED, 0));
    }
}
