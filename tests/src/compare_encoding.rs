//! Compares the encoding of vectors: from a past and a wanted vector to a code and a residual.

use crate::compare::{and_far, nearest_f, require_same, FAR};
use crate::compare_cases::{require_every, KindCounts};
use crate::decoder::vectors::legal_pairs;
use crate::decoder::{EncodedVector, Entries, ENTRIES};
use crate::random::Random;

/// What comes of a vector that is to be encoded.
#[derive(Clone, Copy, Debug, PartialEq, Eq, PartialOrd, Ord)]
pub enum Encoding {
    /// This pair is given. Where it is read, the sum of past and difference moves back into the range, or is there already.
    Given {
        f_code: i32,
        code: i32,
        residual: u32,
        moves: bool,
    },
    /// Past and wanted vector are compared with the range of the f_code, or of the nearest legal one.
    Refused {
        f_code: i32,
        past: Side,
        wanted: Side,
    },
}

/// On which side of a range a number is.
#[derive(Clone, Copy, Debug, PartialEq, Eq, PartialOrd, Ord)]
pub enum Side {
    Below,
    Within,
    Above,
}

impl Side {
    /// Compared with -16f to 16f - 1.
    fn of(number: i32, f: i32) -> Side {
        match number.div_euclid(16 * f) {
            ..-1 => Side::Below,
            -1 | 0 => Side::Within,
            1.. => Side::Above,
        }
    }
}

/// Compares vectors of every f_code. Also fails if a kind never occurred. The f_codes from 1 to 4 have every past and every wanted
/// vector within the range and just past it. Those from 5 to 7 have each of these with the other number at the ends or at 0, and
/// `count` random cases. All f_codes, and some out of range, have numbers around the ends and far outside.
pub fn encoded_vectors(
    tested: &Entries,
    seed: u64,
    count: usize,
) -> Result<KindCounts<Encoding>, String> {
    let mut cases = every_case();
    cases.extend(edge_cases());
    let random = &mut Random::new(&[seed, 33]);
    cases.extend((0..count).map(|_| random_case(random)));
    let mut counts = KindCounts::new();
    for case in cases {
        let encoding = same_encoding(tested, case)?;
        *counts.entry(encoding).or_default() += 1;
    }
    require_every_encoding(&counts)?;
    Ok(counts)
}

/// Fails if a kind never occurred.
pub fn require_every_encoding(counts: &KindCounts<Encoding>) -> Result<(), String> {
    require_every("vector", all_encodings(), counts)
}

/// Every pair that can be given, and the refusals of every f_code.
pub fn all_encodings() -> Vec<Encoding> {
    let given = (1..=7).flat_map(all_given);
    let refused = f_codes().into_iter().flat_map(all_refused);
    given.chain(refused).collect()
}

/// Each pair, whether the sum moves or not. The pair of -16 and f - 1 is never given: 16 and f - 1 reach the same vectors. Code 0
/// moves no sum.
fn all_given(f_code: i32) -> impl Iterator<Item = Encoding> {
    let f = nearest_f(f_code).into();
    let pairs = legal_pairs(f).filter(move |pair| *pair != (-16, f - 1));
    let either = pairs.flat_map(|pair| [false, true].map(|moves| (pair, moves)));
    let given = either.filter(|((code, _), moves)| !moves || *code != 0);
    given.map(move |((code, residual), moves)| Encoding::Given {
        f_code,
        code: code as i32,
        residual: residual as u32,
        moves,
    })
}

/// A past or a wanted vector out of range, or both; and neither, if the f_code is.
fn all_refused(f_code: i32) -> impl Iterator<Item = Encoding> {
    let sides = [Side::Below, Side::Within, Side::Above];
    let both = sides
        .into_iter()
        .flat_map(move |past| sides.map(|wanted| (past, wanted)));
    let legal = (1..=7).contains(&f_code);
    let refused = both.filter(move |both| !legal || *both != (Side::Within, Side::Within));
    refused.map(move |(past, wanted)| Encoding::Refused {
        f_code,
        past,
        wanted,
    })
}

/// What is given to the entry.
#[derive(Clone, Copy)]
struct Case {
    f_code: i32,
    past: i32,
    wanted: i32,
}

/// What comes of a case, if both encode it alike, and the one tested reads what was wanted from the pair that it gives.
fn same_encoding(tested: &Entries, case: Case) -> Result<Encoding, String> {
    let Case {
        f_code,
        past,
        wanted,
    } = case;
    let what = || format!("encoding with f_code {f_code}, past {past}, wanted {wanted}");
    let encoded = |entries: &Entries| (entries.encode_vector)(f_code, past, wanted);
    let (number, pair) = encoded(tested);
    require_same(what, encoded(&ENTRIES), (number, pair))?;
    if number != 0 {
        let [past, wanted] = [past, wanted].map(|number| Side::of(number, nearest_f(f_code)));
        return Ok(Encoding::Refused {
            f_code,
            past,
            wanted,
        });
    }
    let EncodedVector { code, residual } = pair;
    let read = (tested.vector)(f_code, past, code, residual as i32);
    require_same(
        || format!("vector read after {}", what()),
        (0, wanted),
        read,
    )?;
    Ok(Encoding::Given {
        f_code,
        code,
        residual,
        moves: code.signum() != (wanted - past).signum(),
    })
}

/// f_codes within the range, just past it and far outside. In one or two bytes, 65,537 would be 1.
fn f_codes() -> Vec<i32> {
    let mut f_codes = and_far(-1, 9);
    f_codes.push(65_537);
    f_codes
}

/// Each of these pasts with each of these wanted vectors.
fn each(f_code: i32, pasts: &[i32], wanted: &[i32]) -> Vec<Case> {
    let of_past = |past| {
        let case = move |wanted| Case {
            f_code,
            past,
            wanted,
        };
        wanted.iter().copied().map(case)
    };
    pasts.iter().copied().flat_map(of_past).collect()
}

/// For f_codes from 1 to 4, every past with every wanted vector; for those from 5 to 7, one of them at the ends or at 0.
fn every_case() -> Vec<Case> {
    let of_f_code = |f_code| {
        let f = nearest_f(f_code);
        let all = Vec::from_iter(-16 * f - 2..=16 * f + 1);
        if f_code <= 4 {
            return each(f_code, &all, &all);
        }
        let some = [-16 * f, 0, 16 * f - 1];
        [each(f_code, &some, &all), each(f_code, &all, &some)].concat()
    };
    (1..=7).flat_map(of_f_code).collect()
}

/// For each f_code, numbers around multiples of 16f, so that many differ by 16f or 32f or nearly so, and far ones. Of these, the
/// extremes would be small in a narrow type, as would their difference if it wrapped.
fn edge_cases() -> Vec<Case> {
    let of_f_code = |f_code| {
        let f = nearest_f(f_code);
        let around = |multiple: i32| 16 * multiple * f - 2..=16 * multiple * f + 2;
        let near = (-2..=2).flat_map(around);
        let numbers = Vec::from_iter(near.chain(FAR));
        each(f_code, &numbers, &numbers)
    };
    f_codes().into_iter().flat_map(of_f_code).collect()
}

/// A case for an f_code from 5 to 7, in range or just past it. Half of the wanted vectors differ from the past by about a multiple
/// of f, half of these by about a multiple of 16f.
fn random_case(random: &mut Random) -> Case {
    let f_code = random.within(5, 7) as i32;
    let f = i64::from(nearest_f(f_code));
    let past = random.within(-16 * f - 2, 16 * f + 1);
    let near = past + random.within(-1, 1);
    let wanted = match random.below(4) {
        0 => near + 16 * f * random.within(-2, 2),
        1 => near + f * random.within(-32, 32),
        _ => random.within(-16 * f - 2, 16 * f + 1),
    };
    Case {
        f_code,
        past: past as i32,
        wanted: wanted as i32,
    }
}
