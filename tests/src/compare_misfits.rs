//! Compares pictures with every arrangement of vectors that fit and vectors that don't.

use crate::compare_cases::{compare_cases, require_every, Compared, KindCounts};
use crate::decoder::file::{Header, PictureType};
use crate::decoder::macroblock::Macroblock;
use crate::decoder::picture::skip_vectors;
use crate::decoder::size::Size;
use crate::decoder::vectors::{fits, Vectors};
use crate::decoder::Entries;
use crate::generator::{all_arrangements, misfit_cases, Arrangement, Case, Fit};
use crate::records::{macroblock_records, MacroblockRecord};

/// Compares a picture for each arrangement. Also fails if an arrangement never occurred, told from the file as the other decoder
/// reads it.
pub fn misfits(tested: &Entries, seed: u64) -> Result<Compared<Arrangement>, String> {
    let told = |number| format!("misfit {number} of seed {seed}");
    let arrangements = |case: &Case, _| arrangements(&case.file);
    let compared = compare_cases(tested, misfit_cases(seed), told, arrangements)?;
    require_every_arrangement(&compared.kinds)?;
    Ok(compared)
}

/// Fails if an arrangement never occurred.
pub fn require_every_arrangement(counts: &KindCounts<Arrangement>) -> Result<(), String> {
    require_every("record", all_arrangements(), counts)
}

/// The arrangements of a file's macroblock records, up to the first record that is refused. If that is because a vector doesn't
/// fit, its arrangement is the last.
pub fn arrangements(file: &[u8]) -> Vec<Arrangement> {
    let mut found = Vec::new();
    for record in macroblock_records(file) {
        let Ok(read) = &record.read else {
            break;
        };
        found.push(arrangement(&record, read));
        if found.last().is_some_and(Arrangement::has_misfit) {
            break;
        }
    }
    found
}

/// The arrangement of a macroblock record that reads so.
fn arrangement(record: &MacroblockRecord, read: &Macroblock) -> Arrangement {
    let Header {
        size,
        picture_type,
        directions,
    } = record.header;
    let repeated = match picture_type {
        PictureType::B => skip_vectors(picture_type, record.before.last),
        _ => [None; 2],
    };
    let has_vector = record.body[0] & 6 != 0;
    let own = if has_vector { read.vectors } else { [None; 2] };
    let own_address = record.next + read.skipped;
    let mut skipped = record.next..own_address;
    let outside = |address, vectors| past_outside(record, address, vectors);
    Arrangement {
        picture_type,
        full_pel: directions.map(|direction| direction.full_pel),
        skipped: skipped.clone().map(|at| fit(size, at, repeated)).collect(),
        own: fit(size, own_address, own),
        intra: read.intra,
        past_outside: skipped.any(|at| outside(at, repeated)) || outside(own_address, own),
    }
}

/// What a macroblock with these vectors has in each direction.
fn fit(size: Size, address: usize, vectors: Vectors) -> [Fit; 2] {
    vectors.map(|vector| match vector {
        None => Fit::Unused,
        Some(vector) if fits(size, address, vector) => Fit::Fits,
        Some(_) => Fit::Outside,
    })
}

/// Whether, in a direction that a macroblock with these vectors doesn't use, the past before the record doesn't fit.
fn past_outside(record: &MacroblockRecord, address: usize, vectors: Vectors) -> bool {
    let Header {
        size, directions, ..
    } = record.header;
    (0..2).any(|way| {
        let past = directions[way].used(record.before.vector_pasts[way]);
        vectors[way].is_none() && !fits(size, address, past)
    })
}
