//! `compare [--panel PROGRAM] [COUNT [SEED]]`: compares the exported library with the other decoder on COUNT single pictures, by
//! both readers, ten times as many raw slices, and the edges of every other entry; and the program `panel`, if given, on COUNT
//! reels and one that is far too long. A small COUNT fails, because its cases don't produce every answer.

use std::process::ExitCode;

use format3_tests::compare::{
    changed_fields, coefficients, header_answers, headers, panel, picture_answers, pictures,
    require_every_answer, small_picture_answers, transforms, vectors, ReaderCounts,
};
use format3_tests::compare_blocks::blocks;
use format3_tests::compare_cases::Compared;
use format3_tests::compare_encoding::encoded_vectors;
use format3_tests::compare_limits::limits;
use format3_tests::compare_misfits::misfits;
use format3_tests::compare_room_slices::room_slices;
use format3_tests::compare_rows::{row_masks, rows};
use format3_tests::compare_slices::{
    changed_slices, ended_slices, long_slices, slices, stream_slices, SLICE_ANSWERS,
};
use format3_tests::library::ENTRIES;
use format3_tests::{exit_code, panel_argument};

/// Enough for every legal picture size: every fourth case takes the next one.
const COUNT: u64 = 4000;
const SEED: u64 = 1;

/// Far more bytes than the program reads or a pipe holds.
const LONG: usize = 1 << 20;

fn main() -> ExitCode {
    let arguments: Vec<String> = std::env::args().skip(1).collect();
    exit_code("compare", run(&arguments))
}

fn run(arguments: &[String]) -> Result<(), String> {
    let (program, numbers) = panel_argument(arguments)?;
    let number = |index: usize, default: u64| match numbers.get(index) {
        Some(argument) => argument
            .parse()
            .map_err(|_| format!("no number: {argument}")),
        None => Ok(default),
    };
    let (count, seed) = (number(0, COUNT)?, number(1, SEED)?);
    compare_entries(count, seed)?;
    if let Some(program) = program {
        println!("{} lines of {count} reels", panel(program, seed, count)?);
        program.require_long(LONG)?;
        println!("a reel of {LONG} bytes: long, not read whole");
    }
    println!("no difference");
    Ok(())
}

fn compare_entries(count: u64, seed: u64) -> Result<(), String> {
    println!("{} coefficients", coefficients(&ENTRIES)?);
    println!("{} vectors", vectors(&ENTRIES)?);
    let encodings = encoded_vectors(&ENTRIES, seed, 100_000)?;
    let (encoded, kinds) = (encodings.values().sum::<usize>(), encodings.len());
    println!("{encoded} vectors encoded, {kinds} kinds of pairs and refusals");
    println!("{} blocks", transforms(&ENTRIES, seed, 20_000)?);
    let sets = row_masks(&ENTRIES, seed)?.len();
    println!("{sets} sets of rows of blocks, in range and out of it");
    let counts = headers(&ENTRIES)?;
    println!("headers, by answer: {counts:?}");
    require_every_answer(&counts, header_answers())?;
    for seed in seed..seed + 4 {
        println!("{} changed fields", changed_fields(&ENTRIES, seed)?);
    }
    compare_pictures(count, seed)?;
    compare_slices(10 * count, seed)
}

fn compare_pictures(count: u64, seed: u64) -> Result<(), String> {
    let counts = pictures(&ENTRIES, seed, count)?;
    print_answers(&format!("{count} pictures"), &counts);
    require_every_answer(&counts.large, picture_answers())?;
    require_every_answer(&counts.small, small_picture_answers())?;
    print_kinds("headers around the limits", &limits(&ENTRIES, seed)?);
    let compared = misfits(&ENTRIES, seed)?;
    print_kinds("arrangements of vectors that fit or don't", &compared);
    let compared = blocks(&ENTRIES, seed)?;
    print_kinds("stages of blocks, pair by pair", &compared);
    let compared = rows(&ENTRIES, seed)?;
    print_kinds("kinds of blocks and ends for the count of rows", &compared);
    Ok(())
}

fn print_kinds<Kind>(what: &str, compared: &Compared<Kind>) {
    let occurred = compared.kinds.len();
    print_answers(&format!("{occurred} {what}"), &compared.answers);
}

/// Prints the counts of both readers, or those of one if the other has the same.
fn print_answers(what: &str, counts: &ReaderCounts) {
    let ReaderCounts { large, small } = counts;
    if large == small {
        println!("{what}, by answer of each reader: {large:?}");
    } else {
        println!("{what}, by answer: {large:?}, of the small reader: {small:?}");
    }
}

fn compare_slices(count: u64, seed: u64) -> Result<(), String> {
    println!("{} slices that end in a code", ended_slices(&ENTRIES)?);
    let changed = (seed..seed + 40).map(|seed| changed_slices(&ENTRIES, seed));
    let changed: Result<usize, String> = changed.sum();
    println!("{} changed slices", changed?);
    println!("{} slices of streams", stream_slices(&ENTRIES, seed)?);
    println!("{} long slices", long_slices(&ENTRIES, seed)?);
    let around = room_slices(&ENTRIES, seed)?.compared;
    println!("{around} slices around the end of the reader's room");
    let counts = slices(&ENTRIES, seed, count)?;
    println!("{count} slices, by answer: {counts:?}");
    require_every_answer(&counts, SLICE_ANSWERS)
}
