//! Damages files: fields out of range, cut, too long, out of order, or with bytes flipped.

use std::collections::BTreeSet;

use super::file::{put, Field, File};
use crate::random::Random;

/// The file's bytes, damaged in one way. They may happen to stay legal.
pub fn damaged(random: &mut Random, file: &File) -> Vec<u8> {
    match random.below(10) {
        0..=4 => fields_changed(random, file),
        5 => cut(random, file),
        6 => lengthened(random, file),
        7 => reordered(random, file),
        8 => body_resized(random, file),
        _ => flipped(random, file),
    }
}

/// Gives a field one of the values worth trying; each field name is equally likely. Perhaps changes some fields after it, or ends
/// its record there, so that the order of the tests matters.
fn fields_changed(random: &mut Random, file: &File) -> Vec<u8> {
    let names: BTreeSet<&str> = file.fields.iter().map(|field| field.name).collect();
    let name = random.pick(&Vec::from_iter(names));
    let named: Vec<usize> = (0..file.fields.len())
        .filter(|index| file.fields[*index].name == name)
        .collect();
    let first = random.pick(&named);
    let mut bytes = file.bytes.clone();
    file.fields[first].change(random, &mut bytes);
    match random.below(6) {
        0 => return file.ended_after(&file.fields[first], &bytes),
        1 | 2 => {
            for field in file.fields[first + 1..].iter().take(8) {
                if random.once_in(2) {
                    field.change(random, &mut bytes);
                }
            }
        }
        _ => (),
    }
    bytes
}

impl Field {
    fn change(&self, random: &mut Random, bytes: &mut [u8]) {
        put(bytes, self.offset, self.width, random.pick(&self.others));
    }
}

/// Cuts the file: anywhere, or at the start of a record.
fn cut(random: &mut Random, file: &File) -> Vec<u8> {
    let anywhere = random.below(file.bytes.len());
    let at_record = random.pick(&file.records);
    let mut bytes = file.bytes.clone();
    bytes.truncate(random.pick(&[anywhere, at_record, at_record + 1, 0, 1]));
    bytes
}

/// Appends bytes: some random ones, or the last record again.
fn lengthened(random: &mut Random, file: &File) -> Vec<u8> {
    let mut bytes = file.bytes.clone();
    if random.once_in(2) {
        let count = random.pick(&[1, 2, 3, 10]);
        bytes.extend(random.bytes(count));
    } else {
        bytes.extend(file.record_bytes(file.records.len() - 1));
    }
    bytes
}

/// Drops a record, repeats it, or swaps it with another.
fn reordered(random: &mut Random, file: &File) -> Vec<u8> {
    let mut records: Vec<Vec<u8>> = (0..file.records.len())
        .map(|index| file.record_bytes(index))
        .collect();
    let among = random.pick(&[5, records.len()]).min(records.len());
    let (one, another) = (random.below(among), random.below(among));
    match random.below(3) {
        0 => drop(records.remove(one)),
        1 => records.insert(another, records[one].clone()),
        _ => records.swap(one, another),
    }
    let version = &file.bytes[..1];
    [version, &records.concat()].concat()
}

/// Makes a record's body longer or shorter, and its length with it.
fn body_resized(random: &mut Random, file: &File) -> Vec<u8> {
    let mut bytes = file.bytes.clone();
    let index = random.below(file.records.len());
    let start = file.records[index];
    let record = file.record_bytes(index);
    let mut body = record[3..].to_vec();
    if random.once_in(2) {
        let count = random.within(1, 4) as usize;
        body.extend(random.bytes(count));
    } else {
        body.truncate(random.below(body.len() + 1));
    }
    put(&mut bytes, start, 2, 1 + body.len() as i64);
    bytes.splice(start + 3..start + record.len(), body);
    bytes
}

/// Flips a bit or changes the value of up to three bytes.
fn flipped(random: &mut Random, file: &File) -> Vec<u8> {
    let mut bytes = file.bytes.clone();
    for _ in 0..random.within(1, 3) {
        let at = random.below(bytes.len());
        let bit = 1 << random.below(8);
        bytes[at] = random.pick(&[bytes[at] ^ bit, bytes[at] ^ bit, !bytes[at]]);
    }
    bytes
}
