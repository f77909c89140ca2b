//! Builds files by hand for the tests.

/// A file of records, each given as its kind and body.
pub fn file_of(records: &[&[u8]]) -> Vec<u8> {
    let mut file = vec![3];
    for record in records {
        file.extend((record.len() as u16).to_be_bytes());
        file.extend(*record);
    }
    file
}

/// The header of an I-picture of one macroblock.
pub const I: &[u8] = &[1, 1, 1, 1, 0, 0, 0, 0];

/// A slice record at address 0 with scale 8.
pub const SLICE: &[u8] = &[3, 8, 0, 0];
