//! Tests the decoder of reels: sizes from the header, and which pictures are references.

use format3::reel::{files, Decoder};
use format3::{CodingType, Refusal};

/// A file of records, each given as its kind and body.
fn file_of(records: &[&[u8]]) -> Vec<u8> {
    let mut file = vec![3];
    for record in records {
        file.extend((record.len() as u16).to_be_bytes());
        file.extend(*record);
    }
    file
}

const SLICE: &[u8] = &[3, 8, 0, 0];

/// An I picture of one macroblock, in one grey: 128 plus the DC difference.
fn intra(difference: i16) -> Vec<u8> {
    let [high, low] = difference.to_be_bytes();
    let mut macroblock = vec![4, 16, 0, 1, high, low, 0];
    // The other Y blocks are as the first one, Cb and Cr are 128.
    macroblock.extend([0; 15]);
    file_of(&[&[1, 1, 1, 1, 0, 0, 0, 0], SLICE, &macroblock])
}

/// A P picture of one macroblock that copies its reference.
fn copy() -> Vec<u8> {
    let macroblock = [4, 2, 0, 1, 0, 0, 0, 0];
    file_of(&[&[1, 1, 1, 2, 0, 1, 0, 0], SLICE, &macroblock])
}

/// A B picture of one macroblock that copies one reference: its type is 2 for the forward one, 4 for the backward one.
fn copy_of(macroblock_type: u8) -> Vec<u8> {
    let macroblock = [4, macroblock_type, 0, 1, 0, 0, 0, 0];
    file_of(&[&[1, 1, 1, 3, 0, 1, 0, 1], SLICE, &macroblock])
}

/// The first pel of each picture, or why it is refused.
fn first_pels(pictures: &[Vec<u8>]) -> Vec<Result<u8, Refusal>> {
    let mut decoder = Decoder::default();
    let first_pel = |file: &Vec<u8>| match decoder.decode(file) {
        Ok(picture) => Ok(picture.bytes[0]),
        Err(refused) => Err(refused.refusal),
    };
    pictures.iter().map(first_pel).collect()
}

const FORWARD: u8 = 2;
const BACKWARD: u8 = 4;

#[test]
fn references() {
    let pictures = [
        copy(),
        intra(10),
        copy_of(FORWARD),
        intra(20),
        copy_of(FORWARD),
        copy_of(BACKWARD),
        copy_of(FORWARD),
        copy(),
        copy_of(FORWARD),
        intra(30)[..20].to_vec(),
        copy_of(BACKWARD),
        intra(40),
        copy_of(FORWARD),
        copy_of(BACKWARD),
    ];
    let missing = Err(Refusal::ForwardLength);
    let expected = [
        missing,
        Ok(138),
        missing,
        Ok(148),
        Ok(138),
        Ok(148),
        Ok(138),
        Ok(148),
        Ok(148),
        Err(Refusal::RecordCut),
        Ok(148),
        Ok(168),
        Ok(148),
        Ok(168),
    ];
    assert_eq!(first_pels(&pictures), expected);
}

/// A picture after a larger one has its own size; the larger one is no reference for it.
#[test]
fn sizes() {
    let mut decoder = Decoder::default();
    let grey = intra(0);
    let macroblock = &grey[17..];
    let slice = [&[0, 4][..], SLICE].concat();
    let header = &[3, 0, 8, 1, 2, 1, 1, 0, 0, 0, 0];
    let wide = [&header[..], &slice, macroblock, macroblock].concat();
    let picture = decoder.decode(&wide).unwrap();
    assert_eq!((picture.header.width, picture.header.height), (2, 1));
    assert_eq!(picture.bytes, [128; 768]);
    assert_eq!(picture.rows, 12);
    let refused = decoder.decode(&copy()).unwrap_err();
    assert_eq!(refused.refusal, Refusal::ForwardLength);
    let picture = decoder.decode(&grey).unwrap();
    assert_eq!(picture.header.coding_type, CodingType::I);
    assert_eq!(picture.bytes, [128; 384]);
}

/// A file without a legal header is refused as `reconstruct` refuses it: with its place.
#[test]
fn refused_headers() {
    let refused: [(&[u8], Refusal, usize); 4] = [
        (&[], Refusal::FileEmpty, 0),
        (&[3], Refusal::FileEnds, 1),
        (&[3, 0, 4, 3, 8, 0, 0], Refusal::OutOfTurn, 1),
        (&[3, 0, 8, 1, 0, 1, 1, 0, 0, 0, 0], Refusal::Header, 1),
    ];
    for (file, refusal, place) in refused {
        let answer = Decoder::default().decode(file).unwrap_err();
        assert_eq!(
            (answer.refusal, answer.place, answer.made),
            (refusal, place, 0)
        );
    }
}

#[test]
fn cut_reels() {
    let whole = [&[0, 0, 0, 41][..], &intra(0)].concat();
    let found = |reel: &[u8]| -> Vec<Result<usize, usize>> {
        let length_or_offset = |file: Result<&[u8], format3::reel::CutReel>| match file {
            Ok(file) => Ok(file.len()),
            Err(cut) => Err(cut.offset),
        };
        files(reel).map(length_or_offset).collect()
    };
    assert_eq!(found(&[]), []);
    assert_eq!(found(&[whole.clone(), whole.clone()].concat()), [Ok(41); 2]);
    assert_eq!(found(&[0, 0, 0, 0]), [Ok(0)]);
    assert_eq!(found(&[&whole[..], &[0, 0]].concat()), [Ok(41), Err(45)]);
    assert_eq!(found(&whole[..44]), [Err(0)]);
    assert_eq!(found(&[255; 9]), [Err(0)]);
    let message = files(&[0]).next().unwrap().unwrap_err().to_string();
    let expected = "the reel is cut: the file whose length is at byte 0 is not whole";
    assert_eq!(message, expected);
}
