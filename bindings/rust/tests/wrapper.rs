//! Tests the safe functions against figures of document 01 and request No. 12.

use format3::{
    encode_vector, intra_coefficient, non_intra_coefficient, read_header, read_slice, reconstruct,
    show_record, transform, vector,
};
use format3::{
    BitPosition, CodingType, Header, PictureParameters, RecordKind, Refusal, RefusedPicture,
    RefusedSlice,
};

/// The first file of document 01's reel: a grey picture of one macroblock.
fn grey() -> Vec<u8> {
    let mut file = vec![3, 0, 8, 1, 1, 1, 1, 0, 0, 0, 0, 0, 4, 3, 8, 0, 0];
    file.extend([0, 22, 4, 16, 0, 1]);
    file.extend([0; 18]);
    file
}

#[test]
fn a_picture() {
    let mut output = [7; 384];
    let picture = reconstruct(&grey(), &[], &[], &mut output);
    assert_eq!(
        picture.map(|picture| (picture.made, picture.rows)),
        Ok((1, 6))
    );
    assert_eq!(output, [128; 384]);
}

/// Why a picture is refused, its place, and how many macroblocks were made and rows worked.
fn refused_picture(
    file: &[u8],
    forward: &[u8],
    output: &mut [u8],
) -> (Refusal, usize, usize, usize) {
    let RefusedPicture {
        refusal,
        place,
        made,
        rows,
        ..
    } = reconstruct(file, forward, &[], output).unwrap_err();
    (refusal, place, made, rows)
}

#[test]
fn refused_pictures() {
    let file = grey();
    let mut output = [7; 384];
    let mut refused = |file, forward| refused_picture(file, forward, &mut output);
    assert_eq!(refused(&file[..40], &[]), (Refusal::RecordCut, 17, 0, 0));
    assert_eq!(refused(&[], &[]), (Refusal::FileEmpty, 0, 0, 0));
    assert_eq!(refused(&file, &[0]), (Refusal::ForwardLength, 1, 0, 0));
    assert_eq!(output, [7; 384]);
}

/// What was made before the refusal is in the output.
#[test]
fn a_picture_refused_at_its_end() {
    let longer = [&grey()[..], &[0]].concat();
    let mut output = [7; 384];
    let refused = refused_picture(&longer, &[], &mut output);
    assert_eq!(refused, (Refusal::RecordCut, 41, 1, 6));
    assert_eq!(output, [128; 384]);
}

#[test]
fn headers() {
    let Header {
        coding_type,
        width,
        height,
        records_start,
        ..
    } = read_header(&[3, 0, 8, 1, 11, 36, 3, 1, 7, 0, 1]).unwrap();
    assert_eq!(coding_type, CodingType::B);
    assert_eq!((width, height, records_start), (11, 36, 11));
}

/// Each refusal of a header, in the order of the tests.
#[test]
fn refused_headers() {
    let refused: [(&[u8], Refusal); 9] = [
        (&[], Refusal::FileEmpty),
        (&[4], Refusal::Version),
        (&[3, 0], Refusal::RecordCut),
        (&[3, 0, 1, 5], Refusal::RecordKind),
        (&[3, 0, 4, 3, 8, 0, 0], Refusal::OutOfTurn),
        (&[3, 0, 7, 1, 1, 1, 1, 0, 0, 0], Refusal::BodyLength),
        (&[3], Refusal::FileEnds),
        (&[3, 0, 8, 1, 1, 1, 4, 0, 0, 0, 0], Refusal::Header),
        (&[3, 0, 8, 1, 1, 1, 1, 0, 1, 0, 0], Refusal::Header),
    ];
    for (file, refusal) in refused {
        assert_eq!(read_header(file), Err(refusal));
    }
}

#[test]
fn records() {
    let file = grey();
    let mut offset = 1;
    let mut kinds = Vec::new();
    while offset < file.len() {
        let record = show_record(&file, offset).expect("the file's records are whole");
        kinds.push((record.kind, record.body.len()));
        offset = record.end;
    }
    let expected = [
        (RecordKind::Header, 7),
        (RecordKind::Slice, 3),
        (RecordKind::Macroblock, 21),
    ];
    assert_eq!(kinds, expected);
    assert_eq!(show_record(&file, offset), Err(Refusal::RecordCut));
}

#[test]
fn coefficients_vectors_and_blocks() {
    assert_eq!(intra_coefficient(-255, 31, 83), Ok(-2048));
    assert_eq!(non_intra_coefficient(-1, 2, 16), Ok(-5));
    assert_eq!(
        non_intra_coefficient(0, 0, 16),
        Err(Refusal::NumberOutOfRange)
    );
    assert_eq!(vector(1, 15, 1, 0), Ok(-16));
    assert_eq!(vector(0, 0, 0, 0), Err(Refusal::NumberOutOfRange));
    let mut block = [0; 64];
    let transformed = transform(&block).unwrap();
    assert_eq!((transformed.residues, transformed.rows), ([0; 64], 0));
    block[0] = 8;
    let transformed = transform(&block).unwrap();
    assert_eq!((transformed.residues, transformed.rows), ([1; 64], 1));
    block[0] = 2048;
    assert_eq!(transform(&block), Err(Refusal::NumberOutOfRange));
}

/// The code and the residual are not exchanged, and each wanted vector is read back.
#[test]
fn encoded_vectors() {
    let encoded = |f_code, past, wanted| {
        let encoded = encode_vector(f_code, past, wanted)?;
        let (code, residual) = (encoded.code, encoded.residual);
        assert_eq!(vector(f_code, past, code, residual), Ok(wanted));
        Ok((code, residual))
    };
    assert_eq!(encoded(1, 15, -16), Ok((1, 0)));
    assert_eq!(encoded(2, 0, -3), Ok((-2, 0)));
    assert_eq!(encoded(7, -1024, 1023), Ok((-1, 0)));
    assert_eq!(encoded(7, 0, 64), Ok((1, 63)));
    assert_eq!(encoded(2, 5, 5), Ok((0, 0)));
    // A difference of 16f, from both sides.
    assert_eq!(encoded(2, 0, -32), Ok((16, 1)));
    assert_eq!(encoded(2, -32, 0), Ok((16, 1)));
    for (f_code, past, wanted) in [
        (0, 0, 0),
        (8, 0, 0),
        (u32::MAX, 0, 0),
        (1, 16, 0),
        (1, 0, 16),
        (1, i32::MAX, i32::MIN),
    ] {
        let refused = encoded(f_code, past, wanted);
        assert_eq!(refused, Err(Refusal::VectorUnreachable));
    }
}

/// The rows that are not all zero, not those up to the last, and not columns.
#[test]
fn rows_of_a_block() {
    let rows = |places: &[usize]| {
        let mut block = [0; 64];
        for place in places {
            block[*place] = -1;
        }
        transform(&block).map(|transformed| transformed.rows)
    };
    assert_eq!(rows(&[63]), Ok(1));
    assert_eq!(rows(&[0, 1, 2, 3, 4, 5, 6, 7]), Ok(1));
    assert_eq!(rows(&[0, 8, 16, 24, 32, 40, 48, 56]), Ok(8));
    assert_eq!(rows(&[9, 10, 33]), Ok(2));
}

/// The grey picture as one slice, and the numbers that it is read with.
const GREY_SLICE: [u8; 9] = [0, 0, 1, 1, 0x43, 0x94, 0xa5, 0x22, 0x20];
const GREY_PARAMETERS: PictureParameters = PictureParameters {
    width: 1,
    height: 1,
    coding_type: CodingType::I,
    forward_f_code: 0,
    backward_f_code: 0,
};

#[test]
fn a_slice() {
    let mut records = [7; 31];
    let read = read_slice(&GREY_SLICE, GREY_PARAMETERS, &mut records).unwrap();
    assert_eq!(read.written, 30);
    assert_eq!(read.rest, BitPosition { byte: 8, bit: 4 });
    assert_eq!(records[..30], grey()[11..]);
    assert_eq!(records[30], 7);
}

#[test]
fn refused_slices() {
    let mut records = [7; 29];
    let mut refused = |slice: &[u8], parameters| {
        let RefusedSlice { refusal, place, .. } =
            read_slice(slice, parameters, &mut records).unwrap_err();
        (refusal, place.byte, place.bit)
    };
    let wide = PictureParameters {
        width: 49,
        ..GREY_PARAMETERS
    };
    let unknown = PictureParameters {
        coding_type: CodingType::Unknown(4),
        ..GREY_PARAMETERS
    };
    assert_eq!(refused(&GREY_SLICE, wide), (Refusal::Header, 0, 0));
    assert_eq!(refused(&GREY_SLICE, unknown), (Refusal::Header, 0, 0));
    assert_eq!(refused(&[1], GREY_PARAMETERS), (Refusal::SliceCode, 0, 0));
    assert_eq!(
        refused(&GREY_SLICE[..8], GREY_PARAMETERS),
        (Refusal::SliceCut, 8, 0)
    );
    assert_eq!(
        refused(&GREY_SLICE, GREY_PARAMETERS),
        (Refusal::RecordsLength, 0, 0)
    );
    assert_eq!(records, [7; 29]);
}

/// Every number is a refusal, and gives itself back; those that the crate knows are the ones with a text.
#[test]
fn numbers_of_refusals() {
    for number in (1..100).chain([u32::MAX]) {
        let refusal = Refusal::check(number).unwrap_err();
        assert_eq!(refusal.number(), number);
        let known = (1..=27).contains(&number) || number == 33;
        assert_eq!(Refusal::ALL.contains(&refusal), known);
        assert_eq!(refusal == Refusal::Unknown(number), !known);
    }
}

#[test]
fn messages() {
    let refused = reconstruct(&[3, 0, 1, 5], &[], &[], &mut []).unwrap_err();
    let message =
        "a record's kind is not 1 to 4 (refusal 4), at byte 1 of the file, after 0 macroblocks";
    assert_eq!(refused.to_string(), message);
    let refused = read_slice(&GREY_SLICE, GREY_PARAMETERS, &mut []).unwrap_err();
    // Refused parameters and a buffer that is too short have no place.
    let message = "the records of a raw slice don't fit the buffer (refusal 26)";
    assert_eq!(refused.to_string(), message);
    let wide = PictureParameters {
        width: 49,
        ..GREY_PARAMETERS
    };
    let message =
        "a number in the header, or one given with a raw slice, is out of range (refusal 8)";
    let refused_parameters = read_slice(&GREY_SLICE, wide, &mut []).unwrap_err();
    assert_eq!(refused_parameters.to_string(), message);
    let message = "a raw slice ends before its first macroblock is complete, or within a later one (refusal 25), at byte 8, bit 0 of the slice";
    let cut = read_slice(&GREY_SLICE[..8], GREY_PARAMETERS, &mut []).unwrap_err();
    assert_eq!(cut.to_string(), message);
    let unknown = Refusal::Unknown(1000).to_string();
    assert_eq!(
        unknown,
        "an answer that this crate does not know (refusal 1000)"
    );
    // All of them are errors.
    let errors: [Box<dyn std::error::Error>; 2] = [refused.into(), refused.refusal.into()];
    assert!(errors.iter().all(|error| error.source().is_none()));
}
