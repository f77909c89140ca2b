//! Parses MPEG-1 video elementary streams (ISO/IEC 11172-2, 2.4.2): the headers of sequences, groups and pictures. The slices stay
//! as they are; a reader of slices is needed to turn them into Format 3 files and reels.

use crate::decoder::file::{HEADER, INTRA, MATRIX, NON_INTRA, VERSION};
use crate::decoder::{Given, ReadSlice};

/// A picture of a stream.
#[derive(Clone, Debug)]
pub struct Picture<'a> {
    pub given: Given,
    /// The full-pel flags, forward and backward.
    pub full_pel: [bool; 2],
    /// The matrices that the sequence header loads: intra and non-intra.
    pub matrices: [Option<[u8; 64]>; 2],
    /// The bytes of each slice, up to the next start code.
    pub slices: Vec<&'a [u8]>,
}

/// What a sequence header says about every picture after it.
#[derive(Clone)]
struct Sequence {
    width: u32,
    height: u32,
    matrices: [Option<[u8; 64]>; 2],
}

const PICTURE: u8 = 0x00;
const FIRST_SLICE: u8 = 0x01;
const LAST_SLICE: u8 = 0xaf;
const USER_DATA: u8 = 0xb2;
const SEQUENCE: u8 = 0xb3;
const EXTENSION: u8 = 0xb5;
const SEQUENCE_END: u8 = 0xb7;
const GROUP: u8 = 0xb8;

/// The parts of a stream, each from one start code to the next. Only zeros may come before the first.
fn parts(stream: &[u8]) -> Result<Vec<&[u8]>, String> {
    let starts: Vec<usize> = (0..stream.len())
        .filter(|at| stream[*at..].starts_with(&[0, 0, 1]) && stream.len() > at + 3)
        .collect();
    let first = *starts.first().ok_or("no start code")?;
    if stream[..first].iter().any(|byte| *byte != 0) {
        return Err("bytes before the first start code".into());
    }
    let ends = starts[1..].iter().copied().chain([stream.len()]);
    let parts = starts
        .iter()
        .zip(ends)
        .map(|(start, end)| &stream[*start..end]);
    Ok(parts.collect())
}

/// The pictures of a stream in coded order.
pub fn pictures(stream: &[u8]) -> Result<Vec<Picture<'_>>, String> {
    let mut sequence = None;
    let mut pictures: Vec<Picture> = Vec::new();
    for part in parts(stream)? {
        let fields = &mut Fields {
            bytes: part,
            at: 32,
        };
        match part[3] {
            SEQUENCE => sequence = Some(sequence_header(fields)?),
            PICTURE => {
                let sequence = sequence.as_ref().ok_or("a picture before any sequence")?;
                pictures.push(picture_header(fields, sequence)?);
            }
            FIRST_SLICE..=LAST_SLICE => {
                let picture = pictures.last_mut().ok_or("a slice before any picture")?;
                picture.slices.push(part);
            }
            GROUP | USER_DATA | EXTENSION | SEQUENCE_END => (),
            other => return Err(format!("a start code {other:#x}")),
        }
    }
    Ok(pictures)
}

/// The bits of a header, most significant first.
struct Fields<'a> {
    bytes: &'a [u8],
    at: usize,
}

impl Fields<'_> {
    fn bits(&mut self, count: usize) -> Result<u32, String> {
        let mut number = 0;
        for at in self.at..self.at + count {
            let byte = self.bytes.get(at / 8).ok_or("a header is cut")?;
            number = 2 * number + u32::from(byte >> (7 - at % 8) & 1);
        }
        self.at += count;
        Ok(number)
    }

    fn flag(&mut self) -> Result<bool, String> {
        Ok(self.bits(1)? == 1)
    }
}

/// horizontal_size, vertical_size, fields for display and buffering, and a matrix after each load flag that is set.
fn sequence_header(fields: &mut Fields) -> Result<Sequence, String> {
    let [width, height] = [fields.bits(12)?, fields.bits(12)?].map(|pels| pels.div_ceil(16));
    for skipped in [4, 4, 18, 1, 10, 1] {
        fields.bits(skipped)?;
    }
    let matrices = [matrix(fields)?, matrix(fields)?];
    Ok(Sequence {
        width,
        height,
        matrices,
    })
}

/// A matrix, in the stream's order, if the flag before it is set.
fn matrix(fields: &mut Fields) -> Result<Option<[u8; 64]>, String> {
    if !fields.flag()? {
        return Ok(None);
    }
    let mut weights = [0; 64];
    for weight in &mut weights {
        *weight = fields.bits(8)? as u8;
    }
    Ok(Some(weights))
}

/// temporal_reference, picture_coding_type, vbv_delay; in P and B a full-pel flag and an f_code, in B two more.
fn picture_header<'a>(fields: &mut Fields, sequence: &Sequence) -> Result<Picture<'a>, String> {
    fields.bits(10)?;
    let picture_type = fields.bits(3)?;
    fields.bits(16)?;
    let mut full_pel = [false; 2];
    let mut f_codes = [0; 2];
    let directions = match picture_type {
        1 => 0,
        2 => 1,
        3 => 2,
        other => return Err(format!("a picture of type {other}")),
    };
    for way in 0..directions {
        full_pel[way] = fields.flag()?;
        f_codes[way] = fields.bits(3)?;
    }
    Ok(Picture {
        given: Given {
            width: sequence.width,
            height: sequence.height,
            picture_type,
            f_codes,
        },
        full_pel,
        matrices: sequence.matrices,
        slices: Vec::new(),
    })
}

/// Longer than the records of any slice of at most 396 macroblocks: none of these has more than 1,200 bytes.
const RECORDS: usize = 6 + 396 * 1200;

impl Picture<'_> {
    /// A Format 3 file up to its slices: version, header, matrices.
    fn file_start(&self) -> Vec<u8> {
        let [forward, backward] = self.given.f_codes.map(|f_code| f_code as u8);
        let [full_forward, full_backward] = self.full_pel.map(u8::from);
        let [width, height, picture_type] =
            [self.given.width, self.given.height, self.given.picture_type].map(|field| field as u8);
        let mut file = vec![VERSION, 0, 8, HEADER, width, height, picture_type];
        file.extend([full_forward, forward, full_backward, backward]);
        for which in [INTRA, NON_INTRA] {
            if let Some(weights) = self.matrices[which] {
                file.extend([0, 66, MATRIX, which as u8]);
                file.extend(weights);
            }
        }
        file
    }

    /// The records of one of its slices.
    fn records(&self, slice: &[u8], read_slice: ReadSlice) -> Result<Vec<u8>, String> {
        let mut records = vec![0; RECORDS];
        let answer = read_slice(slice, self.given, &mut records);
        if answer.number != 0 {
            return Err(format!("{answer:?}"));
        }
        records.truncate(answer.written);
        Ok(records)
    }

    /// The records of all its slices: what a file has after its matrices.
    pub fn check_records(&self, file: &[u8], read_slice: ReadSlice) -> Result<(), String> {
        let start = self.file_start();
        let mut left = file
            .strip_prefix(&start[..])
            .ok_or("another header or matrix")?;
        for (number, slice) in (1..).zip(&self.slices) {
            let records = self.records(slice, read_slice)?;
            let other = || format!("slice {number} has other records");
            left = left.strip_prefix(&records[..]).ok_or_else(other)?;
        }
        match left {
            [] => Ok(()),
            _ => Err(format!("{} bytes more than its slices give", left.len())),
        }
    }

    /// The picture's Format 3 file.
    fn file(&self, read_slice: ReadSlice) -> Result<Vec<u8>, String> {
        let mut file = self.file_start();
        for slice in &self.slices {
            file.extend(self.records(slice, read_slice)?);
        }
        Ok(file)
    }
}

/// The reel of a stream: per picture a 4-byte length and a file.
pub fn reel(stream: &[u8], read_slice: ReadSlice) -> Result<Vec<u8>, String> {
    let mut reel = Vec::new();
    for picture in pictures(stream)? {
        let file = picture.file(read_slice)?;
        reel.extend((file.len() as u32).to_be_bytes());
        reel.extend(file);
    }
    Ok(reel)
}

/// The files of a reel that isn't cut.
pub fn files_of_reel(reel: &[u8]) -> Result<Vec<&[u8]>, String> {
    let mut files = Vec::new();
    let mut left = reel;
    while !left.is_empty() {
        let (length, rest) = left.split_first_chunk().ok_or("a reel is cut")?;
        let length = u32::from_be_bytes(*length) as usize;
        files.push(rest.get(..length).ok_or("a reel is cut")?);
        left = &rest[length..];
    }
    Ok(files)
}
