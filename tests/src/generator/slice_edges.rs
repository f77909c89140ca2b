//! Makes slices that end within a code: at every point of the syntax, with every start of every word there, and the same with the
//! last bit flipped; each at the slice's end and before more bits.

use std::collections::BTreeSet;

use super::codes::{bytes_of_text, coefficient_texts, escape, texts, word_of};
use super::slices::SliceCase;
use crate::decoder::annex_b::{self, Increment};
use crate::decoder::file::PictureType::{self, B, I, P};
use crate::decoder::Given;

/// A point of the syntax: the picture's type and f_code, the codes from the slice's header to it, and the words allowed
/// there.
struct Edge {
    picture_type: PictureType,
    f_code: u32,
    before: String,
    words: Vec<String>,
}

/// What follows a word's start: nothing (the slice ends there), zeros, or ones.
const AFTER: [&str; 3] = ["", "00000000", "11111111"];

pub fn edge_slices() -> Vec<SliceCase> {
    let mut cases = Vec::new();
    for edge in edges() {
        for text in starts(&edge.words) {
            for after in AFTER {
                cases.push(case(&edge, &format!("{text}{after}")));
            }
        }
    }
    cases
}

/// Every start of every word, from empty to whole, and each with its last bit flipped.
fn starts(words: &[String]) -> BTreeSet<String> {
    let mut starts = BTreeSet::new();
    for word in words {
        starts.insert(String::new());
        for length in 1..=word.len() {
            let (start, last) = word[..length].split_at(length - 1);
            starts.extend([
                format!("{start}{last}"),
                format!("{start}{}", flipped(last)),
            ]);
        }
    }
    starts
}

fn flipped(bit: &str) -> &str {
    match bit {
        "0" => "1",
        _ => "0",
    }
}

/// A slice that ends with this text at the edge. Extra information takes nine bits a byte; the header has as many of these as let
/// the slice end with a byte.
fn case(edge: &Edge, text: &str) -> SliceCase {
    let slice = |extra: usize| {
        let extra = "1 10101010".repeat(extra);
        let start = format!("{:024b}{:08b}", 1, 1);
        let text = format!("{start} 01000 {extra} 0 {}{text}", edge.before);
        text.replace(' ', "")
    };
    let whole_bytes = |slice: &String| slice.len().is_multiple_of(8);
    let slice = (0..8).map(slice).find(whole_bytes);
    let slice = slice.expect("nine bits more come to every rest by eight");
    let [forward, backward] = edge.picture_type.uses().map(u32::from);
    SliceCase {
        slice: bytes_of_text(&slice),
        given: Given {
            width: 22,
            height: 18,
            picture_type: edge.picture_type.number().into(),
            f_codes: [forward * edge.f_code, backward * edge.f_code],
        },
        buffer: (0..600).map(|at| (91 * at + 37) as u8).collect(),
        codes: Vec::new(),
        legal: false,
    }
}

fn edges() -> Vec<Edge> {
    let mut edges = increments();
    edges.extend(vectors());
    edges.extend(coefficients());
    edges.extend([
        edge(I, "1", texts(annex_b::I_TYPES)),
        edge(P, "1", texts(annex_b::P_TYPES)),
        edge(B, "1", texts(annex_b::B_TYPES)),
        edge(I, "1 01", numbers(5)),
        edge(P, "1 01", texts(annex_b::PATTERNS)),
    ]);
    edges
}

fn edge(picture_type: PictureType, before: &str, words: Vec<String>) -> Edge {
    Edge {
        picture_type,
        f_code: 1,
        before: before.into(),
        words,
    }
}

/// At the first macroblock and at a later one, each also after stuffing and escapes.
fn increments() -> Vec<Edge> {
    let [stuffing, escape] = [Increment::Stuffing, Increment::Escape].map(word_of);
    let mut edges = Vec::new();
    for (stuffed, escapes) in [(0, 0), (1, 0), (2, 0), (0, 1), (1, 1), (0, 11), (0, 12)] {
        let begun = stuffing.repeat(stuffed) + &escape.repeat(escapes);
        for (picture_type, before) in [(I, ""), (P, "1 001 1 1")] {
            let words = texts(annex_b::INCREMENTS);
            edges.push(edge(picture_type, &format!("{before} {begun}"), words));
        }
    }
    edges
}

/// The codes and residuals of both components: forward in P, backward in B.
fn vectors() -> Vec<Edge> {
    let mut edges = Vec::new();
    for (picture_type, before) in [(P, "1 001"), (P, "1 001 1"), (B, "1 010"), (B, "1 010 1")] {
        edges.push(edge(picture_type, before, texts(annex_b::MOTION_CODES)));
        edges.extend((2..=7).map(|f_code| Edge {
            f_code,
            ..edge(
                picture_type,
                &format!("{before} 010"),
                numbers(f_code as usize - 1),
            )
        }));
    }
    edges
}

/// DC sizes and differences; a block's first coefficient, later ones, and those at the last positions and past them.
fn coefficients() -> Vec<Edge> {
    let chroma = "1 1".to_string() + &"100 10".repeat(4);
    let mut edges = vec![
        edge(I, "1 1", texts(annex_b::LUMA_DC_SIZES)),
        edge(I, &chroma, texts(annex_b::CHROMA_DC_SIZES)),
        edge(I, "1 1 100", coefficient_texts(false)),
        edge(P, "1 01 1010", coefficient_texts(true)),
        edge(P, "1 01 1010 10", coefficient_texts(false)),
    ];
    let sizes = annex_b::LUMA_DC_SIZES.iter();
    edges.extend(sizes.map(|(word, size)| edge(I, &format!("1 1 {word}"), numbers(*size))));
    edges.extend((61..=63).map(|run| {
        let before = format!("1 01 1010 {}", escape(run, "00000001"));
        edge(P, &before, coefficient_texts(false))
    }));
    edges
}

/// Some numbers of this width: zeros, ones, and alternating bits.
fn numbers(width: usize) -> Vec<String> {
    ["0", "1", "10"]
        .map(|bits| bits.repeat(width)[..width].to_string())
        .to_vec()
}
