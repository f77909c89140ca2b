//! Tests that the constants of the crate are those of include/format3.h.

use format3::{stack, CodingType, RecordKind};

const HEADER: &str = include_str!("../../../include/format3.h");

/// The names and numbers of an enumeration of the header.
fn enumeration(name: &str) -> Vec<(&'static str, usize)> {
    let start = format!("enum format3_{name} {{\n");
    let (_, rest) = HEADER.split_once(&start).expect("the header has it");
    let (items, _) = rest.split_once("};").expect("it ends");
    let item = |line: &'static str| {
        let (name, number) = line.trim().split_once(" = ").expect("a name and a number");
        let digits = number.split(|letter: char| !letter.is_ascii_digit()).next();
        let number = digits.and_then(|digits| digits.parse().ok());
        (
            name.trim_start_matches("FORMAT3_"),
            number.expect("a number"),
        )
    };
    items.lines().map(item).collect()
}

#[test]
fn version() {
    let line = format!("#define FORMAT3_API_VERSION {}", format3::API_VERSION);
    assert!(HEADER.lines().any(|other| other == line));
}

#[test]
fn limits() {
    let limits = [
        ("MAX_WIDTH", format3::MAX_WIDTH),
        ("MAX_HEIGHT", format3::MAX_HEIGHT),
        ("MAX_MACROBLOCKS", format3::MAX_MACROBLOCKS),
        ("MAX_MACROBLOCKS_SMALL", format3::MAX_MACROBLOCKS_SMALL),
        ("MACROBLOCK_BYTES", format3::MACROBLOCK_BYTES),
        ("SLICE_RECORD_BYTES", format3::SLICE_RECORD_BYTES),
        (
            "MAX_MACROBLOCK_RECORD_BYTES",
            format3::MAX_MACROBLOCK_RECORD_BYTES,
        ),
    ];
    assert_eq!(enumeration("limit"), limits);
}

#[test]
fn stacks() {
    let stacks = [
        ("STACK_READ_SLICE", stack::READ_SLICE),
        ("STACK_RECONSTRUCT", stack::RECONSTRUCT),
        ("STACK_RECONSTRUCT_SMALL", stack::RECONSTRUCT_SMALL),
        ("STACK_TRANSFORM", stack::TRANSFORM),
        ("STACK_DEFAULT", stack::DEFAULT),
    ];
    assert_eq!(enumeration("stack"), stacks);
}

#[test]
fn coding_types() {
    let types = [CodingType::I, CodingType::P, CodingType::B];
    let names = ["I_PICTURE", "P_PICTURE", "B_PICTURE"];
    let numbers = types.map(|coding_type| coding_type.number() as usize);
    let expected: Vec<(&str, usize)> = names.into_iter().zip(numbers).collect();
    assert_eq!(enumeration("coding_type"), expected);
    for coding_type in types {
        assert_eq!(CodingType::from(coding_type.number()), coding_type);
    }
}

#[test]
fn kinds() {
    let kinds = [
        RecordKind::Header,
        RecordKind::Matrix,
        RecordKind::Slice,
        RecordKind::Macroblock,
    ];
    let names = [
        "KIND_HEADER",
        "KIND_MATRIX",
        "KIND_SLICE",
        "KIND_MACROBLOCK",
    ];
    let numbers = kinds.map(|kind| usize::from(kind.number()));
    let expected: Vec<(&str, usize)> = names.into_iter().zip(numbers).collect();
    assert_eq!(enumeration("kind"), expected);
    for kind in kinds {
        assert_eq!(RecordKind::from(kind.number()), kind);
    }
}
