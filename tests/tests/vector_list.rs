//! Tests the list of all legal vector inputs for f_code 1 and 2: the one that `vectors` prints is the other decoder's and the one
//! given with the request, and wrong lists and wrong vector entries are found.

mod found;

use std::fs;

use format3_tests::compare::nearest_f;
use format3_tests::compare_vector_list::{listed_vectors, numbers_of, same_list};
use format3_tests::decoder::refusals::Refusal;
use format3_tests::decoder::vector_list::vector_list;
use format3_tests::decoder::{DecodeVector, Entries, ENTRIES};
use format3_tests::sha256;
use found::require_found;

/// The stored output of `vectors`. The gate compares it with what the program prints.
fn stored_list() -> String {
    let path = concat!(env!("CARGO_MANIFEST_DIR"), "/../crates/vectors/stdout");
    fs::read_to_string(path).expect("the stored list")
}

#[test]
fn the_stored_list_is_the_decoders() {
    assert_eq!(same_list(&stored_list()), Ok(5216));
}

/// Its length, its hash and some of its lines were given with the request.
#[test]
fn the_stored_list_is_the_one_given() {
    let list = stored_list();
    let lines: Vec<&str> = list.lines().collect();
    for (number, line) in [
        (1, "1 -16 -16 0 0"),
        (2, "1 -16 -15 0 1"),
        (1056, "1 15 16 0 -1"),
        (1057, "2 -32 -16 0 1"),
        (1088, "2 -32 -1 1 30"),
        (1089, "2 -32 0 0 -32"),
        (1090, "2 -32 1 0 -31"),
        (5215, "2 31 16 0 -2"),
        (5216, "2 31 16 1 -1"),
    ] {
        assert_eq!(lines[number - 1], line, "line {number}");
    }
    assert_eq!(list.len(), 68_884);
    let hash = "83bb91412d1231d63fd0a49d6481b27936cd1b822da0baaa55b09207764d4ca8";
    assert_eq!(sha256::hex(list.as_bytes()), hash);
}

/// "1,056 and 4,160 lines, each case once": f_code, past, code and residual rise from line to line.
#[test]
fn the_lines_rise() {
    let lines = numbers(&stored_list());
    assert!(lines.windows(2).all(|pair| pair[0][..4] < pair[1][..4]));
    let of = |f_code| lines.iter().filter(|line| line[0] == f_code).count();
    assert_eq!([of(1), of(2)], [1056, 4160]);
}

#[test]
fn the_decoders_entry_accepts_what_is_listed() {
    assert_eq!(listed_vectors(&ENTRIES, &stored_list()), Ok(5216));
}

/// The numbers of each line of a list.
fn numbers(list: &str) -> Vec<[i32; 5]> {
    let lines: Result<Vec<[i32; 5]>, String> = list.lines().map(numbers_of).collect();
    lines.expect("lines of five numbers")
}

/// The list of these lines.
fn text(lines: impl IntoIterator<Item = [i32; 5]>) -> String {
    let line = |[f_code, past, code, residual, vector]: [i32; 5]| {
        format!("{f_code} {past} {code} {residual} {vector}\n")
    };
    lines.into_iter().map(line).collect()
}

/// The decoder's list, with each line replaced by those that `lines` makes of its numbers.
fn with_lines(lines: impl Fn([i32; 5]) -> Vec<[i32; 5]>) -> String {
    text(numbers(&vector_list()).into_iter().flat_map(lines))
}

/// The decoder's list, without the lines that `left_out` picks.
fn without(left_out: fn([i32; 5]) -> bool) -> String {
    with_lines(|line| if left_out(line) { vec![] } else { vec![line] })
}

/// Lists with other inputs or vectors.
fn other_cases() -> Vec<(&'static str, String)> {
    let right = vector_list();
    vec![
        ("code 16 left out", without(|[_, _, code, _, _]| code == 16)),
        ("code 0 left out", without(|[_, _, code, _, _]| code == 0)),
        (
            "the past's last value missing",
            without(|[f_code, past, _, _, _]| past == 16 * nearest_f(f_code) - 1),
        ),
        (
            "residual 1 at code 0",
            with_lines(|line| match line {
                [2, past, 0, 0, vector] => vec![line, [2, past, 0, 1, vector]],
                _ => vec![line],
            }),
        ),
        (
            "a vector that is not moved",
            with_lines(|[f_code, past, code, residual, _]| {
                let size = (code.abs() - 1) * nearest_f(f_code) + residual + 1;
                vec![[f_code, past, code, residual, past + code.signum() * size]]
            }),
        ),
        ("f_code 1 alone", without(|[f_code, ..]| f_code == 2)),
        ("a line more", right + "2 32 -16 0 0\n"),
        ("nothing", String::new()),
    ]
}

/// Lists with the right cases, in another order or written in another way.
fn other_texts() -> Vec<(&'static str, String)> {
    let right = vector_list();
    let second = right.find("2 -32").expect("the lines of f_code 2");
    let (first, second) = right.split_at(second);
    let mut by_residual = numbers(&right);
    by_residual.sort_by_key(|[f_code, past, code, residual, _]| [*f_code, *past, *residual, *code]);
    vec![
        ("residual rising before code", text(by_residual)),
        (
            "residual's column before code's",
            with_lines(|[f_code, past, code, residual, vector]| {
                vec![[f_code, past, residual, code, vector]]
            }),
        ),
        ("f_code 2 first", [second, first].concat()),
        ("the first line twice", ["1 -16 -16 0 0\n", &right].concat()),
        ("a last line that is not ended", right.trim_end().into()),
        (
            "a space at the end of each line",
            right.replace('\n', " \n"),
        ),
        (
            "a carriage return for the last line feed",
            right.trim_end().replacen('\n', "\r\n", 1),
        ),
    ]
}

#[test]
fn wrong_lists_are_found() {
    for (name, wrong) in other_cases().into_iter().chain(other_texts()) {
        require_found(name, same_list(&wrong));
    }
    for (name, wrong) in other_cases() {
        require_found(name, listed_vectors(&ENTRIES, &wrong));
    }
}

fn right(f_code: i32, past: i32, code: i32, residual: i32) -> (u32, i32) {
    (ENTRIES.vector)(f_code, past, code, residual)
}

/// Entries that accept too much or too little, or give another vector.
#[test]
fn wrong_vector_entries_are_found() {
    let wrong: [(&str, DecodeVector); 5] = [
        (
            "no code 16 with residual f - 1",
            |f_code, past, code, residual| {
                if code == 16 && residual == nearest_f(f_code) - 1 {
                    return (Refusal::NumberOutOfRange.number(), 0);
                }
                right(f_code, past, code, residual)
            },
        ),
        ("residual 1 at code 0", |f_code, past, code, residual| {
            let dropped = f_code == 2 && code == 0 && residual == 1;
            right(f_code, past, code, if dropped { 0 } else { residual })
        }),
        ("a past of 16f", |f_code, past, code, residual| {
            let is_end = past == 16 * nearest_f(f_code);
            right(f_code, if is_end { -past } else { past }, code, residual)
        }),
        ("code -17", |f_code, past, code, residual| {
            right(f_code, past, code.max(-16), residual)
        }),
        (
            "the past for the vector",
            |f_code, past, code, residual| match right(f_code, past, code, residual) {
                (0, _) => (0, past),
                refused => refused,
            },
        ),
    ];
    for (name, vector) in wrong {
        let tested = Entries { vector, ..ENTRIES };
        require_found(name, listed_vectors(&tested, &vector_list()));
    }
}

#[test]
fn malformed_repeated_and_far_lines_fail() {
    let twice = "1 -16 -16 0 0\n1 -16 -16 0 1\n";
    let far = vector_list() + "3 0 0 0 0\n";
    for (list, reason) in [
        (twice, "a second line for the input of 1 -16 -16 0 1"),
        ("1 -16 -16 0\n", "no line of five numbers: 1 -16 -16 0"),
        ("1 -16 -16 0 x\n", "no line of five numbers: 1 -16 -16 0 x"),
        (&far, "a line for [3, 0, 0, 0], far out of range"),
    ] {
        assert_eq!(listed_vectors(&ENTRIES, list), Err(reason.into()));
    }
}
