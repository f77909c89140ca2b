//! Compares the entries of the code table with those made from the other decoder's word lists.

use std::fs;

use format3_tests::code_table::entries_file;

#[test]
fn entries_are_those_of_the_word_lists() {
    let path = concat!(
        env!("CARGO_MANIFEST_DIR"),
        "/../crates/mpeg1_tables/src/entries.rt"
    );
    let found = fs::read_to_string(path).expect("the entries of the code table");
    let made = entries_file();
    for (number, (found, made)) in (1..).zip(found.lines().zip(made.lines())) {
        assert_eq!(found, made, "line {number}");
    }
    assert_eq!(found.len(), made.len());
}
