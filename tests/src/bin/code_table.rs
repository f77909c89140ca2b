//! `code_table` prints crates/mpeg1_tables/src/entries.rt, the entries of the code table.

use format3_tests::code_table::entries_file;

fn main() {
    print!("{}", entries_file());
}
