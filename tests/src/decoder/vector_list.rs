//! Request No. 11, "Every small vector".

use super::vectors::{decoded, f_of, residual_legal};

/// "A program prints them for f_code 1, then 2".
pub fn vector_list() -> String {
    (1..=2).map(lines_of).collect()
}

/// "Past rising over its range, then code rising, then residual rising. A line has f_code, past, code, residual and the vector."
fn lines_of(f_code: i64) -> String {
    let f = f_of(f_code);
    let mut lines = String::new();
    for past in -16 * f..16 * f {
        for code in -16..=16 {
            for residual in (0..f).filter(|residual| residual_legal(f, code, *residual)) {
                let vector = decoded(f, past, code, residual);
                lines += &format!("{f_code} {past} {code} {residual} {vector}\n");
            }
        }
    }
    lines
}
