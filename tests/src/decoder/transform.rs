//! "Inverse transform": the exact sum, without rounding in between; and how many rows it works.

use super::coefficients::Block;

/// "One table stands for cos(i × pi / 16), i from 1 to 7, times 2^20."
const COSINES: [i64; 7] = [1028428, 968758, 871859, 741455, 582558, 401273, 204567];

/// The table's number for cos(angle × pi / 16): "the entry of that size, with its sign".
/// The angle is never a multiple of 8: an odd number times a frequency from 1 to 7 cannot be one.
fn cosine(angle: usize) -> i64 {
    match angle % 32 {
        i @ 1..=7 => COSINES[i - 1],
        i @ 9..=15 => -COSINES[15 - i],
        i @ 17..=23 => -COSINES[i - 17],
        i @ 25..=31 => COSINES[31 - i],
        _ => 0,
    }
}

/// "The factor for frequency u at place p (0..7) stands for cos((2p+1) × u × pi / 16)"; "for u = 0 it is the fourth entry."
fn factor(frequency: usize, place: usize) -> i64 {
    if frequency == 0 {
        COSINES[3]
    } else {
        cosine((2 * place + 1) * frequency)
    }
}

/// "The sum over all 64 coefficients of horizontal factor × vertical factor × coefficient", at a column and row.
fn sum(coefficients: &Block, factors: &[[i64; 8]; 8], column: usize, row: usize) -> i64 {
    let mut sum = 0;
    for vertical in 0..8 {
        for horizontal in 0..8 {
            sum += factors[horizontal][column]
                * factors[vertical][row]
                * coefficients[8 * vertical + horizontal];
        }
    }
    sum
}

/// Request No. 6: "tell how many rows it worked. That number equals the rows with a coefficient not zero, so at most 8."
pub fn rows_worked(coefficients: &Block) -> usize {
    let rows = coefficients.chunks(8);
    rows.filter(|row| row.iter().any(|coefficient| *coefficient != 0))
        .count()
}

/// ".. plus 2^41, divided by 2^42 downwards, then limited to -256..255."
pub fn inverse_transform(coefficients: &Block) -> Block {
    let factors: [[i64; 8]; 8] =
        std::array::from_fn(|frequency| std::array::from_fn(|place| factor(frequency, place)));
    std::array::from_fn(|place| {
        let sum = sum(coefficients, &factors, place % 8, place / 8);
        (sum + (1 << 41)).div_euclid(1 << 42).clamp(-256, 255)
    })
}
