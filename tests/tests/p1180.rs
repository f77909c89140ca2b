//! Makes the IEEE P1180 measurement on the other decoder's transform, and on wrong ones.

use format3_tests::decoder::{Transform, Transformed, ENTRIES};
use format3_tests::p1180::{measure, zero_gives_zero};

#[test]
fn the_transform_meets_every_limit() {
    assert!(zero_gives_zero(ENTRIES.transform));
    let figures = measure(ENTRIES.transform);
    assert_eq!(figures.len(), 6);
    for figures in figures {
        println!("{}", figures.line());
        assert!(figures.met(), "{}", figures.line());
    }
}

/// One rounds down instead of to the nearest (DC 4 is half a level); the other gives zeros.
#[test]
fn wrong_transforms_miss_a_limit() {
    let downwards: Transform = |coefficients| {
        let mut lowered = *coefficients;
        lowered[0] = (lowered[0] - 4).max(-2048);
        (ENTRIES.transform)(&lowered)
    };
    let zeros: Transform = |coefficients| {
        let (number, transformed) = (ENTRIES.transform)(coefficients);
        let residues = [0; 64];
        (
            number,
            Transformed {
                residues,
                ..transformed
            },
        )
    };
    for wrong in [downwards, zeros] {
        assert!(measure(wrong).iter().any(|figures| !figures.met()));
    }
}

/// One gives a residue for zeros, the other works a row of them.
#[test]
fn zero_is_to_give_zero() {
    let one: Transform = |coefficients| {
        let (number, mut transformed) = (ENTRIES.transform)(coefficients);
        transformed.residues[63] += 1;
        (number, transformed)
    };
    let a_row: Transform = |coefficients| {
        let (number, mut transformed) = (ENTRIES.transform)(coefficients);
        transformed.rows += 1;
        (number, transformed)
    };
    for wrong in [one, a_row] {
        assert!(!zero_gives_zero(wrong));
    }
}
