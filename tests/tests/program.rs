//! Tests how reels reach a program, whole or in pieces, and that programs which read wrongly are found.

use std::path::{Path, PathBuf};

use format3_tests::program::Program;
use format3_tests::random::Random;

const REEL: &str = "a reel that the programs here print as it comes, long enough for a few pieces";

fn program(name: &str) -> PathBuf {
    let tests = Path::new(env!("CARGO_MANIFEST_DIR")).join("tests");
    tests.join("programs").join(name)
}

#[test]
fn a_program_that_reads_to_the_end_gets_the_reel() {
    let cat = Program(Path::new("cat"));
    assert_eq!(cat.run(REEL.as_bytes()), Ok(REEL.into()));
    for seed in 0..20 {
        let random = &mut Random::new(&[seed]);
        assert_eq!(cat.run_in_pieces(REEL.as_bytes(), random), Ok(REEL.into()));
    }
}

#[test]
fn a_program_that_reads_once_gets_a_piece() {
    let path = program("reads_once");
    let pieces = (0..20).filter(|seed| {
        let random = &mut Random::new(&[*seed]);
        let printed = Program(&path).run_in_pieces(REEL.as_bytes(), random);
        printed.is_ok_and(|printed| printed.len() < REEL.len())
    });
    assert!(pieces.count() > 5);
}

#[test]
fn a_long_reel_is_not_to_be_read_to_its_end() {
    let require_long = |name| Program(&program(name)).require_long(1 << 20);
    assert_eq!(require_long("reads_enough"), Ok(()));
    assert!(require_long("reads_all").is_err());
}
