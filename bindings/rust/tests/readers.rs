//! Tests that each of the two readers of pictures has its own limit, and that they agree on every picture within both.

use format3::{read_header, reconstruct, reconstruct_small};
use format3::{Reconstructed, Refusal, RefusedPicture, MACROBLOCK_BYTES, MAX_MACROBLOCKS_SMALL};

type Reader = fn(&[u8], &[u8], &[u8], &mut [u8]) -> Result<Reconstructed, RefusedPicture>;

/// The answer to a picture, and the output after the call.
type Outcome = (Result<Reconstructed, RefusedPicture>, Vec<u8>);

/// The start of a P picture of this size, with this f_code.
fn start_of_p(width: u8, height: u8, f_code: u8) -> Vec<u8> {
    vec![3, 0, 8, 1, width, height, 2, 0, f_code, 0, 0]
}

/// A P picture of this size that copies its forward reference. It skips all macroblocks but the first and the last.
fn copy(width: u8, height: u8) -> Vec<u8> {
    let mut file = start_of_p(width, height, 1);
    file.extend([0, 4, 3, 8, 0, 0]);
    let last = u16::from(width) * u16::from(height) - 1;
    for increment in [1, last] {
        let [high, low] = increment.to_be_bytes();
        file.extend([0, 8, 4, 2, high, low, 0, 0, 0, 0]);
    }
    file
}

/// What is lent to a call: a forward reference and an output of so many macroblocks.
fn lent(forward: usize, output: usize) -> [Vec<u8>; 2] {
    let forward = (0..MACROBLOCK_BYTES * forward).map(|at| at as u8);
    [forward.collect(), vec![7; MACROBLOCK_BYTES * output]]
}

fn read(reader: Reader, file: &[u8], lent: &[Vec<u8>; 2]) -> Outcome {
    let [forward, mut output] = lent.clone();
    let answer = reader(file, &forward, &[], &mut output);
    (answer, output)
}

/// The refusal, if it is the header's: nothing was made, and the output is as it was lent.
fn refused_at_header(outcome: Outcome, lent: &[Vec<u8>; 2]) -> Option<Refusal> {
    let (answer, output) = outcome;
    let refused = answer.err()?;
    let nothing_made = (refused.place, refused.made, refused.rows) == (1, 0, 0);
    (nothing_made && output == lent[1]).then_some(refused.refusal)
}

/// Whole, cut, and with wrong lengths lent.
#[test]
fn pictures_within_the_small_limit() {
    for (width, height) in [(11, 9), (9, 11), (33, 3), (3, 33), (48, 2), (2, 1)] {
        let file = copy(width, height);
        let macroblocks = usize::from(width) * usize::from(height);
        assert!(macroblocks <= MAX_MACROBLOCKS_SMALL);
        let by_both = |file: &[u8], forward, output| {
            let lent = lent(forward, output);
            let (answer, output) = read(reconstruct, file, &lent);
            assert_eq!(
                read(reconstruct_small, file, &lent),
                (answer, output.clone())
            );
            answer.map_err(|refused| refused.refusal).map(|_| output)
        };
        let [forward, _] = lent(macroblocks, 0);
        assert_eq!(by_both(&file, macroblocks, macroblocks), Ok(forward));
        let cut = &file[..file.len() - 1];
        let refused = by_both(cut, macroblocks, macroblocks);
        assert_eq!(refused, Err(Refusal::RecordCut));
        let refused = by_both(&file, macroblocks, macroblocks + 1);
        assert_eq!(refused, Err(Refusal::OutputLength));
        let refused = by_both(&file, macroblocks - 1, macroblocks);
        assert_eq!(refused, Err(Refusal::ForwardLength));
    }
}

/// The small reader refuses them whatever is lent, and also if nothing follows the header. The other one takes them.
#[test]
fn pictures_above_the_small_limit() {
    for (width, height) in [(10, 10), (20, 5), (4, 25), (48, 3), (3, 36), (22, 18)] {
        let file = copy(width, height);
        let macroblocks = usize::from(width) * usize::from(height);
        let right = lent(macroblocks, macroblocks);
        let (answer, output) = read(reconstruct, &file, &right);
        assert_eq!(answer.map(|picture| picture.made), Ok(macroblocks));
        assert_eq!(output, right[0]);
        let short_output = lent(macroblocks, MAX_MACROBLOCKS_SMALL);
        let short_forward = lent(MAX_MACROBLOCKS_SMALL, macroblocks);
        for (lent, by_the_other) in [
            (right, None),
            (short_output, Some(Refusal::OutputLength)),
            (short_forward, Some(Refusal::ForwardLength)),
            (lent(0, 0), Some(Refusal::OutputLength)),
        ] {
            let refused = |reader, file| refused_at_header(read(reader, file, &lent), &lent);
            assert_eq!(refused(reconstruct, &file), by_the_other);
            for file in [&file, &file[..11]] {
                let refusal = Some(Refusal::MacroblockLimit);
                assert_eq!(refused(reconstruct_small, file), refusal);
            }
        }
    }
}

/// Both readers refuse what `read_header` refuses by the same number, also if the picture has more than 99 macroblocks.
#[test]
fn refused_headers() {
    for header in [
        start_of_p(48, 9, 1),
        start_of_p(50, 2, 1),
        start_of_p(3, 37, 1),
        start_of_p(10, 10, 0),
    ] {
        assert_eq!(read_header(&header), Err(Refusal::Header));
        let lent = lent(100, 100);
        let readers: [Reader; 2] = [reconstruct, reconstruct_small];
        for reader in readers {
            let refused = refused_at_header(read(reader, &header, &lent), &lent);
            assert_eq!(refused, Some(Refusal::Header));
        }
    }
}
