//! Tests the other decoder against every fixture.

use format3_tests::decoder::panel::{play, text, PANEL_LIMITS};
use format3_tests::decoder::{reconstruct, reconstruct_small, Answer, Reconstruct, ENTRIES};
use format3_tests::fixtures::{panel_fixtures, stream_fixtures};

#[test]
fn panel_prints_what_the_fixtures_say() {
    for fixture in panel_fixtures() {
        let lines = play(&fixture.reel, PANEL_LIMITS, reconstruct);
        assert_eq!(fixture.check(&text(&lines)), Ok(()));
    }
}

#[test]
fn streams_have_the_pictures_of_the_fixtures() {
    for fixture in stream_fixtures() {
        assert_eq!(fixture.check(reconstruct), Ok(()));
    }
}

/// Some streams are within the limit of the small reader, one of them with just 99 macroblocks, and some are not.
#[test]
fn streams_have_the_pictures_of_the_fixtures_within_the_small_limit() {
    let mut found = Vec::new();
    for fixture in stream_fixtures() {
        assert_eq!(fixture.check_small(reconstruct_small), Ok(()));
        // Without a limit, larger pictures are made.
        let large = fixture.check_small(reconstruct).is_err();
        found.push((fixture.name, large));
    }
    let expected = [
        ("mat64", false),
        ("n16_ipb", false),
        ("pan352", true),
        ("rd176", false),
        ("sl352", true),
        ("syn1x9", false),
        ("t64_ipb", false),
    ];
    assert_eq!(found, expected.map(|(name, large)| (name.into(), large)));
}

#[test]
fn wrong_rows_of_a_stream_are_reported() {
    let one_more: Reconstruct = |file, forward, backward, output| {
        let answer = reconstruct(file, forward, backward, output);
        let rows = answer.rows + 1;
        Answer { rows, ..answer }
    };
    let fixtures = stream_fixtures();
    let reported = fixtures[0].check(one_more).expect_err("a row too many");
    assert!(reported.contains("picture 1: "), "{reported}");
    assert!(reported.contains(" rows, not "), "{reported}");
}

#[test]
fn headers_are_those_of_the_fixtures() {
    let streams = stream_fixtures();
    let headers: Result<usize, String> = streams
        .iter()
        .map(|fixture| fixture.check_headers(ENTRIES.read_header))
        .sum();
    assert_eq!(headers, Ok(110));
    let panels = panel_fixtures();
    let headers: Result<usize, String> = panels
        .iter()
        .map(|fixture| fixture.check_headers(ENTRIES.read_header))
        .sum();
    assert_eq!(headers, Ok(60));
}

/// Another codec's pictures are stored beside two of the streams; those of `mat64` are equal to ours.
#[test]
fn pictures_of_the_other_codec_are_there() {
    let fixtures = stream_fixtures();
    let others = fixtures.iter().filter(|fixture| fixture.other.is_some());
    assert_eq!(others.count(), 2);
    let mat64 = fixtures.iter().find(|fixture| fixture.name == "mat64");
    let (reel, other) = mat64
        .and_then(|fixture| Some((&fixture.reel, fixture.other.as_ref()?)))
        .expect("mat64 has pictures of the other codec");
    let lines = play(reel, format3_tests::decoder::panel::NO_LIMITS, reconstruct);
    let pictures: Vec<u8> = lines
        .into_iter()
        .filter_map(|line| line.picture)
        .flatten()
        .collect();
    assert!(pictures == *other);
}
