//! Tests that what is made from include/answers.tsv is as it would be made now, and that the program which makes it tells one
//! list from another.

use format3_tests::answers::{answers, read_file, Answer, Made, LIST, MADE};

fn listed() -> Vec<Answer> {
    let list = read_file(LIST).expect("the list is there");
    answers(&list).expect("the list is legal")
}

fn stored(made: &Made) -> String {
    read_file(made.path).expect("the file is there")
}

fn require_made(made: &Made) {
    let stored = stored(made);
    let made_now = made.put_into(&stored, &listed());
    assert!(
        made_now.as_ref() == Ok(&stored),
        "{} is not what cargo run --bin answers makes of {LIST}",
        made.path
    );
}

#[test]
fn the_header_has_the_answers() {
    require_made(&MADE[0]);
}

#[test]
fn the_table_has_the_answers() {
    require_made(&MADE[1]);
}

#[test]
fn the_rust_crate_has_the_answers() {
    require_made(&MADE[2]);
}

/// A change of a number, a name or a text shows in all three.
#[test]
fn changed_answers_are_found() {
    let changes: [fn(&mut Answer); 3] = [
        |answer| answer.number += 100,
        |answer| answer.name += "_CHANGED",
        |answer| answer.wrong += ", changed",
    ];
    for made in &MADE {
        let stored = stored(made);
        for index in 1..listed().len() {
            for change in changes {
                let mut changed = listed();
                change(&mut changed[index]);
                let made_now = made.put_into(&stored, &changed);
                assert!(made_now.is_ok_and(|made_now| made_now != stored));
            }
        }
    }
}

#[test]
fn a_part_needs_both_ends_once() {
    for made in MADE.iter().filter(|made| made.ends.is_some()) {
        let stored = stored(made);
        let twice = [&stored[..], &stored].concat();
        assert!(made.put_into(&twice, &listed()).is_err());
        for end in made.ends.into_iter().flatten() {
            assert!(made.put_into(&stored.replace(end, ""), &listed()).is_err());
        }
    }
}

#[test]
fn illegal_lists() {
    let accepted = "0\tACCEPTED\taccepted\t\tuse it\n";
    let refused = |list: &str| answers(&[accepted, list].concat()).is_err();
    assert!(!refused(
        "# number\n7\tENDS\tit ends\tthe writer\tmend it\n"
    ));
    assert!(refused("0\tENDS\tit ends\tthe writer\tmend it\n"));
    assert!(refused("7\tENDS\tit ends\tthe writer\n"));
    assert!(refused("7\tENDS\tit ends\tthe writer\tmend it\tnow\n"));
    assert!(refused("seven\tENDS\tit ends\tthe writer\tmend it\n"));
    assert!(refused("7\tEnds\tit ends\tthe writer\tmend it\n"));
    assert!(refused("7\t\tit ends\tthe writer\tmend it\n"));
    assert!(refused("7\tENDS\t\tthe writer\tmend it\n"));
    assert!(refused("7\tENDS\tit ends\t\tmend it\n"));
    assert!(refused("7\tENDS\tit \"ends\"\tthe writer\tmend it\n"));
    assert!(refused("7\tENDS\tit ends | now\tthe writer\tmend it\n"));
    assert!(answers("1\tENDS\tit ends\tthe writer\tmend it\n").is_err());
    assert!(answers("").is_err());
}
