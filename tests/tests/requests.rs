//! Tests the other decoder against the cases for requests, and that the runner of the cases reports what it should.

use std::fs;
use std::path::{Path, PathBuf};

use format3_tests::decoder::{
    Answer, EncodeVector, EncodedVector, Entries, Transform, Transformed, ENTRIES,
};
use format3_tests::requests::notation::Unread;
use format3_tests::requests::{
    found_in, request_of, run, CaseResult, Difference, Found, Landed, Report, RequestFile, Tested,
    LANDED,
};

/// A file of a request, and a case of it that is met.
struct Example {
    name: &'static str,
    case: Vec<String>,
}

fn example(name: &'static str, case: &[&str]) -> Example {
    Example {
        name,
        case: case.iter().copied().map(String::from).collect(),
    }
}

/// A case of No. 1 whose forward vector does not fit.
fn no01() -> Example {
    let case = [
        "hand/forward-alone",
        "0300080102010300010001000403080000000804020001ff000000",
        "1004446826:768",
        "3742870132:768",
        "1:768",
        "18",
        "17",
        "0",
        "2475f214d3577918",
    ];
    example("no01.txt", &case)
}

/// A case of No. 4: 10 by 10 macroblocks, which only one reader takes.
fn no04() -> Example {
    let case = [
        "size/10x10-P",
        "030008010a0a02000100000004030300000011040a00010000000021010000090102fff700080402006300000000",
        "2443279853:38400",
        "-",
        "1:38400",
        "0",
        "46",
        "100",
        "2",
        "61cb9b875f7e8591",
        "27",
        "1",
        "0",
        "0",
        "8f4396704dfd776d",
    ];
    example("no04.txt", &case)
}

/// A case of No. 6: a macroblock whose six blocks have a DC alone.
fn no06() -> Example {
    let case = [
        "hand/six-dc",
        "0300080101010100000000000403080000001604100001000000000000000000000000000000000000",
        "-",
        "-",
        "1:384",
        "0",
        "41",
        "1",
        "6",
        "79ab84058bbe8125",
    ];
    example("no06.txt", &case)
}

/// A case of No. 6: the transform of a DC alone.
fn no06_transform() -> Example {
    let case = ["dc/6", &list("8", "0"), "0", "1", &list("1", "1")];
    example("no06-transform.txt", &case)
}

/// A case of No. 12 in which two pairs reach the wanted vector.
fn no12() -> Example {
    let case = ["hand/5", "2", "0", "-32", "0", "16", "1"];
    example("no12.txt", &case)
}

/// A list of 64 numbers, all the same but for the first.
fn list(first: &str, other: &str) -> String {
    [&[first], &[other; 63][..]].concat().join(",")
}

impl Example {
    fn line(&self) -> String {
        self.case.join("\t")
    }

    /// The case's line with another text in a field.
    fn line_with(&self, field: usize, text: &str) -> String {
        let mut fields = self.case.clone();
        fields[field] = text.into();
        fields.join("\t")
    }

    /// The report on a file with the case, and a line.
    fn report_with(&self, line: &str) -> Report {
        let text = format!("# fields\n{}\n{line}\n", self.line());
        run_on_decoder(&[found(self.name, &text)], LANDED)
    }

    /// The case of a line differs so.
    fn assert_differs(&self, line: &str, expected: &str, given: &str) {
        let (name, case) = (self.name, &self.case[0]);
        let lines = [
            &*format!("{name}, line 3: {case}: expected {expected}; given {given}"),
            &*format!("{name}: 2 cases, 1 differ"),
            "requests: 2 cases, 1 differ",
        ];
        assert_report(&self.report_with(line), 1, &lines);
    }

    /// A line is not run, for this reason.
    fn assert_not_run(&self, line: &str, reason: &str) {
        let name = self.name;
        let lines = [
            &*format!("{name}, line 3: {reason}"),
            &*format!("{name}: 1 cases, 0 differ"),
            "1 files or lines could not be run",
            "requests: 1 cases, 0 differ",
        ];
        assert_report(&self.report_with(line), 1, &lines);
    }
}

fn copies() -> PathBuf {
    Path::new(env!("CARGO_MANIFEST_DIR")).join("fixtures/requests")
}

/// These entries, and programs of which one is `reads_all`.
fn tested_with(entries: &Entries) -> Tested<'_> {
    let programs = Path::new(concat!(env!("CARGO_MANIFEST_DIR"), "/tests/programs"));
    Tested { entries, programs }
}

fn run_on_decoder(found: &[Found], landed: &[Landed]) -> Report {
    run(found, landed, tested_with(&ENTRIES))
}

fn found(name: &str, text: &str) -> Found {
    Found {
        name: name.into(),
        request: request_of(name).expect("the name of a file of a request"),
        text: Ok(text.into()),
    }
}

fn assert_report(report: &Report, exit_status: u8, lines: &[&str]) {
    let text = report.to_string();
    assert_eq!(text.lines().collect::<Vec<_>>(), lines);
    assert_eq!(report.exit_status(), exit_status, "{text}");
}

#[test]
fn the_decoder_gives_the_answers_of_the_cases() {
    let found = found_in(&copies()).expect("the copies can be read");
    let report = run_on_decoder(&found, LANDED);
    let lines = [
        "no01.txt: 306 cases, 0 differ",
        "no04.txt: 322 cases, 0 differ",
        "no06-transform.txt: 206 cases, 0 differ",
        "no06.txt: 335 cases, 0 differ",
        "no12.txt: 918 cases, 0 differ",
        "requests: 2087 cases, 0 differ",
    ];
    assert_report(&report, 0, &lines);
}

#[test]
fn every_file_of_a_landed_request_is_copied() {
    for file in LANDED.iter().flat_map(|landed| landed.files) {
        assert!(copies().join(file.name).is_file(), "{}", file.name);
    }
}

#[test]
fn a_case_that_is_met_passes() {
    for example in [no01(), no04(), no06(), no06_transform(), no12()] {
        let lines = [
            &*format!("{}: 2 cases, 0 differ", example.name),
            "requests: 2 cases, 0 differ",
        ];
        assert_report(&example.report_with(&example.line()), 0, &lines);
    }
}

#[test]
fn each_wrong_answer_differs() {
    let example = no01();
    let answer = "number 18, place 17, made 0, sum 2475f214d3577918";
    for (field, text, expected) in [
        (5, "23", "number 23, place 17, made 0, sum 2475f214d3577918"),
        (6, "18", "number 18, place 18, made 0, sum 2475f214d3577918"),
        (7, "1", "number 18, place 17, made 1, sum 2475f214d3577918"),
        (
            8,
            "2475f214d3577919",
            "number 18, place 17, made 0, sum 2475f214d3577919",
        ),
    ] {
        example.assert_differs(&example.line_with(field, text), expected, answer);
    }
}

/// Of the answer of either reader, each field is looked at.
#[test]
fn each_wrong_answer_of_a_reader_differs() {
    let example = no04();
    let outcomes = |fields: &[String]| {
        let outcome = |fields: &[String]| {
            let [number, place, made, rows, sum] = fields else {
                panic!("not an answer: {fields:?}");
            };
            format!("number {number}, place {place}, made {made}, rows {rows}, sum {sum}")
        };
        let (large, small) = fields.split_at(5);
        let (large, small) = (outcome(large), outcome(small));
        format!("{large}, by the small reader {small}")
    };
    let answer = outcomes(&example.case[5..]);
    for field in 5..15 {
        let text = match field {
            9 | 14 => "8f4396704dfd776e",
            _ => "3",
        };
        let mut expected = example.case.clone();
        expected[field] = text.into();
        let line = example.line_with(field, text);
        example.assert_differs(&line, &outcomes(&expected[5..]), &answer);
    }
}

#[test]
fn wrong_rows_of_a_picture_differ() {
    let example = no06();
    let with_rows =
        |rows: &str| format!("number 0, place 41, made 1, rows {rows}, sum 79ab84058bbe8125");
    for rows in ["0", "5", "7"] {
        let line = example.line_with(8, rows);
        example.assert_differs(&line, &with_rows(rows), &with_rows("6"));
    }
    let line = example.line_with(7, "0");
    let expected = "number 0, place 41, made 0, rows 6, sum 79ab84058bbe8125";
    example.assert_differs(&line, expected, &with_rows("6"));
}

#[test]
fn each_wrong_answer_of_the_transform_differs() {
    let example = no06_transform();
    let ones = list("1", "1");
    let answer = format!("number 0, rows 1, residues {ones}");
    let other = list("2", "1");
    for (field, text, expected) in [
        (2, "22", format!("number 22, rows 1, residues {ones}")),
        (3, "2", format!("number 0, rows 2, residues {ones}")),
        (4, &*other, format!("number 0, rows 1, residues {other}")),
    ] {
        example.assert_differs(&example.line_with(field, text), &expected, &answer);
    }
}

#[test]
fn each_wrong_answer_of_an_encoded_vector_differs() {
    let example = no12();
    let answer = "number 0, code 16, residual 1";
    for (field, text, expected) in [
        (4, "33", "number 33, code 16, residual 1"),
        (5, "-16", "number 0, code -16, residual 1"),
        (6, "0", "number 0, code 16, residual 0"),
    ] {
        example.assert_differs(&example.line_with(field, text), expected, answer);
    }
}

/// A reader that requires the inputs of the test below, and writes to the output.
fn requires_inputs(file: &[u8], forward: &[u8], backward: &[u8], output: &mut [u8]) -> Answer {
    assert_eq!(file, [0, 255]);
    assert_eq!(forward, [0x6c, 0x82, 0xa5]);
    assert_eq!(backward, [0xc4, 0xea, 0xb0, 0x5d]);
    assert_eq!(output, [0x6c, 0x82]);
    output.fill(0);
    Answer {
        number: 7,
        place: 8,
        made: 9,
        rows: 10,
    }
}

/// The pictures are those that their seeds say. The output is lent afresh to each reader.
#[test]
fn the_inputs_of_a_case_reach_the_entry() {
    let entries = Entries {
        reconstruct: requires_inputs,
        reconstruct_small: |file, forward, backward, output| Answer {
            number: 6,
            ..requires_inputs(file, forward, backward, output)
        },
        ..ENTRIES
    };
    // The sum of two bytes 0.
    let sum = "08328807b4eb6fed";
    let inputs = "# fields\nname\t00ff\t1:3\t2:4\t1:2";
    let with_rows = format!("{inputs}\t7\t8\t9\t10\t{sum}");
    let found = [
        found("no01.txt", &format!("{inputs}\t7\t8\t9\t{sum}")),
        found("no04.txt", &format!("{with_rows}\t6\t8\t9\t10\t{sum}")),
        found("no06.txt", &with_rows),
    ];
    let report = run(&found, LANDED, tested_with(&entries));
    assert_eq!(report.exit_status(), 0, "{report}");
}

/// The coefficients are in the order of the line.
#[test]
fn the_coefficients_of_a_case_reach_the_entry() {
    let transform: Transform = |coefficients| {
        assert_eq!(*coefficients, std::array::from_fn(|place| place as i16));
        let transformed = Transformed {
            residues: coefficients.map(|coefficient| -coefficient),
            rows: 3,
        };
        (4, transformed)
    };
    let entries = Entries {
        transform,
        ..ENTRIES
    };
    let list = |sign: i32| {
        let numbers = (0..64).map(|place| (sign * place).to_string());
        Vec::from_iter(numbers).join(",")
    };
    let line = format!("name\t{}\t4\t3\t{}", list(1), list(-1));
    let found = [found("no06-transform.txt", &format!("# fields\n{line}"))];
    let report = run(&found, LANDED, tested_with(&entries));
    assert_eq!(report.exit_status(), 0, "{report}");
}

/// Past and wanted vector are not exchanged. An f_code may have any 32 bits.
#[test]
fn the_numbers_of_a_case_reach_the_entry() {
    let encode_vector: EncodeVector = |f_code, past, wanted| {
        assert_eq!((f_code as u32, past, wanted), (u32::MAX, i32::MIN, 3));
        let encoded = EncodedVector {
            code: -5,
            residual: u32::MAX,
        };
        (4, encoded)
    };
    let entries = Entries {
        encode_vector,
        ..ENTRIES
    };
    let line = "name\t4294967295\t-2147483648\t3\t4\t-5\t4294967295";
    let found = [found("no12.txt", &format!("# fields\n{line}"))];
    let report = run(&found, LANDED, tested_with(&entries));
    assert_eq!(report.exit_status(), 0, "{report}");
}

#[test]
fn a_line_that_is_not_a_case_fails() {
    let example = no01();
    let short = example.case[..8].join("\t");
    let long = format!("{}\t0", example.line());
    let with = |field, text| example.line_with(field, text);
    for (line, reason) in [
        (short, "8 fields, not 9"),
        (long, "10 fields, not 9"),
        (String::new(), "1 fields, not 9"),
        (no04().line(), "15 fields, not 9"),
        (no06().line(), "10 fields, not 9"),
        (with(1, "03F0"), "no bytes: \"03F0\""),
        (with(2, "1"), "no picture: \"1\""),
        (with(5, "x"), "no number: \"x\""),
        (
            with(5, "4294967296"),
            "the entry's type has no number 4294967296",
        ),
        (with(8, "2475f214d35779"), "no sum: \"2475f214d35779\""),
    ] {
        example.assert_not_run(&line, reason);
    }
    no04().assert_not_run(&no06().line(), "10 fields, not 15");
    no04().assert_not_run(&no04().line_with(10, "x"), "no number: \"x\"");
    no06().assert_not_run(&example.line(), "9 fields, not 10");
    no06().assert_not_run(
        &no06().line_with(8, "-1"),
        "the entry's type has no number -1",
    );
    no12().assert_not_run(&format!("{}\t0", no12().line()), "8 fields, not 7");
    no12().assert_not_run(&no12().line_with(2, "x"), "no number: \"x\"");
    no12().assert_not_run(
        &no12().line_with(6, "-1"),
        "the entry's type has no number -1",
    );
}

#[test]
fn a_list_that_is_not_64_numbers_fails() {
    let example = no06_transform();
    let few = list("8", "0").replacen(",0", "", 1);
    let many = list("8", "0") + ",0";
    for (text, reason) in [
        (&*few, "63 numbers, not 64"),
        (&*many, "65 numbers, not 64"),
        ("-", "0 numbers, not 64"),
        ("8", "1 numbers, not 64"),
        ("", "no number: \"\""),
        (&*list("x", "0"), "no number: \"x\""),
        (&*list("8", ""), "no number: \"\""),
        (&*list("08", "0"), "no number: \"08\""),
        (&*list("8", " 0"), "no number: \" 0\""),
        (&*list("32768", "0"), "the entry's type has no number 32768"),
        (
            &*list("-32769", "0"),
            "the entry's type has no number -32769",
        ),
    ] {
        for field in [1, 4] {
            example.assert_not_run(&example.line_with(field, text), reason);
        }
    }
}

/// The report on a line whose name says that it is wide.
fn report_on_wide(example: &Example, field: usize, text: &str) -> Report {
    let line = example.line_with(field, text);
    let (_, fields) = line.split_once('\t').expect("a line has fields");
    example.report_with(&format!("wide/number\t{fields}"))
}

#[test]
fn a_wide_case_is_left_out_only_if_the_type_has_no_such_number() {
    for (example, field, too_wide) in [
        (no01(), 5, "4294967296"),
        (no04(), 10, "4294967296"),
        (no06(), 8, "18446744073709551616"),
        (no06_transform(), 1, &*list("32768", "0")),
        (no12(), 1, "4294967296"),
        (no12(), 2, "2147483648"),
        (no12(), 3, "-2147483649"),
    ] {
        let lines = [
            &*format!("{}: 1 cases, 0 differ, 1 left out", example.name),
            "requests: 1 cases, 0 differ",
        ];
        assert_report(&report_on_wide(&example, field, too_wide), 0, &lines);
    }
    for (example, field, wide) in [
        (no01(), 5, "4294967295"),
        (no04(), 10, "4294967295"),
        (no06(), 8, "18446744073709551615"),
        (no06_transform(), 1, &*list("32767", "0")),
        (no12(), 1, "4294967295"),
        (no12(), 2, "2147483647"),
        (no12(), 3, "-2147483648"),
    ] {
        let differing = report_on_wide(&example, field, wide).to_string();
        assert!(differing.ends_with("requests: 2 cases, 1 differ\n"));
    }
}

/// A number that is too wide hides no other mistake.
#[test]
fn a_wide_case_that_is_malformed_fails() {
    for (example, field, malformed) in [
        (no01(), 5, "x"),
        (no04(), 10, "x"),
        (no06(), 8, "x"),
        (no06_transform(), 1, "32768"),
        (no06_transform(), 1, &*list("32768", "x")),
        (no12(), 1, "x"),
    ] {
        let report = report_on_wide(&example, field, malformed);
        assert_eq!(report.exit_status(), 1, "{report}");
    }
}

#[test]
fn a_file_without_a_first_line_or_a_case_fails() {
    let first = "no01.txt: line 1 does not start with \"# \"";
    let end = [
        "no case was run",
        "1 files or lines could not be run",
        "requests: 0 cases, 0 differ",
    ];
    let report = |text: &str| run_on_decoder(&[found("no01.txt", text)], LANDED);
    let lines = [&[first], &end[..]].concat();
    assert_report(&report(&no01().line()), 1, &lines);
    assert_report(&report("\n"), 1, &lines);
    assert_report(&report(""), 1, &lines);
    let none = ["no01.txt: no case was run", "no01.txt: 0 cases, 0 differ"];
    let lines = [&none[..], &end].concat();
    assert_report(&report("# fields\n"), 1, &lines);
}

#[test]
fn no_case_fails() {
    let lines = ["no case was run", "requests: 0 cases, 0 differ"];
    assert_report(&run_on_decoder(&[], LANDED), 1, &lines);
    let skipped = [found("no98-other.txt", ""), found("no99.txt", "")];
    let lines = [
        "no98-other.txt: skipped, since request No. 98 has not landed",
        "no99.txt: skipped, since request No. 99 has not landed",
        "no case was run",
        "requests: 0 cases, 0 differ",
    ];
    assert_report(&run_on_decoder(&skipped, LANDED), 1, &lines);
}

/// The file that fails does not keep the next from being run.
#[test]
fn each_file_that_cannot_be_run_fails() {
    let unreadable = Found {
        text: Err("it is gone".into()),
        ..found("no97.txt", "")
    };
    let folder = tested_with(&ENTRIES).programs.display();
    for (failing, line) in [
        (
            found("no96.txt", "# name\nmet\n"),
            &*format!("no96.txt: no program missing in {folder}"),
        ),
        (
            found("no97-other.txt", "# name\nmet\n"),
            "no97-other.txt: request No. 97 has no such file",
        ),
        (unreadable, "no97.txt: it is gone"),
        (
            found("no97.txt", "met\n"),
            "no97.txt: line 1 does not start with \"# \"",
        ),
    ] {
        let found = [failing, found("no98.txt", "# name\nmet\nmet\n")];
        let lines = [
            line,
            "no98.txt: 2 cases, 0 differ",
            "1 files or lines could not be run",
            "requests: 2 cases, 0 differ",
        ];
        assert_report(&run_on_decoder(&found, MADE_UP), 1, &lines);
    }
}

#[test]
fn files_and_lines_that_cannot_be_run_are_counted() {
    let found = [
        found("no96.txt", "# name\nmet\n"),
        found("no97.txt", "# name\nmet\nmalformed\nmalformed\n"),
        found("no98.txt", "# name\nmet\n"),
    ];
    let folder = tested_with(&ENTRIES).programs.display();
    let lines = [
        &*format!("no96.txt: no program missing in {folder}"),
        "no97.txt, line 3: malformed",
        "no97.txt, line 4: malformed",
        "no97.txt: 1 cases, 0 differ",
        "no98.txt: 1 cases, 0 differ",
        "3 files or lines could not be run",
        "requests: 2 cases, 0 differ",
    ];
    assert_report(&run_on_decoder(&found, MADE_UP), 1, &lines);
}

#[test]
fn a_file_that_is_skipped_does_not_fail() {
    let found = [found("no98.txt", "# name\nmet\n"), found("no99.txt", "")];
    let lines = [
        "no98.txt: 1 cases, 0 differ",
        "no99.txt: skipped, since request No. 99 has not landed",
        "requests: 1 cases, 0 differ",
    ];
    assert_report(&run_on_decoder(&found, MADE_UP), 0, &lines);
}

/// The counts of files add up.
#[test]
fn a_difference_in_one_file_fails() {
    let found = [
        found("no97.txt", "# name\nmet\nunmet\n"),
        found("no98.txt", "# name\nmet\n"),
    ];
    let lines = [
        "no97.txt, line 3: unmet: expected met; given unmet",
        "no97.txt: 2 cases, 1 differ",
        "no98.txt: 1 cases, 0 differ",
        "requests: 3 cases, 1 differ",
    ];
    assert_report(&run_on_decoder(&found, MADE_UP), 1, &lines);
}

/// Requests whose files have cases that are met by their name alone, and run programs.
const MADE_UP: &[Landed] = &[
    Landed {
        request: 96,
        files: &[met_by_name("no96.txt", &["reads_all", "missing"])],
    },
    Landed {
        request: 97,
        files: &[met_by_name("no97.txt", &[])],
    },
    Landed {
        request: 98,
        files: &[met_by_name("no98.txt", &["reads_all"])],
    },
];

const fn met_by_name(name: &'static str, programs: &'static [&'static str]) -> RequestFile {
    RequestFile {
        name,
        programs,
        check: is_met,
    }
}

fn is_met(line: &str, _: Tested) -> CaseResult {
    match line {
        "malformed" => Err(Unread::Malformed(line.into())),
        _ => Ok(Difference::between("met", line)),
    }
}

#[test]
fn names_of_files_have_two_digits() {
    assert_eq!(request_of("no01.txt"), Some(1));
    assert_eq!(request_of("no13-reels.txt"), Some(13));
    for name in [
        "README.md",
        "no.txt",
        "no1.txt",
        "no001.txt",
        "no01",
        "no01-.txt",
        "no01a.txt",
        "no+1.txt",
        "No01.txt",
        "noé.txt",
    ] {
        assert_eq!(request_of(name), None, "{name}");
    }
}

#[test]
fn files_of_requests_are_found_in_the_order_of_names() {
    let folder = std::env::temp_dir().join(format!("format3-requests-{}", std::process::id()));
    fs::create_dir_all(folder.join("h261")).expect("a folder can be made");
    for name in ["no12.txt", "no06.txt", "README.md", "no06-other.txt"] {
        fs::write(folder.join(name), name).expect("a file can be written");
    }
    fs::write(folder.join("no07.txt"), [0xff]).expect("a file can be written");
    let found = found_in(&folder);
    fs::remove_dir_all(&folder).expect("the folder can be removed");
    let found = found.expect("the folder can be read");
    let names: Vec<&str> = found.iter().map(|found| found.name.as_str()).collect();
    assert_eq!(
        names,
        ["no06-other.txt", "no06.txt", "no07.txt", "no12.txt"]
    );
    assert_eq!(found[0].text, Ok("no06-other.txt".into()));
    assert!(found[2].text.is_err());
    assert!(found_in(&folder).is_err());
}
