//! The answers of the library, as include/answers.tsv lists them, and what is made from that list: a part of
//! include/format3.h, the table of README.md, and the refusals of the Rust crate.

use std::path::Path;

/// A line of the list.
#[derive(Clone, Debug, PartialEq, Eq)]
pub struct Answer {
    pub number: u32,
    /// In capitals, with underscores.
    pub name: String,
    pub wrong: String,
    /// Who causes it; empty for the acceptance.
    pub cause: String,
    pub advice: String,
}

/// A file of the repository, or a part of it, that is made from the answers.
pub struct Made {
    /// From the root of the repository.
    pub path: &'static str,
    /// The first and the last line of a part; none if the whole file is made.
    pub ends: Option<[&'static str; 2]>,
    /// The lines between these, or the whole file.
    pub text: fn(&[Answer]) -> String,
}

pub const LIST: &str = "include/answers.tsv";

pub const MADE: [Made; 3] = [
    Made {
        path: "include/format3.h",
        ends: Some([
            "/* The answers. Made from answers.tsv, like format3_answer_text. */\n",
            "/* The end of what is made from answers.tsv. */\n",
        ]),
        text: c_answers,
    },
    Made {
        path: "README.md",
        ends: Some([
            "<!-- Made from include/answers.tsv by cargo run --manifest-path tests/Cargo.toml --bin answers -->\n",
            "<!-- The end of what is made from answers.tsv. -->\n",
        ]),
        text: table,
    },
    Made {
        path: "bindings/rust/src/refusal.rs",
        ends: None,
        text: rust_refusals,
    },
];

/// The contents of a file of the repository.
pub fn read_file(path: &str) -> Result<String, String> {
    let file = root().join(path);
    std::fs::read_to_string(file).map_err(|error| format!("{path}: {error}"))
}

/// Replaces the contents of a file of the repository.
pub fn write_file(path: &str, contents: &str) -> Result<(), String> {
    let file = root().join(path);
    std::fs::write(file, contents).map_err(|error| format!("{path}: {error}"))
}

fn root() -> &'static Path {
    Path::new(concat!(env!("CARGO_MANIFEST_DIR"), "/.."))
}

/// Reads the list: the acceptance, then the refusals, in order of their numbers.
pub fn answers(list: &str) -> Result<Vec<Answer>, String> {
    let lines = list.lines().filter(|line| !line.starts_with('#'));
    let answers = lines.map(answer).collect::<Result<Vec<Answer>, String>>()?;
    if answers.first().is_none_or(|first| first.number != 0) {
        return Err("the first answer is not 0".into());
    }
    for pair in answers.windows(2) {
        if pair[1].number <= pair[0].number {
            return Err(format!("{} is out of order", pair[1].number));
        }
    }
    Ok(answers)
}

fn answer(line: &str) -> Result<Answer, String> {
    let columns: Vec<&str> = line.split('\t').collect();
    let [number, name, wrong, cause, advice] = columns[..] else {
        return Err(format!("not five columns: {line}"));
    };
    let number = number.parse().map_err(|_| format!("no number: {line}"))?;
    if name.is_empty() || name.contains(|letter| !matches!(letter, 'A'..='Z' | '_')) {
        return Err(format!("not a name in capitals: {line}"));
    }
    // These have a meaning in one of the languages that the texts go into.
    if line.contains(['"', '\\', '|', '<']) {
        return Err(format!("a character that needs an escape: {line}"));
    }
    if wrong.is_empty() || advice.is_empty() || cause.is_empty() != (number == 0) {
        return Err(format!("an empty column: {line}"));
    }
    Ok(Answer {
        number,
        name: name.into(),
        wrong: wrong.into(),
        cause: cause.into(),
        advice: advice.into(),
    })
}

impl Made {
    /// The whole file with what is made put in.
    pub fn put_into(&self, file: &str, answers: &[Answer]) -> Result<String, String> {
        let text = (self.text)(answers);
        let Some([first, last]) = self.ends else {
            return Ok(text);
        };
        let (before, rest) = split_at_only(file, first)?;
        let (_, after) = split_at_only(rest, last)?;
        Ok([before, first, &text, last, after].concat())
    }
}

/// What is before and after a line that occurs once.
fn split_at_only<'a>(text: &'a str, line: &str) -> Result<(&'a str, &'a str), String> {
    match text.split(line).collect::<Vec<&str>>()[..] {
        [before, after] => Ok((before, after)),
        _ => Err(format!("not once: {line}")),
    }
}

// ---- C

fn c_answers(answers: &[Answer]) -> String {
    let constants: Vec<String> = answers
        .iter()
        .map(|answer| format!("    {} = {}", constant(answer), answer.number))
        .collect();
    let cases: String = answers
        .iter()
        .map(|answer| {
            let Answer { wrong, .. } = answer;
            format!(
                "    case {}:\n        return \"{wrong}\";\n",
                constant(answer)
            )
        })
        .collect();
    format!(
        "enum format3_answer {{
{}
}};

/* What an answer means, in English. */
static inline const char *format3_answer_text(uint32_t answer)
{{
    switch (answer) {{
{cases}    default:
        return \"an answer that this header does not know\";
    }}
}}
",
        constants.join(",\n")
    )
}

fn constant(answer: &Answer) -> String {
    match answer.number {
        0 => format!("FORMAT3_{}", answer.name),
        _ => format!("FORMAT3_REFUSED_{}", answer.name),
    }
}

// ---- README

fn table(answers: &[Answer]) -> String {
    let rows: String = answers.iter().map(row).collect();
    format!(
        "| number | name | what is wrong | who causes it | what to do |\n|---|---|---|---|---|\n{rows}"
    )
}

fn row(answer: &Answer) -> String {
    let Answer {
        number,
        name,
        wrong,
        cause,
        advice,
    } = answer;
    let wrong = match number {
        0 => "nothing",
        _ => wrong,
    };
    format!("| {number} | `{name}` | {wrong} | {cause} | {advice} |\n").replace("|  |", "| |")
}

// ---- Rust

fn rust_refusals(answers: &[Answer]) -> String {
    let refusals = &answers[1..];
    let [kinds, all, check, number, text] =
        [rust_enum, rust_all, rust_check, rust_number, rust_text].map(|part| part(refusals));
    format!(
        "// Made from include/answers.tsv by cargo run --manifest-path tests/Cargo.toml --bin answers
//! The refusals of the library.

{kinds}
impl Refusal {{
{all}
{check}
{number}
{text}}}
"
    )
}

fn rust_enum(refusals: &[Answer]) -> String {
    let variant_lines = |refusal: &Answer| {
        let Answer {
            number,
            wrong,
            cause,
            ..
        } = refusal;
        let (advice, variant) = (capitalized(&refusal.advice), variant(refusal));
        format!(
            "    /// {number}: {wrong}.
    ///
    /// Caused by {cause}. {advice}.
    {variant},
"
        )
    };
    let variants: String = refusals.iter().map(variant_lines).collect();
    format!(
        "/// Why the library refused. The number is that of `enum format3_answer` in `format3.h`.
#[derive(Clone, Copy, Debug, PartialEq, Eq, Hash)]
#[non_exhaustive]
pub enum Refusal {{
{variants}    /// A number that this crate does not know, from a newer library.
    Unknown(u32),
}}
"
    )
}

fn rust_all(refusals: &[Answer]) -> String {
    let count = refusals.len();
    let all: String = refusals
        .iter()
        .map(|refusal| format!("        Refusal::{},\n", variant(refusal)))
        .collect();
    format!(
        "    /// The refusals that this crate knows, in order of their numbers.
    pub const ALL: [Refusal; {count}] = [
{all}    ];
"
    )
}

fn rust_check(refusals: &[Answer]) -> String {
    let arm = |refusal: &Answer| {
        let (number, variant) = (refusal.number, variant(refusal));
        format!("            {number} => Refusal::{variant},\n")
    };
    let arms: String = refusals.iter().map(arm).collect();
    format!(
        "    /// What the number that a function of [`raw`](crate::raw) returned means: 0 is `Ok`.
    ///
    /// ```
    /// use format3::Refusal;
    ///
    /// assert_eq!(Refusal::check(0), Ok(()));
    /// assert_eq!(Refusal::check(2), Err(Refusal::Version));
    /// assert_eq!(Refusal::check(1000), Err(Refusal::Unknown(1000)));
    /// ```
    ///
    /// # Errors
    ///
    /// The refusal with that number, if it is not 0.
    pub const fn check(answer: u32) -> Result<(), Refusal> {{
        Err(match answer {{
            0 => return Ok(()),
{arms}            _ => Refusal::Unknown(answer),
        }})
    }}
"
    )
}

fn rust_number(refusals: &[Answer]) -> String {
    let arm = |refusal: &Answer| {
        let (number, variant) = (refusal.number, variant(refusal));
        format!("            Refusal::{variant} => {number},\n")
    };
    let arms: String = refusals.iter().map(arm).collect();
    format!(
        "    /// Its number.
    ///
    /// ```
    /// assert_eq!(format3::Refusal::Version.number(), 2);
    /// ```
    pub const fn number(self) -> u32 {{
        match self {{
{arms}            Refusal::Unknown(number) => number,
        }}
    }}
"
    )
}

fn rust_text(refusals: &[Answer]) -> String {
    let arm = |refusal: &Answer| {
        let (wrong, variant) = (&refusal.wrong, variant(refusal));
        format!("            Refusal::{variant} => \"{wrong}\",\n")
    };
    let arms: String = refusals.iter().map(arm).collect();
    format!(
        "    /// What is wrong, in English.
    ///
    /// ```
    /// assert_eq!(format3::Refusal::Version.text(), \"the file's version is not 3\");
    /// ```
    #[rustfmt::skip]
    pub const fn text(self) -> &'static str {{
        match self {{
{arms}            Refusal::Unknown(_) => \"an answer that this crate does not know\",
        }}
    }}
"
    )
}

/// The answer's name with each word's first letter in capitals and no underscores.
fn variant(answer: &Answer) -> String {
    let words = answer.name.split('_');
    words
        .map(|word| capitalized(&word.to_lowercase()))
        .collect()
}

fn capitalized(text: &str) -> String {
    let mut letters = text.chars();
    let first = letters.next().map(|first| first.to_ascii_uppercase());
    first.into_iter().chain(letters).collect()
}
