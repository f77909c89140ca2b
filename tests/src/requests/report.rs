//! Runs the cases of files and reports what came of them.

use std::fmt;

use super::notation::Unread;
use super::{CaseResult, Found, Landed, RequestFile, Tested};

/// What came of the cases of files. Its text ends with the total.
#[derive(Default)]
pub struct Report {
    lines: Vec<String>,
    cases: usize,
    differing: usize,
    /// Counted for one file alone.
    left_out: usize,
    /// Files and lines that could not be run.
    not_run: usize,
}

/// Runs the cases of the files found, each as its request says. Files of requests that have not landed are skipped.
pub fn run(found: &[Found], landed: &[Landed], tested: Tested) -> Report {
    let mut report = Report::default();
    for found in found {
        report.add(run_file(found, landed, tested));
    }
    report
}

fn run_file(found: &Found, landed: &[Landed], tested: Tested) -> Report {
    let mut report = Report::default();
    let Found { name, request, .. } = found;
    let Some(landed) = landed.iter().find(|landed| landed.request == *request) else {
        report.say(format!(
            "{name}: skipped, since request No. {request} has not landed"
        ));
        return report;
    };
    let Some(file) = landed.files.iter().find(|file| file.name == name) else {
        report.fail(format!("{name}: request No. {request} has no such file"));
        return report;
    };
    match case_lines(file, found, tested) {
        Ok(lines) => report.run_cases(file, &lines, tested),
        Err(reason) => report.fail(format!("{name}: {reason}")),
    }
    report
}

/// The lines of a file's cases, or why they can't be run.
fn case_lines<'a>(
    file: &RequestFile,
    found: &'a Found,
    tested: Tested,
) -> Result<Vec<&'a str>, String> {
    let missing = |program: &&&str| !tested.program(program).is_file();
    if let Some(program) = file.programs.iter().find(missing) {
        let folder = tested.programs.display();
        return Err(format!("no program {program} in {folder}"));
    }
    let mut lines = found.text.as_ref()?.split_terminator('\n');
    match lines.next() {
        Some(first) if first.starts_with("# ") => Ok(lines.collect()),
        _ => Err("line 1 does not start with \"# \"".into()),
    }
}

impl Report {
    /// The exit status of a program that runs the cases: 0 if a case was run, none differs, and every file of a request that has
    /// landed, and each of its lines, could be run; else 1.
    pub fn exit_status(&self) -> u8 {
        let passed = self.cases > 0 && self.differing == 0 && self.not_run == 0;
        u8::from(!passed)
    }

    fn say(&mut self, line: String) {
        self.lines.push(line);
    }

    /// Says why a file or a line could not be run.
    fn fail(&mut self, reason: String) {
        self.say(reason);
        self.not_run += 1;
    }

    fn add(&mut self, other: Report) {
        self.lines.extend(other.lines);
        self.cases += other.cases;
        self.differing += other.differing;
        self.not_run += other.not_run;
    }

    fn run_cases(&mut self, file: &RequestFile, lines: &[&str], tested: Tested) {
        let name = file.name;
        for (number, line) in (2..).zip(lines) {
            let place = format!("{name}, line {number}");
            self.add_case(&place, line, (file.check)(line, tested));
        }
        if self.cases == 0 {
            self.fail(format!("{name}: no case was run"));
        }
        let left_out = match self.left_out {
            0 => String::new(),
            count => format!(", {count} left out"),
        };
        self.say(format!("{name}: {}{left_out}", self.counts()));
    }

    /// A case that is meant for wider types than the entry's is left out.
    fn add_case(&mut self, place: &str, line: &str, result: CaseResult) {
        let name = line.split('\t').next().unwrap_or_default();
        match result {
            Ok(None) => self.cases += 1,
            Ok(Some(difference)) => {
                self.cases += 1;
                self.differing += 1;
                self.say(format!("{place}: {name}: {difference}"));
            }
            Err(Unread::NoSuchNumber(_)) if name.starts_with("wide/") => self.left_out += 1,
            Err(unread) => self.fail(format!("{place}: {unread}")),
        }
    }

    fn counts(&self) -> String {
        format!("{} cases, {} differ", self.cases, self.differing)
    }
}

impl fmt::Display for Report {
    fn fmt(&self, formatter: &mut fmt::Formatter) -> fmt::Result {
        for line in &self.lines {
            writeln!(formatter, "{line}")?;
        }
        if self.cases == 0 {
            writeln!(formatter, "no case was run")?;
        }
        if self.not_run > 0 {
            let not_run = self.not_run;
            writeln!(formatter, "{not_run} files or lines could not be run")?;
        }
        writeln!(formatter, "requests: {}", self.counts())
    }
}
