//! Cases for the requests of document 02, with their answers: files that were made outside the project, each of one request.

use std::fmt;
use std::fs;
use std::path::{Path, PathBuf};

use crate::decoder::Entries;
use notation::Unread;

mod encode_vector;
pub mod notation;
mod reconstruct;
mod report;
mod transform;

pub use report::{run, Report};

/// The requests that have landed. Those without files of cases are here too, so that a file of theirs is not skipped.
pub const LANDED: &[Landed] = &[
    Landed {
        request: 1,
        files: &[RequestFile {
            name: "no01.txt",
            programs: &[],
            check: reconstruct::check,
        }],
    },
    Landed {
        request: 2,
        files: &[],
    },
    Landed {
        request: 3,
        files: &[],
    },
    Landed {
        request: 4,
        files: &[RequestFile {
            name: "no04.txt",
            programs: &[],
            check: reconstruct::check_both_readers,
        }],
    },
    Landed {
        request: 6,
        files: &[
            RequestFile {
                name: "no06.txt",
                programs: &[],
                check: reconstruct::check_with_rows,
            },
            RequestFile {
                name: "no06-transform.txt",
                programs: &[],
                check: transform::check,
            },
        ],
    },
    Landed {
        request: 11,
        files: &[],
    },
    Landed {
        request: 12,
        files: &[RequestFile {
            name: "no12.txt",
            programs: &[],
            check: encode_vector::check,
        }],
    },
];

/// A request that has landed, and its files of cases.
pub struct Landed {
    pub request: u32,
    pub files: &'static [RequestFile],
}

/// A file of cases.
pub struct RequestFile {
    pub name: &'static str,
    /// The programs that its cases run.
    pub programs: &'static [&'static str],
    /// Runs the case of one line.
    pub check: fn(&str, Tested) -> CaseResult,
}

/// What the cases run: the entries of an implementation, and the programs of a folder.
#[derive(Clone, Copy)]
pub struct Tested<'a> {
    pub entries: &'a Entries,
    pub programs: &'a Path,
}

impl Tested<'_> {
    /// A program of the folder: the file with its name, or the one that `rt` builds in the crate's folder with that name.
    pub fn program(&self, name: &str) -> PathBuf {
        let path = self.programs.join(name);
        if path.is_dir() {
            path.join("out").join(name)
        } else {
            path
        }
    }
}

/// The difference between what a case expects and what it is given, if there is one; or why its line can't be run.
pub type CaseResult = Result<Option<Difference>, Unread>;

/// What a case expects, and what it is given instead.
#[derive(Debug)]
pub struct Difference {
    expected: String,
    given: String,
}

impl Difference {
    /// None if both are equal.
    pub fn between<T: PartialEq + fmt::Display>(expected: T, given: T) -> Option<Difference> {
        (expected != given).then(|| Difference {
            expected: expected.to_string(),
            given: given.to_string(),
        })
    }
}

impl fmt::Display for Difference {
    fn fmt(&self, formatter: &mut fmt::Formatter) -> fmt::Result {
        let Difference { expected, given } = self;
        write!(formatter, "expected {expected}; given {given}")
    }
}

/// A file of some request that was found in a folder.
pub struct Found {
    pub name: String,
    pub request: u32,
    /// Its contents, or why it can't be read.
    pub text: Result<String, String>,
}

/// The files of requests in a folder, sorted by name.
pub fn found_in(folder: &Path) -> Result<Vec<Found>, String> {
    let failed = |error| format!("{}: {error}", folder.display());
    let mut found = Vec::new();
    for entry in fs::read_dir(folder).map_err(failed)? {
        let entry = entry.map_err(failed)?;
        let Ok(name) = entry.file_name().into_string() else {
            continue;
        };
        let Some(request) = request_of(&name) else {
            continue;
        };
        let text = fs::read_to_string(entry.path()).map_err(|error| error.to_string());
        found.push(Found {
            name,
            request,
            text,
        });
    }
    found.sort_by(|one, other| one.name.cmp(&other.name));
    Ok(found)
}

/// The number NN of a request in the name of its file, `noNN.txt` or `noNN-NAME.txt`.
pub fn request_of(name: &str) -> Option<u32> {
    let stem = name.strip_prefix("no")?.strip_suffix(".txt")?;
    let (digits, rest) = stem.split_at_checked(2)?;
    let named = rest.is_empty() || (rest.len() > 1 && rest.starts_with('-'));
    let numbered = digits.bytes().all(|digit| digit.is_ascii_digit());
    if !named || !numbered {
        return None;
    }
    digits.parse().ok()
}
