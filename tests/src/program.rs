//! Runs a program `panel` on reels that reach its standard input in different ways.

use std::fs::File;
use std::io::{Error, ErrorKind, Write};
use std::os::fd::OwnedFd;
use std::os::unix::net::UnixDatagram;
use std::path::Path;
use std::process::{Child, Command, Stdio};

use crate::random::Random;

/// A program, by its path.
#[derive(Clone, Copy)]
pub struct Program<'a>(pub &'a Path);

impl Program<'_> {
    /// What it prints for a reel that arrives in one piece.
    pub fn run(self, reel: &[u8]) -> Result<String, String> {
        let (process, _) = self.write_whole(reel)?;
        self.printed(process)
    }

    /// What it prints for a reel that arrives in random pieces. Each is a datagram, so that a read gets just one; they are short,
    /// since a read loses what its buffer can't hold.
    pub fn run_in_pieces(self, reel: &[u8], random: &mut Random) -> Result<String, String> {
        let (ours, theirs) = UnixDatagram::pair().map_err(|error| self.told(error))?;
        let process = self.start(OwnedFd::from(theirs).into())?;
        let most = random.pick(&[2, 100, 500]);
        let mut left = reel;
        while !left.is_empty() {
            let (piece, rest) = left.split_at(left.len().min(1 + random.below(most)));
            if !self.took(ours.send(piece))? {
                return self.printed(process);
            }
            left = rest;
        }
        // An empty datagram is the end of the input.
        self.took(ours.send(&[]))?;
        self.printed(process)
    }

    /// What it prints for a reel whose file is its standard input.
    pub fn run_on_file(self, reel: &Path) -> Result<String, String> {
        let file = File::open(reel).map_err(|error| format!("{}: {error}", reel.display()))?;
        self.printed(self.start(file.into())?)
    }

    /// Checks that it stops before the end of a reel that is too long to play, and prints only `long`.
    pub fn require_long(self, length: usize) -> Result<(), String> {
        let (process, read_whole) = self.write_whole(&vec![0; length])?;
        let printed = self.printed(process)?;
        if read_whole || printed != "long\n" {
            let read = if read_whole { "whole" } else { "in part" };
            return Err(format!("{length} bytes were read {read}: {printed:?}"));
        }
        Ok(())
    }

    /// Runs the program with a reel in one piece, and says whether it read all of it.
    fn write_whole(self, reel: &[u8]) -> Result<(Child, bool), String> {
        let mut process = self.start(Stdio::piped())?;
        let mut input = process.stdin.take().ok_or("no standard input")?;
        let whole = self.took(input.write_all(reel))?;
        Ok((process, whole))
    }

    fn start(self, input: Stdio) -> Result<Child, String> {
        Command::new(self.0)
            .stdin(input)
            .stdout(Stdio::piped())
            .spawn()
            .map_err(|error| self.told(error))
    }

    /// Whether the write succeeded, or the program had stopped reading before, as it may if a reel is too long.
    fn took<T>(self, written: Result<T, Error>) -> Result<bool, String> {
        use ErrorKind::{BrokenPipe, ConnectionRefused, ConnectionReset};
        match written {
            Ok(_) => Ok(true),
            Err(error) => match error.kind() {
                BrokenPipe | ConnectionRefused | ConnectionReset => Ok(false),
                _ => Err(self.told(error)),
            },
        }
    }

    fn printed(self, process: Child) -> Result<String, String> {
        let output = process
            .wait_with_output()
            .map_err(|error| self.told(error))?;
        if !output.status.success() {
            return Err(format!("{} ended with {}", self.0.display(), output.status));
        }
        String::from_utf8(output.stdout).map_err(|error| error.to_string())
    }

    fn told(self, error: Error) -> String {
        format!("{}: {error}", self.0.display())
    }
}
