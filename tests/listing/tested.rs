//! The program that is tested, by its name: what it must print, and say where it fails.

use crate::counted;
use oracle::listing::{listing, TABLE_ROWS};
use oracle::model::Over;
use std::path::Path;
use std::process::{Command, Stdio};

/// What a program prints for an input and its listing.
type Print = fn(&[u8], &[u8]) -> Vec<u8>;

const PROGRAMS: [(&str, Print); 2] = [("listing", |_, listing| listing.to_vec()), ("report", counted::report)];
/// The kilobytes of address space that the program may have, its code and libraries included.
const MEMORY: usize = 65_536;

pub struct Tested {
    pub path: String,
    name: &'static str,
    print: Print,
}

impl Tested {
    /// The program at a path; none where no program of that name is known.
    pub fn at(path: String) -> Option<Tested> {
        let (name, print) = PROGRAMS.into_iter().find(|(name, _)| Path::new(&path).ends_with(name))?;
        Some(Tested { path, name, print })
    }

    /// The program, with no more memory than it is allowed.
    pub fn command(&self) -> Command {
        self.shell(&format!("ulimit -v {MEMORY} && exec \"$0\""))
    }

    /// The program, started by a shell's words.
    pub fn shell(&self, script: &str) -> Command {
        let mut command = Command::new("sh");
        command.args(["-c", script, &self.path]).stdout(Stdio::piped()).stderr(Stdio::piped());
        command
    }

    /// What must be printed, by the listing that the set-building program finds.
    pub fn expected(&self, input: &[u8]) -> Vec<u8> {
        self.expected_for(input, &listing(input, TABLE_ROWS, Over::EventsFromFloor))
    }

    /// What must be printed for an input that has this listing.
    pub fn expected_for(&self, input: &[u8], listing: &[u8]) -> Vec<u8> {
        (self.print)(input, listing)
    }

    pub fn not_read(&self, reason: &str) -> Vec<u8> {
        format!("{}: standard input could not be read: {reason}\n", self.name).into_bytes()
    }

    pub fn not_written(&self, reason: &str) -> Vec<u8> {
        format!("{}: standard output could not be written: {reason}\n", self.name).into_bytes()
    }
}
