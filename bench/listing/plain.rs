//! The listing program without proofs, as a program: standard input in, the table or the refusal out.

use plain_listing::{list, TABLE_ROWS};
use std::fs::File;
use std::io::{self, Write};
use std::os::fd::AsFd;
use std::process::ExitCode;

fn main() -> ExitCode {
    // Past the standard library's own buffer: lines are read from a larger one.
    let input = io::stdin().as_fd().try_clone_to_owned().map(File::from);
    let printed = input.and_then(|input| list(input, TABLE_ROWS)).and_then(|text| io::stdout().write_all(&text));
    match printed {
        Ok(()) => ExitCode::SUCCESS,
        Err(error) => {
            eprintln!("plain_listing: {error}");
            ExitCode::from(2)
        }
    }
}
