//! The merge program without proofs, as a program: the two logs of the working folder in, the merged log or the refusal
//! out. It says what the proved one says where reading or writing fails, and has its exit status.

use plain_merge::{merge, Failure, NAMES};
use std::fs::File;
use std::io;
use std::os::fd::AsFd;

fn main() {
    // Past the standard library's own buffer, which is written out at every line.
    let out = io::stdout().as_fd().try_clone_to_owned().map(File::from).map_err(Failure::NotWritten);
    if let Err(failure) = out.and_then(|out| merge(|log| File::open(NAMES[log]), out)) {
        eprintln!("merge: {failure}");
    }
}
