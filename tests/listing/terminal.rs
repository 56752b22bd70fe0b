//! The program with a terminal as its input.

use crate::tested::Tested;
use crate::{compare as compare_output, finished};
use common::harness::Compared;
use std::ffi::{c_char, c_int, CStr, OsStr};
use std::fs::{File, OpenOptions};
use std::io::Write;
use std::os::fd::{AsRawFd, FromRawFd};
use std::os::unix::ffi::OsStrExt;

extern "C" {
    fn posix_openpt(flags: c_int) -> c_int;
    fn grantpt(terminal: c_int) -> c_int;
    fn unlockpt(terminal: c_int) -> c_int;
    fn ptsname(terminal: c_int) -> *mut c_char;
}

/// To read and write, and not to become the terminal that controls this program.
const FLAGS: c_int = 0o2 | 0o400;
/// What the end of the input is on a terminal's keys.
const END: &str = "\u{4}";

/// What is typed and then ended, and what its listing is.
pub fn compare(tested: &Tested) -> Compared {
    let sound = "0\tevent\t1\n\nopen\t-1\nevent\t1\nclock\t0\n";
    let listed = "row\tentry\tleft\tright\tstart\tend\n0\t0\t1\t-1\t-1.0\t-1.0\n";
    let typed = [
        (END.to_string(), "refused\t1\t1\n"),
        (format!("help\n{END}"), "refused\t3\t1\n"),
        (format!("0\tevent\t1\n{END}"), "refused\t7\t2\n"),
        (format!("{sound}{END}"), listed),
    ];
    for (text, listing) in typed {
        let expected = tested.expected_for(text.as_bytes(), listing.as_bytes());
        let (mut keys, input) = open_terminal().ok_or("no terminal could be opened")?;
        keys.write_all(text.as_bytes()).map_err(|error| error.to_string())?;
        let child = tested.command().stdin(input).spawn().expect("the program can be run");
        compare_output(&format!("typed \"{}\"", text.escape_debug()), &finished(child), &expected)?;
    }
    Ok(())
}

/// The keys' side of a new terminal and the program's side.
fn open_terminal() -> Option<(File, File)> {
    // SAFETY: the number is of a terminal that was opened just now and that nobody else has.
    let keys = unsafe { posix_openpt(FLAGS) };
    let keys = (keys >= 0).then(|| unsafe { File::from_raw_fd(keys) })?;
    let terminal = keys.as_raw_fd();
    // SAFETY: the terminal is open, and the name is copied before another call can alter it.
    let name = unsafe {
        if grantpt(terminal) != 0 || unlockpt(terminal) != 0 {
            return None;
        }
        let name = ptsname(terminal);
        if name.is_null() {
            return None;
        }
        CStr::from_ptr(name).to_owned()
    };
    let input = OpenOptions::new().read(true).write(true).open(OsStr::from_bytes(name.as_bytes())).ok()?;
    Some((keys, input))
}
