//! Inputs that cannot be read and outputs that cannot be written. The program says so on standard error, in one line, and
//! prints nothing but what it has written until then; its exit status stays that of success.

use crate::tested::Tested;
use crate::{compare, compare_both, finished, inputs, run_on, RUNS};
use common::harness::Compared;
use common::random::Random;
use std::fs::{self, File, OpenOptions};
use std::io::Write;
use std::os::fd::OwnedFd;
use std::os::unix::net::UnixStream;
use std::process::{Command, Output, Stdio};

const SOUND: &str = "0\tevent\t1\n\nopen\t-1\nevent\t1\nclock\t0\n";
const INTERRUPTED: i32 = 4;
const FAILED: i32 = 5;
/// The bytes of a block, in which a shell limits the size of a file.
const BLOCK: usize = 512;

/// A folder, an input that is closed, one that is open for writing only, and one that has nothing yet and is not waited for.
pub fn unreadable_inputs(tested: &Tested) -> Compared {
    let folder = File::open("/").expect("a folder can be opened");
    compare_unread(tested, "a folder as input", &run(tested.command().stdin(folder)), "Is a directory")?;
    let closed = run(&mut tested.shell("exec \"$0\" <&-"));
    compare_unread(tested, "no input at all", &closed, "Bad file descriptor")?;
    let written = OpenOptions::new().write(true).open("/dev/null").expect("the file can be opened");
    compare_unread(tested, "an input to write", &run(tested.command().stdin(written)), "Bad file descriptor")?;
    let (empty, _open) = UnixStream::pair().expect("sockets can be made");
    empty.set_nonblocking(true).expect("a socket can be told not to wait");
    let output = run(tested.command().stdin(OwnedFd::from(empty)));
    compare_unread(tested, "an input not waited for", &output, "Resource temporarily unavailable")
}

/// Nothing is printed for what was read before a failure, wherever it comes; but a refusal before it is printed.
pub fn broken_inputs(tested: &Tested) -> Compared {
    for end in 0..=SOUND.len() {
        let what = format!("\"{}\", then a failure", SOUND[..end].escape_debug());
        compare_unread(tested, &what, &run_on_broken(tested, &SOUND[..end]), "Connection reset by peer")?;
    }
    for (text, expected) in [("help\n", "refused\t3\t1\n"), ("0\tevent\t1\n\nclock\t0\n", "refused\t7\t3\n")] {
        compare(&format!("{text:?}, then a failure"), &run_on_broken(tested, text), expected.as_bytes())?;
    }
    Ok(())
}

/// A socket whose other end was closed with a byte unread: after the text, reading fails.
fn run_on_broken(tested: &Tested, text: &str) -> Output {
    let (mut input, mut other) = UnixStream::pair().expect("sockets can be made");
    input.write_all(b"x").expect("a socket can be written");
    other.write_all(text.as_bytes()).expect("a socket can be written");
    drop(other);
    run(tested.command().stdin(OwnedFd::from(input)))
}

/// A read that a signal interrupts is tried again; with any other error it is not.
pub fn interrupted_inputs(tested: &Tested) -> Compared {
    let mut random = Random::new(63);
    for _ in 0..RUNS / 3 {
        let input = (inputs::kind(&mut random).draw)(&mut random).input;
        let expected = tested.expected(&input);
        let what = format!("interrupted, \"{}\"", input.escape_ascii());
        compare(&what, &run_with_error(tested, &input, INTERRUPTED), &expected)?;
    }
    compare_unread(tested, "a failing read", &run_with_error(tested, SOUND.as_bytes(), FAILED), "Input/output error")
}

/// Every other call of `read` in the program fails, by the library of failing_read.c, which lies beside this program.
fn run_with_error(tested: &Tested, text: &[u8], error: i32) -> Output {
    let library = std::env::current_exe().expect("this program has a path").with_file_name("failing_read.so");
    let mut command = Command::new(&tested.path);
    command.env("LD_PRELOAD", library).env("READ_ERROR", error.to_string());
    let text = text.to_vec();
    run_on(command.stdout(Stdio::piped()).stderr(Stdio::piped()), move |pipe| pipe.write_all(&text))
}

/// Outputs that are closed, full, or read by nobody, and one that takes a part only.
pub fn unwritten_outputs(tested: &Tested) -> Compared {
    let outputs = [
        ("a closed output", "exec \"$0\" >&-", "Bad file descriptor"),
        ("a full output", "exec \"$0\" >/dev/full", "No space left on device"),
    ];
    for (what, script, reason) in outputs {
        compare_both(what, &run(tested.shell(script).stdin(Stdio::null())), b"", &tested.not_written(reason))?;
    }
    let told = run_unread(&mut tested.shell("trap '' PIPE; exec \"$0\""));
    compare_both("an output that nobody reads", &told, b"", &tested.not_written("Broken pipe"))?;
    // The program's runtime ignores the signal that such an output sends, so it is told of the failure here too.
    let told = run_unread(&mut tested.command());
    compare_both("an output that nobody reads, and the signal of it", &told, b"", &tested.not_written("Broken pipe"))?;
    short_output(tested)
}

/// The output is closed at its other end before the input ends.
fn run_unread(command: &mut Command) -> Output {
    let mut child = command.stdin(Stdio::piped()).spawn().expect("the program can be run");
    drop(child.stdout.take());
    drop(child.stdin.take());
    finished(child)
}

/// A file that may have no more than a block of bytes, and has nearly as many: only the first that are printed fit.
fn short_output(tested: &Tested) -> Compared {
    let log = (1..200).map(|instant| format!("event\t1\nclock\t{instant}\n")).collect::<String>();
    let input = format!("0\tevent\t1\n\nopen\t0\n{log}");
    let expected = tested.expected(input.as_bytes());
    let file = std::env::temp_dir().join(format!("short-output-{}", std::process::id()));
    fs::write(&file, [b' '; BLOCK - 9]).expect("the file can be written");
    let mut command = tested.shell("trap '' XFSZ; ulimit -f 1; exec \"$0\" >>\"$1\"");
    let output = run_on(command.arg(&file), move |pipe| pipe.write_all(input.as_bytes()));
    let written = fs::read(&file).expect("the file can be read").split_off(BLOCK - 9);
    fs::remove_file(&file).expect("the file can be removed");
    if written.is_empty() || written.len() == expected.len() || !expected.starts_with(&written) {
        return Err(format!("a short output: \"{}\"", written.escape_ascii()));
    }
    compare_both("a short output", &output, b"", &tested.not_written("File too large"))
}

fn run(command: &mut Command) -> Output {
    finished(command.spawn().expect("the program can be run"))
}

fn compare_unread(tested: &Tested, what: &str, output: &Output, reason: &str) -> Compared {
    compare_both(what, output, b"", &tested.not_read(reason))
}
