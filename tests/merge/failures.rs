//! Logs that are not there or cannot be read, and outputs that cannot be written. The program says so on standard
//! error, in one line, and prints nothing but what it has written until then; its exit status stays that of success.

use crate::altered::{compare_not_read, compare_stopped};
use crate::by_sets::{self, Log, Pair};
use crate::tested::{compare, shown, Scratch, NAMES};
use crate::{Given, Runs};
use common::harness::Compared;
use std::fs::{self, OpenOptions};
use std::io;
use std::os::unix::fs::symlink;
use std::process::{Output, Stdio};

const SOUND: &str = "open\t-1\nevent\t1\nclock\t0\nevent\t2\n";
const NOT_WRITTEN: &str = "merge: standard output could not be written";
/// The bytes of a block, in which a shell limits the size of a file.
const BLOCK: usize = 512;

fn sound() -> Log {
    Some(SOUND.into())
}

/// A log of many readings and writings.
fn long() -> Log {
    let marks: String = (1..60_000).map(|instant| format!("clock\t{instant}\nevent\t1\n")).collect();
    Some((SOUND.to_string() + &marks).into_bytes())
}

/// No file, and links: to nothing, to itself, and to the other log, which is that log.
pub fn missing_logs(given: &Given) -> Runs {
    let scratch = Scratch::in_memory("missing");
    let run = || scratch.run(&mut given.tested.command());
    let pairs = [[None, None], [sound(), None], [None, sound()]];
    for pair in &pairs {
        scratch.put(pair);
        compare("no file", pair, &run(), &by_sets::merge(pair))?;
    }
    let links = ["nothing", NAMES[0], NAMES[1]].into_iter().flat_map(|target| [(0, target), (1, target)]);
    for (log, target) in links.clone() {
        let mut pair = [sound(), sound()];
        pair[log] = None;
        scratch.put(&pair);
        symlink(target, scratch.log(log)).expect("a link can be made");
        let output = run();
        fs::remove_file(scratch.log(log)).expect("a link can be removed");
        pair[log] = sound().filter(|_| target == NAMES[1 - log]);
        compare(&format!("a link to {target}"), &pair, &output, &by_sets::merge(&pair))?;
    }
    Ok(pairs.len() + links.count())
}

/// A folder in the place of a log can be opened and not be read. The first log is read before the second, and a refusal
/// ends the reading.
pub fn unreadable_logs(given: &Given) -> Runs {
    let scratch = Scratch::in_memory("unreadable");
    let others = [sound(), None, Some(b"open\t1\n".to_vec()), Some(b"forget\t0\n".to_vec())];
    for other in &others {
        compare_folder(given, &scratch, 0, [None, other.clone()])?;
        compare_folder(given, &scratch, 1, [other.clone(), None])?;
    }
    scratch.put(&[None, None]);
    NAMES.iter().enumerate().for_each(|(log, _)| fs::create_dir(scratch.log(log)).expect("a folder can be made"));
    compare_not_read(&[None, None], 0, &scratch.run(&mut given.tested.command()), b"")?;
    Ok(2 * others.len() + 1)
}

/// A folder in the place of one log, and the other as it is.
fn compare_folder(given: &Given, scratch: &Scratch, log: usize, pair: Pair) -> Compared {
    scratch.put(&pair);
    fs::create_dir(scratch.log(log)).expect("a folder can be made");
    let output = scratch.run(&mut given.tested.command());
    fs::remove_dir(scratch.log(log)).expect("a folder can be removed");
    match by_sets::read(&pair[0]) {
        Err(refused) if log == 1 => compare("a refused log, and a folder", &pair, &output, &refused.text()),
        _ => compare_not_read(&pair, log, &output, b""),
    }
}

/// An output that is full, one that nobody reads and one that takes a part only.
pub fn unwritten_outputs(given: &Given) -> Runs {
    let scratch = Scratch::in_memory("unwritten");
    let pairs = [[sound(), None], [sound(), sound()], [sound(), long()], [long(), long()]];
    for pair in &pairs {
        scratch.put(pair);
        let full = OpenOptions::new().write(true).open("/dev/full").expect("the file can be opened");
        compare_stopped(pair, &scratch.run_to(&mut given.tested.command(), full), NOT_WRITTEN, b"")?;
        compare_stopped(pair, &run_unread(given, &scratch), NOT_WRITTEN, b"")?;
    }
    scratch.put(&pairs[2]);
    compare_part(given, &scratch, &pairs[2])?;
    Ok(2 * pairs.len() + 1)
}

/// The other end of the output is closed, and no signal tells of it.
fn run_unread(given: &Given, scratch: &Scratch) -> Output {
    let (reader, writer) = io::pipe().expect("a pipe can be made");
    drop(reader);
    scratch.run_to(&mut given.tested.shell("trap '' PIPE; exec \"$0\""), writer)
}

/// A file that may have no more than a block of bytes, and has nearly as many: only the first that are printed fit.
fn compare_part(given: &Given, scratch: &Scratch, pair: &Pair) -> Compared {
    let file = scratch.beside("part");
    fs::write(&file, [b' '; BLOCK - 9]).expect("the file can be written");
    let mut command = given.tested.shell("trap '' XFSZ; ulimit -f 1; exec \"$0\" >>\"$1\"");
    let output = scratch.run_to(command.arg(&file), Stdio::null());
    let written = fs::read(&file).expect("the file can be read").split_off(BLOCK - 9);
    let expected = by_sets::merge(pair);
    if written.is_empty() || written.len() == expected.len() || !expected.starts_with(&written) {
        return Err(format!("an output that takes a part: \"{}\"", shown(&written)));
    }
    compare_stopped(pair, &output, NOT_WRITTEN, b"")
}
