//! The merge program as a process, in a folder of its own.

use crate::by_sets::Pair;
use common::harness::Compared;
use std::fs::{self, File};
use std::path::{Path, PathBuf};
use std::process::{Child, Command, ExitStatus, Output, Stdio};
use std::thread;
use std::time::{Duration, Instant};

pub const NAMES: [&str; 2] = ["first.log", "second.log"];
/// Files that lie there are in memory.
const IN_MEMORY: &str = "/dev/shm";
/// The kilobytes of address space that the program may have, its code and libraries included.
const MEMORY: usize = 65_536;
/// A run that takes longer is taken for one that never ends.
const LONGEST_RUN: Duration = Duration::from_secs(120);
const SHOWN: usize = 2_000;

/// The program that is tested.
pub struct Tested {
    path: PathBuf,
}

impl Tested {
    pub fn at(path: &str) -> Tested {
        Tested { path: std::path::absolute(path).expect("the program has a path") }
    }

    pub fn command(&self) -> Command {
        Command::new(&self.path)
    }

    /// The program, with no more memory and no more seconds of a processor than it is allowed.
    pub fn limited(&self) -> Command {
        let seconds = LONGEST_RUN.as_secs();
        self.shell(&format!("ulimit -v {MEMORY} && ulimit -t {seconds} && exec \"$0\""))
    }

    /// The program, started by a shell's words.
    pub fn shell(&self, script: &str) -> Command {
        let mut command = Command::new("sh");
        command.args(["-c", script]).arg(&self.path);
        command
    }
}

/// A folder that is removed in the end: the program's working folder, and beside it what it prints.
pub struct Scratch {
    folder: PathBuf,
}

impl Scratch {
    /// In memory, where the machine has a place for that.
    pub fn in_memory(name: &str) -> Scratch {
        let place = Path::new(IN_MEMORY);
        Scratch::below(if place.is_dir() { place.into() } else { std::env::temp_dir() }, name)
    }

    pub fn on_disk(name: &str) -> Scratch {
        Scratch::below(std::env::temp_dir(), name)
    }

    fn below(place: PathBuf, name: &str) -> Scratch {
        let scratch = Scratch { folder: place.join(format!("merge-test-{}-{name}", std::process::id())) };
        // One of that name is left over where another run was stopped.
        drop(fs::remove_dir_all(&scratch.folder));
        fs::create_dir_all(scratch.folder.join("work")).expect("a folder can be made");
        scratch
    }

    /// A log in the working folder.
    pub fn log(&self, log: usize) -> PathBuf {
        self.folder.join("work").join(NAMES[log])
    }

    /// A file beside the working folder.
    pub fn beside(&self, name: &str) -> PathBuf {
        self.folder.join(name)
    }

    /// Writes the logs; where one is none there is no file.
    pub fn put(&self, pair: &Pair) {
        for (log, text) in pair.iter().enumerate() {
            match text {
                Some(text) => fs::write(self.log(log), text).expect("a log can be written"),
                None => drop(fs::remove_file(self.log(log))),
            }
        }
    }

    /// Runs the program in the working folder.
    pub fn run(&self, command: &mut Command) -> Output {
        let file = File::create(self.beside("out")).expect("the output can be made");
        let output = self.run_to(command, file);
        Output { stdout: fs::read(self.beside("out")).expect("the output can be read"), ..output }
    }

    /// The same with a standard output of its own, which is not looked at.
    pub fn run_to(&self, command: &mut Command, out: impl Into<Stdio>) -> Output {
        let errors = File::create(self.beside("errors")).expect("a file can be made");
        let child = self.start(command.stdout(out).stderr(errors));
        let status = finished(child);
        Output { status, stdout: vec![], stderr: fs::read(self.beside("errors")).expect("a file can be read") }
    }

    /// Starts the program in the working folder.
    pub fn start(&self, command: &mut Command) -> Child {
        command.current_dir(self.folder.join("work")).stdin(Stdio::null()).spawn().expect("the program can be run")
    }
}

impl Drop for Scratch {
    fn drop(&mut self) {
        drop(fs::remove_dir_all(&self.folder));
    }
}

/// How a run ended; one that never ends is stopped and has a signal in its status.
pub fn finished(mut child: Child) -> ExitStatus {
    let start = Instant::now();
    loop {
        if let Some(status) = child.try_wait().expect("the program can be waited for") {
            return status;
        }
        if start.elapsed() > LONGEST_RUN {
            child.kill().expect("the program can be stopped");
        }
        thread::sleep(Duration::from_micros(50));
    }
}

/// The expected output, nothing on standard error, and the exit status of success, for refusals too.
pub fn compare(what: &str, pair: &Pair, output: &Output, expected: &[u8]) -> Compared {
    if output.status.success() && output.stdout == expected && output.stderr.is_empty() {
        return Ok(());
    }
    Err(described(what, pair, output, &format!("\"{}\"", shown(expected))))
}

/// A difference in words.
pub fn described(what: &str, pair: &Pair, output: &Output, expected: &str) -> String {
    let log = |log: usize| pair[log].as_deref().map_or("no file".to_string(), |text| format!("\"{}\"", shown(text)));
    format!(
        "{what}\nfirst log {}\nsecond log {}\nexpected {expected}\nprinted \"{}\", said \"{}\", {}",
        log(0),
        log(1),
        shown(&output.stdout),
        shown(&output.stderr),
        output.status
    )
}

/// The beginning of a long text.
pub fn shown(text: &[u8]) -> String {
    let end = if text.len() > SHOWN { "..." } else { "" };
    format!("{}{end}", text[..text.len().min(SHOWN)].escape_ascii())
}
