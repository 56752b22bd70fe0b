//! Times the proved merge program beside the plain one, each as a process on the same logs, in one run. The times are
//! processor times, the start and the end of the process included. What is printed is thrown away, but compared once.

use common::random::Random;
use common::timing::{median, processor_time_of_children};
use plain_merge::long_logs::Shape;
use plain_merge::NAMES;
use std::fs::{self, File};
use std::io::BufWriter;
use std::path::{Path, PathBuf};
use std::process::{Command, ExitCode, Stdio};

const ROUNDS: usize = 11;

struct Workload {
    name: &'static str,
    logs: [Shape; 2],
}

const WORKLOADS: [Workload; 3] = [
    Workload {
        name: "4 events a mark, interleaved",
        logs: [
            Shape { bytes: 20_000_000, events_a_mark: 4..=4, step: 1..=40 },
            Shape { bytes: 20_000_000, events_a_mark: 4..=4, step: 1..=40 },
        ],
    },
    Workload {
        name: "a long log and a short one",
        logs: [
            Shape { bytes: 40_000_000, events_a_mark: 4..=4, step: 1..=40 },
            Shape { bytes: 50_000, events_a_mark: 4..=4, step: 1..=40 },
        ],
    },
    Workload {
        name: "marks without events",
        logs: [
            Shape { bytes: 20_000_000, events_a_mark: 0..=0, step: 1..=40 },
            Shape { bytes: 20_000_000, events_a_mark: 0..=0, step: 1..=40 },
        ],
    },
];

fn main() -> ExitCode {
    let [proved, plain, folder] = &std::env::args().skip(1).collect::<Vec<_>>()[..] else {
        eprintln!("use: merge_bench MERGE PLAIN_MERGE FOLDER\nThe logs are written into the folder.");
        return ExitCode::from(2);
    };
    fs::create_dir_all(folder).expect("the folder can be made");
    let programs = [plain, proved].map(|program| std::path::absolute(program).expect("a program has a path"));
    println!("{:<30} {:>9} {:>9} {:>9} {:>7}", "logs", "MB", "plain ms", "proved ms", "ratio");
    for workload in &WORKLOADS {
        let bytes = workload.write(Path::new(folder));
        compare(&programs, Path::new(folder));
        let [plain, proved] = times(&programs, Path::new(folder));
        let (megabytes, plain_ms, proved_ms, ratio) = (bytes as f64 / 1e6, plain * 1e3, proved * 1e3, proved / plain);
        println!("{:<30} {megabytes:>9.1} {plain_ms:>9.1} {proved_ms:>9.1} {ratio:>7.2}", workload.name);
    }
    NAMES.iter().for_each(|log| fs::remove_file(Path::new(folder).join(log)).expect("a log can be removed"));
    println!("processor time of the whole process, medians of {ROUNDS} runs of each program, the two taking turns");
    ExitCode::SUCCESS
}

impl Workload {
    /// Writes the logs into a folder; how many bytes they have together.
    fn write(&self, folder: &Path) -> u64 {
        let mut random = Random::new(97);
        let paths = NAMES.map(|log| folder.join(log));
        for (shape, path) in self.logs.iter().zip(&paths) {
            let file = BufWriter::new(File::create(path).expect("a log can be made"));
            shape.write(&mut random, file).expect("a log can be written");
        }
        paths.iter().map(|path| fs::metadata(path).expect("a log is there").len()).sum()
    }
}

/// Both programs must print the same, and not a refusal.
fn compare(programs: &[PathBuf; 2], folder: &Path) {
    let [first, second] = programs.each_ref().map(|program| run(program, folder, Stdio::piped()));
    assert!(first == second, "the two programs differ");
    assert!(first.starts_with(b"open\t"), "the logs are refused");
}

/// The median time of each program in seconds.
fn times(programs: &[PathBuf; 2], folder: &Path) -> [f64; 2] {
    let mut times = [Vec::new(), Vec::new()];
    for _ in 0..ROUNDS {
        for (program, times) in programs.iter().zip(&mut times) {
            let before = processor_time_of_children();
            run(program, folder, Stdio::null());
            times.push(processor_time_of_children() - before);
        }
    }
    times.map(median)
}

/// What a program prints for the logs of a folder, where that is piped.
fn run(program: &Path, folder: &Path, out: Stdio) -> Vec<u8> {
    let mut command = Command::new(program);
    command.current_dir(folder).stdin(Stdio::null()).stdout(out).stderr(Stdio::inherit());
    let output = command.spawn().and_then(|child| child.wait_with_output()).expect("the program can be run");
    assert!(output.status.success(), "{} failed", program.display());
    output.stdout
}
