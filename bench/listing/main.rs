//! Times the proved listing program beside the plain one, each as a process on the same files, in one run. The times
//! are processor times, the start and the end of the process included. With --any-order the second may be a proved one
//! from before request N7, which has rows of one end and entry in another order, or from before N11, which prints whole
//! milliseconds without a point: the logs have no others.

use common::paper::{fields, lines};
use common::random::Random;
use common::timing::processor_time_of_children;
use plain_listing::long_logs::{Drawn, FULL_TABLE, FULL_TABLE_ROWS, WORKLOADS};
use std::fs::{self, File};
use std::path::Path;
use std::process::{Command, ExitCode, Stdio};

const EVENTS: usize = 1_000_000;
const FULL_TABLE_EVENTS: usize = 96_000;
/// How many rows may be in use, about, before some are forgotten; the table holds 3,000.
const FILLINGS: [usize; 3] = [20, 300, 2_900];
const ROUNDS: usize = 7;
/// Where so many seconds have been spent on a case, no other round of it is begun.
const LONGEST: f64 = 60.0;

fn main() -> ExitCode {
    let (options, arguments): (Vec<String>, Vec<String>) =
        std::env::args().skip(1).partition(|argument| argument == "--any-order");
    let [proved, plain, folder] = arguments.as_slice() else {
        eprintln!(
            "use: listing_bench [--any-order] LISTING PLAIN_LISTING FOLDER\nThe inputs are written into the folder."
        );
        return ExitCode::from(2);
    };
    let is_same = if options.is_empty() { |a: &[u8], b: &[u8]| a == b } else { is_same_in_any_order };
    fs::create_dir_all(folder).expect("the folder can be made");
    println!("events with marks and forgets");
    println!("                    rows in use     input    plain   proved");
    println!("workload    events   mean  most     lines       ms       ms  ratio");
    let cases = WORKLOADS.iter().flat_map(|workload| FILLINGS.map(|filling| (workload, EVENTS, filling)));
    for (workload, events, filling) in cases.chain([(&FULL_TABLE, FULL_TABLE_EVENTS, FULL_TABLE_ROWS)]) {
        let Drawn { input, most_rows, mean_rows } = workload.draw(&mut Random::new(filling as u64), events, filling);
        let path = Path::new(folder).join(format!("{}-{filling}.in", workload.name));
        fs::write(&path, &input).expect("the input can be written");
        let lines = input.iter().filter(|byte| **byte == b'\n').count();
        let [plain, proved] = compare(&path, [plain, proved], is_same);
        let (plain_ms, proved_ms, ratio) = (plain * 1e3, proved * 1e3, proved / plain);
        print!("{:<10} {events:>7} {mean_rows:>6} {most_rows:>5} {lines:>9}", workload.name);
        println!(" {plain_ms:>8.1} {proved_ms:>8.1} {ratio:>6.2}");
        fs::remove_file(&path).expect("the input can be removed");
    }
    println!("processor time of the whole process, best of {ROUNDS} runs of each program, the two taking turns;");
    println!("fewer runs where {LONGEST} s are spent");
    ExitCode::SUCCESS
}

/// Whether two listings have as many rows of each entry, start and end.
fn is_same_in_any_order(a: &[u8], b: &[u8]) -> bool {
    sorted_rows(a) == sorted_rows(b)
}

/// Entry, start and end of each row.
fn sorted_rows(listing: &[u8]) -> Vec<Vec<&[u8]>> {
    let mut rows: Vec<Vec<&[u8]>> =
        lines(listing).map(|line| fields(line).map_or(Vec::new(), Iterator::collect)).collect();
    let is_row = |row: &&mut Vec<&[u8]>| row.len() == 6;
    rows.iter_mut().filter(is_row).for_each(|row| *row = vec![row[1], whole(row[4]), whole(row[5])]);
    rows.sort();
    rows
}

/// Whole milliseconds without their point.
fn whole(instant: &[u8]) -> &[u8] {
    instant.strip_suffix(b".0").unwrap_or(instant)
}

/// The best time of each program in seconds. Both must print what is the same.
fn compare(input: &Path, programs: [&str; 2], is_same: fn(&[u8], &[u8]) -> bool) -> [f64; 2] {
    let (mut best, mut spent) = ([f64::INFINITY; 2], 0.0);
    for _ in 0..ROUNDS {
        if spent > LONGEST {
            break;
        }
        let [(first, first_time), (second, second_time)] = programs.map(|program| run(program, input));
        assert!(is_same(&first, &second), "the two programs differ on {}", input.display());
        assert!(first.starts_with(b"row\t"), "{} is refused", input.display());
        best = [best[0].min(first_time), best[1].min(second_time)];
        spent += first_time + second_time;
    }
    best
}

/// What a program prints for a file on its standard input, and the processor time it takes, in seconds.
fn run(program: &str, input: &Path) -> (Vec<u8>, f64) {
    let input = File::open(input).expect("the input can be read");
    let before = processor_time_of_children();
    let output = Command::new(program).stdin(input).stderr(Stdio::inherit()).output().expect("the program can be run");
    assert!(output.status.success(), "{program} failed");
    (output.stdout, processor_time_of_children() - before)
}
