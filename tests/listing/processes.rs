//! Runs the listing program or the report program itself and compares what it prints: input in pieces of any size, lines
//! and inputs of any length within a bounded memory, and inputs and outputs that are no files of text or that fail.

#[path = "../report/counted.rs"]
mod counted;
mod damage;
mod failures;
#[allow(dead_code)]
mod inputs;
mod many_entries;
mod terminal;
mod tested;

use common::harness::Compared;
use common::random::Random;
use oracle::listing::TABLE_ROWS;
use plain_listing::list;
use plain_listing::long_logs::{one_event_too_many, WORKLOADS};
use std::fs::{self, File};
use std::io::{self, Read, Write};
use std::process::{Child, ChildStdin, Command, ExitCode, Output, Stdio};
use std::thread;
use std::time::{Duration, Instant};
use tested::Tested;

const RUNS: usize = 300;
const MILLION: usize = 1_000_000;
const GIGABYTE: usize = 1 << 30;
/// A run that takes longer is taken for one that never ends.
const LONGEST_RUN: Duration = Duration::from_secs(120);

fn main() -> ExitCode {
    let path = std::env::args().nth(1).filter(|_| std::env::args().count() == 2);
    let Some(tested) = path.and_then(Tested::at) else {
        eprintln!("use: processes PROGRAM, whose name is listing or report");
        return ExitCode::from(2);
    };
    let parts: [(&str, fn(&Tested) -> Compared); 10] = [
        ("inputs in pieces", in_pieces),
        ("lines of a gigabyte", long_lines),
        ("a million events and more", many_events),
        ("millions of lines", many_lines),
        ("inputs that are no text", odd_inputs),
        ("a terminal", terminal::compare),
        ("inputs that cannot be read", failures::unreadable_inputs),
        ("inputs that break off", failures::broken_inputs),
        ("inputs that a signal interrupts", failures::interrupted_inputs),
        ("outputs that cannot be written", failures::unwritten_outputs),
    ];
    for (name, compare) in parts {
        if let Err(difference) = compare(&tested) {
            println!("{name}: {difference}");
            return ExitCode::FAILURE;
        }
        println!("{name}: as expected");
    }
    ExitCode::SUCCESS
}

/// Runs the program on what `write` writes into its standard input. That the program ends before it has read all is no
/// fault, so whether all could be written does not matter.
fn run(tested: &Tested, write: impl FnOnce(&mut ChildStdin) -> io::Result<()> + Send + 'static) -> Output {
    run_on(&mut tested.command(), write)
}

fn run_on(command: &mut Command, write: impl FnOnce(&mut ChildStdin) -> io::Result<()> + Send + 'static) -> Output {
    let mut child = command.stdin(Stdio::piped()).spawn().expect("the program can be run");
    let mut input = child.stdin.take().expect("the input is piped");
    let writer = thread::spawn(move || drop(write(&mut input)));
    let output = finished(child);
    writer.join().expect("the writer ends");
    output
}

/// What a run printed; a run that never ends is stopped and has a signal in its status.
fn finished(mut child: Child) -> Output {
    let stdout = child.stdout.take().map(read_all);
    let stderr = child.stderr.take().map(read_all);
    let start = Instant::now();
    let status = loop {
        if let Some(status) = child.try_wait().expect("the program can be waited for") {
            break status;
        }
        if start.elapsed() > LONGEST_RUN {
            child.kill().expect("the program can be stopped");
        }
        thread::sleep(Duration::from_micros(200));
    };
    let bytes =
        |reader: Option<thread::JoinHandle<Vec<u8>>>| reader.map_or(Vec::new(), |reader| reader.join().unwrap());
    Output { status, stdout: bytes(stdout), stderr: bytes(stderr) }
}

fn read_all(mut source: impl Read + Send + 'static) -> thread::JoinHandle<Vec<u8>> {
    thread::spawn(move || {
        let mut bytes = Vec::new();
        source.read_to_end(&mut bytes).expect("a pipe can be read");
        bytes
    })
}

/// The expected output, nothing on standard error, and the exit status of success, for refusals too.
fn compare(what: &str, output: &Output, expected: &[u8]) -> Compared {
    compare_both(what, output, expected, b"")
}

/// The expected output and the expected line on standard error, and the exit status of success.
fn compare_both(what: &str, output: &Output, expected: &[u8], line: &[u8]) -> Compared {
    if output.status.success() && output.stdout == expected && output.stderr == line {
        return Ok(());
    }
    let start = |text: &[u8]| text[..text.len().min(2_000)].escape_ascii().to_string();
    let (printed, said) = (start(&output.stdout), start(&output.stderr));
    let (expected, line) = (start(expected), start(line));
    Err(format!(
        "{what}\nexpected \"{expected}\", \"{line}\"\nprinted \"{printed}\", said \"{said}\", {}",
        output.status
    ))
}

/// Writes in pieces of random sizes, with a rest after some of them, so that the program's reads come short.
fn write_pieces(input: &mut ChildStdin, bytes: &[u8], longest: usize, seed: u64) -> io::Result<()> {
    let mut random = Random::new(seed);
    let mut left = bytes;
    while !left.is_empty() {
        let (piece, rest) = left.split_at((1 + random.below(longest)).min(left.len()));
        input.write_all(piece)?;
        input.flush()?;
        if bytes.len() < 10_000 && random.one_in(2) {
            thread::sleep(Duration::from_micros(100));
        }
        left = rest;
    }
    Ok(())
}

fn in_pieces(tested: &Tested) -> Compared {
    let mut random = Random::new(61);
    for seed in 0..RUNS as u64 {
        let draw = if random.one_in(10) { many_entries::draw } else { inputs::kind(&mut random).draw };
        let input = draw(&mut random).input;
        let expected = tested.expected(&input);
        let what = format!("input \"{}\"", input.escape_ascii());
        let longest = random.pick(&[1, 3, 20, 100, 5_000]);
        let output = run(tested, move |pipe| write_pieces(pipe, &input, longest, seed));
        compare(&what, &output, &expected)?;
    }
    Ok(())
}

/// Some bytes, then so many copies of another, a megabyte at a time.
fn write_many(input: &mut ChildStdin, first: &[u8], text: &[u8], length: usize) -> io::Result<()> {
    let megabyte = text.repeat((1 << 20) / text.len());
    input.write_all(first)?;
    (0..length / megabyte.len()).try_for_each(|_| input.write_all(&megabyte))
}

/// A gigabyte without byte 10, as the first chart line, a 33rd, the parting line, the first line of the log and a later
/// one; and a gigabyte of empty lines in the log.
fn long_lines(tested: &Tested) -> Compared {
    let entries = |count: usize| (0..count).map(|number| format!("{number}\tevent\t1\n")).collect::<String>();
    let cases: [(String, &[u8], &str); 7] = [
        (String::new(), b"x", "refused\t3\t1\n"),
        (String::new(), &[0], "refused\t3\t1\n"),
        (entries(32), b"0", "refused\t2\t33\n"),
        (entries(1), b"\t", "refused\t3\t2\n"),
        (entries(1) + "\n", b" ", "refused\t7\t3\n"),
        (entries(1) + "\nopen\t0\nevent\t", b"1", "refused\t7\t4\n"),
        (entries(1) + "\nopen\t0\n", b"\n", "refused\t7\t4\n"),
    ];
    for (first, text, expected) in cases {
        let what = format!("\"{}\", then a gigabyte of \"{}\"", first.escape_debug(), text.escape_ascii());
        let text = text.to_vec();
        let output = run(tested, move |pipe| write_many(pipe, first.as_bytes(), &text, GIGABYTE));
        compare(&what, &output, expected.as_bytes())?;
    }
    Ok(())
}

fn many_events(tested: &Tested) -> Compared {
    let drawn = WORKLOADS.iter().map(|workload| workload.draw(&mut Random::new(62), MILLION, 500).input);
    for (seed, input) in drawn.chain([one_event_too_many()]).enumerate() {
        let listing = list(&input[..], TABLE_ROWS).expect("bytes in memory can be read");
        let expected = tested.expected_for(&input, &listing);
        let output = run(tested, move |pipe| write_pieces(pipe, &input, 20_000, seed as u64));
        compare("an input of a million events", &output, &expected)?;
    }
    Ok(())
}

/// Forgets that alter nothing, and then one that is refused.
fn many_lines(tested: &Tested) -> Compared {
    let first = "0\tevent\t1\n\nopen\t-7\nevent\t1\nclock\t0\n";
    let forget = b"forget\t-100000000.0\n";
    let a_megabyte = (1 << 20) / forget.len();
    let (megabytes, length) = (64, 64 * a_megabyte * forget.len());
    let sound = run(tested, move |pipe| write_many(pipe, first.as_bytes(), forget, length));
    let listing = b"row\tentry\tleft\tright\tstart\tend\n0\t0\t1\t-1\t-7.0\t-7.0\n";
    compare("millions of forgets", &sound, &tested.expected_for(first.as_bytes(), listing))?;
    let refused = run(tested, move |pipe| {
        write_many(pipe, first.as_bytes(), forget, length)?;
        pipe.write_all(b"forget\t1\n")
    });
    let line = 5 + megabytes * a_megabyte + 1;
    compare("millions of forgets, the last refused", &refused, format!("refused\t11\t{line}\n").as_bytes())
}

/// Files of any bytes.
fn odd_inputs(tested: &Tested) -> Compared {
    for file in ["/dev/null", "/bin/sh", &tested.path] {
        let bytes = fs::read(file).expect("the file can be read");
        let input = File::open(file).expect("the file can be opened");
        let child = tested.command().stdin(input).spawn().expect("the program can be run");
        compare(file, &finished(child), &tested.expected(&bytes))?;
    }
    Ok(())
}
