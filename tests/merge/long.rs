//! Lines and logs that are larger than the memory that the program may use.

use crate::by_sets::Refused;
use crate::tested::{compare, finished, Scratch};
use crate::{Given, Runs};
use common::random::Random;
use plain_merge::long_logs::Shape;
use std::fs::{File, OpenOptions};
use std::io::{self, BufRead, BufReader, BufWriter, Read, Write};
use std::process::{Child, Command, Stdio};

const MEGABYTE: usize = 1 << 20;
/// More than the program's memory, with all that is in it besides.
const LONG_LINE: usize = 100 * MEGABYTE;
const SEED: u64 = 96;

/// One with more marks than the other.
const SHAPES: [Shape; 2] = [
    Shape { bytes: 100_000_000, events_a_mark: 0..=8, step: 1..=40 },
    Shape { bytes: 100_000_000, events_a_mark: 0..=2, step: 1..=20 },
];

/// A text, then very many copies of a byte, in either log, as its first line or a later one.
pub fn lines(given: &Given) -> Runs {
    let scratch = Scratch::on_disk("lines");
    let cases: [(usize, &[u8], u8, usize); 5] = [
        (0, b"", 0, 1),
        (0, b"open\t", b'1', 1),
        (0, b"open\t0\nevent\t", b'0', 2),
        (1, b"open\t0\nclock\t1\nclock\t1.", b'1', 3),
        (1, b"open\t0\nevent\t7\nevent\t7\n", b' ', 4),
    ];
    for (log, front, byte, line) in cases {
        let pair = [Some(b"open\t0\n".to_vec()), Some(b"open\t0\n".to_vec())];
        scratch.put(&pair);
        let file = File::create(scratch.log(log)).expect("a log can be made");
        write_many(file, front, byte).expect("a log can be written");
        let what = format!("\"{}\", then many of byte {byte}", front.escape_ascii());
        let output = scratch.run(&mut given.tested.limited());
        compare(&what, &pair, &output, &Refused { number: 7, line }.text())?;
    }
    Ok(cases.len())
}

fn write_many(mut file: File, front: &[u8], byte: u8) -> io::Result<()> {
    file.write_all(front)?;
    (0..LONG_LINE / MEGABYTE).try_for_each(|_| file.write_all(&[byte; MEGABYTE]))
}

/// Two logs, merged, and then refused at the last line: as the plain program has it.
pub fn logs(given: &Given) -> Runs {
    let scratch = Scratch::on_disk("logs");
    for (log, shape) in SHAPES.iter().enumerate() {
        let file = File::create(scratch.log(log)).expect("a log can be made");
        shape.write(&mut Random::new(SEED + log as u64), BufWriter::new(file)).expect("a log can be written");
    }
    let merged = compare_with_plain(given, &scratch)?;
    if merged < SHAPES[0].bytes {
        return Err(format!("{merged} bytes alone were merged"));
    }
    let mut second = OpenOptions::new().append(true).open(scratch.log(1)).expect("a log can be opened");
    second.write_all(b"forget\t0\n").expect("a log can be written");
    compare_with_plain(given, &scratch)?;
    Ok(2)
}

/// Runs both programs at once and compares what they print as it comes; how many bytes that were.
fn compare_with_plain(given: &Given, scratch: &Scratch) -> Runs {
    let start = |mut command: Command| scratch.start(command.stdout(Stdio::piped()).stderr(Stdio::piped()));
    let [mut tested, mut plain] = [start(given.tested.limited()), start(given.plain.command())];
    let outputs = [&mut tested, &mut plain].map(|child| BufReader::new(child.stdout.take().expect("it is piped")));
    let compared = compare_streams(outputs);
    compared.and_then(|bytes| ended(tested).and(ended(plain)).map(|()| bytes))
}

fn compare_streams([mut tested, mut plain]: [impl BufRead; 2]) -> Runs {
    let mut bytes = 0;
    loop {
        let [a, b] = [tested.fill_buf(), plain.fill_buf()].map(|read| read.expect("a pipe can be read"));
        let length = a.len().min(b.len());
        if a[..length] != b[..length] || (length == 0 && a.len() != b.len()) {
            return Err(format!("large logs: another output than the plain program's after {bytes} bytes"));
        }
        if length == 0 {
            return Ok(bytes);
        }
        bytes += length;
        tested.consume(length);
        plain.consume(length);
    }
}

/// A run that said nothing.
fn ended(mut child: Child) -> Result<(), String> {
    let (mut said, mut errors) = (Vec::new(), child.stderr.take().expect("it is piped"));
    let status = finished(child);
    errors.read_to_end(&mut said).expect("a pipe can be read");
    if status.success() && said.is_empty() {
        return Ok(());
    }
    Err(format!("large logs: said \"{}\", {status}", said.escape_ascii()))
}
