//! Checks two logs, one after the other, and merges them in a second pass over both. Request N6.

use crate::log_reader::{Line, LogReader, CHUNK};
use std::fmt;
use std::io::{self, BufWriter, Read, Take, Write};

pub const NAMES: [&str; 2] = ["first.log", "second.log"];
const FIRST: usize = 0;
const SECOND: usize = 1;
const GREATEST: i64 = 1_000_000_000;

/// Why a merging broke off; which log it was by its place among `NAMES`.
pub enum Failure {
    NotRead(usize, io::Error),
    /// What was sound is not any more.
    Changed(usize),
    NotWritten(io::Error),
}

impl fmt::Display for Failure {
    fn fmt(&self, out: &mut fmt::Formatter) -> fmt::Result {
        match self {
            Failure::NotRead(log, error) => write!(out, "{} could not be read: {error}", NAMES[*log]),
            Failure::Changed(log) => write!(out, "{} changed while it was merged", NAMES[*log]),
            Failure::NotWritten(error) => write!(out, "standard output could not be written: {error}"),
        }
    }
}

/// A refusal's number and the line of its own log, counted from 1.
struct Refused {
    number: u32,
    line: u64,
}

/// What the first pass keeps of a log.
#[derive(Clone, Copy)]
struct Checked {
    opening: i64,
    bytes: u64,
}

/// Writes the merged log, or the refusal. Each log is opened for each pass; the memory used does not grow with them.
pub fn merge<R: Read>(open: impl Fn(usize) -> io::Result<R>, out: impl Write) -> Result<(), Failure> {
    let mut out = BufWriter::with_capacity(CHUNK, out);
    let ended = match check_both(&open)? {
        Ok(checked) => merge_checked(open, checked, &mut out),
        Err(Refused { number, line }) => writeln!(out, "refused\t{number}\t{line}").map_err(Failure::NotWritten),
    };
    // What came before a failure is printed too.
    out.flush().map_err(Failure::NotWritten).and(ended)
}

fn check_both<R: Read>(open: impl Fn(usize) -> io::Result<R>) -> Result<Result<[Checked; 2], Refused>, Failure> {
    let checked = |log: usize| {
        // What cannot be opened counts as empty.
        let Ok(source) = open(log) else { return Ok(Err(Refused { number: 7, line: 1 })) };
        check(&mut LogReader::new(source)).map_err(|error| Failure::NotRead(log, error))
    };
    let first = match checked(FIRST)? {
        Ok(first) => first,
        Err(refused) => return Ok(Err(refused)),
    };
    let second = match checked(SECOND)? {
        Ok(second) => second,
        Err(refused) => return Ok(Err(refused)),
    };
    if first.opening != second.opening {
        return Ok(Err(Refused { number: 18, line: 1 }));
    }
    Ok(Ok([first, second]))
}

fn check<R: Read>(reader: &mut LogReader<R>) -> io::Result<Result<Checked, Refused>> {
    let opening = match reader.next_line()? {
        Line::Open(instant) if is_in_range(instant) => instant,
        Line::Open(_) => return Ok(Err(Refused { number: 8, line: 1 })),
        _ => return Ok(Err(Refused { number: 7, line: 1 })),
    };
    let (mut instant, mut line) = (opening, 1);
    loop {
        line += 1;
        let number = match reader.next_line()? {
            Line::Event => continue,
            Line::Clock(mark) if is_mark(instant, mark) => {
                instant = mark;
                continue;
            }
            Line::End => return Ok(Ok(Checked { opening, bytes: reader.bytes() })),
            Line::Clock(_) => 8,
            Line::Forget => 17,
            Line::Open(_) | Line::Malformed => 7,
        };
        return Ok(Err(Refused { number, line }));
    }
}

fn is_in_range(instant: i64) -> bool {
    (-GREATEST..=GREATEST).contains(&instant)
}

fn is_mark(instant: i64, mark: i64) -> bool {
    instant < mark && mark <= GREATEST
}

/// A log in the second pass, up to the end that it had in the first: its last line that was read is a mark, unless
/// there is none any more.
struct Source<R> {
    log: usize,
    checked: Checked,
    reader: LogReader<Take<R>>,
    instant: i64,
    next: Option<i64>,
}

fn merge_checked<R: Read>(
    open: impl Fn(usize) -> io::Result<R>,
    [first, second]: [Checked; 2],
    out: &mut impl Write,
) -> Result<(), Failure> {
    let mut first = Source::open(&open, FIRST, first)?;
    let mut second = Source::open(&open, SECOND, second)?;
    write_instant(out, first.reader.text())?;
    first.copy_events(out)?;
    second.copy_events(out)?;
    while let Some(mark) = [first.next, second.next].into_iter().flatten().min() {
        let [is_in_first, is_in_second] = [first.next, second.next].map(|next| next == Some(mark));
        write_instant(out, if is_in_first { first.reader.text() } else { second.reader.text() })?;
        if is_in_first {
            first.copy_events(out)?;
        }
        if is_in_second {
            second.copy_events(out)?;
        }
    }
    Ok(())
}

impl<R: Read> Source<R> {
    /// The log after its first line.
    fn open(open: impl Fn(usize) -> io::Result<R>, log: usize, checked: Checked) -> Result<Source<R>, Failure> {
        let source = open(log).map_err(|_| Failure::Changed(log))?;
        let mut reader = LogReader::new(source.take(checked.bytes));
        match reader.next_line().map_err(|error| Failure::NotRead(log, error))? {
            Line::Open(instant) if instant == checked.opening => {
                Ok(Source { log, checked, reader, instant, next: None })
            }
            _ => Err(Failure::Changed(log)),
        }
    }

    /// Writes the events before the next mark.
    #[inline]
    fn copy_events(&mut self, out: &mut impl Write) -> Result<(), Failure> {
        loop {
            match self.reader.next_line().map_err(|error| Failure::NotRead(self.log, error))? {
                Line::Event => out.write_all(self.reader.text()).map_err(Failure::NotWritten)?,
                Line::Clock(mark) if is_mark(self.instant, mark) => {
                    self.instant = mark;
                    self.next = Some(mark);
                    return Ok(());
                }
                Line::End if self.reader.bytes() == self.checked.bytes => {
                    self.next = None;
                    return Ok(());
                }
                _ => return Err(Failure::Changed(self.log)),
            }
        }
    }
}

/// Writes the line of a sound instant as it is, but for the point and the tenth that it may lack.
fn write_instant(out: &mut impl Write, line: &[u8]) -> Result<(), Failure> {
    let text = &line[..line.len() - 1];
    let end: &[u8] = if text[text.len() - 2] == b'.' { b"\n" } else { b".0\n" };
    out.write_all(text).and_then(|()| out.write_all(end)).map_err(Failure::NotWritten)
}
