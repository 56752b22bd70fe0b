//! Plays a chart, an empty line and a log, line by line, and prints the table. Document 01, "The listing program".

use crate::line_reader::LineReader;
use crate::watch::Watch;
use common::plain_chart::{self, Entry, MOST_ENTRIES};
use common::plain_watch::storage::Row;
use common::plain_watch::{Refusal, Taken};
use std::fmt;
use std::io::{self, Read, Write};

/// The rows of the listing program's table.
pub const TABLE_ROWS: usize = 3_000;

/// A refusal's number and the line of the whole input, counted from 1.
struct Refused {
    number: Refusal,
    line: usize,
}

enum Record {
    Open(i64),
    Event(u8),
    Clock(i64),
    Forget(i64),
}

/// What the listing program prints with a table of so many rows. The memory used does not grow with the input.
pub fn list(source: impl Read, table_rows: usize) -> io::Result<Vec<u8>> {
    match play(&mut LineReader::new(source), table_rows)? {
        Ok(watch) => Ok(table_text(watch.rows())),
        Err(Refused { number, line }) => Ok(format!("refused\t{number}\t{line}\n").into_bytes()),
    }
}

fn table_text(rows: &[Row]) -> Vec<u8> {
    let mut text = b"row\tentry\tleft\tright\tstart\tend\n".to_vec();
    for (number, [entry, left, right, start, end]) in rows.iter().enumerate() {
        let (start, end) = (Tenths(*start), Tenths(*end));
        writeln!(text, "{number}\t{entry}\t{left}\t{right}\t{start}\t{end}").expect("a vector takes all bytes");
    }
    text
}

/// An instant, printed with a point and one digit after it.
struct Tenths(i32);

impl fmt::Display for Tenths {
    fn fmt(&self, out: &mut fmt::Formatter) -> fmt::Result {
        let Tenths(tenths) = *self;
        // Between -1 and 0 the whole part is 0, which has no minus of its own.
        let sign = if (-9..0).contains(&tenths) { "-" } else { "" };
        write!(out, "{sign}{}.{}", tenths / 10, (tenths % 10).unsigned_abs())
    }
}

fn play<R: Read>(lines: &mut LineReader<R>, table_rows: usize) -> io::Result<Result<Watch, Refused>> {
    let (chart, mut line) = match read_chart(lines)? {
        Ok(read) => read,
        Err(refused) => return Ok(Err(refused)),
    };
    line += 1;
    let mut watch = match opened(&chart, lines.next_line()?, table_rows) {
        Ok(watch) => watch,
        Err(number) => return Ok(Err(Refused { number, line })),
    };
    loop {
        line += 1;
        let text = lines.next_line()?;
        if text.is_empty() {
            return Ok(Ok(watch));
        }
        if let Err(number) = play_line(&mut watch, text) {
            return Ok(Err(Refused { number, line }));
        }
    }
}

/// The chart and how many lines were read with it, the empty one included where it is there.
fn read_chart<R: Read>(lines: &mut LineReader<R>) -> io::Result<Result<(Vec<Entry>, usize), Refused>> {
    let (mut text, mut count) = (Vec::new(), 0);
    let mut has_empty_line = false;
    while count <= MOST_ENTRIES {
        let line = lines.next_line()?;
        has_empty_line = line == b"\n";
        if line.is_empty() || has_empty_line {
            break;
        }
        text.extend_from_slice(line);
        count += 1;
        if !line.ends_with(b"\n") {
            break;
        }
    }
    let refused = |verdict: plain_chart::Verdict| Refused { number: verdict.refusal, line: verdict.line as usize };
    Ok(plain_chart::read(&text).map(|chart| (chart, count + usize::from(has_empty_line))).map_err(refused))
}

/// The watch after the log's first line: 7 where it is no `open`.
fn opened(chart: &[Entry], line: &[u8], table_rows: usize) -> Result<Watch, Refusal> {
    match record(line) {
        Some(Record::Open(instant)) => Watch::open(chart, table_rows, instant),
        _ => Err(7),
    }
}

/// Plays a later line: 7 where it is not of its form or a second `open`.
fn play_line(watch: &mut Watch, line: &[u8]) -> Taken {
    match record(line) {
        Some(Record::Event(code)) => watch.event(code),
        Some(Record::Clock(instant)) => watch.clock(instant),
        Some(Record::Forget(instant)) => watch.forget(instant),
        Some(Record::Open(_)) | None => Err(7),
    }
}

#[inline]
fn record(line: &[u8]) -> Option<Record> {
    let text = line.strip_suffix(b"\n")?;
    if let Some(field) = text.strip_prefix(b"event\t") {
        return Some(Record::Event(u8::try_from(number(field)?).ok()?));
    }
    if let Some(field) = text.strip_prefix(b"clock\t") {
        return Some(Record::Clock(instant(field)?));
    }
    if let Some(field) = text.strip_prefix(b"forget\t") {
        return Some(Record::Forget(instant(field)?));
    }
    text.strip_prefix(b"open\t").and_then(instant).map(Record::Open)
}

/// "Numbers have no leading zero, 1 to 10 digits."
fn number(field: &[u8]) -> Option<i64> {
    if field.is_empty() || field.len() > 10 || (field[0] == b'0' && field.len() > 1) {
        return None;
    }
    let mut value = 0;
    for byte in field {
        let digit = byte.wrapping_sub(b'0');
        if digit > 9 {
            return None;
        }
        value = value * 10 + i64::from(digit);
    }
    Some(value)
}

/// A length in tenths: 1 to 9 digits, which are whole milliseconds, and perhaps a point and a tenth.
fn tenths(field: &[u8]) -> Option<i64> {
    let point = field.iter().position(|byte| *byte == b'.').unwrap_or(field.len());
    let (whole, behind) = field.split_at(point);
    let tenth = match behind {
        [] => 0,
        [_, digit] if digit.is_ascii_digit() => i64::from(digit - b'0'),
        _ => return None,
    };
    if whole.len() > 9 {
        return None;
    }
    Some(number(whole)? * 10 + tenth)
}

/// "An instant may carry a minus", never where it is zero.
fn instant(field: &[u8]) -> Option<i64> {
    match field.strip_prefix(b"-") {
        None => tenths(field),
        Some(digits) => tenths(digits).filter(|tenths| *tenths != 0).map(|tenths| -tenths),
    }
}
