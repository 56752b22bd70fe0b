//! The lines of a log, read in chunks into one buffer and taken apart where they lie in it. No more of a line is looked
//! at than a sound one has.

use std::io::{self, Read};

pub const CHUNK: usize = 1 << 16;
/// "Each line ended by byte 10 and at most 64 bytes with it."
const LONGEST_LINE: usize = 64;
/// "1 to 9 digits of an instant or length stand before the point, or alone."
const MOST_DIGITS: usize = 9;

/// What a line is; instants are in tenths.
pub enum Line {
    Open(i64),
    Event,
    Clock(i64),
    Forget,
    Malformed,
    End,
}

pub struct LogReader<R> {
    source: R,
    buffer: Box<[u8]>,
    /// Where the last line begins, where what was not yet handed out begins and where it ends.
    line: usize,
    start: usize,
    end: usize,
    is_at_end: bool,
    /// The bytes of all lines that were handed out.
    bytes: u64,
}

impl<R: Read> LogReader<R> {
    pub fn new(source: R) -> LogReader<R> {
        LogReader { source, buffer: vec![0; CHUNK].into(), line: 0, start: 0, end: 0, is_at_end: false, bytes: 0 }
    }

    /// The next line. After one that is malformed no more are to be asked for.
    #[inline]
    pub fn next_line(&mut self) -> io::Result<Line> {
        while self.end - self.start < LONGEST_LINE && !self.is_at_end {
            self.refill()?;
        }
        let text = &self.buffer[self.start..self.end];
        if text.is_empty() {
            return Ok(Line::End);
        }
        let Some((line, length)) = record(text) else { return Ok(Line::Malformed) };
        self.line = self.start;
        self.start += length;
        self.bytes += length as u64;
        Ok(line)
    }

    /// The last line that was sound, with its byte 10.
    #[inline]
    pub fn text(&self) -> &[u8] {
        &self.buffer[self.line..self.start]
    }

    pub fn bytes(&self) -> u64 {
        self.bytes
    }

    fn refill(&mut self) -> io::Result<()> {
        self.buffer.copy_within(self.start..self.end, 0);
        self.end -= self.start;
        self.start = 0;
        let read = match self.source.read(&mut self.buffer[self.end..]) {
            Err(error) if error.kind() == io::ErrorKind::Interrupted => return Ok(()),
            read => read?,
        };
        self.is_at_end = read == 0;
        self.end += read;
        Ok(())
    }
}

/// The line at the front of a text, and its length with its byte 10.
#[inline]
fn record(text: &[u8]) -> Option<(Line, usize)> {
    if let Some(field) = text.strip_prefix(b"event\t") {
        return Some((Line::Event, 6 + code(field)?));
    }
    if let Some(field) = text.strip_prefix(b"clock\t") {
        return instant(field).map(|(tenths, length)| (Line::Clock(tenths), 6 + length));
    }
    if let Some(field) = text.strip_prefix(b"forget\t") {
        return instant(field).map(|(_, length)| (Line::Forget, 7 + length));
    }
    let (tenths, length) = instant(text.strip_prefix(b"open\t")?)?;
    Some((Line::Open(tenths), 5 + length))
}

/// How long a code with its byte 10 is. More than three digits are above 255 or begin with a zero.
#[inline]
fn code(field: &[u8]) -> Option<usize> {
    match field {
        [b'0'..=b'9', b'\n', ..] => Some(2),
        [b'1'..=b'9', b'0'..=b'9', b'\n', ..] => Some(3),
        [b'1', b'0'..=b'9', b'0'..=b'9', b'\n', ..] => Some(4),
        [b'2', b'0'..=b'4', b'0'..=b'9', b'\n', ..] | [b'2', b'5', b'0'..=b'5', b'\n', ..] => Some(4),
        _ => None,
    }
}

/// An instant and how long it is with its byte 10: "a minus on the value zero stays malformed in every spelling".
#[inline]
fn instant(field: &[u8]) -> Option<(i64, usize)> {
    match field.strip_prefix(b"-") {
        None => tenths(field),
        Some(digits) => tenths(digits).filter(|(tenths, _)| *tenths != 0).map(|(tenths, length)| (-tenths, length + 1)),
    }
}

#[inline]
fn tenths(field: &[u8]) -> Option<(i64, usize)> {
    let (mut whole, mut count) = (0, 0);
    while let Some(digit @ b'0'..=b'9') = field.get(count).filter(|_| count <= MOST_DIGITS) {
        whole = whole * 10 + i64::from(digit - b'0');
        count += 1;
    }
    if count == 0 || count > MOST_DIGITS || (count > 1 && field[0] == b'0') {
        return None;
    }
    match field[count..] {
        [b'\n', ..] => Some((whole * 10, count + 1)),
        [b'.', digit @ b'0'..=b'9', b'\n', ..] => Some((whole * 10 + i64::from(digit - b'0'), count + 3)),
        _ => None,
    }
}
