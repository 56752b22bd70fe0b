//! The lines of a source, read in chunks into one buffer. No more of a line is kept than a sound one has.

use std::io::{self, Read};

const CHUNK: usize = 1 << 16;
/// "Each line ended by byte 10 and at most 64 bytes with it."
const LONGEST_LINE: usize = 64;

pub struct LineReader<R> {
    source: R,
    buffer: Box<[u8]>,
    /// What was read and not yet handed out.
    start: usize,
    end: usize,
    is_at_end: bool,
}

impl<R: Read> LineReader<R> {
    pub fn new(source: R) -> LineReader<R> {
        LineReader { source, buffer: vec![0; CHUNK].into(), start: 0, end: 0, is_at_end: false }
    }

    /// The next line with its byte 10; empty at the end of the input. A line that ends without byte 10 lacks it, and so
    /// does the beginning of a line that is too long, after which no more lines are to be asked for.
    #[inline]
    pub fn next_line(&mut self) -> io::Result<&[u8]> {
        loop {
            let longest = (self.end - self.start).min(LONGEST_LINE);
            let found = self.buffer[self.start..][..longest].iter().position(|byte| *byte == b'\n');
            if found.is_none() && longest < LONGEST_LINE && !self.is_at_end {
                self.refill()?;
                continue;
            }
            let length = found.map_or(longest, |place| place + 1);
            let first = self.start;
            self.start += length;
            return Ok(&self.buffer[first..first + length]);
        }
    }

    fn refill(&mut self) -> io::Result<()> {
        self.buffer.copy_within(self.start..self.end, 0);
        self.end -= self.start;
        self.start = 0;
        let read = match self.source.read(&mut self.buffer[self.end..]) {
            Err(error) if error.kind() == io::ErrorKind::Interrupted => return Ok(()),
            read => read?,
        };
        self.is_at_end = read == 0;
        self.end += read;
        Ok(())
    }
}
