//! Logs of many lines from a seed, written out as they are drawn.

use common::paper::any_spelling;
use common::random::Random;
use std::io::{self, Write};
use std::ops::RangeInclusive;

/// The opening of all of them, in tenths: logs of some hundred megabytes stay in range.
const OPENING: i64 = -1_000_000_000;

pub struct Shape {
    /// How long the log is, to a line.
    pub bytes: usize,
    pub events_a_mark: RangeInclusive<usize>,
    /// Tenths between two marks.
    pub step: RangeInclusive<usize>,
}

impl Shape {
    /// Writes such a log.
    pub fn write(&self, random: &mut Random, mut out: impl Write) -> io::Result<()> {
        let mut text = format!("open\t{}\n", any_spelling(random, OPENING));
        let (mut left, mut instant) = (self.bytes, OPENING);
        while text.len() < left {
            left -= text.len();
            out.write_all(text.as_bytes())?;
            instant += between(random, &self.step) as i64;
            text = format!("clock\t{}\n", any_spelling(random, instant));
            for _ in 0..between(random, &self.events_a_mark) {
                text += &format!("event\t{}\n", random.below(256));
            }
        }
        Ok(())
    }
}

fn between(random: &mut Random, range: &RangeInclusive<usize>) -> usize {
    range.start() + random.below(range.end() - range.start() + 1)
}
