//! The merged log by the words of document 01 and requests N6 and N11: events and instants are put into sets, and what
//! is printed is these in order. Nothing of it is shared with the plain merge program.

use crate::by_words;
use std::collections::BTreeSet;

/// What a log's file has; none where it cannot be opened.
pub type Log = Option<Vec<u8>>;
/// The first log and the second.
pub type Pair = [Log; 2];

const RANGE: std::ops::RangeInclusive<i64> = -1_000_000_000..=1_000_000_000;

/// A refusal's number and the line of its own log, counted from 1.
#[derive(Clone, Copy, Debug, PartialEq)]
pub struct Refused {
    pub number: u32,
    pub line: usize,
}

impl Refused {
    /// "A refusal prints only the `refused` line."
    pub fn text(&self) -> Vec<u8> {
        format!("refused\t{}\t{}\n", self.number, self.line).into_bytes()
    }
}

/// A sound log: instants are in tenths, events in their order.
#[derive(Clone)]
pub struct Read {
    pub opening: i64,
    pub events: Vec<(i64, u8)>,
    pub marks: BTreeSet<i64>,
}

impl Read {
    /// The instant at which an event would be that came next.
    pub fn open_instant(&self) -> i64 {
        self.marks.last().copied().unwrap_or(self.opening)
    }
}

/// What is printed for two logs.
pub fn merge(pair: &Pair) -> Vec<u8> {
    match read_both(pair) {
        Ok(logs) => merged(&logs),
        Err(refused) => refused.text(),
    }
}

/// "The first log is checked wholly before the second"; "18 opening instants that differ, checked after all lines"; its
/// line is "1 for 18".
pub fn read_both([first, second]: &Pair) -> Result<[Read; 2], Refused> {
    let logs = [read(first)?, read(second)?];
    if logs[0].opening != logs[1].opening {
        return Err(Refused { number: 18, line: 1 });
    }
    Ok(logs)
}

/// "Instants ascending, each event at its own instant, at equal instants the first log's events before the second's,
/// each log's own order preserved": so are instant, log, place and code in order. "Every instant after the opening with
/// an event or a mark in either log gets one mark."
pub fn merged(logs: &[Read; 2]) -> Vec<u8> {
    let opening = logs[0].opening;
    let events = events_of(logs);
    let marks = logs.iter().flat_map(|log| log.marks.iter().copied());
    let instants: BTreeSet<i64> = marks.chain(events.iter().map(|event| event.0)).chain([opening]).collect();
    let mut text = String::new();
    for instant in instants {
        let word = if instant == opening { "open" } else { "clock" };
        text += &format!("{word}\t{}\n", by_words::spelled(instant as i32));
        for (.., code) in events.range((instant, 0, 0, 0)..(instant + 1, 0, 0, 0)) {
            text += &format!("event\t{code}\n");
        }
    }
    text.into_bytes()
}

/// The events of both logs: the instant of each, its log, its place there and its code.
pub fn events_of(logs: &[Read; 2]) -> BTreeSet<(i64, usize, usize, u8)> {
    let of_log = |(log, read): (usize, &Read)| -> Vec<_> {
        let events = read.events.iter().enumerate();
        events.map(|(place, (instant, code))| (*instant, log, place, *code)).collect()
    };
    logs.iter().enumerate().flat_map(of_log).collect()
}

/// A log, or the refusal of its first line that is not sound: "each for 7, 17 and 8 alone; a file that can't be opened
/// counts as empty".
pub fn read(log: &Log) -> Result<Read, Refused> {
    let text = log.as_deref().unwrap_or_default();
    let mut lines = (1..).zip(text.split_inclusive(|byte| *byte == b'\n'));
    let first = lines.next().and_then(|(_, text)| line(text));
    let opening = opening(first).map_err(|number| Refused { number, line: 1 })?;
    let mut read = Read { opening, events: vec![], marks: BTreeSet::new() };
    let mut instant = opening;
    for (place, text) in lines {
        match later(line(text), instant).map_err(|number| Refused { number, line: place })? {
            Taken::Event(code) => read.events.push((instant, code)),
            Taken::Mark(mark) => {
                instant = mark;
                read.marks.insert(mark);
            }
        }
    }
    Ok(read)
}

/// The instant of the first line: 7 where it is no `open`, 8 where the instant is out of range.
fn opening(line: Option<Line>) -> Result<i64, u32> {
    match line {
        Some(Line::Open(instant)) if RANGE.contains(&instant) => Ok(instant),
        Some(Line::Open(_)) => Err(8),
        _ => Err(7),
    }
}

/// What a later line is taken for.
enum Taken {
    Event(u8),
    Mark(i64),
}

/// "17 a line that is a forget, in each line after 7 and before 8."
fn later(line: Option<Line>, instant: i64) -> Result<Taken, u32> {
    match line {
        None | Some(Line::Open(_)) => Err(7),
        Some(Line::Forget) => Err(17),
        Some(Line::Clock(mark)) if !RANGE.contains(&mark) || mark <= instant => Err(8),
        Some(Line::Clock(mark)) => Ok(Taken::Mark(mark)),
        Some(Line::Event(code)) => Ok(Taken::Event(code)),
    }
}

enum Line {
    Open(i64),
    Event(u8),
    Clock(i64),
    Forget,
}

/// "Log lines: `open` instant (first line only), `event` code, `clock` instant, `forget` instant", "parted by one tab,
/// each line ended by byte 10 and at most 64 bytes with it".
fn line(text: &[u8]) -> Option<Line> {
    let line = std::str::from_utf8(text).ok().filter(|text| text.len() <= 64)?;
    let (word, field) = line.strip_suffix('\n')?.split_once('\t')?;
    let instant = || by_words::instant(field.as_bytes());
    match word {
        "open" => instant().map(Line::Open),
        "event" => code(field).map(Line::Event),
        "clock" => instant().map(Line::Clock),
        "forget" => instant().map(|_| Line::Forget),
        _ => None,
    }
}

/// A code is 0 to 255 and has one spelling, that without a leading zero.
fn code(field: &str) -> Option<u8> {
    field.parse().ok().filter(|code: &u8| code.to_string() == field)
}
