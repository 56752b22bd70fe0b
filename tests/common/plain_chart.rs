//! A plain chart reader, written from document 01 and the requests alone: what the proved one is compared with.

use crate::paper::{fields, length, lines, number};

pub const MOST_ENTRIES: usize = 32;
const GREATEST_CODE: u64 = 255;
/// In tenths of a millisecond.
const GREATEST_LENGTH: u64 = 2_000_000_000;

/// The operators that pair rows by a condition on both intervals.
#[derive(Clone, Copy, Debug, PartialEq)]
pub enum Relation {
    Seq,
    And,
    Meets,
    Overlaps,
    Starts,
    During,
    Finishes,
    Equals,
}

/// The operators that pair r with the first rows s behind it; of `change`, r is also the last before s.
#[derive(Clone, Copy, Debug, PartialEq)]
pub enum Nearest {
    Cut,
    Change,
}

/// An edge of an absence: a closed one forbids at the very instant too.
#[derive(Clone, Copy, Debug, PartialEq)]
pub enum Edge {
    Closed,
    Open,
}

#[derive(Clone, Copy, Debug, PartialEq)]
pub enum LengthTest {
    Lasts,
    AtMost,
    AtLeast,
}

#[derive(Clone, Copy, Debug, PartialEq)]
pub enum Operator {
    Event,
    Or,
    Pair(Relation),
    /// The early edge, then the late one.
    Absence(Edge, Edge),
    Length(LengthTest),
    After,
    Nearest(Nearest),
}

/// An entry: `first` is the code or the operand a, `second` the operand b or the length d in tenths, 0 for `event`.
#[derive(Clone, Copy, Debug, PartialEq)]
pub struct Entry {
    pub operator: Operator,
    pub first: u64,
    pub second: u64,
}

/// What a check of a chart answers: the refusal's number and the line counted from 1, both 0 for a chart taken.
#[repr(C)]
#[derive(Clone, Copy, Debug, PartialEq)]
pub struct Verdict {
    pub refusal: u32,
    pub line: u32,
}

pub const TAKEN: Verdict = Verdict { refusal: 0, line: 0 };

/// Every operator word, in the order of document 01's table; those of requests N1 and N5 stand behind them.
pub const WORDS: [&str; 20] = [
    "event", "seq", "or", "and", "-[]", "-][", "-[[", "-]]", "meets", "overlaps", "starts", "during", "finishes",
    "equals", "lasts", "atmost", "atleast", "after", "cut", "change",
];

/// "In the four absences the first sign is the early edge and the second the late one": an early `[` and a late `]` are
/// closed.
pub fn operator(word: &[u8]) -> Option<Operator> {
    Some(match word {
        b"event" => Operator::Event,
        b"seq" => Operator::Pair(Relation::Seq),
        b"or" => Operator::Or,
        b"and" => Operator::Pair(Relation::And),
        b"-[]" => Operator::Absence(Edge::Closed, Edge::Closed),
        b"-][" => Operator::Absence(Edge::Open, Edge::Open),
        b"-[[" => Operator::Absence(Edge::Closed, Edge::Open),
        b"-]]" => Operator::Absence(Edge::Open, Edge::Closed),
        b"meets" => Operator::Pair(Relation::Meets),
        b"overlaps" => Operator::Pair(Relation::Overlaps),
        b"starts" => Operator::Pair(Relation::Starts),
        b"during" => Operator::Pair(Relation::During),
        b"finishes" => Operator::Pair(Relation::Finishes),
        b"equals" => Operator::Pair(Relation::Equals),
        b"lasts" => Operator::Length(LengthTest::Lasts),
        b"atmost" => Operator::Length(LengthTest::AtMost),
        b"atleast" => Operator::Length(LengthTest::AtLeast),
        b"after" => Operator::After,
        b"cut" => Operator::Nearest(Nearest::Cut),
        b"change" => Operator::Nearest(Nearest::Change),
        _ => return None,
    })
}

/// A line of the right form: the entry number and the entry, whatever the numbers are.
pub fn record(line: &[u8]) -> Option<(u64, Entry)> {
    let mut fields = fields(line)?;
    let entry_number = number(fields.next()?)?;
    let operator = operator(fields.next()?)?;
    let first = number(fields.next()?)?;
    let second = match operator {
        Operator::Event => 0,
        Operator::Length(_) | Operator::After => length(fields.next()?)?,
        _ => number(fields.next()?)?,
    };
    let entry = Entry { operator, first, second };
    fields.next().is_none().then_some((entry_number, entry))
}

/// Refusal 6: "code or length out of range".
pub fn is_in_range(entry: &Entry) -> bool {
    match entry.operator {
        Operator::Event => entry.first <= GREATEST_CODE,
        Operator::Length(_) | Operator::After => entry.second <= GREATEST_LENGTH,
        _ => true,
    }
}

/// Refusal 5: "operand not lower" than the entry `index`.
pub fn has_lower_operands(entry: &Entry, index: u64) -> bool {
    match entry.operator {
        Operator::Event => true,
        Operator::Length(_) | Operator::After => entry.first < index,
        _ => entry.first < index && entry.second < index,
    }
}

/// The entry of a line, or the refusal's number: "in a line 2, 3, 4, 6, 5".
fn entry_of(line: &[u8], index: usize) -> Result<Entry, u32> {
    if index >= MOST_ENTRIES {
        return Err(2);
    }
    let (entry_number, entry) = record(line).ok_or(3u32)?;
    if entry_number != index as u64 {
        return Err(4);
    }
    if !is_in_range(&entry) {
        return Err(6);
    }
    if !has_lower_operands(&entry, index as u64) {
        return Err(5);
    }
    Ok(entry)
}

/// The entries of a chart, or why it is refused: "lines from the first".
pub fn read(bytes: &[u8]) -> Result<Vec<Entry>, Verdict> {
    read_more(0, bytes)
}

/// The entries of lines that are added to a chart of so many, "numbered on from the last entry", or why they are
/// refused: "the chart reader's number and line, counted from the first added line, 2 now being a 33rd entry".
pub fn read_more(before: usize, bytes: &[u8]) -> Result<Vec<Entry>, Verdict> {
    let mut entries = Vec::with_capacity(MOST_ENTRIES);
    for (place, line) in lines(bytes).enumerate() {
        let entry = entry_of(line, before + place).map_err(|refusal| Verdict { refusal, line: place as u32 + 1 })?;
        entries.push(entry);
    }
    if entries.is_empty() {
        return Err(Verdict { refusal: 1, line: 1 });
    }
    Ok(entries)
}

/// What `chronicle_check_chart` must answer.
pub fn check(bytes: &[u8]) -> Verdict {
    read(bytes).err().unwrap_or(TAKEN)
}
