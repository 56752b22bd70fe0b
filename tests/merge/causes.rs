//! What a log is refused for, told from the line that is refused.

use crate::by_sets::{read, Log, Refused};
use common::paper::{self, fields, lines};

const GREATEST: i64 = 1_000_000_000;
const LONGEST_LINE: usize = 64;

/// Those of 7, of 17 and of 8.
pub const CAUSES: [&str; 26] = [
    "no file",
    "empty log",
    "64 bytes",
    "too long",
    "byte 10 missing",
    "empty line",
    "carriage return",
    "forget first",
    "event or mark first",
    "open again",
    "code above 255",
    "ten digits",
    "leading zero",
    "minus zero",
    "point",
    "another form",
    "forget",
    "forget after the open instant",
    "forget out of range",
    "opening a tenth too far",
    "opening farther",
    "mark a tenth too far",
    "mark farther",
    "mark again",
    "mark again in another spelling",
    "mark before",
];

pub fn cause(log: &Log, refused: Refused) -> &'static str {
    let Some(text) = log else { return "no file" };
    let line = lines(text).nth(refused.line - 1).unwrap_or_default();
    let before: Vec<&[u8]> = lines(text).take(refused.line - 1).collect();
    match refused.number {
        7 => of_malformed(line, before.is_empty()),
        17 => of_forget(line, &before),
        _ => of_instant(line, &before),
    }
}

/// The two fields of a line; none where it has others.
fn two_fields(line: &[u8]) -> Option<(&[u8], &[u8])> {
    match fields(line)?.collect::<Vec<_>>()[..] {
        [word, field] => Some((word, field)),
        _ => None,
    }
}

fn of_malformed(line: &[u8], is_first: bool) -> &'static str {
    let of_line = [
        (line.is_empty(), "empty log"),
        (line.len() > LONGEST_LINE, "too long"),
        (line.len() == LONGEST_LINE, "64 bytes"),
        (!line.ends_with(b"\n"), "byte 10 missing"),
        (line == b"\n", "empty line"),
        (line.ends_with(b"\r\n"), "carriage return"),
    ];
    if let Some((_, cause)) = of_line.into_iter().find(|(is_cause, _)| *is_cause) {
        return cause;
    }
    match two_fields(line) {
        Some((b"forget", field)) if is_first && paper::instant(field).is_some() => "forget first",
        Some((b"event" | b"clock", field)) if is_first && paper::instant(field).is_some() => "event or mark first",
        Some((b"open", field)) if !is_first && paper::instant(field).is_some() => "open again",
        Some((b"event", field)) if paper::number(field).is_some() => "code above 255",
        Some((b"open" | b"event" | b"clock" | b"forget", field)) => of_field(field),
        _ => "another form",
    }
}

/// What is wrong with a malformed instant or code.
fn of_field(field: &[u8]) -> &'static str {
    let digits = field.strip_prefix(b"-").unwrap_or(field);
    let whole = digits.split(|byte| *byte == b'.').next().unwrap_or_default();
    let are_digits = !whole.is_empty() && whole.iter().all(u8::is_ascii_digit);
    if are_digits && whole.len() > 1 && whole[0] == b'0' {
        "leading zero"
    } else if are_digits && whole.len() > 9 {
        "ten digits"
    } else if digits != field && paper::length(digits) == Some(0) {
        "minus zero"
    } else if field.iter().any(|byte| b".,".contains(byte)) {
        "point"
    } else {
        "another form"
    }
}

/// The instant of a sound line.
fn tenths(line: &[u8]) -> i64 {
    two_fields(line).and_then(|(_, field)| paper::instant(field)).expect("the line is sound but for its instant")
}

/// The instant that the lines before reached.
fn reached(before: &[&[u8]]) -> i64 {
    read(&Some(before.concat())).map(|read| read.open_instant()).expect("the lines before a refused one are sound")
}

fn of_forget(line: &[u8], before: &[&[u8]]) -> &'static str {
    match tenths(line) {
        floor if floor.abs() > GREATEST => "forget out of range",
        floor if floor > reached(before) => "forget after the open instant",
        _ => "forget",
    }
}

/// An opening or a mark of 8.
fn of_instant(line: &[u8], before: &[&[u8]]) -> &'static str {
    let beyond = tenths(line).abs() - GREATEST;
    match (beyond, before.is_empty()) {
        (1, true) => "opening a tenth too far",
        (2.., true) => "opening farther",
        (1, false) => "mark a tenth too far",
        (2.., false) => "mark farther",
        _ if tenths(line) < reached(before) => "mark before",
        _ if last_spelling(before) == two_fields(line).map(|(_, field)| field) => "mark again",
        _ => "mark again in another spelling",
    }
}

/// How the instant reached is spelled.
fn last_spelling<'a>(before: &[&'a [u8]]) -> Option<&'a [u8]> {
    let marked = before.iter().rev().filter_map(|line| two_fields(line)).find(|(word, _)| *word != b"event");
    marked.map(|(_, field)| field)
}
