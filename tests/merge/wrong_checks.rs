//! Merge programs that are wrong on purpose in what they turn away, with which number and at which line.

use crate::by_sets::{events_of, merge, merged, read, read_both, Log, Pair, Read, Refused};
use crate::by_words::instant;
use crate::wrong_programs::Merge;
use common::careless::{with_last_byte, without_carriage_returns};
use common::harness::Named;
use common::paper::lines;

const GREATEST: i64 = 1_000_000_000;
const MOST_EVENTS: usize = 64;

/// In the order of the logs, in numbers and lines.
pub const NUMBERS: [Named<Merge>; 16] = [
    ("the second log checked first", second_checked_first),
    ("the refusal of the earlier line", earlier_line_first),
    ("18 before the second log's lines", |pair| differing_before(pair, |[first, _]| read(first).is_ok())),
    ("18 before all lines", |pair| differing_before(pair, |_| true)),
    ("18 never given", |pair| for_18(pair, |_, _| true)),
    ("openings compared as text", openings_as_text),
    ("openings compared without their tenth", |pair| for_18(pair, |first, second| first / 10 == second / 10)),
    ("openings compared without their sign", |pair| for_18(pair, |first, second| first == -second)),
    ("18 at line 2", |pair| renumbered(pair, |number, line| (number, if number == 18 { 2 } else { line }))),
    ("lines counted over both logs", counted_over_both),
    ("lines counted from 0", |pair| renumbered(pair, |number, line| (number, line - 1))),
    ("lines counted behind the opening", |pair| renumbered(pair, |number, line| (number, line.max(2) - 1))),
    ("7 for every refusal", |pair| renumbered(pair, |_, line| (7, line))),
    ("a forget refused with 7", |pair| renumbered(pair, |number, line| (if number == 17 { 7 } else { number }, line))),
    ("what comes before a refused line printed", before_refused),
    ("everything refused", |_| refused(7, 1)),
];

/// In single lines.
pub const LINES: [Named<Merge>; 29] = [
    ("forgets left out", |pair| merge(&with_lines(pair, |line, is_first| is_first || !is_forget(line)))),
    ("a forget out of range refused with 8", |pair| for_forget(pair, |tenths, _| tenths.abs() > GREATEST, 8)),
    ("a forget after the open instant refused with 11", |pair| for_forget(pair, |tenths, open| tenths > open, 11)),
    ("a malformed forget refused with 17", |pair| for_malformed(pair, |line, _| line.starts_with(b"forget\t"), 17)),
    ("a forget as first line refused with 17", |pair| {
        for_malformed(pair, |line, is_first| is_first && is_forget(line), 17)
    }),
    ("8 before 17 in a log", |pair| with_reader(pair, instants_first)),
    ("17 before 7 and 8 in a log", |pair| with_reader(pair, forgets_first)),
    ("9 at 65 events of a log", |pair| with_reader(pair, crowded)),
    ("9 at 65 events of both", crowded_together),
    ("a last line taken without byte 10", |pair| merge(&texts(pair, with_last_byte))),
    ("a last line without byte 10 left out", |pair| merge(&with_lines(pair, |line, _| line.ends_with(b"\n")))),
    ("carriage returns skipped", |pair| merge(&texts(pair, without_carriage_returns))),
    ("empty lines skipped", |pair| merge(&with_lines(pair, |line, _| line != b"\n"))),
    ("an opening again left out", |pair| {
        merge(&with_lines(pair, |line, is_first| is_first || !line.starts_with(b"open\t")))
    }),
    ("an empty log taken", |pair| absent_taken(pair, |log| log.as_ref().is_some_and(Vec::is_empty))),
    ("a missing file taken", |pair| absent_taken(pair, Option::is_none)),
    ("a missing file refused with 8", |pair| for_missing(pair, &refused(8, 1))),
    ("nothing printed for a missing file", |pair| for_missing(pair, b"")),
    ("a mark again left out", |pair| merge(&without_marks(pair, |mark, open| mark == open))),
    ("a mark before left out", |pair| merge(&without_marks(pair, |mark, open| mark < open))),
    ("an instant a tenth too far taken", |pair| merge(&with_instants(pair, tenth_too_far_taken))),
    ("an instant of nine digits refused with 7", |pair| {
        for_8(pair, |field| field.len() > 8 && !field.contains(&b'.'), 7)
    }),
    ("leading zeros of instants taken", |pair| merge(&with_instants(pair, without_zeros))),
    ("leading zeros of codes taken", |pair| merge(&with_codes(pair, without_zeros))),
    ("minus zero taken", |pair| merge(&with_instants(pair, without_minus_zero))),
    ("ten digits refused with 8", |pair| for_malformed(pair, |line, _| is_mark_of_ten_digits(line), 8)),
    ("a code above 255 refused with 8", |pair| for_malformed(pair, |line, _| line.starts_with(b"event\t"), 8)),
    ("codes cut to 8 bits", |pair| merge(&with_codes(pair, code_cut))),
    ("the tenth of an instant not read", |pair| merge(&with_instants(pair, without_tenth))),
];

fn refused(number: u32, line: usize) -> Vec<u8> {
    Refused { number, line }.text()
}

fn count(log: &Log) -> usize {
    log.as_deref().map_or(0, |text| lines(text).count())
}

/// A line of a log, counted from 1.
fn line_at(log: &Log, line: usize) -> &[u8] {
    log.as_deref().and_then(|text| lines(text).nth(line - 1)).unwrap_or_default()
}

/// The lines of a log before one.
fn before(log: &Log, line: usize) -> Log {
    log.as_deref().map(|text| lines(text).take(line - 1).collect::<Vec<_>>().concat())
}

/// The field of a line.
fn field(line: &[u8]) -> &[u8] {
    let line = line.strip_suffix(b"\n").unwrap_or(line);
    line.iter().position(|byte| *byte == b'\t').map_or(b"", |tab| &line[tab + 1..])
}

fn is_forget(line: &[u8]) -> bool {
    line.starts_with(b"forget\t") && line.ends_with(b"\n") && instant(field(line)).is_some()
}

/// The log that is refused by itself, and with what.
fn turned_away(pair: &Pair) -> Option<(&Log, Refused)> {
    pair.iter().find_map(|log| read(log).err().map(|refused| (log, refused)))
}

/// The right output, but for what `change` makes of a refusal.
fn renumbered(pair: &Pair, change: fn(u32, usize) -> (u32, usize)) -> Vec<u8> {
    match read_both(pair) {
        Ok(logs) => merged(&logs),
        Err(Refused { number, line }) => {
            let (number, line) = change(number, line);
            refused(number, line)
        }
    }
}

/// Another number where a log is refused with this one and at such a line.
fn with_number(pair: &Pair, number: u32, is_such: impl Fn(&Log, Refused) -> bool, other: u32) -> Vec<u8> {
    match turned_away(pair) {
        Some((log, refusal)) if refusal.number == number && is_such(log, refusal) => refused(other, refusal.line),
        _ => merge(pair),
    }
}

/// The same for 7, by the line and whether it is the first.
fn for_malformed(pair: &Pair, is_such: fn(&[u8], bool) -> bool, other: u32) -> Vec<u8> {
    with_number(pair, 7, |log, refusal| is_such(line_at(log, refusal.line), refusal.line == 1), other)
}

/// The same for 8, by the field.
fn for_8(pair: &Pair, is_such: fn(&[u8]) -> bool, other: u32) -> Vec<u8> {
    with_number(pair, 8, |log, refusal| is_such(field(line_at(log, refusal.line))), other)
}

/// The same for 17, by the instant of the forget and the open one.
fn for_forget(pair: &Pair, is_such: fn(i64, i64) -> bool, other: u32) -> Vec<u8> {
    let is_such = |log: &Log, refusal: Refused| {
        let read = read(&before(log, refusal.line)).ok();
        let forgotten = instant(field(line_at(log, refusal.line)));
        read.zip(forgotten).is_some_and(|(read, forgotten)| is_such(forgotten, read.open_instant()))
    };
    with_number(pair, 17, is_such, other)
}

/// The right output, but for what another reader makes of a log.
fn with_reader(pair: &Pair, reader: fn(&Log) -> Result<Read, Refused>) -> Vec<u8> {
    match pair.iter().find_map(|log| reader(log).err()) {
        Some(refused) => refused.text(),
        None => merge(pair),
    }
}

/// The right output for what `change` makes of the texts.
fn texts(pair: &Pair, change: impl Fn(&[u8]) -> Vec<u8>) -> Pair {
    pair.clone().map(|log| log.map(|text| change(&text)))
}

/// The lines that are kept, by whether they are the first.
fn with_lines(pair: &Pair, is_kept: fn(&[u8], bool) -> bool) -> Pair {
    texts(pair, |text| {
        let kept = lines(text).enumerate().filter(|(place, line)| is_kept(line, *place == 0));
        kept.flat_map(|(_, line)| line.to_vec()).collect()
    })
}

/// Other codes, or other instants.
fn with_fields(pair: &Pair, are_codes: bool, change: fn(&[u8]) -> Vec<u8>) -> Pair {
    let changed = |line: &[u8]| match line.strip_suffix(b"\n") {
        Some(text) if text.contains(&b'\t') && text.starts_with(b"event\t") == are_codes => {
            let word = &text[..text.len() - field(line).len()];
            [word, &change(field(line)), b"\n"].concat()
        }
        _ => line.to_vec(),
    };
    texts(pair, |text| lines(text).flat_map(changed).collect())
}

/// The same pair, as it is taken apart here.
pub fn unchanged(pair: &Pair) -> Pair {
    with_codes(&with_instants(&without_marks(pair, |_, _| false), <[u8]>::to_vec), <[u8]>::to_vec)
}

fn with_instants(pair: &Pair, change: fn(&[u8]) -> Vec<u8>) -> Pair {
    with_fields(pair, false, change)
}

fn with_codes(pair: &Pair, change: fn(&[u8]) -> Vec<u8>) -> Pair {
    with_fields(pair, true, change)
}

// The order of checks.

fn second_checked_first(pair: &Pair) -> Vec<u8> {
    match read(&pair[1]) {
        Ok(_) => merge(pair),
        Err(refused) => refused.text(),
    }
}

fn earlier_line_first(pair: &Pair) -> Vec<u8> {
    let earliest = pair.iter().filter_map(|log| read(log).err()).min_by_key(|refused| refused.line);
    earliest.map_or_else(|| merge(pair), |refused| refused.text())
}

/// 18 as soon as both openings are known, if it is asked for.
fn differing_before(pair: &Pair, is_asked: fn(&Pair) -> bool) -> Vec<u8> {
    let openings = pair.each_ref().map(|log| read(&before(log, 2)).ok().map(|read| read.opening));
    match openings {
        [Some(first), Some(second)] if first != second && is_asked(pair) => refused(18, 1),
        _ => merge(pair),
    }
}

/// Openings that differ, taken for one where they are such.
fn for_18(pair: &Pair, is_one: fn(i64, i64) -> bool) -> Vec<u8> {
    match (read(&pair[0]), read(&pair[1])) {
        (Ok(first), Ok(second)) if is_one(first.opening, second.opening) => merged(&[first, second]),
        _ => merge(pair),
    }
}

fn openings_as_text(pair: &Pair) -> Vec<u8> {
    if read_both(pair).is_ok() && line_at(&pair[0], 1) != line_at(&pair[1], 1) {
        return refused(18, 1);
    }
    merge(pair)
}

fn counted_over_both(pair: &Pair) -> Vec<u8> {
    match (read(&pair[0]), read(&pair[1])) {
        (Ok(_), Err(Refused { number, line })) => refused(number, count(&pair[0]) + line),
        _ => merge(pair),
    }
}

/// The merged log up to there, and then the refusal.
fn before_refused(pair: &Pair) -> Vec<u8> {
    let sound = pair.each_ref().map(|log| match read(log) {
        Ok(_) => log.clone(),
        Err(refused) => before(log, refused.line),
    });
    match read_both(&sound) {
        Ok(logs) if read_both(pair).is_err() => [merged(&logs), merge(pair)].concat(),
        _ => merge(pair),
    }
}

// Single lines.

/// Every mark of a log, and then its forgets.
fn instants_first(log: &Log) -> Result<Read, Refused> {
    let without_forgets = |text: &Vec<u8>| {
        let line = |line: &[u8]| if is_forget(line) { b"event\t0\n".to_vec() } else { line.to_vec() };
        let first = lines(text).next().unwrap_or_default();
        [first.to_vec(), lines(text).skip(1).flat_map(line).collect()].concat()
    };
    match read(&log.as_ref().map(without_forgets)) {
        Err(refused) if refused.number == 8 => Err(refused),
        _ => read(log),
    }
}

/// Its forgets, and then all else.
fn forgets_first(log: &Log) -> Result<Read, Refused> {
    let place = log.as_deref().and_then(|text| lines(text).skip(1).position(is_forget));
    place.map_or_else(|| read(log), |place| Err(Refused { number: 17, line: place + 2 }))
}

fn has_many(instants: impl Iterator<Item = i64>) -> bool {
    let instants: Vec<i64> = instants.collect();
    instants.windows(MOST_EVENTS + 1).any(|events| events[0] == events[MOST_EVENTS])
}

fn crowded(log: &Log) -> Result<Read, Refused> {
    read(log).and_then(|read| match has_many(read.events.iter().map(|event| event.0)) {
        true => Err(Refused { number: 9, line: MOST_EVENTS + 2 }),
        false => Ok(read),
    })
}

fn crowded_together(pair: &Pair) -> Vec<u8> {
    match read_both(pair) {
        Ok(logs) if has_many(events_of(&logs).iter().map(|event| event.0)) => refused(9, MOST_EVENTS + 2),
        _ => merge(pair),
    }
}

/// A log that is not there taken for the other's opening.
fn absent_taken(pair: &Pair, is_absent: fn(&Log) -> bool) -> Vec<u8> {
    let taken = |log: usize| match is_absent(&pair[log]) {
        true => Some(line_at(&pair[1 - log], 1).to_vec()),
        false => pair[log].clone(),
    };
    merge(&[taken(0), taken(1)])
}

fn for_missing(pair: &Pair, printed: &[u8]) -> Vec<u8> {
    match turned_away(pair) {
        Some((None, _)) => printed.to_vec(),
        _ => merge(pair),
    }
}

/// Marks left out by their instant and the open one.
fn without_marks(pair: &Pair, is_left_out: fn(i64, i64) -> bool) -> Pair {
    texts(pair, |text| {
        let mut open_instant = None;
        let mut is_kept = |line: &&[u8]| {
            let Some(tenths) = instant(field(line)).filter(|_| !line.starts_with(b"event\t")) else { return true };
            let is_kept = open_instant.is_none_or(|open| !is_left_out(tenths, open));
            open_instant = if is_kept { Some(tenths) } else { open_instant };
            is_kept
        };
        lines(text).filter(|line| is_kept(line)).flat_map(<[u8]>::to_vec).collect()
    })
}

fn is_mark_of_ten_digits(line: &[u8]) -> bool {
    let digits = field(line).strip_prefix(b"-").unwrap_or(field(line));
    line.starts_with(b"clock\t") && digits.len() == 10 && digits.iter().all(u8::is_ascii_digit)
}

// Single fields.

fn tenth_too_far_taken(field: &[u8]) -> Vec<u8> {
    match field.strip_suffix(b"100000000.1") {
        Some(sign) => [sign, b"100000000.0"].concat(),
        None => field.to_vec(),
    }
}

fn without_zeros(field: &[u8]) -> Vec<u8> {
    let (minus, mut digits) = field.split_at(usize::from(field.starts_with(b"-")));
    while matches!(digits, [b'0', b'0'..=b'9', ..]) {
        digits = &digits[1..];
    }
    [minus, digits].concat()
}

fn without_minus_zero(field: &[u8]) -> Vec<u8> {
    match field {
        b"-0" | b"-0.0" => b"0".to_vec(),
        _ => field.to_vec(),
    }
}

fn code_cut(field: &[u8]) -> Vec<u8> {
    match std::str::from_utf8(field).ok().and_then(|field| field.parse::<u64>().ok()) {
        Some(code) if field.len() <= 10 && code > 255 => (code % 256).to_string().into_bytes(),
        _ => field.to_vec(),
    }
}

fn without_tenth(field: &[u8]) -> Vec<u8> {
    match field {
        [whole @ .., b'.', b'0'..=b'9'] if whole != b"-0" => whole.to_vec(),
        _ => field.to_vec(),
    }
}
