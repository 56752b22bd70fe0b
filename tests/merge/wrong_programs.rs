//! Merge programs that are wrong on purpose in what they merge and print; those of `wrong_checks` are wrong in what
//! they turn away. The comparison must find each of them, or it could not find a fault in the proved one.

use crate::by_sets::{events_of, merge, merged, read_both, Pair, Read};
use crate::by_words::{instant, spelled};
use crate::wrong_checks;
use common::harness::Named;
use std::collections::BTreeSet;

/// What a merge program prints for two logs.
pub type Merge = fn(&Pair) -> Vec<u8>;

pub fn all() -> Vec<Named<Merge>> {
    [&ORDERS[..], &MARKS, &TEXTS, &wrong_checks::NUMBERS, &wrong_checks::LINES].concat()
}

/// Right ones: two programs, and what the wrong ones are made of, without a fault.
pub const RIGHT: [Named<Merge>; 6] = [
    ("by sets", merge),
    ("the plain program", plain),
    ("events in order", |pair| in_order(pair, |(instant, log, place, _)| (*instant, *log, *place))),
    ("lines as they are printed", |pair| with_lines(pair, |_, word, field| format!("{word}\t{field}\n"))),
    ("marks in order", |pair| of_groups(pair, |a, b| instant(a.as_bytes()).cmp(&instant(b.as_bytes())))),
    ("logs as they are read", |pair| merge(&wrong_checks::unchanged(pair))),
];

const ORDERS: [Named<Merge>; 12] = [
    ("the second's events first", |pair| in_order(pair, |(instant, log, place, _)| (*instant, 1 - log, *place))),
    ("the second's events first but at the opening", |pair| of_merged(pair, second_first_at_marks)),
    ("a log's events turned round", |pair| in_order(pair, |(instant, log, place, _)| (*instant, *log, !place))),
    ("events of both in turns", |pair| in_order(pair, |(instant, log, place, _)| (*instant, *place, *log))),
    ("events by code", |pair| in_order(pair, |(instant, _, _, code)| (*instant, (*code).into(), 0))),
    ("an event of both printed once", |pair| of_merged(pair, drop_doubles)),
    ("the second's events lost at an instant of both", |pair| of_merged(pair, drop_events_at_ties)),
    ("the second's events lost at the opening", |pair| of_merged(pair, drop_events_at_opening)),
    ("events behind the first's last mark lost", |pair| of_merged(pair, |both| drop_events_at_end(both, 0))),
    ("events behind the second's last mark lost", |pair| of_merged(pair, |both| drop_events_at_end(both, 1))),
    ("the second log behind the first", |pair| of_merged(pair, second_behind_first)),
    ("a log's events at the other's open instant", |pair| of_merged(pair, |both| at_marks_of(both, 0, false))),
];

const MARKS: [Named<Merge>; 12] = [
    ("two marks for an instant of both", |pair| with_lines(pair, two_marks_at_ties)),
    ("marks without events dropped", |pair| of_merged(pair, |both| drop_idle_marks(both, |_, _| true))),
    ("marks of the first without events dropped", |pair| of_merged(pair, |both| drop_idle_marks(both, is_first_alone))),
    ("marks of the second without events dropped", |pair| {
        of_merged(pair, |both| drop_idle_marks(both, is_second_alone))
    }),
    ("marks of both without events dropped", |pair| of_merged(pair, |both| drop_idle_marks(both, is_of_both))),
    ("a last mark without events dropped", |pair| of_merged(pair, |both| drop_idle_marks(both, is_last))),
    ("marks of the second alone dropped", |pair| of_merged(pair, |both| at_marks_of(both, 0, true))),
    ("marks of the first alone dropped", |pair| of_merged(pair, |both| at_marks_of(both, 1, true))),
    ("merged to the first's end", |pair| of_merged(pair, |both| up_to(both, both.logs[0].open_instant()))),
    ("merged to the second's end", |pair| of_merged(pair, |both| up_to(both, both.logs[1].open_instant()))),
    ("the opening marked", |pair| with_lines(pair, opening_marked)),
    ("both openings printed", |pair| with_lines(pair, two_openings)),
];

const TEXTS: [Named<Merge>; 12] = [
    ("instants in the order of their text", |pair| of_groups(pair, |a, b| a.cmp(b))),
    ("instants in the order of their size", |pair| of_groups(pair, |a, b| size(a).cmp(&size(b)))),
    ("instants spelled as they are read", spelled_as_read),
    ("a tenth of 0 not printed", |pair| with_text(pair, |text| text.replace(".0\n", "\n"))),
    ("instants printed in tenths", |pair| with_text(pair, |text| text.replace('.', ""))),
    ("sign lost", |pair| with_text(pair, |text| text.replace('-', ""))),
    ("-0.5 printed as 0.5", |pair| with_text(pair, |text| text.replace("\t-0.", "\t0."))),
    ("-2.5 printed as -3.5", |pair| with_lines(pair, rounded_down)),
    ("no byte 10 at the end", |pair| with_text(pair, |text| text.trim_end().to_string())),
    ("an empty line at the end", |pair| with_text(pair, |text| text.to_string() + "\n")),
    ("nothing merged", |pair| with_text(pair, |_| String::new())),
    ("a code's third digit lost", |pair| with_lines(pair, third_digit_lost)),
];

/// The plain program on logs in memory.
fn plain(pair: &Pair) -> Vec<u8> {
    let mut out = Vec::new();
    let open = |log: usize| pair[log].as_deref().ok_or(std::io::ErrorKind::NotFound.into());
    match plain_merge::merge(open, &mut out) {
        Ok(()) => out,
        Err(failure) => failure.to_string().into_bytes(),
    }
}

/// An event: its instant, its log, its place there and its code.
type Event = (i64, usize, usize, u8);

/// What is to be printed, any part of which a careless program may get wrong.
struct Both {
    logs: [Read; 2],
    instants: BTreeSet<i64>,
    events: Vec<Event>,
}

impl Both {
    fn of(logs: [Read; 2]) -> Both {
        let marks = logs.iter().flat_map(|log| log.marks.iter().copied());
        let instants = marks.chain([logs[0].opening]).collect();
        Both { instants, events: events_of(&logs).into_iter().collect(), logs }
    }

    fn opening(&self) -> i64 {
        self.logs[0].opening
    }

    /// Events at an instant that is not among those printed are lost.
    fn text(&self) -> Vec<u8> {
        let mut text = String::new();
        for instant in &self.instants {
            let word = if *instant == self.opening() { "open" } else { "clock" };
            text += &format!("{word}\t{}\n", spelled(*instant as i32));
            let events = self.events.iter().filter(|event| event.0 == *instant);
            events.for_each(|(.., code)| text += &format!("event\t{code}\n"));
        }
        text.into_bytes()
    }
}

/// The right refusal, or the right output but for what `change` makes of it before it is printed.
fn of_merged(pair: &Pair, change: impl FnOnce(&mut Both)) -> Vec<u8> {
    match read_both(pair) {
        Ok(logs) => {
            let mut both = Both::of(logs);
            change(&mut both);
            both.text()
        }
        Err(refused) => refused.text(),
    }
}

fn in_order(pair: &Pair, key: fn(&Event) -> (i64, usize, usize)) -> Vec<u8> {
    of_merged(pair, |both| both.events.sort_by_key(key))
}

/// The same for what `change` makes of the text.
fn with_text(pair: &Pair, change: impl FnOnce(&str) -> String) -> Vec<u8> {
    match read_both(pair) {
        Ok(logs) => change(&String::from_utf8(merged(&logs)).expect("a log is ASCII")).into_bytes(),
        Err(refused) => refused.text(),
    }
}

/// The same for what it makes of each line's word and field, by the two logs.
fn with_lines(pair: &Pair, change: fn(&[Read; 2], &str, &str) -> String) -> Vec<u8> {
    let Ok(logs) = read_both(pair) else { return with_text(pair, str::to_string) };
    with_text(pair, |text| {
        let changed = |line: &str| line.split_once('\t').map(|(word, field)| change(&logs, word, field));
        text.lines().filter_map(changed).collect()
    })
}

// What a careless program does to events.

fn second_first_at_marks(both: &mut Both) {
    let opening = both.opening();
    let rank = |instant, log| if instant == opening { log } else { 1 - log };
    both.events.sort_by_key(|(instant, log, place, _)| (*instant, rank(*instant, *log), *place));
}

fn drop_doubles(both: &mut Both) {
    let first = both.logs[0].events.clone();
    both.events.retain(|(instant, log, _, code)| *log == 0 || !first.contains(&(*instant, *code)));
}

fn drop_events_at_ties(both: &mut Both) {
    let first = both.logs[0].marks.clone();
    both.events.retain(|(instant, log, ..)| *log == 0 || !first.contains(instant));
}

fn drop_events_at_opening(both: &mut Both) {
    let opening = both.opening();
    both.events.retain(|(instant, log, ..)| *log == 0 || *instant != opening);
}

fn drop_events_at_end(both: &mut Both, log: usize) {
    let end = both.logs[log].open_instant();
    both.events.retain(|(instant, of, ..)| *of != log || *instant != end);
}

fn second_behind_first(both: &mut Both) {
    let end = both.logs[0].open_instant();
    both.events.iter_mut().filter(|(_, log, ..)| *log == 1).for_each(|event| event.0 = event.0.max(end));
}

/// The other log's events at the last mark of this one, and perhaps no other marks.
fn at_marks_of(both: &mut Both, log: usize, are_alone: bool) {
    let instants: BTreeSet<i64> = both.logs[log].marks.iter().copied().chain([both.opening()]).collect();
    for event in &mut both.events {
        event.0 = *instants.range(..=event.0).next_back().expect("the opening is before all events");
    }
    both.events.sort();
    if are_alone {
        both.instants = instants;
    }
}

// What it does to marks.

/// Whether a mark is such a one.
type IsSuch = fn(&[Read; 2], i64) -> bool;

fn drop_idle_marks(both: &mut Both, is_such: IsSuch) {
    let (opening, events) = (both.opening(), &both.events);
    let is_idle = |instant: i64| instant != opening && !events.iter().any(|event| event.0 == instant);
    both.instants.retain(|instant| !is_idle(*instant) || !is_such(&both.logs, *instant));
}

fn is_first_alone(logs: &[Read; 2], mark: i64) -> bool {
    !logs[1].marks.contains(&mark)
}

fn is_second_alone(logs: &[Read; 2], mark: i64) -> bool {
    !logs[0].marks.contains(&mark)
}

fn is_of_both(logs: &[Read; 2], mark: i64) -> bool {
    !is_first_alone(logs, mark) && !is_second_alone(logs, mark)
}

fn is_last(logs: &[Read; 2], mark: i64) -> bool {
    logs.iter().all(|log| log.open_instant() <= mark)
}

fn up_to(both: &mut Both, end: i64) {
    both.instants.retain(|instant| *instant <= end);
}

fn two_marks_at_ties(logs: &[Read; 2], word: &str, field: &str) -> String {
    let is_tie = word == "clock" && instant(field.as_bytes()).is_some_and(|mark| is_of_both(logs, mark));
    format!("{word}\t{field}\n").repeat(1 + usize::from(is_tie))
}

fn opening_marked(_: &[Read; 2], word: &str, field: &str) -> String {
    let mark = if word == "open" { format!("clock\t{field}\n") } else { String::new() };
    format!("{word}\t{field}\n{mark}")
}

fn two_openings(_: &[Read; 2], word: &str, field: &str) -> String {
    format!("{word}\t{field}\n").repeat(1 + usize::from(word == "open"))
}

// What it does to the text.

/// The marks in another order, each with its events.
fn of_groups(pair: &Pair, order: fn(&str, &str) -> std::cmp::Ordering) -> Vec<u8> {
    with_text(pair, |text| {
        let mut groups: Vec<&str> = text.split("clock\t").collect();
        groups[1..].sort_by(|a, b| order(a.split('\n').next().unwrap(), b.split('\n').next().unwrap()));
        groups.join("clock\t")
    })
}

/// An instant without its sign.
fn size(field: &str) -> i64 {
    instant(field.as_bytes()).map_or(0, i64::abs)
}

/// Instants as the first log spells them, or the second where that does not have them.
fn spelled_as_read(pair: &Pair) -> Vec<u8> {
    let logs = pair.iter().flatten().map(|text| String::from_utf8_lossy(text));
    let lines: Vec<String> = logs.flat_map(|text| text.lines().map(str::to_string).collect::<Vec<_>>()).collect();
    with_text(pair, |text| {
        let same = |line: &str| {
            let has = |other: &&String| other.as_str() == line || format!("{other}.0") == line;
            lines.iter().find(has).map_or(line.to_string(), String::clone) + "\n"
        };
        text.lines().map(same).collect()
    })
}

/// The whole part rounded down and not towards 0.
fn rounded_down(_: &[Read; 2], word: &str, field: &str) -> String {
    match instant(field.as_bytes()).filter(|_| word != "event") {
        Some(tenths) => format!("{word}\t{}.{}\n", tenths.div_euclid(10), tenths.abs() % 10),
        None => format!("{word}\t{field}\n"),
    }
}

fn third_digit_lost(_: &[Read; 2], word: &str, field: &str) -> String {
    let length = if word == "event" { field.len().min(2) } else { field.len() };
    format!("{word}\t{}\n", &field[..length])
}
