//! What each call must answer, and what the table must hold after it, for any watch, chart and table, also for those
//! that no history made: refusals 14 and 13 first, then the step on the rows of the table, by set-building over row
//! numbers.

use crate::conditions::{has_length, is_forbidding, is_related, is_rival_of_first, is_rival_of_second, Interval};
use crate::consistency;
use crate::layout::{self, flat, rows_held, rows_in_use};
use crate::model::{Call, INSTANTS, MOST_EVENTS, MOST_PENDING};
use crate::recognitions::Row;
use common::chart_value;
use common::interface::{Addition, Answer, Chart, Report, Watch, FIRST_FLOOR};
use common::plain_chart::{self, Entry, Nearest, Operator, Relation, Verdict};
use std::cmp::Reverse;
use std::ops::Range;

const NONE: i64 = -1;

/// What a call answers, and the table after it.
pub type Outcome = (Answer, Vec<i32>);

/// "A refused opening (14, then 8) returns an empty watch at instant 0."
pub fn open(chart: &Chart, table: &[i32], instant: i32) -> Outcome {
    let usable = chart_value::entries(chart).is_some();
    let in_range = INSTANTS.contains(&i64::from(instant));
    let refusal = if !usable { 14 } else { 8 * u32::from(!in_range) };
    if refusal != 0 {
        return (Answer { refusal, watch: Watch::empty(0) }, table.to_vec());
    }
    (Answer { refusal, watch: Watch::opened(instant, chart.count) }, flat(&[], table))
}

/// "After 14 and 13, whose line is 0, bad lines, or none, give the chart reader's number and line, [...] and the old
/// chart and watch stay." An addition that is taken leaves the table, too.
pub fn add_lines(watch: &Watch, chart: &Chart, table: &[i32], lines: &[u8]) -> Addition {
    let consistent = entries_consistent(watch, chart, table).map_err(|refusal| Verdict { refusal, line: 0 });
    match consistent.and_then(|entries| plain_chart::read_more(entries.len(), lines)) {
        Ok(added) => {
            let mut next = Watch { entries: watch.entries + added.len(), ..*watch };
            (watch.entries..next.entries).for_each(|number| next.since[number] = watch.instant);
            Addition { refusal: 0, line: 0, watch: next, chart: chart_value::with_added(chart, &added) }
        }
        Err(Verdict { refusal, line }) => Addition { refusal, line, watch: *watch, chart: *chart },
    }
}

/// 14, 13 or 0 for none.
pub fn check(watch: &Watch, chart: &Chart, table: &[i32]) -> u32 {
    entries_consistent(watch, chart, table).err().unwrap_or(0)
}

pub fn play(watch: &Watch, chart: &Chart, table: &[i32], call: Call) -> Outcome {
    let step = entries_consistent(watch, chart, table).and_then(|entries| match call {
        Call::Event(code) => event(watch, code).map(|next| (next, table.to_vec())),
        Call::Clock(instant) => clock(watch, &entries, table, instant),
        Call::Forget(floor) => forget(watch, &entries, table, floor),
    });
    match step {
        Ok((watch, table)) => (Answer { refusal: 0, watch }, table),
        // "Every other refusal from 8 on returns the watch given. After a refusal all lent memory holds what it held."
        Err(refusal) => (Answer { refusal, watch: *watch }, table.to_vec()),
    }
}

/// The numbers of the rows with this end; empty where there are none or the call is refused.
pub fn rows_ending(watch: &Watch, chart: &Chart, table: &[i32], end: i32) -> Range<usize> {
    if check(watch, chart, table) != 0 {
        return 0..0;
    }
    layout::rows_ending(&rows_in_use(watch, table), end)
}

/// How many rows each entry has; only the number where the call is refused.
pub fn report(watch: &Watch, chart: &Chart, table: &[i32]) -> Report {
    match entries_consistent(watch, chart, table) {
        Ok(entries) => layout::report(&rows_in_use(watch, table), entries.len()),
        Err(refusal) => Report::refused(refusal),
    }
}

/// The bytes of a row's tree, "15 before 16".
pub fn tree(watch: &Watch, chart: &Chart, table: &[i32], row: usize, room: usize) -> Result<String, u32> {
    let entries = entries_consistent(watch, chart, table)?;
    if row >= watch.rows {
        return Err(15);
    }
    let rows = rows_in_use(watch, table);
    if tree_lengths(&entries, &rows)[row] > room as u64 {
        return Err(16);
    }
    Ok(tree_text(&entries, &rows, row as i64))
}

/// A chart's entries, or "14, 13".
fn entries_consistent(watch: &Watch, chart: &Chart, table: &[i32]) -> Result<Vec<Entry>, u32> {
    let entries = chart_value::entries(chart).ok_or(14u32)?;
    if consistency::causes(watch, &entries, table).is_empty() {
        Ok(entries)
    } else {
        Err(13)
    }
}

fn event(watch: &Watch, code: u8) -> Result<Watch, u32> {
    if watch.events == MOST_EVENTS {
        return Err(10);
    }
    if watch.pending == MOST_PENDING {
        return Err(9);
    }
    let mut next = Watch { events: watch.events + 1, pending: watch.pending + 1, ..*watch };
    next.codes[watch.pending] = code;
    Ok(next)
}

fn clock(watch: &Watch, chart: &[Entry], table: &[i32], instant: i64) -> Result<(Watch, Vec<i32>), u32> {
    if !INSTANTS.contains(&instant) || instant <= i64::from(watch.instant) {
        return Err(8);
    }
    let rows = closed_rows(watch, chart, table, instant).ok_or(12u32)?;
    let next = Watch { instant: instant as i32, rows: rows.len(), pending: 0, codes: [0; MOST_PENDING], ..*watch };
    Ok((next, flat(&rows, table)))
}

fn forget(watch: &Watch, chart: &[Entry], table: &[i32], floor: i64) -> Result<(Watch, Vec<i32>), u32> {
    if floor < i64::from(watch.floor) || floor > i64::from(watch.instant) || !INSTANTS.contains(&floor) {
        return Err(11);
    }
    let rows = kept_rows(chart, &rows_in_use(watch, table), floor);
    Ok((Watch { floor: floor as i32, rows: rows.len(), ..*watch }, flat(&rows, table)))
}

/// The rows there are and those that a mark adds; none where they are more than fit. "A clock mark t closes every
/// instant from the open one to t-1." Rows end where an event happens, where a row that they are made of ends, or a
/// delay after that: at an instant that is neither the open one nor the end of a row and a delay, there is none to add.
/// So only these are closed, and looked for anew after each, since a delayed row may be delayed again.
fn closed_rows(watch: &Watch, chart: &[Entry], table: &[i32], mark: i64) -> Option<Vec<Row>> {
    let held = rows_held(table.len());
    let mut rows = rows_in_use(watch, table);
    let mut closing = Some(i64::from(watch.instant));
    while let Some(instant) = closing {
        add_rows_ending(instant, watch, chart, held, &mut rows)?;
        let later = delayed_ends(chart, &rows).filter(|end| *end > instant && *end < mark);
        closing = later.min();
    }
    Some(rows)
}

/// The end of every row that a delay makes of these rows, whether it is among them or not.
fn delayed_ends<'a>(chart: &'a [Entry], rows: &'a [Row]) -> impl Iterator<Item = i64> + 'a {
    let delays = chart.iter().filter(|entry| entry.operator == Operator::After);
    delays.flat_map(|delay| {
        let operands = rows.iter().filter(|row| row.entry as u64 == delay.first);
        operands.map(|row| row.end + delay.second as i64)
    })
}

/// Adds, entry by entry, the rows that end at an instant and start no earlier than their entry counts; none where they
/// are more than fit. An entry's rows stand "later start first, then the order of document 01", in which they are made
/// and which a stable sort leaves; later entries refer to them there.
fn add_rows_ending(instant: i64, watch: &Watch, chart: &[Entry], held: usize, rows: &mut Vec<Row>) -> Option<()> {
    for (number, entry) in chart.iter().enumerate() {
        let is_due = |row: &Row| row.end == instant && row.start >= i64::from(watch.since[number]);
        let mut made: Vec<Row> = rows_of(watch, number, entry, rows).filter(is_due).take(held + 1).collect();
        made.sort_by_key(|row| Reverse(row.start));
        rows.extend(made);
        if rows.len() > held {
            return None;
        }
    }
    Some(())
}

/// The rows that a mark would have added to those that it left, had their entries counted from the opening: what is
/// made of these rows and starts too early for its entry.
pub fn barred_rows(watch: &Watch, chart: &[Entry], rows: &[Row], mark: i64) -> Vec<Row> {
    let closed = i64::from(watch.instant)..mark;
    let of_entry = |(number, entry): (usize, &Entry)| {
        let is_barred = |row: &Row| closed.contains(&row.end) && row.start < i64::from(watch.since[number]);
        rows_of(watch, number, entry, rows).filter(is_barred).collect::<Vec<Row>>()
    };
    let added = chart.iter().enumerate().filter(|(number, _)| watch.since[*number] > FIRST_FLOOR);
    added.flat_map(of_entry).collect()
}

/// What an entry's line of the operator table makes of the pending events, which are at the open instant, and the rows,
/// in the order of document 01.
fn rows_of<'a>(
    watch: &'a Watch,
    number: usize,
    entry: &'a Entry,
    rows: &'a [Row],
) -> Box<dyn Iterator<Item = Row> + 'a> {
    let of = |operand: u64| (0..rows.len()).filter(move |index| rows[*index].entry as u64 == operand);
    let (a, b) = (of(entry.first), of(entry.second));
    let interval = |index: usize| Interval { start: rows[index].start, end: rows[index].end };
    let row = move |left: i64, right: i64, Interval { start, end }| Row { entry: number, left, right, start, end };
    let one = move |r: usize| row(r as i64, NONE, interval(r));
    match entry.operator {
        Operator::Event => Box::new(pending_events(watch, entry.first).map(move |serial| {
            let instant = i64::from(watch.instant);
            row(serial, NONE, Interval { start: instant, end: instant })
        })),
        Operator::Or => Box::new(a.map(one).chain(b.map(move |s| row(NONE, s as i64, interval(s))))),
        Operator::Pair(relation) => Box::new(a.flat_map(move |r| {
            let related = b.clone().filter(move |s| is_related(relation, interval(r), interval(*s)));
            related.map(move |s| row(r as i64, s as i64, Interval::spanning(interval(r), interval(s))))
        })),
        Operator::Absence(early, late) => {
            let forbidden = move |r| b.clone().any(|s| is_forbidding(early, late, interval(r), interval(s)));
            Box::new(a.filter(move |r| !forbidden(*r)).map(one))
        }
        Operator::Length(test) => {
            Box::new(a.filter(move |r| has_length(test, interval(*r), entry.second as i64)).map(one))
        }
        Operator::After => Box::new(a.map(move |r| row(r as i64, NONE, interval(r).delayed(entry.second as i64)))),
        Operator::Nearest(nearest) => {
            let pairs = a.flat_map(move |r| b.clone().map(move |s| (r, s)));
            let nearest = pairs.filter(move |(r, s)| is_nearest(nearest, entry, interval(*r), interval(*s), rows));
            Box::new(nearest.map(move |(r, s)| row(r as i64, s as i64, Interval::spanning(interval(r), interval(s)))))
        }
    }
}

/// Whether r and s, rows of the operands of a `cut` or `change`, are a pair of it among these rows.
fn is_nearest(nearest: Nearest, entry: &Entry, r: Interval, s: Interval, rows: &[Row]) -> bool {
    let of = |operand: u64| {
        let rows = rows.iter().filter(move |row| row.entry as u64 == operand);
        rows.map(|row| Interval { start: row.start, end: row.end })
    };
    is_related(Relation::Seq, r, s)
        && !of(entry.second).any(|other| is_rival_of_second(r, s, other))
        && !(nearest == Nearest::Change && of(entry.first).any(|other| is_rival_of_first(r, s, other)))
}

/// The serials of the pending events of a code. The last of them is the count.
fn pending_events(watch: &Watch, code: u64) -> impl Iterator<Item = i64> + '_ {
    let first = (watch.events - watch.pending + 1) as i64;
    let pending = watch.codes[..watch.pending].iter().zip(first..);
    pending.filter(move |(pending, _)| u64::from(**pending) == code).map(|(_, serial)| serial)
}

/// The rows that start at the floor or later, each reference being that row's new number.
fn kept_rows(chart: &[Entry], rows: &[Row], floor: i64) -> Vec<Row> {
    let kept: Vec<usize> = (0..rows.len()).filter(|index| rows[*index].start >= floor).collect();
    let new_number = |reference: i64| match reference {
        NONE => NONE,
        _ => kept.iter().position(|index| *index as i64 == reference).expect("an operand starts no earlier") as i64,
    };
    let renumbered = |index: &usize| {
        let row = rows[*index];
        match chart[row.entry].operator {
            Operator::Event => row,
            _ => Row { left: new_number(row.left), right: new_number(row.right), ..row },
        }
    };
    kept.iter().map(renumbered).collect()
}

/// The length of every row's tree, kept below the greatest number: a tree may have billions of bytes.
fn tree_lengths(chart: &[Entry], rows: &[Row]) -> Vec<u64> {
    let mut lengths: Vec<u64> = Vec::with_capacity(rows.len());
    for row in rows {
        let part = |reference: i64| if reference == NONE { 1 } else { lengths[reference as usize] };
        let length = match chart[row.entry].operator {
            Operator::Event => 1 + row.left.to_string().len() as u64,
            Operator::Or | Operator::Pair(_) | Operator::Nearest(_) => {
                part(row.left).saturating_add(part(row.right)).saturating_add(3)
            }
            Operator::Absence(..) | Operator::Length(_) | Operator::After => part(row.left).saturating_add(2),
        };
        lengths.push(length);
    }
    lengths
}

fn tree_text(chart: &[Entry], rows: &[Row], reference: i64) -> String {
    if reference == NONE {
        return "_".to_string();
    }
    let row = rows[reference as usize];
    let part = |reference: i64| tree_text(chart, rows, reference);
    match chart[row.entry].operator {
        Operator::Event => format!("e{}", row.left),
        Operator::Or | Operator::Pair(_) | Operator::Nearest(_) => format!("<{},{}>", part(row.left), part(row.right)),
        Operator::Absence(..) | Operator::Length(_) | Operator::After => format!("<{}>", part(row.left)),
    }
}
