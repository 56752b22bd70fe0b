//! When watch and table are out of joint with a chart: document 01, "Out of joint", and request N13, cause by cause.

use crate::conditions::{has_length, is_related, Interval};
use crate::layout::rows_held;
use crate::model::{INSTANTS, MOST_EVENTS, MOST_PENDING};
use common::interface::Watch;
use common::plain_chart::{Entry, Operator, Relation};
use std::collections::BTreeSet;

/// A cause of that paragraph.
#[derive(Clone, Copy, Debug, PartialEq, Eq, PartialOrd, Ord)]
pub enum Cause {
    OpenInstantOutOfRange,
    FloorOutOfRange,
    FloorAboveOpenInstant,
    Over64Pending,
    MorePendingThanCounted,
    CountAboveAMillion,
    MoreRowsThanFit,
    UnusedRowNotZeros,
    EntryNotInChart,
    StartBelowFloor,
    EndNotBeforeOpenInstant,
    EndBeforePredecessors,
    ReferenceNotLowerRowOfOperand,
    NoneMisplaced,
    StartDisagrees,
    EndDisagrees,
    ConditionDisagrees,
    SerialOutOfRange,
    EventStartNotEnd,
    EntriesNotAsInChart,
    EntryInstantBelowRange,
    EntryInstantAboveOpen,
    EntryInstantFalls,
    StartBeforeEntryInstant,
}

pub const CAUSES: [Cause; 24] = [
    Cause::OpenInstantOutOfRange,
    Cause::FloorOutOfRange,
    Cause::FloorAboveOpenInstant,
    Cause::Over64Pending,
    Cause::MorePendingThanCounted,
    Cause::CountAboveAMillion,
    Cause::MoreRowsThanFit,
    Cause::UnusedRowNotZeros,
    Cause::EntryNotInChart,
    Cause::StartBelowFloor,
    Cause::EndNotBeforeOpenInstant,
    Cause::EndBeforePredecessors,
    Cause::ReferenceNotLowerRowOfOperand,
    Cause::NoneMisplaced,
    Cause::StartDisagrees,
    Cause::EndDisagrees,
    Cause::ConditionDisagrees,
    Cause::SerialOutOfRange,
    Cause::EventStartNotEnd,
    Cause::EntriesNotAsInChart,
    Cause::EntryInstantBelowRange,
    Cause::EntryInstantAboveOpen,
    Cause::EntryInstantFalls,
    Cause::StartBeforeEntryInstant,
];

/// Five numbers of the table, whatever they are.
#[derive(Clone, Copy)]
struct Numbers {
    entry: i64,
    left: i64,
    right: i64,
    interval: Interval,
}

/// Every cause that watch and table give; none where they are consistent. The chart is one that 14 lets through.
pub fn causes(watch: &Watch, chart: &[Entry], table: &[i32]) -> BTreeSet<Cause> {
    let mut found = BTreeSet::new();
    add_causes_of_watch(watch, &mut found);
    add_causes_of_entries(watch, chart.len(), &mut found);
    let held = rows_held(table.len());
    if watch.rows > held {
        found.insert(Cause::MoreRowsThanFit);
    }
    let (in_use, unused) = table[..held * 5].split_at(watch.rows.min(held) * 5);
    if unused.iter().any(|number| *number != 0) {
        found.insert(Cause::UnusedRowNotZeros);
    }
    let rows: Vec<Numbers> = in_use.chunks(5).map(numbers).collect();
    for index in 0..rows.len() {
        add_causes_of_row(watch, chart, &rows, index, &mut found);
    }
    found
}

fn numbers(row: &[i32]) -> Numbers {
    let number = |place: usize| i64::from(row[place]);
    let interval = Interval { start: number(3), end: number(4) };
    Numbers { entry: number(0), left: number(1), right: number(2), interval }
}

/// "Open instant or floor out of range; floor above open; over 64 pending events, more pending than counted, or a count
/// above 1,000,000."
fn add_causes_of_watch(watch: &Watch, found: &mut BTreeSet<Cause>) {
    let (instant, floor) = (i64::from(watch.instant), i64::from(watch.floor));
    let causes = [
        (!INSTANTS.contains(&instant), Cause::OpenInstantOutOfRange),
        (!INSTANTS.contains(&floor), Cause::FloorOutOfRange),
        (floor > instant, Cause::FloorAboveOpenInstant),
        (watch.pending > MOST_PENDING, Cause::Over64Pending),
        (watch.pending > watch.events, Cause::MorePendingThanCounted),
        (watch.events > MOST_EVENTS, Cause::CountAboveAMillion),
    ];
    found.extend(causes.into_iter().filter(|(holds, _)| *holds).map(|(_, cause)| cause));
}

/// "A watch with another number of entries than the chart is out of joint", and an entry's instant "may not fall from
/// one entry to the next, nor lie below -1,000,000,000 or above the open instant". The places behind are not looked at.
fn add_causes_of_entries(watch: &Watch, entries: usize, found: &mut BTreeSet<Cause>) {
    let since = &watch.since[..entries.min(watch.entries)];
    let causes = [
        (watch.entries != entries, Cause::EntriesNotAsInChart),
        (since.iter().any(|instant| i64::from(*instant) < *INSTANTS.start()), Cause::EntryInstantBelowRange),
        (since.iter().any(|instant| *instant > watch.instant), Cause::EntryInstantAboveOpen),
        (since.windows(2).any(|pair| pair[1] < pair[0]), Cause::EntryInstantFalls),
    ];
    found.extend(causes.into_iter().filter(|(holds, _)| *holds).map(|(_, cause)| cause));
}

/// "A row whose entry is not in the chart, start is below the floor, end is not before the open instant or is before
/// its predecessor's end, ..."; "the out-of-joint rule" uses "the entry's own instant" too.
fn add_causes_of_row(watch: &Watch, chart: &[Entry], rows: &[Numbers], index: usize, found: &mut BTreeSet<Cause>) {
    let row = rows[index];
    if row.interval.start < i64::from(watch.floor) {
        found.insert(Cause::StartBelowFloor);
    }
    if row.interval.end >= i64::from(watch.instant) {
        found.insert(Cause::EndNotBeforeOpenInstant);
    }
    if index > 0 && row.interval.end < rows[index - 1].interval.end {
        found.insert(Cause::EndBeforePredecessors);
    }
    let number = usize::try_from(row.entry).ok().filter(|number| *number < chart.len());
    if number.is_some_and(|number| row.interval.start < i64::from(watch.since[number])) {
        found.insert(Cause::StartBeforeEntryInstant);
    }
    match number.map(|number| &chart[number]) {
        None => drop(found.insert(Cause::EntryNotInChart)),
        Some(entry) if entry.operator == Operator::Event => add_causes_of_event(watch, row, found),
        Some(entry) => match operands(entry, row, &rows[..index]) {
            Err(cause) => drop(found.insert(cause)),
            Ok((r, s)) => add_disagreements(entry, row.interval, r, s, found),
        },
    }
}

/// "An event row's serial is 1 to the count, start and end equal"; its right number is -1.
fn add_causes_of_event(watch: &Watch, row: Numbers, found: &mut BTreeSet<Cause>) {
    if row.left < 1 || row.left as u64 > watch.events as u64 {
        found.insert(Cause::SerialOutOfRange);
    }
    if row.right != -1 {
        found.insert(Cause::NoneMisplaced);
    }
    if row.interval.start != row.interval.end {
        found.insert(Cause::EventStartNotEnd);
    }
}

/// The intervals of the rows referred to, the same one twice where it is one row: "references aren't lower rows of the
/// operand entries, with -1 just where the operator table has it".
fn operands(entry: &Entry, row: Numbers, lower: &[Numbers]) -> Result<(Interval, Interval), Cause> {
    let operand = |reference: i64, operand: u64| {
        let named = usize::try_from(reference).ok().and_then(|index| lower.get(index));
        let of_operand = named.filter(|named| named.entry == operand as i64);
        of_operand.map(|named| named.interval).ok_or(Cause::ReferenceNotLowerRowOfOperand)
    };
    match (entry.operator, row.left != -1, row.right != -1) {
        (Operator::Pair(_) | Operator::Nearest(_), true, true) => {
            Ok((operand(row.left, entry.first)?, operand(row.right, entry.second)?))
        }
        (Operator::Or | Operator::Absence(..) | Operator::Length(_) | Operator::After, true, false) => {
            operand(row.left, entry.first).map(|r| (r, r))
        }
        (Operator::Or, false, true) => operand(row.right, entry.second).map(|s| (s, s)),
        _ => Err(Cause::NoneMisplaced),
    }
}

/// "Or whose start, end or non-absence condition disagrees with them"; of a delay, "the same start and end = end r +
/// d"; of `cut` and `change`, "the out-of-joint rule checks only end r < start s".
fn add_disagreements(entry: &Entry, interval: Interval, r: Interval, s: Interval, found: &mut BTreeSet<Cause>) {
    let delay = if entry.operator == Operator::After { entry.second as i64 } else { 0 };
    let made = Interval::spanning(r, s).delayed(delay);
    if interval.start != made.start {
        found.insert(Cause::StartDisagrees);
    }
    if interval.end != made.end {
        found.insert(Cause::EndDisagrees);
    }
    let fulfilled = match entry.operator {
        Operator::Pair(relation) => is_related(relation, r, s),
        Operator::Nearest(_) => is_related(Relation::Seq, r, s),
        Operator::Length(test) => has_length(test, r, entry.second as i64),
        Operator::Event | Operator::Or | Operator::Absence(..) | Operator::After => true,
    };
    if !fulfilled {
        found.insert(Cause::ConditionDisagrees);
    }
}
