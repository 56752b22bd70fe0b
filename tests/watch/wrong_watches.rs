//! Watches that are wrong on purpose: the plain one with a function replaced. The comparison must find each of them, or
//! it could not find such a fault in the proved one. They are a crate of their own, since compiling so many with
//! optimizations takes far longer than running them without.

use common::careless;
use common::harness::Named;
use common::interface::{Addition, Answer, Calls, Chart, Entry, Report, Rows, TreeAnswer, Watch, FIRST_FLOOR};
use common::paper::lines;
use common::plain_chart::{self, Operator, Verdict};
use common::plain_watch::closing::{
    Closing, AFTER, AND, AT_LEAST, AT_MOST, CHANGE, CLOSED_CLOSED, CLOSED_OPEN, CUT, DURING, EQUALS, EVENT, LASTS,
    MEETS, NONE, OPEN_CLOSED, OPEN_OPEN, OR, OVERLAPS, SEQ,
};
use common::plain_watch::storage::{Lower, Own, Part, Row, Span, Storage, END, ENTRY, START, UNUSED};
use common::plain_watch::{calls, is_instant, Plain, PlainWatch, Renumbered, Taken, INSTANTS};
use std::cmp::Reverse;

/// Each wrong watch by its fault and the functions that it replaces: of the calls, or of the closing of an instant.
macro_rules! wrong_watches {
    (
        calls { $($name:ident: $fault:literal { $($functions:tt)* })* }
        closing { $($closing:ident: $closing_fault:literal { $($steps:tt)* })* }
    ) => {
        $(struct $name;
        impl Closing for $name {}
        impl PlainWatch for $name { $($functions)* })*

        $(struct $closing;
        impl Closing for $closing { $($steps)* }
        impl PlainWatch for $closing {})*

        pub fn all() -> Vec<Named<Calls>> {
            vec![$(($fault, calls::<$name>()),)* $(($closing_fault, calls::<$closing>()),)*]
        }
    };
}

/// Appends what the plain watch makes of an entry, after a change.
fn append_changed<L: Lower>(
    (watch, entry): (&Watch, &Entry),
    lower: L,
    own: &mut Own,
    change: impl FnOnce(&mut Vec<Row>),
) -> Option<()> {
    let mut free = vec![UNUSED; own.free.len()];
    let mut made = Own { free: &mut free, ..*own };
    Plain::append(watch, entry, lower, &mut made)?;
    let pushed = made.pushed;
    free.truncate(pushed);
    change(&mut free);
    free.into_iter().try_for_each(|[_, left, right, start, end]| own.push(left, right, start, end))
}

/// Puts the rows from a place on in another order, rows of one key as they stand, and renumbers what refers to them.
fn reorder<K: Ord>(chart: &Chart, storage: &mut Storage, first: usize, key: impl Fn(&Row) -> K) {
    let new = first..storage.count;
    let mut in_order: Vec<usize> = new.clone().collect();
    in_order.sort_by_key(|index| key(&storage.rows[*index]));
    let mut places: Vec<u16> = (0..storage.count).map(|index| index as u16).collect();
    new.clone().zip(&in_order).for_each(|(place, index)| places[*index] = place as u16);
    let renumbered = |index: &usize| Plain::renumbered(chart, storage.rows[*index], &places);
    let rows: Vec<Row> = in_order.iter().map(renumbered).collect();
    storage.rows[new].copy_from_slice(&rows);
}

/// Appends the pairs of a `cut` or `change` as request N5 defines them, with other rivals s' and r'.
fn append_nearest_but<L: Lower>(
    entry: &Entry,
    lower: L,
    own: &mut Own,
    is_rival_of_second: impl Fn(&Span, &Span, &Span) -> bool,
    is_rival_of_first: impl Fn(&Span, &Span, &Span) -> bool,
) -> Option<()> {
    let (a, b) = (lower.all(entry.a), lower.all(entry.b));
    for r in a.spans() {
        for s in lower.new(entry.b).spans().filter(|s| r.end < s.start) {
            let is_parted = b.spans().any(|other| is_rival_of_second(&r, &s, &other))
                || (entry.op == CHANGE && a.spans().any(|other| is_rival_of_first(&r, &s, &other)));
            if !is_parted {
                own.push(r.row, s.row, r.start, s.end)?;
            }
        }
    }
    Some(())
}

fn is_rival_of_second(r: &Span, s: &Span, other: &Span) -> bool {
    other.start > r.end && other.end < s.end
}

fn is_rival_of_first(r: &Span, s: &Span, other: &Span) -> bool {
    other.start >= r.start && r.end < other.end && other.end < s.start
}

/// Whether a row of an operand is such a rival of the parts of a row that agrees with its entry, a `cut` or `change`.
fn has_rival(operand: u32, row: &Row, lower: &[Row], is_rival: impl Fn(&Span, &Span, &Span) -> bool) -> bool {
    let span = |row: &Row| Span::of(NONE, row);
    let (r, s) = (span(&lower[row[1] as usize]), span(&lower[row[2] as usize]));
    lower.iter().any(|other| other[ENTRY] == operand as i32 && is_rival(&r, &s, &span(other)))
}

fn is_nearest(entry: &Entry) -> bool {
    matches!(entry.op, CUT | CHANGE)
}

/// The entries of added lines, or why they are refused.
type Lines = Result<Vec<plain_chart::Entry>, Verdict>;

/// The entries of added lines, those with a length as `change` makes them of the length and the line.
fn with_lengths(chart: &Chart, bytes: &[u8], change: impl Fn(u64, &[u8]) -> u64) -> Lines {
    let mut added = Plain::read_lines(chart, bytes)?;
    for (entry, line) in added.iter_mut().zip(lines(bytes)) {
        if matches!(entry.operator, Operator::Length(_) | Operator::After) {
            entry.second = change(entry.second, line);
        }
    }
    Ok(added)
}

/// The instant from which an entry counts, but for those of some operators, which count from the opening.
fn since_but_for(is_so: fn(u8) -> bool, watch: &Watch, number: usize, entry: &Entry) -> i32 {
    if is_so(entry.op) {
        FIRST_FLOOR
    } else {
        Plain::since(watch, number, entry)
    }
}

wrong_watches! {
    calls {
        // Opening.
        OpensAtAnyInstant: "opening: 8 before 14" {
            fn open(chart: Chart, table: &mut [i32], instant: i32) -> Answer {
                if !is_instant(instant) {
                    return Answer { refusal: 8, watch: Watch::empty(0) };
                }
                Plain::open(chart, table, instant)
            }
        }
        KeepsInstantOfRefusedOpening: "opening refused: the watch is not at instant 0" {
            fn open(chart: Chart, table: &mut [i32], instant: i32) -> Answer {
                let mut answer = Plain::open(chart, table, instant);
                answer.watch.instant = instant;
                answer
            }
        }
        LeavesOldRows: "opening: rows not filled with zeros" {
            fn open(chart: Chart, table: &mut [i32], instant: i32) -> Answer {
                Plain::open(chart, &mut table.to_vec(), instant)
            }
        }
        ClearsTail: "opening: the numbers after the last row filled too" {
            fn open(chart: Chart, table: &mut [i32], instant: i32) -> Answer {
                let answer = Plain::open(chart, table, instant);
                if answer.refusal == 0 {
                    table.fill(0);
                }
                answer
            }
        }
        HoldsMoreRows: "a table holds more than 65,535 rows" {
            fn capacity(length: usize) -> usize {
                length / 5
            }
        }

        // Charts.
        TakesSecondOperandOfEvent: "14: an event with a second operand taken" {
            fn is_usable(chart: &Chart) -> bool {
                let mut cleared = *chart;
                cleared.entries.iter_mut().filter(|entry| entry.op == 0).for_each(|entry| entry.b = 0);
                Plain::is_usable(&cleared)
            }
        }
        LooksBehindChart: "14: entries behind the count looked at" {
            fn is_usable(chart: &Chart) -> bool {
                Plain::is_usable(chart) && Plain::is_usable(&Chart { count: 32, ..*chart })
            }
        }
        TakesOwnEntry: "14: an entry that names itself taken" {
            fn is_usable(chart: &Chart) -> bool {
                let mut lowered = *chart;
                for (index, entry) in lowered.entries.iter_mut().enumerate().skip(1) {
                    if entry.op != 0 && entry.a == index as u32 {
                        entry.a -= 1;
                    }
                }
                Plain::is_usable(&lowered)
            }
        }

        KnowsNoDelay: "14: operator code 17 refused" {
            fn is_usable(chart: &Chart) -> bool {
                Plain::is_usable(chart) && chart.entries[..chart.count].iter().all(|entry| entry.op != AFTER)
            }
        }
        KnowsNoCut: "14: operator code 18 refused" {
            fn is_usable(chart: &Chart) -> bool {
                Plain::is_usable(chart) && chart.entries[..chart.count].iter().all(|entry| entry.op != CUT)
            }
        }
        KnowsNoChange: "14: operator code 19 refused" {
            fn is_usable(chart: &Chart) -> bool {
                Plain::is_usable(chart) && chart.entries[..chart.count].iter().all(|entry| entry.op != CHANGE)
            }
        }
        WantsTwoEntries: "14: cut or change of one entry as both operands refused" {
            fn is_usable(chart: &Chart) -> bool {
                let is_one = |entry: &Entry| is_nearest(entry) && entry.a == entry.b;
                Plain::is_usable(chart) && !chart.entries[..chart.count].iter().any(is_one)
            }
        }
        TakesLengthForOperand: "14: cut or change with a second operand that is no lower entry taken" {
            fn is_usable(chart: &Chart) -> bool {
                let mut lowered = *chart;
                for (index, entry) in lowered.entries.iter_mut().enumerate().filter(|(_, entry)| is_nearest(entry)) {
                    entry.b = entry.b.min((index as u32).saturating_sub(1));
                }
                Plain::is_usable(&lowered)
            }
        }
        TakesCode20: "14: operator code 20 taken" {
            fn is_usable(chart: &Chart) -> bool {
                let mut known = *chart;
                known.entries.iter_mut().filter(|entry| entry.op == 20).for_each(|entry| entry.op = AFTER);
                Plain::is_usable(&known)
            }
        }
        TakesLongDelay: "14: a delay above 2,000,000,000 taken" {
            fn is_usable(chart: &Chart) -> bool {
                let mut shortened = *chart;
                let delays = shortened.entries.iter_mut().filter(|entry| entry.op == AFTER);
                delays.for_each(|entry| entry.b = entry.b.min(2_000_000_000));
                Plain::is_usable(&shortened)
            }
        }
        TakesDelayForOperand: "14: a delay that is no lower entry refused" {
            fn is_usable(chart: &Chart) -> bool {
                let entries = chart.entries.iter().take(chart.count).enumerate();
                let is_lower = |(index, entry): (usize, &Entry)| entry.op != AFTER || (entry.b as usize) < index;
                Plain::is_usable(chart) && entries.into_iter().all(is_lower)
            }
        }

        // Events.
        LeavesOutUnnamedEvents: "an event that no entry names takes no serial" {
            fn event(watch: Watch, chart: Chart, table: &[i32], code: u8) -> Answer {
                let answer = Plain::event(watch, chart, table, code);
                let names = |entry: &Entry| entry.op == 0 && entry.a == u32::from(code);
                if answer.refusal == 0 && !chart.entries[..chart.count].iter().any(names) {
                    return Answer { refusal: 0, watch };
                }
                answer
            }
        }
        LooksAtPendingFirst: "event: 9 before 10" {
            fn event_unchecked(watch: &mut Watch, code: u8) -> Taken {
                if watch.pending == 64 { Err(9) } else { Plain::event_unchecked(watch, code) }
            }
        }
        TakesFewerEvents: "event: the 64th of an instant refused" {
            fn event_unchecked(watch: &mut Watch, code: u8) -> Taken {
                if watch.pending == 63 { Err(9) } else { Plain::event_unchecked(watch, code) }
            }
        }
        SpendsSerialsEarly: "event: serial 1,000,000 refused" {
            fn event_unchecked(watch: &mut Watch, code: u8) -> Taken {
                if watch.events == 999_999 { Err(10) } else { Plain::event_unchecked(watch, code) }
            }
        }
        SkipsCheckOnEvents: "event: 13 not checked" {
            fn event(watch: Watch, _: Chart, _: &[i32], code: u8) -> Answer {
                let mut next = watch;
                let refusal = Self::event_unchecked(&mut next, code).err().unwrap_or(0);
                Answer { refusal, watch: next }
            }
        }

        // Clock marks.
        InventsRows: "hands out an invented number of rows in use" {
            fn mark(watch: &mut Watch, instant: i32, rows: usize) {
                Plain::mark(watch, instant, rows + 1);
            }
        }
        FullTooEarly: "says full while due rows would fit (< for <= at the capacity)" {
            fn clock(watch: Watch, chart: Chart, table: &mut [i32], instant: i32) -> Answer {
                let mut after = table.to_vec();
                let answer = Plain::clock(watch, chart, &mut after, instant);
                if answer.refusal == 0 && answer.watch.rows == Plain::capacity(table.len()) {
                    return Answer { refusal: 12, watch };
                }
                table.copy_from_slice(&after);
                answer
            }
        }
        RefusesEverything: "refuses everything" {
            fn check(_: Watch, _: Chart, _: &[i32]) -> u32 {
                13
            }
        }
        LeavesRowsOfRefusedMark: "12: rows written on the way stay" {
            fn take_back(_: &mut Storage) {}
        }
        LeavesRowsInOrder: "12: the rows of entries that fitted stay, in their order" {
            fn take_back(storage: &mut Storage) {
                storage.rows[storage.count..].fill(UNUSED);
            }
        }
        LeavesRowsOfEarlierEnds: "12: the rows of the ends before the one that is too many stay" {
            fn take_back(storage: &mut Storage) {
                storage.rows[storage.old..].fill(UNUSED);
            }
        }
        ClosesWhatFits: "12: the open instant is closed where it alone would fit" {
            fn clock(watch: Watch, chart: Chart, table: &mut [i32], instant: i32) -> Answer {
                let answer = Plain::clock(watch, chart, table, instant);
                let next = watch.instant.saturating_add(1);
                if answer.refusal == 12 && Plain::clock(watch, chart, &mut table.to_vec(), next).refusal == 0 {
                    return Answer { refusal: 12, ..Plain::clock(watch, chart, table, next) };
                }
                answer
            }
        }
        MovesRefusedMark: "12: the instant moves all the same" {
            fn clock_unchecked(watch: &mut Watch, chart: &Chart, storage: &mut Storage, instant: i64) -> Taken {
                let step = Plain::clock_unchecked(watch, chart, storage, instant);
                if step == Err(12) {
                    watch.instant = instant as i32;
                }
                step
            }
        }
        LooksAtRoomFirst: "clock mark: 12 before 8" {
            fn clock(watch: Watch, chart: Chart, table: &mut [i32], instant: i32) -> Answer {
                let next = Plain::clock(watch, chart, &mut table.to_vec(), watch.instant.saturating_add(1));
                if next.refusal == 12 { next } else { Plain::clock(watch, chart, table, instant) }
            }
        }
        TakesOpenInstantAgain: "clock mark: the open instant itself taken" {
            fn clock_unchecked(watch: &mut Watch, chart: &Chart, storage: &mut Storage, instant: i64) -> Taken {
                if instant == i64::from(watch.instant) {
                    return Ok(());
                }
                Plain::clock_unchecked(watch, chart, storage, instant)
            }
        }
        KeepsCodes: "clock mark: the codes of the closed instant stay behind" {
            fn mark(watch: &mut Watch, instant: i32, rows: usize) {
                let codes = watch.codes;
                Plain::mark(watch, instant, rows);
                watch.codes = codes;
            }
        }

        // Forgets.
        ForgetsByEnd: "forget: rows compared by end" {
            fn is_dropped(row: &Row, floor: i32) -> bool {
                row[END] < floor
            }
        }
        ForgetsAtFloor: "forget: rows that start at the floor dropped" {
            fn is_dropped(row: &Row, floor: i32) -> bool {
                row[START] <= floor
            }
        }
        KeepsReferences: "forget: references not renumbered" {
            fn renumbered(_: &Chart, row: Row, _: &[u16]) -> Row {
                row
            }
        }
        KeepsRightReference: "forget: the right reference not renumbered" {
            fn renumbered(chart: &Chart, row: Row, places: &[u16]) -> Row {
                let mut renumbered = Plain::renumbered(chart, row, places);
                renumbered[2] = row[2];
                renumbered
            }
        }
        RenumbersSerials: "forget: serials renumbered like references" {
            fn renumbered(chart: &Chart, row: Row, places: &[u16]) -> Row {
                let mut renumbered = Plain::renumbered(chart, row, places);
                renumbered[1] = places.get(row[1] as usize).map_or(renumbered[1], |place| i32::from(*place));
                renumbered
            }
        }
        LeavesFreedRows: "forget: freed rows not zeros" {
            fn free(_: &mut [Row]) {}
        }
        DropsPendingEvents: "forget: the open instant's events dropped with it" {
            fn forget_unchecked(watch: &mut Watch, chart: &Chart, table: Renumbered, floor: i64) -> Taken {
                Plain::forget_unchecked(watch, chart, table, floor)?;
                if watch.floor == watch.instant {
                    watch.pending = 0;
                }
                Ok(())
            }
        }
        KeepsOpenInstant: "forget: the open instant refused" {
            fn forget_unchecked(watch: &mut Watch, chart: &Chart, table: Renumbered, floor: i64) -> Taken {
                if floor == i64::from(watch.instant) {
                    return Err(11);
                }
                Plain::forget_unchecked(watch, chart, table, floor)
            }
        }
        LowersFloor: "forget: a floor below the last taken" {
            fn forget_unchecked(watch: &mut Watch, chart: &Chart, table: Renumbered, floor: i64) -> Taken {
                if floor < i64::from(watch.floor) && INSTANTS.contains(&floor) {
                    watch.floor = floor as i32;
                    return Ok(());
                }
                Plain::forget_unchecked(watch, chart, table, floor)
            }
        }

        // The check behind 13, too weak.
        SkipsUnusedRows: "13: unused rows not looked at" {
            fn are_unused(_: &[Row]) -> bool {
                true
            }
        }
        LooksAtUnusedEntries: "13: only the first number of an unused row looked at" {
            fn are_unused(rows: &[Row]) -> bool {
                rows.iter().all(|row| row[ENTRY] == 0)
            }
        }
        TakesAnyOperand: "13: a reference to a row of another entry taken" {
            fn lower_row(lower: &[Row], reference: i32, _: u32) -> Option<&Row> {
                lower.get(usize::try_from(reference).ok()?)
            }
        }
        TakesSerial0: "13: serial 0 taken" {
            fn is_serial(watch: &Watch, serial: i32) -> bool {
                serial == 0 || Plain::is_serial(watch, serial)
            }
        }
        TakesSerialAboveCount: "13: a serial one above the count taken" {
            fn is_serial(watch: &Watch, serial: i32) -> bool {
                serial >= 1 && serial as usize <= watch.events + 1
            }
        }
        TakesUnrelatedPair: "13: the condition of pairs not looked at" {
            fn spans_both(_: u8, row: &Row, r: &Span, s: &Span) -> bool {
                Plain::spans_both(AND, row, r, s)
            }
        }
        TakesUnrelatedCut: "13: the condition of cut not looked at" {
            fn spans_both(op: u8, row: &Row, r: &Span, s: &Span) -> bool {
                Plain::spans_both(if op == CUT { AND } else { op }, row, r, s)
            }
        }
        TakesUnrelatedChange: "13: the condition of change not looked at" {
            fn spans_both(op: u8, row: &Row, r: &Span, s: &Span) -> bool {
                Plain::spans_both(if op == CHANGE { AND } else { op }, row, r, s)
            }
        }
        TakesMeetingPair: "13: a row of cut or change whose s starts where r ends taken" {
            fn spans_both(op: u8, row: &Row, r: &Span, s: &Span) -> bool {
                let meets = matches!(op, CUT | CHANGE) && r.end == s.start;
                Plain::spans_both(if meets { AND } else { op }, row, r, s)
            }
        }
        TakesOneReferenceOfCut: "13: a row of cut or change without a left or right reference taken" {
            fn agrees(entry: &Entry, watch: &Watch, row: &Row, lower: &[Row]) -> bool {
                let lacks_one = is_nearest(entry) && (row[1] == NONE) != (row[2] == NONE);
                lacks_one || Plain::agrees(entry, watch, row, lower)
            }
        }
        TakesCutOfLaterRow: "13: a row of cut or change with an s behind it taken" {
            fn is_row_consistent(watch: &Watch, chart: &Chart, rows: &[Row], index: usize) -> bool {
                let entry = chart.entries.iter().take(chart.count).nth(rows[index][ENTRY] as usize);
                let agrees = |entry: &Entry| Plain::agrees(entry, watch, &rows[index], &rows[..watch.rows]);
                let is_pair = entry.is_some_and(|entry| is_nearest(entry) && agrees(entry));
                Plain::is_row_consistent(watch, chart, rows, index) || (rows[index][2] > index as i32 && is_pair)
            }
        }
        TakesAnyLength: "13: the condition of length tests not looked at" {
            fn agrees(entry: &Entry, watch: &Watch, row: &Row, lower: &[Row]) -> bool {
                let is_test = matches!(entry.op, LASTS..=AT_LEAST);
                let unconditional = Entry { op: if is_test { CLOSED_CLOSED } else { entry.op }, ..*entry };
                Plain::agrees(&unconditional, watch, row, lower)
            }
        }
        TakesAnyInterval: "13: start and end of one part not looked at" {
            fn spans(_: &Row, r: Option<&Row>) -> bool {
                r.is_some()
            }
        }
        TakesAnyDelayedEnd: "13: the end of a delayed row not looked at" {
            fn is_delayed(row: &Row, r: Option<&Row>, _: u32) -> bool {
                r.is_some_and(|r| row[START] == r[START])
            }
        }
        TakesLaterEnd: "13: a delayed row that ends later than it should taken" {
            fn is_delayed(row: &Row, r: Option<&Row>, delay: u32) -> bool {
                let end = |r: &Row| i64::from(r[END]) + i64::from(delay);
                r.is_some_and(|r| row[START] == r[START] && i64::from(row[END]) >= end(r))
            }
        }
        TakesEndWithoutDelay: "13: a delayed row with the end of its part taken too" {
            fn is_delayed(row: &Row, r: Option<&Row>, delay: u32) -> bool {
                Plain::is_delayed(row, r, delay) || Plain::spans(row, r)
            }
        }
        WantsEndWithoutDelay: "13: a delayed row taken with the end of its part alone" {
            fn is_delayed(row: &Row, r: Option<&Row>, _: u32) -> bool {
                Plain::spans(row, r)
            }
        }
        TakesAnyDelayedStart: "13: the start of a delayed row not looked at" {
            fn is_delayed(row: &Row, r: Option<&Row>, delay: u32) -> bool {
                r.is_some_and(|r| i64::from(row[END]) == i64::from(r[END]) + i64::from(delay))
            }
        }
        TakesRightOfDelay: "13: a delayed row with a right reference taken" {
            fn agrees(entry: &Entry, watch: &Watch, row: &Row, lower: &[Row]) -> bool {
                let [number, left, right, start, end] = *row;
                let right = if entry.op == AFTER { NONE } else { right };
                Plain::agrees(entry, watch, &[number, left, right, start, end], lower)
            }
        }
        TakesDelayOfAnotherEntry: "13: a delayed row of another entry's row taken" {
            fn agrees(entry: &Entry, watch: &Watch, row: &Row, lower: &[Row]) -> bool {
                let r = usize::try_from(row[1]).ok().and_then(|left| lower.get(left));
                let operand = r.map_or(entry.a, |r| r[ENTRY] as u32);
                let a = if entry.op == AFTER { operand } else { entry.a };
                Plain::agrees(&Entry { a, ..*entry }, watch, row, lower)
            }
        }
        TakesDelayOfLaterRow: "13: a delayed row of a row behind it taken" {
            fn is_row_consistent(watch: &Watch, chart: &Chart, rows: &[Row], index: usize) -> bool {
                let entry = chart.entries.iter().take(chart.count).nth(rows[index][ENTRY] as usize);
                let delay = entry.filter(|entry| entry.op == AFTER);
                let is_delay = |entry: &Entry| Plain::agrees(entry, watch, &rows[index], &rows[..watch.rows]);
                let is_behind = rows[index][1] > index as i32 && delay.is_some_and(is_delay);
                Plain::is_row_consistent(watch, chart, rows, index) || is_behind
            }
        }
        TakesEarlyStart: "13: a start below the floor taken" {
            fn is_row_consistent(watch: &Watch, chart: &Chart, rows: &[Row], index: usize) -> bool {
                Plain::is_row_consistent(&Watch { floor: i32::MIN, ..*watch }, chart, rows, index)
            }
        }
        TakesEndAtOpenInstant: "13: an end at the open instant taken" {
            fn is_row_consistent(watch: &Watch, chart: &Chart, rows: &[Row], index: usize) -> bool {
                let later = Watch { instant: watch.instant.saturating_add(1), ..*watch };
                Plain::is_row_consistent(&later, chart, rows, index)
            }
        }
        TakesFloorAboveOpen: "13: a floor above the open instant taken" {
            fn is_watch_in_range(watch: &Watch) -> bool {
                Plain::is_watch_in_range(&Watch { floor: watch.floor.min(watch.instant), ..*watch })
            }
        }
        TakesAnyFloor: "13: a floor out of range taken" {
            fn is_watch_in_range(watch: &Watch) -> bool {
                Plain::is_watch_in_range(&Watch { floor: watch.floor.max(-1_000_000_000), ..*watch })
            }
        }
        TakesAnyInstant: "13: an open instant out of range taken" {
            fn is_watch_in_range(watch: &Watch) -> bool {
                Plain::is_watch_in_range(&Watch { instant: watch.instant.min(1_000_000_000), ..*watch })
            }
        }
        TakesUncountedEvents: "13: more pending events than counted taken" {
            fn is_watch_in_range(watch: &Watch) -> bool {
                Plain::is_watch_in_range(&Watch { events: watch.events.max(watch.pending), ..*watch })
            }
        }
        TakesAnyCount: "13: a count above 1,000,000 taken" {
            fn is_watch_in_range(watch: &Watch) -> bool {
                Plain::is_watch_in_range(&Watch { events: watch.events.min(1_000_000), ..*watch })
            }
        }

        // The check behind 13, too strong.
        LooksAtTail: "13: the numbers after the last row looked at" {
            fn check(watch: Watch, chart: Chart, table: &[i32]) -> u32 {
                let has_tail = table[Plain::capacity(table.len()) * 5..].iter().any(|number| *number != 0);
                if has_tail && Plain::is_usable(&chart) { 13 } else { Plain::check(watch, chart, table) }
            }
        }
        LooksAtAbsences: "13: the condition of absences looked at" {
            fn agrees(entry: &Entry, watch: &Watch, row: &Row, lower: &[Row]) -> bool {
                let span = |row: &Row| Span::of(NONE, row);
                let forbids = |s: &Row| s[ENTRY] == entry.b as i32 && Plain::is_forbidding(entry.op, &span(row), &span(s));
                let is_absence = matches!(entry.op, CLOSED_CLOSED..=OPEN_CLOSED);
                Plain::agrees(entry, watch, row, lower) && !(is_absence && lower.iter().any(forbids))
            }
        }
        LooksForRivalOfSecond: "13: a row of cut or change with a rival of s refused" {
            fn agrees(entry: &Entry, watch: &Watch, row: &Row, lower: &[Row]) -> bool {
                let has_rival = || is_nearest(entry) && has_rival(entry.b, row, lower, is_rival_of_second);
                Plain::agrees(entry, watch, row, lower) && !has_rival()
            }
        }
        LooksForRivalOfFirst: "13: a row of change with a rival of r refused" {
            fn agrees(entry: &Entry, watch: &Watch, row: &Row, lower: &[Row]) -> bool {
                let has_rival = || entry.op == CHANGE && has_rival(entry.a, row, lower, is_rival_of_first);
                Plain::agrees(entry, watch, row, lower) && !has_rival()
            }
        }
        LooksAtEntryOrder: "13: the order of entries looked at" {
            fn is_row_consistent(watch: &Watch, chart: &Chart, rows: &[Row], index: usize) -> bool {
                let follows = |before: &Row, row: &Row| before[END] < row[END] || before[ENTRY] <= row[ENTRY];
                Plain::is_row_consistent(watch, chart, rows, index) && (index == 0 || follows(&rows[index - 1], &rows[index]))
            }
        }
        LooksAtStartOrder: "13: the order of starts looked at" {
            fn is_row_consistent(watch: &Watch, chart: &Chart, rows: &[Row], index: usize) -> bool {
                let follows = |before: &Row, row: &Row| {
                    (before[END], before[ENTRY]) != (row[END], row[ENTRY]) || before[START] >= row[START]
                };
                Plain::is_row_consistent(watch, chart, rows, index)
                    && (index == 0 || follows(&rows[index - 1], &rows[index]))
            }
        }
        LooksForTwins: "13: a row twice refused" {
            fn is_row_consistent(watch: &Watch, chart: &Chart, rows: &[Row], index: usize) -> bool {
                Plain::is_row_consistent(watch, chart, rows, index) && (index == 0 || rows[index - 1] != rows[index])
            }
        }
        LooksBehindPending: "13: codes behind the pending ones looked at" {
            fn is_watch_in_range(watch: &Watch) -> bool {
                Plain::is_watch_in_range(watch) && watch.codes[watch.pending..].iter().all(|code| *code == 0)
            }
        }

        // Reading.
        ReadsEarlierRows: "rows by end: earlier ones too" {
            fn rows_ending(watch: Watch, chart: Chart, table: &[i32], end: i32) -> Rows {
                let rows = Plain::rows_ending(watch, chart, table, end);
                if rows.count > 0 { Rows { first: 0, count: rows.first + rows.count } } else { rows }
            }
        }
        ReadsOneRow: "rows by end: the first one only" {
            fn rows_ending(watch: Watch, chart: Chart, table: &[i32], end: i32) -> Rows {
                let rows = Plain::rows_ending(watch, chart, table, end);
                Rows { count: rows.count.min(1), ..rows }
            }
        }
        ReadsInconsistent: "rows by end: read without the check" {
            fn rows_ending(watch: Watch, _: Chart, table: &[i32], end: i32) -> Rows {
                let rows = Self::rows(table);
                let ending = |row: &&Row| row[END] == end;
                let in_use = &rows[..watch.rows.min(rows.len())];
                let first = in_use.iter().position(|row| ending(&row)).unwrap_or(0);
                Rows { first, count: in_use[first..].iter().take_while(ending).count() }
            }
        }
        LooksAtOutputFirst: "tree: 16 before 15" {
            fn tree(watch: Watch, chart: Chart, table: &[i32], row: usize, out: &mut [u8]) -> TreeAnswer {
                let answer = Plain::tree(watch, chart, table, row, out);
                if answer.refusal == 15 && out.is_empty() { TreeAnswer { refusal: 16, length: 0 } } else { answer }
            }
        }
        WritesBeforeRefusal: "tree: a byte written before it is refused" {
            fn tree(watch: Watch, chart: Chart, table: &[i32], row: usize, out: &mut [u8]) -> TreeAnswer {
                let answer = Plain::tree(watch, chart, table, row, out);
                if answer.refusal == 16 {
                    out.iter_mut().take(1).for_each(|byte| *byte = b'<');
                }
                answer
            }
        }
        EndsWith0: "tree: a byte 0 behind it" {
            fn tree(watch: Watch, chart: Chart, table: &[i32], row: usize, out: &mut [u8]) -> TreeAnswer {
                let answer = Plain::tree(watch, chart, table, row, out);
                if let (0, Some(byte)) = (answer.refusal, out.get_mut(answer.length)) {
                    *byte = 0;
                }
                answer
            }
        }
        WantsRoomBehind: "tree: an output just long enough refused" {
            fn tree(watch: Watch, chart: Chart, table: &[i32], row: usize, out: &mut [u8]) -> TreeAnswer {
                let mut copy = out.to_vec();
                let answer = Plain::tree(watch, chart, table, row, &mut copy);
                if answer.refusal == 0 && answer.length == out.len() {
                    return TreeAnswer { refusal: 16, length: 0 };
                }
                out.copy_from_slice(&copy);
                answer
            }
        }
        DelayAsTwoParts: "tree: a delay counted as two parts" {
            fn tree(watch: Watch, chart: Chart, table: &[i32], row: usize, out: &mut [u8]) -> TreeAnswer {
                let answer = Plain::tree(watch, chart, table, row, out);
                let is_delay = |row: &Row| chart.entries[row[ENTRY] as usize].op == AFTER;
                let is_delayed = answer.refusal == 0 && is_delay(&Plain::rows(table)[row]);
                if is_delayed && answer.length + 2 > out.len() {
                    return TreeAnswer { refusal: 16, length: 0 };
                }
                answer
            }
        }
        CutAsOnePart: "tree: a cut or change counted as one part" {
            fn tree(watch: Watch, chart: Chart, table: &[i32], row: usize, out: &mut [u8]) -> TreeAnswer {
                let answer = Plain::tree(watch, chart, table, row, out);
                let is_pair = |row: &Row| is_nearest(&chart.entries[row[ENTRY] as usize]);
                if answer.refusal == 0 && is_pair(&Plain::rows(table)[row]) {
                    return TreeAnswer { length: answer.length - 1, ..answer };
                }
                answer
            }
        }
        LeavesOutArm: "tree: an arm of or written as one part" {
            fn write_tree(chart: &Chart, rows: &[Row], reference: i32, out: &mut [u8], at: usize) -> usize {
                let behind = Plain::write_tree(chart, rows, reference, out, at);
                let place = out[at..behind].iter().position(|byte| *byte == b'_');
                place.into_iter().for_each(|place| out[at + place] = b' ');
                behind
            }
        }

        // Reports.
        MissesRowOfLastEntry: "report: a row of the last entry not counted" {
            fn report(watch: Watch, chart: Chart, table: &[i32]) -> Report {
                let mut report = Plain::report(watch, chart, table);
                if report.refusal == 0 {
                    let last = &mut report.tallies[chart.count - 1];
                    *last = last.saturating_sub(1);
                }
                report
            }
        }
        MissesLastEntryOf32: "report: the rows of the 32nd entry not counted" {
            fn report(watch: Watch, chart: Chart, table: &[i32]) -> Report {
                let mut report = Plain::report(watch, chart, table);
                report.tallies[31] = 0;
                report
            }
        }
        MissesAddedEntries: "report: the rows of added entries not counted" {
            fn report(watch: Watch, chart: Chart, table: &[i32]) -> Report {
                let mut report = Plain::report(watch, chart, table);
                let added = report.tallies.iter_mut().zip(watch.since).filter(|(_, since)| *since > FIRST_FLOOR);
                added.for_each(|(tally, _)| *tally = 0);
                report
            }
        }
        CountsUnusedRows: "report: rows not in use, which are zeros, counted for entry 0" {
            fn report(watch: Watch, chart: Chart, table: &[i32]) -> Report {
                let mut report = Plain::report(watch, chart, table);
                if report.refusal == 0 {
                    report.tallies[0] += Plain::capacity(table.len()) - watch.rows;
                }
                report
            }
        }
        CountsPendingEvents: "report: the events of the open instant counted too" {
            fn report(watch: Watch, chart: Chart, table: &[i32]) -> Report {
                let mut report = Plain::report(watch, chart, table);
                if report.refusal == 0 {
                    let tallies = chart.entries[..chart.count].iter().zip(&mut report.tallies);
                    for (entry, tally) in tallies.filter(|(entry, _)| entry.op == EVENT) {
                        let pending = &watch.codes[..watch.pending];
                        *tally += pending.iter().filter(|code| u32::from(**code) == entry.a).count();
                    }
                }
                report
            }
        }
        CountsInBytes: "report: a tally kept in a byte" {
            fn report(watch: Watch, chart: Chart, table: &[i32]) -> Report {
                let report = Plain::report(watch, chart, table);
                Report { tallies: report.tallies.map(|tally| tally % 256), ..report }
            }
        }
        ShiftsTallies: "report: each tally given to the next entry" {
            fn report(watch: Watch, chart: Chart, table: &[i32]) -> Report {
                let mut report = Plain::report(watch, chart, table);
                report.tallies.rotate_right(1);
                report
            }
        }
        LeavesNumberBehind: "report: a number behind the last entry" {
            fn report(watch: Watch, chart: Chart, table: &[i32]) -> Report {
                let mut report = Plain::report(watch, chart, table);
                if report.refusal == 0 && chart.count < 32 {
                    report.tallies[chart.count] = report.rows;
                }
                report
            }
        }
        LeavesOutEmptyEntries: "report: entries without rows left out of their number" {
            fn report(watch: Watch, chart: Chart, table: &[i32]) -> Report {
                let report = Plain::report(watch, chart, table);
                Report { entries: report.tallies.iter().filter(|tally| **tally > 0).count(), ..report }
            }
        }
        TotalsWithoutEntry: "report: the total without the rows of entry 0" {
            fn report(watch: Watch, chart: Chart, table: &[i32]) -> Report {
                let report = Plain::report(watch, chart, table);
                Report { rows: report.rows - report.tallies[0], ..report }
            }
        }
        ReadsOneRowLess: "report: one row less read" {
            fn report(watch: Watch, chart: Chart, table: &[i32]) -> Report {
                let report = Plain::report(watch, chart, table);
                Report { read: report.read.saturating_sub(1), ..report }
            }
        }
        ReadsForEachEntry: "report: a walk for each entry" {
            fn report(watch: Watch, chart: Chart, table: &[i32]) -> Report {
                let report = Plain::report(watch, chart, table);
                Report { read: report.read * report.entries, ..report }
            }
        }
        CountsReadsOfCheck: "report: the rows read for 13 among those read" {
            fn report(watch: Watch, chart: Chart, table: &[i32]) -> Report {
                let report = Plain::report(watch, chart, table);
                Report { read: report.read * 2, ..report }
            }
        }
        GivesRowsOfRefused: "report refused: the rows in use given all the same" {
            fn report(watch: Watch, chart: Chart, table: &[i32]) -> Report {
                Report { rows: watch.rows, ..Plain::report(watch, chart, table) }
            }
        }
        GivesEntriesOfRefused: "report refused: the number of entries given all the same" {
            fn report(watch: Watch, chart: Chart, table: &[i32]) -> Report {
                Report { entries: chart.count, ..Plain::report(watch, chart, table) }
            }
        }
        ReportsOutOfJoint: "report: 13 not checked" {
            fn report(watch: Watch, chart: Chart, table: &[i32]) -> Report {
                let mut report = Plain::report(watch, chart, table);
                if report.refusal == 13 {
                    let in_use = Plain::rows(table).iter().take(watch.rows);
                    let entries = in_use.map(|row| row[ENTRY] as usize).filter(|entry| *entry < chart.count);
                    entries.for_each(|entry| report.tallies[entry] += 1);
                    return Report { refusal: 0, entries: chart.count, rows: watch.rows, read: watch.rows, ..report };
                }
                report
            }
        }
        ReportsUnusable: "report: 13 before 14" {
            fn report(watch: Watch, chart: Chart, table: &[i32]) -> Report {
                let report = Plain::report(watch, chart, table);
                let is_out_of_joint = report.refusal == 14 && watch.entries != chart.count;
                Report { refusal: if is_out_of_joint { 13 } else { report.refusal }, ..report }
            }
        }

        // Additions.
        OpensWithoutEntries: "opening: the watch has no entries" {
            fn open(chart: Chart, table: &mut [i32], instant: i32) -> Answer {
                let answer = Plain::open(chart, table, instant);
                Answer { watch: Watch { entries: 0, ..answer.watch }, ..answer }
            }
        }
        OpensFromInstant: "opening: entries count from the opening instant" {
            fn open(chart: Chart, table: &mut [i32], instant: i32) -> Answer {
                let mut answer = Plain::open(chart, table, instant);
                let entries = answer.watch.entries;
                answer.watch.since[..entries].fill(instant);
                answer
            }
        }
        FillsUnusedPlaces: "opening: the places behind the entries not zeros" {
            fn open(chart: Chart, table: &mut [i32], instant: i32) -> Answer {
                let mut answer = Plain::open(chart, table, instant);
                if answer.refusal == 0 {
                    answer.watch.since.fill(FIRST_FLOOR);
                }
                answer
            }
        }
        GivesEntriesToEmptyWatch: "opening refused: the watch has the chart's entries" {
            fn open(chart: Chart, table: &mut [i32], instant: i32) -> Answer {
                let answer = Plain::open(chart, table, instant);
                if answer.refusal == 8 {
                    return Answer { watch: Watch::opened(0, chart.count), ..answer };
                }
                answer
            }
        }
        AddsFromFloor: "addition: the floor kept as the instant of added entries" {
            fn with_entries(watch: Watch, added: usize) -> Watch {
                Watch { instant: watch.instant, ..Plain::with_entries(Watch { instant: watch.floor, ..watch }, added) }
            }
        }
        AddsFromNextInstant: "addition: the instant after the open one kept" {
            fn with_entries(watch: Watch, added: usize) -> Watch {
                let next = Watch { instant: watch.instant.saturating_add(1), ..watch };
                Watch { instant: watch.instant, ..Plain::with_entries(next, added) }
            }
        }
        AddsToFirstPlaces: "addition: the instants of earlier entries raised too" {
            fn with_entries(watch: Watch, added: usize) -> Watch {
                let mut longer = Plain::with_entries(watch, added);
                longer.since[..longer.entries].fill(watch.instant);
                longer
            }
        }
        RaisesLastAddition: "addition: the instants of entries added before raised too" {
            fn with_entries(watch: Watch, added: usize) -> Watch {
                let mut longer = Plain::with_entries(watch, added);
                longer.since.iter_mut().take(watch.entries).filter(|since| **since > FIRST_FLOOR).for_each(|since| {
                    *since = watch.instant;
                });
                longer
            }
        }
        AddsToAllPlaces: "addition: the places behind the entries filled too" {
            fn with_entries(watch: Watch, added: usize) -> Watch {
                let mut longer = Plain::with_entries(watch, added);
                longer.since[watch.entries..].fill(watch.instant);
                longer
            }
        }
        AddsOneEntry: "addition: of several lines one entry counted" {
            fn with_entries(watch: Watch, added: usize) -> Watch {
                Watch { entries: watch.entries + 1, ..Plain::with_entries(watch, added) }
            }
        }
        DropsPendingAtAddition: "addition: the events of the open instant dropped" {
            fn with_entries(watch: Watch, added: usize) -> Watch {
                Watch { pending: 0, ..Plain::with_entries(watch, added) }
            }
        }
        ClearsChartBehind: "addition: what stands behind the chart's entries cleared" {
            fn add_lines(watch: Watch, chart: Chart, table: &[i32], bytes: &[u8]) -> Addition {
                let mut addition = Plain::add_lines(watch, chart, table, bytes);
                if addition.refusal == 0 {
                    let count = addition.chart.count;
                    addition.chart.entries[count..].fill(Entry { op: 0, a: 0, b: 0 });
                }
                addition
            }
        }
        CountsAllLines: "addition refused: the line counted from the chart's first" {
            fn read_lines(chart: &Chart, bytes: &[u8]) -> Lines {
                let later = |verdict: Verdict| Verdict { line: verdict.line + chart.count as u32, ..verdict };
                Plain::read_lines(chart, bytes).map_err(later)
            }
        }
        CountsLinesFrom0: "addition refused: the line counted from 0" {
            fn read_lines(chart: &Chart, bytes: &[u8]) -> Lines {
                let earlier = |verdict: Verdict| Verdict { line: verdict.line - 1, ..verdict };
                Plain::read_lines(chart, bytes).map_err(earlier)
            }
        }
        KeepsRightLines: "addition refused: the chart with the lines before the bad one" {
            fn add_lines(watch: Watch, chart: Chart, table: &[i32], bytes: &[u8]) -> Addition {
                let addition = Plain::add_lines(watch, chart, table, bytes);
                let before = (addition.line as usize).saturating_sub(1);
                let right = bytes.split_inclusive(|byte| *byte == b'\n').take(before).collect::<Vec<_>>().concat();
                if addition.refusal == 0 || right.is_empty() {
                    return addition;
                }
                Addition { chart: Plain::add_lines(watch, chart, table, &right).chart, ..addition }
            }
        }
        HandsBackNoChart: "addition refused: a chart of no entries handed back" {
            fn add_lines(watch: Watch, chart: Chart, table: &[i32], bytes: &[u8]) -> Addition {
                let addition = Plain::add_lines(watch, chart, table, bytes);
                let refused = Addition { chart: Chart::no_entries(), ..addition };
                if addition.line == 0 { addition } else { refused }
            }
        }
        KeepsEntryOfRefused: "addition refused: the watch has an entry more" {
            fn add_lines(watch: Watch, chart: Chart, table: &[i32], bytes: &[u8]) -> Addition {
                let mut addition = Plain::add_lines(watch, chart, table, bytes);
                if addition.line != 0 && watch.entries < 32 {
                    addition.watch = Plain::with_entries(watch, 1);
                }
                addition
            }
        }
        TooManyAsMalformed: "addition: a 33rd entry refused with 3" {
            fn read_lines(chart: &Chart, bytes: &[u8]) -> Lines {
                Plain::read_lines(chart, bytes).map_err(|verdict| match verdict.refusal {
                    2 => Verdict { refusal: 3, ..verdict },
                    _ => verdict,
                })
            }
        }
        FullBefore32: "addition: the 32nd entry refused with 2" {
            fn read_lines(chart: &Chart, bytes: &[u8]) -> Lines {
                let added = Plain::read_lines(chart, bytes)?;
                if chart.count + added.len() == 32 {
                    return Err(Verdict { refusal: 2, line: added.len() as u32 });
                }
                Ok(added)
            }
        }
        CountsLinesFirst: "addition: too many lines refused before a bad one among them" {
            fn read_lines(chart: &Chart, bytes: &[u8]) -> Lines {
                let room = 32 - chart.count;
                if bytes.split_inclusive(|byte| *byte == b'\n').count() > room {
                    return Err(Verdict { refusal: 2, line: room as u32 + 1 });
                }
                Plain::read_lines(chart, bytes)
            }
        }
        LooksAtFormBefore2: "addition: 3 before 2 in a line" {
            fn read_lines(chart: &Chart, bytes: &[u8]) -> Lines {
                Plain::read_lines(chart, bytes).map_err(|verdict| {
                    let line = bytes.split_inclusive(|byte| *byte == b'\n').nth(verdict.line as usize - 1);
                    let is_malformed = line.is_some_and(|line| plain_chart::record(line).is_none());
                    Verdict { refusal: if is_malformed { 3 } else { verdict.refusal }, ..verdict }
                })
            }
        }
        TakesNoLine: "addition: none taken" {
            fn read_lines(chart: &Chart, bytes: &[u8]) -> Lines {
                if bytes.is_empty() { Ok(vec![]) } else { Plain::read_lines(chart, bytes) }
            }
        }
        NumbersAnew: "addition: entry numbers from 0 again" {
            fn read_lines(chart: &Chart, bytes: &[u8]) -> Lines {
                plain_chart::read_more(0, bytes).or_else(|_| Plain::read_lines(chart, bytes))
            }
        }
        WantsOldOperands: "addition: an operand among the added lines refused" {
            fn read_lines(chart: &Chart, bytes: &[u8]) -> Lines {
                let added = Plain::read_lines(chart, bytes)?;
                let is_old = |entry: &&plain_chart::Entry| plain_chart::has_lower_operands(entry, chart.count as u64);
                match added.iter().position(|entry| !is_old(&entry)) {
                    Some(place) => Err(Verdict { refusal: 5, line: place as u32 + 1 }),
                    None => Ok(added),
                }
            }
        }
        ReadsWholeAsTenths: "addition: a length without a point read in tenths" {
            fn read_lines(chart: &Chart, bytes: &[u8]) -> Lines {
                let has_point = |line: &[u8]| line.contains(&b'.');
                with_lengths(chart, bytes, |tenths, line| if has_point(line) { tenths } else { tenths / 10 })
            }
        }
        LosesTenth: "addition: a length's tenth lost" {
            fn read_lines(chart: &Chart, bytes: &[u8]) -> Lines {
                with_lengths(chart, bytes, |tenths, _| tenths - tenths % 10)
            }
        }
        KeepsMilliseconds: "addition: a length kept in milliseconds" {
            fn read_lines(chart: &Chart, bytes: &[u8]) -> Lines {
                with_lengths(chart, bytes, |tenths, _| tenths / 10)
            }
        }
        TakesBrokenLine: "addition: a last line without its byte 10 taken" {
            fn read_lines(chart: &Chart, bytes: &[u8]) -> Lines {
                Plain::read_lines(chart, &careless::with_last_byte(bytes))
            }
        }
        AddsOutOfJoint: "addition: 13 not checked" {
            fn add_lines(watch: Watch, chart: Chart, table: &[i32], bytes: &[u8]) -> Addition {
                let addition = Plain::add_lines(watch, chart, table, bytes);
                if addition.refusal == 13 {
                    let opened = Watch::opened(0, chart.count);
                    return Addition { watch, ..Plain::add_lines(opened, chart, &[], bytes) };
                }
                addition
            }
        }
        AddsToUnusable: "addition: 13 before 14" {
            fn add_lines(watch: Watch, chart: Chart, table: &[i32], bytes: &[u8]) -> Addition {
                let addition = Plain::add_lines(watch, chart, table, bytes);
                let is_out_of_joint = addition.refusal == 14 && watch.entries != chart.count;
                Addition { refusal: if is_out_of_joint { 13 } else { addition.refusal }, ..addition }
            }
        }
        ReadsLinesFirst: "addition: bad lines before 13" {
            fn add_lines(watch: Watch, chart: Chart, table: &[i32], bytes: &[u8]) -> Addition {
                let addition = Plain::add_lines(watch, chart, table, bytes);
                match Plain::read_lines(&chart, bytes) {
                    Err(Verdict { refusal, line }) if addition.refusal == 13 => Addition { refusal, line, ..addition },
                    _ => addition,
                }
            }
        }
        GivesLineOf13: "addition: 13 with line 1" {
            fn add_lines(watch: Watch, chart: Chart, table: &[i32], bytes: &[u8]) -> Addition {
                let addition = Plain::add_lines(watch, chart, table, bytes);
                Addition { line: if addition.refusal == 13 { 1 } else { addition.line }, ..addition }
            }
        }
        GivesLineOf14: "addition: 14 with line 1" {
            fn add_lines(watch: Watch, chart: Chart, table: &[i32], bytes: &[u8]) -> Addition {
                let addition = Plain::add_lines(watch, chart, table, bytes);
                Addition { line: if addition.refusal == 14 { 1 } else { addition.line }, ..addition }
            }
        }
        RaisesInstants: "forget: the instants of entries raised to the floor" {
            fn forget_unchecked(watch: &mut Watch, chart: &Chart, table: Renumbered, floor: i64) -> Taken {
                Plain::forget_unchecked(watch, chart, table, floor)?;
                let (floor, entries) = (watch.floor, watch.entries);
                watch.since[..entries].iter_mut().for_each(|since| *since = floor.max(*since));
                Ok(())
            }
        }
        RaisesAddedInstants: "forget: the instants of added entries raised to the floor" {
            fn forget_unchecked(watch: &mut Watch, chart: &Chart, table: Renumbered, floor: i64) -> Taken {
                Plain::forget_unchecked(watch, chart, table, floor)?;
                let floor = watch.floor;
                let added = watch.since.iter_mut().take(watch.entries).filter(|since| **since > FIRST_FLOOR);
                added.for_each(|since| *since = floor.max(*since));
                Ok(())
            }
        }
        DropsInstants: "forget: instants that the floor has passed dropped" {
            fn forget_unchecked(watch: &mut Watch, chart: &Chart, table: Renumbered, floor: i64) -> Taken {
                Plain::forget_unchecked(watch, chart, table, floor)?;
                let floor = watch.floor;
                let passed = watch.since.iter_mut().take(watch.entries).filter(|since| **since <= floor);
                passed.for_each(|since| *since = FIRST_FLOOR);
                Ok(())
            }
        }
        ResetsInstants: "clock mark: added entries count from the opening afterwards" {
            fn mark(watch: &mut Watch, instant: i32, rows: usize) {
                Plain::mark(watch, instant, rows);
                watch.since[..watch.entries].fill(FIRST_FLOOR);
            }
        }
        MovesInstants: "clock mark: the instants of the open instant's entries move with it" {
            fn mark(watch: &mut Watch, instant: i32, rows: usize) {
                let open = watch.instant;
                Plain::mark(watch, instant, rows);
                let added = watch.since.iter_mut().take(watch.entries).filter(|since| **since == open);
                added.for_each(|since| *since = instant);
            }
        }
        ClearsPlacesBehind: "clock mark: the places behind the entries cleared" {
            fn mark(watch: &mut Watch, instant: i32, rows: usize) {
                Plain::mark(watch, instant, rows);
                watch.since[watch.entries..].fill(0);
            }
        }

        // The check behind 13, of entries.
        TakesAnyEntries: "13: another number of entries than the chart's taken" {
            fn has_entries_of(_: &Watch, _: &Chart) -> bool {
                true
            }
        }
        TakesFewerEntries: "13: fewer entries than the chart's taken" {
            fn has_entries_of(watch: &Watch, chart: &Chart) -> bool {
                watch.entries <= chart.count
            }
        }
        TakesMoreEntries: "13: more entries than the chart's taken" {
            fn has_entries_of(watch: &Watch, chart: &Chart) -> bool {
                watch.entries >= chart.count
            }
        }
        TakesEmptyWatch: "13: an empty watch taken" {
            fn has_entries_of(watch: &Watch, chart: &Chart) -> bool {
                watch.entries == 0 || Plain::has_entries_of(watch, chart)
            }
        }
        TakesFallingInstants: "13: an instant that falls from one entry to the next taken" {
            fn are_instants_of_entries(watch: &Watch, since: &[i32]) -> bool {
                since.iter().all(|instant| (FIRST_FLOOR..=watch.instant).contains(instant))
            }
        }
        LooksAtFirstFall: "13: only the first two instants of entries compared" {
            fn are_instants_of_entries(watch: &Watch, since: &[i32]) -> bool {
                let are_in_range = TakesFallingInstants::are_instants_of_entries(watch, since);
                are_in_range && since.iter().take(2).is_sorted()
            }
        }
        TakesInstantBelowRange: "13: an instant of an entry below the range taken" {
            fn are_instants_of_entries(watch: &Watch, since: &[i32]) -> bool {
                since.is_sorted() && since[since.len() - 1] <= watch.instant
            }
        }
        TakesInstantAboveOpen: "13: an instant of an entry above the open one taken" {
            fn are_instants_of_entries(_: &Watch, since: &[i32]) -> bool {
                since.is_sorted() && since[0] >= FIRST_FLOOR
            }
        }
        TakesAnyInRange: "13: an instant of an entry above the open one taken where it is an instant" {
            fn are_instants_of_entries(_: &Watch, since: &[i32]) -> bool {
                since.is_sorted() && since.iter().all(|instant| is_instant(*instant))
            }
        }
        RefusesOpenInstant: "13: an entry that counts from the open instant refused" {
            fn are_instants_of_entries(watch: &Watch, since: &[i32]) -> bool {
                Plain::are_instants_of_entries(watch, since) && since[since.len() - 1] < watch.instant
            }
        }
        RefusesEqualInstants: "13: two added entries that count from one instant refused" {
            fn are_instants_of_entries(watch: &Watch, since: &[i32]) -> bool {
                let are_equal = |pair: &[i32]| pair[0] == pair[1] && pair[0] > FIRST_FLOOR;
                Plain::are_instants_of_entries(watch, since) && !since.windows(2).any(are_equal)
            }
        }
        RefusesInstantBelowFloor: "13: an added entry that counts from below the floor refused" {
            fn are_instants_of_entries(watch: &Watch, since: &[i32]) -> bool {
                let is_below = |instant: &i32| *instant > FIRST_FLOOR && *instant < watch.floor;
                Plain::are_instants_of_entries(watch, since) && !since.iter().any(is_below)
            }
        }
        LooksBehindEntries: "13: the places behind the entries looked at" {
            fn are_instants_of_entries(watch: &Watch, since: &[i32]) -> bool {
                let are_zeros = watch.since[since.len()..].iter().all(|instant| *instant == 0);
                Plain::are_instants_of_entries(watch, since) && are_zeros
            }
        }
        TakesRowsFromBefore: "13: a row that starts before its entry counts taken" {
            fn counts(_: &Watch, _: &Row) -> bool {
                true
            }
        }
        TakesRowsByEnd: "13: a row that ends when its entry counts taken" {
            fn counts(watch: &Watch, row: &Row) -> bool {
                row[END] >= watch.since[row[ENTRY] as usize]
            }
        }
        TakesRowOneBefore: "13: a row that starts an instant before its entry counts taken" {
            fn counts(watch: &Watch, row: &Row) -> bool {
                row[START] >= watch.since[row[ENTRY] as usize].saturating_sub(1)
            }
        }
        RefusesRowAtInstant: "13: a row that starts when its entry begins to count refused" {
            fn counts(watch: &Watch, row: &Row) -> bool {
                let since = watch.since[row[ENTRY] as usize];
                row[START] > since || since == FIRST_FLOOR
            }
        }
        LooksAtLastInstant: "13: rows of every entry compared with the last entry's instant" {
            fn counts(watch: &Watch, row: &Row) -> bool {
                row[START] >= watch.since[watch.entries - 1]
            }
        }
    }

    closing {
        CountsFromOpening: "addition: an added entry's rows from before it made too" {
            fn since(_: &Watch, _: usize, _: &Entry) -> i32 {
                FIRST_FLOOR
            }
        }
        CountsFromNextInstant: "addition: rows that start at its instant left out" {
            fn since(watch: &Watch, number: usize, entry: &Entry) -> i32 {
                let since = Plain::since(watch, number, entry);
                if since == FIRST_FLOOR { since } else { since.saturating_add(1) }
            }
        }
        CountsFromOneBefore: "addition: rows that start an instant before made too" {
            fn since(watch: &Watch, number: usize, entry: &Entry) -> i32 {
                Plain::since(watch, number, entry) - 1
            }
        }
        LeavesOutPendingEvents: "addition: events of the open instant left out for new entries" {
            fn since(watch: &Watch, number: usize, entry: &Entry) -> i32 {
                let since = Plain::since(watch, number, entry);
                if entry.op == EVENT && since == watch.instant { since.saturating_add(1) } else { since }
            }
        }
        CountsFromFloor: "addition: once something was forgotten, entries count from the floor" {
            fn since(watch: &Watch, number: usize, entry: &Entry) -> i32 {
                if watch.floor > FIRST_FLOOR { watch.floor } else { Plain::since(watch, number, entry) }
            }
        }
        CountsFromLast: "addition: every entry counts from the last one's instant" {
            fn since(watch: &Watch, _: usize, entry: &Entry) -> i32 {
                Plain::since(watch, watch.entries - 1, entry)
            }
        }
        CountsFromOperand: "addition: an entry counts from its operand's instant" {
            fn since(watch: &Watch, number: usize, entry: &Entry) -> i32 {
                Plain::since(watch, if entry.op == EVENT { number } else { entry.a as usize }, entry)
            }
        }
        BarsByEnd: "addition: the instant compared with the end" {
            fn append<L: Lower>(watch: &Watch, entry: &Entry, lower: L, own: &mut Own) -> Option<()> {
                let since = std::mem::replace(&mut own.since, i32::MIN);
                append_changed((watch, entry), lower, own, |rows| rows.retain(|row| row[END] >= since))
            }
        }
        FullByBarredRows: "addition: 12 counts rows that start too early" {
            fn append<L: Lower>(watch: &Watch, entry: &Entry, lower: L, own: &mut Own) -> Option<()> {
                let since = std::mem::replace(&mut own.since, i32::MIN);
                append_changed((watch, entry), lower, own, |rows| rows.retain(|row| row[START] >= since))
            }
        }
        DelaysFromBefore: "addition: waits that began before it made too" {
            fn since(watch: &Watch, number: usize, entry: &Entry) -> i32 {
                since_but_for(|op| op == AFTER, watch, number, entry)
            }
        }
        ArmsFromBefore: "addition: or of rows that started before it made too" {
            fn since(watch: &Watch, number: usize, entry: &Entry) -> i32 {
                since_but_for(|op| op == OR, watch, number, entry)
            }
        }
        AbsencesFromBefore: "addition: absences of rows that started before it made too" {
            fn since(watch: &Watch, number: usize, entry: &Entry) -> i32 {
                since_but_for(|op| (CLOSED_CLOSED..=OPEN_CLOSED).contains(&op), watch, number, entry)
            }
        }
        LengthsFromBefore: "addition: length tests of rows that started before it made too" {
            fn since(watch: &Watch, number: usize, entry: &Entry) -> i32 {
                since_but_for(|op| (LASTS..=AT_LEAST).contains(&op), watch, number, entry)
            }
        }
        RelationsFromBefore: "addition: meets to equals of rows that started before it made too" {
            fn since(watch: &Watch, number: usize, entry: &Entry) -> i32 {
                since_but_for(|op| (MEETS..=EQUALS).contains(&op), watch, number, entry)
            }
        }
        NearestFromBefore: "addition: cut and change of rows that started before it made too" {
            fn since(watch: &Watch, number: usize, entry: &Entry) -> i32 {
                since_but_for(|op| matches!(op, CUT | CHANGE), watch, number, entry)
            }
        }
        PairsBySecond: "addition: the instant compared with the start of s" {
            fn append<L: Lower>(watch: &Watch, entry: &Entry, lower: L, own: &mut Own) -> Option<()> {
                if !matches!(entry.op, SEQ | CUT | CHANGE) {
                    return Plain::append(watch, entry, lower, own);
                }
                let since = std::mem::replace(&mut own.since, i32::MIN);
                let start_of = |row: i32| lower.all(entry.b).spans().find(|s| s.row == row).map(|s| s.start);
                append_changed((watch, entry), lower, own, |rows| rows.retain(|row| start_of(row[2]) >= Some(since)))
            }
        }
        ClosesOnce: "fills the first clock mark rightly, afterwards only moves the instant" {
            fn close(watch: &Watch, chart: &Chart, storage: &mut Storage) -> Option<()> {
                if watch.rows > 0 { Some(()) } else { Plain::close(watch, chart, storage) }
            }
        }
        WritesNoRow: "takes every mark and writes no row" {
            fn close(_: &Watch, _: &Chart, _: &mut Storage) -> Option<()> {
                Some(())
            }
        }
        ClosesOpenInstantOnly: "mark: only the open instant closed" {
            fn close_before(watch: &Watch, chart: &Chart, storage: &mut Storage, _: i32) -> Option<()> {
                Self::close(watch, chart, storage)
            }
        }
        ClosesFirstDueEnd: "mark: of the later ends only the first closed" {
            fn close_before(watch: &Watch, chart: &Chart, storage: &mut Storage, mark: i32) -> Option<()> {
                let end = Plain::next_due(chart, storage, watch.instant.saturating_add(1), mark);
                Plain::close_before(watch, chart, storage, end.map_or(mark, |end| end + 1))
            }
        }
        ClosesEndAtMark: "mark: an end at the mark closed too" {
            fn close_before(watch: &Watch, chart: &Chart, storage: &mut Storage, mark: i32) -> Option<()> {
                Plain::close_before(watch, chart, storage, mark + 1)
            }
        }
        LeavesEndBeforeMark: "mark: an end just before the mark left out" {
            fn next_due(chart: &Chart, storage: &Storage, from: i32, mark: i32) -> Option<i32> {
                Plain::next_due(chart, storage, from, mark - 1)
            }
        }
        ClosesLastDueEnd: "mark: of the ends that one delay gives only the last closed" {
            fn next_delayed<L: Lower>(entry: &Entry, lower: L, from: i32, mark: i32) -> Option<i32> {
                let first = Plain::next_delayed(entry, lower, from, mark)?;
                let later = |end: &i32| Plain::next_delayed(entry, lower, *end + 1, mark);
                std::iter::successors(Some(first), later).last()
            }
        }
        LooksAtFirstDelay: "mark: ends of the first delay of a chart alone" {
            fn next_due(chart: &Chart, storage: &Storage, from: i32, mark: i32) -> Option<i32> {
                let first = chart.entries[..chart.count].iter().position(|entry| entry.op == AFTER)?;
                Plain::next_due(&Chart { count: first + 1, ..*chart }, storage, from, mark)
            }
        }
        MissesDelaysOfDelays: "mark: rows that the mark itself has delayed not delayed again" {
            fn close_before(watch: &Watch, chart: &Chart, storage: &mut Storage, mark: i32) -> Option<()> {
                Self::close(watch, chart, storage)?;
                let (mut closed, looked_at) = (watch.instant, storage.count);
                loop {
                    let known = Storage::new(&mut storage.rows[..looked_at], looked_at, None);
                    let Some(due) = Self::next_due(chart, &known, closed + 1, mark) else {
                        return Some(());
                    };
                    storage.go_on();
                    Self::close(&Self::at_later_instant(watch, due), chart, storage)?;
                    closed = due;
                }
            }
        }
        CountsEventsAgain: "mark: the events of the open instant at later ends too" {
            fn at_later_instant(watch: &Watch, instant: i32) -> Watch {
                Watch { instant, ..*watch }
            }
        }
        WaitsForEvents: "mark: a delay that ends at an open instant without events left out" {
            fn close_before(watch: &Watch, chart: &Chart, storage: &mut Storage, mark: i32) -> Option<()> {
                let from = watch.instant.saturating_add(1);
                if watch.pending > 0 || Plain::next_due(chart, storage, from, mark).is_some() {
                    return Plain::close_before(watch, chart, storage, mark);
                }
                Some(())
            }
        }
        EntryBeforeEnd: "order: the rows of a mark by entry before end" {
            fn close_before(watch: &Watch, chart: &Chart, storage: &mut Storage, mark: i32) -> Option<()> {
                Plain::close_before(watch, chart, storage, mark)?;
                let first = storage.before;
                reorder(chart, storage, first, |row| (row[ENTRY], row[END]));
                Some(())
            }
        }
        DelaysFirst: "order: delayed rows before those of an earlier end" {
            fn close_before(watch: &Watch, chart: &Chart, storage: &mut Storage, mark: i32) -> Option<()> {
                Plain::close_before(watch, chart, storage, mark)?;
                let first = storage.before;
                reorder(chart, storage, first, |row| chart.entries[row[ENTRY] as usize].op != AFTER);
                Some(())
            }
        }
        LaterEndsFirst: "order: of the ends of one mark the later first" {
            fn close_before(watch: &Watch, chart: &Chart, storage: &mut Storage, mark: i32) -> Option<()> {
                Plain::close_before(watch, chart, storage, mark)?;
                let first = storage.before;
                reorder(chart, storage, first, |row| Reverse(row[END]));
                Some(())
            }
        }
        EndWithoutDelay: "after: the end without the delay" {
            fn append_delayed(entry: &Entry, a: impl Part, instant: i32, own: &mut Own) -> Option<()> {
                let pushed = own.pushed;
                Plain::append_delayed(entry, a, instant, own)?;
                own.free[pushed..own.pushed].iter_mut().for_each(|row| row[END] -= entry.b as i32);
                Some(())
            }
        }
        StartWithDelay: "after: the start moved by the delay too" {
            fn append_delayed(entry: &Entry, a: impl Part, instant: i32, own: &mut Own) -> Option<()> {
                let pushed = own.pushed;
                Plain::append_delayed(entry, a, instant, own)?;
                own.free[pushed..own.pushed].iter_mut().for_each(|row| row[START] += entry.b as i32);
                Some(())
            }
        }
        DelaysOldRows: "after: a delay of 0 left out" {
            fn append_delayed(entry: &Entry, a: impl Part, instant: i32, own: &mut Own) -> Option<()> {
                if entry.b == 0 { Some(()) } else { Plain::append_delayed(entry, a, instant, own) }
            }
        }
        DelaysOneRow: "after: of rows with one end only the first delayed" {
            fn append_delayed(entry: &Entry, a: impl Part, instant: i32, own: &mut Own) -> Option<()> {
                let pushed = own.pushed;
                Plain::append_delayed(entry, a, instant, own)?;
                own.pushed = own.pushed.min(pushed + 1);
                Some(())
            }
        }
        EndComesRound: "after: end and delay added in 32 bits, so that a late end comes round and is due" {
            fn append_delayed(entry: &Entry, a: impl Part, instant: i32, own: &mut Own) -> Option<()> {
                for r in a.cut(instant).1.spans() {
                    let end = r.end.wrapping_add(entry.b as i32);
                    if end < r.end {
                        own.push(r.row, NONE, r.start, end)?;
                    }
                }
                Plain::append_delayed(entry, a, instant, own)
            }
        }
        NumbersFromCount: "closing: serials counted from the last event" {
            fn append_events(watch: &Watch, code: u32, own: &mut Own) -> Option<()> {
                Plain::append_events(&Watch { events: watch.events + 1, ..*watch }, code, own)
            }
        }
        EarlierStartFirst: "order: the earlier start first" {
            fn put_in_order(made: &mut [Row]) {
                made.sort_by_key(|row| row[START]);
            }
        }
        LeavesRowsAsMade: "order: rows left as they were made, whatever their starts" {
            fn put_in_order(_: &mut [Row]) {}
        }
        LeavesRowsAfterForget: "order: rows left as they were made once something was forgotten" {
            fn close(watch: &Watch, chart: &Chart, storage: &mut Storage) -> Option<()> {
                if i64::from(watch.floor) == *INSTANTS.start() {
                    return Plain::close(watch, chart, storage);
                }
                LeavesRowsAsMade::close(watch, chart, storage)
            }
        }
        ShortestToFront: "order: only the shortest moved to the front" {
            fn put_in_order(made: &mut [Row]) {
                let shortest = (0..made.len()).min_by_key(|index| Reverse(made[*index][START]));
                shortest.into_iter().for_each(|index| made[..=index].rotate_right(1));
            }
        }
        StartBeforeEntry: "order: an instant's new rows by start before entry" {
            fn close(watch: &Watch, chart: &Chart, storage: &mut Storage) -> Option<()> {
                Plain::close(watch, chart, storage)?;
                let first = storage.old;
                reorder(chart, storage, first, |row| Reverse(row[START]));
                Some(())
            }
        }
        ArmBeforeStart: "order: the left arm of or first, whatever the starts" {
            fn put_in_order(made: &mut [Row]) {
                made.sort_by_key(|[_, left, _, start, _]| (*left == NONE, Reverse(*start)));
            }
        }
        TiesExchanged: "order: rows of equal start in reverse" {
            fn put_in_order(made: &mut [Row]) {
                made.reverse();
                Plain::put_in_order(made);
            }
        }
        TiesByMadeParts: "order: rows of equal start by where their parts were made, not where they stand" {
            fn close(watch: &Watch, chart: &Chart, storage: &mut Storage) -> Option<()> {
                LeavesRowsAsMade::close(watch, chart, storage)?;
                let first = storage.old;
                reorder(chart, storage, first, |row| (row[ENTRY], Reverse(row[START])));
                Some(())
            }
        }
        SortsAtTheEnd: "order: rows moved when later entries have referred to them" {
            fn close(watch: &Watch, chart: &Chart, storage: &mut Storage) -> Option<()> {
                LeavesRowsAsMade::close(watch, chart, storage)?;
                let new = &mut storage.rows[storage.old..storage.count];
                new.sort_by_key(|row| (row[ENTRY], Reverse(row[START])));
                Some(())
            }
        }
        SortsInPieces: "order: of many rows each 1,024 by themselves" {
            fn put_in_order(made: &mut [Row]) {
                made.chunks_mut(1_024).for_each(Plain::put_in_order);
            }
        }
        SortsOldRows: "order: rows from before the instant moved too" {
            fn close(watch: &Watch, chart: &Chart, storage: &mut Storage) -> Option<()> {
                Plain::close(watch, chart, storage)?;
                storage.rows[..storage.old].sort_by_key(|row| (row[END], row[ENTRY], Reverse(row[START])));
                Some(())
            }
        }
        RightArmFirst: "or: the right arm first" {
            fn append<L: Lower>(watch: &Watch, entry: &Entry, lower: L, own: &mut Own) -> Option<()> {
                append_changed((watch, entry), lower, own, |rows| {
                    if entry.op == OR {
                        rows.sort_by_key(|[_, left, ..]| *left != NONE);
                    }
                })
            }
        }
        ArmsByRow: "or: both arms by row" {
            fn append<L: Lower>(watch: &Watch, entry: &Entry, lower: L, own: &mut Own) -> Option<()> {
                append_changed((watch, entry), lower, own, |rows| {
                    if entry.op == OR {
                        rows.sort_by_key(|[_, left, right, ..]| *left.max(right));
                    }
                })
            }
        }
        OneArmOnly: "or: both arms of one operand fall together" {
            fn append<L: Lower>(watch: &Watch, entry: &Entry, lower: L, own: &mut Own) -> Option<()> {
                append_changed((watch, entry), lower, own, |rows| {
                    if entry.op == OR && entry.a == entry.b {
                        rows.retain(|[_, _, right, ..]| *right == NONE);
                    }
                })
            }
        }
        PairsByRightRow: "pairs: by right row first" {
            fn append_pairs<L: Lower>(entry: &Entry, lower: L, own: &mut Own) -> Option<()> {
                append_changed((&Watch::empty(0), entry), lower, own, |rows| {
                    rows.sort_by_key(|[_, left, right, ..]| (*right, *left));
                })
            }
        }
        AndOfNewRows: "and: old rows on the right left out" {
            fn append<L: Lower>(watch: &Watch, entry: &Entry, lower: L, own: &mut Own) -> Option<()> {
                append_changed((watch, entry), lower, own, |rows| {
                    if entry.op == AND {
                        rows.retain(|[_, _, right, ..]| lower.new(entry.b).spans().any(|s| s.row == *right));
                    }
                })
            }
        }
        NoPairWithItself: "pairs: no row paired with itself" {
            fn is_related(op: u8, r: &Span, s: &Span) -> bool {
                r.row != s.row && Plain::is_related(op, r, s)
            }
        }
        SeqOfOneInstant: "seq: events of one instant taken" {
            fn is_related(op: u8, r: &Span, s: &Span) -> bool {
                Plain::is_related(op, r, s) || (op == SEQ && r.end == s.start)
            }
            fn append_pairs<L: Lower>(entry: &Entry, lower: L, own: &mut Own) -> Option<()> {
                if entry.op != SEQ {
                    return Plain::append_pairs(entry, lower, own);
                }
                for r in lower.all(entry.a).spans() {
                    for s in lower.new(entry.b).spans().filter(|s| Self::is_related(SEQ, &r, s)) {
                        own.push(r.row, s.row, r.start.min(s.start), r.end.max(s.end))?;
                    }
                }
                Some(())
            }
        }
        OverlapsAtEdge: "overlaps: s may start where r ends" {
            fn is_related(op: u8, r: &Span, s: &Span) -> bool {
                let at_edge = r.start < s.start && s.start == r.end && r.end < s.end;
                Plain::is_related(op, r, s) || (op == OVERLAPS && at_edge)
            }
        }
        DuringFromStart: "during: a common start taken" {
            fn is_related(op: u8, r: &Span, s: &Span) -> bool {
                Plain::is_related(op, r, s) || (op == DURING && r.start == s.start && r.end < s.end)
            }
        }
        SearchesToEarliestStart: "seq: searched up to the earliest start of a new row" {
            fn latest_start(b: impl Part) -> i32 {
                Plain::earliest_start(b)
            }
        }
        SearchesAfterStart: "meets, overlaps, starts, during: rows that end where the earliest new row starts not searched" {
            fn earliest_start(b: impl Part) -> i32 {
                Plain::earliest_start(b).saturating_add(1)
            }
        }
        SearchesFromLatestStart: "meets, overlaps, starts, during: searched from the latest start of a new row on" {
            fn earliest_start(b: impl Part) -> i32 {
                Plain::latest_start(b)
            }
        }
        CutAsSeq: "cut: every s behind r, not only the first" {
            fn append<L: Lower>(watch: &Watch, entry: &Entry, lower: L, own: &mut Own) -> Option<()> {
                Plain::append(watch, &Entry { op: if entry.op == CUT { SEQ } else { entry.op }, ..*entry }, lower, own)
            }
        }
        CutAsChange: "cut: r' looked at too" {
            fn append_nearest<L: Lower>(entry: &Entry, lower: L, own: &mut Own) -> Option<()> {
                Plain::append_nearest(&Entry { op: CHANGE, ..*entry }, lower, own)
            }
        }
        ChangeAsCut: "change: r' not looked at" {
            fn append_nearest<L: Lower>(entry: &Entry, lower: L, own: &mut Own) -> Option<()> {
                Plain::append_nearest(&Entry { op: CUT, ..*entry }, lower, own)
            }
        }
        RivalEndsWithSecond: "cut, change: an s' that ends with s counts" {
            fn append_nearest<L: Lower>(entry: &Entry, lower: L, own: &mut Own) -> Option<()> {
                let is_rival =
                    |r: &Span, s: &Span, other: &Span| other != s && other.start > r.end && other.end <= s.end;
                append_nearest_but(entry, lower, own, is_rival, is_rival_of_first)
            }
        }
        RivalStartsAtEnd: "cut, change: an s' that starts where r ends counts" {
            fn append_nearest<L: Lower>(entry: &Entry, lower: L, own: &mut Own) -> Option<()> {
                let is_rival = |r: &Span, s: &Span, other: &Span| other.start >= r.end && other.end < s.end;
                append_nearest_but(entry, lower, own, is_rival, is_rival_of_first)
            }
        }
        RivalStartsBefore: "cut, change: an s' that ends behind r counts, wherever it starts" {
            fn append_nearest<L: Lower>(entry: &Entry, lower: L, own: &mut Own) -> Option<()> {
                let is_rival = |r: &Span, s: &Span, other: &Span| other.end > r.end && other.end < s.end;
                append_nearest_but(entry, lower, own, is_rival, is_rival_of_first)
            }
        }
        RivalStartsFirst: "cut, change: the first s by its start, not by its end" {
            fn append_nearest<L: Lower>(entry: &Entry, lower: L, own: &mut Own) -> Option<()> {
                let is_rival = |r: &Span, s: &Span, other: &Span| {
                    other.start > r.end && (other.start, other.end) < (s.start, s.end)
                };
                append_nearest_but(entry, lower, own, is_rival, is_rival_of_first)
            }
        }
        RivalComesLater: "cut, change: the latest s in the place of the first" {
            fn append_nearest<L: Lower>(entry: &Entry, lower: L, own: &mut Own) -> Option<()> {
                let is_rival = |_: &Span, s: &Span, other: &Span| other.start > s.start;
                append_nearest_but(entry, lower, own, is_rival, is_rival_of_first)
            }
        }
        RivalIsNew: "cut, change: only rows of the closing instant looked at for an s'" {
            fn append_nearest<L: Lower>(entry: &Entry, lower: L, own: &mut Own) -> Option<()> {
                let is_new = |span: &Span| lower.new(entry.b).spans().any(|s| s == *span);
                let is_rival = |r: &Span, s: &Span, other: &Span| is_new(other) && is_rival_of_second(r, s, other);
                append_nearest_but(entry, lower, own, is_rival, is_rival_of_first)
            }
        }
        OneOfTies: "cut, change: of the s of one end only the first" {
            fn append_nearest<L: Lower>(entry: &Entry, lower: L, own: &mut Own) -> Option<()> {
                append_changed((&Watch::empty(0), entry), lower, own, |rows| rows.dedup_by_key(|row| row[1]))
            }
        }
        OneOfTiedFirsts: "cut, change: of the r of one end only the first" {
            fn append_nearest<L: Lower>(entry: &Entry, lower: L, own: &mut Own) -> Option<()> {
                let end_of = |left: i32| lower.all(entry.a).spans().find(|r| r.row == left).map(|r| r.end);
                let mut seen = Vec::new();
                append_changed((&Watch::empty(0), entry), lower, own, |rows| {
                    rows.retain(|[_, left, right, ..]| {
                        let is_first = !seen.iter().any(|(end, other)| *end == end_of(*left) && other == right);
                        seen.push((end_of(*left), *right));
                        is_first
                    });
                })
            }
        }
        MeetsToo: "cut, change: an s that starts where r ends taken" {
            fn append_nearest<L: Lower>(entry: &Entry, lower: L, own: &mut Own) -> Option<()> {
                Plain::append_nearest(entry, lower, own)?;
                let met = |r: &Span, s: &Span| r.end == s.start && r.end < s.end;
                for r in lower.old(entry.a).spans() {
                    for s in lower.new(entry.b).spans().filter(|s| met(&r, s)) {
                        own.push(r.row, s.row, r.start, s.end)?;
                    }
                }
                Some(())
            }
        }
        RivalOfFirstStartsLater: "change: an r' that starts with r does not count" {
            fn append_nearest<L: Lower>(entry: &Entry, lower: L, own: &mut Own) -> Option<()> {
                let is_rival = |r: &Span, s: &Span, other: &Span| {
                    other.start > r.start && is_rival_of_first(r, s, other)
                };
                append_nearest_but(entry, lower, own, is_rival_of_second, is_rival)
            }
        }
        RivalOfFirstStartsAnywhere: "change: an r' that starts before r counts too" {
            fn append_nearest<L: Lower>(entry: &Entry, lower: L, own: &mut Own) -> Option<()> {
                let is_rival = |r: &Span, s: &Span, other: &Span| r.end < other.end && other.end < s.start;
                append_nearest_but(entry, lower, own, is_rival_of_second, is_rival)
            }
        }
        RivalOfFirstMeetsSecond: "change: an r' that ends where s starts counts" {
            fn append_nearest<L: Lower>(entry: &Entry, lower: L, own: &mut Own) -> Option<()> {
                let is_rival = |r: &Span, s: &Span, other: &Span| {
                    other.start >= r.start && r.end < other.end && other.end <= s.start
                };
                append_nearest_but(entry, lower, own, is_rival_of_second, is_rival)
            }
        }
        RivalOfFirstEndsWithIt: "change: an r' that ends with r counts" {
            fn append_nearest<L: Lower>(entry: &Entry, lower: L, own: &mut Own) -> Option<()> {
                let is_rival = |r: &Span, s: &Span, other: &Span| {
                    let is_last = other.end > r.end || (other.end == r.end && other.row > r.row);
                    other.start >= r.start && is_last && other.end < s.start
                };
                append_nearest_but(entry, lower, own, is_rival_of_second, is_rival)
            }
        }
        RivalOfFirstBeforeAny: "change: r' looked for before the latest s of the instant alone" {
            fn append_nearest<L: Lower>(entry: &Entry, lower: L, own: &mut Own) -> Option<()> {
                let latest = Plain::latest_start(lower.new(entry.b));
                let is_rival = |r: &Span, _: &Span, other: &Span| {
                    other.start >= r.start && r.end < other.end && other.end < latest
                };
                append_nearest_but(entry, lower, own, is_rival_of_second, is_rival)
            }
        }
        PartsExchanged: "cut, change: left and right exchanged" {
            fn append_nearest<L: Lower>(entry: &Entry, lower: L, own: &mut Own) -> Option<()> {
                append_changed((&Watch::empty(0), entry), lower, own, |rows| {
                    rows.iter_mut().for_each(|row| row.swap(1, 2));
                })
            }
        }
        SearchesOn: "absence: searched on after the first forbidding row" {
            fn is_forbidden(op: u8, r: &Span, near: impl Iterator<Item = Span>) -> bool {
                near.fold(false, |_, s| Self::is_forbidding(op, r, &s))
            }
        }
        SearchesNewRows: "absence: only rows of the closing instant searched" {
            fn is_forbidden(op: u8, r: &Span, near: impl Iterator<Item = Span>) -> bool {
                Plain::is_forbidden(op, r, near.take_while(|s| s.end == r.end))
            }
        }
        ExchangesEdges: "absence: -[[ and -]] exchanged" {
            fn is_forbidding(op: u8, r: &Span, s: &Span) -> bool {
                Plain::is_forbidding(if matches!(op, CLOSED_OPEN | OPEN_CLOSED) { 13 - op } else { op }, r, s)
            }
        }
        OpenEdgesClosed: "absence: -][ taken for -[]" {
            fn is_forbidding(op: u8, r: &Span, s: &Span) -> bool {
                Plain::is_forbidding(if op == OPEN_OPEN { CLOSED_CLOSED } else { op }, r, s)
            }
        }
        AtMostExcluded: "atmost: its limit left out" {
            fn has_length(op: u8, length: u32, r: &Span) -> bool {
                Plain::has_length(op, length, r) && !(op == AT_MOST && Plain::has_length(LASTS, length, r))
            }
        }
        AtLeastExcluded: "atleast: its limit left out" {
            fn has_length(op: u8, length: u32, r: &Span) -> bool {
                Plain::has_length(op, length, r) && !(op == AT_LEAST && Plain::has_length(LASTS, length, r))
            }
        }
    }
}
