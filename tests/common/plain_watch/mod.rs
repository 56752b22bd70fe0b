//! An unproved watch with the interface of the proved one: the benchmark's baseline, what the wrong watches of
//! tests/watch/wrong_watches.rs are made from, and, with a list of rows for each entry, the watch of the plain listing
//! program. Every step is an associated function, so that a wrong watch replaces the one that it is to get wrong; the
//! calls are compiled for each watch by itself.

pub mod closing;
pub mod storage;

use crate::chart_value;
use crate::interface::{
    Addition, Answer, Calls, Chart, ChartAnswer, Entry, Report, Rows, TreeAnswer, Watch, FIRST_FLOOR, MOST_ENTRIES,
    MOST_PENDING,
};
use crate::plain_chart::{self, Verdict};
use closing::{Closing, AFTER, AT_LEAST, CHANGE, CLOSED_CLOSED, CUT, EQUALS, EVENT, LASTS, NONE, OPEN_CLOSED, OR, SEQ};
use std::ops::RangeInclusive;
use storage::{Row, Span, Storage, END, ENTRY, START, UNUSED};

/// A number of document 01's list.
pub type Refusal = u32;
/// Nothing, or why a call is refused.
pub type Taken = Result<(), Refusal>;

pub const INSTANTS: RangeInclusive<i64> = -1_000_000_000..=1_000_000_000;
const MOST_ROWS: usize = 65_535;
const MOST_EVENTS: usize = 1_000_000;
const GREATEST_CODE: u32 = 255;
const GREATEST_LENGTH: u32 = 2_000_000_000;

pub struct Plain;

impl Closing for Plain {}
impl PlainWatch for Plain {}

pub fn is_instant(instant: i32) -> bool {
    INSTANTS.contains(&i64::from(instant))
}

/// A chart on paper, read by the plain reader.
pub fn read_chart(bytes: &[u8]) -> ChartAnswer {
    match plain_chart::read(bytes) {
        Ok(entries) => ChartAnswer { refusal: 0, line: 0, chart: chart_value::of(&entries) },
        Err(verdict) => ChartAnswer { refusal: verdict.refusal, line: verdict.line, chart: Chart::no_entries() },
    }
}

pub fn calls<W: PlainWatch>() -> Calls {
    Calls {
        read_chart,
        open: W::open,
        event: W::event,
        clock: W::clock,
        forget: W::forget,
        check: W::check,
        rows_ending: W::rows_ending,
        tree: W::tree,
        add_lines: W::add_lines,
        report: W::report,
    }
}

/// A table to forget rows of, and room for the new number of each row in use.
pub struct Renumbered<'a> {
    pub rows: &'a mut [Row],
    pub places: &'a mut [u16],
}

/// What a call answers whose step alters the watch or is refused.
#[inline]
fn answered(watch: Watch, step: impl FnOnce(&mut Watch) -> Taken) -> Answer {
    let mut answer = Answer { refusal: 0, watch };
    answer.refusal = step(&mut answer.watch).err().unwrap_or(0);
    answer
}

fn passed(refusal: Refusal) -> Taken {
    if refusal == 0 {
        Ok(())
    } else {
        Err(refusal)
    }
}

pub trait PlainWatch: Closing {
    // The calls.

    fn open(chart: Chart, table: &mut [i32], instant: i32) -> Answer {
        if !Self::is_usable(&chart) {
            return Answer { refusal: 14, watch: Watch::empty(0) };
        }
        if !is_instant(instant) {
            return Answer { refusal: 8, watch: Watch::empty(0) };
        }
        Self::rows_mut(table).fill(UNUSED);
        Answer { refusal: 0, watch: Watch::opened(instant, chart.count) }
    }

    fn event(watch: Watch, chart: Chart, table: &[i32], code: u8) -> Answer {
        answered(watch, |next| {
            passed(Self::check(watch, chart, table))?;
            Self::event_unchecked(next, code)
        })
    }

    fn clock(watch: Watch, chart: Chart, table: &mut [i32], instant: i32) -> Answer {
        answered(watch, |next| {
            passed(Self::check(watch, chart, table))?;
            let mut storage = Storage::new(Self::rows_mut(table), watch.rows, None);
            Self::clock_unchecked(next, &chart, &mut storage, instant.into())
        })
    }

    fn forget(watch: Watch, chart: Chart, table: &mut [i32], floor: i32) -> Answer {
        answered(watch, |next| {
            passed(Self::check(watch, chart, table))?;
            let table = Renumbered { rows: Self::rows_mut(table), places: &mut vec![0; watch.rows] };
            Self::forget_unchecked(next, &chart, table, floor.into())
        })
    }

    fn check(watch: Watch, chart: Chart, table: &[i32]) -> u32 {
        if !Self::is_usable(&chart) {
            return 14;
        }
        if Self::is_consistent(&watch, &chart, Self::rows(table)) {
            0
        } else {
            13
        }
    }

    /// Two binary searches: rows stand by their end.
    fn rows_ending(watch: Watch, chart: Chart, table: &[i32], end: i32) -> Rows {
        if Self::check(watch, chart, table) != 0 {
            return Rows { first: 0, count: 0 };
        }
        let in_use = &Self::rows(table)[..watch.rows];
        let first = in_use.partition_point(|row| row[END] < end);
        Rows { first, count: in_use.partition_point(|row| row[END] <= end) - first }
    }

    fn tree(watch: Watch, chart: Chart, table: &[i32], row: usize, out: &mut [u8]) -> TreeAnswer {
        let refusal = Self::check(watch, chart, table);
        if refusal != 0 {
            return TreeAnswer { refusal, length: 0 };
        }
        if row >= watch.rows {
            return TreeAnswer { refusal: 15, length: 0 };
        }
        let rows = Self::rows(table);
        if Self::tree_length(&chart, rows, row as i32, out.len()).is_none() {
            return TreeAnswer { refusal: 16, length: 0 };
        }
        TreeAnswer { refusal: 0, length: Self::write_tree(&chart, rows, row as i32, out, 0) }
    }

    /// One walk for all entries.
    fn report(watch: Watch, chart: Chart, table: &[i32]) -> Report {
        let refusal = Self::check(watch, chart, table);
        if refusal != 0 {
            return Report::refused(refusal);
        }
        let in_use = &Self::rows(table)[..watch.rows];
        let mut tallies = [0; MOST_ENTRIES];
        in_use.iter().for_each(|row| tallies[row[ENTRY] as usize] += 1);
        Report { refusal: 0, entries: chart.count, rows: watch.rows, read: in_use.len(), tallies }
    }

    fn add_lines(watch: Watch, chart: Chart, table: &[i32], bytes: &[u8]) -> Addition {
        let refusal = Self::check(watch, chart, table);
        let refused = |refusal: u32, line: u32| Addition { refusal, line, watch, chart };
        if refusal != 0 {
            return refused(refusal, 0);
        }
        match Self::read_lines(&chart, bytes) {
            Ok(added) => {
                let watch = Self::with_entries(watch, added.len());
                Addition { refusal: 0, line: 0, watch, chart: chart_value::with_added(&chart, &added) }
            }
            Err(Verdict { refusal, line }) => refused(refusal, line),
        }
    }

    fn read_lines(chart: &Chart, bytes: &[u8]) -> Result<Vec<plain_chart::Entry>, Verdict> {
        plain_chart::read_more(chart.count, bytes)
    }

    /// The watch with so many entries more, which count from the open instant.
    fn with_entries(mut watch: Watch, added: usize) -> Watch {
        watch.since[watch.entries..][..added].fill(watch.instant);
        watch.entries += added;
        watch
    }

    // Chart and table.

    fn is_usable(chart: &Chart) -> bool {
        let is_sound = |(index, entry): (usize, &Entry)| {
            let is_lower = |operand: u32| (operand as usize) < index;
            match entry.op {
                EVENT => entry.a <= GREATEST_CODE && entry.b == 0,
                SEQ..=EQUALS | CUT | CHANGE => is_lower(entry.a) && is_lower(entry.b),
                LASTS..=AFTER => is_lower(entry.a) && entry.b <= GREATEST_LENGTH,
                _ => false,
            }
        };
        (1..=MOST_ENTRIES).contains(&chart.count) && chart.entries[..chart.count].iter().enumerate().all(is_sound)
    }

    /// How many rows a table of so many numbers holds.
    fn capacity(length: usize) -> usize {
        (length / 5).min(MOST_ROWS)
    }

    fn rows(table: &[i32]) -> &[Row] {
        &table.as_chunks::<5>().0[..Self::capacity(table.len())]
    }

    fn rows_mut(table: &mut [i32]) -> &mut [Row] {
        let capacity = Self::capacity(table.len());
        &mut table.as_chunks_mut::<5>().0[..capacity]
    }

    // The calls on a consistent watch, which stays as it is where they are refused.

    #[inline]
    fn event_unchecked(watch: &mut Watch, code: u8) -> Taken {
        if watch.events >= MOST_EVENTS {
            return Err(10);
        }
        if watch.pending >= MOST_PENDING {
            return Err(9);
        }
        Self::add_event(watch, code);
        Ok(())
    }

    #[inline]
    fn add_event(watch: &mut Watch, code: u8) {
        watch.codes[watch.pending] = code;
        watch.pending += 1;
        watch.events += 1;
    }

    #[inline]
    fn clock_unchecked(watch: &mut Watch, chart: &Chart, storage: &mut Storage, instant: i64) -> Taken {
        if instant <= i64::from(watch.instant) || !INSTANTS.contains(&instant) {
            return Err(8);
        }
        if Self::close_before(watch, chart, storage, instant as i32).is_none() {
            Self::take_back(storage);
            return Err(12);
        }
        Self::mark(watch, instant as i32, storage.count);
        Ok(())
    }

    #[inline]
    fn mark(watch: &mut Watch, instant: i32, rows: usize) {
        watch.instant = instant;
        watch.rows = rows;
        watch.pending = 0;
        watch.codes = [0; MOST_PENDING];
    }

    #[inline]
    fn forget_unchecked(watch: &mut Watch, chart: &Chart, table: Renumbered, floor: i64) -> Taken {
        if floor < i64::from(watch.floor) || floor > i64::from(watch.instant) || !INSTANTS.contains(&floor) {
            return Err(11);
        }
        watch.floor = floor as i32;
        let in_use = &mut table.rows[..watch.rows];
        watch.rows = Self::compact(chart, in_use, watch.floor, table.places);
        Self::free(&mut in_use[watch.rows..]);
        Ok(())
    }

    fn free(rows: &mut [Row]) {
        rows.fill(UNUSED);
    }

    fn take_back(storage: &mut Storage) {
        storage.take_back();
    }

    // Forgetting.

    /// Moves the rows that start at the floor or later down, renumbers their references and counts them. The place of a
    /// row is how many are kept before it.
    #[inline]
    fn compact(chart: &Chart, in_use: &mut [Row], floor: i32, places: &mut [u16]) -> usize {
        let mut kept = 0;
        for index in 0..in_use.len() {
            places[index] = kept as u16;
            if Self::is_dropped(&in_use[index], floor) {
                continue;
            }
            if kept != index {
                in_use[kept] = Self::renumbered(chart, in_use[index], places);
            }
            kept += 1;
        }
        kept
    }

    #[inline]
    fn is_dropped(row: &Row, floor: i32) -> bool {
        row[START] < floor
    }

    /// An event's left number is a serial and stays.
    #[inline]
    fn renumbered(chart: &Chart, row: Row, places: &[u16]) -> Row {
        if chart.entries[row[ENTRY] as usize].op == EVENT {
            return row;
        }
        let place = |reference: i32| if reference < 0 { reference } else { i32::from(places[reference as usize]) };
        let [entry, left, right, start, end] = row;
        [entry, place(left), place(right), start, end]
    }

    // The check behind 13.

    fn is_consistent(watch: &Watch, chart: &Chart, rows: &[Row]) -> bool {
        Self::is_watch_in_range(watch)
            && Self::has_entries_of(watch, chart)
            && Self::are_instants_of_entries(watch, &watch.since[..chart.count])
            && watch.rows <= rows.len()
            && (0..watch.rows).all(|index| Self::is_row_consistent(watch, chart, rows, index))
            && Self::are_unused(&rows[watch.rows..])
    }

    fn is_watch_in_range(watch: &Watch) -> bool {
        is_instant(watch.instant)
            && is_instant(watch.floor)
            && watch.floor <= watch.instant
            && watch.pending <= MOST_PENDING
            && watch.pending <= watch.events
            && watch.events <= MOST_EVENTS
    }

    fn has_entries_of(watch: &Watch, chart: &Chart) -> bool {
        watch.entries == chart.count
    }

    /// Whether entries may count from these instants: none falls, so that the first and the last tell for the others.
    fn are_instants_of_entries(watch: &Watch, since: &[i32]) -> bool {
        since.is_sorted() && since[0] >= FIRST_FLOOR && since[since.len() - 1] <= watch.instant
    }

    fn are_unused(rows: &[Row]) -> bool {
        rows.iter().all(|row| *row == UNUSED)
    }

    fn is_row_consistent(watch: &Watch, chart: &Chart, rows: &[Row], index: usize) -> bool {
        let row = &rows[index];
        let number = row[ENTRY] as usize;
        row[ENTRY] >= 0
            && number < chart.count
            && row[START] >= watch.floor
            && Self::counts(watch, row)
            && row[END] < watch.instant
            && (index == 0 || rows[index - 1][END] <= row[END])
            && Self::agrees(&chart.entries[number], watch, row, &rows[..index])
    }

    /// Whether a row of an entry in the chart starts no earlier than its entry counts.
    fn counts(watch: &Watch, row: &Row) -> bool {
        row[START] >= watch.since[row[ENTRY] as usize]
    }

    /// Whether a row's references, start, end and condition are those of its entry; `lower` are the rows before it.
    fn agrees(entry: &Entry, watch: &Watch, row: &Row, lower: &[Row]) -> bool {
        let [_, left, right, start, end] = *row;
        match entry.op {
            EVENT => Self::is_serial(watch, left) && right == NONE && start == end,
            OR if right == NONE => Self::spans(row, Self::lower_row(lower, left, entry.a)),
            OR => left == NONE && Self::spans(row, Self::lower_row(lower, right, entry.b)),
            CLOSED_CLOSED..=OPEN_CLOSED => right == NONE && Self::spans(row, Self::lower_row(lower, left, entry.a)),
            LASTS..=AT_LEAST => {
                right == NONE
                    && Self::spans(row, Self::lower_row(lower, left, entry.a))
                    && Self::has_length(entry.op, entry.b, &Span::of(NONE, row))
            }
            AFTER => right == NONE && Self::is_delayed(row, Self::lower_row(lower, left, entry.a), entry.b),
            _ => {
                let operands = (Self::lower_row(lower, left, entry.a), Self::lower_row(lower, right, entry.b));
                matches!(operands, (Some(r), Some(s))
                    if Self::spans_both(entry.op, row, &Span::of(left, r), &Span::of(right, s)))
            }
        }
    }

    fn is_serial(watch: &Watch, serial: i32) -> bool {
        serial >= 1 && serial as usize <= watch.events
    }

    /// The row that a reference names, where it is a lower one of the operand's entry.
    fn lower_row(lower: &[Row], reference: i32, operand: u32) -> Option<&Row> {
        let row = lower.get(usize::try_from(reference).ok()?)?;
        (row[ENTRY] == operand as i32).then_some(row)
    }

    fn spans(row: &Row, r: Option<&Row>) -> bool {
        r.is_some_and(|r| row[START] == r[START] && row[END] == r[END])
    }

    fn is_delayed(row: &Row, r: Option<&Row>, delay: u32) -> bool {
        r.is_some_and(|r| row[START] == r[START] && i64::from(row[END]) == i64::from(r[END]) + i64::from(delay))
    }

    fn spans_both(op: u8, row: &Row, r: &Span, s: &Span) -> bool {
        row[START] == r.start.min(s.start) && row[END] == r.end.max(s.end) && Self::is_related(op, r, s)
    }

    // Trees.

    /// The length of a reference's tree, `_` for none; none where it is over the limit. Every call takes at least a
    /// byte of the limit, and the first that finds too few ends all.
    fn tree_length(chart: &Chart, rows: &[Row], reference: i32, limit: usize) -> Option<usize> {
        if limit == 0 {
            return None;
        }
        if reference == NONE {
            return Some(1);
        }
        let row = rows[reference as usize];
        let [entry, left, right, ..] = row;
        match chart.entries[entry as usize].op {
            EVENT => Some(2 + left.ilog10() as usize).filter(|length| *length <= limit),
            CLOSED_CLOSED..=OPEN_CLOSED | LASTS..=AFTER => {
                let rest = limit.checked_sub(2)?;
                Some(Self::tree_length(chart, rows, left, rest)? + 2)
            }
            _ => {
                let rest = limit.checked_sub(3)?;
                let first = Self::tree_length(chart, rows, left, rest)?;
                Some(first + Self::tree_length(chart, rows, right, rest - first)? + 3)
            }
        }
    }

    /// Writes a reference's tree at a place of the output, which is long enough, and returns the place behind it.
    fn write_tree(chart: &Chart, rows: &[Row], reference: i32, out: &mut [u8], at: usize) -> usize {
        if reference == NONE {
            out[at] = b'_';
            return at + 1;
        }
        let [entry, left, right, ..] = rows[reference as usize];
        let op = chart.entries[entry as usize].op;
        if op == EVENT {
            let text = format!("e{left}");
            out[at..at + text.len()].copy_from_slice(text.as_bytes());
            return at + text.len();
        }
        out[at] = b'<';
        let mut behind = Self::write_tree(chart, rows, left, out, at + 1);
        if !matches!(op, CLOSED_CLOSED..=OPEN_CLOSED | LASTS..=AFTER) {
            out[behind] = b',';
            behind = Self::write_tree(chart, rows, right, out, behind + 1);
        }
        out[behind] = b'>';
        behind + 1
    }
}
