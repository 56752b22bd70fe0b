//! How often marks went over ends of delayed rows, forgets came before or after such an end, and a delayed row was out
//! of joint.

use crate::blocks::{On, TABLES};
use common::interface::{Chart, Entry, Watch};
use common::plain_watch::closing::{Closing, AFTER, AND, CLOSED_CLOSED, NONE, OPEN_CLOSED, SEQ};
use common::plain_watch::storage::Span;
use common::plain_watch::Plain;
use oracle::recognitions::Row;
use std::collections::BTreeSet;

const GREATEST: i64 = 1_000_000_000;
const LONGEST: i64 = 2_000_000_000;

/// Marks that go on from the open instant, by how many later ends they close: none, one or many; marks that close a
/// delayed row at the open instant, at which no event happened; that delay a row which they have delayed themselves;
/// that leave a row which ends at the mark, and that close one which ends just before it.
const JUMPS: [&str; 7] =
    ["no end", "one end", "many ends", "nothing pending", "delay of a delay", "end at the mark", "end before it"];

/// What else a mark makes of rows that it has delayed to a later instant than the open one.
const OPERATORS: [&str; 4] = ["absence of one", "one that forbids", "seq onto one", "and of two"];

/// Marks to the end of the range, by the last end that a delay has there: what is closed, and what never is.
const LAST_ENDS: [(i64, i64, &str); 4] = [
    (GREATEST - 1, GREATEST - 1, "999999999"),
    (GREATEST, GREATEST, "1000000000"),
    (GREATEST + 1, i32::MAX as i64, "32 bits"),
    (i32::MAX as i64 + 1, i64::MAX, "more"),
];

/// The delays of rows of the open instant.
const LENGTHS: [&str; 6] = ["0", "1", "jump - 1", "jump", "jump + 1", "2000000000"];

/// Rows forgotten whose delayed rows would have come, where a later mark went past their ends; delayed rows forgotten.
const FORGETS: [&str; 2] = ["before the end", "after the end"];

/// What is wrong with a row that would be a delayed one.
#[derive(Clone, Copy)]
pub enum Fault {
    EndOffByOne,
    EndWithoutDelay,
    Start,
    Right,
    LeftOfAnotherEntry,
    LeftNotLower,
}

pub const FAULTS: [(Fault, &str); 6] = [
    (Fault::EndOffByOne, "end off by one"),
    (Fault::EndWithoutDelay, "end without d"),
    (Fault::Start, "start"),
    (Fault::Right, "right not -1"),
    (Fault::LeftOfAnotherEntry, "left of another entry"),
    (Fault::LeftNotLower, "left not lower"),
];

#[derive(Default)]
pub struct Delays {
    /// Histories under a chart with a delay.
    pub histories: usize,
    jumps: [[usize; JUMPS.len()]; TABLES.len()],
    operators: [usize; OPERATORS.len()],
    last_ends: [usize; LAST_ENDS.len()],
    lengths: [usize; LENGTHS.len()],
    forgets: [usize; FORGETS.len()],
    /// Marks refused with 12 where the open instant alone would have fitted: in a history, and on a table of none.
    full: [usize; 2],
    faults: [usize; FAULTS.len()],
}

/// A mark that is taken: the watch and the chart that it was made on, and the rows that it left.
pub struct Mark<'a> {
    pub watch: &'a Watch,
    pub chart: &'a Chart,
    pub rows: &'a [Row],
    pub instant: i64,
}

/// The delays of a chart, as far as it has entries, each with its number.
pub fn delays(chart: &Chart) -> impl Iterator<Item = (usize, &Entry)> {
    chart.entries.iter().take(chart.count).enumerate().filter(|(_, entry)| entry.op == AFTER)
}

/// The ends that the delays of a chart give to rows.
pub fn due_ends<'a>(chart: &'a Chart, rows: &'a [Row]) -> impl Iterator<Item = i64> + 'a {
    delays(chart).flat_map(|(_, delay)| {
        let operands = rows.iter().filter(|row| row.entry == delay.a as usize);
        operands.map(|row| row.end + i64::from(delay.b))
    })
}

impl Mark<'_> {
    fn open_instant(&self) -> i64 {
        self.watch.instant.into()
    }

    fn entry(&self, row: &Row) -> &Entry {
        &self.chart.entries[row.entry]
    }

    fn is_delayed(&self, row: &Row) -> bool {
        let entry = self.entry(row);
        entry.op == AFTER && entry.b > 0
    }

    /// Whether it is a row that the mark itself has delayed, to a later instant than the open one.
    fn is_new_and_delayed(&self, reference: i64) -> bool {
        let row = usize::try_from(reference).ok().and_then(|place| self.rows.get(place));
        row.is_some_and(|row| row.end > self.open_instant() && self.is_delayed(row))
    }

    /// The rows of the instants closed.
    pub fn new_rows(&self) -> &[Row] {
        &self.rows[self.rows.partition_point(|row| row.end < self.open_instant())..]
    }

    fn jumps(&self) -> [bool; JUMPS.len()] {
        let new = self.new_rows();
        let later: BTreeSet<i64> = new.iter().map(|row| row.end).filter(|end| *end > self.open_instant()).collect();
        let goes_on = self.instant > self.open_instant() + 1;
        let dues: BTreeSet<i64> = due_ends(self.chart, self.rows).collect();
        [
            goes_on && later.is_empty(),
            later.len() == 1,
            later.len() > 1,
            self.watch.pending == 0 && new.first().is_some_and(|row| row.end == self.open_instant()),
            new.iter().any(|row| self.is_delayed(row) && self.is_new_and_delayed(row.left)),
            dues.contains(&self.instant),
            goes_on && dues.contains(&(self.instant - 1)),
        ]
    }

    fn operators(&self) -> [bool; OPERATORS.len()] {
        let new = self.new_rows();
        let of = |op: u8| new.iter().filter(move |row| self.entry(row).op == op);
        let mut absences = new.iter().filter(|row| is_absence(self.entry(row)));
        [
            absences.any(|row| self.is_new_and_delayed(row.left)),
            self.has_forbidden(),
            of(SEQ).any(|row| self.is_new_and_delayed(row.right)),
            of(AND).any(|row| self.is_new_and_delayed(row.left) && self.is_new_and_delayed(row.right)),
        ]
    }

    /// Whether there is a row r of an absence's operand that such a row forbids.
    fn has_forbidden(&self) -> bool {
        let span = |place: usize| self.span(&self.rows[place]);
        let new = || self.rows.len() - self.new_rows().len()..self.rows.len();
        let of = |entry: u32| new().filter(move |place| self.rows[*place].entry == entry as usize);
        let mut absences = self.chart.entries[..self.chart.count].iter().filter(|entry| is_absence(entry));
        absences.any(|absence| {
            let mut forbidding = of(absence.b).filter(|s| self.is_new_and_delayed(*s as i64));
            forbidding.any(|s| of(absence.a).any(|r| Plain::is_forbidding(absence.op, &span(r), &span(s))))
        })
    }

    /// A row's interval, as the plain watch takes it; its number is left out.
    pub fn span(&self, row: &Row) -> Span {
        Span { row: NONE, start: row.start as i32, end: row.end as i32 }
    }

    fn lengths(&self) -> [bool; LENGTHS.len()] {
        let jump = self.instant - self.open_instant();
        let is_closed = |entry: u32| {
            self.new_rows().iter().any(|row| row.entry == entry as usize && row.end == self.open_instant())
        };
        let lengths: Vec<i64> =
            delays(self.chart).filter(|(_, entry)| is_closed(entry.a)).map(|(_, entry)| entry.b.into()).collect();
        [0, 1, jump - 1, jump, jump + 1, LONGEST].map(|length| lengths.contains(&length))
    }

    fn last_ends(&self) -> [bool; LAST_ENDS.len()] {
        LAST_ENDS.map(|(first, last, _)| {
            self.instant == GREATEST && due_ends(self.chart, self.rows).any(|end| (first..=last).contains(&end))
        })
    }
}

pub fn is_absence(entry: &Entry) -> bool {
    (CLOSED_CLOSED..=OPEN_CLOSED).contains(&entry.op)
}

pub fn add<const N: usize>(counts: &mut [usize; N], met: [bool; N]) {
    counts.iter_mut().zip(met).for_each(|(count, met)| *count += usize::from(met));
}

impl Delays {
    pub fn count_mark(&mut self, on: On, mark: &Mark) {
        if delays(mark.chart).next().is_none() {
            return;
        }
        add(&mut self.jumps[on as usize], mark.jumps());
        add(&mut self.operators, mark.operators());
        add(&mut self.lengths, mark.lengths());
        add(&mut self.last_ends, mark.last_ends());
    }

    /// Counts a mark that went past the ends of delayed rows that a forget has kept from coming.
    pub fn count_missed_end(&mut self) {
        self.forgets[0] += 1;
    }

    /// Counts a forget that dropped a delayed row.
    pub fn count_forgotten(&mut self) {
        self.forgets[1] += 1;
    }

    pub fn count_full(&mut self, is_history: bool) {
        self.full[usize::from(!is_history)] += 1;
    }

    pub fn count_fault(&mut self, fault: Fault) {
        self.faults[fault as usize] += 1;
    }

    pub fn counts(&self) -> impl Iterator<Item = &usize> {
        let marks = self.jumps.as_flattened().iter().chain(&self.operators).chain(&self.last_ends).chain(&self.lengths);
        marks.chain(&self.forgets).chain(&self.full).chain(&self.faults)
    }

    pub fn print(&self) {
        println!(
            "{} histories with delays; marks in them that go on from the open instant, by what they close",
            self.histories
        );
        for (table, counts) in TABLES.iter().zip(&self.jumps) {
            println!("  {table:<17} {}", named(&JUMPS, counts));
        }
        println!("over rows delayed by the same mark\n  {}", named(&OPERATORS, &self.operators));
        println!(
            "marks at 1000000000 with a delay to an end at\n  {}",
            named(&LAST_ENDS.map(|(_, _, name)| name), &self.last_ends)
        );
        println!("delays of rows of the open instant, beside the mark's jump\n  {}", named(&LENGTHS, &self.lengths));
        println!("forgets of delayed rows\n  {}", named(&FORGETS, &self.forgets));
        println!("12 where the open instant alone would fit\n  {}", named(&["histories", "of no history"], &self.full));
        println!("delayed rows out of joint by one number\n  {}", named(&FAULTS.map(|(_, name)| name), &self.faults));
    }
}

pub fn named(names: &[&str], counts: &[usize]) -> String {
    names.iter().zip(counts).map(|(name, count)| format!("{name}: {count}")).collect::<Vec<_>>().join("  ")
}
