//! How often additions came to their boundaries: what they found, how they were refused, where the rows of added
//! entries start, forgets beside the instants from which entries count, and watches out of joint in these.

use crate::added_lines::{Drawn, FAULTS};
use crate::blocks::{On, TABLES};
use crate::delays::{add, is_absence, named, Mark};
use crate::nearest::{is_nearest, Pair};
use common::chart_value;
use common::interface::{Chart, Entry, Report, Watch, FIRST_FLOOR, MOST_ENTRIES};
use common::plain_chart::{Verdict, WORDS};
use common::plain_watch::closing::{Closing, CHANGE, EVENT};
use common::plain_watch::Plain;
use oracle::any_watch;
use oracle::conditions::Interval;
use oracle::recognitions::Row;

/// Marks that leave more rows are not looked at for rows that start too early: that would take longer than to compare
/// them.
const MOST_ROWS: usize = 100;

/// What an addition that is taken finds: events of the open instant, one of them of a code that an added line names, or
/// none; rows, or none; nothing forgotten, or something; the addition before it at the same instant, or earlier.
const FOUND: [&str; 9] = [
    "pending", "pending and named", "none pending", "rows", "no row", "nothing forgotten", "after a forget",
    "same instant again", "later instant again",
];

/// How many lines an addition that is taken has, and how many entries it leaves where these are 31 or 32.
const SIZES: [&str; 4] = ["one", "more", "to 31 entries", "to 32"];

/// How many entries there were where one is refused with 2.
const TOO_MANY: [&str; 3] = ["of 32", "of 31", "of fewer"];

/// The line at which one is refused with 2 to 6.
const LINES: [&str; 3] = ["line 1", "line 2", "later"];
const FIRST_NUMBER: u32 = 2;

/// Rows of added entries by their start: at the instant from which the entry counts, or later; and those that are not
/// made, since they would start an instant too early, or more.
const STARTS: [&str; 4] = ["at it", "later", "an instant too early", "earlier"];

/// What the rows of added entries are made of.
const PARTS: [&str; 3] = ["old entries", "added ones", "both"];

/// What decides that an added entry has no row, though it would start late enough.
const DECIDED: [&str; 2] = ["forbidden", "with a rival"];

/// Marks that are taken only since rows that start too early do not count: in a history, and on a table of none; and
/// marks refused with 12 whose first row too many is of an added entry.
const FULL: [&str; 3] = ["room in a history", "room on a table of none", "12 at a row of one"];

/// Forgets of a floor below the instant from which an added entry counts, at it and above it.
const FORGETS: [&str; 3] = ["below", "at it", "above"];

/// Reads of a row of an added entry.
const READS: [&str; 3] = ["tree", "rows by end", "report"];

/// What a watch's entries have that no call left there.
#[derive(Clone, Copy, Debug, PartialEq)]
pub enum Damage {
    OneLess,
    OneMore,
    NoEntries,
    BelowRange,
    AboveOpen,
    Falls,
    RowTooEarly,
    Raised,
    FilledBehind,
}

pub const DAMAGES: [(Damage, &str); 9] = [
    (Damage::OneLess, "one less"),
    (Damage::OneMore, "one more"),
    (Damage::NoEntries, "none"),
    (Damage::BelowRange, "below the range"),
    (Damage::AboveOpen, "above the open instant"),
    (Damage::Falls, "falls by one"),
    (Damage::RowTooEarly, "row an instant too early"),
    (Damage::Raised, "raised to a row's start"),
    (Damage::FilledBehind, "places behind filled"),
];

impl Damage {
    /// Places behind the entries are not looked at, and an instant that no row starts before may be any.
    pub fn is_consistent(self) -> bool {
        matches!(self, Damage::Raised | Damage::FilledBehind)
    }
}

#[derive(Default)]
pub struct Additions {
    /// Histories with an addition that is taken.
    pub histories: usize,
    found: [usize; FOUND.len()],
    sizes: [usize; SIZES.len()],
    too_many: [usize; TOO_MANY.len()],
    /// By number, from 2 on, and line.
    lines: [[usize; LINES.len()]; 5],
    faults: [usize; FAULTS.len()],
    starts: [[usize; STARTS.len()]; WORDS.len()],
    starts_on: [[usize; STARTS.len()]; TABLES.len()],
    parts: [usize; PARTS.len()],
    decided: [usize; DECIDED.len()],
    full: [usize; FULL.len()],
    forgets: [usize; FORGETS.len()],
    reads: [usize; READS.len()],
    damages: [usize; DAMAGES.len()],
}

/// Whether an entry counts from a later instant than that of the opening.
pub fn is_added(watch: &Watch, entry: usize) -> bool {
    entry < watch.entries && watch.since[entry] > FIRST_FLOOR
}

/// The entries of a chart that do, each with its number.
pub fn added<'a>(watch: &'a Watch, chart: &'a Chart) -> impl Iterator<Item = (usize, &'a Entry)> {
    chart.entries.iter().enumerate().take(chart.count.min(MOST_ENTRIES)).filter(|(number, _)| is_added(watch, *number))
}

impl Additions {
    /// Counts an addition in a history by the watch before it, the instant of the one before, where there is one, and
    /// the chart that is left.
    pub fn count_taken(&mut self, before: &Watch, last: Option<i32>, chart: &Chart) {
        let pending = &before.codes[..before.pending];
        let added = &chart.entries[before.entries..chart.count];
        let is_named = |code: &u8| added.iter().any(|entry| entry.op == EVENT && entry.a == u32::from(*code));
        let found = [
            before.pending > 0,
            pending.iter().any(is_named),
            before.pending == 0,
            before.rows > 0,
            before.rows == 0,
            before.floor == FIRST_FLOOR,
            before.floor > FIRST_FLOOR,
            last == Some(before.instant),
            last.is_some_and(|last| last < before.instant),
        ];
        add(&mut self.found, found);
        add(&mut self.sizes, [added.len() == 1, added.len() > 1, chart.count == 31, chart.count == 32]);
    }

    /// Counts an addition that is refused for its lines, by the entries there are.
    pub fn count_refused(&mut self, entries: usize, Drawn { fault, .. }: &Drawn, verdict: Verdict) {
        let Verdict { refusal, line } = verdict;
        if refusal >= FIRST_NUMBER {
            let lines = &mut self.lines[(refusal - FIRST_NUMBER) as usize];
            add(lines, [line == 1, line == 2, line > 2]);
        }
        if refusal == 2 {
            add(&mut self.too_many, [entries == 32, entries == 31, entries < 31]);
        }
        for (place, (known, number, _)) in FAULTS.iter().enumerate() {
            let is_met = *fault == Some((*known, line as usize)) && refusal == *number;
            self.faults[place] += usize::from(is_met);
        }
    }

    /// Counts a mark that is taken, on a table that holds so many rows.
    pub fn count_mark(&mut self, on: On, mark: &Mark, held: usize) {
        if added(mark.watch, mark.chart).next().is_none() || mark.rows.len() > MOST_ROWS {
            return;
        }
        let entries = chart_value::entries(mark.chart).expect("a mark is taken under a chart that may be used");
        let barred = any_watch::barred_rows(mark.watch, &entries, mark.rows, mark.instant);
        for row in mark.new_rows().iter().chain(&barred).filter(|row| is_added(mark.watch, row.entry)) {
            let after = row.start - i64::from(mark.watch.since[row.entry]);
            let starts = [after == 0, after > 0, after == -1, after < -1];
            add(&mut self.starts[usize::from(mark.chart.entries[row.entry].op)], starts);
            add(&mut self.starts_on[on as usize], starts);
        }
        mark.new_rows().iter().for_each(|row| self.count_parts(mark, row));
        add(&mut self.decided, decided(mark));
        let has_room = !barred.is_empty() && mark.rows.len() + barred.len() > held;
        let is_history = !matches!(on, On::NoHistory);
        add(&mut self.full, [has_room && is_history, has_room && !is_history, false]);
    }

    fn count_parts(&mut self, mark: &Mark, row: &Row) {
        if !is_added(mark.watch, row.entry) || mark.chart.entries[row.entry].op == EVENT {
            return;
        }
        let parts = [row.left, row.right].into_iter().filter_map(|part| mark.rows.get(usize::try_from(part).ok()?));
        let [old, new] = parts.fold([false; 2], |[old, new], part| {
            let is_new = is_added(mark.watch, part.entry);
            [old || !is_new, new || is_new]
        });
        add(&mut self.parts, [old && !new, new && !old, old && new]);
    }

    pub fn count_full(&mut self) {
        self.full[2] += 1;
    }

    /// Counts a forget that is taken.
    pub fn count_forget(&mut self, watch: &Watch, chart: &Chart, floor: i64) {
        let has =
            |is_so: &dyn Fn(i64) -> bool| added(watch, chart).any(|(number, _)| is_so(watch.since[number].into()));
        let is_raised = floor > FIRST_FLOOR.into();
        let forgets =
            [is_raised && has(&|since| floor < since), has(&|since| floor == since), has(&|since| floor > since)];
        add(&mut self.forgets, forgets);
    }

    pub fn count_tree(&mut self, watch: &Watch, row: Option<&Row>) {
        self.reads[0] += usize::from(row.is_some_and(|row| is_added(watch, row.entry)));
    }

    pub fn count_rows_read(&mut self, watch: &Watch, rows: &[Row]) {
        self.reads[1] += usize::from(rows.iter().any(|row| is_added(watch, row.entry)));
    }

    pub fn count_report(&mut self, watch: &Watch, report: &Report) {
        let tallies = report.tallies.iter().enumerate();
        self.reads[2] += usize::from(tallies.into_iter().any(|(entry, tally)| is_added(watch, entry) && *tally > 0));
    }

    pub fn count_damage(&mut self, damage: Damage) {
        self.damages[damage as usize] += 1;
    }

    pub fn counts(&self) -> impl Iterator<Item = &usize> {
        // An event is at the open instant, no earlier than any entry counts.
        let events = usize::from(EVENT);
        let starts = self.starts[events][..2].iter().chain(self.starts[events + 1..].as_flattened());
        let taken = self.found.iter().chain(&self.sizes).chain(starts).chain(self.starts_on.as_flattened());
        let refused = self.too_many.iter().chain(self.lines.as_flattened()).chain(&self.faults);
        let marks = self.parts.iter().chain(&self.decided).chain(&self.full);
        taken.chain(refused).chain(marks).chain(&self.forgets).chain(&self.reads).chain(&self.damages)
    }

    pub fn print(&self) {
        println!(
            "{} histories with additions; additions that are taken, by what they find and how many lines",
            self.histories
        );
        println!("  {}\n  {}", named(&FOUND, &self.found), named(&SIZES, &self.sizes));
        println!("refused with\n  2, of a chart  {}", named(&TOO_MANY, &self.too_many));
        for (number, counts) in (FIRST_NUMBER..).zip(&self.lines) {
            println!("  {number}, at         {}", named(&LINES, counts));
        }
        println!("  for            {}", named(&FAULTS.map(|(.., name)| name), &self.faults));
        println!("rows of added entries, by where they start beside the instant from which the entry counts");
        for (word, counts) in WORDS.iter().zip(&self.starts) {
            println!("  {word:<17} {}", named(&STARTS, counts));
        }
        for (table, counts) in TABLES.iter().zip(&self.starts_on) {
            println!("  {table:<17} {}", named(&STARTS, counts));
        }
        println!("made of rows of\n  {}", named(&PARTS, &self.parts));
        println!("marks with what would start late enough and is\n  {}", named(&DECIDED, &self.decided));
        println!("marks by the room that rows leave which start too early\n  {}", named(&FULL, &self.full));
        println!("forgets of a floor beside such an instant\n  {}", named(&FORGETS, &self.forgets));
        println!("reads of a row of an added entry\n  {}", named(&READS, &self.reads));
        println!("entries of watches that no call left; the last two are not out of joint, the others are");
        println!("  {}", named(&DAMAGES.map(|(_, name)| name), &self.damages));
    }
}

/// Whether a mark has a new row for an added absence that another forbids, and an r and an s for an added `cut` or
/// `change` that a rival parts.
fn decided(mark: &Mark) -> [bool; DECIDED.len()] {
    let has = |is_so: &dyn Fn(usize, &Entry) -> bool| {
        added(mark.watch, mark.chart).any(|(number, entry)| is_so(number, entry))
    };
    [
        has(&|number, entry| is_absence(entry) && has_forbidden(mark, number, entry)),
        has(&|number, entry| is_nearest(entry) && has_parted(mark, number, entry)),
    ]
}

fn rows_of(rows: &[Row], operand: u32) -> impl Iterator<Item = &Row> {
    rows.iter().filter(move |row| row.entry == operand as usize)
}

fn has_forbidden(mark: &Mark, number: usize, entry: &Entry) -> bool {
    let since = i64::from(mark.watch.since[number]);
    let forbids = |r: &Row, s: &Row| Plain::is_forbidding(entry.op, &mark.span(r), &mark.span(s));
    let mut candidates = rows_of(mark.new_rows(), entry.a).filter(|r| r.start >= since);
    candidates.any(|r| rows_of(mark.rows, entry.b).any(|s| forbids(r, s)))
}

fn has_parted(mark: &Mark, number: usize, entry: &Entry) -> bool {
    let since = i64::from(mark.watch.since[number]);
    let interval = |row: &Row| Interval { start: row.start, end: row.end };
    let [of_a, of_b] = [entry.a, entry.b].map(|operand| rows_of(mark.rows, operand).map(interval).collect::<Vec<_>>());
    let is_parted =
        |r: Interval, s: Interval| !Pair { is_change: entry.op == CHANGE, r, s, of_a: &of_a, of_b: &of_b }.stands();
    rows_of(mark.new_rows(), entry.b)
        .map(interval)
        .any(|s| of_a.iter().any(|r| r.start >= since && r.end < s.start && is_parted(*r, s)))
}
