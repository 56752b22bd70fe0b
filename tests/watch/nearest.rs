//! How often `cut` and `change` came to their boundaries: pairs of r and s beside what is a rival or nearly one, what
//! is made of their rows, forgets between r and what follows it, 12 at one of their rows, and their rows in damaged
//! tables.

use crate::blocks::{On, TABLES};
use crate::delays::{add, is_absence, named, Mark};
use common::interface::{Chart, Entry};
use common::plain_watch::closing::{Closing, AFTER, AT_LEAST, CHANGE, CUT, LASTS};
use common::plain_watch::Plain;
use oracle::conditions::{is_rival_of_first, is_rival_of_second, Interval};
use oracle::recognitions::Row;

const OPERATORS: [(u8, &str); 2] = [(CUT, "cut"), (CHANGE, "change")];
/// Pairs of longer tables are left uncounted: that would take longer than to compare them.
const MOST_ROWS: usize = 100;

/// Pairs of a new s and an r that ends before it: those that stand; those with a rival of s alone, of r alone, which
/// parts them in `change` only, and of both; those with a rival of r only in that it starts with r. Then pairs that
/// stand beside another s of the same end that r has too; beside an s' that starts where r ends or before, and ends
/// before s; and beside an r' that ends between r and s but starts earlier, that ends where s starts, and that ends
/// with r.
const PAIRS: [&str; 11] = [
    "stand", "rival of s", "rival of r", "both", "r' from start r", "ties of s", "s' from end r", "s' over end r",
    "r' from before r", "r' to start s", "r' to end r",
];

/// What a mark makes of rows of the operator: as r and as s of the other one, in both places of an absence, in a delay
/// and in a length test; and what it is made of: a delayed row as r and as s.
const NESTED: [&str; 8] = [
    "r of the other", "s of the other", "absence of one", "one that forbids", "delay of one", "length test of one",
    "delay as r", "delay as s",
];

/// Forgets that drop a pair and keep its s; that drop r and keep a later r', a rival of it; that keep r and drop an r'
/// which ends later and is none, since it starts earlier; and marks with a new s for an r forgotten before it had one.
const FORGETS: [&str; 4] = ["r of a pair", "r, not r'", "r', not r", "s comes later"];

/// What a row of `cut` or `change` has that no mark made: a rival, or one thing that is wrong.
#[derive(Clone, Copy, Debug, PartialEq)]
pub enum Damage {
    RivalOfSecond,
    RivalOfFirst,
    EndAtStart,
    EndAfterStart,
    Start,
    End,
    NoLeft,
    NoRight,
    Exchanged,
    RightNotLower,
}

pub const DAMAGES: [(Damage, &str); 10] = [
    (Damage::RivalOfSecond, "rival of s"),
    (Damage::RivalOfFirst, "rival of r"),
    (Damage::EndAtStart, "end r = start s"),
    (Damage::EndAfterStart, "end r > start s"),
    (Damage::Start, "start"),
    (Damage::End, "end"),
    (Damage::NoLeft, "no left"),
    (Damage::NoRight, "no right"),
    (Damage::Exchanged, "exchanged"),
    (Damage::RightNotLower, "right not lower"),
];

impl Damage {
    /// "The out-of-joint rule checks only end r < start s": rivals are none of its causes.
    pub fn is_consistent(self) -> bool {
        matches!(self, Damage::RivalOfSecond | Damage::RivalOfFirst)
    }
}

#[derive(Default)]
pub struct Nearest {
    /// Histories under a chart with one of the two operators, and with both.
    pub histories: [usize; 2],
    pairs: [[[usize; PAIRS.len()]; OPERATORS.len()]; TABLES.len()],
    /// Pairs of `change` that stand where r' parts r from another s of the same end.
    parted_ties: usize,
    nested: [[usize; NESTED.len()]; OPERATORS.len()],
    forgets: [usize; FORGETS.len()],
    /// Marks refused with 12 whose first row too many is one of these: in a history, and on a table of none.
    full: [usize; 2],
    damages: [[usize; DAMAGES.len()]; OPERATORS.len()],
}

/// The place of an operator code in the counts; none of any other operator.
fn place(op: u8) -> Option<usize> {
    OPERATORS.iter().position(|(code, _)| *code == op)
}

pub fn is_nearest(entry: &Entry) -> bool {
    place(entry.op).is_some()
}

/// The entries of a chart, as far as it has them, that are a `cut` or a `change`, each with its number.
pub fn nearest(chart: &Chart) -> impl Iterator<Item = (usize, &Entry)> {
    chart.entries.iter().take(chart.count).enumerate().filter(|(_, entry)| is_nearest(entry))
}

fn interval(row: &Row) -> Interval {
    Interval { start: row.start, end: row.end }
}

fn rows_of(rows: &[Row], operand: u32) -> impl Iterator<Item = &Row> {
    rows.iter().filter(move |row| row.entry == operand as usize)
}

/// An r and an s with end r < start s, among the rows of both operands.
#[derive(Clone, Copy)]
pub struct Pair<'a> {
    pub is_change: bool,
    pub r: Interval,
    pub s: Interval,
    pub of_a: &'a [Interval],
    pub of_b: &'a [Interval],
}

impl Pair<'_> {
    pub fn has_rival_of_second(&self) -> bool {
        self.of_b.iter().any(|other| is_rival_of_second(self.r, self.s, *other))
    }

    fn rivals_of_first(&self) -> impl Iterator<Item = &Interval> {
        self.of_a.iter().filter(|other| is_rival_of_first(self.r, self.s, **other))
    }

    pub fn has_rival_of_first(&self) -> bool {
        self.rivals_of_first().next().is_some()
    }

    pub fn stands(&self) -> bool {
        !self.has_rival_of_second() && !(self.is_change && self.has_rival_of_first())
    }

    /// How many s of the same end follow r, and how many of them are pairs with it.
    fn ties(&self) -> [usize; 2] {
        let ties = || self.of_b.iter().filter(|tie| tie.start > self.r.end && tie.end == self.s.end);
        [ties().count(), ties().filter(|tie| Pair { s: **tie, ..*self }.stands()).count()]
    }

    fn kinds(&self) -> [bool; PAIRS.len()] {
        let Pair { r, s, of_a, of_b, .. } = *self;
        let (of_second, of_first, stands) = (self.has_rival_of_second(), self.has_rival_of_first(), self.stands());
        let ends_before_s = |other: &Interval| r.end < other.end && other.end < s.end;
        let is_between = |other: &Interval| r.end < other.end && other.end < s.start;
        [
            stands,
            of_second && !of_first,
            of_first && !of_second,
            of_first && of_second,
            of_first && !of_second && self.rivals_of_first().all(|other| other.start == r.start),
            stands && self.ties()[1] > 1,
            stands && of_b.iter().any(|other| other.start == r.end && ends_before_s(other)),
            stands && of_b.iter().any(|other| other.start < r.end && ends_before_s(other)),
            stands && of_a.iter().any(|other| other.start < r.start && is_between(other)),
            stands && of_a.iter().any(|other| other.start >= r.start && other.end == s.start && *other != s),
            stands && of_a.iter().filter(|other| other.start >= r.start && other.end == r.end).count() > 1,
        ]
    }
}

impl Nearest {
    pub fn count_history(&mut self, chart: &Chart) {
        let is_in = OPERATORS.map(|(op, _)| nearest(chart).any(|(_, entry)| entry.op == op));
        add(&mut self.histories, [is_in[0] || is_in[1], is_in[0] && is_in[1]]);
    }

    pub fn count_mark(&mut self, on: On, mark: &Mark) {
        for (number, entry) in nearest(mark.chart) {
            let place = place(entry.op).expect("the entry is one of these");
            add(&mut self.nested[place], nested(mark, number, entry));
            if mark.rows.len() <= MOST_ROWS {
                self.count_pairs(on, place, entry, mark);
            }
        }
    }

    fn count_pairs(&mut self, on: On, place: usize, entry: &Entry, mark: &Mark) {
        let [of_a, of_b] =
            [entry.a, entry.b].map(|operand| rows_of(mark.rows, operand).map(interval).collect::<Vec<_>>());
        let is_change = entry.op == CHANGE;
        for s in rows_of(mark.new_rows(), entry.b).map(interval) {
            for r in of_a.iter().copied().filter(|r| r.end < s.start) {
                let pair = Pair { is_change, r, s, of_a: &of_a, of_b: &of_b };
                let kinds = pair.kinds();
                let [ties, standing] = pair.ties();
                add(&mut self.pairs[on as usize][place], kinds);
                self.parted_ties += usize::from(is_change && kinds[0] && standing < ties);
            }
        }
    }

    /// Counts a forget that is taken, by the rows before it.
    pub fn count_forget(&mut self, chart: &Chart, rows: &[Row], floor: i64) {
        let is_dropped = |row: &Row| row.start < floor;
        for (number, entry) in nearest(chart) {
            let mut dropped_pairs = rows_of(rows, number as u32).filter(|row| is_dropped(row));
            let of_a: Vec<Row> = rows_of(rows, entry.a).copied().collect();
            let (dropped, kept): (Vec<Row>, Vec<Row>) = of_a.into_iter().partition(is_dropped);
            let met = [
                dropped_pairs.any(|row| !is_dropped(&rows[row.right as usize])),
                dropped.iter().any(|r| kept.iter().any(|other| r.end < other.end)),
                kept.iter().any(|r| dropped.iter().any(|other| r.end < other.end)),
                false,
            ];
            add(&mut self.forgets, met);
        }
    }

    /// Counts a mark with a new s that would have been the first after an r that is forgotten.
    pub fn count_missed_pair(&mut self) {
        self.forgets[3] += 1;
    }

    pub fn count_full(&mut self, is_history: bool) {
        self.full[usize::from(!is_history)] += 1;
    }

    pub fn count_damage(&mut self, op: u8, damage: Damage) {
        let place = place(op).expect("the row is of one of these");
        self.damages[place][damage as usize] += 1;
    }

    pub fn counts(&self) -> impl Iterator<Item = &usize> {
        let marks = self.pairs.as_flattened().as_flattened().iter().chain(self.nested.as_flattened());
        let others = self.forgets.iter().chain(&self.full).chain(self.damages.as_flattened());
        marks.chain(others).chain([&self.parted_ties])
    }

    pub fn print(&self) {
        let [either, both] = self.histories;
        println!(
            "{either} histories with cut or change, {both} with both; in them a new s and an r that ends before it"
        );
        for (table, counts) in TABLES.iter().zip(&self.pairs) {
            for ((_, word), counts) in OPERATORS.iter().zip(counts) {
                println!("  {table:<17} {word:<6} {}", named(&PAIRS, counts));
            }
        }
        println!("pairs of change where r' parts r from another s of the same end: {}", self.parted_ties);
        println!("marks that make something of their rows, or them of delayed ones");
        for ((_, word), counts) in OPERATORS.iter().zip(&self.nested) {
            println!("  {word:<6} {}", named(&NESTED, counts));
        }
        println!("forgets between r and what follows it\n  {}", named(&FORGETS, &self.forgets));
        println!("12 at a row of cut or change\n  {}", named(&["histories", "of no history"], &self.full));
        println!("rows of cut and change that no mark made; the first two are not out of joint, the others are");
        for ((_, word), counts) in OPERATORS.iter().zip(&self.damages) {
            println!("  {word:<6} {}", named(&DAMAGES.map(|(_, name)| name), counts));
        }
    }
}

/// What a mark makes of the rows of an entry that is a `cut` or `change`, and of which delayed rows it makes them.
fn nested(mark: &Mark, number: usize, entry: &Entry) -> [bool; NESTED.len()] {
    let entry_of = |reference: i64| usize::try_from(reference).ok().map(|place| mark.rows[place].entry);
    let is_delayed = |reference: i64| entry_of(reference).is_some_and(|part| mark.chart.entries[part].op == AFTER);
    let made_by = |is_by: &dyn Fn(u8) -> bool, is_made: &dyn Fn(&Row) -> bool| {
        mark.new_rows().iter().any(|row| is_by(mark.chart.entries[row.entry].op) && is_made(row))
    };
    let is_other = |op: u8| op != entry.op && place(op).is_some();
    let has_left = |row: &Row| entry_of(row.left) == Some(number);
    let is_own = |row: &Row| row.entry == number;
    [
        made_by(&is_other, &has_left),
        made_by(&is_other, &|row| entry_of(row.right) == Some(number)),
        made_by(&|op| is_absence(&Entry { op, ..*entry }), &has_left),
        has_forbidden(mark, number),
        made_by(&|op| op == AFTER, &has_left),
        made_by(&|op| (LASTS..=AT_LEAST).contains(&op), &has_left),
        made_by(&|op| op == entry.op, &|row| is_own(row) && is_delayed(row.left)),
        made_by(&|op| op == entry.op, &|row| is_own(row) && is_delayed(row.right)),
    ]
}

/// Whether there is a new row r of an absence's operand that a row of the entry forbids.
fn has_forbidden(mark: &Mark, number: usize) -> bool {
    let absences = mark.chart.entries[..mark.chart.count].iter().filter(|entry| is_absence(entry));
    let mut by_entry = absences.filter(|absence| absence.b as usize == number);
    by_entry.any(|absence| {
        let forbids = |r: &Row, s: &Row| Plain::is_forbidding(absence.op, &mark.span(r), &mark.span(s));
        rows_of(mark.new_rows(), absence.a).any(|r| rows_of(mark.rows, absence.b).any(|s| forbids(r, s)))
    })
}

/// Of the rows that a forget drops those that could have been an r yet: the operand whose rows would be their s, and
/// their end.
pub fn waiting(chart: &Chart, rows: &[Row], floor: i64) -> Vec<(usize, i64)> {
    let of_entry = |(_, entry): (usize, &Entry)| {
        let last_start = rows_of(rows, entry.b).map(|s| s.start).max().unwrap_or(i64::MIN);
        let dropped = rows_of(rows, entry.a).filter(|r| r.start < floor && r.end >= last_start);
        dropped.map(|r| (entry.b as usize, r.end)).collect::<Vec<_>>()
    };
    nearest(chart).flat_map(of_entry).collect()
}
