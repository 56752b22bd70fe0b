//! What the inputs of a run reached.

use crate::inputs::Case;
use crate::printed::refusal;
use common::harness::{self, LEAST_MET};
use common::paper::{fields, lines};
use common::plain_chart::MOST_ENTRIES;
use oracle::layout::rows_held;
use std::collections::{BTreeMap, BTreeSet};

pub struct Met {
    /// How many were refused with each number, 0 for none.
    refusals: BTreeMap<u32, usize>,
    kinds: BTreeMap<&'static str, usize>,
    rows: usize,
    /// How many reports had what.
    reports: BTreeMap<&'static str, usize>,
}

impl Met {
    pub fn count(&mut self, kind: &'static str, case: &Case, listing: &[u8]) {
        let number = refusal(listing).map_or(0, |(number, _)| number);
        *self.refusals.entry(number).or_default() += 1;
        *self.kinds.entry(kind).or_default() += 1;
        if number == 0 {
            self.count_report(case, listing);
        }
    }

    fn count_report(&mut self, case: &Case, listing: &[u8]) {
        let rows = lines(listing).count() - 1;
        let with_rows: BTreeSet<&[u8]> = lines(listing).skip(1).filter_map(|row| fields(row)?.nth(1)).collect();
        let entries = lines(&case.input).take_while(|line| *line != b"\n").count();
        let reached = [
            ("a full table", rows == rows_held(5 * case.table_rows)),
            ("no rows", rows == 0),
            ("entries with rows and without", (1..entries).contains(&with_rows.len())),
            ("rows of every entry", with_rows.len() == entries),
            ("32 entries and rows", entries == MOST_ENTRIES && rows > 0),
            ("32 entries and rows of the last", with_rows.contains(&b"31"[..])),
        ];
        self.rows += rows;
        for (what, is_reached) in reached {
            *self.reports.entry(what).or_default() += usize::from(is_reached);
        }
    }
}

impl harness::Met for Met {
    fn nothing() -> Met {
        let refusals = (0..=12).map(|number| (number, 0)).collect();
        Met { refusals, kinds: BTreeMap::new(), rows: 0, reports: BTreeMap::new() }
    }

    /// 10 takes a million events and is met once.
    fn is_enough(&self) -> bool {
        let least = |number: u32| if number == 10 { 1 } else { LEAST_MET };
        self.refusals.iter().all(|(number, count)| *count >= least(*number))
            && self.reports.values().all(|count| *count >= LEAST_MET)
    }

    fn print(&self) {
        println!("{} inputs, no difference", self.kinds.values().sum::<usize>());
        self.kinds.iter().for_each(|(kind, count)| println!("  {kind:<31} {count:>7}"));
        let counts: Vec<String> = self.refusals.iter().map(|(number, count)| format!("{number}: {count}")).collect();
        println!("refused with each number (0: not refused)\n  {}", counts.join("  "));
        println!("{} rows counted; reports with", self.rows);
        self.reports.iter().for_each(|(what, count)| println!("  {what:<31} {count:>7}"));
    }
}
