//! How often reports had tallies of each kind to tell apart.

use crate::blocks::{On, TABLES};
use crate::delays::{add, named};
use common::interface::{Report, MOST_ENTRIES};

/// What a report that is not refused counts: rows of two entries or more; rows, but none of some entry; rows of the
/// chart's last entry; no row; rows under a chart of 32 entries; rows of the last of these.
const KINDS: [&str; 6] =
    ["several entries", "an entry without rows", "the last entry", "no row", "32 entries", "the last of 32"];

#[derive(Default)]
pub struct Reports {
    kinds: [[usize; KINDS.len()]; TABLES.len()],
}

impl Reports {
    /// Counts a report by what it must answer.
    pub fn count(&mut self, on: On, report: &Report) {
        let Some((last, others)) = report.tallies[..report.entries].split_last() else {
            return;
        };
        let with_rows = others.iter().chain([last]).filter(|tally| **tally > 0).count();
        let is_full = report.entries == MOST_ENTRIES;
        let met = [
            with_rows > 1,
            with_rows > 0 && with_rows < report.entries,
            *last > 0,
            with_rows == 0,
            is_full && with_rows > 0,
            is_full && *last > 0,
        ];
        add(&mut self.kinds[on as usize], met);
    }

    pub fn counts(&self) -> impl Iterator<Item = &usize> {
        self.kinds.as_flattened().iter()
    }

    pub fn print(&self) {
        println!("reports, by the rows that they count");
        for (table, counts) in TABLES.iter().zip(&self.kinds) {
            println!("  {table:<17} {}", named(&KINDS, counts));
        }
    }
}
