//! What a run reached: answers of each call, causes of 13, operators of rows, edges of searches, blocks of rows,
//! delays, `cut` and `change`, additions, reports.

use crate::additions::Additions;
use crate::blocks::Blocks;
use crate::delays::{self, Delays};
use crate::nearest::Nearest;
use crate::reports::Reports;
use crate::searches::Searches;
use common::harness::{self, LEAST_MET};
use common::interface::{Chart, Watch};
use common::plain_chart::WORDS;
use oracle::consistency::{Cause, CAUSES};
use std::collections::{BTreeMap, BTreeSet};

/// Every answer that a call has, 0 being no refusal.
const ANSWERS: [(&str, &[u32]); 9] = [
    ("open", &[0, 8, 14]),
    ("event", &[0, 9, 10, 13, 14]),
    ("clock", &[0, 8, 12, 13, 14]),
    ("forget", &[0, 11, 13, 14]),
    ("check", &[0, 13, 14]),
    ("rows", &[0, 13, 14]),
    ("tree", &[0, 13, 14, 15, 16]),
    ("add", &[0, 1, 2, 3, 4, 5, 6, 13, 14]),
    ("report", &[0, 13, 14]),
];

const LEAST_HISTORIES_WITH_DELAYS: usize = 100_000;
const LEAST_HISTORIES_WITH_NEAREST: usize = 100_000;
const LEAST_HISTORIES_WITH_ADDITIONS: usize = 100_000;

pub struct Met {
    pub histories: usize,
    pub charts: usize,
    answers: BTreeMap<(&'static str, u32), usize>,
    /// How many watches and tables were out of joint for one cause alone.
    causes: BTreeMap<Cause, usize>,
    /// How many were changed and yet consistent.
    consistent: usize,
    /// How many reads of rows gave some, and how many none.
    rows_read: [usize; 2],
    /// How many rows of each operator the tables compared had in all.
    operators: [usize; WORDS.len()],
    pub searches: Searches,
    pub blocks: Blocks,
    pub delays: Delays,
    pub nearest: Nearest,
    pub additions: Additions,
    pub reports: Reports,
}

impl Met {
    pub fn count_answer(&mut self, call: &'static str, refusal: u32) {
        *self.answers.entry((call, refusal)).or_default() += 1;
    }

    pub fn count_causes(&mut self, causes: &BTreeSet<Cause>) {
        match causes.iter().collect::<Vec<_>>().as_slice() {
            [] => self.consistent += 1,
            [cause] => *self.causes.entry(**cause).or_default() += 1,
            _ => {}
        }
    }

    pub fn count_rows_read(&mut self, count: usize) {
        self.rows_read[usize::from(count > 0)] += 1;
    }

    /// Counts a history by the rows that it ends with.
    pub fn count_history(&mut self, chart: &Chart, watch: &Watch, table: &[i32]) {
        self.histories += 1;
        self.delays.histories += usize::from(delays::delays(chart).next().is_some());
        self.nearest.count_history(chart);
        for row in table[..watch.rows * 5].chunks(5) {
            self.operators[usize::from(chart.entries[row[0] as usize].op)] += 1;
        }
    }
}

impl harness::Met for Met {
    fn nothing() -> Met {
        let answers = ANSWERS.iter().flat_map(|(call, numbers)| numbers.iter().map(|number| ((*call, *number), 0)));
        Met {
            histories: 0,
            charts: 0,
            answers: answers.collect(),
            causes: CAUSES.map(|cause| (cause, 0)).into(),
            consistent: 0,
            rows_read: [0; 2],
            operators: [0; WORDS.len()],
            searches: Searches::default(),
            blocks: Blocks::default(),
            delays: Delays::default(),
            nearest: Nearest::default(),
            additions: Additions::default(),
            reports: Reports::default(),
        }
    }

    fn is_enough(&self) -> bool {
        let answers = self.answers.values().chain(self.causes.values());
        let reads = answers.chain(&self.operators).chain(&self.rows_read).chain([&self.consistent]);
        let rows = self.searches.counts().chain(self.blocks.counts()).chain(self.reports.counts());
        let operators = self.delays.counts().chain(self.nearest.counts()).chain(self.additions.counts());
        self.delays.histories >= LEAST_HISTORIES_WITH_DELAYS
            && self.nearest.histories[0] >= LEAST_HISTORIES_WITH_NEAREST
            && self.additions.histories >= LEAST_HISTORIES_WITH_ADDITIONS
            && reads.chain(rows).chain(operators).all(|count| *count >= LEAST_MET)
    }

    fn print(&self) {
        println!("{} histories and {} charts, no difference", self.histories, self.charts);
        println!("answers of each call (0: no refusal)");
        for (call, numbers) in ANSWERS {
            let counts = numbers.iter().map(|number| format!("{number}: {}", self.answers[&(call, *number)]));
            println!("  {call:<7} {}", counts.collect::<Vec<_>>().join("  "));
        }
        println!("reads of rows: {} with rows, {} without", self.rows_read[1], self.rows_read[0]);
        println!(
            "watches and tables changed and yet consistent: {}; out of joint for one cause alone:",
            self.consistent
        );
        self.causes.iter().for_each(|(cause, count)| println!("  {:<30} {count:>8}", format!("{cause:?}")));
        println!("rows of each operator at the ends of histories");
        WORDS.iter().zip(self.operators).for_each(|(word, count)| println!("  {word:<8} {count:>8}"));
        self.searches.print();
        self.blocks.print();
        self.delays.print();
        self.nearest.print();
        self.additions.print();
        self.reports.print();
    }
}
