//! Watches at which the next mark makes a block, many rows of one entry, with starts that follow each other in a stated
//! way: for the test and the benchmark of putting rows in order.

use crate::interface::{Answer, Chart, Watch};
use crate::plain_watch::storage::Row;
use crate::plain_watch::{read_chart, Plain, PlainWatch};
use crate::random::Random;

/// How the starts follow each other in the order of document 01, in which the rows are made.
#[derive(Clone, Copy, Debug, PartialEq)]
pub enum Starts {
    /// The earlier first: the block is to be turned round.
    Ascending,
    /// The later first: the block stands in order.
    Descending,
    Equal,
    /// Run after run, in each of which they descend from the same instant to the same one.
    Runs,
    Random,
}

pub const ALL_STARTS: [Starts; 5] =
    [Starts::Ascending, Starts::Descending, Starts::Equal, Starts::Runs, Starts::Random];

/// Every event of code 1 and every later one of code 3.
const OF_EVENTS: &str = "0\tevent\t1\n1\tevent\t3\n2\tseq\t0\t1\n";
/// Every interval from an event of code 1 to one of code 2, and every later event of code 3.
const OF_INTERVALS: &str = "0\tevent\t1\n1\tevent\t2\n2\tevent\t3\n3\tseq\t0\t1\n4\tseq\t3\t2\n";
const INTERVALS: i32 = 3;
const LAST_CODE: u8 = 3;

/// A watch with the events of the block's instant pending.
pub struct BeforeBlock {
    pub watch: Watch,
    pub chart: Chart,
    pub table: Vec<i32>,
}

/// How many earlier rows are paired with how many events of the block's instant. Every start of the block is that of an
/// earlier row.
#[derive(Clone, Copy)]
pub struct Pairs {
    pub earlier: usize,
    pub last: usize,
}

impl Pairs {
    /// So many rows. Each start is the instant of an event that has a row too, so that a table with 60,000 of them has
    /// room for few starts: there each is the start of 24 rows.
    pub fn of(rows: usize) -> Pairs {
        let last = if rows > 30_000 { 24 } else { 1 };
        Pairs { earlier: rows / last, last }
    }
}

/// A watch before a block, on a table of so many rows. `lines` are more lines of the chart, written for the number of the
/// block's entry.
pub fn before_block(starts: Starts, pairs: Pairs, table_rows: usize, lines: fn(usize) -> String) -> BeforeBlock {
    let text = if starts == Starts::Ascending { OF_EVENTS } else { OF_INTERVALS };
    let chart = read_chart((text.to_string() + &lines(text.lines().count() - 1)).as_bytes()).chart;
    let mut table = vec![0; table_rows * 5];
    let mut watch = taken(Plain::open(chart, &mut table, -1_000));
    for code in codes(starts, pairs.earlier) {
        Plain::add_event(&mut watch, code);
        let next = watch.instant + 1;
        watch = taken(Plain::clock(watch, chart, &mut table, next));
    }
    if starts == Starts::Random {
        exchange_intervals(&mut table.as_chunks_mut::<5>().0[..watch.rows]);
    }
    (0..pairs.last).for_each(|_| Plain::add_event(&mut watch, LAST_CODE));
    BeforeBlock { watch, chart, table }
}

/// The codes of the earlier events, one an instant, that make so many earlier rows.
fn codes(starts: Starts, rows: usize) -> Vec<u8> {
    let codes = |code: u8, count: usize| vec![code; count];
    match starts {
        Starts::Ascending => codes(1, rows),
        // The intervals of one end stand the later start first.
        Starts::Descending | Starts::Random => [codes(1, rows), codes(2, 1)].concat(),
        Starts::Equal => [codes(1, 1), codes(2, rows)].concat(),
        Starts::Runs => {
            let run = (1..=rows.isqrt()).rev().find(|run| rows.is_multiple_of(*run)).unwrap_or(1);
            [codes(1, run), codes(2, rows / run)].concat()
        }
    }
}

/// Exchanges the intervals, which end together. No history leaves them so, but every call takes them so: whether a table
/// is out of joint does not depend on the order of rows with one end. By calls alone an event of code 2 ends intervals
/// from all earlier ones of code 1, the later first, so that their starts come in runs.
fn exchange_intervals(rows: &mut [Row]) {
    let first = rows.partition_point(|[entry, ..]| *entry != INTERVALS);
    let intervals = &mut rows[first..];
    let mut random = Random::new(intervals.len() as u64);
    (1..intervals.len()).for_each(|place| intervals.swap(place, random.below(place + 1)));
}

fn taken(answer: Answer) -> Watch {
    assert_eq!(answer.refusal, 0, "the calls before a block are taken");
    answer.watch
}
