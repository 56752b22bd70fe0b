//! How often marks made a block, several rows of one entry, in which later starts had to come first, and how often
//! something else went by the places of its rows.

use common::interface::Chart;
use oracle::recognitions::Row;
use std::ops::Range;

const EVENT: u8 = 0;
const NONE: i64 = -1;

/// The table that a mark was made on.
#[derive(Clone, Copy)]
pub enum On {
    NothingForgotten,
    AfterForget,
    NoHistory,
}

pub const TABLES: [&str; 3] = ["nothing forgotten", "after a forget", "of no history"];

/// What a block has: rows of one start alone; rows that stand elsewhere than they were made; such rows and others of one
/// start; moved rows that a later entry refers to; rows of one start that stand by the starts of their parts.
const KINDS: [&str; 5] = ["all equal", "moved", "moved beside ties", "moved and referred to", "ties by moved parts"];

#[derive(Default)]
pub struct Blocks {
    marks: [[usize; KINDS.len()]; TABLES.len()],
    /// Trees read of rows in blocks with moved rows, and of rows made of these.
    trees: usize,
}

impl Blocks {
    /// Counts the blocks that a mark made, by the rows that it left.
    pub fn count(&mut self, on: On, chart: &Chart, rows: &[Row], closed: i64) {
        let mut place = rows.partition_point(|row| row.end < closed);
        for block in rows[place..].chunk_by(|row, next| (row.end, row.entry) == (next.end, next.entry)) {
            let places = place..place + block.len();
            let later = &rows[places.end..];
            let has_moved = is_moved(block);
            let has_ties = block.windows(2).any(|pair| pair[0].start == pair[1].start);
            let met = [
                has_ties && block.iter().all(|row| row.start == block[0].start),
                has_moved,
                has_moved && has_ties,
                has_moved && later.iter().any(|row| refers_into(chart, row, &places)),
                block.windows(2).any(|pair| stands_by_parts(chart, rows, &pair[0], &pair[1])),
            ];
            met.iter().zip(&mut self.marks[on as usize]).for_each(|(met, count)| *count += usize::from(*met));
            place = places.end;
        }
    }

    /// Counts a tree that is read of a history's row.
    pub fn count_tree(&mut self, chart: &Chart, rows: &[Row], row: usize) {
        let is_in_moved = |row: &Row| is_moved(block_of(rows, row));
        let is_met = |row: &Row| is_in_moved(row) || parts(chart, row).any(|part| is_in_moved(&rows[part]));
        self.trees += usize::from(rows.get(row).is_some_and(is_met));
    }

    pub fn counts(&self) -> impl Iterator<Item = &usize> {
        self.marks.as_flattened().iter().chain([&self.trees])
    }

    pub fn print(&self) {
        println!("blocks of new rows of one entry, by their starts");
        for (table, counts) in TABLES.iter().zip(&self.marks) {
            let counts = KINDS.iter().zip(counts).map(|(kind, count)| format!("{kind}: {count}"));
            println!("  {table:<17} {}", counts.collect::<Vec<_>>().join("  "));
        }
        println!("trees read of rows in blocks with moved rows, or made of these: {}", self.trees);
    }
}

/// The rows that a row refers to.
fn parts(chart: &Chart, row: &Row) -> impl Iterator<Item = usize> {
    let is_event = chart.entries[row.entry].op == EVENT;
    [row.left, row.right].into_iter().filter(move |part| !is_event && *part != NONE).map(|part| part as usize)
}

/// The rows of a row's end and entry.
fn block_of<'a>(rows: &'a [Row], row: &Row) -> &'a [Row] {
    let key = |row: &Row| (row.end, row.entry);
    let behind = rows.partition_point(|other| key(other) <= key(row));
    &rows[rows.partition_point(|other| key(other) < key(row))..behind]
}

/// Whether a block's rows stand otherwise than they were made: the left arm first, then by left and right row.
fn is_moved(block: &[Row]) -> bool {
    !block.is_sorted_by_key(|row| (row.left == NONE, row.left, row.right))
}

fn refers_into(chart: &Chart, row: &Row, places: &Range<usize>) -> bool {
    parts(chart, row).any(|part| places.contains(&part))
}

/// Whether two rows of one start differ first in parts of one end and entry, of which the later start comes first.
fn stands_by_parts(chart: &Chart, rows: &[Row], row: &Row, next: &Row) -> bool {
    let differing = parts(chart, row).zip(parts(chart, next)).find(|(part, other)| part != other);
    row.start == next.start
        && differing.is_some_and(|(part, other)| {
            let (part, other) = (&rows[part], &rows[other]);
            (part.end, part.entry) == (other.end, other.entry) && part.start > other.start
        })
}
