//! Rows as the numbers of the caller's table. Document 01, "Instants, events, rows"; request N3 for their report.

use crate::recognitions::Row;
use common::interface::{Report, Watch, MOST_ENTRIES};
use std::ops::Range;

/// "The caller's table holds length divided by 5 rows, rounded down, and never more than 65,535."
pub fn rows_held(table_length: usize) -> usize {
    (table_length / 5).min(65_535)
}

/// The table with these rows and zeros in the others; what follows the last row that fits stays.
pub fn flat(rows: &[Row], table: &[i32]) -> Vec<i32> {
    let held = rows_held(table.len()) * 5;
    let mut numbers: Vec<i32> = Vec::with_capacity(table.len());
    for row in rows {
        numbers.extend([row.entry as i64, row.left, row.right, row.start, row.end].map(|number| number as i32));
    }
    numbers.resize(held, 0);
    numbers.extend(&table[held..]);
    numbers
}

/// The numbers of the rows with this end, as a range that begins after the rows that end before.
pub fn rows_ending(rows: &[Row], end: i32) -> Range<usize> {
    let end = i64::from(end);
    let first = rows.iter().filter(|row| row.end < end).count();
    first..first + rows.iter().filter(|row| row.end == end).count()
}

/// What a report of these rows answers, under a chart of so many entries. It reads each row once, "whatever the number
/// of entries".
pub fn report(rows: &[Row], entries: usize) -> Report {
    let mut tallies = [0; MOST_ENTRIES];
    for (entry, tally) in tallies.iter_mut().take(entries).enumerate() {
        *tally = rows.iter().filter(|row| row.entry == entry).count();
    }
    Report { refusal: 0, entries, rows: rows.len(), read: rows.len(), tallies }
}

/// The rows in use of a consistent table.
pub fn rows_in_use(watch: &Watch, table: &[i32]) -> Vec<Row> {
    let row = |numbers: &[i32]| {
        let number = |place: usize| i64::from(numbers[place]);
        Row { entry: numbers[0] as usize, left: number(1), right: number(2), start: number(3), end: number(4) }
    };
    table[..watch.rows * 5].chunks(5).map(row).collect()
}
