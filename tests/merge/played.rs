//! "The merged log, where playing it meets no refusal, gives a table for exactly the events of both before its last
//! mark": played by the set-building program, with a chart of events.

use crate::by_sets::{events_of, read_both, Pair};
use crate::by_words::spelled;
use common::harness::Compared;
use oracle::listing::{listing, TABLE_ROWS};
use oracle::model::Over;

/// Those of most events that are drawn.
const CODES: std::ops::RangeInclusive<u8> = 1..=4;

/// Compares the table for a pair's merged log; one that is refused has none.
pub fn compare(pair: &Pair, merged: &[u8]) -> Compared {
    let Ok(logs) = read_both(pair) else { return Ok(()) };
    let chart: String = CODES.enumerate().map(|(entry, code)| format!("{entry}\tevent\t{code}\n")).collect();
    let printed = listing(&[chart.as_bytes(), b"\n", merged].concat(), TABLE_ROWS, Over::EventsFromFloor);
    // More events than an instant takes.
    if printed.starts_with(b"refused\t9\t") {
        return Ok(());
    }
    let last = logs[0].open_instant().max(logs[1].open_instant());
    let named = |(serial, event): (usize, &(i64, usize, usize, u8))| {
        let (instant, .., code) = *event;
        (CODES.contains(&code) && instant < last).then(|| (instant, code - CODES.start(), serial + 1))
    };
    let mut rows: Vec<(i64, u8, usize)> = events_of(&logs).iter().enumerate().filter_map(named).collect();
    rows.sort();
    let row = |(number, (instant, entry, serial)): (usize, (i64, u8, usize))| {
        let instant = spelled(instant as i32);
        format!("{number}\t{entry}\t{serial}\t-1\t{instant}\t{instant}\n")
    };
    let expected = "row\tentry\tleft\tright\tstart\tend\n".to_string()
        + &rows.into_iter().enumerate().map(row).collect::<String>();
    if printed == expected.as_bytes() {
        return Ok(());
    }
    Err(format!("merged log \"{}\"\nis listed as \"{}\"", merged.escape_ascii(), printed.escape_ascii()))
}
