//! How often marks came to the edge of the search for pairs. `meets`, `overlaps`, `starts` and `during` take no row r that
//! ends before the earliest start of the new rows s, and rows stand by their end: what is looked at may begin there.

use common::interface::Chart;
use common::plain_chart::WORDS;
use oracle::recognitions::Row;

const MEETS: u8 = 8;
const OPERATORS: usize = 4;
/// An old row r that ends an instant before that start, at it, and an instant after it.
const PLACES: [(i64, &str); 3] = [(-1, "before"), (0, "at"), (1, "after")];

/// The marks with a new s longer than an instant and such an r, by operator and place: while nothing was forgotten, and
/// afterwards.
#[derive(Default)]
pub struct Searches {
    marks: [[[usize; PLACES.len()]; OPERATORS]; 2],
}

impl Searches {
    /// Counts a mark by the rows that it left.
    pub fn count(&mut self, chart: &Chart, rows: &[Row], closed: i64, has_forgotten: bool) {
        for entry in &chart.entries[..chart.count] {
            let operator = usize::from(entry.op.wrapping_sub(MEETS));
            let new = rows.iter().filter(|s| s.entry == entry.b as usize && s.end == closed);
            let Some(start) = new.map(|s| s.start).min().filter(|start| operator < OPERATORS && *start < closed) else {
                continue;
            };
            for (place, (after, _)) in PLACES.iter().enumerate() {
                let is_there = |r: &Row| r.entry == entry.a as usize && r.end == start + after && r.end < closed;
                self.marks[usize::from(has_forgotten)][operator][place] += usize::from(rows.iter().any(is_there));
            }
        }
    }

    pub fn counts(&self) -> impl Iterator<Item = &usize> {
        self.marks.as_flattened().as_flattened().iter()
    }

    pub fn print(&self) {
        println!("marks with a row r that ends an instant before the new rows s start, there, or an instant after");
        for (when, marks) in ["nothing forgotten", "after a forget"].iter().zip(&self.marks) {
            for (word, counts) in WORDS[usize::from(MEETS)..].iter().zip(marks) {
                let counts = PLACES.iter().zip(counts).map(|((_, place), count)| format!("{place}: {count}"));
                println!("  {when:<17} {word:<8} {}", counts.collect::<Vec<_>>().join("  "));
            }
        }
    }
}
