//! The plain watch on a table of its own, with a list of rows for each entry beside it.

use common::chart_value;
use common::interface::{self, Chart};
use common::plain_chart::{Entry, Operator};
use common::plain_watch::storage::{Index, Row, Storage, UNUSED};
use common::plain_watch::{Plain, PlainWatch, Refusal, Renumbered, Taken, INSTANTS};

pub struct Watch {
    watch: interface::Watch,
    chart: Chart,
    table: Box<[Row]>,
    index: Index,
    /// The entries, as bits, that name a code.
    entries_of_code: [u32; 256],
    /// The new number of each row while some are forgotten.
    places: Box<[u16]>,
}

impl Watch {
    pub fn open(entries: &[Entry], table_rows: usize, instant: i64) -> Result<Watch, Refusal> {
        if !INSTANTS.contains(&instant) {
            return Err(8);
        }
        let mut entries_of_code = [0; 256];
        for (number, entry) in entries.iter().enumerate().filter(|(_, entry)| entry.operator == Operator::Event) {
            entries_of_code[entry.first as usize] |= 1 << number;
        }
        Ok(Watch {
            watch: interface::Watch::opened(instant as i32, entries.len()),
            chart: chart_value::of(entries),
            table: vec![UNUSED; table_rows].into(),
            index: Index::new(entries.len()),
            entries_of_code,
            places: vec![0; table_rows].into(),
        })
    }

    pub fn rows(&self) -> &[Row] {
        &self.table[..self.watch.rows]
    }

    pub fn instant(&self) -> i32 {
        self.watch.instant
    }

    pub fn event(&mut self, code: u8) -> Taken {
        Plain::event_unchecked(&mut self.watch, code)?;
        self.index.named |= self.entries_of_code[usize::from(code)];
        Ok(())
    }

    pub fn clock(&mut self, instant: i64) -> Taken {
        let mut storage = Storage::new(&mut self.table, self.watch.rows, Some(&mut self.index));
        Plain::clock_unchecked(&mut self.watch, &self.chart, &mut storage, instant)?;
        self.index.mark();
        Ok(())
    }

    pub fn forget(&mut self, floor: i64) -> Taken {
        let rows = self.watch.rows;
        let table = Renumbered { rows: &mut self.table, places: &mut self.places[..rows] };
        Plain::forget_unchecked(&mut self.watch, &self.chart, table, floor)?;
        if self.watch.rows < rows {
            self.index.forget(self.watch.floor, &self.places);
        }
        Ok(())
    }
}
