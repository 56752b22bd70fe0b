//! A history as the C interface shows it: the model's state after each call, laid out as a watch and a table.

use crate::layout::{self, flat, rows_ending, rows_held};
use crate::model::{Call, Model, Over, Refusal, MOST_PENDING};
use crate::recognitions::{Recognitions, Row};
use common::interface::{Report, Watch, MOST_ENTRIES};
use common::plain_chart::{Entry, Verdict};
use std::ops::Range;

pub struct History {
    model: Model,
    found: Recognitions,
    /// Which recognitions the rows are, in their order.
    in_order: Vec<usize>,
    pub rows: Vec<Row>,
    pub watch: Watch,
    pub table: Vec<i32>,
}

impl History {
    /// An opening on a table, after which so many events, of codes that no entry names, have come and gone.
    pub fn open(chart: &[Entry], table: &[i32], instant: i32, unlisted_events: usize) -> Result<History, Refusal> {
        let model = Model::open(chart, rows_held(table.len()), Over::EventsFromFloor, instant.into())?;
        let model = model.with_unlisted_events(unlisted_events);
        let (found, in_order) = model.recognitions();
        let table = flat(&[], table);
        let mut history = History { model, found, in_order, rows: Vec::new(), watch: Watch::empty(instant), table };
        history.lay_out_watch();
        Ok(history)
    }

    pub fn play(&mut self, call: Call) -> Result<(), Refusal> {
        self.model.play(call)?;
        if !matches!(call, Call::Event(_)) {
            self.lay_out_table();
        }
        self.lay_out_watch();
        Ok(())
    }

    /// An addition, taken or refused. Rows and table are laid out anew: "existing rows are unchanged".
    pub fn add_lines(&mut self, lines: &[u8]) -> Result<(), Verdict> {
        self.model.add_lines(lines)?;
        self.lay_out_table();
        self.lay_out_watch();
        Ok(())
    }

    /// The chart as the last addition left it.
    pub fn chart(&self) -> &[Entry] {
        self.model.chart()
    }

    /// The numbers of the rows with this end; where there are none, the empty range at the place they would have.
    pub fn rows_ending(&self, end: i32) -> Range<usize> {
        rows_ending(&self.rows, end)
    }

    /// How many rows each entry has.
    pub fn report(&self) -> Report {
        layout::report(&self.rows, self.chart().len())
    }

    /// The tree of the recognition that a row shows.
    pub fn tree(&self, row: usize, room: usize) -> Result<String, Refusal> {
        let index = *self.in_order.get(row).ok_or(15u32)?;
        Some(self.found.tree(index)).filter(|tree| tree.len() <= room).ok_or(16)
    }

    fn lay_out_table(&mut self) {
        (self.found, self.in_order) = self.model.recognitions();
        self.rows = self.found.rows(&self.in_order);
        self.table = flat(&self.rows, &self.table);
    }

    fn lay_out_watch(&mut self) {
        let (mut codes, mut since) = ([0; MOST_PENDING], [0; MOST_ENTRIES]);
        let pending = self.model.pending();
        pending.iter().zip(&mut codes).for_each(|(event, code)| *code = event.code);
        self.model.since().iter().zip(&mut since).for_each(|(instant, place)| *place = *instant as i32);
        self.watch = Watch {
            instant: self.model.open_instant as i32,
            floor: self.model.floor as i32,
            events: self.model.event_count(),
            rows: self.rows.len(),
            pending: pending.len(),
            codes,
            entries: self.model.since().len(),
            since,
        };
    }
}
