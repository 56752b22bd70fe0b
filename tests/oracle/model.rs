//! The state that the calls on a watch determine, and the refusals 8 to 12. Document 01 calls it the book. Request N13
//! adds lines to its chart.

use crate::recognitions::{enumerate, Event, Limits, Recognitions, Row, NO_LIMITS};
use common::plain_chart::{self, Entry, Verdict};
use std::ops::RangeInclusive;

/// In tenths of a millisecond.
pub const INSTANTS: RangeInclusive<i64> = -1_000_000_000..=1_000_000_000;
pub const MOST_EVENTS: usize = 1_000_000;
pub const MOST_PENDING: usize = 64;

/// Which events the recognitions are enumerated over.
#[derive(Clone, Copy, PartialEq)]
pub enum Over {
    /// Every event, as the definition has it: "no floor heeded". Forgotten events go on costing.
    AllEvents,
    /// Those at the floor or later and before the instant asked for, and only recognitions that end before it. The same
    /// rows come out, since "the events of a recognition that starts at the floor or later are all at the floor or
    /// later, and so are those that could forbid it"; the rivals of `cut` and `change` start no earlier than r either.
    /// Of an added entry, only those that start no earlier than it counts: the same is true of its instant. tests.rs
    /// compares the two. No more are enumerated than the table can hold, and one.
    EventsFromFloor,
}

/// A number of document 01's list, 8 to 12.
pub type Refusal = u32;

/// A call on an open watch.
#[derive(Clone, Copy, Debug)]
pub enum Call {
    Event(u8),
    Clock(i64),
    Forget(i64),
}

pub struct Model {
    chart: Vec<Entry>,
    /// "For each entry, the instant from which it counts."
    since: Vec<i64>,
    /// The rows that the table can hold.
    table_rows: usize,
    over: Over,
    pub open_instant: i64,
    pub floor: i64,
    /// Events accepted before those listed, of codes that no entry names: they only take serials.
    unlisted: usize,
    events: Vec<Event>,
}

impl Model {
    pub fn open(chart: &[Entry], table_rows: usize, over: Over, instant: i64) -> Result<Model, Refusal> {
        if !INSTANTS.contains(&instant) {
            return Err(8);
        }
        let floor = *INSTANTS.start();
        let (chart, since) = (chart.to_vec(), vec![floor; chart.len()]);
        Ok(Model { chart, since, table_rows, over, open_instant: instant, floor, unlisted: 0, events: Vec::new() })
    }

    /// The same as if so many events, of codes that no entry names, had come at instants before the open one.
    pub fn with_unlisted_events(self, unlisted: usize) -> Model {
        Model { unlisted, ..self }
    }

    pub fn play(&mut self, call: Call) -> Result<(), Refusal> {
        match call {
            Call::Event(code) => self.event(code),
            Call::Clock(instant) => self.clock(instant),
            Call::Forget(instant) => self.forget(instant),
        }
    }

    pub fn event(&mut self, code: u8) -> Result<(), Refusal> {
        if self.event_count() == MOST_EVENTS {
            return Err(10);
        }
        if self.pending().len() == MOST_PENDING {
            return Err(9);
        }
        let serial = self.event_count() as i64 + 1;
        self.events.push(Event { serial, code, instant: self.open_instant });
        Ok(())
    }

    pub fn clock(&mut self, instant: i64) -> Result<(), Refusal> {
        if !INSTANTS.contains(&instant) || instant <= self.open_instant {
            return Err(8);
        }
        if !self.fits(instant) {
            return Err(12);
        }
        self.open_instant = instant;
        Ok(())
    }

    pub fn forget(&mut self, instant: i64) -> Result<(), Refusal> {
        if instant < self.floor || instant > self.open_instant || !INSTANTS.contains(&instant) {
            return Err(11);
        }
        self.floor = instant;
        Ok(())
    }

    /// "The book turns one back when its lines are bad or none, by the chart reader's number, and otherwise takes it."
    /// The added entries count from the open instant.
    pub fn add_lines(&mut self, lines: &[u8]) -> Result<(), Verdict> {
        let added = plain_chart::read_more(self.chart.len(), lines)?;
        self.chart.extend(added);
        self.since.resize(self.chart.len(), self.open_instant);
        Ok(())
    }

    /// "The opened one with its additions."
    pub fn chart(&self) -> &[Entry] {
        &self.chart
    }

    pub fn since(&self) -> &[i64] {
        &self.since
    }

    /// How many events were accepted.
    pub fn event_count(&self) -> usize {
        self.unlisted + self.events.len()
    }

    /// The events of the open instant, in their order.
    pub fn pending(&self) -> &[Event] {
        &self.events[self.events_before(self.open_instant)..]
    }

    /// The table as the calls so far leave it.
    pub fn rows(&self) -> Vec<Row> {
        let (found, in_order) = self.recognitions();
        found.rows(&in_order)
    }

    /// The trees of the rows.
    pub fn trees(&self) -> Vec<String> {
        let (found, in_order) = self.recognitions();
        in_order.iter().map(|index| found.tree(*index)).collect()
    }

    /// The recognitions found, and which of them the rows are, in their order.
    pub fn recognitions(&self) -> (Recognitions, Vec<usize>) {
        let found = self.enumerated(self.open_instant, usize::MAX).expect("their number is not limited");
        let in_order = found.due_in_order(self.floor, &self.since, self.open_instant);
        (found, in_order)
    }

    /// Whether the recognitions that end before the instant, and start at the floor or later and no earlier than their
    /// entry counts, are no more than the rows that the table can hold.
    fn fits(&self, instant: i64) -> bool {
        let found = self.enumerated(instant, self.table_rows);
        found.is_some_and(|found| found.due(self.floor, &self.since, instant).count() <= self.table_rows)
    }

    /// All recognitions, or enough of them where only ends before the instant are asked for and no more than `most`.
    fn enumerated(&self, before: i64, most: usize) -> Option<Recognitions> {
        match self.over {
            Over::AllEvents => enumerate(&self.chart, &self.events, NO_LIMITS),
            Over::EventsFromFloor => {
                let events = &self.events[self.events_before(self.floor)..self.events_before(before)];
                enumerate(&self.chart, events, Limits { end_before: before, since: &self.since, most })
            }
        }
    }

    /// How many events are before the instant; events stand in the order of their instants.
    fn events_before(&self, instant: i64) -> usize {
        self.events.partition_point(|event| event.instant < instant)
    }
}
