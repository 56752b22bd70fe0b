//! The watch under test with the memory lent to it.

use common::interface::{Addition, Answer, Calls, Chart, Watch};
use oracle::model::Call;

/// The numbers before and behind lent memory, which no call may touch.
const MARGIN: usize = 8;

/// Lent memory, with a margin on both sides.
#[derive(Clone)]
pub struct Lent<T> {
    all: Vec<T>,
    mark: T,
}

impl<T: Copy + PartialEq> Lent<T> {
    pub fn new(contents: &[T], mark: T) -> Lent<T> {
        let margin = [mark; MARGIN];
        Lent { all: [&margin, contents, &margin].concat(), mark }
    }

    pub fn part(&self) -> &[T] {
        &self.all[MARGIN..self.all.len() - MARGIN]
    }

    pub fn part_mut(&mut self) -> &mut [T] {
        let end = self.all.len() - MARGIN;
        &mut self.all[MARGIN..end]
    }

    /// Whether it holds these contents and its margins are as they were.
    pub fn holds(&self, contents: &[T]) -> bool {
        let is_untouched = |margin: &[T]| margin.iter().all(|value| *value == self.mark);
        self.part() == contents
            && is_untouched(&self.all[..MARGIN])
            && is_untouched(&self.all[self.all.len() - MARGIN..])
    }
}

/// A table of these contents to lend.
pub fn lent_table(contents: &[i32]) -> Lent<i32> {
    Lent::new(contents, 0x5a5a_5a5a)
}

/// A watch, its chart and its table.
#[derive(Clone)]
pub struct Subject {
    pub watch: Watch,
    pub chart: Chart,
    pub table: Lent<i32>,
}

impl Subject {
    /// Makes a call, which leaves the table as it does, and keeps the watch handed back.
    pub fn play(&mut self, calls: &Calls, call: Call) -> Answer {
        let (watch, chart) = (self.watch, self.chart);
        let answer = match call {
            Call::Event(code) => (calls.event)(watch, chart, self.table.part(), code),
            Call::Clock(instant) => (calls.clock)(watch, chart, self.table.part_mut(), narrow(instant)),
            Call::Forget(floor) => (calls.forget)(watch, chart, self.table.part_mut(), narrow(floor)),
        };
        self.watch = answer.watch;
        answer
    }

    /// Adds lines, which are lent too, and keeps the watch and the chart handed back. What stands behind the lines ends
    /// the last of them for a reader that goes too far.
    pub fn add_lines(&mut self, calls: &Calls, lines: &[u8]) -> Result<Addition, String> {
        let lent = Lent::new(lines, b'\n');
        let addition = (calls.add_lines)(self.watch, self.chart, self.table.part(), lent.part());
        (self.watch, self.chart) = (addition.watch, addition.chart);
        if lent.holds(lines) {
            Ok(addition)
        } else {
            Err("an addition altered its lines".to_string())
        }
    }
}

/// An instant as the interface takes it; the tests draw none that does not fit.
fn narrow(instant: i64) -> i32 {
    i32::try_from(instant).expect("an instant drawn fits 32 bits")
}

/// The name of a call in the counts and messages.
pub fn name(call: Call) -> &'static str {
    match call {
        Call::Event(_) => "event",
        Call::Clock(_) => "clock",
        Call::Forget(_) => "forget",
    }
}
