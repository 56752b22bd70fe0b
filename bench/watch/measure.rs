//! A call on a watch and table, timed with the plain watch and with the proved one. On both sides every call includes the
//! check behind 13, a walk of the whole table.

#[path = "../../tests/common/proved_watch.rs"]
mod proved_watch;

use common::interface::{Addition, Answer, Calls, Chart, Report, Watch};
use common::plain_watch::{self, Plain};
use common::timing::{median, processor_time};
use std::hint::black_box;

const ROUNDS: usize = 41;
/// The bytes of all copies of a table that one round works on, so that each stays in the processor's caches.
const BYTES_A_ROUND: usize = 1 << 21;

#[derive(Clone, Copy)]
pub enum Call {
    Check,
    Report,
    Clock(i32),
    Forget(i32),
    Add(&'static [u8]),
}

pub struct Workload {
    pub name: &'static str,
    pub watch: Watch,
    pub chart: Chart,
    pub table: Vec<i32>,
    pub call: Call,
}

/// Whether both watches must leave the same table, or may have the rows of one end and entry in different orders.
#[derive(Clone, Copy, PartialEq)]
pub enum Order {
    Same,
    Any,
}

/// Sees that both watches do the same, times them and prints a line of the table. Of the rows in use and the new ones,
/// `counted` says over how many the time is given at its end.
pub fn print_line(workload: &Workload, order: Order, counted: fn(usize, usize) -> usize) {
    let (plain, proved) = (plain_watch::calls::<Plain>(), proved_watch::CALLS);
    let (name, in_use, new_rows) = (workload.name, workload.watch.rows, compare(workload, &plain, &proved, order));
    let (plain, proved) = median_times(workload, &plain, &proved);
    let (plain_us, proved_us, ratio) = (plain / 1e3, proved / 1e3, proved / plain);
    let counted = counted(in_use, new_rows) as f64;
    print!("{name:<18} {in_use:>6} {new_rows:>7} {plain_us:>8.2} {proved_us:>8.2} {ratio:>6.3}");
    println!(" {:>7.2} {:>7.2}", plain / counted, proved / counted);
}

pub fn print_method() {
    println!("processor time, medians of {ROUNDS} rounds, the two watches taking turns");
}

pub fn taken(answer: Answer) -> Watch {
    assert_eq!(answer.refusal, 0, "a call of the workload is taken");
    answer.watch
}

/// What a call answers.
#[derive(PartialEq)]
enum Answered {
    Check(u32),
    Report(Report),
    Watch(Answer),
    Addition(Addition),
}

fn play(calls: &Calls, workload: &Workload, table: &mut [i32]) -> Answered {
    let Workload { watch, chart, call, .. } = workload;
    match *call {
        Call::Check => Answered::Check((calls.check)(*watch, *chart, table)),
        Call::Report => Answered::Report((calls.report)(*watch, *chart, table)),
        Call::Clock(instant) => Answered::Watch((calls.clock)(*watch, *chart, table, instant)),
        Call::Forget(floor) => Answered::Watch((calls.forget)(*watch, *chart, table, floor)),
        Call::Add(lines) => Answered::Addition((calls.add_lines)(*watch, *chart, table, lines)),
    }
}

/// Returns how many rows are new.
fn compare(workload: &Workload, plain: &Calls, proved: &Calls, order: Order) -> usize {
    let (mut by_plain, mut by_proved) = (workload.table.clone(), workload.table.clone());
    let (answered, other) = (play(plain, workload, &mut by_plain), play(proved, workload, &mut by_proved));
    let is_same = by_plain == by_proved || (order == Order::Any && intervals(&by_plain) == intervals(&by_proved));
    assert!(answered == other && is_same, "the two watches differ on: {}", workload.name);
    let Watch { rows: before, .. } = workload.watch;
    let (refusal, rows) = match answered {
        Answered::Check(refusal) => (refusal, before),
        Answered::Report(Report { refusal, rows, .. }) => (refusal, rows),
        Answered::Watch(Answer { refusal, watch }) | Answered::Addition(Addition { refusal, watch, .. }) => {
            (refusal, watch.rows)
        }
    };
    assert_eq!(refusal, 0, "the call is taken: {}", workload.name);
    rows.saturating_sub(before)
}

/// End, entry and start of each row: what does not depend on the order of rows.
fn intervals(table: &[i32]) -> Vec<[i32; 3]> {
    let mut intervals: Vec<[i32; 3]> = table.chunks(5).map(|row| [row[4], row[0], row[3]]).collect();
    intervals.sort_unstable();
    intervals
}

/// The median time of the call, in nanoseconds, with the plain watch and with the proved one.
fn median_times(workload: &Workload, plain: &Calls, proved: &Calls) -> (f64, f64) {
    let copies = (BYTES_A_ROUND / (workload.table.len() * 4)).clamp(1, 300);
    let mut tables = vec![workload.table.clone(); copies];
    let (mut plain_times, mut proved_times) = (Vec::new(), Vec::new());
    for _ in 0..ROUNDS {
        plain_times.push(time(workload, plain, &mut tables));
        proved_times.push(time(workload, proved, &mut tables));
    }
    (median(plain_times), median(proved_times))
}

/// The time of one call, over all copies of the table, which are put back afterwards.
fn time(workload: &Workload, calls: &Calls, tables: &mut [Vec<i32>]) -> f64 {
    let start = processor_time();
    for table in tables.iter_mut() {
        black_box(play(calls, workload, black_box(table)));
    }
    let elapsed = (processor_time() - start) / tables.len() as f64;
    tables.iter_mut().for_each(|table| table.copy_from_slice(&workload.table));
    elapsed
}
