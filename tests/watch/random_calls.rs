//! Tables, openings and the arguments of calls from a seed, most of them near what the watch at hand makes interesting.

use crate::delays::delays;
use common::interface::{Chart, Watch};
use common::random::Random;
use oracle::model::Call;

const LEAST: i32 = -1_000_000_000;
const GREATEST: i32 = 1_000_000_000;
pub const OUT_OF_RANGE: [i32; 6] = [i32::MIN, i32::MIN + 1, LEAST - 1, GREATEST + 1, i32::MAX - 1, i32::MAX];

/// What a table holds before the opening: 0 to 40 numbers, or up to 300 rows and some numbers more.
pub fn table(random: &mut Random) -> Vec<i32> {
    let length = match random.below(4) {
        0 => random.below(41),
        1 => 41 + random.below(300),
        _ => 300 + random.below(1_200),
    };
    let are_zeros = random.one_in(4);
    (0..length).map(|_| if are_zeros { 0 } else { number(random) }).collect()
}

/// A number that may stand in a table, in its right place or not.
pub fn number(random: &mut Random) -> i32 {
    match random.below(4) {
        0 => random.between(-3, 40),
        1 => random.pick(&[LEAST, GREATEST, i32::MIN, i32::MAX, -1, 0]),
        _ => random.any_u64() as i32,
    }
}

/// An instant to open a watch at: around the lamp trigger, or at an end of the range.
pub fn opening(random: &mut Random) -> i32 {
    match random.below(8) {
        0 => LEAST + random.between(0, 3),
        1 => GREATEST - random.between(0, 12),
        _ => random.between(-5, 5),
    }
}

/// How often each call is made, how far a clock mark goes, and how many there are to one that jumps to the end of the
/// range or to any instant.
#[derive(Clone, Copy)]
pub struct Frequencies {
    pub events: usize,
    pub clocks: usize,
    pub forgets: usize,
    pub longest_step: i32,
    pub clocks_to_a_jump: usize,
}

/// A call that fits the watch, and now and then one that it refuses.
pub fn call(random: &mut Random, frequencies: Frequencies, watch: &Watch, chart: &Chart, table: &[i32]) -> Call {
    let Frequencies { events, clocks, forgets, .. } = frequencies;
    match random.below(events + clocks + forgets) {
        n if n < events => Call::Event(code(random, chart)),
        n if n < events + clocks => Call::Clock(clock_mark(random, frequencies, watch, chart, table).into()),
        _ => Call::Forget(floor(random, watch, table).into()),
    }
}

/// A code that the chart names, or any.
pub fn code(random: &mut Random, chart: &Chart) -> u8 {
    // The events of a chart drawn are among its first three entries.
    let entry = chart.entries[random.below(chart.count.clamp(1, 3))];
    if entry.op == 0 && !random.one_in(8) {
        entry.a as u8
    } else {
        random.pick(&[0, 1, 2, 3, 3, 4, 255])
    }
}

fn clock_mark(random: &mut Random, frequencies: Frequencies, watch: &Watch, chart: &Chart, table: &[i32]) -> i32 {
    let instant = watch.instant;
    if random.one_in(frequencies.clocks_to_a_jump) {
        return if random.one_in(2) { GREATEST - random.between(0, 12) } else { random.between(instant, i32::MAX) };
    }
    if let Some(due) = near_due_end(random, watch, chart, table).filter(|_| random.one_in(2)) {
        return due;
    }
    match random.below(40) {
        0 => random.pick(&OUT_OF_RANGE),
        1 => instant.saturating_sub(random.between(0, 2)),
        _ => instant.saturating_add(random.between(1, frequencies.longest_step)),
    }
}

/// An instant around the end of a delayed row, of a row in use or of one that the open instant may have yet; none where
/// that has passed or, mostly, where it is far away. The end of the range where it lies behind that.
fn near_due_end(random: &mut Random, watch: &Watch, chart: &Chart, table: &[i32]) -> Option<i32> {
    let lengths: Vec<u32> = delays(chart).map(|(_, entry)| entry.b).collect();
    let rows = watch.rows.min(table.len() / 5);
    if lengths.is_empty() {
        return None;
    }
    let end = if rows == 0 || random.one_in(2) { watch.instant } else { table[random.below(rows) * 5 + 4] };
    let due = i64::from(end) + i64::from(random.pick(&lengths)) + i64::from(random.between(-1, 2));
    let is_far = due > i64::from(watch.instant) + 1_000;
    let due = i32::try_from(due).unwrap_or(GREATEST).min(GREATEST);
    Some(due).filter(|due| *due > watch.instant && (!is_far || random.one_in(8)))
}

fn floor(random: &mut Random, watch: &Watch, table: &[i32]) -> i32 {
    match random.below(24) {
        0 => random.pick(&OUT_OF_RANGE),
        1 => watch.floor.saturating_sub(1),
        2 => watch.instant.saturating_add(1),
        3 => watch.floor,
        4 => watch.instant,
        5 => random.between(watch.floor.min(watch.instant), watch.instant),
        6..=8 => watch.instant.saturating_sub(random.between(0, 6)),
        _ => near_instant_of_row(random, watch, table),
    }
}

/// An end to read rows by: mostly one that a row has.
pub fn end(random: &mut Random, watch: &Watch, table: &[i32]) -> i32 {
    let rows = watch.rows.min(table.len() / 5);
    match random.below(8) {
        0 => number(random),
        1 | 2 => near_instant_of_row(random, watch, table),
        _ if rows == 0 => watch.instant,
        _ => table[random.below(rows) * 5 + 4],
    }
}

/// The start or end of a row, or one next to it.
pub fn near_instant_of_row(random: &mut Random, watch: &Watch, table: &[i32]) -> i32 {
    let rows = watch.rows.min(table.len() / 5);
    if rows == 0 {
        return watch.instant;
    }
    let number = table[random.below(rows) * 5 + random.pick(&[3, 3, 4])];
    number.saturating_add(random.between(-1, 1))
}
