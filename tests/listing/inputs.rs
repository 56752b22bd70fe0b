//! Inputs of the listing program from a seed: a chart, an empty line and a log, small enough for all recognitions to be
//! enumerated. Each kind is drawn for something of its own; any of them may be taken or refused. Instants and lengths
//! are drawn in tenths of a millisecond, mostly few of them, and in one input of three in whole milliseconds.

use crate::damage;
use common::paper::{any_spelling, lines};
use common::random::Random;
use common::random_charts;
use common::random_inputs;
use oracle::listing::TABLE_ROWS;

const LEAST: i64 = -1_000_000_000;
const GREATEST: i64 = 1_000_000_000;

/// Instants at the edges of their range and of a machine word, and of the spelling: without a point, with one and a
/// digit, and damaged.
pub const SPELLINGS: [&str; 60] = [
    "", "-", "0", "-0", "00", "-00", "01", "-01", "+1", "1", "-1", " 1", "1 ", "--1", "0.0", "-0.0", "0.5", "-0.5",
    "1.0", "-1.0", ".5", "-.5", "1.", "-1.", "1.55", "00.5", "-00.5", "01.5", "0,5", "0.-5", "1.5.5", "99999999",
    "-99999999.9", "100000000.0", "-100000000.0", "100000000.1", "-100000000.1", "100000001", "214748364.7",
    "214748364.8", "-214748364.8", "-214748364.9", "429496729.5", "429496729.6", "-429496729.6", "999999999",
    "-999999999", "999999999.9", "-999999999.9", "1000000000", "-1000000000", "1000000000.0", "-1000000000.5",
    "2147483648", "4294967296", "9999999999", "-10000000000", "18446744073709551616", "100000000\r", "100000000.0\r",
];

/// Instants at the ends of their range and a tenth from there.
const ENDS: [&str; 10] = [
    "100000000", "-100000000", "100000000.0", "-100000000.0", "99999999.9", "-99999999.9", "99999999", "-99999999.0",
    "100000000.1", "-100000000.1",
];

/// An input, and how many rows the table to play it on can hold.
pub struct Case {
    pub input: Vec<u8>,
    pub table_rows: usize,
}

pub struct Kind {
    pub name: &'static str,
    /// How many inputs are of this kind, beside the others' shares.
    share: usize,
    pub draw: fn(&mut Random) -> Case,
}

const KINDS: [Kind; 13] = [
    Kind { name: "sound", share: 20, draw: |random| on_full_table(sound(random)) },
    Kind { name: "small table", share: 10, draw: on_small_table },
    Kind { name: "delays", share: 16, draw: |random| on_full_table(with_delays(random)) },
    Kind { name: "delays, small table", share: 6, draw: with_delays_on_small_table },
    Kind { name: "cut and change", share: 16, draw: |random| on_full_table(with_nearest(random)) },
    Kind { name: "cut and change, small table", share: 6, draw: with_nearest_on_small_table },
    Kind { name: "damaged", share: 34, draw: |random| on_full_table(damaged(random)) },
    Kind { name: "damaged chart", share: 12, draw: |random| on_full_table(damaged_chart(random)) },
    Kind { name: "edge of the range", share: 12, draw: |random| on_full_table(at_an_edge(random)) },
    Kind { name: "60 to 66 events", share: 2, draw: |random| on_full_table(crowded(random)) },
    Kind { name: "about 3,000 rows", share: 1, draw: |random| on_full_table(filling(random)) },
    Kind { name: "short intervals", share: 4, draw: |random| on_full_table(of_short_intervals(random)) },
    Kind { name: "any bytes", share: 5, draw: |random| on_full_table(any_bytes(random)) },
];

/// A kind, by its share.
pub fn kind(random: &mut Random) -> &'static Kind {
    let mut place = random.below(KINDS.iter().map(|kind| kind.share).sum());
    for kind in &KINDS {
        if place < kind.share {
            return kind;
        }
        place -= kind.share;
    }
    unreachable!("the place is below the sum of all shares")
}

fn on_full_table(input: Vec<u8>) -> Case {
    Case { input, table_rows: TABLE_ROWS }
}

fn on_small_table(random: &mut Random) -> Case {
    let table_rows = random.below(60);
    Case { input: sound(random), table_rows }
}

/// A sound chart and log, but for a call refused now and then.
fn sound(random: &mut Random) -> Vec<u8> {
    let (chart, length) = (chart(random), random.below(40));
    of_chart(random, &chart, length, 3)
}

/// A chart whose lengths are a few tenths, and a log with so many calls and steps of such a length: both as they are,
/// or ten times as long.
pub fn of_chart(random: &mut Random, chart: &str, length: usize, longest_step: usize) -> Vec<u8> {
    let unit = random_inputs::unit(random);
    let opening = opening(random, unit);
    let log = log(random, opening, length, Steps { unit, longest: longest_step });
    format!("{}\n{log}", random_inputs::scaled(random, chart, unit)).into_bytes()
}

/// The same with a delay among the operators, and marks that go over none, one or many of their ends.
fn with_delays(random: &mut Random) -> Vec<u8> {
    let operators = random.below(8);
    let chart = random_inputs::delay_chart(random, operators, 3);
    let (length, longest_step) = (random.below(40), random.pick(&[3, 12, 30]));
    of_chart(random, &chart, length, longest_step)
}

fn with_delays_on_small_table(random: &mut Random) -> Case {
    let table_rows = random.below(60);
    Case { input: with_delays(random), table_rows }
}

/// The same with a `cut` or `change` among the operators.
fn with_nearest(random: &mut Random) -> Vec<u8> {
    let (operators, most_leaves) = (random.below(7), random.pick(&[3, 4]));
    let chart = random_inputs::nearest_chart(random, operators, most_leaves);
    let (length, longest_step) = (random.below(40), random.pick(&[2, 3, 12]));
    of_chart(random, &chart, length, longest_step)
}

fn with_nearest_on_small_table(random: &mut Random) -> Case {
    let table_rows = random.below(60);
    Case { input: with_nearest(random), table_rows }
}

fn chart(random: &mut Random) -> String {
    let operators = random.below(9);
    if random.one_in(3) {
        random_inputs::interval_chart(random, operators)
    } else {
        random_inputs::chart(random, operators, 3)
    }
}

/// How far marks go: up to so many steps of a unit, which is in tenths.
#[derive(Clone, Copy)]
struct Steps {
    unit: i64,
    longest: usize,
}

impl Steps {
    fn any(self, random: &mut Random) -> i64 {
        self.unit * (1 + random.below(self.longest) as i64)
    }
}

fn opening(random: &mut Random, unit: i64) -> i64 {
    match random.below(8) {
        0 => LEAST + unit * random.below(3) as i64,
        1 => GREATEST - unit * random.below(40) as i64,
        2 => random.between(LEAST as i32, GREATEST as i32).into(),
        _ => unit * i64::from(random.between(-20, 5)),
    }
}

fn log(random: &mut Random, opening: i64, length: usize, steps: Steps) -> String {
    let (mut instant, mut floor) = (opening, LEAST);
    let mut text = format!("open\t{}\n", any_spelling(random, opening));
    for _ in 0..length {
        text += &match random.below(12) {
            0 => {
                floor = new_floor(random, instant, floor, steps.unit);
                format!("forget\t{}\n", any_spelling(random, floor))
            }
            1..=4 => {
                instant = new_instant(random, instant, steps);
                format!("clock\t{}\n", any_spelling(random, instant))
            }
            _ => format!("event\t{}\n", code(random)),
        };
    }
    let last = instant + steps.any(random);
    text + &format!("clock\t{}\n", any_spelling(random, last))
}

/// A mark after the open instant; now and then far after it, by a tenth, or not after it.
fn new_instant(random: &mut Random, instant: i64, steps: Steps) -> i64 {
    match random.below(100) {
        0 => instant - random.below(2) as i64,
        1 => GREATEST + random.below(2) as i64,
        2 | 3 => instant + random.below(1_000_000_000) as i64,
        4 | 5 => instant + 1,
        _ => instant + steps.any(random),
    }
}

/// A floor just before the open instant; now and then above it or below the floor.
fn new_floor(random: &mut Random, instant: i64, floor: i64, unit: i64) -> i64 {
    match random.below(40) {
        0 => instant + 1,
        1 => floor - 1,
        2 => floor,
        _ => (instant - unit * random.below(9) as i64).max(floor),
    }
}

/// Mostly a code that the chart names; 4 is named by none and counts in the serials all the same.
fn code(random: &mut Random) -> usize {
    if random.one_in(30) {
        random.pick(&[0, 9, 10, 99, 100, 254, 255])
    } else {
        1 + random.below(4)
    }
}

/// One to three damages, anywhere in chart, empty line and log.
fn damaged(random: &mut Random) -> Vec<u8> {
    let mut lines: Vec<Vec<u8>> = lines(&sound(random)).map(<[u8]>::to_vec).collect();
    for _ in 0..1 + random.below(3) {
        damage::any(random, &mut lines);
    }
    lines.concat()
}

/// A chart that its reader mostly refuses, of up to 34 lines; the empty line is missing now and then. A chart taken is
/// played without an event, since its recognitions may be very many.
fn damaged_chart(random: &mut Random) -> Vec<u8> {
    let chart = random_charts::any(random);
    let parting: &[u8] = if random.one_in(10) { b"" } else { b"\n" };
    let logs =
        ["open\t-1\nclock\t0\n", "open\t-0.1\nclock\t0.0\n", "open\t0\n", "event\t1\n", "open\t0\nclock\t0.0\n", ""];
    [&chart, parting, random.pick(&logs).as_bytes()].concat()
}

/// A log with an instant of `SPELLINGS` or of `ENDS` in one to three of its lines.
fn at_an_edge(random: &mut Random) -> Vec<u8> {
    let limit = random.pick(&["0", "199999999.8", "199999999.9"]);
    let delay = random.pick(&["0.0", "0.1", "199999999.8", "199999999.9", "200000000", "200000000.0"]);
    let mut text = format!("0\tevent\t1\n1\tseq\t0\t0\n2\tatleast\t1\t{limit}\n3\tafter\t0\t{delay}\n\n");
    let opening = if random.one_in(2) { random.pick(&["-100000000", "-100000000.0"]) } else { random.pick(&SPELLINGS) };
    text += &format!("open\t{opening}\nevent\t1\n");
    for _ in 0..random.below(4) {
        let spelling = if random.one_in(2) { random.pick(&SPELLINGS) } else { random.pick(&ENDS) };
        text += &format!("{}\t{spelling}\n", random.pick(&["clock", "clock", "forget"]));
        text += if random.one_in(3) { "event\t1\n" } else { "" };
    }
    text.into_bytes()
}

/// About as many events in one instant as it takes, after another instant or in the first.
fn crowded(random: &mut Random) -> Vec<u8> {
    let mut text = "0\tevent\t1\n1\tevent\t2\n2\tequals\t0\t1\n\nopen\t-3\n".to_string();
    for _ in 0..random.below(2) {
        text += "event\t1\nclock\t-2\n";
    }
    for _ in 0..60 + random.below(7) {
        text += &format!("event\t{}\n", random.pick(&[1, 2, 3]));
    }
    (text + "clock\t0\n").into_bytes()
}

/// Pairs that leave room for about 30 rows of 3,000, and about 30 events to fill it, with forgets or without.
fn filling(random: &mut Random) -> Vec<u8> {
    let mut text = "0\tevent\t1\n1\tevent\t2\n2\tand\t0\t0\n\nopen\t-2\n".to_string();
    if random.one_in(2) {
        // A row from before, kept or forgotten.
        text += "event\t2\nclock\t-1\n";
        text += if random.one_in(2) { "forget\t-1\n" } else { "" };
    }
    let pairs = if random.one_in(4) { 50 + random.below(5) } else { 54 };
    text += &"event\t1\n".repeat(pairs);
    text += "clock\t0\n";
    text += &"event\t2\n".repeat(28 + random.below(4));
    text += "clock\t1\n";
    text += if random.one_in(2) { "forget\t0\nevent\t1\nclock\t2\n" } else { "" };
    text.into_bytes()
}

/// Short intervals that are paired with each other, over many marks: the edge of the search for pairs.
fn of_short_intervals(random: &mut Random) -> Vec<u8> {
    let operators = 1 + random.below(4);
    let chart = random_inputs::short_interval_chart(random, operators);
    format!("{chart}\n{}", log(random, -20, 120, Steps { unit: 1, longest: 3 })).into_bytes()
}

/// No chart at all, but bytes that occur in one.
fn any_bytes(random: &mut Random) -> Vec<u8> {
    let length = random.below(100);
    let are_all = random.one_in(2);
    let byte = |random: &mut Random| {
        if are_all {
            random.below(256) as u8
        } else {
            random.pick(b"01\t\t\n\n-.eventclockopen[]")
        }
    };
    (0..length).map(|_| byte(random)).collect()
}
