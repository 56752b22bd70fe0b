//! Pairs of logs from a seed, small enough to be merged many times a second. Each kind is drawn for something of its
//! own; any of them may be merged or refused. Instants are drawn in tenths of a millisecond, and those of a pair near
//! each other, so that the two logs meet.

use crate::by_sets::{Log, Pair};
use crate::damage;
use crate::damages::{self, Lines};
use crate::inputs::SPELLINGS;
use common::paper::any_spelling;
use common::random::Random;

const LEAST: i64 = -1_000_000_000;
const GREATEST: i64 = 1_000_000_000;

/// Instants at the ends of the range, about zero, and where a digit more is needed.
const EDGES: [i64; 20] = [
    LEAST + 1,
    LEAST + 9,
    LEAST + 10,
    -100_000_000,
    -99_999_999,
    -11,
    -10,
    -9,
    -1,
    0,
    1,
    9,
    10,
    11,
    99,
    100,
    99_999_999,
    GREATEST - 10,
    GREATEST - 1,
    GREATEST,
];

pub struct Kind {
    pub name: &'static str,
    /// How many pairs are of this kind, beside the others' shares.
    pub share: usize,
    pub draw: fn(&mut Random) -> Pair,
}

const KINDS: [Kind; 10] = [
    Kind { name: "sound", share: 26, draw: |random| both(sound(random)) },
    Kind { name: "one much longer", share: 3, draw: |random| both(one_longer(random)) },
    Kind { name: "about 64 events and more", share: 3, draw: |random| both(crowded(random)) },
    Kind { name: "edge of the range", share: 8, draw: |random| both(at_edges(random)) },
    Kind { name: "openings that differ", share: 8, draw: |random| both(opened_otherwise(random)) },
    Kind { name: "one log damaged", share: 28, draw: |random| both(one_damaged(random)) },
    Kind { name: "both logs damaged", share: 14, draw: |random| both(both_damaged(random)) },
    Kind { name: "damaged anyhow", share: 5, draw: |random| both(damaged_anyhow(random)) },
    Kind { name: "empty, or no file", share: 4, draw: empty_or_missing },
    Kind { name: "any bytes", share: 1, draw: any_bytes },
];

pub fn kind(random: &mut Random) -> &'static Kind {
    kind_of(random, &KINDS)
}

/// One of these kinds, by its share.
pub fn kind_of(random: &mut Random, kinds: &'static [Kind]) -> &'static Kind {
    let mut place = random.below(kinds.iter().map(|kind| kind.share).sum());
    for kind in kinds {
        if place < kind.share {
            return kind;
        }
        place -= kind.share;
    }
    unreachable!("the place is below the sum of all shares")
}

pub fn both(logs: [Lines; 2]) -> Pair {
    logs.map(|lines| Some(lines.concat()))
}

/// What the logs of a pair have in common: where they begin, and how far their marks go, which is up to so many steps
/// of a unit, in tenths.
pub struct Plan {
    opening: i64,
    unit: i64,
    longest_step: usize,
}

impl Plan {
    pub fn any(random: &mut Random) -> Plan {
        let (unit, longest_step) = (random.pick(&[1, 1, 5, 10]), random.pick(&[1, 2, 3, 12]));
        let opening = match random.below(10) {
            0 => LEAST + unit * random.below(3) as i64,
            1 => GREATEST - unit * random.below(30) as i64,
            2 => random.between(LEAST as i32, GREATEST as i32).into(),
            _ => unit * i64::from(random.between(-20, 5)),
        };
        Plan { opening, unit, longest_step }
    }

    /// A sound log of so many lines behind its opening, of which so many in ten are marks, as far as they are in range.
    pub fn log(&self, random: &mut Random, length: usize, marks_in_ten: usize) -> Lines {
        let mut lines = vec![instant_line(random, "open", self.opening)];
        let mut instant = self.opening;
        for _ in 0..length {
            let next = instant + self.unit * (1 + random.below(self.longest_step) as i64);
            if random.below(10) < marks_in_ten && next <= GREATEST {
                instant = next;
                lines.push(instant_line(random, "clock", instant));
            } else {
                lines.push(event_line(random));
            }
        }
        lines
    }

    fn any_log(&self, random: &mut Random) -> Lines {
        let length = if random.one_in(12) { 0 } else { random.below(25) };
        let marks_in_ten = random.pick(&[0, 2, 4, 4, 6, 8, 10]);
        self.log(random, length, marks_in_ten)
    }
}

fn instant_line(random: &mut Random, word: &str, tenths: i64) -> Vec<u8> {
    format!("{word}\t{}\n", any_spelling(random, tenths)).into_bytes()
}

/// Mostly few codes, so that both logs have the same; now and then any.
fn event_line(random: &mut Random) -> Vec<u8> {
    let code = if random.one_in(8) { random.below(256) } else { 1 + random.below(4) };
    format!("event\t{code}\n").into_bytes()
}

pub fn sound(random: &mut Random) -> [Lines; 2] {
    let plan = Plan::any(random);
    [plan.any_log(random), plan.any_log(random)]
}

/// Some hundred lines beside none or a few, either of them first.
fn one_longer(random: &mut Random) -> [Lines; 2] {
    let plan = Plan::any(random);
    let (few, many) = (random.below(4), 100 + random.below(300));
    let mut logs = [plan.log(random, few, 4), plan.log(random, many, 4)];
    if random.one_in(2) {
        logs.reverse();
    }
    logs
}

/// More events at one instant than a watch takes, in one of the logs or in both together.
fn crowded(random: &mut Random) -> [Lines; 2] {
    let plan = Plan::any(random);
    let has_mark = random.one_in(2);
    [(); 2].map(|()| {
        let mut lines = plan.log(random, 1, 10 * usize::from(has_mark));
        let count = random.pick(&[3, 33, 40, 64, 65, 66, 200]);
        lines.extend((0..count).map(|_| event_line(random)));
        lines
    })
}

/// Marks at `EDGES` from the range's least instant on, in one of three pairs with one of `SPELLINGS` among them.
fn at_edges(random: &mut Random) -> [Lines; 2] {
    let mut logs = [(); 2].map(|()| {
        let mut lines = vec![instant_line(random, "open", LEAST)];
        let one_in = random.pick(&[1, 2, 4]);
        for edge in EDGES {
            if random.one_in(one_in) {
                lines.push(instant_line(random, "clock", edge));
                lines.extend((0..random.below(3)).map(|_| event_line(random)));
            }
        }
        lines
    });
    if random.one_in(3) {
        let log = random.below(2);
        let place = random.below(logs[log].len());
        let word = if place == 0 { "open" } else { "clock" };
        logs[log][place] = format!("{word}\t{}\n", random.pick(&SPELLINGS)).into_bytes();
    }
    logs
}

/// Openings that are a tenth apart or more, or differ in their sign; in one of three pairs a log is damaged besides.
fn opened_otherwise(random: &mut Random) -> [Lines; 2] {
    let plan = Plan::any(random);
    let opening = match random.below(6) {
        0 => -plan.opening,
        1 => (plan.opening * 10).clamp(LEAST, GREATEST),
        2 => plan.opening / 10,
        3 => (plan.opening + i64::from(random.between(-1_000, 1_000))).clamp(LEAST, GREATEST),
        _ => (plan.opening + random.pick(&[-10, -1, 1, 10])).clamp(LEAST, GREATEST),
    };
    let other = Plan { opening, ..plan };
    let mut logs = [plan.any_log(random), other.any_log(random)];
    if random.one_in(3) {
        let damaged = random.below(2);
        damages::any(random, &mut logs[damaged]);
    }
    logs
}

fn one_damaged(random: &mut Random) -> [Lines; 2] {
    let (mut logs, damaged) = (sound(random), random.below(2));
    damages::any(random, &mut logs[damaged]);
    logs
}

fn both_damaged(random: &mut Random) -> [Lines; 2] {
    let mut logs = sound(random);
    logs.iter_mut().for_each(|lines| damages::any(random, lines));
    logs
}

/// As the tests of the listing program do it.
fn damaged_anyhow(random: &mut Random) -> [Lines; 2] {
    let mut logs = sound(random);
    for _ in 0..1 + random.below(3) {
        let damaged = random.below(2);
        damage::any(random, &mut logs[damaged]);
    }
    logs
}

fn empty_or_missing(random: &mut Random) -> Pair {
    let log = |random: &mut Random, lines: Lines| -> Log {
        match random.below(4) {
            0 => None,
            1 => Some(vec![]),
            _ => Some(lines.concat()),
        }
    };
    if random.one_in(2) { sound(random) } else { one_damaged(random) }.map(|lines| log(random, lines))
}

/// No logs at all, but bytes that occur in one; mostly behind an opening.
fn any_bytes(random: &mut Random) -> Pair {
    [(); 2].map(|()| {
        let opening: &[u8] = random.pick(&[b"open\t0\n" as &[u8], b"open\t0\n", b""]);
        let are_all = random.one_in(2);
        let byte = |random: &mut Random| {
            if are_all {
                random.below(256) as u8
            } else {
                random.pick(b"01\t\n-.eventclockopen")
            }
        };
        let bytes: Vec<u8> = (0..random.below(60)).map(|_| byte(random)).collect();
        Some([opening, &bytes].concat())
    })
}
