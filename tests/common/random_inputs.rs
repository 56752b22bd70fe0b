//! Inputs of the listing program from a seed: a chart, an empty line and a log, small enough for all recognitions to be
//! enumerated. Lengths and instants are drawn in tenths of a millisecond, so that a log of steps of a few tenths meets
//! the bounds of its chart; in other units where a chart is `scaled`.

use crate::paper::{self, any_spelling};
use crate::plain_chart::{operator, Entry, Operator, WORDS};
use crate::random::Random;
use std::ops::Range;

/// The most leaves of a recognition's tree in `any`.
const MOST_LEAVES: usize = 3;
/// What searches for rows by their end; those with an edge of their own twice.
const SEARCHED: [&str; 11] =
    ["meets", "overlaps", "starts", "during", "meets", "overlaps", "starts", "during", "seq", "cut", "change"];
const LENGTHS: [i64; 5] = [7, 999_999_999, 1_000_000_000, 1_999_999_999, 2_000_000_000];
const GREATEST_LENGTH: i64 = 2_000_000_000;
/// How many tenths the lengths and steps of an input are drawn in: whole milliseconds may be spelled without a point.
const UNITS: [i64; 3] = [1, 1, 10];

/// Draws an entry over earlier ones with the leaves given, as its line's operator and operands, and its own leaves.
type DrawEntry = fn(&mut Random, &[usize], usize) -> (String, usize);

/// A sound chart and a log of up to 30 lines, in which a mark or a forget is refused now and then.
pub fn any(random: &mut Random) -> Vec<u8> {
    let operators = random.below(8);
    let draw = random.pick(&[chart, delay_chart, nearest_chart]);
    let chart = draw(random, operators, MOST_LEAVES);
    let unit = unit(random);
    format!("{}\n{}", scaled(random, &chart, unit), log(random, unit)).into_bytes()
}

pub fn unit(random: &mut Random) -> i64 {
    random.pick(&UNITS)
}

/// The chart with its lengths in such a unit, but for those that would be out of range.
pub fn scaled(random: &mut Random, chart: &str, unit: i64) -> String {
    chart.split_inclusive('\n').map(|line| scaled_line(random, line, unit)).collect()
}

fn scaled_line(random: &mut Random, line: &str, unit: i64) -> String {
    let fields: Vec<&str> = line.trim_end().split('\t').collect();
    let [number, word, a, length] = fields[..] else { return line.to_string() };
    if !matches!(operator(word.as_bytes()), Some(Operator::Length(_) | Operator::After)) {
        return line.to_string();
    }
    let tenths = paper::length(length.as_bytes()).expect("the chart drawn is sound") as i64;
    let scaled = Some(unit * tenths).filter(|scaled| *scaled <= GREATEST_LENGTH).unwrap_or(tenths);
    format!("{number}\t{word}\t{a}\t{}\n", any_spelling(random, scaled))
}

/// A length of so many tenths.
fn length_in(random: &mut Random, tenths: Range<usize>) -> String {
    let drawn = tenths.start + random.below(tenths.len());
    any_spelling(random, drawn as i64)
}

/// A length at an end of a range, or far from any that is drawn.
fn long_length(random: &mut Random) -> String {
    let tenths = random.pick(&LENGTHS);
    any_spelling(random, tenths)
}

/// A sound chart of one to three events and so many operators. Of n events an entry has no more recognitions than about
/// n to the power of the most leaves of a tree.
pub fn chart(random: &mut Random, operators: usize, most_leaves: usize) -> String {
    let event_entries = 1 + random.below(3);
    chart_of(random, event_entries, &vec![entry as DrawEntry; operators], most_leaves)
}

/// A sound chart of one to three events, a delay of one of them, and so many operators more, many of them delays too or
/// over delayed rows.
pub fn delay_chart(random: &mut Random, operators: usize, most_leaves: usize) -> String {
    let event_entries = 1 + random.below(3);
    let others = (0..operators).map(|_| random.pick(&[delay, entry, entry_over_last]));
    let draws: Vec<DrawEntry> = std::iter::once(delay as DrawEntry).chain(others).collect();
    chart_of(random, event_entries, &draws, most_leaves)
}

/// A sound chart of one to three events, intervals, mostly others among these, a `cut` or a `change`, and so many
/// operators more, many of them such too or over their rows.
pub fn nearest_chart(random: &mut Random, operators: usize, most_leaves: usize) -> String {
    let event_entries = 1 + random.below(3);
    let others = (0..operators).map(|_| random.pick(&[nearest, nearest, nearest, entry, entry_over_last, delay]));
    let draws: Vec<DrawEntry> = [interval as DrawEntry, mixed, nearest].into_iter().chain(others).collect();
    let draws = if random.one_in(3) { [&draws[..1], &draws[2..]].concat() } else { draws };
    chart_of(random, event_entries, &draws, most_leaves)
}

/// So many sound lines more for a chart of these entries: events too, and operators over entries old and new.
pub fn more_lines(random: &mut Random, chart: &[Entry], count: usize, most_leaves: usize) -> String {
    let kinds: [DrawEntry; 10] =
        [late_event, entry, entry_over_last, relation, relation, condition, condition, delay, interval, nearest];
    let draws: Vec<DrawEntry> = (0..count).map(|_| random.pick(&kinds)).collect();
    lines_of(random, leaves_of(chart), &draws, most_leaves)
}

/// The leaves of a recognition's tree of each entry, or the most that it may have.
fn leaves_of(chart: &[Entry]) -> Vec<usize> {
    let mut leaves: Vec<usize> = Vec::new();
    for entry in chart {
        let of = |operand: u64| leaves[operand as usize];
        leaves.push(match entry.operator {
            Operator::Event => 1,
            Operator::Or => of(entry.first).max(of(entry.second)),
            Operator::Pair(_) | Operator::Nearest(_) => of(entry.first) + of(entry.second),
            Operator::Absence(..) | Operator::Length(_) | Operator::After => of(entry.first),
        });
    }
    leaves
}

fn chart_of(random: &mut Random, event_entries: usize, draws: &[DrawEntry], most_leaves: usize) -> String {
    let events: String = (0..event_entries).map(|index| format!("{index}\t{}\n", event_entry(random, index))).collect();
    events + &lines_of(random, vec![1; event_entries], draws, most_leaves)
}

/// A line for each draw, behind entries with these leaves.
fn lines_of(random: &mut Random, mut leaves: Vec<usize>, draws: &[DrawEntry], most_leaves: usize) -> String {
    let mut text = String::new();
    for draw in draws {
        let (rest, count) = draw(random, &leaves, most_leaves);
        text += &format!("{}\t{rest}\n", leaves.len());
        leaves.push(count);
    }
    text
}

/// A sound chart of two events, intervals between them, and operators on these intervals.
pub fn interval_chart(random: &mut Random, operators: usize) -> String {
    let mut text = "0\tevent\t1\n1\tevent\t2\n2\tseq\t0\t1\n3\tseq\t1\t0\n".to_string();
    for index in 4..4 + operators {
        let word = random.pick(&WORDS[4..]);
        let a = 2 + random.below(2);
        let second = match operator(word.as_bytes()) {
            Some(Operator::Length(_) | Operator::After) => length_in(random, 0..6),
            _ => random.pick(&[0, 2, 3, 2, 3, index - 1]).to_string(),
        };
        text += &format!("{index}\t{word}\t{a}\t{second}\n");
    }
    text
}

/// A sound chart of two events, intervals between them, those of a few instants, and operators that pair the rows of
/// these. While a log goes on, rows end before, at and after the start of each new short interval.
pub fn short_interval_chart(random: &mut Random, operators: usize) -> String {
    let longest = length_in(random, 1..7);
    let mut text = format!("0\tevent\t1\n1\tevent\t2\n2\tseq\t0\t1\n3\tatmost\t2\t{longest}\n");
    for index in 4..4 + operators {
        let word = random.pick(&SEARCHED);
        let (a, b) = (random.pick(&[2, 3, 3, 0, 1, index - 1]), random.pick(&[3, 3, 3, 3, 3, 2, index - 1]));
        text += &format!("{index}\t{word}\t{a}\t{b}\n");
    }
    text
}

/// A sound chart of three events, waits of two of them, and so many `cut` and `change` of these: a long wait begins
/// before a short one and ends after it.
pub fn crossing_chart(random: &mut Random, operators: usize) -> String {
    let (long, short) = (length_in(random, 2..10), length_in(random, 0..4));
    let events = "0\tevent\t1\n1\tevent\t2\n2\tevent\t3\n";
    let mut text = format!("{events}3\tafter\t0\t{long}\n4\tafter\t1\t{short}\n5\tor\t3\t4\n");
    for index in 6..6 + operators {
        let (word, a) = (random.pick(&["cut", "change", "change"]), random.pick(&[5, 5, 5, 0, index - 1]));
        text += &format!("{index}\t{word}\t{a}\t{}\n", random.pick(&[2, 2, 1, 5, index - 1]));
    }
    text
}

/// Mostly a code of its own.
fn event_entry(random: &mut Random, index: usize) -> String {
    let code = if random.one_in(8) { random.pick(&[0, 1, 2, 255]) } else { index + 1 };
    format!("event\t{code}")
}

/// An event behind operators, mostly of a code that an earlier entry names too.
fn late_event(random: &mut Random, _: &[usize], _: usize) -> (String, usize) {
    let index = random.below(3);
    (event_entry(random, index), 1)
}

fn entry(random: &mut Random, leaves: &[usize], most_leaves: usize) -> (String, usize) {
    let operands = (random.below(leaves.len()), random.below(leaves.len()));
    entry_over(random, operands, leaves, most_leaves)
}

/// An entry one operand of which, or both, is the last so far.
fn entry_over_last(random: &mut Random, leaves: &[usize], most_leaves: usize) -> (String, usize) {
    let (last, other) = (leaves.len() - 1, random.below(leaves.len()));
    let operands = random.pick(&[(last, other), (other, last), (last, last)]);
    entry_over(random, operands, leaves, most_leaves)
}

fn entry_over(random: &mut Random, (a, b): (usize, usize), leaves: &[usize], most_leaves: usize) -> (String, usize) {
    let word = random.pick(&WORDS[1..]);
    match operator(word.as_bytes()) {
        Some(Operator::After) => (format!("{word}\t{a}\t{}", delay_length(random)), leaves[a]),
        Some(Operator::Length(_)) => {
            let length = if random.one_in(8) { long_length(random) } else { length_in(random, 0..6) };
            (format!("{word}\t{a}\t{length}"), leaves[a])
        }
        Some(Operator::Absence(..)) => (format!("{word}\t{a}\t{b}"), leaves[a]),
        Some(Operator::Pair(_) | Operator::Nearest(_)) if leaves[a] + leaves[b] <= most_leaves => {
            (format!("{word}\t{a}\t{b}"), leaves[a] + leaves[b])
        }
        _ => (format!("or\t{a}\t{b}"), leaves[a].max(leaves[b])),
    }
}

/// A delay, of the last entry so far as often as of any other.
fn delay(random: &mut Random, leaves: &[usize], _: usize) -> (String, usize) {
    let a = if random.one_in(2) { leaves.len() - 1 } else { random.below(leaves.len()) };
    (format!("after\t{a}\t{}", delay_length(random)), leaves[a])
}

/// Rows that last, of events: pairs, or delayed ones.
fn interval(random: &mut Random, leaves: &[usize], _: usize) -> (String, usize) {
    let (a, b) = (random.below(leaves.len()), random.below(leaves.len()));
    match random.below(4) {
        0 => (format!("after\t{a}\t{}", length_in(random, 1..7)), 1),
        1 => (format!("and\t{a}\t{b}"), 2),
        _ => (format!("seq\t{a}\t{b}"), 2),
    }
}

/// A relation of two entries, rather of later ones than of events; of events where too many leaves are drawn.
fn relation(random: &mut Random, leaves: &[usize], most_leaves: usize) -> (String, usize) {
    let (a, b) = later_operands(random, leaves, most_leaves);
    let word = random.pick(&["meets", "overlaps", "overlaps", "starts", "during", "during", "finishes", "equals"]);
    (format!("{word}\t{a}\t{b}"), leaves[a] + leaves[b])
}

/// An absence or a length test of one entry, rather of a later one than of an event.
fn condition(random: &mut Random, leaves: &[usize], _: usize) -> (String, usize) {
    let mut operand = || random.below(leaves.len()).max(random.below(leaves.len()));
    let (a, b) = (operand(), operand());
    let (word, second) = match random.below(8) {
        0..=3 => (random.pick(&["-[]", "-][", "-[[", "-]]"]), b.to_string()),
        _ => (random.pick(&["lasts", "lasts", "lasts", "atmost", "atleast"]), length_in(random, 0..6)),
    };
    (format!("{word}\t{a}\t{second}"), leaves[a])
}

/// The last entry's rows among those of another, which may begin and end within them.
fn mixed(random: &mut Random, leaves: &[usize], _: usize) -> (String, usize) {
    let (last, other) = (leaves.len() - 1, random.below(leaves.len()));
    (format!("or\t{last}\t{other}"), leaves[last].max(leaves[other]))
}

/// A `cut` or a `change`, rather of later entries than of events; of events where too many leaves are drawn.
fn nearest(random: &mut Random, leaves: &[usize], most_leaves: usize) -> (String, usize) {
    let (a, b) = later_operands(random, leaves, most_leaves);
    (format!("{}\t{a}\t{b}", random.pick(&["cut", "change"])), leaves[a] + leaves[b])
}

/// Two operands, rather later ones; the first entry twice where they have too many leaves.
fn later_operands(random: &mut Random, leaves: &[usize], most_leaves: usize) -> (usize, usize) {
    let mut operand = || random.below(leaves.len()).max(random.below(leaves.len()));
    let mut drawn = (0..4).map(|_| (operand(), operand()));
    drawn.find(|(a, b)| leaves[*a] + leaves[*b] <= most_leaves).unwrap_or((0, 0))
}

fn delay_length(random: &mut Random) -> String {
    match random.below(16) {
        0 => long_length(random),
        1 | 2 => length_in(random, 0..1),
        3..=5 => length_in(random, 1..2),
        _ => length_in(random, 2..13),
    }
}

/// A log with steps of such a unit.
fn log(random: &mut Random, unit: i64) -> String {
    let mut instant = unit * (random.below(11) as i64 - 5);
    let mut text = format!("open\t{}\n", any_spelling(random, instant));
    for _ in 0..random.below(30) {
        text += &match random.below(12) {
            0 => {
                let floor = instant - unit * random.below(8) as i64;
                format!("forget\t{}\n", any_spelling(random, floor))
            }
            1..=4 => {
                let longest = random.pick(&[3, 3, 3, 30]);
                instant += if random.one_in(50) { 0 } else { unit * (1 + random.below(longest) as i64) };
                format!("clock\t{}\n", any_spelling(random, instant))
            }
            // Code 4 is named by no entry, and counts in the serials all the same.
            _ => format!("event\t{}\n", 1 + random.below(4)),
        };
    }
    let last = instant + unit * (1 + random.pick(&[0, 0, 30]));
    text + &format!("clock\t{}\n", any_spelling(random, last))
}
