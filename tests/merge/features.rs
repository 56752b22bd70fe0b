//! What a pair that is merged may have, and what a merge program could get wrong with it.

use crate::by_sets::{Pair, Read};
use common::harness::Named;
use common::paper::{fields, instant, lines};
use std::collections::BTreeMap;

const GREATEST: i64 = 1_000_000_000;
/// The most events that a watch takes at an instant.
const MOST_EVENTS: usize = 64;

type Feature = fn(&View) -> bool;

pub const FEATURES: [Named<Feature>; 26] = [
    ("events of both at the opening", |view| matches!(view.at_opening(), [(_, 1..), (_, 1..)])),
    ("events of both at a later instant", |view| view.has(|both| matches!(both, [(_, 1..), (_, 1..)]))),
    ("events of one code in both at an instant", |view| view.has_one_code()),
    ("a mark of both without events", |view| view.has(|both| both == [(true, 0), (true, 0)])),
    ("a mark of the first alone without events", |view| view.has(|both| both == [(true, 0), (false, 0)])),
    ("a mark of the second alone without events", |view| view.has(|both| both == [(false, 0), (true, 0)])),
    ("a mark of the first alone with events", |view| view.has(|both| matches!(both, [(_, 1..), (false, _)]))),
    ("a mark of the second alone with events", |view| view.has(|both| matches!(both, [(false, _), (_, 1..)]))),
    ("a mark of both, events of the first", |view| view.has(|both| matches!(both, [(_, 1..), (true, 0)]))),
    ("a mark of both, events of the second", |view| view.has(|both| matches!(both, [(true, 0), (_, 1..)]))),
    ("a mark of both in two spellings", |view| view.has_two_spellings()),
    ("an opening in two spellings", |view| view.is_spelled_otherwise(view.logs[0].opening)),
    ("marks of both a tenth apart", |view| view.has_neighbours()),
    ("marks in another order as text", |view| view.has_other_order_as_text()),
    ("events behind the first's last mark, the second goes on", |view| view.has_events_behind_end(0, 1)),
    ("events behind the second's last mark, the first goes on", |view| view.has_events_behind_end(1, 0)),
    ("more than 64 events of one log at an instant", |view| view.any(|both| both.iter().any(is_crowded))),
    ("more than 64 events of both together", |view| view.any(|both| !both.iter().any(is_crowded) && are_many(both))),
    ("the range's least instant", |view| view.instants.contains_key(&-GREATEST)),
    ("the range's greatest instant", |view| view.instants.contains_key(&GREATEST)),
    ("a minus before less than a millisecond", |view| view.instants.range(-9..0).next().is_some()),
    ("ten times as many lines in the first", |view| view.lines(0) >= 10 * view.lines(1)),
    ("ten times as many lines in the second", |view| view.lines(1) >= 10 * view.lines(0)),
    ("an opening alone in the first", |view| view.lines(0) == 1 && view.lines(1) > 1),
    ("an opening alone in the second", |view| view.lines(0) > 1 && view.lines(1) == 1),
    ("openings alone", |view| view.lines(0) == 1 && view.lines(1) == 1),
];

/// Of each log whether it marks an instant, and how many events it has there.
type Both = [(bool, usize); 2];

fn is_crowded((_, events): &(bool, usize)) -> bool {
    *events > MOST_EVENTS
}

fn are_many([(_, first), (_, second)]: Both) -> bool {
    first + second > MOST_EVENTS
}

/// A pair that is merged, by its instants.
pub struct View<'a> {
    pair: &'a Pair,
    logs: &'a [Read; 2],
    instants: BTreeMap<i64, Both>,
}

impl<'a> View<'a> {
    pub fn of(pair: &'a Pair, logs: &'a [Read; 2]) -> View<'a> {
        let mut instants = BTreeMap::from([(logs[0].opening, Both::default())]);
        for (log, read) in logs.iter().enumerate() {
            read.marks.iter().for_each(|mark| instants.entry(*mark).or_default()[log].0 = true);
            read.events.iter().for_each(|(instant, _)| instants.entry(*instant).or_default()[log].1 += 1);
        }
        View { pair, logs, instants }
    }

    fn at_opening(&self) -> Both {
        self.instants[&self.logs[0].opening]
    }

    fn any(&self, is_so: fn(Both) -> bool) -> bool {
        self.instants.values().any(|both| is_so(*both))
    }

    /// Whether some instant after the opening is so.
    fn has(&self, is_so: fn(Both) -> bool) -> bool {
        self.instants.values().skip(1).any(|both| is_so(*both))
    }

    fn has_one_code(&self) -> bool {
        let [first, second] = self.logs;
        first.events.iter().any(|event| second.events.contains(event))
    }

    /// How a log spells an instant that it has.
    fn spelling(&self, log: usize, tenths: i64) -> Option<&[u8]> {
        let text = self.pair[log].as_deref()?;
        let spelling = |line| fields(line)?.nth(1).filter(|field| instant(field) == Some(tenths));
        lines(text).filter(|line| !line.starts_with(b"event")).find_map(spelling)
    }

    fn is_spelled_otherwise(&self, tenths: i64) -> bool {
        self.spelling(0, tenths) != self.spelling(1, tenths)
    }

    fn has_two_spellings(&self) -> bool {
        self.logs[0].marks.intersection(&self.logs[1].marks).any(|mark| self.is_spelled_otherwise(*mark))
    }

    fn has_neighbours(&self) -> bool {
        let [first, second] = self.logs;
        first.marks.iter().any(|mark| second.marks.contains(&(mark + 1)) || second.marks.contains(&(mark - 1)))
    }

    fn has_other_order_as_text(&self) -> bool {
        let texts: Vec<String> = self.instants.keys().map(i64::to_string).collect();
        !texts.is_sorted()
    }

    fn has_events_behind_end(&self, log: usize, other: usize) -> bool {
        let (read, end) = (&self.logs[log], self.logs[log].open_instant());
        let has_events = read.events.last().is_some_and(|(instant, _)| *instant == end);
        has_events && end < self.logs[other].open_instant()
    }

    fn lines(&self, log: usize) -> usize {
        self.pair[log].as_deref().map_or(0, |text| lines(text).count())
    }
}
