//! What the pairs of a run reached.

use crate::by_sets::{read, Pair, Read, Refused};
use crate::causes::{cause, CAUSES};
use crate::features::{View, FEATURES};
use common::harness::{self, LEAST_MET};
use common::paper::lines;
use std::collections::BTreeMap;
use std::fmt::Display;

/// What a log is refused with, 0 for a sound one.
const NUMBERS: [u32; 4] = [0, 7, 17, 8];
const LOGS: [&str; 2] = ["first", "second"];
/// Where a refused line lies.
const PLACES: [&str; 3] = ["the first line", "the last line", "another"];
/// The bytes that one reading takes.
const READING: usize = 65_536;
/// Each place in a line at which a reading ends is met less often than the rest, but it must be met.
const LEAST_CUTS: usize = 3;

pub struct Met {
    kinds: BTreeMap<&'static str, usize>,
    /// By what the first log is refused with and by what the second.
    outcomes: [[usize; NUMBERS.len()]; NUMBERS.len()],
    /// Sound logs whose openings differ.
    openings_differ: usize,
    /// In the first log and in the second, of those whose refusal is printed.
    causes: BTreeMap<&'static str, [usize; 2]>,
    places: [[usize; PLACES.len()]; 2],
    features: [usize; FEATURES.len()],
    merged: usize,
    lines: usize,
    /// Large logs by the byte of a line, of an event or another, before which the first reading ends.
    cuts: BTreeMap<(bool, usize), usize>,
}

impl Met {
    /// Counts a pair and what must be printed for it.
    pub fn count(&mut self, kind: &'static str, pair: &Pair, printed: &[u8]) {
        match self.count_outcome(kind, pair, printed) {
            [Err(refused), _] => self.count_refusal(0, pair, refused),
            [_, Err(refused)] => self.count_refusal(1, pair, refused),
            [Ok(first), Ok(second)] if first.opening == second.opening => {
                let logs = [first, second];
                let view = View::of(pair, &logs);
                let is_met = FEATURES.map(|(_, is_met)| usize::from(is_met(&view)));
                add(&mut self.features, &is_met);
            }
            _ => {}
        }
    }

    /// The same of large logs, of which single things are not looked for.
    pub fn count_large(&mut self, kind: &'static str, pair: &Pair, printed: &[u8]) {
        let _ = self.count_outcome(kind, pair, printed);
        for text in pair.iter().flatten().filter(|text| text.len() > READING) {
            let start = text[..READING].iter().rposition(|byte| *byte == b'\n').map_or(0, |place| place + 1);
            *self.cuts.entry((text[start..].starts_with(b"event"), READING - start)).or_default() += 1;
        }
    }

    fn count_outcome(&mut self, kind: &'static str, pair: &Pair, printed: &[u8]) -> [Result<Read, Refused>; 2] {
        *self.kinds.entry(kind).or_default() += 1;
        let logs = [read(&pair[0]), read(&pair[1])];
        let place = |log: &Result<Read, Refused>| {
            let number = log.as_ref().map_or_else(|refused| refused.number, |_| 0);
            NUMBERS.iter().position(|of| *of == number).expect("a log alone is refused with no other number")
        };
        self.outcomes[place(&logs[0])][place(&logs[1])] += 1;
        if printed.starts_with(b"open") {
            self.merged += 1;
            self.lines += lines(printed).count();
        } else if printed.starts_with(b"refused\t18\t") {
            self.openings_differ += 1;
        }
        logs
    }

    fn count_refusal(&mut self, log: usize, pair: &Pair, refused: Refused) {
        self.causes.entry(cause(&pair[log], refused)).or_default()[log] += 1;
        let count = pair[log].as_deref().map_or(0, |text| lines(text).count());
        let place = if refused.line == 1 { 0 } else { 1 + usize::from(refused.line != count) };
        self.places[log][place] += 1;
    }

    pub fn add(&mut self, other: Met) {
        other.kinds.into_iter().for_each(|(kind, count)| *self.kinds.entry(kind).or_default() += count);
        add(self.outcomes.as_flattened_mut(), other.outcomes.as_flattened());
        self.openings_differ += other.openings_differ;
        other.causes.into_iter().for_each(|(cause, counts)| add(self.causes.entry(cause).or_default(), &counts));
        add(self.places.as_flattened_mut(), other.places.as_flattened());
        add(&mut self.features, &other.features);
        self.merged += other.merged;
        self.lines += other.lines;
        other.cuts.into_iter().for_each(|(cut, count)| *self.cuts.entry(cut).or_default() += count);
    }

    fn counts(&self) -> impl Iterator<Item = &usize> {
        let refused = self.outcomes.as_flattened().iter().chain([&self.openings_differ, &self.merged]);
        let causes = self.causes.values().flatten().chain(self.places.as_flattened());
        refused.chain(causes).chain(&self.features)
    }

    /// Whether readings ended before every byte of an event's line and of one with an instant.
    fn has_every_cut(&self) -> bool {
        let has = |is_event, byte| self.cuts.get(&(is_event, byte)).is_some_and(|count| *count >= LEAST_CUTS);
        (0..=7).all(|byte| has(true, byte)) && (0..=10).all(|byte| has(false, byte))
    }

    fn print_refusals(&self) {
        println!("refused with each number (0: not refused)");
        for (number, seconds) in NUMBERS.iter().zip(&self.outcomes) {
            println!("  first {number}, second  {}", named(NUMBERS.iter().zip(seconds)));
        }
        println!("  18: {}", self.openings_differ);
        println!("refused in the first and in the second for");
        self.causes.iter().for_each(|(cause, [first, second])| println!("  {cause:<31} {first:>6} {second:>6}"));
        for (log, places) in LOGS.iter().zip(&self.places) {
            println!("{log} log refused at\n  {}", named(PLACES.iter().zip(places)));
        }
    }

    fn print_cuts(&self) {
        for (is_event, what) in [(true, "an event's line"), (false, "another line")] {
            let cuts = self.cuts.iter().filter(|((of_event, _), _)| *of_event == is_event);
            println!("large logs whose first {READING} bytes end before this byte of {what}");
            println!("  {}", named(cuts.map(|((_, byte), count)| (byte, count))));
        }
    }
}

fn add(counts: &mut [usize], others: &[usize]) {
    counts.iter_mut().zip(others).for_each(|(count, other)| *count += other);
}

fn named<N: Display, C: Display>(counts: impl Iterator<Item = (N, C)>) -> String {
    counts.map(|(name, count)| format!("{name}: {count}")).collect::<Vec<_>>().join("  ")
}

impl harness::Met for Met {
    fn nothing() -> Met {
        Met {
            kinds: BTreeMap::new(),
            outcomes: [[0; NUMBERS.len()]; NUMBERS.len()],
            openings_differ: 0,
            causes: CAUSES.iter().map(|cause| (*cause, [0; 2])).collect(),
            places: [[0; PLACES.len()]; 2],
            features: [0; FEATURES.len()],
            merged: 0,
            lines: 0,
            cuts: BTreeMap::new(),
        }
    }

    fn is_enough(&self) -> bool {
        self.counts().all(|count| *count >= LEAST_MET) && self.has_every_cut()
    }

    fn print(&self) {
        let pairs: usize = self.kinds.values().sum();
        println!("{pairs} pairs of logs, no difference; {} merged, into {} lines", self.merged, self.lines);
        self.kinds.iter().for_each(|(kind, count)| println!("  {kind:<25} {count:>7}"));
        self.print_refusals();
        println!("merged pairs with");
        FEATURES.iter().zip(self.features).for_each(|((name, _), count)| println!("  {name:<56} {count:>6}"));
        self.print_cuts();
    }
}
