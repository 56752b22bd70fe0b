//! The recognitions of a chart over a list of events, by set-building. Document 01, "Operators of a chart" and "The
//! book behind demand 3"; source document 003, definition 16; request N1 for `after`, request N5 for `cut` and
//! `change`.

use crate::conditions::{has_length, is_forbidding, is_related, is_rival_of_first, is_rival_of_second, Interval};
use common::plain_chart::{Entry, Nearest, Operator, Relation, MOST_ENTRIES};
use std::cmp::Ordering;
use std::ops::Range;

#[derive(Clone, Copy)]
pub struct Event {
    /// 1 for the first event accepted, and so on.
    pub serial: i64,
    pub code: u8,
    pub instant: i64,
}

/// What fills a recognition's places. An operand is named by its index among all recognitions.
#[derive(Clone, Copy)]
pub enum Parts {
    /// An event, by its serial.
    Event(i64),
    /// Both operands.
    Both(usize, usize),
    /// The operand of an absence, of a length test or of a delay.
    One(usize),
    /// The left arm of `or`.
    LeftArm(usize),
    /// The right arm of `or`.
    RightArm(usize),
}

/// A recognition of an entry. Its parts, followed down, are its tree.
#[derive(Clone, Copy)]
pub struct Recognition {
    pub entry: usize,
    pub parts: Parts,
    pub interval: Interval,
}

/// Every recognition of every entry, each once, those of lower entries first.
pub struct Recognitions {
    all: Vec<Recognition>,
    of_entry: Vec<Range<usize>>,
}

/// A row as the listing shows it; -1 where there is no reference.
#[derive(Clone, Copy, Debug, PartialEq)]
pub struct Row {
    pub entry: usize,
    pub left: i64,
    pub right: i64,
    pub start: i64,
    pub end: i64,
}

/// Which recognitions are looked for.
#[derive(Clone, Copy)]
pub struct Limits<'a> {
    /// Only those that end before this instant.
    pub end_before: i64,
    /// Of each entry only those that start at its instant or later; these instants do not fall.
    pub since: &'a [i64],
    /// None at all where there are more.
    pub most: usize,
}

pub const NO_LIMITS: Limits = Limits { end_before: i64::MAX, since: &[i64::MIN; MOST_ENTRIES], most: usize::MAX };

/// The recognitions of a chart over some events. What a recognition is made of, and what could forbid it or be a rival
/// of its parts, ends no later than it does and starts no earlier, and is of a lower entry, whose instant is no later:
/// those left out by their end or their start are missed by none.
pub fn enumerate(chart: &[Entry], events: &[Event], limits: Limits) -> Option<Recognitions> {
    let Limits { end_before, since, most } = limits;
    let mut found = Recognitions { all: Vec::new(), of_entry: Vec::new() };
    for (number, entry) in chart.iter().enumerate() {
        let room = most.saturating_sub(found.all.len()).saturating_add(1);
        let is_within = |Interval { start, end }| start >= since[number] && end < end_before;
        let within = found.of(number, entry, events).filter(|recognition| is_within(recognition.interval));
        let made: Vec<Recognition> = within.take(room).collect();
        let first = found.all.len();
        found.all.extend(made);
        found.of_entry.push(first..found.all.len());
        if found.all.len() > most {
            return None;
        }
    }
    Some(found)
}

impl Recognitions {
    /// The recognitions of one entry: what its line of the operator table asks.
    fn of<'a>(
        &'a self,
        number: usize,
        entry: &'a Entry,
        events: &'a [Event],
    ) -> Box<dyn Iterator<Item = Recognition> + 'a> {
        let parts: Box<dyn Iterator<Item = Parts> + 'a> = match entry.operator {
            Operator::Event => return Box::new(of_event(number, entry.first, events)),
            Operator::Or => Box::new(self.a(entry).map(Parts::LeftArm).chain(self.b(entry).map(Parts::RightArm))),
            Operator::Pair(relation) => Box::new(self.pairs(relation, entry)),
            Operator::Absence(early, late) => {
                let forbids = move |r, s| is_forbidding(early, late, self.interval(r), self.interval(s));
                let forbidden = move |r: &usize| self.b(entry).any(|s| forbids(*r, s));
                Box::new(self.a(entry).filter(move |r| !forbidden(r)).map(Parts::One))
            }
            Operator::Length(test) => {
                let lasts = move |r: &usize| has_length(test, self.interval(*r), entry.second as i64);
                Box::new(self.a(entry).filter(lasts).map(Parts::One))
            }
            Operator::After => {
                return Box::new(self.a(entry).map(move |r| self.delayed(number, r, entry.second as i64)))
            }
            Operator::Nearest(nearest) => Box::new(self.nearest_pairs(nearest, entry)),
        };
        Box::new(parts.map(move |parts| self.recognition(number, parts)))
    }

    /// The recognitions of operand a.
    fn a(&self, entry: &Entry) -> Range<usize> {
        self.of_entry[entry.first as usize].clone()
    }

    /// The recognitions of operand b.
    fn b(&self, entry: &Entry) -> Range<usize> {
        self.of_entry[entry.second as usize].clone()
    }

    /// Every r of a with every s of b that the condition pairs with it; r and s may be the same.
    fn pairs<'a>(&'a self, relation: Relation, entry: &'a Entry) -> impl Iterator<Item = Parts> + 'a {
        self.a(entry).flat_map(move |r| {
            let related = move |s: &usize| is_related(relation, self.interval(r), self.interval(*s));
            self.b(entry).filter(related).map(move |s| Parts::Both(r, s))
        })
    }

    /// "r and s with end r < start s", without a rival of s and, for `change`, without one of r.
    fn nearest_pairs<'a>(&'a self, nearest: Nearest, entry: &'a Entry) -> impl Iterator<Item = Parts> + 'a {
        let intervals = |of: Range<usize>| of.map(|index| self.interval(index));
        let has_rival = move |r: Interval, s: Interval| {
            intervals(self.b(entry)).any(|other| is_rival_of_second(r, s, other))
                || nearest == Nearest::Change && intervals(self.a(entry)).any(|other| is_rival_of_first(r, s, other))
        };
        self.a(entry).flat_map(move |r| {
            let is_pair = move |r: Interval, s: Interval| is_related(Relation::Seq, r, s) && !has_rival(r, s);
            self.b(entry).filter(move |s| is_pair(self.interval(r), self.interval(*s))).map(move |s| Parts::Both(r, s))
        })
    }

    /// "Start and end are the least start and the greatest end of the rows referred to."
    fn recognition(&self, entry: usize, parts: Parts) -> Recognition {
        let (r, s) = match parts {
            Parts::Both(r, s) => (r, s),
            Parts::One(r) | Parts::LeftArm(r) | Parts::RightArm(r) => (r, r),
            Parts::Event(_) => unreachable!("an event has no operand"),
        };
        Recognition { entry, parts, interval: Interval::spanning(self.interval(r), self.interval(s)) }
    }

    /// "For each row r of a, a row with left r, right -1, the same start and end = end r + d."
    fn delayed(&self, entry: usize, r: usize, delay: i64) -> Recognition {
        Recognition { entry, parts: Parts::One(r), interval: self.interval(r).delayed(delay) }
    }

    fn interval(&self, index: usize) -> Interval {
        self.all[index].interval
    }

    /// "Order of rows: by end; then entry", and by request N7, "among rows of equal end and entry": "later start first,
    /// then the order of document 01". Each recognition has one index, so equal trees are equal indices.
    fn order(&self, x: usize, y: usize) -> Ordering {
        if x == y {
            return Ordering::Equal;
        }
        let (p, q) = (&self.all[x], &self.all[y]);
        let by_end_and_entry = p.interval.end.cmp(&q.interval.end).then(p.entry.cmp(&q.entry));
        let later_start_first = q.interval.start.cmp(&p.interval.start);
        by_end_and_entry.then(later_start_first).then_with(|| self.order_of_parts(p.parts, q.parts))
    }

    /// "For event, serial; for or, the left arm first, each arm by row; otherwise left row, then right row." A row stands
    /// where its recognition does, so rows are compared by the whole order once more.
    fn order_of_parts(&self, p: Parts, q: Parts) -> Ordering {
        match (p, q) {
            (Parts::Event(x), Parts::Event(y)) => x.cmp(&y),
            (Parts::LeftArm(_), Parts::RightArm(_)) => Ordering::Less,
            (Parts::RightArm(_), Parts::LeftArm(_)) => Ordering::Greater,
            (Parts::LeftArm(x), Parts::LeftArm(y)) => self.order(x, y),
            (Parts::RightArm(x), Parts::RightArm(y)) => self.order(x, y),
            (Parts::One(x), Parts::One(y)) => self.order(x, y),
            (Parts::Both(x, r), Parts::Both(y, s)) => self.order(x, y).then_with(|| self.order(r, s)),
            _ => unreachable!("one entry has recognitions of one shape"),
        }
    }

    /// The recognitions that start "no earlier than" the instant from which their entry counts "and the floor", and end
    /// before the instant.
    pub fn due<'a>(&'a self, floor: i64, since: &'a [i64], instant: i64) -> impl Iterator<Item = usize> + 'a {
        let is_due = move |Recognition { entry, interval: Interval { start, end }, .. }: Recognition| {
            start >= floor && start >= since[entry] && end < instant
        };
        (0..self.all.len()).filter(move |index| is_due(self.all[*index]))
    }

    /// The same in the order of rows.
    pub fn due_in_order(&self, floor: i64, since: &[i64], instant: i64) -> Vec<usize> {
        let mut in_order: Vec<usize> = self.due(floor, since, instant).collect();
        in_order.sort_by(|x, y| self.order(*x, *y));
        in_order
    }

    /// Recognitions that stand in the order of rows, each written as a row: "a reference is the operand's place in that
    /// order, always an earlier one".
    pub fn rows(&self, in_order: &[usize]) -> Vec<Row> {
        let mut row_of = vec![None; self.all.len()];
        let mut rows = Vec::with_capacity(in_order.len());
        for (number, index) in in_order.iter().enumerate() {
            let reference = |operand: usize| row_of[operand].expect("an operand stands in an earlier row");
            let Recognition { entry, parts, interval: Interval { start, end } } = self.all[*index];
            let (left, right) = match parts {
                Parts::Event(serial) => (serial, -1),
                Parts::Both(r, s) => (reference(r), reference(s)),
                Parts::One(r) | Parts::LeftArm(r) => (reference(r), -1),
                Parts::RightArm(s) => (-1, reference(s)),
            };
            rows.push(Row { entry, left, right, start, end });
            row_of[*index] = Some(number as i64);
        }
        rows
    }

    /// "A tree is written `e` and serial for an event; `<L,R>` for two; `<L,_>` or `<_,R>` for or; `<L>` for one."
    pub fn tree(&self, index: usize) -> String {
        match self.all[index].parts {
            Parts::Event(serial) => format!("e{serial}"),
            Parts::Both(r, s) => format!("<{},{}>", self.tree(r), self.tree(s)),
            Parts::LeftArm(r) => format!("<{},_>", self.tree(r)),
            Parts::RightArm(s) => format!("<_,{}>", self.tree(s)),
            Parts::One(r) => format!("<{}>", self.tree(r)),
        }
    }
}

fn of_event(entry: usize, code: u64, events: &[Event]) -> impl Iterator<Item = Recognition> + '_ {
    events.iter().filter(move |event| u64::from(event.code) == code).map(move |event| Recognition {
        entry,
        parts: Parts::Event(event.serial),
        interval: Interval { start: event.instant, end: event.instant },
    })
}
