//! The conditions of document 01's operator table on two intervals, r of operand a and s of operand b, and the
//! intervals that are made of them.

use common::plain_chart::{Edge, LengthTest, Relation};

#[derive(Clone, Copy, Debug, PartialEq)]
pub struct Interval {
    pub start: i64,
    pub end: i64,
}

impl Interval {
    /// "The least start and the greatest end of the rows referred to."
    pub fn spanning(r: Interval, s: Interval) -> Interval {
        Interval { start: r.start.min(s.start), end: r.end.max(s.end) }
    }

    /// Request N1: "the same start and end = end r + d".
    pub fn delayed(self, delay: i64) -> Interval {
        Interval { end: self.end + delay, ..self }
    }
}

pub fn is_related(relation: Relation, r: Interval, s: Interval) -> bool {
    match relation {
        Relation::Seq => r.end < s.start,
        Relation::And => true,
        Relation::Meets => r.end == s.start,
        Relation::Overlaps => r.start < s.start && s.start < r.end && r.end < s.end,
        Relation::Starts => r.start == s.start && r.end < s.end,
        Relation::During => r.start > s.start && r.end < s.end,
        Relation::Finishes => r.start > s.start && r.end == s.end,
        Relation::Equals => r.start == s.start && r.end == s.end,
    }
}

pub fn is_forbidding(early: Edge, late: Edge, r: Interval, s: Interval) -> bool {
    let from = if early == Edge::Closed { r.start <= s.start } else { r.start < s.start };
    let to = if late == Edge::Closed { s.end <= r.end } else { s.end < r.end };
    from && to
}

/// Request N5, of `cut` and `change`: "no other row s' of b starts after end r and ends before end s"; s is none.
pub fn is_rival_of_second(r: Interval, s: Interval, other: Interval) -> bool {
    other.start > r.end && other.end < s.end
}

/// Request N5, of `change`: "no r' of a has start r' >= start r and end r < end r' < start s".
pub fn is_rival_of_first(r: Interval, s: Interval, other: Interval) -> bool {
    other.start >= r.start && r.end < other.end && other.end < s.start
}

/// With the limits that request N2 includes.
pub fn has_length(test: LengthTest, r: Interval, length: i64) -> bool {
    match test {
        LengthTest::Lasts => r.end - r.start == length,
        LengthTest::AtMost => r.end - r.start <= length,
        LengthTest::AtLeast => r.end - r.start >= length,
    }
}
