//! How often instants and lengths were spelled in each way, and were refused for it.

use common::paper::{self, fields, lines};

const GREATEST_INSTANT: i64 = 1_000_000_000;
const GREATEST_LENGTH: i64 = 2_000_000_000;

/// Without a point; with one and a 0, or another digit; a minus and less than a millisecond, of a length no minus; an
/// end of the range.
const TAKEN: [&str; 5] = ["whole", "tenth 0", "another tenth", "whole part 0", "end of the range"];

/// Out of range by a tenth, or by nine digits before the point; too many digits for a number, which is malformed; a
/// minus on zero; and another that is malformed at its point.
const REFUSED: [&str; 5] = ["a tenth too far", "nine digits", "ten digits", "minus zero", "point"];

/// The refusals for an instant or a length, among other causes.
const OF_OPERAND: [u32; 5] = [3, 6, 7, 8, 11];

#[derive(Default)]
pub struct Spelled {
    /// Inputs that are not refused, by the instants that they have.
    instants: [usize; TAKEN.len()],
    lengths: [usize; TAKEN.len()],
    /// Inputs by the instant or the length that they are refused for.
    refused: [usize; REFUSED.len()],
}

/// An instant of a log or a length of a chart.
struct Operand<'a> {
    field: &'a [u8],
    is_instant: bool,
    /// None where it is malformed.
    tenths: Option<i64>,
}

fn operand(line: &[u8]) -> Option<Operand<'_>> {
    match fields(line)?.collect::<Vec<_>>()[..] {
        [b"open" | b"clock" | b"forget", field] => {
            Some(Operand { field, is_instant: true, tenths: paper::instant(field) })
        }
        [_, b"lasts" | b"atmost" | b"atleast" | b"after", _, field] => {
            Some(Operand { field, is_instant: false, tenths: paper::length(field).map(|tenths| tenths as i64) })
        }
        _ => None,
    }
}

impl Operand<'_> {
    fn greatest(&self) -> i64 {
        if self.is_instant {
            GREATEST_INSTANT
        } else {
            GREATEST_LENGTH
        }
    }

    /// One that is sound.
    fn taken(&self) -> [bool; TAKEN.len()] {
        let (has_point, tenths) = (self.field.contains(&b'.'), self.tenths.unwrap_or_default());
        let is_below_one = if self.is_instant { (-9..0).contains(&tenths) } else { (1..10).contains(&tenths) };
        [!has_point, has_point && tenths % 10 == 0, tenths % 10 != 0, is_below_one, tenths.abs() == self.greatest()]
    }

    /// One that its line is refused for, if it is.
    fn refused(&self) -> [bool; REFUSED.len()] {
        let digits = self.field.strip_prefix(b"-").unwrap_or(self.field);
        let whole = digits.split(|byte| *byte == b'.').next().unwrap_or_default();
        let has = |count: usize| whole.len() == count && whole.iter().all(u8::is_ascii_digit);
        let beyond = self.tenths.map_or(0, i64::abs) - self.greatest();
        let is_malformed = self.tenths.is_none();
        [
            beyond == 1,
            beyond > 1 && has(9),
            is_malformed && has(10),
            is_malformed && digits != self.field && paper::length(digits) == Some(0),
            is_malformed && self.field.iter().any(|byte| b".,".contains(byte)),
        ]
    }
}

impl Spelled {
    /// Counts an input, by the number and the line of its refusal, if it has one.
    pub fn count(&mut self, input: &[u8], refusal: Option<(u32, i64)>) {
        if let Some((number, line)) = refusal {
            let of_operand =
                lines(input).nth(line as usize - 1).and_then(operand).filter(|_| OF_OPERAND.contains(&number));
            of_operand.into_iter().for_each(|operand| add(&mut self.refused, operand.refused()));
            return;
        }
        let (mut instants, mut lengths) = ([false; TAKEN.len()], [false; TAKEN.len()]);
        for operand in lines(input).filter_map(operand) {
            let kinds = if operand.is_instant { &mut instants } else { &mut lengths };
            kinds.iter_mut().zip(operand.taken()).for_each(|(kind, is_met)| *kind |= is_met);
        }
        add(&mut self.instants, instants);
        add(&mut self.lengths, lengths);
    }

    pub fn counts(&self) -> impl Iterator<Item = &usize> {
        self.instants.iter().chain(&self.lengths).chain(&self.refused)
    }

    pub fn print(&self) {
        println!("inputs not refused, by how they spell");
        println!("  instants  {}", named(&TAKEN, &self.instants));
        println!("  lengths   {}", named(&TAKEN, &self.lengths));
        println!("refused for an instant or a length\n  {}", named(&REFUSED, &self.refused));
    }
}

fn add<const N: usize>(counts: &mut [usize; N], met: [bool; N]) {
    counts.iter_mut().zip(met).for_each(|(count, met)| *count += usize::from(met));
}

fn named(names: &[&str], counts: &[usize]) -> String {
    names.iter().zip(counts).map(|(name, count)| format!("{name}: {count}")).collect::<Vec<_>>().join("  ")
}
