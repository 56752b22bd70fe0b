//! Compares the proved number of rows that fit with plain division: at every length from 0 to 400,000, and at large ones
//! up to the greatest. With --self-test it compares functions that are wrong on purpose instead, and each of them must be
//! found.

#[path = "../common/proved_rows.rs"]
mod proved_rows;

use common::harness::{self, Compared, Met as _, Named, Test, LEAST_MET};
use common::random::Random;
use std::process::ExitCode;

/// Every length up to this one is compared.
const SMALL: usize = 400_000;
const LARGE: usize = 100_000;
const MOST_ROWS: usize = 65_535;

type Rows = fn(usize) -> usize;

/// "The caller's table holds length divided by 5 rows, rounded down, and never more than 65,535."
fn plain(length: usize) -> usize {
    (length / 5).min(MOST_ROWS)
}

fn main() -> ExitCode {
    harness::main::<RowsTest>()
}

struct RowsTest;

impl Test for RowsTest {
    const NAME: &'static str = "rows_test";
    type Met = Met;
    type Subject = Rows;

    fn compare_proved(met: &mut Met) -> Compared {
        compare(proved_rows::rows_that_fit, met)
    }

    fn compare(rows: &Rows) -> Compared {
        compare(*rows, &mut Met::nothing())
    }

    fn right() -> Vec<Named<Rows>> {
        vec![("16 turns of subtraction", |length| by_turns(length, 15, 0))]
    }

    fn wrong() -> Vec<Named<Rows>> {
        vec![
            ("a ceiling of 65,536", |length| (length / 5).min(MOST_ROWS + 1)),
            ("a ceiling of 65,534", |length| (length / 5).min(MOST_ROWS - 1)),
            ("no ceiling", |length| length / 5),
            ("rounded up", |length| length.div_ceil(5).min(MOST_ROWS)),
            ("four numbers a row", |length| (length / 4).min(MOST_ROWS)),
            ("the first turn left out", |length| by_turns(length, 14, 0)),
            ("the last turn left out", |length| by_turns(length, 15, 1)),
            ("a row only where a number is left over", |length| by_turns(length.saturating_sub(1), 15, 0)),
            ("the length cut to 32 bits", |length| plain(length & 0xffff_ffff)),
            ("the greatest length taken for none", |length| plain(length.wrapping_add(1))),
        ]
    }
}

/// Rows taken in turns, 2 to the power k of them where they fit, for each k from the largest down.
fn by_turns(length: usize, largest: u32, least: u32) -> usize {
    let mut left = length.min(MOST_ROWS * 5);
    let mut rows = 0;
    for k in (least..=largest).rev() {
        if 5 << k <= left {
            left -= 5 << k;
            rows += 1 << k;
        }
    }
    rows
}

/// Compares all, up to the first difference.
fn compare(rows: Rows, met: &mut Met) -> Compared {
    let mut random = Random::new(51);
    (0..=SMALL).try_for_each(|length| compare_at(rows, length, met))?;
    (0..LARGE).try_for_each(|_| compare_at(rows, large(&mut random), met))?;
    compare_at(rows, usize::MAX, met)
}

/// A length above the small ones: of any number of bits, or one whose lower half is a small length.
fn large(random: &mut Random) -> usize {
    loop {
        let any = random.any_u64() as usize;
        let length =
            if random.one_in(2) { any >> random.below(45) } else { (any & !0xffff_ffff) + random.below(SMALL) };
        if length > SMALL {
            return length;
        }
    }
}

fn compare_at(rows: Rows, length: usize, met: &mut Met) -> Compared {
    let (answer, expected) = (rows(length), plain(length));
    met.count(length);
    if answer == expected {
        Ok(())
    } else {
        Err(format!("length {length}: {answer} rows, expected {expected}"))
    }
}

/// How many lengths were all rows, how many had numbers left over, and how many were beyond the most rows: small ones and
/// large.
struct Met {
    whole: usize,
    with_rest: usize,
    small_beyond: usize,
    large: usize,
}

impl Met {
    fn count(&mut self, length: usize) {
        let kind = match length {
            _ if length > SMALL => &mut self.large,
            _ if length > MOST_ROWS * 5 => &mut self.small_beyond,
            _ if length % 5 == 0 => &mut self.whole,
            _ => &mut self.with_rest,
        };
        *kind += 1;
    }
}

impl harness::Met for Met {
    fn nothing() -> Met {
        Met { whole: 0, with_rest: 0, small_beyond: 0, large: 0 }
    }

    fn is_enough(&self) -> bool {
        [self.whole, self.with_rest, self.small_beyond, self.large].iter().all(|count| *count >= LEAST_MET)
    }

    fn print(&self) {
        println!(
            "lengths without a difference: {} all rows, {} with numbers left over, {} beyond the most rows up to {SMALL}, {} above",
            self.whole, self.with_rest, self.small_beyond, self.large
        );
    }
}
