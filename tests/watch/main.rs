//! Compares the proved watch with the set-building program, call by call: on histories from fixed seeds, on watches,
//! charts and tables that no history made, and on planned cases. Instants and lengths are tenths of a millisecond, as
//! the C interface has them, but for the lines of charts, which are spelled as on paper. With --self-test it compares
//! watches that are wrong on purpose instead, and each of them must be found.

mod added_lines;
mod additions;
mod blocks;
mod damage;
mod delays;
mod histories;
mod met;
mod nearest;
mod planned;
#[path = "../common/proved_watch.rs"]
mod proved_watch;
mod random_calls;
mod reports;
mod searches;
mod subject;

use common::harness::{self, Compared, Met as _, Named, Test};
use common::interface::Calls;
use common::plain_watch;
use common::random::Random;
use met::Met;
use std::process::ExitCode;

/// How much is compared.
struct Extent {
    short_histories: usize,
    with_delays: usize,
    with_nearest: usize,
    with_additions: usize,
    added_texts: usize,
    long_histories: usize,
    of_short_intervals: usize,
}

const FULL: Extent = Extent {
    short_histories: 100_000,
    with_delays: 100_000,
    with_nearest: 80_000,
    with_additions: 100_000,
    added_texts: 30_000,
    long_histories: 300,
    of_short_intervals: 2_500,
};
/// Enough to find a wrong watch.
const SELF_TEST: Extent = Extent {
    short_histories: 20_000,
    with_delays: 20_000,
    with_nearest: 10_000,
    with_additions: 10_000,
    added_texts: 2_000,
    long_histories: 20,
    of_short_intervals: 200,
};

fn main() -> ExitCode {
    harness::main::<WatchTest>()
}

struct WatchTest;

impl Test for WatchTest {
    const NAME: &'static str = "watch_test";
    type Met = Met;
    type Subject = Calls;

    fn compare_proved(met: &mut Met) -> Compared {
        compare(&proved_watch::CALLS, &FULL, met)
    }

    fn compare(calls: &Calls) -> Compared {
        compare(calls, &SELF_TEST, &mut Met::nothing())
    }

    fn right() -> Vec<Named<Calls>> {
        vec![("the plain watch", plain_watch::calls::<plain_watch::Plain>())]
    }

    fn wrong() -> Vec<Named<Calls>> {
        wrong_watches::all()
    }
}

/// Compares all, up to the first difference.
fn compare(calls: &Calls, extent: &Extent, met: &mut Met) -> Compared {
    planned::short_tables(calls, met)?;
    planned::reports(calls, met)?;
    planned::additions(calls, met)?;
    planned::added_lines(calls, extent.added_texts, met)?;
    planned::long_trees(calls, met)?;
    planned::delays(calls, met)?;
    planned::long_jumps(calls, met)?;
    planned::nearest(calls, met)?;
    planned::many_nearest(calls, met)?;
    let mut random = Random::new(41);
    (0..extent.short_histories).try_for_each(|_| histories::short(calls, &mut random, met))?;
    (0..extent.with_delays).try_for_each(|_| histories::with_delays(calls, &mut random, met))?;
    (0..extent.with_nearest).try_for_each(|_| histories::with_nearest(calls, &mut random, met))?;
    (0..extent.with_additions).try_for_each(|_| histories::with_additions(calls, &mut random, met))?;
    (0..extent.long_histories).try_for_each(|_| histories::long(calls, &mut random, met))?;
    (0..extent.of_short_intervals).try_for_each(|_| histories::of_short_intervals(calls, &mut random, met))?;
    planned::blocks(calls, met)?;
    planned::largest_table(calls, met)?;
    planned::charts(calls, met)
}
