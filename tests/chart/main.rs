//! Compares the proved chart check with the plain chart reader on charts by plan and on charts from fixed seeds.
//! With --self-test it compares readers that are wrong on purpose instead, and each of them must be found.

mod planned_charts;
#[path = "../common/proved.rs"]
mod proved;
mod wrong_readers;

use common::harness::{self, Compared, Named, Test, LEAST_MET};
use common::paper::{fields, lines};
use common::plain_chart::{check, Verdict, TAKEN, WORDS};
use common::random::Random;
use common::random_charts;
use std::collections::BTreeMap;
use std::process::ExitCode;

const SEEDS: [u64; 4] = [1, 2, 3, 4];
const CHARTS_PER_SEED: usize = 100_000;

type Reader = fn(&[u8]) -> Verdict;

fn main() -> ExitCode {
    harness::main::<ChartTest>()
}

struct ChartTest;

impl Test for ChartTest {
    const NAME: &'static str = "chart_test";
    type Met = Met;
    type Subject = Reader;

    fn compare_proved(met: &mut Met) -> Compared {
        charts().try_for_each(|chart| {
            met.count(&chart, check(&chart));
            compare_chart(&chart, proved::check_chart)
        })
    }

    fn compare(reader: &Reader) -> Compared {
        charts().try_for_each(|chart| compare_chart(&chart, *reader))
    }

    /// The plain reader is what all others are compared with.
    fn right() -> Vec<Named<Reader>> {
        vec![]
    }

    fn wrong() -> Vec<Named<Reader>> {
        wrong_readers::ALL.to_vec()
    }
}

fn compare_chart(chart: &[u8], reader: Reader) -> Compared {
    let (answer, expected) = (reader(chart), check(chart));
    if answer == expected {
        return Ok(());
    }
    Err(format!("chart \"{}\": {answer:?}\nexpected {expected:?}", chart.escape_ascii()))
}

/// Every chart of a run: by plan, then from the seeds.
fn charts() -> impl Iterator<Item = Vec<u8>> {
    let from_seed = |seed| {
        let mut random = Random::new(seed);
        (0..CHARTS_PER_SEED).map(move |_| random_charts::any(&mut random))
    };
    planned_charts::all().chain(SEEDS.into_iter().flat_map(from_seed))
}

/// What the charts of a run reached: how many had each refusal, 0 for none, and how many lines of those taken had each
/// operator.
struct Met {
    refusals: BTreeMap<u32, usize>,
    words: BTreeMap<&'static str, usize>,
}

impl Met {
    fn count(&mut self, chart: &[u8], verdict: Verdict) {
        *self.refusals.entry(verdict.refusal).or_default() += 1;
        if verdict == TAKEN {
            lines(chart).filter_map(|line| fields(line)?.nth(1)).for_each(|word| self.count_word(word));
        }
    }

    fn count_word(&mut self, word: &[u8]) {
        let count = std::str::from_utf8(word).ok().and_then(|word| self.words.get_mut(word));
        *count.expect("a chart taken has only operator words") += 1;
    }
}

impl harness::Met for Met {
    fn nothing() -> Met {
        Met { refusals: (0..=6).map(|number| (number, 0)).collect(), words: WORDS.map(|word| (word, 0)).into() }
    }

    fn is_enough(&self) -> bool {
        self.refusals.values().chain(self.words.values()).all(|count| *count >= LEAST_MET)
    }

    fn print(&self) {
        println!("{} charts, no difference", self.refusals.values().sum::<usize>());
        println!("refusal    charts");
        self.refusals.iter().for_each(|(number, count)| println!("{number:<8} {count:>8}"));
        println!("operator   lines of charts taken");
        WORDS.iter().for_each(|word| println!("{word:<8} {:>8}", self.words[word]));
    }
}
