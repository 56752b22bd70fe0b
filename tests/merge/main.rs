//! Compares the proved merge program with the merging by sets, on pairs of logs by plan and from fixed seeds, as a
//! process in a folder of its own. With --self-test it compares programs that are wrong on purpose instead, and each of
//! them must be found.

mod by_sets;
#[path = "../decimal/by_words.rs"]
mod by_words;
mod causes;
#[path = "../listing/damage.rs"]
mod damage;
mod damages;
mod features;
#[path = "../listing/inputs.rs"]
#[allow(dead_code)]
mod inputs;
mod large_pairs;
mod met;
mod pairs;
mod planned;
mod played;
#[allow(dead_code)]
mod tested;
mod wrong_checks;
mod wrong_programs;

use by_sets::Pair;
use common::harness::{self, Compared, Met as _, Named, Test};
use common::random::Random;
use met::Met;
use std::process::ExitCode;
use std::thread;
use tested::{shown, Scratch, Tested};
use wrong_programs::Merge;

/// One for each thread: two programs run at a time.
const SEEDS: [u64; 2] = [91, 92];
const PAIRS_PER_SEED: usize = 26_000;
const LARGE_PER_SEED: usize = 120;
/// Enough to find a wrong program.
const SELF_TEST_PAIRS: usize = 10_000;

fn main() -> ExitCode {
    harness::main::<MergeTest>()
}

struct MergeTest;

impl Test for MergeTest {
    const NAME: &'static str = "merge_test";
    const ARGUMENTS: &'static [&'static str] = &["PROGRAM"];
    type Met = Met;
    type Subject = Merge;

    fn compare_proved(met: &mut Met) -> Compared {
        let path = std::env::args().nth(1).expect("the program is an argument");
        let runs = SEEDS.map(|seed| {
            let tested = Tested::at(&path);
            thread::spawn(move || compare_seed(&tested, seed))
        });
        for run in runs.map(|run| run.join().expect("a comparison ends")) {
            met.add(run?);
        }
        Ok(())
    }

    fn compare(merge: &Merge) -> Compared {
        let mut random = Random::new(SEEDS[0]);
        (0..SELF_TEST_PAIRS).try_for_each(|_| {
            let pair = (pairs::kind(&mut random).draw)(&mut random);
            compare_in_memory(merge, &pair, &by_sets::merge(&pair))
        })
    }

    fn right() -> Vec<Named<Merge>> {
        wrong_programs::RIGHT.to_vec()
    }

    fn wrong() -> Vec<Named<Merge>> {
        wrong_programs::all()
    }
}

fn compare_in_memory(merge: &Merge, pair: &Pair, expected: &[u8]) -> Compared {
    let printed = merge(pair);
    if printed == expected {
        return Ok(());
    }
    Err(format!("{pair:?}\nexpected \"{}\"\nprinted \"{}\"", shown(expected), shown(&printed)))
}

/// Compares the program on the pairs by plan, on many small ones from a seed and on some large ones.
fn compare_seed(tested: &Tested, seed: u64) -> Result<Met, String> {
    let scratch = Scratch::in_memory(&seed.to_string());
    let compare = |kind: &str, pair: &Pair, expected: &[u8]| {
        scratch.put(pair);
        tested::compare(kind, pair, &scratch.run(&mut tested.command()), expected)
    };
    let (mut met, mut random) = (Met::nothing(), Random::new(seed));
    for (pair, expected) in planned::all() {
        compare_in_memory(&(by_sets::merge as Merge), &pair, &expected)?;
        compare("by plan", &pair, &expected)?;
    }
    for _ in 0..PAIRS_PER_SEED {
        let kind = pairs::kind(&mut random);
        let pair = (kind.draw)(&mut random);
        let expected = by_sets::merge(&pair);
        met.count(kind.name, &pair, &expected);
        played::compare(&pair, &expected)?;
        compare(kind.name, &pair, &expected)?;
    }
    for _ in 0..LARGE_PER_SEED {
        let kind = large_pairs::kind(&mut random);
        let pair = (kind.draw)(&mut random);
        let expected = by_sets::merge(&pair);
        met.count_large(kind.name, &pair, &expected);
        compare(kind.name, &pair, &expected)?;
    }
    Ok(met)
}
