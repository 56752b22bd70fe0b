//! Pairs of logs that take several readings, in which lines are cut at any place.

use crate::by_sets::Pair;
use crate::damages::{self, Lines};
use crate::pairs::{both, kind_of, Kind, Plan};
use common::random::Random;

/// Lines of a log: 70,000 to 400,000 bytes, about.
const FEWEST: usize = 7_000;
const MOST: usize = 38_000;

const KINDS: [Kind; 2] =
    [Kind { name: "large", share: 1, draw: sound }, Kind { name: "large, damaged late", share: 1, draw: damaged_late }];

pub fn kind(random: &mut Random) -> &'static Kind {
    kind_of(random, &KINDS)
}

pub fn sound(random: &mut Random) -> Pair {
    both(logs(random))
}

/// One of the logs damaged, or both.
fn damaged_late(random: &mut Random) -> Pair {
    let mut logs = logs(random);
    match random.below(3) {
        2 => logs.iter_mut().for_each(|lines| damages::late(random, lines)),
        log => damages::late(random, &mut logs[log]),
    }
    both(logs)
}

fn logs(random: &mut Random) -> [Lines; 2] {
    let plan = Plan::any(random);
    [(); 2].map(|()| log(random, &plan))
}

/// In one of ten cases of a few lines, beside another of many.
fn log(random: &mut Random, plan: &Plan) -> Lines {
    let (least, most) = if random.one_in(10) { (0, 20) } else { (FEWEST, MOST) };
    let length = least + random.below(most - least);
    let marks_in_ten = random.pick(&[0, 1, 2, 4, 4, 6, 10]);
    plan.log(random, length, marks_in_ten)
}
