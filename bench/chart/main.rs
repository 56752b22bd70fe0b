//! Times the proved chart check beside the plain Rust reader, both release builds, on the same charts in one run. With
//! --without WORDS, parted by commas, no chart has one of these: a proved reader from before request N1 does not know
//! `after`, one from before N5 neither `cut` nor `change`, and one from before N11 no `.`, the point of a length.

#[path = "../../tests/common/proved.rs"]
mod proved;

use common::left_out::LeftOut;
use common::plain_chart::{check, Verdict};
use common::random::Random;
use common::random_charts::valid;
use common::timing::{median, processor_time};
use std::hint::black_box;

const CHARTS: usize = 1_000;
const ROUNDS: usize = 41;

type Reader = fn(&[u8]) -> Verdict;

struct Workload {
    name: &'static str,
    charts: Vec<Vec<u8>>,
}

fn main() {
    let left_out = LeftOut::of_arguments();
    println!("{:<38} {:>12} {:>12} {:>7}", "charts", "plain ns", "proved ns", "ratio");
    for workload in workloads(|line| !left_out.is_on_paper(line)) {
        assert!(workload.charts.iter().all(|chart| check(chart) == proved::check_chart(chart)));
        let (plain, proved) = median_times(&workload.charts);
        println!("{:<38} {plain:>12.0} {proved:>12.0} {:>7.3}", workload.name, proved / plain);
    }
    println!(
        "ns of processor time a chart, medians of {ROUNDS} rounds over {CHARTS} charts, the two readers taking turns"
    );
}

fn workloads(is_wanted: impl Fn(&[u8]) -> bool) -> [Workload; 3] {
    let mut random = Random::new(21);
    let mut charts = |line_count: usize, end: &str| -> Vec<Vec<u8>> {
        let mut chart = || [valid(&mut random, line_count, &is_wanted), end.as_bytes().to_vec()].concat();
        (0..CHARTS).map(|_| chart()).collect()
    };
    [
        Workload { name: "32 lines, taken", charts: charts(32, "") },
        Workload { name: "5 lines, taken", charts: charts(5, "") },
        Workload { name: "32 lines, refused at the last (5)", charts: charts(31, "31\tseq\t0\t31\n") },
    ]
}

/// The median time a chart takes, in nanoseconds, with the plain reader and with the proved one.
fn median_times(charts: &[Vec<u8>]) -> (f64, f64) {
    let (mut plain, mut proved) = (Vec::new(), Vec::new());
    for _ in 0..ROUNDS {
        plain.push(time(check, charts));
        proved.push(time(proved::check_chart, charts));
    }
    (median(plain), median(proved))
}

fn time(reader: Reader, charts: &[Vec<u8>]) -> f64 {
    let start = processor_time();
    for chart in charts {
        black_box(reader(black_box(chart)));
    }
    (processor_time() - start) / charts.len() as f64
}
