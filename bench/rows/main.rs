//! Times the proved number of rows that fit beside plain Rust on the same lengths in one run: beside a division by the
//! constant 5, which the compiler makes a multiplication of, and beside the processor's own division.

#[path = "../../tests/common/proved_rows.rs"]
mod proved_rows;

use common::random::Random;
use common::timing::{median, processor_time};
use std::hint::black_box;

const LENGTHS: usize = 10_000;
const ROUNDS: usize = 41;
const MOST_ROWS: usize = 65_535;

type Rows = fn(usize) -> usize;

struct Workload {
    name: &'static str,
    lengths: Vec<usize>,
}

#[inline(never)]
fn multiplied(length: usize) -> usize {
    (length / 5).min(MOST_ROWS)
}

#[inline(never)]
fn divided(length: usize) -> usize {
    (length / black_box(5)).min(MOST_ROWS)
}

fn main() {
    println!(
        "{:<28} {:>12} {:>12} {:>12} {:>15} {:>13}",
        "", "multiplying", "dividing", "proved", "proved :", "proved :"
    );
    println!("{:<28} {:>12} {:>12} {:>12} {:>15} {:>13}", "lengths", "ns", "ns", "ns", "multiplying", "dividing");
    for workload in workloads() {
        assert!(workload.lengths.iter().all(|length| multiplied(*length) == proved_rows::rows_that_fit(*length)));
        let [multiplying, dividing, proved] = median_times(&workload.lengths);
        println!(
            "{:<28} {multiplying:>12.2} {dividing:>12.2} {proved:>12.2} {:>15.2} {:>13.2}",
            workload.name,
            proved / multiplying,
            proved / dividing
        );
    }
    println!("ns of processor time a call, medians of {ROUNDS} rounds over {LENGTHS} lengths, the three taking turns");
}

fn workloads() -> [Workload; 3] {
    let mut random = Random::new(52);
    let mut lengths = |least: usize, bound: usize| -> Vec<usize> {
        (0..LENGTHS).map(|_| least + random.below(bound - least)).collect()
    };
    [
        Workload { name: "up to 3,000 rows", lengths: lengths(0, 15_000) },
        Workload { name: "up to 65,535 rows", lengths: lengths(0, MOST_ROWS * 5) },
        Workload { name: "65,535 rows and more", lengths: lengths(MOST_ROWS * 5, 1 << 40) },
    ]
}

/// The median time that a call takes, in nanoseconds, multiplying, dividing and proved.
fn median_times(lengths: &[usize]) -> [f64; 3] {
    let functions: [Rows; 3] = [multiplied, divided, proved_rows::rows_that_fit];
    let mut times = [Vec::new(), Vec::new(), Vec::new()];
    for _ in 0..ROUNDS {
        functions.iter().zip(&mut times).for_each(|(rows, times)| times.push(time(*rows, lengths)));
    }
    times.map(median)
}

/// Each call waits for the one before it, as a caller waits for the number that it needs.
fn time(rows: Rows, lengths: &[usize]) -> f64 {
    let rows = black_box(rows);
    let start = processor_time();
    let mut before = 0;
    for length in lengths {
        // Nothing is added; the processor does not know it.
        before = rows(length + (before >> 20));
    }
    black_box(before);
    (processor_time() - start) / lengths.len() as f64
}
