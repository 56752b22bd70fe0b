//! Runs the benchmarks of two builds of the proved code in turns and prints how they compare. Each build is linked at
//! several places in memory; a program is named PART.SIDE.PLACE. No chart has a word that one of the two does not know.

use common::timing::median;
use std::collections::HashMap;
use std::process::Command;

/// The parts, the arguments of each, and how many columns of a row stand behind its ratio.
const PARTS: [(&str, &[&str], usize); 2] = [("chart", &[], 0), ("watch", &["--any-order"], 2)];
const SIDES: [&str; 2] = ["before", "now"];
const PLACES: [&str; 4] = ["0", "16", "32", "48"];

/// The ratios proved : plain of each row, side and place, and the rows in their order.
#[derive(Default)]
struct Ratios {
    rows: Vec<String>,
    found: HashMap<(String, &'static str, &'static str), Vec<f64>>,
}

fn main() {
    let arguments: Vec<String> = std::env::args().skip(1).collect();
    let [folder, rounds, left_out] = arguments.as_slice() else { panic!("use: against FOLDER ROUNDS WORDS") };
    let rounds: usize = rounds.parse().expect("a number of rounds");
    println!("{:<40} {:>8} {:>8} {:>12}", "proved : plain", "before", "now", "now : before");
    for (part, arguments, behind) in PARTS {
        let mut ratios = Ratios::default();
        for _ in 0..rounds {
            for place in PLACES {
                for side in SIDES {
                    let arguments = [arguments, &["--without", left_out]].concat();
                    let printed = run(&format!("{folder}/{part}.{side}.{place}"), &arguments);
                    ratios.add(side, place, &printed, behind);
                }
            }
        }
        ratios.print();
    }
    println!("means over {} places of the medians of {rounds} runs, the builds taking turns", PLACES.len());
}

/// What a benchmark prints.
fn run(program: &str, arguments: &[&str]) -> String {
    let output = Command::new(program).args(arguments).output().expect("the benchmark can be run");
    assert!(output.status.success(), "{program} failed");
    String::from_utf8(output.stdout).expect("a benchmark prints text")
}

impl Ratios {
    /// Takes up the rows of a benchmark's table: the lines whose last columns, plain, proved and ratio, are numbers.
    fn add(&mut self, side: &'static str, place: &'static str, printed: &str, behind: usize) {
        for (row, ratio) in printed.lines().filter_map(|line| row_of(line, behind)) {
            if !self.rows.contains(&row) {
                self.rows.push(row.clone());
            }
            self.found.entry((row, side, place)).or_default().push(ratio);
        }
    }

    fn print(&self) {
        for row in &self.rows {
            let [before, now] = SIDES.map(|side| self.mean(row, side));
            println!("{row:<40} {before:>8.3} {now:>8.3} {:>12.3}", now / before);
        }
    }

    fn mean(&self, row: &str, side: &'static str) -> f64 {
        let medians = PLACES.map(|place| median(self.found[&(row.to_string(), side, place)].clone()));
        medians.iter().sum::<f64>() / PLACES.len() as f64
    }
}

fn row_of(line: &str, behind: usize) -> Option<(String, f64)> {
    let words: Vec<&str> = line.split_whitespace().collect();
    // The two times change from run to run; they are no part of the row's name.
    let name = words.len().checked_sub(3 + behind)?;
    let numbers: Option<Vec<f64>> = words[name..].iter().map(|word| word.parse().ok()).collect();
    Some((words[..name].join(" "), numbers?[2]))
}
