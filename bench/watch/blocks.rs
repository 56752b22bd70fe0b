//! Marks that make many rows of one entry, by how their starts follow each other as they are made. The plain watch puts them
//! in order with the standard library's stable sort.

use crate::measure::{print_line, print_method, Call, Order, Workload};
use common::blocks::{before_block, BeforeBlock, Pairs, Starts};

const ROWS: [usize; 3] = [100, 3_000, 60_000];
const STARTS: [(&str, Starts); 5] = [
    ("ascending", Starts::Ascending),
    ("descending", Starts::Descending),
    ("equal", Starts::Equal),
    ("in runs", Starts::Runs),
    ("random", Starts::Random),
];

pub fn time_marks() {
    println!("\nmark, new rows       rows     new    plain   proved          plain  proved");
    println!("of one entry       in use    rows       us       us  ratio  ns/new  ns/new");
    for (name, starts) in STARTS {
        for rows in ROWS {
            print_line(&workload(name, starts, rows), Order::Same, |_, new_rows| new_rows);
        }
    }
    print_method();
    println!("ns/new: time over the new rows; by their starts as they are made, before they are put in order");
    println!("ascending, descending, random: all different, but among 60,000 each that of 24 rows");
}

fn workload(name: &'static str, starts: Starts, rows: usize) -> Workload {
    let pairs = Pairs::of(rows);
    let room = rows + 2 * pairs.earlier + 100;
    let BeforeBlock { watch, chart, mut table } = before_block(starts, pairs, room, |_| String::new());
    table.truncate((watch.rows + watch.pending + rows) * 5);
    Workload { name, watch, chart, table, call: Call::Clock(watch.instant + 1) }
}
