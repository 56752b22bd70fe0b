//! Marks that jump: over many instants at which nothing is due, and over the ends of waits. The plain watch goes from one due
//! end to the next as well.

use crate::measure::{print_line, print_method, taken, Call, Order, Workload};
use common::interface::Watch;
use common::left_out::LeftOut;
use common::plain_watch::{self, Plain, PlainWatch};

const ROWS_IN_USE: [usize; 3] = [100, 3_000, 60_000];
const LAST_INSTANT: i32 = 1_000_000_000;
const NO_DELAY: &[u8] = b"0\tevent\t1\n1\tevent\t5\n2\tseq\t0\t0\n3\tseq\t2\t0\n";
/// A wait of 500,000 tenths, and one of 7 that begins when it ends.
const DELAYS: &[u8] = b"0\tevent\t1\n1\tevent\t5\n2\tafter\t0\t50000\n3\tafter\t2\t0.7\n";

/// By name: the chart, how many waits have begun, and whether the mark is the next instant or the last one.
const MARKS: [(&str, &[u8], usize, bool); 7] = [
    ("no delay, next", NO_DELAY, 0, false),
    ("no delay, last", NO_DELAY, 0, true),
    ("none due, next", DELAYS, 0, false),
    ("none due, last", DELAYS, 0, true),
    ("2 ends, last", DELAYS, 1, true),
    ("200 ends, last", DELAYS, 100, true),
    ("2,000 ends, last", DELAYS, 1_000, true),
];

pub fn time_marks(order: Order, left_out: &LeftOut) {
    println!("\nmark at the next     rows     new    plain   proved          plain  proved");
    println!("or last instant    in use    rows       us       us  ratio  ns/row  ns/row");
    let marks = MARKS.iter().filter(|(_, chart, ..)| !left_out.is_in(chart));
    for &(name, chart, waits, far) in marks {
        for rows in ROWS_IN_USE {
            print_line(&workload(name, chart, rows, waits, far), order, |in_use, _| in_use);
        }
    }
    print_method();
    println!("ns/row: time over the rows in use before the call; each end brings one row");
}

fn workload(name: &'static str, chart: &[u8], rows: usize, waits: usize, far: bool) -> Workload {
    let chart = plain_watch::read_chart(chart).chart;
    let mut table = vec![0; (rows + 3 * waits + 20) * 5];
    let mut watch = taken(Plain::open(chart, &mut table, -LAST_INSTANT));
    let mut close = |watch: Watch, code: u8, count: usize| {
        let mut pending = watch;
        (0..count).for_each(|_| Plain::add_event(&mut pending, code));
        taken(Plain::clock(pending, chart, &mut table, watch.instant + 3))
    };
    while watch.rows + 64 <= rows {
        watch = close(watch, 5, 64);
    }
    while watch.rows < rows {
        watch = close(watch, 5, 1);
    }
    for _ in 0..waits {
        watch = close(watch, 1, 1);
    }
    let mark = if far { LAST_INSTANT } else { watch.instant + 1 };
    Workload { name, watch, chart, table, call: Call::Clock(mark) }
}
