//! Marks with a new row s of `seq`, `cut` and `change`, beside a table of rows of another entry: where another s came
//! not long before; where none did, so that every row is looked at; and where rows of a lie one inside the other, so
//! that none of them has a rival.

use crate::measure::{print_line, print_method, taken, Call, Order, Workload};
use common::interface::{Chart, Watch};
use common::left_out::LeftOut;
use common::plain_watch::{self, Plain, PlainWatch};

const ROWS_IN_USE: [usize; 3] = [100, 3_000, 60_000];
/// Of these 60,000 would take seconds: each r looks at all rows of the window behind it.
const NESTED_ROWS: [usize; 2] = [100, 3_000];
const WORDS: [&str; 3] = ["seq", "cut", "change"];

pub fn time_marks(order: Order, left_out: &LeftOut) {
    println!("\nmark with a          rows     new    plain   proved          plain  proved");
    println!("new s              in use    rows       us       us  ratio  ns/row  ns/row");
    let words = || WORDS.into_iter().filter(|word| !left_out.is_in(chart(word).as_bytes()));
    for rows in ROWS_IN_USE {
        words().for_each(|word| print_line(&filled(word, rows, true), order, |in_use, _| in_use));
    }
    println!("the first s");
    for rows in ROWS_IN_USE {
        words().for_each(|word| print_line(&filled(word, rows, false), order, |in_use, _| in_use));
    }
    println!("r inside each other");
    for rows in NESTED_ROWS {
        words().for_each(|word| print_line(&nested(word, rows), order, |in_use, _| in_use));
    }
    print_method();
    println!("ns/row: time over the rows in use before the call");
}

/// Settled (1), opened (2), and 5, which only fills the table.
fn chart(word: &str) -> String {
    format!("0\tevent\t1\n1\tevent\t2\n2\tevent\t5\n3\t{word}\t0\t1\n")
}

fn close(watch: Watch, chart: &Chart, table: &mut [i32], code: u8, count: usize) -> Watch {
    let mut pending = watch;
    (0..count).for_each(|_| Plain::add_event(&mut pending, code));
    taken(Plain::clock(pending, *chart, table, watch.instant + 3))
}

/// So many rows: eight settlings, rows of the other entry with or without an opening near their end, three settlings;
/// and one opening is pending.
fn filled(name: &'static str, rows: usize, is_opened: bool) -> Workload {
    let chart = plain_watch::read_chart(chart(name).as_bytes()).chart;
    let mut table = vec![0; (rows + 100) * 5];
    let mut watch = taken(Plain::open(chart, &mut table, 0));
    (0..8).for_each(|_| watch = close(watch, &chart, &mut table, 1, 1));
    while watch.rows + 64 + 40 <= rows {
        watch = close(watch, &chart, &mut table, 5, 64);
    }
    if is_opened {
        watch = close(watch, &chart, &mut table, 2, 1);
    }
    while watch.rows + 3 < rows {
        watch = close(watch, &chart, &mut table, 5, 1);
    }
    (0..3).for_each(|_| watch = close(watch, &chart, &mut table, 1, 1));
    Plain::add_event(&mut watch, 2);
    Workload { name, watch, chart, table, call: Call::Clock(watch.instant + 1) }
}

/// So many rows, a third of them pairs, the later its end the earlier its start; and one opening is pending. No list of
/// calls makes this table, but every call takes it: 13 does not ask whether pairs are missing.
fn nested(name: &'static str, rows: usize) -> Workload {
    let text = format!("0\tevent\t1\n1\tevent\t3\n2\tevent\t2\n3\tseq\t0\t1\n4\t{name}\t3\t2\n");
    let chart = plain_watch::read_chart(text.as_bytes()).chart;
    let pairs = rows / 3;
    let instant = |place: usize| place as i32;
    let mut table: Vec<i32> = Vec::new();
    (0..pairs).for_each(|i| table.extend([0, instant(i + 1), -1, instant(i), instant(i)]));
    for i in 0..pairs {
        let (first, end) = (pairs - 1 - i, instant(pairs + i));
        table.extend([1, instant(pairs + i + 1), -1, end, end]);
        table.extend([3, instant(first), instant(pairs + 2 * i), instant(first), end]);
    }
    let mut watch = taken(Plain::open(chart, &mut [], 0));
    watch = Watch { instant: instant(2 * pairs + 1), events: 2 * pairs, rows: 3 * pairs, ..watch };
    Plain::add_event(&mut watch, 2);
    table.resize((4 * pairs + 20) * 5, 0);
    Workload { name, watch, chart, table, call: Call::Clock(watch.instant + 1) }
}
