//! Times the proved watch beside the unproved one, both release builds, on the same watches and tables in one run. With
//! --any-order the two may have the rows of one end and entry in different orders, as a proved watch from before
//! request N7 has them, and marks that are to put many in order are left out. With --without WORDS, parted by commas,
//! those under a chart with one of these are: `after` is not known to one from before request N1, `cut` and `change`
//! not before N5; and so are additions of lines with one of these, or with `.`, the point of a length, not known before
//! N11.

mod blocks;
mod delays;
mod measure;
mod nearest;

use common::interface::{Chart, Watch};
use common::left_out::LeftOut;
use common::plain_watch::{self, Plain, PlainWatch};
use measure::{print_line, print_method, taken, Call, Order, Workload};

const ROWS_IN_USE: [usize; 4] = [100, 1_000, 10_000, 60_000];

const CALLS: [&str; 9] = [
    "check", "report", "mark, none pending", "mark, few new", "mark, many new", "forget a tenth", "forget half",
    "add a line", "add 22 lines",
];

/// Stage settled (1), shutter opened (2), focus moved (3), temperature sampled (4); and 5, which only fills the table.
const CHART: &[u8] = b"0\tevent\t1\n1\tevent\t2\n2\tevent\t3\n3\tevent\t4\n4\tevent\t5\n\
    5\tseq\t0\t1\n6\t-[]\t5\t2\n7\tor\t2\t3\n8\tatmost\t7\t0.5\n9\tequals\t0\t0\n";

const LINE: &[u8] = b"10\tseq\t0\t7\n";
/// As many as the chart has room for.
const LINES: &[u8] =
    b"10\tseq\t0\t7\n11\tcut\t0\t1\n12\tafter\t10\t500.0\n13\t-[]\t12\t2\n14\tevent\t6\n15\tand\t14\t3\n\
    16\tmeets\t12\t1\n17\toverlaps\t10\t11\n18\tstarts\t0\t5\n19\tduring\t2\t5\n20\tfinishes\t1\t5\n21\tequals\t2\t3\n\
    22\tlasts\t20\t3.0\n23\tatmost\t5\t40\n24\tatleast\t5\t40\n25\t-][\t24\t0\n26\t-[[\t24\t1\n27\t-]]\t24\t2\n\
    28\tchange\t5\t1\n29\tor\t28\t11\n30\tafter\t29\t200000000.0\n31\tevent\t255\n";

fn main() {
    let has_argument = |wanted: &str| std::env::args().any(|argument| argument == wanted);
    let order = if has_argument("--any-order") { Order::Any } else { Order::Same };
    let left_out = LeftOut::of_arguments();
    println!("                     rows     new    plain   proved          plain  proved");
    println!("call               in use    rows       us       us  ratio  ns/row  ns/row");
    for name in CALLS {
        let workloads = ROWS_IN_USE.map(|rows| workload(name, rows)).into_iter();
        for workload in workloads.filter(|workload| !is_left_out(&left_out, workload.call)) {
            print_line(&workload, order, |in_use, _| in_use);
        }
    }
    print_method();
    println!("ns/row: time over the rows in use before the call");
    if order == Order::Same {
        blocks::time_marks();
    }
    delays::time_marks(order, &left_out);
    nearest::time_marks(order, &left_out);
}

fn is_left_out(left_out: &LeftOut, call: Call) -> bool {
    matches!(call, Call::Add(lines) if left_out.is_on_paper(lines))
}

fn workload(name: &'static str, rows: usize) -> Workload {
    let chart = plain_watch::read_chart(CHART).chart;
    // The tenth and the half of the rows are looked up before, the events come after.
    let (mut watch, mut table) = filled(chart, rows, 4_500.min(65_535 - rows));
    let start_of = |row: usize| table[row * 5 + 3];
    let next = watch.instant + 1;
    let call = match name {
        "check" => Call::Check,
        "report" => Call::Report,
        "forget a tenth" => Call::Forget(start_of(rows / 10)),
        "forget half" => Call::Forget(start_of(rows / 2)),
        "add a line" => Call::Add(LINE),
        "add 22 lines" => Call::Add(LINES),
        _ => Call::Clock(next),
    };
    let codes = match name {
        "mark, few new" => vec![2],
        "mark, many new" => [vec![1; 63], vec![2]].concat(),
        _ => vec![],
    };
    for code in codes {
        watch = taken(Plain::event(watch, chart, &table, code));
    }
    if name != "mark, many new" {
        table.truncate((rows + 20) * 5);
    }
    Workload { name, watch, chart, table, call }
}

/// A watch with so many rows in use: three settlings, then samples, 12 an instant, in a table with room for more rows.
fn filled(chart: Chart, rows: usize, room: usize) -> (Watch, Vec<i32>) {
    let mut table = vec![0; (rows + room) * 5];
    let mut watch = taken(Plain::open(chart, &mut table, -1_000));
    let mut close = |watch: Watch, code: u8, count: usize| {
        let mut pending = watch;
        (0..count).for_each(|_| Plain::add_event(&mut pending, code));
        taken(Plain::clock(pending, chart, &mut table, watch.instant + 10))
    };
    for _ in 0..3 {
        watch = close(watch, 1, 1);
    }
    // A sample makes three rows: the event, an arm of the or, and the length test on that.
    while watch.rows + 36 <= rows {
        watch = close(watch, 4, 12);
    }
    while watch.rows < rows {
        watch = close(watch, 5, 1);
    }
    (watch, table)
}
