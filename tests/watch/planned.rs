//! What is compared by plan, not by chance: charts on paper, every short table, reports of entries with few rows or
//! none, delays, jumps over many ends and over most of the range, `cut` and `change` at each boundary, additions between
//! what comes too early for them and what does not, added lines up to the end of a chart, the largest table, blocks of
//! many rows to be put in order, and trees of billions of bytes.

use crate::added_lines::Drawn;
use crate::blocks::On;
use crate::damage::compare_addition;
use crate::histories::{any_row, compare_report, compare_tree, compare_tree_in, Run};
use crate::met::Met;
use crate::subject::{lent_table, Subject};
use common::blocks::{before_block, BeforeBlock, Pairs, Starts, ALL_STARTS};
use common::chart_value;
use common::harness::Compared;
use common::interface::{Calls, Report, Watch, MOST_ENTRIES};
use common::plain_chart::{self, Entry};
use common::plain_watch;
use common::random::Random;
use common::random_charts;
use oracle::any_watch;
use oracle::model::Call;
use std::time::{Duration, Instant};

const CHARTS: usize = 30_000;
/// The events of a long jump, each of which is delayed twice.
const DELAYED_EVENTS: i64 = 300;
/// A watch that goes from instant to instant takes longer for a jump over the whole range.
const LONGEST_JUMP: Duration = Duration::from_secs(5);
/// The rows r that come before so many rows s of one instant.
const MANY: i64 = 100;
const MANY_TIES: i64 = 30;
const BLOCK_ROWS: [usize; 3] = [100, 1_000, 3_000];
const TREES_OF_BLOCK: usize = 10;
const MOST_ROWS: usize = 65_535;
/// The greatest table that is all rows.
const ALL_ROWS: usize = MOST_ROWS * 5;

fn entries(text: &str) -> Vec<Entry> {
    plain_chart::read(text.as_bytes()).expect("the planned chart is sound")
}

/// Charts on paper, sound and damaged: number, line and every entry, the blank ones too.
pub fn charts(calls: &Calls, met: &mut Met) -> Compared {
    let mut random = Random::new(31);
    for _ in 0..CHARTS {
        let text = random_charts::any(&mut random);
        let expected = plain_watch::read_chart(&text);
        let answer = (calls.read_chart)(&text);
        met.charts += 1;
        if answer != expected {
            return Err(format!("chart \"{}\": {answer:?}\nexpected {expected:?}", text.escape_ascii()));
        }
    }
    Ok(())
}

/// P1 on a table of each length from 0 to 60, which takes it from 40 on, and a forget and a report after it.
pub fn short_tables(calls: &Calls, met: &mut Met) -> Compared {
    let entries = entries("0\tevent\t1\n1\tevent\t2\n2\tevent\t3\n3\tseq\t0\t1\n4\t-[[\t3\t2\n");
    let log = calls_of("e1 c0 e2 c3 e3 e2 c4 f0 c5");
    for length in 0..=60 {
        let table: Vec<i32> = (0..length).map(|place| 1_000 - place).collect();
        let mut run = Run::open(calls, &entries, chart_value::of(&entries), &table, -2, 0, met)?;
        log.iter().try_for_each(|call| run.play(*call, met))?;
        run.read_report(met)?;
    }
    Ok(())
}

/// A chart of so many events, the code of each being its entry's number.
fn of_events(count: usize) -> Vec<Entry> {
    entries(&(0..count).map(|number| format!("{number}\tevent\t{number}\n")).collect::<String>())
}

/// Reports of charts of the least and the most entries, of which the last has no row, one, two or three; and of one with
/// more rows than a byte counts.
pub fn reports(calls: &Calls, met: &mut Met) -> Compared {
    for count in [1, 2, MOST_ENTRIES - 1, MOST_ENTRIES] {
        (0..4).try_for_each(|more| compare_reports(calls, count, more, met))?;
    }
    compare_report_of_one_entry(calls, 256, met)
}

/// The entries come one after the other, each at an instant of its own, and no two beside each other with as many rows.
/// Reports while events are pending, which are no rows yet, after each mark, and after a forget of half of the rows and
/// of all.
fn compare_reports(calls: &Calls, count: usize, more: usize, met: &mut Met) -> Compared {
    let entries = of_events(count);
    let mut run = Run::open(calls, &entries, chart_value::of(&entries), &[7; 503], 0, 0, met)?;
    for number in 0..count {
        (0..(number + more) % 4).try_for_each(|_| run.play(Call::Event(number as u8), met))?;
        run.read_report(met)?;
        run.play(Call::Clock(number as i64 + 1), met)?;
        run.read_report(met)?;
    }
    for floor in [count / 2, count] {
        run.play(Call::Forget(floor as i64), met)?;
        run.read_report(met)?;
    }
    Ok(())
}

/// A log under a chart; `calls_of` reads it. Its instants are tenths, and so are the lengths of the chart, which has
/// them on paper: 5 tenths are 0.5.
struct Planned {
    chart: &'static str,
    opening: i32,
    log: &'static str,
}

/// The calls of a log in short.
fn calls_of(log: &str) -> Vec<Call> {
    log.split(' ').map(call_of).collect()
}

/// `e1` is an event of code 1, `c5` a mark at 5, `f2` a forget at 2.
fn call_of(word: &str) -> Call {
    let number: i64 = word[1..].parse().expect("a number follows the letter");
    match &word[..1] {
        "e" => Call::Event(number as u8),
        "c" => Call::Clock(number),
        "f" => Call::Forget(number),
        _ => panic!("{word} is no call"),
    }
}

const DELAYS: [Planned; 7] = [
    // Delays of delays, by one mark and by several; one of 0, and pairs of two delays.
    Planned {
        chart: "0\tevent\t1\n1\tafter\t0\t0.5\n2\tafter\t1\t0.0\n3\tafter\t2\t0.3\n4\tand\t1\t3\n",
        opening: 0,
        log: "e1 c5 c6 e1 c100 c101",
    },
    // The jump's length, an instant less and one more: only the first delay ends before the mark.
    Planned {
        chart: "0\tevent\t1\n1\tafter\t0\t0.6\n2\tafter\t0\t0.5\n3\tafter\t0\t0.4\n4\tor\t1\t3\n",
        opening: -5,
        log: "e1 e1 c0 c1 c2",
    },
    // A wait after a stop (1) that no move (2) follows, and an opened shutter (3) after that.
    Planned {
        chart: "0\tevent\t1\n1\tevent\t2\n2\tevent\t3\n3\tafter\t0\t200.0\n4\t-]]\t3\t1\n5\tseq\t4\t2\n",
        opening: -7,
        log: "e1 c1000 e2 c1500 e1 c3500 e3 c3501 e3 c9000",
    },
    // Absences between delays: -[] forbids, -][ does not.
    Planned {
        chart: "0\tevent\t1\n1\tafter\t0\t0.3\n2\tafter\t0\t0.7\n3\t-[]\t2\t1\n4\t-][\t2\t1\n5\t-[]\t1\t2\n",
        opening: 0,
        log: "e1 c2 e1 c30",
    },
    // Forgets before the end of a delay, at the row's start, and after it.
    Planned {
        chart: "0\tevent\t1\n1\tafter\t0\t1.0\n2\tafter\t1\t1.0\n",
        opening: 0,
        log: "e1 c2 e1 c4 e1 c5 f2 c13 f3 c50 f50 c51",
    },
    // Ends at and behind the end of the range.
    Planned {
        chart: "0\tevent\t1\n1\tafter\t0\t0.9\n2\tafter\t0\t1.0\n3\tafter\t0\t200000000.0\n4\tafter\t1\t0.1\n",
        opening: 999_999_990,
        log: "e1 c999999999 e1 c1000000000 e1",
    },
    Planned {
        chart: "0\tevent\t1\n1\tafter\t0\t199999999.9\n2\tafter\t0\t200000000.0\n3\tafter\t1\t200000000.0\n",
        opening: -1_000_000_000,
        log: "e1 e2 c999999999 c1000000000",
    },
];

/// Each of these on a table of each length up to 80, so that it is full at each row of a jump.
pub fn delays(calls: &Calls, met: &mut Met) -> Compared {
    on_each_length(calls, &DELAYS, 80, met)
}

fn on_each_length(calls: &Calls, planned: &[Planned], longest: i32, met: &mut Met) -> Compared {
    for Planned { chart, opening, log } in planned {
        let (entries, log) = (entries(chart), calls_of(log));
        for length in 0..=longest {
            let table: Vec<i32> = (0..length).map(|place| 1_000 - place).collect();
            let mut run = Run::open(calls, &entries, chart_value::of(&entries), &table, *opening, 0, met)?;
            log.iter().try_for_each(|call| run.play(*call, met))?;
        }
    }
    Ok(())
}

const NEAREST: [Planned; 9] = [
    // Several r and one s, several s and one r, several of both in one instant, and an s without an r between.
    Planned {
        chart: "0\tevent\t1\n1\tevent\t2\n2\tcut\t0\t1\n3\tchange\t0\t1\n",
        opening: 0,
        log: "e1 c1 e1 c2 e2 c3 e2 c4 e1 e1 c6 e2 e2 c7 e2 c8",
    },
    // One entry as both operands.
    Planned {
        chart: "0\tevent\t1\n1\tcut\t0\t0\n2\tchange\t0\t0\n3\tcut\t1\t1\n4\tchange\t2\t2\n",
        opening: -3,
        log: "e1 c0 e1 e1 c1 e1 c5 e1 c6",
    },
    // An s' that starts where r ends, and then one that starts an instant later; two s of one end and different starts.
    Planned {
        chart: "0\tevent\t1\n1\tevent\t2\n2\tevent\t3\n3\tseq\t1\t2\n4\tcut\t0\t3\n5\tchange\t0\t3\n",
        opening: 5,
        log: "e1 e2 c7 e3 c8 e2 e1 c9 e2 c10 e2 c11 e3 c12 e3 c13",
    },
    // An r' that starts before r, with it and after it, and ends between r and s.
    Planned {
        chart: "0\tevent\t1\n1\tevent\t2\n2\tevent\t3\n3\tevent\t4\n4\tevent\t5\n5\tseq\t0\t1\n6\tseq\t3\t4\n\
            7\tor\t5\t6\n8\tchange\t7\t2\n9\tcut\t7\t2\n",
        opening: 0,
        log: "e4 c1 e1 c2 e2 c3 e5 c5 e3 c6 e4 e1 c7 e2 c8 e5 c10 e3 c11",
    },
    Planned {
        chart: "0\tevent\t1\n1\tevent\t2\n2\tevent\t3\n3\tseq\t0\t1\n4\tchange\t3\t2\n5\tcut\t3\t2\n",
        opening: 0,
        log: "e1 c1 e2 c2 e2 e1 c3 e2 e3 c4",
    },
    // Document 003's `A!((B D)||F)`: what is first by its end stays, though another starts earlier.
    Planned {
        chart: "0\tevent\t1\n1\tevent\t2\n2\tevent\t3\n3\tevent\t4\n4\tseq\t1\t2\n5\tor\t4\t3\n\
            6\tcut\t0\t5\n7\tchange\t0\t5\n",
        opening: 1,
        log: "e1 c2 e2 c3 e4 c4 e3 c5",
    },
    // Each in the other, in an absence and in a delay, and over delayed rows, several of them by one mark.
    Planned {
        chart: "0\tevent\t1\n1\tevent\t2\n2\tcut\t0\t1\n3\tchange\t2\t0\n4\t-[]\t3\t2\n5\t-[]\t2\t3\n\
            6\tafter\t2\t0.3\n7\tchange\t6\t6\n8\tcut\t0\t6\n",
        opening: 0,
        log: "e1 c1 e2 c2 e1 c3 e2 c7 e1 c8 e2 c30",
    },
    // Forgets that drop r and keep r', that drop r and keep s, and that drop r before s comes.
    Planned {
        chart: "0\tevent\t1\n1\tevent\t2\n2\tcut\t0\t1\n3\tchange\t0\t1\n",
        opening: 0,
        log: "e1 c1 e1 c2 f1 e2 c3 f2 e1 c4 f4 e2 c5",
    },
    // A pair over the whole range.
    Planned {
        chart: "0\tevent\t1\n1\tcut\t0\t0\n2\tchange\t0\t0\n",
        opening: -1_000_000_000,
        log: "e1 c999999999 e1 e1 c1000000000 e1",
    },
];

/// Each of these on a table of each length up to 170, so that each of its rows, at most 32, is once one too many.
pub fn nearest(calls: &Calls, met: &mut Met) -> Compared {
    on_each_length(calls, &NEAREST, 170, met)
}

/// A log under a chart, in which `a0` adds the first of these lines, `a1` the second.
struct PlannedAdditions {
    chart: &'static str,
    added: &'static [&'static str],
    opening: i32,
    log: &'static str,
}

const OF_EVENTS: &str = "0\tevent\t1\n1\tevent\t2\n";

const ADDED: [PlannedAdditions; 10] = [
    // Events before, at and after the addition, and an added entry that names a code again.
    PlannedAdditions {
        chart: OF_EVENTS,
        added: &["2\tevent\t1\n3\tseq\t0\t1\n4\tand\t2\t0\n5\tor\t0\t2\n"],
        opening: 0,
        log: "e1 c1 e1 a0 e1 c2 e2 c3 e1 c4",
    },
    // Waits that begin before the addition, at it and after it; delays of delays; one that forbids.
    PlannedAdditions {
        chart: OF_EVENTS,
        added: &["2\tafter\t0\t0.5\n3\tafter\t2\t0.5\n4\t-[]\t2\t1\n5\tatleast\t2\t0.5\n"],
        opening: 0,
        log: "e1 c2 e1 c3 e1 a0 c4 e1 e2 c7 c8 c9 c30",
    },
    // Old waits that end behind the addition: of what is made of them, all starts too early, but for the last.
    PlannedAdditions {
        chart: "0\tevent\t1\n1\tafter\t0\t0.4\n2\tafter\t0\t0.9\n",
        added: &["3\tor\t1\t2\n4\tfinishes\t1\t1\n5\tequals\t1\t1\n6\tmeets\t1\t0\n7\toverlaps\t1\t2\n"],
        opening: -9,
        log: "e1 c-8 e1 c-7 a0 e1 c-6 e1 c-3 e1 c20",
    },
    // Pairs of r from before and s from behind; rivals from before, and ties.
    PlannedAdditions {
        chart: OF_EVENTS,
        added: &["2\tcut\t0\t1\n3\tchange\t0\t1\n4\tcut\t1\t0\n5\tseq\t0\t1\n"],
        opening: 0,
        log: "e1 c1 e2 c2 e1 a0 e1 c3 e1 e2 c4 e2 c5 e1 c6 e2 c7",
    },
    // Absences over what began before, and what forbids from before.
    PlannedAdditions {
        chart: "0\tevent\t1\n1\tevent\t2\n2\tseq\t0\t1\n",
        added: &["3\t-[]\t0\t1\n4\t-][\t2\t0\n5\t-[[\t2\t0\n6\t-]]\t2\t1\n"],
        opening: 0,
        log: "e1 e2 c1 e1 a0 e2 c2 e1 e2 c3 e2 c5",
    },
    // Twice at one instant, and then over both at later ones.
    PlannedAdditions {
        chart: "0\tevent\t1\n",
        added: &["1\tlasts\t0\t0.0\n", "2\tseq\t0\t1\n3\tor\t1\t0\n", "4\tand\t1\t3\n", "5\tstarts\t0\t2\n"],
        opening: 5,
        log: "e1 a0 e1 a1 c6 e1 c7 a2 e1 c8 e1 a3 c9 e1 c10",
    },
    // Room that only rows which start too early would take.
    PlannedAdditions {
        chart: "0\tevent\t1\n",
        added: &["1\tand\t0\t0\n2\tseq\t0\t0\n"],
        opening: 0,
        log: "e1 c1 e1 c2 a0 e1 c3 f1 e1 c4 f4 e1 c5",
    },
    // Forgets below the instants from which entries count, at them and above them.
    PlannedAdditions {
        chart: "0\tevent\t1\n1\tafter\t0\t0.3\n",
        added: &["2\tatmost\t1\t0.9\n", "3\tduring\t0\t1\n4\tseq\t0\t2\n"],
        opening: 0,
        log: "e1 c1 f1 e1 c2 a0 e1 c3 f1 e1 c4 f2 a1 e1 c5 e1 c6 f4 e1 c9 f6 f9 a0 c10",
    },
    // Both ends of the range: from the first instant on an added entry counts as those of the opening do.
    PlannedAdditions {
        chart: "0\tevent\t1\n",
        added: &["1\tafter\t0\t199999999.9\n", "2\tor\t0\t1\n", "3\tevent\t1\n"],
        opening: -1_000_000_000,
        log: "e1 a0 c-999999999 e1 a1 c999999999 e1 c1000000000 a2 e1",
    },
    // Refused ones in between, which leave no trace.
    PlannedAdditions {
        chart: "0\tevent\t1\n",
        added: &["1\tor\t0\t0\n2\tor\t2\t0\n", "", "0\tevent\t1\n", "1\tevent\t256\n", "1\tor\t0\t0\n2\tor\t1\t1\n"],
        opening: 0,
        log: "e1 a0 c1 a1 e1 a2 a3 c2 a4 e1 a0 c3 a4 a1 c4",
    },
];

/// Each of these on a table of each length up to 190, so that each of its rows, at most 37, is once one too many.
pub fn additions(calls: &Calls, met: &mut Met) -> Compared {
    for PlannedAdditions { chart, added, opening, log } in &ADDED {
        let entries = entries(chart);
        for length in 0..=190 {
            let table: Vec<i32> = (0..length).map(|place| 1_000 - place).collect();
            let mut run = Run::open(calls, &entries, chart_value::of(&entries), &table, *opening, 0, met)?;
            for word in log.split(' ') {
                match word.strip_prefix('a').map(|place| place.parse::<usize>().expect("a number follows the letter")) {
                    Some(place) => run.add_lines(&Drawn { lines: added[place].into(), fault: None }, met)?,
                    None => run.play(call_of(word), met)?,
                }
            }
        }
    }
    Ok(())
}

/// Lines added to charts of few entries, of 31 and of 32: each number of lines up to two too many, with each of these
/// behind them; and so many texts damaged by chance.
pub fn added_lines(calls: &Calls, texts: usize, met: &mut Met) -> Compared {
    let events = |from: usize, to: usize| (from..to).map(|number| format!("{number}\tevent\t1\n")).collect::<String>();
    let opened = |count: usize| {
        let watch = Watch { instant: 7, ..Watch::opened(0, count) };
        Subject { watch, chart: chart_value::of(&entries(&events(0, count))), table: lent_table(&[0; 12]) }
    };
    for count in [1, 2, 16, 30, 31, 32] {
        for last in count..=34 {
            let own = [format!("{last}\tor\t{last}\t0\n"), format!("{last}\tafter\t{last}\t200000000.1\n")];
            let others = ["", "x\n", "\n", "x", "0\tevent\t1\n", "99\tevent\t256\n"].map(str::to_string);
            for line in own.into_iter().chain(others) {
                compare_addition(calls, &opened(count), (events(count, last) + &line).as_bytes(), met)?;
            }
        }
    }
    let mut random = Random::new(32);
    (0..texts).try_for_each(|_| {
        let count = random.pick(&[1, 2, 3, 8, 20, 29, 30, 31, 32]);
        let lines = random_charts::any_more(&mut random, count);
        compare_addition(calls, &opened(count), &lines, met)
    })
}

/// Many r, many s that end together, and as many once more, for which the first are rivals.
pub fn many_nearest(calls: &Calls, met: &mut Met) -> Compared {
    let entries = entries("0\tevent\t1\n1\tevent\t2\n2\tcut\t0\t1\n3\tchange\t0\t1\n");
    let mut run = Run::open(calls, &entries, chart_value::of(&entries), &[7; 25_000], 0, 0, met)?;
    for instant in 0..MANY {
        run.play(Call::Event(1), met)?;
        run.play(Call::Clock(instant + 1), met)?;
    }
    for mark in [MANY + 1, MANY + 2] {
        (0..MANY_TIES).try_for_each(|_| run.play(Call::Event(2), met))?;
        run.play(Call::Clock(mark), met)?;
    }
    let expected = MANY + 2 * MANY_TIES + (MANY + 1) * MANY_TIES;
    assert_eq!(run.history.rows.len() as i64, expected, "each r with the first s, and the last r with them");
    Ok(())
}

/// One mark over hundreds of ends, and marks over most of the range with nothing due.
pub fn long_jumps(calls: &Calls, met: &mut Met) -> Compared {
    let entries = entries("0\tevent\t1\n1\tafter\t0\t500.0\n2\tafter\t1\t500.0\n3\t-]]\t1\t0\n4\tmeets\t1\t0\n");
    let mut run = Run::open(calls, &entries, chart_value::of(&entries), &[7; 10_000], -1_000_000_000, 0, met)?;
    let begun = Instant::now();
    run.play(Call::Clock(-20_000), met)?;
    for instant in -20_000..DELAYED_EVENTS - 20_000 {
        run.play(Call::Event(1), met)?;
        run.play(Call::Clock(instant + 1), met)?;
    }
    run.play(Call::Clock(999_999_999), met)?;
    run.play(Call::Clock(1_000_000_000), met)?;
    assert_eq!(run.history.rows.len() as i64, 3 * DELAYED_EVENTS + 1, "only the last event is followed by none");
    if begun.elapsed() > LONGEST_JUMP {
        return Err(format!("jumps took {:?}: the work is not bounded by the rows", begun.elapsed()));
    }
    Ok(())
}

/// 65,535 rows in a table that could hold two more by its length, one event too many, and a forget of half of them.
pub fn largest_table(calls: &Calls, met: &mut Met) -> Compared {
    let entries = entries("0\tevent\t1\n1\tevent\t2\n2\tand\t0\t0\n");
    let mut run = Run::open(calls, &entries, chart_value::of(&entries), &[-7; ALL_ROWS + 12], -3, 0, met)?;
    // 255 events of code 1, their 255 x 255 pairs and 255 events of code 2, at most 64 events an instant.
    for (instant, code) in [1, 1, 1, 1, 2, 2, 2, 2].into_iter().enumerate() {
        let count = if instant % 4 == 3 { 63 } else { 64 };
        (0..count).try_for_each(|_| run.play(Call::Event(code), met))?;
        run.play(Call::Clock(instant as i64 - 2), met)?;
    }
    assert_eq!(run.history.watch.rows, MOST_ROWS, "the table is full");
    compare_checks_of_full_table(calls, &run.subject, run.history.report(), met)?;
    compare_report_of_one_entry(calls, MOST_ROWS, met)?;
    run.play(Call::Event(2), met)?;
    run.play(Call::Clock(100), met)?;
    run.play(Call::Forget(-1), met)?;
    run.play(Call::Clock(100), met)
}

/// Blocks of many rows with starts in every order, each beside an entry that refers to its rows.
pub fn blocks(calls: &Calls, met: &mut Met) -> Compared {
    for rows in BLOCK_ROWS {
        for starts in ALL_STARTS {
            compare_block(calls, starts, rows, met)
                .map_err(|difference| format!("{rows} rows of one entry, starts {starts:?}: {difference}"))?;
        }
    }
    Ok(())
}

/// The mark that makes the block, a forget of what starts before its middle row, and another block on what is left. Before
/// that the same mark on tables that are a row too short, for the block and for what refers to it.
fn compare_block(calls: &Calls, starts: Starts, rows: usize, met: &mut Met) -> Compared {
    let referring = |block: usize| format!("{}\tatleast\t{block}\t0.0\n", block + 1);
    let BeforeBlock { watch, chart, table } = before_block(starts, Pairs::of(rows), 7 * rows, referring);
    let on = |table_rows: usize| Subject { watch, chart, table: lent_table(&table[..table_rows * 5]) };
    let mark = Call::Clock(i64::from(watch.instant) + 1);
    let needed = watch.rows + watch.pending + 2 * rows;
    for too_short in [needed - rows - 1, needed - 1] {
        compare_play(calls, &mut on(too_short), mark, 12)?;
    }
    let mut subject = on(7 * rows);
    compare_play(calls, &mut subject, mark, 0)?;
    compare_trees_of_block(calls, &subject, rows, met)?;
    let middle = subject.table.part()[(subject.watch.rows - rows / 2) * 5 + 3];
    compare_play(calls, &mut subject, Call::Forget(middle.into()), 0)?;
    compare_play(calls, &mut subject, Call::Event(3), 0)?;
    compare_play(calls, &mut subject, Call::Clock(i64::from(watch.instant) + 2), 0)?;
    compare_trees_of_block(calls, &subject, rows, met)
}

/// Compares a call on a table of many rows, of which the first that differs is shown.
fn compare_play(calls: &Calls, subject: &mut Subject, call: Call, refusal: u32) -> Compared {
    let (expected, table) = any_watch::play(&subject.watch, &subject.chart, subject.table.part(), call);
    assert_eq!(expected.refusal, refusal, "what is planned for {call:?}");
    let answer = subject.play(calls, call);
    if answer != expected {
        return Err(format!("{call:?} answered {answer:?}\nexpected {expected:?}"));
    }
    if subject.table.holds(&table) {
        return Ok(());
    }
    let mut rows = subject.table.part().chunks(5).zip(table.chunks(5)).enumerate();
    let differing = rows.find(|(_, (row, expected))| row != expected);
    Err(format!("{call:?} left a row, found and expected: {differing:?}"))
}

/// Trees of rows anywhere in the table, most of them in the block or made of its rows.
fn compare_trees_of_block(calls: &Calls, subject: &Subject, rows: usize, met: &mut Met) -> Compared {
    let mut random = Random::new(rows as u64);
    (0..TREES_OF_BLOCK).try_for_each(|_| {
        let row = any_row(&mut random, subject.watch.rows);
        let tree_at = |room: usize| any_watch::tree(&subject.watch, &subject.chart, subject.table.part(), row, room);
        compare_tree(calls, subject, row, tree_at, &mut random, met)
    })
}

/// One thing changed in a table of 65,535 rows, of which there is such a report.
fn compare_checks_of_full_table(calls: &Calls, full: &Subject, report: Report, met: &mut Met) -> Compared {
    let with_number = |place: usize, number: i32| {
        let mut changed = full.clone();
        changed.table.part_mut()[place] = number;
        changed
    };
    let mut one_row_more = full.clone();
    one_row_more.watch.rows += 1;
    let cases = [
        (full.clone(), 0, "as it was"),
        (with_number(ALL_ROWS, 9), 0, "the number after the last row"),
        (with_number(ALL_ROWS - 1, 9), 13, "the last number of the last row"),
        (with_number(0, 32), 13, "the first number"),
        (one_row_more, 13, "a row more than the table can hold"),
    ];
    for (changed, expected, what) in cases {
        let checked = (calls.check)(changed.watch, changed.chart, changed.table.part());
        if checked != expected {
            return Err(format!("full table, {what}: check answered {checked}, expected {expected}"));
        }
        let report = if expected == 0 { report } else { Report::refused(expected) };
        compare_report(calls, &changed, On::NoHistory, report, met)
            .map_err(|difference| format!("full table, {what}: {difference}"))?;
    }
    Ok(())
}

/// A full table of so many rows, all of the last entry of 32.
fn compare_report_of_one_entry(calls: &Calls, rows: usize, met: &mut Met) -> Compared {
    let table: Vec<i32> = (1..=rows as i32).flat_map(|serial| [31, serial, -1, 0, 0]).collect();
    let watch = Watch { instant: 1, events: rows, rows, ..Watch::opened(0, MOST_ENTRIES) };
    let chart = chart_value::of(&of_events(MOST_ENTRIES));
    let expected = any_watch::report(&watch, &chart, &table);
    assert_eq!(expected.tallies[31], rows, "all rows are of one entry");
    compare_report(calls, &Subject { watch, chart, table: lent_table(&table) }, On::NoHistory, expected, met)
        .map_err(|difference| format!("{rows} rows of one entry: {difference}"))
}

/// A chart of 32 entries, each with the one before it for both operands, and its one event closed: a row for each
/// entry. With `and` the tree of row n has 2 to the nth leaves, with an absence it has n pairs of brackets.
fn nested(calls: &Calls, word: &str) -> Result<Subject, String> {
    let others: String = (1..32).map(|number| format!("{number}\t{word}\t{0}\t{0}\n", number - 1)).collect();
    let chart = chart_value::of(&entries(&format!("0\tevent\t1\n{others}")));
    let mut subject = Subject { watch: Watch::opened(0, 32), chart, table: lent_table(&[0; 32 * 5]) };
    subject.play(calls, Call::Event(1));
    subject.play(calls, Call::Clock(1));
    if subject.watch.rows == 32 {
        Ok(subject)
    } else {
        Err(format!("{} rows of 32 entries, expected 32", subject.watch.rows))
    }
}

/// Trees of up to 11 billion bytes: long ones are refused as quickly as short ones.
pub fn long_trees(calls: &Calls, met: &mut Met) -> Compared {
    let subject = nested(calls, "and")?;
    let begun = Instant::now();
    for row in 0..32 {
        for room in [1, 2, 6, 100, 5_116, 5_117, 5_118, 100_000] {
            let expected = any_watch::tree(&subject.watch, &subject.chart, subject.table.part(), row, room);
            compare_tree_in(calls, &subject, row, room, expected, met)?;
        }
    }
    if begun.elapsed() > Duration::from_secs(5) {
        return Err(format!("trees took {:?}: the work is not bounded by the output", begun.elapsed()));
    }
    Ok(())
}
