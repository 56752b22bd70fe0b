//! The set-building program's own tests, beside the examples of tests/examples. Instants and lengths are tenths of a
//! millisecond, as the model has them; on the lines of a chart 5 tenths are 0.5.

use common::chart_value;
use common::interface::{Answer, Chart, Report, Watch, FIRST_FLOOR};
use common::paper::{self, any_spelling, spelled};
use common::plain_chart::{self, Entry, Operator, Verdict};
use common::random::Random;
use common::random_charts;
use common::random_inputs;
use oracle::any_watch;
use oracle::consistency::{self, Cause, CAUSES};
use oracle::history::History;
use oracle::listing::{listing, TABLE_ROWS};
use oracle::model::{Call, Model, Over, MOST_EVENTS, MOST_PENDING};
use oracle::recognitions::Row;
use std::cmp::Reverse;
use std::collections::BTreeSet;

const INPUTS: usize = 30_000;
const HISTORIES: usize = 8_000;
const P1: &str = "0\tevent\t1\n1\tevent\t2\n2\tevent\t3\n3\tseq\t0\t1\n4\t-[[\t3\t2\n";

fn chart(text: &str) -> Vec<Entry> {
    plain_chart::read(text.as_bytes()).expect("the test's chart is sound")
}

fn opened(chart: &[Entry], instant: i64) -> Model {
    Model::open(chart, TABLE_ROWS, Over::EventsFromFloor, instant).expect("the instant is in range")
}

/// What an instant and a length mean on paper; none where it is malformed.
const ON_PAPER: [(&str, Option<i64>, Option<u64>); 38] = [
    ("0", Some(0), Some(0)),
    ("0.0", Some(0), Some(0)),
    ("0.5", Some(5), Some(5)),
    ("5", Some(50), Some(50)),
    ("5.0", Some(50), Some(50)),
    ("10.9", Some(109), Some(109)),
    ("100000000", Some(1_000_000_000), Some(1_000_000_000)),
    ("100000000.1", Some(1_000_000_001), Some(1_000_000_001)),
    ("200000000.0", Some(2_000_000_000), Some(2_000_000_000)),
    ("999999999", Some(9_999_999_990), Some(9_999_999_990)),
    ("999999999.9", Some(9_999_999_999), Some(9_999_999_999)),
    ("-0.5", Some(-5), None),
    ("-1", Some(-10), None),
    ("-1.5", Some(-15), None),
    ("-100000000.0", Some(-1_000_000_000), None),
    ("-999999999.9", Some(-9_999_999_999), None),
    ("-0", None, None),
    ("-0.0", None, None),
    ("", None, None),
    ("-", None, None),
    (".", None, None),
    (".5", None, None),
    ("-.5", None, None),
    ("1.", None, None),
    ("1.55", None, None),
    ("1.0.0", None, None),
    ("00", None, None),
    ("00.5", None, None),
    ("01", None, None),
    ("0,5", None, None),
    ("0.x", None, None),
    ("0.-5", None, None),
    ("+1", None, None),
    ("--1", None, None),
    ("1 ", None, None),
    ("1000000000", None, None),
    ("1000000000.0", None, None),
    ("-1000000000", None, None),
];

/// Request N11: "a point and one digit"; "without a point they are whole milliseconds"; "1 to 9 digits ... stand before
/// the point, or alone"; "a minus on the value zero stays malformed in every spelling".
#[test]
fn instants_and_lengths_on_paper() {
    for (text, instant, length) in ON_PAPER {
        assert_eq!(paper::instant(text.as_bytes()), instant, "the instant {text:?}");
        assert_eq!(paper::length(text.as_bytes()), length, "the length {text:?}");
    }
}

/// What is printed for a chart and a log.
fn listed(chart: &str, log: &str) -> String {
    let input = format!("{chart}\n{log}");
    String::from_utf8(listing(input.as_bytes(), TABLE_ROWS, Over::EventsFromFloor)).expect("a listing is ASCII")
}

/// "Listings ... print one digit after it: P1's `-2` becomes `-2.0`", whichever way it is spelled.
#[test]
fn listing_of_p1() {
    let expected = "row\tentry\tleft\tright\tstart\tend\n0\t0\t1\t-1\t-2.0\t-2.0\n1\t1\t2\t-1\t0.0\t0.0\n\
        2\t3\t0\t1\t-2.0\t0.0\n3\t4\t2\t-1\t-2.0\t0.0\n4\t1\t4\t-1\t3.0\t3.0\n5\t2\t3\t-1\t3.0\t3.0\n\
        6\t3\t0\t4\t-2.0\t3.0\n7\t4\t6\t-1\t-2.0\t3.0\n";
    let whole = "open\t-2\nevent\t1\nclock\t0\nevent\t2\nclock\t3\nevent\t3\nevent\t2\nclock\t4\n";
    let with_points = "open\t-2.0\nevent\t1\nclock\t0.0\nevent\t2\nclock\t3\nevent\t3\nevent\t2\nclock\t3.1\n";
    assert_eq!(listed(P1, whole), expected);
    assert_eq!(listed(P1, with_points), expected);
}

/// From -0.5 to 0.7 it is 1.2 and to 1 it is 1.5; from 0.7 to 1 it is 0.3. The waits of 0.4 end at -0.1, 1.1 and 1.4.
#[test]
fn limits_and_waits_in_tenths() {
    let chart =
        "0\tevent\t1\n1\tseq\t0\t0\n2\tatmost\t1\t1.2\n3\tlasts\t1\t1.2\n4\tatleast\t1\t1.5\n5\tafter\t0\t0.4\n";
    let log = "open\t-0.5\nevent\t1\nclock\t0.7\nevent\t1\nclock\t1\nevent\t1\nclock\t1.2\n";
    let expected = "row\tentry\tleft\tright\tstart\tend\n0\t0\t1\t-1\t-0.5\t-0.5\n1\t5\t0\t-1\t-0.5\t-0.1\n\
        2\t0\t2\t-1\t0.7\t0.7\n3\t1\t0\t2\t-0.5\t0.7\n4\t2\t3\t-1\t-0.5\t0.7\n5\t3\t3\t-1\t-0.5\t0.7\n\
        6\t0\t3\t-1\t1.0\t1.0\n7\t1\t2\t6\t0.7\t1.0\n8\t1\t0\t6\t-0.5\t1.0\n9\t2\t7\t-1\t0.7\t1.0\n\
        10\t4\t8\t-1\t-0.5\t1.0\n11\t5\t2\t-1\t0.7\t1.1\n";
    assert_eq!(listed(chart, log), expected);
    assert_eq!(listed(chart, &format!("{log}clock\t1.4\n")), expected, "the last wait ends at the mark");
    let last = "12\t5\t6\t-1\t1.0\t1.4\n";
    assert_eq!(listed(chart, &format!("{log}clock\t1.5\n")), format!("{expected}{last}"));
}

/// 7 where an instant is malformed, 8 and 11 where it is out of range. A code has no point.
#[test]
fn refused_instants() {
    let at_3 = |number: u32| format!("refused\t{number}\t3\n");
    let none = "row\tentry\tleft\tright\tstart\tend\n".to_string();
    for (text, expected) in [
        ("100000000.0", none.clone()),
        ("-100000000", none),
        ("100000000.1", at_3(8)),
        ("-100000000.1", at_3(8)),
        ("999999999.9", at_3(8)),
        ("429496729.6", at_3(8)),
        ("1000000000", at_3(7)),
        ("-0.0", at_3(7)),
        ("-0", at_3(7)),
    ] {
        assert_eq!(listed("0\tevent\t1\n", &format!("open\t{text}\n")), expected, "the opening {text}");
    }
    for (line, number) in [
        ("clock\t0.0", 8),
        ("clock\t999999999", 8),
        ("clock\t.5", 7),
        ("forget\t0.1", 11),
        ("forget\t-999999999.9", 11),
        ("forget\t-1000000000", 7),
        ("event\t1.0", 7),
    ] {
        let printed = listed("0\tevent\t1\n", &format!("open\t0\n{line}\n"));
        assert_eq!(printed, format!("refused\t{number}\t4\n"), "{line}");
    }
}

/// 3 where a length is malformed, 6 where it is out of range. No other number of a chart has a point.
#[test]
fn refused_lengths() {
    for (line, number) in [
        ("1\tafter\t0\t200000000.1", 6),
        ("1\tlasts\t0\t999999999", 6),
        ("1\tatmost\t0\t1000000000", 3),
        ("1\tatleast\t0\t-0.0", 3),
        ("1.0\tatleast\t0\t0.5", 3),
        ("1\tatleast\t0.0\t0.5", 3),
        ("1\tseq\t0\t0.0", 3),
        ("1\tevent\t2.0", 3),
    ] {
        let printed = listed(&format!("0\tevent\t1\n{line}\n"), "open\t0\n");
        assert_eq!(printed, format!("refused\t{number}\t2\n"), "{line}");
    }
}

/// One event at an instant: its row has the instant as it is spelled with a point, and that is read back.
#[test]
fn printed_instants_are_read_back() {
    let (least, greatest) = (-1_000_000_000, 1_000_000_000);
    for instant in (-1_200..=1_200).chain(least..least + 30).chain(greatest - 30..greatest) {
        let text = spelled(instant);
        let log = format!("open\t{text}\nevent\t1\nclock\t{}\n", spelled(instant + 1));
        let expected = format!("row\tentry\tleft\tright\tstart\tend\n0\t0\t1\t-1\t{text}\t{text}\n");
        assert_eq!(listed("0\tevent\t1\n", &log), expected);
        assert_eq!(paper::instant(text.as_bytes()), Some(instant));
    }
}

/// Whole milliseconds mean the same with a point and without.
#[test]
fn both_spellings_mean_the_same() {
    let mut random = Random::new(16);
    let mut respelled = 0;
    for _ in 0..INPUTS {
        let input = random_inputs::any(&mut random);
        let other = String::from_utf8(input.clone()).expect("the input is ASCII");
        let other: String = other.split_inclusive('\n').map(|line| respelled_line(&mut random, line)).collect();
        let printed = listing(&input, TABLE_ROWS, Over::EventsFromFloor);
        assert_eq!(printed, listing(other.as_bytes(), TABLE_ROWS, Over::EventsFromFloor), "{}", input.escape_ascii());
        respelled += usize::from(other.as_bytes() != input);
    }
    assert!(respelled > INPUTS / 2, "only {respelled} inputs are spelled in two ways");
}

/// A line with its instant or its length spelled anew.
fn respelled_line(random: &mut Random, line: &str) -> String {
    let Some((rest, field)) = line.trim_end().rsplit_once('\t') else { return line.to_string() };
    let has_tenths = |word: &str| line.split('\t').any(|field| field == word);
    if !["open", "clock", "forget", "lasts", "atmost", "atleast", "after"].into_iter().any(has_tenths) {
        return line.to_string();
    }
    let tenths = paper::instant(field.as_bytes()).expect("the input is sound");
    format!("{rest}\t{}\n", any_spelling(random, tenths))
}

/// "Row 7's tree is `<<e1,e4>>`."
#[test]
fn trees_of_p1() {
    let chart = chart(P1);
    let mut model = opened(&chart, -2);
    for (code, mark) in [(1, 0), (2, 3)] {
        model.event(code).unwrap();
        model.clock(mark).unwrap();
    }
    model.event(3).unwrap();
    model.event(2).unwrap();
    model.clock(4).unwrap();
    assert_eq!(model.trees(), ["e1", "e2", "<e1,e2>", "<<e1,e2>>", "e4", "e3", "<e1,e4>", "<<e1,e4>>"]);
}

/// "`<L,_>` or `<_,R>` for or": flattened to events the two would be one.
#[test]
fn trees_of_or() {
    let chart = chart("0\tevent\t1\n1\tor\t0\t0\n");
    let mut model = opened(&chart, 0);
    model.event(1).unwrap();
    model.clock(1).unwrap();
    assert_eq!(model.trees(), ["e1", "<e1,_>", "<_,e1>"]);
}

/// "Later start first, then the order of document 01": of the pairs that end at 30 the shortest stands first, and those of
/// e1 and e2, which happened at one instant, by left row; what refers to them goes by their places. A forget leaves the
/// others in their order.
#[test]
fn shortest_first() {
    let chart = chart("0\tevent\t1\n1\tevent\t2\n2\tseq\t0\t1\n3\tatleast\t2\t2.0\n");
    let mut model = opened(&chart, 0);
    for (codes, mark) in [(vec![1, 1], 10), (vec![1], 20), (vec![1], 30), (vec![2], 40)] {
        codes.into_iter().for_each(|code| model.event(code).unwrap());
        model.clock(mark).unwrap();
    }
    let pairs = ["<e4,e5>", "<e3,e5>", "<e1,e5>", "<e2,e5>", "<<e3,e5>>", "<<e1,e5>>", "<<e2,e5>>"];
    assert_eq!(model.trees(), [&["e1", "e2", "e3", "e4", "e5"], &pairs[..]].concat());
    let references: Vec<i64> = model.rows()[5..].iter().map(|row| row.left).collect();
    assert_eq!(references, [3, 2, 0, 1, 6, 7, 8]);
    model.forget(10).unwrap();
    assert_eq!(model.trees(), ["e3", "e4", "e5", "<e4,e5>", "<e3,e5>", "<<e3,e5>>"]);
}

/// The table after one event of code 1 at an instant and a mark.
fn rows_after_mark(chart: &[Entry], instant: i64, mark: i64) -> Vec<Row> {
    let mut model = opened(chart, instant);
    model.event(1).unwrap();
    model.clock(mark).unwrap();
    model.rows()
}

fn row([entry, left, right, start, end]: [i64; 5]) -> Row {
    Row { entry: entry as usize, left, right, start, end }
}

/// A delay of 5, one of 0 of that and one of 3 of that: the first two end at 5, the last at 8. "Due rows are those
/// ending before t": each end is there from the next mark on, however far the mark goes.
#[test]
fn delays_of_delays() {
    let chart = chart("0\tevent\t1\n1\tafter\t0\t0.5\n2\tafter\t1\t0.0\n3\tafter\t2\t0.3\n");
    let rows = [[0, 1, -1, 0, 0], [1, 0, -1, 0, 5], [2, 1, -1, 0, 5], [3, 2, -1, 0, 8]].map(row);
    for (mark, expected) in [(1, 1), (5, 1), (6, 3), (8, 3), (9, 4), (1_000_000_000, 4)] {
        assert_eq!(rows_after_mark(&chart, 0, mark), rows[..expected], "after the mark {mark}");
    }
    let mut model = opened(&chart, 0);
    model.event(1).unwrap();
    (1..=9).for_each(|mark| model.clock(mark).unwrap());
    assert_eq!(model.rows(), rows);
    assert_eq!(model.trees(), ["e1", "<e1>", "<<e1>>", "<<<e1>>>"]);
}

/// "Each in order of end": entry 2 ends before entry 1, and what pairs the two delays stands behind both.
#[test]
fn later_ends_behind() {
    let chart = chart("0\tevent\t1\n1\tafter\t0\t0.7\n2\tafter\t0\t0.3\n3\tand\t1\t2\n");
    let rows = [[0, 1, -1, 0, 0], [2, 0, -1, 0, 3], [1, 0, -1, 0, 7], [3, 2, 1, 0, 7]].map(row);
    assert_eq!(rows_after_mark(&chart, 0, 8), rows);
    assert_eq!(rows_after_mark(&chart, 0, 7), rows[..2]);
}

/// A stop at 0 and a move at 1,000: the wait from 0 is forbidden. The stop at 1,500 is followed by none.
#[test]
fn absence_over_a_wait() {
    let chart = chart("0\tevent\t1\n1\tevent\t2\n2\tafter\t0\t200.0\n3\t-]]\t2\t1\n");
    let mut model = opened(&chart, 0);
    for (code, mark) in [(1, 1_000), (2, 1_500), (1, 4_000)] {
        model.event(code).unwrap();
        model.clock(mark).unwrap();
    }
    assert_eq!(model.trees(), ["e1", "e2", "e3", "<e1>", "<e3>", "<<e3>>"]);
    assert_eq!(model.rows()[3..], [[2, 0, -1, 0, 2_000], [2, 2, -1, 1_500, 3_500], [3, 4, -1, 1_500, 3_500]].map(row));
}

/// `seq` from a delayed end at 5: an event at 5 does not come after it, one at 6 does. As s a delayed row is found
/// where it starts, at 6, however late it ends.
#[test]
fn seq_over_delays() {
    let chart = chart("0\tevent\t1\n1\tafter\t0\t0.5\n2\tseq\t1\t0\n3\tseq\t1\t1\n");
    let mut model = opened(&chart, 0);
    for mark in [5, 6, 100] {
        model.event(1).unwrap();
        model.clock(mark).unwrap();
    }
    assert_eq!(model.trees(), ["e1", "e2", "<e1>", "e3", "<<e1>,e3>", "<e2>", "<e3>", "<<e1>,<e3>>"]);
}

/// "An end at 1,000,000,000 or later is never closed", and no sum of an end and a length is too great.
#[test]
fn ends_at_the_end_of_the_range() {
    let lines = |delay: String| format!("0\tevent\t1\n1\tafter\t0\t{delay}\n2\tafter\t1\t200000000.0\n");
    let chart = |delay: i64| chart(&lines(spelled(delay)));
    let ends = |instant: i64, delay: i64| -> Vec<i64> {
        rows_after_mark(&chart(delay), instant, 1_000_000_000).iter().map(|row| row.end).collect()
    };
    assert_eq!(ends(999_999_990, 9), [999_999_990, 999_999_999]);
    assert_eq!(ends(999_999_990, 10), [999_999_990]);
    assert_eq!(ends(999_999_990, 2_000_000_000), [999_999_990]);
    assert_eq!(ends(-1_000_000_000, 1_999_999_999), [-1_000_000_000, 999_999_999]);
    assert_eq!(ends(-1_000_000_000, 2_000_000_000), [-1_000_000_000]);
}

/// A row forgotten before its delay has passed leaves none behind; one that starts at the floor does.
#[test]
fn forget_before_the_due_end() {
    let chart = chart("0\tevent\t1\n1\tafter\t0\t0.5\n");
    for (floor, trees) in [(1, vec![]), (0, vec!["e1", "<e1>"])] {
        let mut model = opened(&chart, 0);
        model.event(1).unwrap();
        model.clock(3).unwrap();
        model.forget(floor).unwrap();
        model.clock(10).unwrap();
        assert_eq!(model.trees(), trees, "after a forget of {floor}");
    }
}

/// 12 counts the rows of every due end of the jump: the third ends at 2.
#[test]
fn table_full_within_a_jump() {
    let chart = chart("0\tevent\t1\n1\tafter\t0\t0.1\n2\tafter\t1\t0.1\n");
    let open = |rows: usize| Model::open(&chart, rows, Over::EventsFromFloor, 0).unwrap();
    for (rows, mark, expected) in
        [(3, 100, Ok(())), (2, 100, Err(12)), (2, 3, Err(12)), (2, 2, Ok(())), (1, 2, Err(12))]
    {
        let mut model = open(rows);
        model.event(1).unwrap();
        assert_eq!(model.clock(mark), expected, "a table of {rows} rows, the mark {mark}");
        assert_eq!(model.open_instant, if expected.is_ok() { mark } else { 0 });
    }
}

/// On a table that no history made: a delayed row that was due before the open instant and is not there stays away;
/// what is due at the open instant or later comes, and what is delayed from that.
#[test]
fn delays_on_any_table() {
    let chart = chart_value::of(&chart("0\tevent\t1\n1\tafter\t0\t0.5\n2\tafter\t1\t0.2\n"));
    let play = |instant: i32, mark: i64| {
        let watch = Watch { instant, events: 1, rows: 1, ..Watch::opened(0, 3) };
        let table = [[0, 1, -1, 0, 0], [0; 5], [0; 5]].concat();
        let (answer, table) = any_watch::play(&watch, &chart, &table, Call::Clock(mark));
        (answer.refusal, answer.watch.rows, table)
    };
    let [event, first, second] = [[0, 1, -1, 0, 0], [1, 0, -1, 0, 5], [2, 1, -1, 0, 7]];
    assert_eq!(play(6, 100), (0, 1, [event, [0; 5], [0; 5]].concat()));
    assert_eq!(play(5, 100), (0, 3, [event, first, second].concat()));
    assert_eq!(play(1, 100), (0, 3, [event, first, second].concat()));
    assert_eq!(play(1, 7), (0, 2, [event, first, [0; 5]].concat()));
    assert_eq!(play(1, 5), (0, 1, [event, [0; 5], [0; 5]].concat()));
}

/// The trees of one entry's rows after events of these codes at these instants and a mark an instant later.
fn trees_of(chart: &[Entry], entry: usize, log: &[(i64, &[u8])]) -> Vec<String> {
    let mut model = opened(chart, log[0].0);
    for (instant, codes) in log {
        if *instant > model.open_instant {
            model.clock(*instant).unwrap();
        }
        codes.iter().for_each(|code| model.event(*code).unwrap());
    }
    model.clock(model.open_instant + 1).unwrap();
    trees_in(&model, entry)
}

fn trees_in(model: &Model, entry: usize) -> Vec<String> {
    let of_entry = model.rows().into_iter().zip(model.trees()).filter(|(row, _)| row.entry == entry);
    of_entry.map(|(_, tree)| tree).collect()
}

/// A `cut` and a `change` of two events.
const OF_EVENTS: &str = "0\tevent\t1\n1\tevent\t2\n2\tcut\t0\t1\n3\tchange\t0\t1\n";

/// The first s after each r: e3 comes second after e1. Of several r with one s `cut` has each, the later start first,
/// and `change` the last.
#[test]
fn first_after_and_last_before() {
    let chart = chart(OF_EVENTS);
    let one_by_one: &[(i64, &[u8])] = &[(0, &[1]), (1, &[2]), (2, &[2]), (3, &[1]), (4, &[2])];
    assert_eq!(trees_of(&chart, 2, one_by_one), ["<e1,e2>", "<e4,e5>"]);
    assert_eq!(trees_of(&chart, 3, one_by_one), ["<e1,e2>", "<e4,e5>"]);
    let two_before: &[(i64, &[u8])] = &[(0, &[1]), (1, &[1]), (2, &[2]), (3, &[2])];
    assert_eq!(trees_of(&chart, 2, two_before), ["<e2,e3>", "<e1,e3>"]);
    assert_eq!(trees_of(&chart, 3, two_before), ["<e2,e3>"]);
}

/// "Ties all count": two r of one instant, and two s of another.
#[test]
fn ties_of_events() {
    let chart = chart(OF_EVENTS);
    for entry in [2, 3] {
        let trees = trees_of(&chart, entry, &[(0, &[1, 1]), (1, &[2, 2]), (2, &[2])]);
        assert_eq!(trees, ["<e1,e3>", "<e1,e4>", "<e2,e3>", "<e2,e4>"]);
    }
}

/// "End r < end r' < start s": r' at the instant of s is no rival of e1, r' an instant before is.
#[test]
fn last_before_the_start_of_s() {
    let chart = chart(OF_EVENTS);
    assert_eq!(trees_of(&chart, 3, &[(1, &[1]), (3, &[1, 2])]), ["<e1,e3>"]);
    assert_eq!(trees_of(&chart, 3, &[(1, &[1]), (2, &[1]), (3, &[2])]), ["<e2,e3>"]);
    assert_eq!(trees_of(&chart, 3, &[(1, &[1]), (2, &[2])]), ["<e1,e2>"], "r itself is no rival of r");
}

/// "Starts after end r": r is at 5. An s' from 5 to 7 is none that r could have, and keeps no later one from it; one
/// from 6 to 7 is the first.
#[test]
fn rivals_start_after_the_end_of_r() {
    let chart = chart("0\tevent\t1\n1\tevent\t2\n2\tevent\t3\n3\tseq\t1\t2\n4\tcut\t0\t3\n5\tchange\t0\t3\n");
    for entry in [4, 5] {
        let trees = trees_of(&chart, entry, &[(5, &[1, 2]), (7, &[3]), (8, &[2]), (9, &[3])]);
        assert_eq!(trees, ["<e1,<e4,e5>>"], "s from 8 to 9, not from 5 to 9");
        let trees = trees_of(&chart, entry, &[(5, &[1]), (6, &[2]), (7, &[3]), (8, &[2]), (9, &[3])]);
        assert_eq!(trees, ["<e1,<e2,e3>>"], "s from 6 to 7, neither from 6 nor from 8 to 9");
    }
}

/// "Ends before end s": what ends with s is no rival, whether it starts earlier or later; what ends an instant before
/// is.
#[test]
fn rivals_end_before_the_end_of_s() {
    let chart = chart("0\tevent\t1\n1\tevent\t2\n2\tevent\t3\n3\tseq\t1\t2\n4\tcut\t0\t3\n5\tchange\t0\t3\n");
    for entry in [4, 5] {
        let log: &[(i64, &[u8])] = &[(5, &[1]), (6, &[2]), (8, &[2]), (9, &[3])];
        assert_eq!(trees_of(&chart, entry, log), ["<e1,<e3,e4>>", "<e1,<e2,e4>>"]);
        let log: &[(i64, &[u8])] = &[(5, &[1]), (6, &[2]), (7, &[2]), (8, &[3]), (9, &[3])];
        assert_eq!(trees_of(&chart, entry, log), ["<e1,<e3,e4>>", "<e1,<e2,e4>>"], "none that ends at 9");
    }
}

/// "Start r' >= start r": r is from 1 to 2, r' ends at 3 and s is at 5. From 0 on it is no rival, from 1 on and from 2
/// on it is.
#[test]
fn last_before_starts_no_earlier() {
    let events = "0\tevent\t1\n1\tevent\t2\n2\tevent\t3\n3\tevent\t4\n4\tevent\t5\n";
    let chart = chart(&format!("{events}5\tseq\t0\t1\n6\tseq\t3\t4\n7\tor\t5\t6\n8\tchange\t7\t2\n9\tcut\t7\t2\n"));
    let from_0: &[(i64, &[u8])] = &[(0, &[4]), (1, &[1]), (2, &[2]), (3, &[5]), (5, &[3])];
    assert_eq!(trees_of(&chart, 8, from_0), ["<<<e2,e3>,_>,e5>", "<<_,<e1,e4>>,e5>"]);
    let from_1: &[(i64, &[u8])] = &[(1, &[4, 1]), (2, &[2]), (3, &[5]), (5, &[3])];
    assert_eq!(trees_of(&chart, 8, from_1), ["<<_,<e1,e4>>,e5>"]);
    assert_eq!(trees_of(&chart, 9, from_1), ["<<<e2,e3>,_>,e5>", "<<_,<e1,e4>>,e5>"], "cut has both");
    let from_2: &[(i64, &[u8])] = &[(1, &[1]), (2, &[4, 2]), (3, &[5]), (5, &[3])];
    assert_eq!(trees_of(&chart, 8, from_2), ["<<_,<e2,e4>>,e5>"]);
}

/// `A!((B D)||F)` of document 003 over a at 1, b at 2, f at 3 and d at 4. It ranks by start: b and d, which are
/// complete at 4 only, would take f's place. Here the first by end stays what it was.
#[test]
fn nothing_shown_is_withdrawn() {
    let events = "0\tevent\t1\n1\tevent\t2\n2\tevent\t3\n3\tevent\t4\n";
    let chart = chart(&format!("{events}4\tseq\t1\t2\n5\tor\t4\t3\n6\tcut\t0\t5\n7\tchange\t0\t5\n"));
    let log: &[(i64, &[u8])] = &[(1, &[1]), (2, &[2]), (3, &[4]), (4, &[3])];
    for entry in [6, 7] {
        assert!(trees_of(&chart, entry, &log[..2]).is_empty());
        assert_eq!(trees_of(&chart, entry, &log[..3]), ["<e1,<_,e3>>"]);
        assert_eq!(trees_of(&chart, entry, log), ["<e1,<_,e3>>"]);
    }
}

/// One entry as both operands: each event with those of the next instant that has one.
#[test]
fn nearest_of_one_entry() {
    let chart = chart("0\tevent\t1\n1\tcut\t0\t0\n2\tchange\t0\t0\n");
    for entry in [1, 2] {
        let trees = trees_of(&chart, entry, &[(1, &[1]), (2, &[1, 1]), (4, &[1])]);
        assert_eq!(trees, ["<e1,e2>", "<e1,e3>", "<e2,e4>", "<e3,e4>"]);
    }
}

/// Delayed rows as s, from 1 to 4 and from 2 to 5, by one mark: the first ends first. As r they part e1 from what
/// follows them.
#[test]
fn nearest_over_delays() {
    let chart = chart("0\tevent\t1\n1\tevent\t2\n2\tafter\t1\t0.3\n3\tcut\t0\t2\n4\tor\t0\t2\n5\tchange\t4\t0\n");
    let mut model = opened(&chart, 0);
    for (code, mark) in [(1, 1), (2, 2), (2, 10), (1, 11)] {
        model.event(code).unwrap();
        model.clock(mark).unwrap();
    }
    assert_eq!(trees_in(&model, 3), ["<e1,<e2>>"]);
    assert_eq!(trees_in(&model, 5), ["<<_,<e3>>,e4>"], "neither e1 nor the delay that ends at 4");
}

/// A forget that takes r and keeps s takes their pair; what starts at the floor or later is as it was, and so is what
/// comes.
#[test]
fn forget_between_r_and_its_rival() {
    let chart = chart(OF_EVENTS);
    let mut model = opened(&chart, 0);
    for (code, mark) in [(1, 1), (1, 2), (2, 3)] {
        model.event(code).unwrap();
        model.clock(mark).unwrap();
    }
    assert_eq!(model.trees(), ["e1", "e2", "e3", "<e2,e3>", "<e1,e3>", "<e2,e3>"]);
    model.forget(1).unwrap();
    assert_eq!(model.trees(), ["e2", "e3", "<e2,e3>", "<e2,e3>"]);
    model.forget(2).unwrap();
    model.event(2).unwrap();
    model.clock(4).unwrap();
    assert_eq!(model.trees(), ["e3", "e4"], "no r is left");
}

/// On a table that no history made: of 0 and 2 the pair is not there, and 2 is a rival all the same.
#[test]
fn nearest_on_any_table() {
    let chart = chart_value::of(&chart(OF_EVENTS));
    let rows =
        [[0, 1, -1, 0, 0], [1, 2, -1, 2, 2], [0, 3, -1, 3, 3], [1, 4, -1, 6, 6], [2, 2, 3, 3, 6], [3, 2, 3, 3, 6]];
    let codes = std::array::from_fn(|place| if place == 0 { 2 } else { 0 });
    let watch = Watch { instant: 6, events: 4, rows: 3, pending: 1, codes, ..Watch::opened(0, 4) };
    for (held, refusal) in [(6, 0), (5, 12), (4, 12), (3, 12)] {
        let before: Vec<i32> = rows[..3].concat().into_iter().chain([0; 15]).take(held * 5).collect();
        let (answer, after) = any_watch::play(&watch, &chart, &before, Call::Clock(7));
        assert_eq!(answer.refusal, refusal, "a table of {held} rows");
        assert_eq!(after, if refusal == 0 { rows.concat() } else { before });
    }
}

/// Events of code 1 and marks by turns: an event at each instant from the open one to the last before the mark.
fn events_to(model: &mut Model, mark: i64) {
    for instant in model.open_instant..mark {
        model.event(1).unwrap();
        model.clock(instant + 1).unwrap();
    }
}

/// "A recognition belongs to the table if it starts no earlier than that", the open instant of the addition: e1 is too
/// early for what is added at 1, where e2 is pending and counts.
#[test]
fn added_entries_count_from_the_open_instant() {
    let mut model = opened(&chart("0\tevent\t1\n1\tevent\t2\n"), 0);
    model.event(1).unwrap();
    model.clock(1).unwrap();
    model.event(1).unwrap();
    model.add_lines(b"2\tseq\t0\t1\n3\tevent\t1\n").unwrap();
    assert_eq!(model.trees(), ["e1"], "existing rows are unchanged");
    model.clock(2).unwrap();
    model.event(2).unwrap();
    model.clock(3).unwrap();
    assert_eq!(model.trees(), ["e1", "e2", "e2", "e3", "<e2,e3>"], "not <e1,e3>");
    let entries: Vec<usize> = model.rows().iter().map(|row| row.entry).collect();
    assert_eq!(entries, [0, 0, 3, 1, 2]);
    assert_eq!(model.since(), [-1_000_000_000, -1_000_000_000, 1, 1]);
}

/// A wait that began before the addition never comes. One that begins with it does, and an absence added with it hears
/// of a move at its start.
#[test]
fn waits_from_before_an_addition() {
    let mut model = opened(&chart("0\tevent\t1\n1\tevent\t2\n"), 0);
    events_to(&mut model, 2);
    model.add_lines(b"2\tafter\t0\t0.5\n3\t-[]\t2\t1\n").unwrap();
    model.event(2).unwrap();
    events_to(&mut model, 4);
    model.clock(50).unwrap();
    assert_eq!(model.trees(), ["e1", "e2", "e4", "e3", "e5", "<e4>", "<e5>", "<<e5>>"], "e3 is the move");
}

/// `cut` and `change` added at 2: e3, at 2, is the first that counts as r, and of two r the last decides as ever.
#[test]
fn pairs_from_before_an_addition() {
    let mut model = opened(&chart("0\tevent\t1\n1\tevent\t2\n"), 0);
    events_to(&mut model, 2);
    model.add_lines(b"2\tcut\t0\t1\n3\tchange\t0\t1\n4\tor\t0\t2\n").unwrap();
    events_to(&mut model, 4);
    model.event(2).unwrap();
    model.clock(5).unwrap();
    assert_eq!(trees_in(&model, 2), ["<e4,e5>", "<e3,e5>"], "neither e1 nor e2");
    assert_eq!(trees_in(&model, 3), ["<e4,e5>"]);
    assert_eq!(trees_in(&model, 4), ["<e3,_>", "<e4,_>", "<_,<e4,e5>>", "<_,<e3,e5>>"]);
}

/// Two additions, the second over the first: each entry counts from its own instant, which a forget leaves; what starts
/// before both the floor and that, or one of them, is not there.
#[test]
fn forgets_beside_additions() {
    let mut model = opened(&chart("0\tevent\t1\n"), 0);
    events_to(&mut model, 1);
    model.add_lines(b"1\tlasts\t0\t0.0\n").unwrap();
    events_to(&mut model, 3);
    model.add_lines(b"2\tlasts\t1\t0.0\n").unwrap();
    events_to(&mut model, 5);
    let all = ["e1", "e2", "<e2>", "e3", "<e3>", "e4", "<e4>", "<<e4>>", "e5", "<e5>", "<<e5>>"];
    assert_eq!(model.trees(), all);
    for (floor, dropped) in [(1, 1), (2, 3), (3, 5), (4, 8)] {
        model.forget(floor).unwrap();
        assert_eq!(model.trees(), all[dropped..], "after a forget of {floor}");
    }
    assert_eq!(model.since(), [-1_000_000_000, 1, 3]);
}

/// "Fullness" uses "the entry's own instant": of the pairs with e3 one belongs to the table, and four start too early.
#[test]
fn table_full_after_an_addition() {
    for (rows, expected) in [(4, Ok(())), (3, Err(12))] {
        let mut model = Model::open(&chart("0\tevent\t1\n"), rows, Over::EventsFromFloor, 0).unwrap();
        events_to(&mut model, 2);
        model.add_lines(b"1\tand\t0\t0\n").unwrap();
        model.event(1).unwrap();
        assert_eq!(model.clock(3), expected, "a table of {rows} rows");
    }
}

/// "Bad lines, or none, give the chart reader's number and line, counted from the first added line, 2 now being a 33rd
/// entry, and the old chart and watch stay"; in a line "2, 3, 4, 6, 5".
#[test]
fn refused_additions() {
    let events = |from: usize, to: usize| -> String { (from..to).map(|n| format!("{n}\tevent\t1\n")).collect() };
    let refused = |before: usize, lines: &str| {
        let mut model = opened(&chart(&events(0, before)), 0);
        let verdict = model.add_lines(lines.as_bytes()).unwrap_err();
        assert_eq!((model.chart().len(), model.since().len()), (before, before));
        (verdict.refusal, verdict.line)
    };
    for before in [1, 31, 32] {
        assert_eq!(refused(before, ""), (1, 1));
        assert_eq!(refused(before, &events(before, 33)), (2, 33 - before as u32));
        assert_eq!(refused(before, &(events(before, 32) + "x")), (2, 33 - before as u32));
    }
    assert_eq!(refused(2, "2\tevent\t1\n\n"), (3, 2));
    assert_eq!(refused(2, "2\tevent\t1\n3\tevent\t1"), (3, 2));
    assert_eq!(refused(2, "0\tevent\t1\n1\tevent\t1\n"), (4, 1));
    assert_eq!(refused(2, "2\tevent\t1\n2\tevent\t1\n"), (4, 2));
    assert_eq!(refused(2, "3\tafter\t3\t200000000.1\n"), (4, 1));
    assert_eq!(refused(2, "2\tafter\t2\t200000000.1\n"), (6, 1));
    assert_eq!(refused(2, "2\tevent\t256\n"), (6, 1));
    assert_eq!(refused(2, "2\tor\t2\t0\n"), (5, 1));
    assert_eq!(refused(2, "2\tor\t1\t0\n3\tor\t2\t3\n"), (5, 2));
    let mut model = opened(&chart(&events(0, 31)), 0);
    model.add_lines(b"31\tor\t30\t0\n").unwrap();
    assert_eq!(model.add_lines(b""), Err(Verdict { refusal: 1, line: 1 }), "none, with 32 entries there");
}

/// Additions on watches that no history made: "14 and 13, whose line is 0", come first; where one is taken all but the
/// added entries stays, whatever stands behind them.
#[test]
fn additions_on_any_watch() {
    let (given, table) = p1_at_the_end();
    let given = Watch { since: std::array::from_fn(|n| if n < 5 { FIRST_FLOOR } else { 77 }), ..given };
    let mut chart = chart_value::of(&chart(P1));
    chart.entries[6].op = 99;
    let refused = |watch: Watch, chart: Chart, lines: &[u8]| {
        let addition = any_watch::add_lines(&watch, &chart, &table, lines);
        assert_eq!((addition.watch, addition.chart), (watch, chart));
        (addition.refusal, addition.line)
    };
    let out_of_joint = Watch { entries: 4, ..given };
    assert_eq!(refused(out_of_joint, Chart { count: 33, ..chart }, b""), (14, 0));
    assert_eq!(refused(out_of_joint, chart, b""), (13, 0));
    assert_eq!(refused(Watch::empty(0), chart, b"5\tevent\t1\n"), (13, 0), "an empty watch has none");
    assert_eq!(refused(given, chart, b""), (1, 1));
    assert_eq!(refused(given, chart, b"5\tevent\t1\n5\tevent\t1\n"), (4, 2));
    let addition = any_watch::add_lines(&given, &chart, &table, b"5\tcut\t4\t3\n");
    assert_eq!((addition.refusal, addition.line), (0, 0));
    assert_eq!((addition.watch.entries, addition.watch.since[4..7].to_vec()), (6, vec![FIRST_FLOOR, 4, 77]));
    let entry = addition.chart.entries[5];
    assert_eq!((addition.chart.count, entry.op, entry.a, entry.b), (6, 18, 4, 3));
    assert_eq!(addition.chart.entries[6], chart.entries[6]);
}

/// On a table that no history made, entry 2 counting from 3: of its pairs with e3 those that start at 2 are not made,
/// and count for nothing where the table is full.
#[test]
fn added_entries_on_any_table() {
    let chart = chart_value::of(&chart("0\tevent\t1\n1\tor\t0\t0\n2\tand\t0\t0\n"));
    let rows = [[0, 1, -1, 2, 2], [0, 2, -1, 3, 3], [0, 3, -1, 6, 6], [1, 2, -1, 6, 6], [1, -1, 2, 6, 6]];
    let pairs = [[2, 2, 2, 6, 6], [2, 1, 2, 3, 6], [2, 2, 1, 3, 6]];
    let codes = std::array::from_fn(|place| u8::from(place == 0));
    let since = std::array::from_fn(|place| [FIRST_FLOOR, FIRST_FLOOR, 3].get(place).copied().unwrap_or(-9));
    let watch = Watch { instant: 6, events: 3, rows: 2, pending: 1, codes, entries: 3, since, ..Watch::empty(0) };
    for (held, refusal) in [(8, 0), (7, 12)] {
        let before: Vec<i32> = rows[..2].concat().into_iter().chain([0; 30]).take(held * 5).collect();
        let (answer, after) = any_watch::play(&watch, &chart, &before, Call::Clock(7));
        assert_eq!((answer.refusal, answer.watch.since), (refusal, since), "a table of {held} rows");
        assert_eq!(after, if refusal == 0 { [rows.concat(), pairs.concat()].concat() } else { before });
    }
}

/// "10 an event after serial 1,000,000", checked "10 before 9".
#[test]
fn serials_run_out() {
    let chart = chart("0\tevent\t1\n");
    let mut model = opened(&chart, 0);
    for serial in 1..=MOST_EVENTS {
        model.event(2).unwrap();
        if serial % MOST_PENDING == 0 && serial < MOST_EVENTS {
            assert_eq!(model.event(2), Err(9));
            let mark = (serial / MOST_PENDING) as i64;
            model.clock(mark).unwrap();
            model.forget(mark).unwrap();
        }
    }
    assert_eq!(model.pending().len(), MOST_PENDING, "the last instant is full, so 9 and 10 both apply");
    assert_eq!(model.event(2), Err(10));
}

/// The listing program's table takes 3,000 rows: 54 events, their 54 x 54 pairs and 30 further events. One more is too
/// many, as the example refused-12-3001-rows shows.
#[test]
fn table_takes_3000_rows() {
    let events = |code: u8, count: usize| format!("event\t{code}\n").repeat(count);
    let chart = "0\tevent\t1\n1\tevent\t2\n2\tand\t0\t0\n";
    let input = format!("{chart}\nopen\t0\n{}clock\t1\n{}clock\t2\n", events(1, 54), events(2, 30));
    let printed = listing(input.as_bytes(), TABLE_ROWS, Over::EventsFromFloor);
    assert_eq!(printed.split(|byte| *byte == b'\n').count() - 2, 3_000);
}

/// "The events of a recognition that starts at the floor or later are all at the floor or later, and so are those that
/// could forbid it": events before the floor may be left out.
#[test]
fn events_before_the_floor_change_nothing() {
    let mut random = Random::new(11);
    let (mut listings, mut refused) = (0, [0; 13]);
    for _ in 0..INPUTS {
        let input = random_inputs::any(&mut random);
        let rows = random.pick(&[5, 20, TABLE_ROWS]);
        let printed = listing(&input, rows, Over::AllEvents);
        let from_floor = listing(&input, rows, Over::EventsFromFloor);
        assert_eq!(printed, from_floor, "on the input {}", input.escape_ascii());
        match refusal_of(&printed) {
            None => listings += usize::from(contains(&input, b"forget")),
            Some(number) => refused[number] += 1,
        }
    }
    assert!(listings > 1_000, "only {listings} listings after a forget");
    assert!([8, 11, 12].iter().all(|number| refused[*number] > 100), "too few refusals: {refused:?}");
}

/// The same of the instants from which added entries count: recognitions of an entry that start before its instant may
/// be left out, and the same rows come out as by the definition to the letter.
#[test]
fn what_starts_before_an_addition_changes_nothing() {
    let mut random = Random::new(15);
    let (mut additions, mut refused) = ([0; 2], [0; 13]);
    for _ in 0..HISTORIES {
        let (chart, rows, instant) = (any_chart(&mut random), random.pick(&[5, 20, 500]), random.between(-5, 5).into());
        let open = |over: Over| Model::open(&chart, rows, over, instant).unwrap();
        let (mut by_letter, mut from_floor) = (open(Over::AllEvents), open(Over::EventsFromFloor));
        for _ in 0..random.below(25) {
            let (lines, call) = any_step(&mut random, from_floor.chart(), from_floor.open_instant as i32);
            if let Some(lines) = lines {
                assert_eq!(by_letter.add_lines(&lines), from_floor.add_lines(&lines));
                additions[usize::from(from_floor.floor > FIRST_FLOOR.into())] += 1;
            }
            let answer = by_letter.play(call);
            assert_eq!(answer, from_floor.play(call), "{call:?} on {chart:?}");
            refused[answer.err().unwrap_or(0) as usize] += 1;
            assert_eq!(by_letter.rows(), from_floor.rows(), "after {call:?} on {chart:?}");
            assert_eq!(by_letter.trees(), from_floor.trees(), "after {call:?} on {chart:?}");
        }
    }
    assert!(additions.iter().all(|count| *count > 1_000), "{additions:?} additions before and after a forget");
    assert!([8, 11, 12].iter().all(|number| refused[*number] > 100), "too few refusals: {refused:?}");
}

/// A call, and now and then lines to be added before it, most of them sound.
fn any_step(random: &mut Random, chart: &[Entry], instant: i32) -> (Option<Vec<u8>>, Call) {
    let count = (1 + random.below(3)).min(32 - chart.len());
    let lines = random.one_in(8).then(|| match random.below(4) {
        0 => random_charts::any_more(random, chart.len()),
        _ => random_inputs::more_lines(random, chart, count, 3).into_bytes(),
    });
    (lines, any_call(random, instant))
}

/// The rows stand strictly in the order of rows, and refer to earlier ones.
#[test]
fn rows_stand_in_order() {
    let mut random = Random::new(12);
    let mut neighbours = [0; 2];
    for _ in 0..INPUTS {
        let input = random_inputs::any(&mut random);
        let chart_end = input.windows(2).position(|pair| pair == b"\n\n").expect("an empty line ends the chart") + 1;
        let chart = plain_chart::read(&input[..chart_end]).expect("the chart is sound");
        let rows = rows_printed(&listing(&input, TABLE_ROWS, Over::EventsFromFloor));
        assert!(rows.is_sorted_by(|one, next| key(&chart, one) < key(&chart, next)), "{}", input.escape_ascii());
        for (number, row) in rows.iter().enumerate() {
            let is_event = chart[row.entry].operator == Operator::Event;
            assert!(is_event || (row.left < number as i64 && row.right < number as i64), "{}", input.escape_ascii());
        }
        let of_one_block = |pair: &&[Row]| (pair[0].end, pair[0].entry) == (pair[1].end, pair[1].entry);
        for pair in rows.windows(2).filter(of_one_block) {
            neighbours[usize::from(pair[0].start == pair[1].start)] += 1;
        }
    }
    let [by_start, by_parts] = neighbours;
    assert!(by_start > 1_000 && by_parts > 1_000, "{by_start} neighbours stand by start, {by_parts} by their parts");
}

/// A step on the rows of a table gives what the recognitions over all events give, and every history is consistent.
#[test]
fn steps_on_rows_follow_the_recognitions() {
    let mut random = Random::new(13);
    for _ in 0..HISTORIES {
        let chart = any_chart(&mut random);
        let mut value = chart_value::of(&chart);
        let table = vec![7; random.below(400)];
        let mut history = History::open(&chart, &table, random.between(-5, 5), 0).unwrap();
        let (answer, opened) = any_watch::open(&value, &table, history.watch.instant);
        assert_eq!((answer.watch, opened), (history.watch, history.table.clone()));
        for _ in 0..random.below(30) {
            let (lines, call) = any_step(&mut random, history.chart(), history.watch.instant);
            if let Some(lines) = lines {
                let addition = any_watch::add_lines(&history.watch, &value, &history.table, &lines);
                let before = (history.rows.clone(), history.table.clone());
                let verdict = history.add_lines(&lines).err().unwrap_or(plain_chart::TAKEN);
                assert_eq!((addition.refusal, addition.line), (verdict.refusal, verdict.line));
                assert_eq!((addition.watch, addition.chart), (history.watch, chart_value::of(history.chart())));
                assert_eq!((&history.rows, &history.table), (&before.0, &before.1), "existing rows are unchanged");
                value = addition.chart;
            }
            let (answer, table) = any_watch::play(&history.watch, &value, &history.table, call);
            let refusal = history.play(call).err().unwrap_or(0);
            assert_eq!((answer.refusal, answer.watch), (refusal, history.watch), "{call:?} on {chart:?}");
            assert_eq!(table, history.table, "{call:?} on {chart:?}");
            let row = random.below(40);
            let tree = any_watch::tree(&history.watch, &value, &history.table, row, 20);
            assert_eq!(tree, history.tree(row, 20), "the tree of row {row} on {chart:?}");
            let report = any_watch::report(&history.watch, &value, &history.table);
            assert_eq!(report, history.report(), "the report on {chart:?}");
            assert_eq!(report.tallies.iter().sum::<usize>(), history.rows.len(), "the sum of the lines");
        }
    }
}

/// "A clock mark t closes every instant from the open one to t-1": on what a history left, and with its open instant
/// moved, one mark does what a mark at each instant does.
#[test]
fn a_jump_closes_instant_by_instant() {
    let mut random = Random::new(14);
    let mut jumps = [0; 3];
    for _ in 0..HISTORIES {
        let entries = any_chart(&mut random);
        let mut history = History::open(&entries, &vec![0; random.below(400)], random.between(-5, 5), 0).unwrap();
        for _ in 0..random.below(30) {
            let _ = history.play(any_call(&mut random, history.watch.instant));
        }
        let last_end = history.rows.last().map_or(history.watch.instant - 1, |row| row.end as i32);
        let instant = random.between(last_end.max(history.watch.floor - 1) + 1, history.watch.instant);
        let watch = Watch { instant, ..history.watch };
        let (chart, mark) = (chart_value::of(&entries), instant + 1 + random.below(30) as i32);
        let jump = any_watch::play(&watch, &chart, &history.table, Call::Clock(mark.into()));
        let expected = match marks_at_each_instant(watch, &chart, &history.table, mark) {
            (Answer { refusal: 0, watch }, table) => (Answer { refusal: 0, watch }, table),
            // A mark that is refused leaves what was there before it.
            (Answer { refusal, .. }, _) => (Answer { refusal, watch }, history.table.clone()),
        };
        assert_eq!(jump, expected, "{entries:?}");
        jumps[ends_from(&jump, instant + 1).min(2)] += 1;
    }
    assert!(jumps.iter().all(|count| *count > 300), "too few jumps over 0, 1 and many ends: {jumps:?}");
}

/// What marks at each instant up to the last leave, or the first that is refused.
fn marks_at_each_instant(mut watch: Watch, chart: &Chart, table: &[i32], last: i32) -> any_watch::Outcome {
    let mut table = table.to_vec();
    for mark in watch.instant + 1..=last {
        let (answer, after) = any_watch::play(&watch, chart, &table, Call::Clock(mark.into()));
        if answer.refusal != 0 {
            return (answer, after);
        }
        (watch, table) = (answer.watch, after);
    }
    (Answer { refusal: 0, watch }, table)
}

/// How many different ends from an instant on the rows of a table have.
fn ends_from((answer, table): &any_watch::Outcome, instant: i32) -> usize {
    let ends = table[..answer.watch.rows * 5].chunks(5).map(|row| row[4]).filter(|end| *end >= instant);
    ends.collect::<BTreeSet<i32>>().len()
}

fn any_chart(random: &mut Random) -> Vec<Entry> {
    let operators = random.below(8);
    let draw = random.pick(&[random_inputs::chart, random_inputs::delay_chart, random_inputs::nearest_chart]);
    chart(&draw(random, operators, 3))
}

fn any_call(random: &mut Random, instant: i32) -> Call {
    match random.below(12) {
        0 => Call::Forget(random.between(instant - 8, instant + 1).into()),
        1..=3 => Call::Clock(random.between(instant, instant + 3).into()),
        4 => Call::Clock(random.between(instant, instant + 20).into()),
        _ => Call::Event(random.between(1, 4) as u8),
    }
}

/// The table of P1 after its last line, with room for a row more and two numbers after that.
fn p1_at_the_end() -> (Watch, Vec<i32>) {
    let rows = [
        [0, 1, -1, -2, -2],
        [1, 2, -1, 0, 0],
        [3, 0, 1, -2, 0],
        [4, 2, -1, -2, 0],
        [1, 4, -1, 3, 3],
        [2, 3, -1, 3, 3],
        [3, 0, 4, -2, 3],
        [4, 6, -1, -2, 3],
        [0; 5],
    ];
    let table = rows.concat().into_iter().chain([8, 9]).collect();
    (Watch { instant: 4, events: 4, rows: 8, ..Watch::opened(0, 5) }, table)
}

/// "Entry and number of rows": P1 has an event of code 1, two of code 2, one of code 3, two pairs and two absences. An
/// added entry without rows has 0, pending events are no rows, and unused rows none of entry 0. "Refused (14, 13), the
/// library's report gives only the number."
#[test]
fn reports_of_p1() {
    let ((watch, table), chart) = (p1_at_the_end(), chart_value::of(&chart(P1)));
    let report = |watch: &Watch, chart: &Chart| any_watch::report(watch, chart, &table);
    let tallies = std::array::from_fn(|entry| [1, 2, 1, 2, 2].get(entry).copied().unwrap_or(0));
    let expected = Report { refusal: 0, entries: 5, rows: 8, read: 8, tallies };
    assert_eq!(report(&watch, &chart), expected);
    assert_eq!(report(&Watch { pending: 1, ..watch }, &chart), expected);
    let added = any_watch::add_lines(&watch, &chart, &table, b"5\tevent\t1\n");
    assert_eq!(report(&added.watch, &added.chart), Report { entries: 6, ..expected });
    let (opened, empty) = any_watch::open(&chart, &table, 0);
    let no_rows = Report { refusal: 0, entries: 5, rows: 0, read: 0, tallies: [0; 32] };
    assert_eq!(any_watch::report(&opened.watch, &chart, &empty), no_rows);
    let out_of_joint = Watch { rows: 7, ..watch };
    assert_eq!(report(&out_of_joint, &chart), Report::refused(13));
    assert_eq!(report(&out_of_joint, &Chart { count: 33, ..chart }), Report::refused(14));
}

/// Each cause of "out of joint" by itself, and changes that are none.
#[test]
fn each_cause_of_13() {
    let (watch, table) = p1_at_the_end();
    let causes_of = |watch: Watch, table: &[i32]| Vec::from_iter(consistency::causes(&watch, &chart(P1), table));
    let with = |numbers: &[(usize, i32)]| {
        let mut changed = table.clone();
        numbers.iter().for_each(|(place, number)| changed[*place] = *number);
        causes_of(watch, &changed)
    };
    let pending = |pending: usize, events: usize| causes_of(Watch { pending, events, ..watch }, &table);
    let only = |cause: Cause| vec![cause];
    let none: Vec<Cause> = vec![];
    assert_eq!(causes_of(watch, &table), none);
    assert_eq!(with(&[(45, 0)]), none, "a number after the last row");
    assert_eq!(with(&[(26, 1)]), none, "a serial that another row has too");
    assert_eq!(pending(64, 64), none);
    assert_eq!(pending(0, 1_000_000), none);
    assert_eq!(causes_of(Watch { floor: -2, ..watch }, &table), none);

    assert_eq!(causes_of(Watch { instant: 1_000_000_001, ..watch }, &table), only(Cause::OpenInstantOutOfRange));
    assert_eq!(causes_of(Watch { floor: -1_000_000_001, ..watch }, &table), only(Cause::FloorOutOfRange));
    let empty = Watch { rows: 0, floor: 5, ..watch };
    assert_eq!(causes_of(empty, &[0; 45]), only(Cause::FloorAboveOpenInstant));
    assert_eq!(pending(65, 65), only(Cause::Over64Pending));
    assert_eq!(pending(5, 4), only(Cause::MorePendingThanCounted));
    assert_eq!(pending(0, 1_000_001), only(Cause::CountAboveAMillion));
    assert_eq!(causes_of(watch, &table[..39]), only(Cause::MoreRowsThanFit));
    assert_eq!(with(&[(44, 1)]), only(Cause::UnusedRowNotZeros));
    assert_eq!(causes_of(Watch { rows: 7, ..watch }, &table), only(Cause::UnusedRowNotZeros));
    assert_eq!(with(&[(25, 5)]), only(Cause::EntryNotInChart));
    assert_eq!(with(&[(25, -1)]), only(Cause::EntryNotInChart));
    assert_eq!(causes_of(Watch { floor: -1, ..watch }, &table), only(Cause::StartBelowFloor));
    assert_eq!(causes_of(Watch { instant: 3, ..watch }, &table), only(Cause::EndNotBeforeOpenInstant));
    assert_eq!(with(&[(28, 2), (29, 2)]), only(Cause::EndBeforePredecessors));
    assert_eq!(with(&[(36, 7)]), only(Cause::ReferenceNotLowerRowOfOperand), "its own number");
    assert_eq!(with(&[(36, 5)]), only(Cause::ReferenceNotLowerRowOfOperand), "a row of another entry");
    assert_eq!(with(&[(36, -2)]), only(Cause::ReferenceNotLowerRowOfOperand), "no row");
    assert_eq!(with(&[(36, -1)]), only(Cause::NoneMisplaced));
    assert_eq!(with(&[(37, 6)]), only(Cause::NoneMisplaced));
    assert_eq!(with(&[(27, 0)]), only(Cause::NoneMisplaced));
    assert_eq!(with(&[(38, -1)]), only(Cause::StartDisagrees));
    assert_eq!(with(&[(19, 1)]), only(Cause::EndDisagrees));
    assert_eq!(
        with(&[(3, 1), (4, 1), (8, 1), (9, 1), (13, 1), (14, 1), (18, 1), (19, 1), (33, 1), (38, 1)]),
        only(Cause::ConditionDisagrees),
        "row 2 pairs two events of one instant"
    );
    assert_eq!(with(&[(26, 0)]), only(Cause::SerialOutOfRange));
    assert_eq!(with(&[(26, 5)]), only(Cause::SerialOutOfRange));
    assert_eq!(with(&[(28, 2)]), only(Cause::EventStartNotEnd));
    assert_eq!(CAUSES.len(), 19 + 5, "each cause has its example above, those of entries' instants below");
}

/// Each cause that request N13 adds. Entry 4 counts from -2, the start of its rows; the places behind it are not looked
/// at.
#[test]
fn each_cause_of_13_in_entries() {
    let (watch, table) = p1_at_the_end();
    let causes_of = |entries: usize, instants: &[i32]| {
        let mut changed = Watch { entries, ..watch };
        changed.since[..instants.len()].copy_from_slice(instants);
        Vec::from_iter(consistency::causes(&changed, &chart(P1), &table))
    };
    let none: Vec<Cause> = vec![];
    let floor = FIRST_FLOOR;
    assert_eq!(causes_of(5, &[floor, floor, floor, floor, -2]), none);
    assert_eq!(causes_of(5, &[-2, -2, -2, -2, -2, 5, i32::MIN]), none, "behind the entries");
    assert_eq!(causes_of(5, &[-2, 0, 0, 0, 4, -7]), [Cause::StartBeforeEntryInstant], "the open instant itself");
    assert_eq!(causes_of(5, &[floor, floor, floor, floor, -1]), [Cause::StartBeforeEntryInstant]);
    assert_eq!(causes_of(5, &[-1, 0, 0, 0, 0]), [Cause::StartBeforeEntryInstant]);
    for entries in [0, 4, 6, 32, 33, usize::MAX] {
        assert_eq!(causes_of(entries, &[]), [Cause::EntriesNotAsInChart], "{entries} entries");
    }
    assert_eq!(causes_of(5, &[floor - 1, floor, floor, floor, floor]), [Cause::EntryInstantBelowRange]);
    assert_eq!(causes_of(5, &[floor, floor, -2, -3, -2]), [Cause::EntryInstantFalls]);
    let opened = Watch { instant: 4, entries: 5, since: [5; 32], ..Watch::empty(0) };
    assert_eq!(Vec::from_iter(consistency::causes(&opened, &chart(P1), &[])), [Cause::EntryInstantAboveOpen]);
}

/// A delayed row by itself out of joint, for each number of it: "left r, right -1, the same start and end = end r + d".
#[test]
fn each_cause_of_13_in_a_delay() {
    let chart = chart("0\tevent\t1\n1\tevent\t2\n2\tafter\t0\t0.5\n3\tafter\t0\t0.0\n");
    let watch = Watch { instant: 9, events: 2, rows: 5, ..Watch::opened(0, 4) };
    let rows = [[0, 1, -1, 0, 0], [3, 0, -1, 0, 0], [1, 2, -1, 1, 1], [2, 0, -1, 0, 5], [0, 1, -1, 5, 5]];
    let causes = |changed: &[(usize, [i32; 5])]| {
        let mut rows = rows;
        changed.iter().for_each(|(place, row)| rows[*place] = *row);
        Vec::from_iter(consistency::causes(&watch, &chart, &rows.concat()))
    };
    let none: Vec<Cause> = vec![];
    assert_eq!(causes(&[]), none);
    assert_eq!(causes(&[(3, [2, 0, -1, 0, 4])]), [Cause::EndDisagrees], "an instant too early");
    assert_eq!(causes(&[(3, [2, 0, -1, 0, 6]), (4, [0, 1, -1, 6, 6])]), [Cause::EndDisagrees], "an instant too late");
    assert_eq!(causes(&[(2, [2, 0, -1, 0, 0])]), [Cause::EndDisagrees], "the end without the delay");
    assert_eq!(causes(&[(3, [3, 0, -1, 0, 5])]), [Cause::EndDisagrees], "the end with another delay");
    assert_eq!(causes(&[(3, [2, 0, -1, 5, 5])]), [Cause::StartDisagrees]);
    assert_eq!(causes(&[(3, [2, 0, -1, -5, 5])]), [Cause::StartDisagrees]);
    assert_eq!(causes(&[(3, [2, 0, 0, 0, 5])]), [Cause::NoneMisplaced]);
    assert_eq!(causes(&[(3, [2, -1, -1, 0, 5])]), [Cause::NoneMisplaced]);
    assert_eq!(causes(&[(3, [2, -1, 0, 0, 5])]), [Cause::NoneMisplaced], "the right arm of or");
    assert_eq!(causes(&[(3, [2, 2, -1, 1, 6]), (4, [0, 1, -1, 6, 6])]), [Cause::ReferenceNotLowerRowOfOperand]);
    assert_eq!(causes(&[(3, [2, 3, -1, 0, 5])]), [Cause::ReferenceNotLowerRowOfOperand], "its own number");
    assert_eq!(causes(&[(3, [3, 4, -1, 5, 5])]), [Cause::ReferenceNotLowerRowOfOperand], "a row behind it");
    assert_eq!(causes(&[(4, [3, 0, -1, 0, 5])]), [Cause::EndDisagrees], "a delay of 0 with another end");
}

/// A row of `cut` or `change` by itself out of joint: "the out-of-joint rule checks only end r < start s", beside
/// references, start and end. Rivals are none of its causes.
#[test]
fn each_cause_of_13_in_a_cut() {
    let chart = chart(OF_EVENTS);
    let watch = Watch { instant: 9, events: 5, rows: 6, ..Watch::opened(0, 4) };
    let events = [[0, 1, -1, 0, 0], [0, 2, -1, 1, 1], [1, 3, -1, 2, 2], [0, 4, -1, 3, 3], [1, 5, -1, 3, 3]];
    for entry in [2, 3] {
        let causes = |[left, right, start, end]: [i32; 4]| {
            let table = [events.concat(), vec![entry, left, right, start, end]].concat();
            Vec::from_iter(consistency::causes(&watch, &chart, &table))
        };
        let none: Vec<Cause> = vec![];
        assert_eq!(causes([1, 4, 1, 3]), none, "a rival of s, at 2");
        assert_eq!(causes([0, 4, 0, 3]), none, "one of r too, at 1");
        assert_eq!(causes([3, 4, 3, 3]), [Cause::ConditionDisagrees], "end r = start s");
        assert_eq!(causes([3, 2, 2, 3]), [Cause::ConditionDisagrees], "end r > start s");
        assert_eq!(causes([1, 4, 0, 3]), [Cause::StartDisagrees]);
        assert_eq!(causes([1, 4, 3, 3]), [Cause::StartDisagrees], "the start of s");
        assert_eq!(causes([1, 4, 1, 4]), [Cause::EndDisagrees]);
        assert_eq!(causes([1, -1, 1, 3]), [Cause::NoneMisplaced]);
        assert_eq!(causes([-1, 4, 3, 3]), [Cause::NoneMisplaced]);
        assert_eq!(causes([4, 1, 1, 3]), [Cause::ReferenceNotLowerRowOfOperand], "the operands exchanged");
        assert_eq!(causes([5, 4, 3, 3]), [Cause::ReferenceNotLowerRowOfOperand], "its own number");
        assert_eq!(causes([1, 5, 1, 3]), [Cause::ReferenceNotLowerRowOfOperand], "its own number");
    }
}

/// Where a row stands among others, read off the row alone: end, entry, the later start first, arm, then serial or left
/// and right row.
fn key(chart: &[Entry], row: &Row) -> (i64, usize, Reverse<i64>, bool, i64, i64) {
    let is_right_arm = chart[row.entry].operator == Operator::Or && row.left == -1;
    (row.end, row.entry, Reverse(row.start), is_right_arm, row.left, row.right)
}

fn rows_printed(printed: &[u8]) -> Vec<Row> {
    let text = std::str::from_utf8(printed).expect("a listing is ASCII");
    if text.starts_with("refused") {
        return Vec::new();
    }
    let row = |line: &str| {
        let fields: Vec<&str> = line.split('\t').collect();
        let number = |place: usize| fields[place].parse().unwrap();
        let instant = |place: usize| paper::instant(fields[place].as_bytes()).unwrap();
        Row { entry: number(1) as usize, left: number(2), right: number(3), start: instant(4), end: instant(5) }
    };
    text.lines().skip(1).map(row).collect()
}

fn refusal_of(printed: &[u8]) -> Option<usize> {
    let rest = printed.strip_prefix(b"refused\t")?;
    let number = rest.split(|byte| *byte == b'\t').next()?;
    std::str::from_utf8(number).ok()?.parse().ok()
}

fn contains(text: &[u8], word: &[u8]) -> bool {
    text.windows(word.len()).any(|part| part == word)
}
