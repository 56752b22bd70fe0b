//! Listing programs that are wrong on purpose. The comparison must find each of them, or it could not find a fault in
//! the proved one.

use crate::comparison::{list_all, Listing};
use crate::printed::refusal;
use common::careless::{with_last_byte, without_carriage_returns};
use common::harness::Named;
use common::paper::{self, instant, lines, spelled};

pub const ALL: [Named<Listing>; 45] = [
    ("line number one too high in the log", |i, n| log_line_moved(i, n, 1)),
    ("empty line not counted", |i, n| log_line_moved(i, n, -1)),
    ("log lines counted from the log's first", counted_from_log),
    ("lines counted from 0", |i, n| renumbered(i, n, |_, number, line| (number, line - 1))),
    ("refused at the last line", |i, n| renumbered(i, n, at_last_line)),
    ("a missing log refused at the last line", |i, n| renumbered(i, n, not_past_the_end)),
    ("a full table refused one line early", |i, n| renumbered(i, n, full_one_early)),
    ("sign lost", |i, n| with_instants(i, n, |field| field.replace('-', ""))),
    ("no reference printed as 0", no_reference_as_0),
    ("listing after a refusal", listing_after_refusal),
    ("listing in the place of a refusal", listing_for_refusal),
    ("a refused line skipped", refused_line_skipped),
    ("empty lines in the log skipped", empty_log_lines_skipped),
    ("a last line taken without byte 10", |i, n| list_all(&with_last_byte(i), n)),
    ("carriage returns skipped", |i, n| list_all(&without_carriage_returns(i), n)),
    ("10 digits refused with 8 or 11", |i, n| renumbered(i, n, ten_digits_out_of_range)),
    ("9 digits refused with 7", |i, n| renumbered(i, n, nine_digits_malformed)),
    ("a forget out of range refused with 8", |i, n| renumbered(i, n, forget_as_mark)),
    ("a chart without an empty line not looked at", unparted_chart_not_read),
    ("one row less than the table holds", |i, n| list_all(i, n.saturating_sub(1))),
    ("one row more than the table holds", |i, n| list_all(i, n + 1)),
    ("after not known", |i, n| list_all(&with_word(i, b"after", b"later"), n)),
    ("after taken for a length test", |i, n| list_all(&with_word(i, b"after", b"atleast"), n)),
    ("cut not known", |i, n| list_all(&with_word(i, b"cut", b"!"), n)),
    ("change not known", |i, n| list_all(&with_word(i, b"change", b"!!"), n)),
    ("cut taken for seq", |i, n| list_all(&with_word(i, b"cut", b"seq"), n)),
    ("change taken for cut", |i, n| list_all(&with_word(i, b"change", b"cut"), n)),
    ("cut taken for change", |i, n| list_all(&with_word(i, b"cut", b"change"), n)),
    ("start printed without its tenth", |i, n| with_column(i, n, START, without_tenth)),
    ("end printed without its tenth", |i, n| with_column(i, n, START + 1, without_tenth)),
    ("a tenth of 0 not printed", |i, n| with_instants(i, n, without_tenth_of_0)),
    ("instants printed in tenths", |i, n| with_instants(i, n, |field| in_tenths(field).to_string())),
    ("-0.5 printed as 0.5", |i, n| with_instants(i, n, |field| field.replace("-0.", "0."))),
    ("-0.5 printed as -.5", |i, n| with_instants(i, n, |field| field.replace("-0.", "-."))),
    ("-2.5 printed as -3.5", |i, n| with_instants(i, n, rounded_down)),
    ("instants without a point read in tenths", |i, n| list_all(&with_read_instants(i, whole_as_tenths), n)),
    ("lengths without a point read in tenths", |i, n| list_all(&with_read_lengths(i, whole_as_tenths), n)),
    ("the tenth of an instant not read", |i, n| list_all(&with_read_instants(i, tenth_as_0), n)),
    ("the tenth of a length not read", |i, n| list_all(&with_read_lengths(i, tenth_as_0), n)),
    ("the tenth of -1.5 added to -1", |i, n| list_all(&with_read_instants(i, tenth_added), n)),
    ("-0.0 taken", |i, n| list_all(&with_read_instants(i, minus_zero_as_0), n)),
    ("a comma taken for a point", |i, n| list_all(&with_read_instants(i, comma_as_point), n)),
    ("two digits after the point taken", |i, n| list_all(&with_read_instants(i, second_digit_left_out), n)),
    ("one fixed listing", |_, _| b"row\tentry\tleft\tright\tstart\tend\n".to_vec()),
    ("everything refused", |_, _| b"refused\t7\t1\n".to_vec()),
];

/// The columns of start and end are this and the next.
const START: usize = 4;

fn refused(number: u32, line: i64) -> Vec<u8> {
    format!("refused\t{number}\t{line}\n").into_bytes()
}

/// The right output, but for what `change` makes of a refusal of the input's lines.
fn renumbered(input: &[u8], rows: usize, change: fn(&[&[u8]], u32, i64) -> (u32, i64)) -> Vec<u8> {
    let printed = list_all(input, rows);
    match refusal(&printed) {
        Some((number, line)) => {
            let (number, line) = change(&lines(input).collect::<Vec<_>>(), number, line);
            refused(number, line)
        }
        None => printed,
    }
}

fn log_line_moved(input: &[u8], rows: usize, by: i64) -> Vec<u8> {
    let printed = list_all(input, rows);
    match refusal(&printed) {
        Some((number, line)) if number > 6 => refused(number, line + by),
        _ => printed,
    }
}

fn counted_from_log(input: &[u8], rows: usize) -> Vec<u8> {
    let before_log = lines(input).position(|line| line == b"\n").map_or(0, |place| place as i64 + 1);
    log_line_moved(input, rows, -before_log)
}

fn at_last_line(lines: &[&[u8]], number: u32, _: i64) -> (u32, i64) {
    (number, lines.len() as i64)
}

fn not_past_the_end(lines: &[&[u8]], number: u32, line: i64) -> (u32, i64) {
    (number, line.min(lines.len() as i64))
}

fn full_one_early(_: &[&[u8]], number: u32, line: i64) -> (u32, i64) {
    (number, if number == 12 { line - 1 } else { line })
}

fn line_at<'a>(lines: &[&'a [u8]], line: i64) -> &'a [u8] {
    lines.get(line as usize - 1).copied().unwrap_or_default()
}

/// The last field of a line, without a minus.
fn digits_of(line: &[u8]) -> &[u8] {
    let field = line.trim_ascii_end().rsplit(|byte| *byte == b'\t').next().unwrap_or_default();
    field.strip_prefix(b"-").unwrap_or(field)
}

fn ten_digits_out_of_range(lines: &[&[u8]], number: u32, line: i64) -> (u32, i64) {
    let text = line_at(lines, line);
    let is_number = digits_of(text).len() == 10 && paper::number(digits_of(text)).is_some();
    let is_at = |word: &[u8]| is_number && text.starts_with(word) && text.ends_with(b"\n");
    match number {
        7 if is_at(b"clock\t") => (8, line),
        7 if is_at(b"forget\t") => (11, line),
        _ => (number, line),
    }
}

fn nine_digits_malformed(lines: &[&[u8]], number: u32, line: i64) -> (u32, i64) {
    let is_long = digits_of(line_at(lines, line)).iter().take_while(|byte| byte.is_ascii_digit()).count() == 9;
    (if (number == 8 || number == 11) && is_long { 7 } else { number }, line)
}

fn forget_as_mark(lines: &[&[u8]], number: u32, line: i64) -> (u32, i64) {
    let tenths = instant(digits_of(line_at(lines, line)));
    (if number == 11 && tenths.is_some_and(|tenths| tenths > 1_000_000_000) { 8 } else { number }, line)
}

/// The right output, but for what `change` makes of the fields in some columns of each row.
fn with_fields(input: &[u8], rows: usize, is_changed: impl Fn(usize) -> bool, change: fn(&str) -> String) -> Vec<u8> {
    let printed = list_all(input, rows);
    if refusal(&printed).is_some() {
        return printed;
    }
    let text = String::from_utf8(printed).expect("the output is ASCII");
    let (header, listed) = text.split_at(text.find('\n').map_or(0, |place| place + 1));
    let field = |(column, field): (usize, &str)| if is_changed(column) { change(field) } else { field.to_string() };
    let line = |line: &str| line.split('\t').enumerate().map(field).collect::<Vec<_>>().join("\t") + "\n";
    (header.to_string() + &listed.lines().map(line).collect::<String>()).into_bytes()
}

fn with_column(input: &[u8], rows: usize, column: usize, change: fn(&str) -> String) -> Vec<u8> {
    with_fields(input, rows, |place| place == column, change)
}

/// The same of start and end.
fn with_instants(input: &[u8], rows: usize, change: fn(&str) -> String) -> Vec<u8> {
    with_fields(input, rows, |place| place >= START, change)
}

fn in_tenths(field: &str) -> i64 {
    instant(field.as_bytes()).expect("the plain program prints instants")
}

fn without_tenth(field: &str) -> String {
    field[..field.len() - 2].to_string()
}

fn without_tenth_of_0(field: &str) -> String {
    field.strip_suffix(".0").unwrap_or(field).to_string()
}

/// The whole part rounded down and not towards 0.
fn rounded_down(field: &str) -> String {
    let tenths = in_tenths(field);
    format!("{}.{}", tenths.div_euclid(10), tenths.abs() % 10)
}

fn no_reference_as_0(input: &[u8], rows: usize) -> Vec<u8> {
    let printed = String::from_utf8(list_all(input, rows)).expect("the output is ASCII");
    printed.replace("\t-1\t", "\t0\t").into_bytes()
}

/// The table as the lines before the refused one leave it.
fn table_before(input: &[u8], rows: usize, line: i64) -> Vec<u8> {
    let before: Vec<&[u8]> = lines(input).take(line as usize - 1).collect();
    list_all(&before.concat(), rows)
}

fn listing_after_refusal(input: &[u8], rows: usize) -> Vec<u8> {
    let printed = list_all(input, rows);
    match refusal(&printed) {
        Some((7.., line)) => [printed, table_before(input, rows, line)].concat(),
        _ => printed,
    }
}

fn listing_for_refusal(input: &[u8], rows: usize) -> Vec<u8> {
    let printed = list_all(input, rows);
    match refusal(&printed) {
        Some((8.., line)) => table_before(input, rows, line),
        _ => printed,
    }
}

fn refused_line_skipped(input: &[u8], rows: usize) -> Vec<u8> {
    let printed = list_all(input, rows);
    match refusal(&printed) {
        Some((9.., line)) => {
            let mut lines: Vec<&[u8]> = lines(input).collect();
            lines.remove(line as usize - 1);
            list_all(&lines.concat(), rows)
        }
        _ => printed,
    }
}

fn empty_log_lines_skipped(input: &[u8], rows: usize) -> Vec<u8> {
    let mut lines: Vec<&[u8]> = lines(input).collect();
    if let Some(parting) = lines.iter().position(|line| *line == b"\n") {
        let log = lines.split_off(parting + 1);
        lines.extend(log.into_iter().filter(|line| *line != b"\n"));
    }
    list_all(&lines.concat(), rows)
}

/// The input with another word in the place of one, wherever it is a field.
fn with_word(input: &[u8], word: &[u8], other: &[u8]) -> Vec<u8> {
    let field = |field: &[u8]| if field == word { other.to_vec() } else { field.to_vec() };
    input.split(|byte| *byte == b'\t').map(field).collect::<Vec<_>>().join(&b'\t')
}

/// The input as a program takes it that reads the instants of a log otherwise.
fn with_read_instants(input: &[u8], change: fn(&[u8]) -> Option<Vec<u8>>) -> Vec<u8> {
    with_read(input, |fields| matches!(fields, [b"open" | b"clock" | b"forget", _]), change)
}

/// The same of the lengths of a chart.
fn with_read_lengths(input: &[u8], change: fn(&[u8]) -> Option<Vec<u8>>) -> Vec<u8> {
    let is_length = |fields: &[&[u8]]| matches!(fields, [_, b"lasts" | b"atmost" | b"atleast" | b"after", _, _]);
    with_read(input, is_length, change)
}

/// The last field changed in such lines, where `change` makes something of it.
fn with_read(input: &[u8], is_such: fn(&[&[u8]]) -> bool, change: fn(&[u8]) -> Option<Vec<u8>>) -> Vec<u8> {
    let read = |line: &[u8]| -> Option<Vec<u8>> {
        let fields: Vec<&[u8]> = paper::fields(line)?.collect();
        let (last, others) = fields.split_last().filter(|_| is_such(&fields))?;
        Some([others.join(&b'\t'), b"\t".to_vec(), change(last)?, b"\n".to_vec()].concat())
    };
    lines(input).flat_map(|line| read(line).unwrap_or_else(|| line.to_vec())).collect()
}

/// The tenths of a sound field.
fn read_tenths(field: &[u8], change: fn(i64) -> i64) -> Option<Vec<u8>> {
    instant(field).map(|tenths| spelled(change(tenths)).into_bytes())
}

fn whole_as_tenths(field: &[u8]) -> Option<Vec<u8>> {
    if field.contains(&b'.') {
        return None;
    }
    read_tenths(field, |tenths| tenths / 10)
}

fn tenth_as_0(field: &[u8]) -> Option<Vec<u8>> {
    read_tenths(field, |tenths| tenths - tenths % 10)
}

/// The digit after the point taken for one towards later instants, whatever the sign.
fn tenth_added(field: &[u8]) -> Option<Vec<u8>> {
    read_tenths(field, |tenths| tenths - tenths % 10 + (tenths % 10).abs())
}

fn minus_zero_as_0(field: &[u8]) -> Option<Vec<u8>> {
    (field == b"-0.0").then(|| b"0".to_vec())
}

fn comma_as_point(field: &[u8]) -> Option<Vec<u8>> {
    Some(field.iter().map(|byte| if *byte == b',' { b'.' } else { *byte }).collect())
}

fn second_digit_left_out(field: &[u8]) -> Option<Vec<u8>> {
    let is_longer = matches!(field, [.., b'.', b'0'..=b'9', b'0'..=b'9']);
    is_longer.then(|| field[..field.len() - 1].to_vec())
}

/// 7 past the last line wherever there is no empty line.
fn unparted_chart_not_read(input: &[u8], rows: usize) -> Vec<u8> {
    let count = lines(input).count() as i64;
    if count == 0 || lines(input).any(|line| line == b"\n") {
        list_all(input, rows)
    } else {
        refused(7, count + 1)
    }
}
