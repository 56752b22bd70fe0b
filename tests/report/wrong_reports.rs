//! Report programs that are wrong on purpose. The comparison must find each of them, or it could not find a fault in the
//! proved one.

use crate::comparison::list_all;
use crate::printed::{numbers_of, refusal};
use common::harness::Named;
use common::paper::lines;

/// What a program prints for an input on a table of so many rows.
pub type Report = fn(&[u8], usize) -> Vec<u8>;

/// The counts of the entries, each after its name, and the total.
type Counts = Vec<(String, usize)>;

pub const ALL: [Named<Report>; 17] = [
    ("a row of the last entry not counted", |i, n| altered(i, n, last_row_not_counted)),
    ("a row too many of the first entry", |i, n| altered(i, n, |counts| counts[0].1 += 1)),
    ("the total without the first entry's rows", |i, n| altered(i, n, total_without_first)),
    ("the total without the last row", |i, n| altered(i, n, total_without_last_row)),
    ("entries without rows left out", |i, n| altered(i, n, entries_without_rows_left_out)),
    ("the 32nd entry left out", |i, n| altered(i, n, most_entries_left_out)),
    ("entries counted from 1", |i, n| altered(i, n, entries_from_1)),
    ("entries in the order of their digits", |i, n| altered(i, n, by_digits)),
    ("the total before the entries", |i, n| altered(i, n, |counts| counts.rotate_right(1))),
    ("no total", |i, n| altered(i, n, |counts| drop(counts.pop()))),
    ("rows counted in one byte", |i, n| altered(i, n, in_one_byte)),
    ("a space in the place of a tab", |i, n| with_spaces(&plain_report(i, n))),
    ("the last byte 10 missing", last_byte_missing),
    ("the line of a refusal one too high", refusal_moved),
    ("a report in the place of a refusal", report_for_refusal),
    ("rows counted before the last mark", |i, n| plain_report(&without_last_mark(i), n)),
    ("forgotten rows counted", |i, n| plain_report(&without_forgets(i), n)),
];

/// The right report, from the listing of the plain program.
pub fn plain_report(input: &[u8], table_rows: usize) -> Vec<u8> {
    altered(input, table_rows, |_| ())
}

/// The right report, but for what `alter` makes of its counts.
fn altered(input: &[u8], table_rows: usize, alter: fn(&mut Counts)) -> Vec<u8> {
    let listing = list_all(input, table_rows);
    if refusal(&listing).is_some() {
        return listing;
    }
    let mut counts = counts(input, &listing);
    alter(&mut counts);
    counts.iter().map(|(name, count)| format!("{name}\t{count}\n")).collect::<String>().into_bytes()
}

fn counts(input: &[u8], listing: &[u8]) -> Counts {
    let entries = lines(input).position(|line| line == b"\n").expect("a log is behind an empty line");
    let mut counts: Counts = (0..entries).map(|entry| (entry.to_string(), 0)).collect();
    let numbers = numbers_of(listing).expect("the plain program prints numbers");
    numbers.chunks(5).for_each(|row| counts[row[0] as usize].1 += 1);
    counts.push(("total".to_string(), numbers.len() / 5));
    counts
}

fn last_row_not_counted(counts: &mut Counts) {
    let last = counts.len() - 2;
    counts[last].1 = counts[last].1.saturating_sub(1);
}

fn total_without_first(counts: &mut Counts) {
    let (first, total) = (counts[0].1, counts.len() - 1);
    counts[total].1 -= first;
}

fn total_without_last_row(counts: &mut Counts) {
    let total = counts.len() - 1;
    counts[total].1 = counts[total].1.saturating_sub(1);
}

fn entries_without_rows_left_out(counts: &mut Counts) {
    counts.retain(|(name, count)| name == "total" || *count > 0);
}

fn most_entries_left_out(counts: &mut Counts) {
    counts.retain(|(name, _)| name != "31");
}

fn entries_from_1(counts: &mut Counts) {
    let entries = counts.len() - 1;
    (0..entries).for_each(|entry| counts[entry].0 = (entry + 1).to_string());
}

fn by_digits(counts: &mut Counts) {
    counts.sort();
}

fn in_one_byte(counts: &mut Counts) {
    counts.iter_mut().for_each(|(_, count)| *count %= 256);
}

fn with_spaces(printed: &[u8]) -> Vec<u8> {
    let byte = |byte: &u8| if *byte == b'\t' { b' ' } else { *byte };
    if printed.starts_with(b"refused") {
        printed.to_vec()
    } else {
        printed.iter().map(byte).collect()
    }
}

fn last_byte_missing(input: &[u8], table_rows: usize) -> Vec<u8> {
    let mut printed = plain_report(input, table_rows);
    printed.pop();
    printed
}

fn refusal_moved(input: &[u8], table_rows: usize) -> Vec<u8> {
    let printed = plain_report(input, table_rows);
    match refusal(&printed) {
        Some((number, line)) => format!("refused\t{number}\t{}\n", line + 1).into_bytes(),
        None => printed,
    }
}

/// The report of the table as the lines before the refused one leave it.
fn report_for_refusal(input: &[u8], table_rows: usize) -> Vec<u8> {
    let printed = plain_report(input, table_rows);
    match refusal(&printed) {
        Some((8.., line)) => {
            let before: Vec<&[u8]> = lines(input).take(line as usize - 1).collect();
            plain_report(&before.concat(), table_rows)
        }
        _ => printed,
    }
}

fn without_last_mark(input: &[u8]) -> Vec<u8> {
    let lines: Vec<&[u8]> = lines(input).collect();
    let last = lines.iter().rposition(|line| line.starts_with(b"clock")).unwrap_or(lines.len());
    lines[..last].concat()
}

fn without_forgets(input: &[u8]) -> Vec<u8> {
    let lines: Vec<&[u8]> = lines(input).filter(|line| !line.starts_with(b"forget")).collect();
    lines.concat()
}
