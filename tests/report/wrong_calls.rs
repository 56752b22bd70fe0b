//! Calls for reports that are wrong on purpose with the memory that they are lent. The comparison must find each of them
//! too.

use crate::caller::OUT_LENGTH;
use crate::comparison::list_all;
use crate::expected::Expected;
use crate::inputs::Case;
use crate::lent::Call;
use crate::wrong_reports::plain_report;
use common::harness::Named;
use oracle::layout::rows_held;

pub const ALL: [Named<Call>; 8] = [
    ("a byte 0 behind the report", byte_behind),
    ("old numbers in the place of zeros", zeros_not_written),
    ("numbers behind the last row that fits altered", numbers_behind_altered),
    ("the table not altered", not_altered),
    ("the table emptied where the input is refused", emptied_where_refused),
    ("the table altered where the output is short", altered_where_short),
    ("a report on a short output", printed_where_short),
    ("an output of just enough bytes taken for a short one", just_enough_not_taken),
];

/// The right call, from what the plain program lists.
pub fn plain_call(input: &[u8], table: &mut [i32], out: &mut [u8]) -> usize {
    if out.len() < OUT_LENGTH {
        return 0;
    }
    play(input, table);
    print(input, table, out)
}

/// Leaves in the table what the input's calls leave.
fn play(input: &[u8], table: &mut [i32]) {
    let case = Case { input: input.to_vec(), table_rows: table.len() / 5 };
    let left = Expected::of(&case, list_all).table(table);
    table.copy_from_slice(&left);
}

/// Prints the report, or nothing where it is too long for the output.
fn print(input: &[u8], table: &[i32], out: &mut [u8]) -> usize {
    let printed = plain_report(input, rows_held(table.len()));
    match out.get_mut(..printed.len()) {
        Some(bytes) => bytes.copy_from_slice(&printed),
        None => return 0,
    }
    printed.len()
}

fn byte_behind(input: &[u8], table: &mut [i32], out: &mut [u8]) -> usize {
    let length = plain_call(input, table, out);
    if length > 0 {
        out[length] = 0;
    }
    length
}

fn zeros_not_written(input: &[u8], table: &mut [i32], out: &mut [u8]) -> usize {
    let before = table.to_vec();
    let length = plain_call(input, table, out);
    table.iter_mut().zip(before).filter(|(number, _)| **number == 0).for_each(|(number, old)| *number = old);
    length
}

fn numbers_behind_altered(input: &[u8], table: &mut [i32], out: &mut [u8]) -> usize {
    let held = 5 * rows_held(table.len());
    let length = plain_call(input, table, out);
    table[held..].fill(0);
    length
}

fn not_altered(input: &[u8], table: &mut [i32], out: &mut [u8]) -> usize {
    plain_call(input, &mut table.to_vec(), out)
}

fn emptied_where_refused(input: &[u8], table: &mut [i32], out: &mut [u8]) -> usize {
    let held = 5 * rows_held(table.len());
    let length = plain_call(input, table, out);
    if out[..length].starts_with(b"refused") {
        table[..held].fill(0);
    }
    length
}

fn altered_where_short(input: &[u8], table: &mut [i32], out: &mut [u8]) -> usize {
    play(input, table);
    plain_call(input, table, out)
}

fn printed_where_short(input: &[u8], table: &mut [i32], out: &mut [u8]) -> usize {
    if out.len() < OUT_LENGTH {
        print(input, table, out)
    } else {
        plain_call(input, table, out)
    }
}

fn just_enough_not_taken(input: &[u8], table: &mut [i32], out: &mut [u8]) -> usize {
    if out.len() == OUT_LENGTH {
        0
    } else {
        plain_call(input, table, out)
    }
}
