//! The proved listing, linked from the archive that `tools/build host` writes. include/chronicle.h declares the same.

use crate::lent::Lent;
use crate::printed::numbers_of;

#[link(name = "host", kind = "static")]
extern "C" {
    fn chronicle_list(
        input: *const u8,
        length: usize,
        table: *mut i32,
        table_length: usize,
        out: *mut u8,
        out_length: usize,
    ) -> usize;
}

fn call(input: &[u8], table: &mut [i32], out: &mut [u8]) -> usize {
    // SAFETY: each slice is valid for its whole length during the call and lent to nobody else, and the call keeps no
    // pointer.
    unsafe { chronicle_list(input.as_ptr(), input.len(), table.as_mut_ptr(), table.len(), out.as_mut_ptr(), out.len()) }
}

/// The first line of a listing, and every refusal.
const FIRST_BYTES: usize = 40;
/// A row: its number and the tab 20, three more numbers 12 each, two instants 13 each, and the end of the line.
const ROW_BYTES: usize = 83;

/// The bytes that the output of a table of so many rows is lent.
pub fn out_length(table_rows: usize) -> usize {
    FIRST_BYTES + ROW_BYTES * table_rows
}

/// What is printed for an input, or what is wrong with the memory after the call.
pub fn list(lent: &mut Lent, input: &[u8], table_rows: usize) -> Result<Vec<u8>, String> {
    list_into(lent, input, table_rows, out_length(table_rows))
}

/// The same on an output of so many bytes.
pub fn list_into(lent: &mut Lent, input: &[u8], table_rows: usize, out_length: usize) -> Result<Vec<u8>, String> {
    // Up to four numbers behind the last row make no row.
    lent.lend(table_rows * 5 + table_rows % 5, out_length);
    let printed = lent.play(call, input)?;
    if printed.starts_with(b"row") && numbers_of(&printed) != lent.table().get(..table_rows * 5).map(in_use) {
        return Err("the table does not hold the rows printed and zeros".to_string());
    }
    Ok(printed)
}

/// The rows of a table up to its last that is not all zeros. No row in use is: an event's serial is 1 or more, and the
/// others name an entry above 0.
fn in_use(table: &[i32]) -> Vec<i32> {
    let rows = table.chunks(5).rposition(|row| row != [0; 5]).map_or(0, |last| last + 1);
    table[..rows * 5].to_vec()
}
