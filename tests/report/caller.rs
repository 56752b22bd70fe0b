//! A call for reports, made on lent memory, and what it did to it.

use crate::expected::Expected;
use crate::inputs::Case;
use crate::lent::{Call, Lent};
use common::harness::Compared;

/// The least bytes of an output for which anything is done.
pub const OUT_LENGTH: usize = 1_384;

/// The memory lent to each call, and what it held before the last one.
pub struct Caller {
    call: Call,
    calls: usize,
    lent: Lent,
    table_before: Vec<i32>,
    out_before: Vec<u8>,
}

impl Caller {
    pub fn new(call: Call) -> Caller {
        Caller { call, calls: 0, lent: Lent::new(), table_before: Vec::new(), out_before: Vec::new() }
    }

    /// What is printed for a case, or what is wrong with the memory after the call.
    pub fn report(&mut self, case: &Case, expected: &Expected, out_length: usize) -> Result<Vec<u8>, String> {
        let printed = self.report_into(&case.input, case.table_rows, out_length)?;
        if self.lent.table() != expected.table(&self.table_before) {
            return Err("the table does not hold the rows and zeros that it should".to_string());
        }
        Ok(printed)
    }

    /// An output of so few bytes must get nothing, and the table stays as it is.
    pub fn compare_short_output(&mut self, input: &[u8], table_rows: usize, out_length: usize) -> Compared {
        let printed = self.report_into(input, table_rows, out_length)?;
        if !printed.is_empty() || self.lent.table() != self.table_before {
            return Err(format!("{} bytes printed on an output of {out_length}, or the table altered", printed.len()));
        }
        Ok(())
    }

    /// What is printed, or what is wrong with the output. Every other call is lent new memory, the others what the last
    /// one left.
    fn report_into(&mut self, input: &[u8], table_rows: usize, out_length: usize) -> Result<Vec<u8>, String> {
        if self.calls % 2 == 0 {
            self.lent = Lent::new();
        }
        self.calls += 1;
        // Up to four numbers behind the last row make no row.
        self.lent.lend(table_rows * 5 + table_rows % 5, out_length);
        self.table_before = self.lent.table().to_vec();
        self.out_before = self.lent.out().to_vec();
        let printed = self.lent.play(self.call, input)?;
        if self.lent.out()[printed.len()..] != self.out_before[printed.len()..] {
            return Err("the output behind the printed bytes is altered".to_string());
        }
        Ok(printed)
    }
}
