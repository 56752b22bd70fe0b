//! The memory lent to a call of the C interface that plays a whole input.

use std::ops::Range;

/// A call on an input, a table and an output. It answers how many bytes it printed.
pub type Call = fn(&[u8], &mut [i32], &mut [u8]) -> usize;

/// What stands before and behind lent memory, which no call may touch.
const MARGIN: usize = 16;
const TABLE_MARK: i32 = 0x5a5a_5a5a;
const OUT_MARK: u8 = 0xa5;

/// A table and an output, which hold marks until a call alters them.
pub struct Lent {
    table: Vec<i32>,
    out: Vec<u8>,
}

impl Lent {
    pub fn new() -> Lent {
        Lent { table: Vec::new(), out: Vec::new() }
    }

    /// Makes room for so many numbers and bytes. What the last call left in them is still there.
    pub fn lend(&mut self, table_length: usize, out_length: usize) {
        make_room(&mut self.table, table_length, TABLE_MARK);
        make_room(&mut self.out, out_length, OUT_MARK);
    }

    /// What a call prints for an input, or what is wrong with the memory after it.
    pub fn play(&mut self, call: Call, input: &[u8]) -> Result<Vec<u8>, String> {
        let (table, out) = (lent_part(&self.table), lent_part(&self.out));
        let length = call(input, &mut self.table[table], &mut self.out[out]);
        if !is_margin_whole(&self.table, TABLE_MARK) || !is_margin_whole(&self.out, OUT_MARK) {
            return Err("memory that was not lent is altered".to_string());
        }
        Ok(self.out().get(..length).ok_or(format!("a length of {length} bytes"))?.to_vec())
    }

    pub fn table(&self) -> &[i32] {
        &self.table[lent_part(&self.table)]
    }

    pub fn out(&self) -> &[u8] {
        &self.out[lent_part(&self.out)]
    }
}

/// Makes room for so many values between two margins.
fn make_room<T: Copy>(memory: &mut Vec<T>, length: usize, mark: T) {
    memory.resize(MARGIN + length + MARGIN, mark);
    memory[..MARGIN].fill(mark);
    memory[MARGIN + length..].fill(mark);
}

fn lent_part<T>(memory: &[T]) -> Range<usize> {
    MARGIN..memory.len() - MARGIN
}

fn is_margin_whole<T: Copy + PartialEq>(memory: &[T], mark: T) -> bool {
    let lent = lent_part(memory);
    memory[..lent.start].iter().chain(&memory[lent.end..]).all(|value| *value == mark)
}
