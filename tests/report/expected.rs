//! What must be printed for an input and left in its table, by the listing that a plain program finds.

use crate::comparison::Listing;
use crate::counted;
use crate::inputs::Case;
use crate::printed::{numbers_of, refusal};
use common::paper::lines;
use oracle::layout::rows_held;

pub struct Expected<'a> {
    case: &'a Case,
    list: Listing,
    pub listing: Vec<u8>,
}

impl Expected<'_> {
    /// By the set-building program, or by another for inputs that are too long for it.
    pub fn of(case: &Case, list: Listing) -> Expected<'_> {
        let listing = list(&case.input, rows_held(5 * case.table_rows));
        Expected { case, list, listing }
    }

    pub fn report(&self) -> Vec<u8> {
        counted::report(&self.case.input, &self.listing)
    }

    /// The rows and zeros behind them; numbers behind the last row that fits stay. All of them do where no opening was
    /// taken.
    pub fn table(&self, before: &[i32]) -> Vec<i32> {
        let Some(numbers) = self.numbers() else {
            return before.to_vec();
        };
        let mut table = before.to_vec();
        let (in_rows, held) = (numbers.len(), 5 * rows_held(before.len()));
        table[..in_rows].copy_from_slice(&numbers);
        table[in_rows..held].fill(0);
        table
    }

    /// The rows' numbers; of a refused input those that the lines before the refused one leave.
    fn numbers(&self) -> Option<Vec<i32>> {
        let Some((_, line)) = refusal(&self.listing) else {
            return numbers_of(&self.listing);
        };
        let before: Vec<&[u8]> = lines(&self.case.input).take(line as usize - 1).collect();
        let listing = (self.list)(&before.concat(), rows_held(5 * self.case.table_rows));
        match refusal(&listing) {
            Some(_) => None,
            None => numbers_of(&listing),
        }
    }
}
