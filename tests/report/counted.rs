//! The report that must be printed for an input, counted from its listing.

use common::paper::{fields, lines, number};

/// For each line of the chart how many rows of the listing name its entry, and how many rows there are; a refusal is
/// printed as it is.
pub fn report(input: &[u8], listing: &[u8]) -> Vec<u8> {
    if listing.starts_with(b"refused") {
        return listing.to_vec();
    }
    let named: Vec<u64> = lines(listing).skip(1).map(entry_of).collect();
    let entries = lines(input).take_while(|line| *line != b"\n").count() as u64;
    let line = |entry| format!("{entry}\t{}\n", named.iter().filter(|other| **other == entry).count());
    let total = format!("total\t{}\n", named.len());
    (0..entries).map(line).chain([total]).collect::<String>().into_bytes()
}

/// The entry that a row names.
fn entry_of(row: &[u8]) -> u64 {
    fields(row).and_then(|mut fields| fields.nth(1)).and_then(number).expect("a row's second field is its entry")
}
