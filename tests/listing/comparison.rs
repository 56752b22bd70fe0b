//! Comparing what a program prints for an input with what it must print, and the inputs that programs are compared on.

use crate::inputs::{self, Case};
use crate::planned;
use common::harness::Compared;
use common::random::Random;
use oracle::listing::listing;
use oracle::model::Over;
use plain_listing::list;
use plain_listing::long_logs::{one_event_too_many, FULL_TABLE, FULL_TABLE_ROWS, WORKLOADS};

const LONG_EVENTS: usize = 100_000;
const LONG_FILLINGS: [usize; 2] = [100, 2_900];
const FULL_TABLE_EVENTS: usize = 10_000;

/// What a program prints for an input on a table of so many rows, or what else is wrong.
pub type Program<'a> = dyn FnMut(&[u8], usize) -> Result<Vec<u8>, String> + 'a;

/// What a listing program prints for an input on a table of so many rows.
pub type Listing = fn(&[u8], usize) -> Vec<u8>;

/// The listing, as the set-building program finds it.
pub fn set_built(input: &[u8], table_rows: usize) -> Vec<u8> {
    listing(input, table_rows, Over::EventsFromFloor)
}

/// The plain program on an input in memory.
pub fn list_all(input: &[u8], table_rows: usize) -> Vec<u8> {
    list(input, table_rows).expect("bytes in memory can be read")
}

/// The inputs by plan and so many from each seed, each after the name of its kind.
pub fn short_inputs(seeds: [u64; 4], per_seed: usize) -> impl Iterator<Item = (&'static str, Case)> {
    let from_seed = move |seed| {
        let mut random = Random::new(seed);
        (0..per_seed).map(move |_| {
            let kind = inputs::kind(&mut random);
            (kind.name, (kind.draw)(&mut random))
        })
    };
    planned::all().chain(seeds.into_iter().flat_map(from_seed))
}

/// Inputs of many events, for which the set-building program is too slow.
pub fn long_inputs() -> impl Iterator<Item = Vec<u8>> {
    let drawn = WORKLOADS.iter().flat_map(|workload| {
        LONG_FILLINGS.map(|filling| workload.draw(&mut Random::new(filling as u64), LONG_EVENTS, filling).input)
    });
    let full_table = FULL_TABLE.draw(&mut Random::new(64), FULL_TABLE_EVENTS, FULL_TABLE_ROWS).input;
    drawn.chain([full_table, one_event_too_many()])
}

/// Nothing, or what the difference is.
pub fn compare(program: &mut Program, case: &Case, expected: &[u8]) -> Compared {
    match program(&case.input, case.table_rows) {
        Ok(printed) if printed == expected => Ok(()),
        Ok(printed) => Err(described(case, &format!("\"{}\"", shortened(&printed)), expected)),
        Err(fault) => Err(described(case, &fault, expected)),
    }
}

fn described(case: &Case, found: &str, expected: &[u8]) -> String {
    let Case { input, table_rows } = case;
    format!(
        "input \"{}\"\ntable of {table_rows} rows\nexpected \"{}\"\nfound {found}",
        shortened(input),
        shortened(expected)
    )
}

/// The beginning of a long text.
fn shortened(text: &[u8]) -> String {
    let end = if text.len() > 4_000 { "..." } else { "" };
    format!("{}{end}", text[..text.len().min(4_000)].escape_ascii())
}
