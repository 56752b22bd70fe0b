//! Inputs by plan, with every small damage: document 01's P1, one with `cut` and `change`, and one with tenths.

use crate::inputs::Case;
use oracle::listing::TABLE_ROWS;

pub const P1: &[u8] = b"0\tevent\t1\n1\tevent\t2\n2\tevent\t3\n3\tseq\t0\t1\n4\t-[[\t3\t2\n\n\
    open\t-2\nevent\t1\nclock\t0\nevent\t2\nclock\t3\nevent\t3\nevent\t2\nclock\t4\n";
/// Document 003's `A!((B D)||F)` over a at 1, b at 2, f at 3 and d at 4, as a `cut` and as a `change`.
const FIRST_AFTER: &[u8] = b"0\tevent\t1\n1\tevent\t2\n2\tevent\t3\n3\tevent\t4\n4\tseq\t1\t2\n5\tor\t4\t3\n\
    6\tcut\t0\t5\n7\tchange\t0\t5\n\n\
    open\t1\nevent\t1\nclock\t2\nevent\t2\nclock\t3\nevent\t4\nclock\t4\nevent\t3\nclock\t5\n";
/// Events at -0.5, 0.7 and 1: their pairs last 1.2, 0.3 and 1.5, of which the first is just short enough and just what
/// is asked for, the last just long enough; the waits end at -0.1, 1.1 and 1.4. The forget, at the first start, takes
/// no row, and a tenth later would take seven.
const TENTHS: &[u8] = b"0\tevent\t1\n1\tseq\t0\t0\n2\tatmost\t1\t1.2\n3\tlasts\t1\t1.2\n4\tatleast\t1\t1.5\n\
    5\tafter\t0\t0.4\n\n\
    open\t-0.5\nevent\t1\nclock\t0.7\nevent\t1\nclock\t1.0\nevent\t1\nclock\t1.2\nforget\t-0.5\nclock\t10\n";
/// By name, and how many rows it has.
const INPUTS: [(&str, &[u8], usize); 3] =
    [("P1 damaged", P1, 8), ("cut and change damaged", FIRST_AFTER, 9), ("tenths damaged", TENTHS, 13)];

/// Each input cut at each place, with each byte left out, doubled, and changed to each value; and on each small table.
pub fn all() -> impl Iterator<Item = (&'static str, Case)> {
    INPUTS.into_iter().flat_map(|(name, input, rows)| of(input, rows).map(move |case| (name, case)))
}

fn of(input: &'static [u8], rows: usize) -> impl Iterator<Item = Case> {
    let places = || 0..input.len();
    let cut = places().map(|place| input[..place].to_vec());
    let without = places().map(|place| [&input[..place], &input[place + 1..]].concat());
    let doubled = places().map(|place| [&input[..=place], &input[place..]].concat());
    let changed = places().flat_map(move |place| (0..=255).map(move |byte| with_byte(input, place, byte)));
    let damaged = cut.chain(without).chain(doubled).chain(changed);
    let on_tables = (0..=rows + 1).map(|table_rows| Case { input: input.to_vec(), table_rows });
    damaged.map(|input| Case { input, table_rows: TABLE_ROWS }).chain(on_tables)
}

fn with_byte(input: &[u8], place: usize, byte: u8) -> Vec<u8> {
    let mut changed = input.to_vec();
    changed[place] = byte;
    changed
}
