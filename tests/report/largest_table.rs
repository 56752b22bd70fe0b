//! An input whose rows fill the largest table, on that and on tables about as large.

use crate::inputs::Case;

/// "Never more than 65,535."
const MOST_ROWS: usize = 65_535;
/// How many entries have a row for each event of code 1; one entry more has rows of code 2.
const ENTRIES: usize = 31;
const EVENTS_AN_INSTANT: usize = 64;

/// One row less than there are recognitions, as many, and more than a table can have.
pub fn all() -> impl Iterator<Item = Case> {
    [MOST_ROWS - 1, MOST_ROWS, MOST_ROWS + 4].into_iter().map(|table_rows| Case { input: filling(), table_rows })
}

/// As many recognitions as the largest table has rows, of a chart with as many entries as one may have.
fn filling() -> Vec<u8> {
    let tests: String = (1..ENTRIES).map(|entry| format!("{entry}\tatleast\t0\t0\n")).collect();
    let mut text = format!("0\tevent\t1\n{tests}{ENTRIES}\tevent\t2\n\nopen\t0\n");
    for count in 1..=MOST_ROWS / ENTRIES {
        text += "event\t1\n";
        text += &if count % EVENTS_AN_INSTANT == 0 { format!("clock\t{count}\n") } else { String::new() };
    }
    text += &"event\t2\n".repeat(MOST_ROWS % ENTRIES);
    (text + &format!("clock\t{MOST_ROWS}\n")).into_bytes()
}
