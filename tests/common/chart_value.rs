//! Charts as the C interface passes them: operator codes in the order of document 01's operator table, then `after`,
//! `cut` and `change`.

use crate::interface::{self, Chart};
use crate::plain_chart::{has_lower_operands, is_in_range, operator, Entry, Operator, MOST_ENTRIES, WORDS};

/// The chart of 1 to 32 sound entries; blank entries follow them.
pub fn of(entries: &[Entry]) -> Chart {
    with_added(&Chart::no_entries(), entries)
}

/// A chart of at most 32 entries with more behind them, all together at most 32; what stands behind these stays.
pub fn with_added(chart: &Chart, added: &[Entry]) -> Chart {
    let mut longer = *chart;
    for (place, entry) in longer.entries.iter_mut().skip(chart.count).zip(added) {
        *place = interface::Entry { op: code(entry.operator), a: entry.first as u32, b: entry.second as u32 };
    }
    longer.count += added.len();
    longer
}

fn code(searched: Operator) -> u8 {
    let is_searched = |word: &&str| operator(word.as_bytes()) == Some(searched);
    WORDS.iter().position(is_searched).expect("every operator has a word") as u8
}

/// A chart's entries; none where it is refused with 14: "a chart of no entries, of over 32, or with an entry breaking
/// the operator table". Entries behind the count are not looked at.
pub fn entries(chart: &Chart) -> Option<Vec<Entry>> {
    let counted = chart.entries.get(..chart.count).filter(|entries| (1..=MOST_ENTRIES).contains(&entries.len()))?;
    counted.iter().enumerate().map(|(index, entry)| sound_entry(index, entry)).collect()
}

fn sound_entry(index: usize, value: &interface::Entry) -> Option<Entry> {
    let operator = operator(WORDS.get(usize::from(value.op))?.as_bytes())?;
    let entry = Entry { operator, first: value.a.into(), second: value.b.into() };
    // The operator table gives an event one operand, so that nothing may stand in the second place.
    let one_operand = operator != Operator::Event || entry.second == 0;
    (one_operand && is_in_range(&entry) && has_lower_operands(&entry, index as u64)).then_some(entry)
}
