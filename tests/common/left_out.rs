//! Operator words that a benchmark leaves out, since the proved code of an earlier commit does not know them; and `.`,
//! by which it leaves out lengths with a point.

use crate::plain_chart::WORDS;

const POINT: &str = ".";

pub struct LeftOut(Vec<String>);

impl LeftOut {
    /// The words behind the argument --without, parted by commas; none where there is no such argument.
    pub fn of_arguments() -> LeftOut {
        let words = std::env::args().skip_while(|argument| argument != "--without").nth(1).unwrap_or_default();
        let words: Vec<String> = words.split(',').filter(|word| !word.is_empty()).map(str::to_string).collect();
        let unknown = words.iter().find(|word| *word != POINT && !WORDS.contains(&word.as_str()));
        assert!(unknown.is_none(), "--without {}: no operator word", unknown.unwrap());
        LeftOut(words)
    }

    /// Whether a chart has one of the words.
    pub fn is_in(&self, chart: &[u8]) -> bool {
        chart.split(|byte| *byte == b'\t').any(|field| self.0.iter().any(|word| word.as_bytes() == field))
    }

    /// Whether lines that the proved code reads have one of them, or a length with a point where that is left out.
    pub fn is_on_paper(&self, lines: &[u8]) -> bool {
        self.is_in(lines) || (lines.contains(&b'.') && self.0.iter().any(|word| word == POINT))
    }
}
