//! What a listing says, read the plain way.

/// The number and the line of a refusal; none of a listing of rows.
pub fn refusal(printed: &[u8]) -> Option<(u32, i64)> {
    let text = std::str::from_utf8(printed).ok()?.strip_prefix("refused\t")?;
    let (number, line) = text.strip_suffix('\n')?.split_once('\t')?;
    Some((number.parse().ok()?, line.parse().ok()?))
}

/// The numbers printed, but for the rows' own, start and end in tenths; none where a field is none or has no point
/// where it should.
pub fn numbers_of(printed: &[u8]) -> Option<Vec<i32>> {
    let text = std::str::from_utf8(printed).ok()?;
    let numbers = |line: &str| {
        let [_, entry, left, right, start, end] = line.split('\t').collect::<Vec<_>>()[..] else { return None };
        Some([entry.parse().ok()?, left.parse().ok()?, right.parse().ok()?, tenths(start)?, tenths(end)?])
    };
    text.lines().skip(1).map(numbers).collect::<Option<Vec<[i32; 5]>>>().map(|rows| rows.concat())
}

/// An instant with its one digit after the point, which is the last of its digits in tenths.
fn tenths(field: &str) -> Option<i32> {
    let (whole, tenth) = field.split_once('.').filter(|(_, tenth)| tenth.len() == 1)?;
    format!("{whole}{tenth}").parse().ok()
}
