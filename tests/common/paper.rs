//! Lines, fields and numbers on paper, read and spelled the plain way. Document 01, "Chart and log on paper"; request
//! N11 for instants and lengths, which are tenths of a millisecond inside.

use crate::random::Random;

/// "1 to 9 digits of an instant or length stand before the point, or alone."
const MOST_DIGITS: usize = 9;

/// The lines of a text, each with the byte 10 that ends it; the last may lack it. An empty text has no line.
pub fn lines(text: &[u8]) -> impl Iterator<Item = &[u8]> {
    text.split_inclusive(|byte| *byte == b'\n')
}

/// The fields of a line: "parted by one tab, each line ended by byte 10 and at most 64 bytes with it".
pub fn fields(line: &[u8]) -> Option<impl Iterator<Item = &[u8]>> {
    let text = line.strip_suffix(b"\n").filter(|_| line.len() <= 64)?;
    Some(text.split(|byte| *byte == b'\t'))
}

/// "Numbers have no leading zero, 1 to 10 digits."
pub fn number(field: &[u8]) -> Option<u64> {
    let spelled = (1..=10).contains(&field.len()) && field.iter().all(u8::is_ascii_digit);
    let leading_zero = field.len() > 1 && field[0] == b'0';
    (spelled && !leading_zero).then(|| field.iter().fold(0, |n, digit| n * 10 + u64::from(digit - b'0')))
}

/// A length in tenths: "a point and one digit"; "without a point they are whole milliseconds". It may lie outside the
/// lengths' range.
pub fn length(field: &[u8]) -> Option<u64> {
    let (whole, tenths) = match field {
        [whole @ .., b'.', digit @ b'0'..=b'9'] => (whole, u64::from(digit - b'0')),
        whole => (whole, 0),
    };
    number(whole).filter(|_| whole.len() <= MOST_DIGITS).map(|milliseconds| 10 * milliseconds + tenths)
}

/// An instant in tenths: "a minus on the value zero stays malformed in every spelling". It may lie outside the
/// instants' range.
pub fn instant(field: &[u8]) -> Option<i64> {
    match field.strip_prefix(b"-") {
        None => length(field).map(|tenths| tenths as i64),
        Some(digits) => length(digits).filter(|tenths| *tenths != 0).map(|tenths| -(tenths as i64)),
    }
}

/// An instant or a length of so many tenths, with its point.
pub fn spelled(tenths: i64) -> String {
    let sign = if tenths < 0 { "-" } else { "" };
    format!("{sign}{}.{}", tenths.abs() / 10, tenths.abs() % 10)
}

/// The same; where it is whole milliseconds, as often without a point.
pub fn any_spelling(random: &mut Random, tenths: i64) -> String {
    if tenths % 10 == 0 && random.one_in(2) {
        (tenths / 10).to_string()
    } else {
        spelled(tenths)
    }
}
