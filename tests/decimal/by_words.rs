//! Instants and lengths by the words of document 01 and request N11, on characters and not on numbers. Nothing of it is
//! shared with the plain readers of the other tests.

/// "Numbers have no leading zero"; "1 to 9 digits of an instant or length stand before the point, or alone"; "a point
/// and one digit". The digits without the point are the tenths; whole milliseconds lack their last digit, a 0.
pub fn length(text: &[u8]) -> Option<i64> {
    let text = std::str::from_utf8(text).ok()?;
    let (whole, tenth) = text.split_once('.').unwrap_or((text, "0"));
    let are_digits = [whole, tenth].iter().all(|part| part.chars().all(|character| ('0'..='9').contains(&character)));
    let is_sound = matches!(whole.len(), 1..=9) && tenth.len() == 1 && (whole == "0" || !whole.starts_with('0'));
    (are_digits && is_sound).then(|| format!("{whole}{tenth}").parse().expect("ten digits are a number"))
}

/// "An instant may carry a minus"; "a minus on the value zero stays malformed in every spelling".
pub fn instant(text: &[u8]) -> Option<i64> {
    match text {
        [b'-', digits @ ..] => length(digits).filter(|tenths| *tenths != 0).map(|tenths| -tenths),
        _ => length(text),
    }
}

/// "One digit after it": the point before the last of at least two digits.
pub fn spelled(tenths: i32) -> String {
    let minus = if tenths < 0 { "-" } else { "" };
    let mut text = format!("{minus}{:02}", tenths.unsigned_abs());
    text.insert(text.len() - 1, '.');
    text
}
