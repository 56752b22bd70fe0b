//! Chart readers that are wrong on purpose. The comparison must find each of them, or it could not find a fault in the
//! proved one.

use common::careless::{with_last_byte, without_carriage_returns};
use common::harness::Named;
use common::paper::{self, lines, spelled};
use common::plain_chart::{check, has_lower_operands, record, Entry, Nearest, Operator, Verdict, TAKEN};

pub const ALL: [Named<fn(&[u8]) -> Verdict>; 29] = [
    ("refusal 5 before 6", operand_before_range),
    ("lines counted from 0", lines_from_0),
    ("a last line taken without byte 10", |bytes| check(&with_last_byte(bytes))),
    ("carriage returns skipped", |bytes| check(&without_carriage_returns(bytes))),
    ("a 33rd line not looked at", first_32_lines),
    ("empty lines skipped", empty_lines_skipped),
    ("spaces taken for tabs", spaces_as_tabs),
    ("all after a byte 0 left out", text_before_0),
    ("after: not known", |bytes| with_word_as(bytes, b"after", b"later")),
    ("after: its length taken for an operand", |bytes| with_word_as(bytes, b"after", b"and")),
    ("after: a length above 200000000.0 taken", any_delay),
    ("after: 5 before 6", delay_before_range),
    ("cut: not known", |bytes| with_word_as(bytes, b"cut", b"!")),
    ("cut: its second operand taken for a length", |bytes| with_word_as(bytes, b"cut", b"lasts")),
    ("cut: one operand only", |bytes| with_word_as(bytes, b"cut", b"event")),
    ("change: not known", |bytes| with_word_as(bytes, b"change", b"!!")),
    ("change: its second operand taken for a length", |bytes| with_word_as(bytes, b"change", b"lasts")),
    ("change: one entry as both operands refused", different_operands),
    ("a length read as a plain number", |bytes| with_lengths(bytes, as_number)),
    ("a length of ten digits refused with 6", |bytes| with_lengths(bytes, ten_digits_above_range)),
    ("a length of nine digits refused with 3", |bytes| with_lengths(bytes, nine_digits_malformed)),
    ("a length without a point read in tenths", |bytes| with_lengths(bytes, whole_as_tenths)),
    ("a length's tenth not read", |bytes| with_lengths(bytes, tenth_as_0)),
    ("a length with a minus taken", |bytes| with_lengths(bytes, |field| Some(field.strip_prefix(b"-")?.to_vec()))),
    ("a length that begins with a point taken", |bytes| with_lengths(bytes, zero_before_point)),
    ("a length that ends with a point taken", |bytes| {
        with_lengths(bytes, |field| Some(field.strip_suffix(b".")?.to_vec()))
    }),
    ("two digits after a length's point taken", |bytes| with_lengths(bytes, second_digit_left_out)),
    ("a point in an entry number taken", |bytes| with_whole_numbers(bytes, &[0])),
    ("a point in an operand taken", |bytes| with_whole_numbers(bytes, &[2, 3])),
];

fn operand_before_range(bytes: &[u8]) -> Verdict {
    let verdict = check(bytes);
    let index = (verdict.line as usize).wrapping_sub(1);
    let refused = lines(bytes).nth(index).and_then(record);
    match refused {
        Some((_, entry)) if verdict.refusal == 6 && !has_lower_operands(&entry, index as u64) => {
            Verdict { refusal: 5, ..verdict }
        }
        _ => verdict,
    }
}

/// Every such word read as another.
fn with_word_as(bytes: &[u8], word: &[u8], other: &[u8]) -> Verdict {
    let field = |field: &[u8]| if field == word { other.to_vec() } else { field.to_vec() };
    let line = |line: &[u8]| line.split(|byte| *byte == b'\t').map(field).collect::<Vec<_>>().join(&b'\t');
    check(&lines(bytes).flat_map(line).collect::<Vec<u8>>())
}

/// The entry of the line that a chart is refused for, where it is an `after`, and the line's place.
fn refused_delay(bytes: &[u8], verdict: Verdict) -> Option<(Entry, u64)> {
    let index = (verdict.line as usize).wrapping_sub(1);
    let (_, entry) = lines(bytes).nth(index).and_then(record)?;
    (entry.operator == Operator::After).then_some((entry, index as u64))
}

/// Takes a chart whose first fault is such a length, whatever follows.
fn any_delay(bytes: &[u8]) -> Verdict {
    let verdict = check(bytes);
    match refused_delay(bytes, verdict) {
        Some((entry, index)) if verdict.refusal == 6 && has_lower_operands(&entry, index) => TAKEN,
        _ => verdict,
    }
}

fn delay_before_range(bytes: &[u8]) -> Verdict {
    let verdict = check(bytes);
    match refused_delay(bytes, verdict) {
        Some((entry, index)) if verdict.refusal == 6 && !has_lower_operands(&entry, index) => {
            Verdict { refusal: 5, ..verdict }
        }
        _ => verdict,
    }
}

/// Refuses the first `change` of one entry that it comes to, where nothing before it is refused.
fn different_operands(bytes: &[u8]) -> Verdict {
    let verdict = check(bytes);
    let is_refused = |line| {
        let change = record(line).filter(|(_, entry)| entry.operator == Operator::Nearest(Nearest::Change));
        change.is_some_and(|(_, entry)| entry.first == entry.second)
    };
    match lines(bytes).position(is_refused) {
        Some(index) if verdict == TAKEN || (index as u32) < verdict.line => {
            Verdict { refusal: 5, line: index as u32 + 1 }
        }
        _ => verdict,
    }
}

/// The chart as a reader takes it that reads lengths otherwise: each with what `change` makes of it, or as it is.
fn with_lengths(bytes: &[u8], change: fn(&[u8]) -> Option<Vec<u8>>) -> Verdict {
    let has_length = |fields: &[&[u8]]| matches!(fields, [_, b"lasts" | b"atmost" | b"atleast" | b"after", _, _]);
    with_fields(bytes, |place, fields| if place == 3 && has_length(fields) { change(fields[place]) } else { None })
}

/// The chart as a reader takes it that leaves out a point and a 0 in these fields, but for lengths.
fn with_whole_numbers(bytes: &[u8], places: &[usize]) -> Verdict {
    let is_length = |place: usize, fields: &[&[u8]]| {
        place == 3 && matches!(fields[1], b"lasts" | b"atmost" | b"atleast" | b"after")
    };
    with_fields(bytes, |place, fields| {
        let is_whole = places.contains(&place) && !is_length(place, fields);
        is_whole.then(|| fields[place].strip_suffix(b".0").map(<[u8]>::to_vec)).flatten()
    })
}

/// The chart with other fields, by their places in a line.
fn with_fields(bytes: &[u8], change: impl Fn(usize, &[&[u8]]) -> Option<Vec<u8>>) -> Verdict {
    let line = |line: &[u8]| {
        let Some(fields) = paper::fields(line).map(Iterator::collect::<Vec<_>>) else { return line.to_vec() };
        let field = |place: usize| change(place, &fields).unwrap_or_else(|| fields[place].to_vec());
        [(0..fields.len()).map(field).collect::<Vec<_>>().join(&b'\t'), b"\n".to_vec()].concat()
    };
    check(&lines(bytes).flat_map(line).collect::<Vec<u8>>())
}

/// Up to ten digits and no point, in the unit that is inside.
fn as_number(field: &[u8]) -> Option<Vec<u8>> {
    Some(paper::number(field).map_or(b"x".to_vec(), |tenths| spelled(tenths as i64).into_bytes()))
}

fn ten_digits_above_range(field: &[u8]) -> Option<Vec<u8>> {
    paper::number(field).filter(|_| field.len() == 10).map(|_| b"999999999".to_vec())
}

fn nine_digits_malformed(field: &[u8]) -> Option<Vec<u8>> {
    paper::length(field).filter(|tenths| *tenths >= 1_000_000_000).map(|_| b"x".to_vec())
}

fn whole_as_tenths(field: &[u8]) -> Option<Vec<u8>> {
    let tenths = paper::length(field).filter(|_| !field.contains(&b'.'))?;
    Some(spelled(tenths as i64 / 10).into_bytes())
}

fn tenth_as_0(field: &[u8]) -> Option<Vec<u8>> {
    paper::length(field).map(|tenths| (tenths / 10).to_string().into_bytes())
}

fn zero_before_point(field: &[u8]) -> Option<Vec<u8>> {
    field.starts_with(b".").then(|| [b"0", field].concat())
}

fn second_digit_left_out(field: &[u8]) -> Option<Vec<u8>> {
    let is_longer = matches!(field, [.., b'.', b'0'..=b'9', b'0'..=b'9']);
    is_longer.then(|| field[..field.len() - 1].to_vec())
}

fn lines_from_0(bytes: &[u8]) -> Verdict {
    let verdict = check(bytes);
    Verdict { line: verdict.line.saturating_sub(1), ..verdict }
}

fn first_32_lines(bytes: &[u8]) -> Verdict {
    check(&lines(bytes).take(32).collect::<Vec<_>>().concat())
}

fn empty_lines_skipped(bytes: &[u8]) -> Verdict {
    check(&lines(bytes).filter(|line| *line != b"\n").collect::<Vec<_>>().concat())
}

fn spaces_as_tabs(bytes: &[u8]) -> Verdict {
    check(&bytes.iter().map(|byte| if *byte == b' ' { b'\t' } else { *byte }).collect::<Vec<u8>>())
}

fn text_before_0(bytes: &[u8]) -> Verdict {
    check(bytes.split(|byte| *byte == 0).next().unwrap_or(bytes))
}
