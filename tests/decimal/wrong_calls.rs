//! Readers and writers that are wrong on purpose. The comparison must find each of them, or it could not find a fault
//! in the proved ones.

use crate::by_words::{instant, length, spelled};
use crate::calls::{answer, written, Calls, Tenths, BY_WORDS};
use common::harness::Named;

pub fn all() -> Vec<Named<Calls>> {
    [taken_for_others(), wrong_instants(), wrong_lengths(), wrong_spellings(), wrong_outputs()].concat()
}

fn reads_instant(read_instant: fn(&[u8]) -> Tenths) -> Calls {
    Calls { read_instant, ..BY_WORDS }
}

fn reads_length(read_length: fn(&[u8]) -> Tenths) -> Calls {
    Calls { read_length, ..BY_WORDS }
}

fn writes(write_instant: fn(i32, &mut [u8]) -> usize) -> Calls {
    Calls { write_instant, ..BY_WORDS }
}

/// For each fault two readers, of which one takes an instant for another text, and one a length.
macro_rules! taken_for {
    ($($fault:literal: $other:path,)*) => {
        vec![$(
            (concat!("an instant: ", $fault), reads_instant(|text| answer(instant(&$other(text))))),
            (concat!("a length: ", $fault), reads_length(|text| answer(length(&$other(text))))),
        )*]
    };
}

fn taken_for_others() -> Vec<Named<Calls>> {
    taken_for! {
        "one that begins with a point taken": zero_before_point,
        "one that ends with a point taken": point_at_end_left_out,
        "a second digit after the point left out": second_digit_left_out,
        "a second point left out, and its digit": second_point_left_out,
        "leading zeros taken": zeros_left_out,
        "a comma taken": comma_as_point,
        "a plus taken": plus_left_out,
        "spaces taken": spaces_left_out,
        "a byte 10 behind it taken": line_end_left_out,
        "a tab ends it": up_to_tab,
        "a byte 0 ends it": up_to_byte_0,
        "a colon taken for a digit": colon_as_digit,
        "whole milliseconds read in tenths": whole_as_tenths,
        "its tenth read as 0": tenth_as_0,
        "a point malformed": nothing_with_point,
        "whole milliseconds malformed": nothing_without_point,
        "nine digits malformed": nothing_of_nine_digits,
    }
}

fn wrong_instants() -> Vec<Named<Calls>> {
    vec![
        ("an instant: -0 taken", reads_instant(|text| answer(instant(text).or((text == b"-0").then_some(0))))),
        ("an instant: -0.0 taken", reads_instant(|text| answer(instant(text).or((text == b"-0.0").then_some(0))))),
        ("an instant: 0 malformed", reads_instant(|text| answer(instant(text).filter(|_| text != b"0")))),
        ("an instant: 0.0 malformed", reads_instant(|text| answer(instant(text).filter(|_| text != b"0.0")))),
        (
            "an instant: -0.5 malformed",
            reads_instant(|text| answer(instant(text).filter(|tenths| !is_hidden(*tenths)))),
        ),
        ("an instant: -0.5 without its minus", reads_instant(|text| answer(instant(text).map(without_hidden_minus)))),
        ("an instant: the tenth of -1.5 added to -1", reads_instant(|text| answer(instant(text).map(tenth_added)))),
        ("an instant: a minus malformed", reads_instant(|text| answer(length(text)))),
        ("an instant: two minuses taken", reads_instant(|text| answer(instant(one_minus(text))))),
        ("an instant: ten digits taken", reads_instant(|text| answer(instant(text).or_else(|| of_ten_digits(text))))),
        (
            "an instant: cut to 32 bits",
            reads_instant(|text| answer(instant(text).map(|tenths| i64::from(tenths as i32)))),
        ),
        ("an instant: one out of range malformed", reads_instant(|text| answer(instant(text).filter(is_in_range)))),
        ("an instant: tenths of a malformed one", reads_instant(|text| with_tenths(answer(instant(text)), text))),
        ("an instant: 2 for a sound one", reads_instant(|text| with_2(answer(instant(text))))),
    ]
}

fn wrong_lengths() -> Vec<Named<Calls>> {
    vec![
        ("a length: a minus taken", reads_length(|text| answer(instant(text)))),
        ("a length: a minus left out", reads_length(|text| answer(length(text.strip_prefix(b"-").unwrap_or(text))))),
        ("a length: ten digits taken", reads_length(|text| answer(length(text).or_else(|| of_ten_digits(text))))),
        ("a length: cut to 32 bits", reads_length(|text| answer(length(text).map(|tenths| i64::from(tenths as u32))))),
        ("a length: tenths of a malformed one", reads_length(|text| with_tenths(answer(length(text)), text))),
        ("a length: 2 for a sound one", reads_length(|text| with_2(answer(length(text))))),
    ]
}

fn wrong_spellings() -> Vec<Named<Calls>> {
    vec![
        ("written: no .0", writes(|tenths, out| written(without_tenth_of_0(&spelled(tenths)), out))),
        ("written: no point", writes(|tenths, out| written(&tenths.to_string(), out))),
        ("written: -0.5 as -0", writes(|tenths, out| written(tenth_after_minus_0_lost(&spelled(tenths)), out))),
        (
            "written: -0.5 as 0.5",
            writes(|tenths, out| written(&spelled(without_hidden_minus(tenths.into()) as i32), out)),
        ),
        ("written: -0.5 as 0.-5", writes(|tenths, out| written(&format!("{}.{}", tenths / 10, tenths % 10), out))),
        (
            "written: -2.3 as -3.3",
            writes(|tenths, out| written(&rounded_down(tenths, tenths.unsigned_abs() % 10), out)),
        ),
        (
            "written: -2.3 as -3.7",
            writes(|tenths, out| written(&rounded_down(tenths, tenths.rem_euclid(10) as u32), out)),
        ),
        ("written: 0.0 as -0.0", writes(|tenths, out| written(&with_minus_at_0(tenths), out))),
        ("written: 0.5 as .5", writes(|tenths, out| written(without_0_before_point(&spelled(tenths)), out))),
        ("written: two digits after the point", writes(|tenths, out| written(&(spelled(tenths) + "0"), out))),
        ("written: a comma", writes(|tenths, out| written(&spelled(tenths).replace('.', ","), out))),
        ("written: the least number as the next", writes(|tenths, out| written(&spelled(tenths.max(-i32::MAX)), out))),
        ("written: without its first digit", writes(|tenths, out| written(&spelled(tenths % 1_000_000_000), out))),
    ]
}

fn wrong_outputs() -> Vec<Named<Calls>> {
    vec![
        ("written: the front of it into a short output", writes(|tenths, out| front_written(&spelled(tenths), out))),
        ("written: its length for a short output", writes(length_for_short)),
        ("written: nothing into an output of its length", writes(nothing_into_its_length)),
        ("written: a byte 0 behind it", writes(byte_behind)),
        ("written: at the end of the output", writes(|tenths, out| written_at_end(&spelled(tenths), out))),
        ("written: a byte too many", writes(|tenths, out| written(&spelled(tenths), out) + 1)),
        ("written: the output emptied before", writes(emptied_before)),
    ]
}

// What a careless reader takes a text for.

/// The minus of a text and what stands behind it.
fn sign_and_rest(text: &[u8]) -> (&[u8], &[u8]) {
    text.split_at(usize::from(text.starts_with(b"-")))
}

fn zero_before_point(text: &[u8]) -> Vec<u8> {
    let (minus, rest) = sign_and_rest(text);
    let zero: &[u8] = if rest.starts_with(b".") { b"0" } else { b"" };
    [minus, zero, rest].concat()
}

fn point_at_end_left_out(text: &[u8]) -> Vec<u8> {
    text.strip_suffix(b".").unwrap_or(text).to_vec()
}

fn second_digit_left_out(text: &[u8]) -> Vec<u8> {
    match text {
        [front @ .., b'.', tenth @ b'0'..=b'9', b'0'..=b'9'] => [front, &[b'.', *tenth]].concat(),
        _ => text.to_vec(),
    }
}

fn second_point_left_out(text: &[u8]) -> Vec<u8> {
    match text {
        [front @ .., b'.', b'0'..=b'9'] if front.contains(&b'.') => front.to_vec(),
        _ => text.to_vec(),
    }
}

fn zeros_left_out(text: &[u8]) -> Vec<u8> {
    let (minus, mut rest) = sign_and_rest(text);
    while matches!(rest, [b'0', b'0'..=b'9', ..]) {
        rest = &rest[1..];
    }
    [minus, rest].concat()
}

fn comma_as_point(text: &[u8]) -> Vec<u8> {
    text.iter().map(|byte| if *byte == b',' { b'.' } else { *byte }).collect()
}

fn plus_left_out(text: &[u8]) -> Vec<u8> {
    text.strip_prefix(b"+").unwrap_or(text).to_vec()
}

fn spaces_left_out(text: &[u8]) -> Vec<u8> {
    text.iter().copied().filter(|byte| *byte != b' ').collect()
}

fn line_end_left_out(text: &[u8]) -> Vec<u8> {
    text.strip_suffix(b"\n").unwrap_or(text).to_vec()
}

fn up_to(text: &[u8], end: u8) -> Vec<u8> {
    text.split(|byte| *byte == end).next().unwrap_or_default().to_vec()
}

fn up_to_tab(text: &[u8]) -> Vec<u8> {
    up_to(text, b'\t')
}

fn up_to_byte_0(text: &[u8]) -> Vec<u8> {
    up_to(text, 0)
}

fn colon_as_digit(text: &[u8]) -> Vec<u8> {
    text.iter().map(|byte| if *byte == b':' { b'9' } else { *byte }).collect()
}

/// `57` for `5.7`, `7` for `0.7`.
fn whole_as_tenths(text: &[u8]) -> Vec<u8> {
    let (minus, rest) = sign_and_rest(text);
    match rest {
        [tenth @ b'0'..=b'9'] => [minus, b"0.", &[*tenth]].concat(),
        [whole @ .., tenth] if length(rest).is_some() && !rest.contains(&b'.') => {
            [minus, whole, b".", &[*tenth]].concat()
        }
        _ => text.to_vec(),
    }
}

fn tenth_as_0(text: &[u8]) -> Vec<u8> {
    match text {
        [front @ .., b'.', b'0'..=b'9'] => [front, b".0"].concat(),
        _ => text.to_vec(),
    }
}

fn nothing_if(is_malformed: bool, text: &[u8]) -> Vec<u8> {
    if is_malformed {
        vec![]
    } else {
        text.to_vec()
    }
}

fn nothing_with_point(text: &[u8]) -> Vec<u8> {
    nothing_if(text.contains(&b'.'), text)
}

fn nothing_without_point(text: &[u8]) -> Vec<u8> {
    nothing_if(!text.contains(&b'.'), text)
}

fn nothing_of_nine_digits(text: &[u8]) -> Vec<u8> {
    let (_, rest) = sign_and_rest(text);
    nothing_if(rest.iter().take_while(|byte| byte.is_ascii_digit()).count() == 9, text)
}

fn one_minus(text: &[u8]) -> &[u8] {
    text.strip_prefix(b"-").filter(|rest| rest.starts_with(b"-")).unwrap_or(text)
}

// What it makes of tenths.

/// Whether the whole part is 0, which shows no minus.
fn is_hidden(tenths: i64) -> bool {
    (-9..0).contains(&tenths)
}

fn without_hidden_minus(tenths: i64) -> i64 {
    if is_hidden(tenths) {
        -tenths
    } else {
        tenths
    }
}

fn tenth_added(tenths: i64) -> i64 {
    tenths - tenths % 10 + (tenths % 10).abs()
}

fn is_in_range(tenths: &i64) -> bool {
    (-1_000_000_000..=1_000_000_000).contains(tenths)
}

/// The tenths of ten digits and perhaps a point and one more.
fn of_ten_digits(text: &[u8]) -> Option<i64> {
    let (first, rest) = text.split_first()?;
    let are_nine = rest.iter().take_while(|byte| byte.is_ascii_digit()).count() == 9;
    let tenths = length(rest).filter(|_| are_nine && matches!(first, b'1'..=b'9'))?;
    Some(i64::from(first - b'0') * 10_000_000_000 + tenths)
}

/// What was read before the text was found malformed.
fn with_tenths(answer: Tenths, text: &[u8]) -> Tenths {
    let first = text.first().filter(|byte| answer.well_formed == 0 && byte.is_ascii_digit());
    first.map_or(answer, |digit| Tenths { tenths: i64::from(digit - b'0'), ..answer })
}

fn with_2(answer: Tenths) -> Tenths {
    Tenths { well_formed: 2 * answer.well_formed, ..answer }
}

// What a careless writer writes.

fn without_tenth_of_0(text: &str) -> &str {
    text.strip_suffix(".0").unwrap_or(text)
}

fn tenth_after_minus_0_lost(text: &str) -> &str {
    if text.starts_with("-0.") {
        "-0"
    } else {
        text
    }
}

fn without_0_before_point(text: &str) -> &str {
    text.strip_prefix("0").filter(|rest| rest.starts_with('.')).unwrap_or(text)
}

fn rounded_down(tenths: i32, tenth: u32) -> String {
    format!("{}.{tenth}", tenths.div_euclid(10))
}

fn with_minus_at_0(tenths: i32) -> String {
    let minus = if tenths == 0 { "-" } else { "" };
    minus.to_string() + &spelled(tenths)
}

fn front_written(text: &str, out: &mut [u8]) -> usize {
    let length = text.len().min(out.len());
    out[..length].copy_from_slice(&text.as_bytes()[..length]);
    if length == text.len() {
        length
    } else {
        0
    }
}

fn length_for_short(tenths: i32, out: &mut [u8]) -> usize {
    let text = spelled(tenths);
    written(&text, out);
    text.len()
}

fn nothing_into_its_length(tenths: i32, out: &mut [u8]) -> usize {
    let text = spelled(tenths);
    if out.len() == text.len() {
        0
    } else {
        written(&text, out)
    }
}

fn byte_behind(tenths: i32, out: &mut [u8]) -> usize {
    let length = written(&spelled(tenths), out);
    if let Some(byte) = out.get_mut(length).filter(|_| length > 0) {
        *byte = 0;
    }
    length
}

fn written_at_end(text: &str, out: &mut [u8]) -> usize {
    match out.len().checked_sub(text.len()) {
        Some(place) => written(text, &mut out[place..]),
        None => 0,
    }
}

fn emptied_before(tenths: i32, out: &mut [u8]) -> usize {
    out.fill(b'0');
    written(&spelled(tenths), out)
}
