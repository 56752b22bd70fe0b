//! Texts to be read: every short one of some bytes, sound ones with one byte changed, and texts from a seed.

use crate::by_words;
use common::random::Random;
use common::texts;

const SHORT: usize = 6;
const ALPHABET: &[u8] = b"0159.-x";

/// Sound ones: of few bytes and of many, and at the ends of the ranges and of machine words.
const SOUND: [&str; 22] = [
    "0", "0.0", "0.5", "-0.5", "7", "7.0", "-7", "-7.3", "10", "1234.5", "99999999.9", "-99999999.9", "100000000",
    "100000000.0", "-100000000.0", "100000000.1", "200000000", "-214748364.8", "429496729.6", "999999999",
    "999999999.9", "-999999999.9",
];

/// Malformed ones, which a careless reader may take.
const MALFORMED: [&str; 24] = [
    "-0", "-0.0", "-", "", ".", "-.", ".5", "-.5", "1.", "-1.", "1.55", "00", "00.5", "-00.5", "01", "0,5", "+1", " 1",
    "1 ", "1\n", "1.5.5", "0.-5", "1000000000", "1000000000.0",
];

/// Numbers of tenths about which there is something to get wrong.
const ENDS: [i64; 12] = [
    0,
    10,
    i32::MAX as i64,
    u32::MAX as i64,
    1_000_000_000,
    2_000_000_000,
    9_999_999_990,
    10_000_000_000,
    99_999_999_990,
    100_000_000_000,
    i64::MAX - 20,
    1 << 33,
];

/// Every text of up to six bytes of the alphabet, every text of up to two bytes, and those above with each byte left
/// out, changed to each value, and each value put in at each place.
pub fn planned() -> impl Iterator<Item = Vec<u8>> {
    let bytes: Vec<u8> = (0..=u8::MAX).collect();
    let short = texts::up_to(SHORT, ALPHABET).into_iter().chain(texts::up_to(2, &bytes));
    let known = SOUND.into_iter().chain(MALFORMED).map(str::as_bytes);
    short.chain(known.flat_map(|text| std::iter::once(text.to_vec()).chain(altered(text))))
}

fn altered(text: &'static [u8]) -> impl Iterator<Item = Vec<u8>> {
    let without = (0..text.len()).map(|place| [&text[..place], &text[place + 1..]].concat());
    let changed =
        move |place: usize| (0..=u8::MAX).map(move |byte| [&text[..place], &[byte], &text[place + 1..]].concat());
    let more = move |place: usize| (0..=u8::MAX).map(move |byte| [&text[..place], &[byte], &text[place..]].concat());
    without.chain((0..text.len()).flat_map(changed)).chain((0..=text.len()).flat_map(more))
}

/// A text of up to 16 bytes or a few more: any, one of digits, a sound one, one that is nearly so.
pub fn any(random: &mut Random) -> Vec<u8> {
    match random.below(8) {
        0 => any_of(random, |random| random.below(256) as u8),
        1 => any_of(random, |random| random.pick(b"0123456789.-+, x\t\n")),
        2 => any_of(random, |random| b'0' + random.below(10) as u8),
        3 => random.pick(&MALFORMED).as_bytes().to_vec(),
        4 => in_parts(random),
        5 | 6 => spelling(random),
        _ => {
            let mut text = spelling(random);
            damage(random, &mut text);
            text
        }
    }
}

fn any_of(random: &mut Random, byte: fn(&mut Random) -> u8) -> Vec<u8> {
    let length = random.below(17);
    (0..length).map(|_| byte(random)).collect()
}

/// Digits before a point and behind it, more or fewer than there should be.
fn in_parts(random: &mut Random) -> Vec<u8> {
    let mut digits = |longest: usize| -> Vec<u8> {
        let length = random.below(longest + 1);
        (0..length).map(|_| random.pick(b"0123456789")).collect()
    };
    let (whole, behind) = (digits(11), digits(3));
    let minus: &[u8] = random.pick(&[b"" as &[u8], b"", b"-", b"--"]);
    let point: &[u8] = random.pick(&[b"." as &[u8], b".", b"", b".."]);
    [minus, &whole, point, &behind].concat()
}

/// Tenths of any number of digits or about an end, whole milliseconds as often as not with a point; ten digits may
/// stand before it.
fn spelling(random: &mut Random) -> Vec<u8> {
    let tenths = match random.below(3) {
        0 => random.pick(&ENDS) + random.below(21) as i64 - 10,
        1 => (random.any_u64() % 10u64.pow(1 + random.below(11) as u32)) as i64,
        _ => 10 * random.below(2_000_000) as i64,
    };
    let minus = if random.one_in(2) { "-" } else { "" };
    let text = format!("{minus}{}.{}", tenths.abs() / 10, tenths.abs() % 10);
    let is_short = random.one_in(2);
    text.strip_suffix(".0").filter(|_| is_short).unwrap_or(&text).as_bytes().to_vec()
}

fn damage(random: &mut Random, text: &mut Vec<u8>) {
    let byte = if random.one_in(2) { random.below(256) as u8 } else { random.pick(b"0159.-,+ \t\n") };
    let place = random.below(text.len());
    match random.below(4) {
        0 => text[place] = byte,
        1 => text.insert(place, byte),
        2 => text.push(byte),
        _ => drop(text.remove(place)),
    }
}

/// What is wrong with a malformed instant.
pub const FAULTS: [&str; 8] = [
    "minus zero",
    "ten digits or more",
    "leading zero",
    "none before the point",
    "none after it",
    "more after it",
    "tab or byte 10",
    "another",
];

/// The place of the fault among these.
pub fn fault(text: &[u8]) -> usize {
    let digits = text.strip_prefix(b"-").unwrap_or(text);
    let point = digits.iter().position(|byte| *byte == b'.').unwrap_or(digits.len());
    let (whole, behind) = digits.split_at(point);
    let are_digits = |part: &[u8]| part.iter().all(u8::is_ascii_digit);
    let is = [
        digits != text && by_words::length(digits) == Some(0),
        are_digits(whole) && whole.len() > 9,
        are_digits(whole) && whole.len() > 1 && whole[0] == b'0',
        whole.is_empty() && behind.len() == 2,
        !whole.is_empty() && are_digits(whole) && behind.len() == 1,
        !whole.is_empty() && are_digits(whole) && behind.len() > 2 && are_digits(&behind[1..]),
        text.iter().any(|byte| b"\t\n".contains(byte)),
    ];
    is.iter().position(|is| *is).unwrap_or(is.len())
}
