//! Charts from a seed: valid ones, and ones damaged as a careless hand, a wrong editor or a broken line would.

use crate::paper::{any_spelling, number};
use crate::plain_chart::{operator, Operator, WORDS};
use crate::random::Random;

/// The lines of a chart in the making, each with its byte 10.
type Lines = Vec<Vec<u8>>;
type Damage = fn(&mut Random, &mut Lines);

const CODES: [u64; 5] = [0, 1, 99, 254, 255];
/// In tenths of a millisecond.
const LENGTHS: [i64; 7] = [0, 1, 5, 10, 1_000_000, 1_999_999_999, 2_000_000_000];
const LINE_COUNTS: [usize; 14] = [0, 1, 2, 3, 4, 5, 8, 16, 30, 31, 32, 32, 33, 34];
/// Two more than a chart may have.
const MOST_LINES: usize = 34;

/// Spellings that are no number, and numbers at the edges of a range or of a machine word: whole ones, and with a point
/// such as only a length may have.
pub const SPELLINGS: [&str; 52] = [
    "", "0", "1", "9", "10", "31", "32", "33", "255", "256", "65536", "199999999", "200000000", "200000001",
    "999999999", "1000000000", "2000000000", "2000000001", "4294967295", "4294967296", "4294967297", "6294967296",
    "9999999999", "00", "01", "0000000001", "10000000000", "18446744073709551616", "-1", "-0", "+1", " 1", "1 ", "0.0",
    "0.5", "1.0", "9.9", "199999999.9", "200000000.0", "200000000.1", "429496729.6", "629496729.6", "999999999.9",
    "1000000000.0", ".5", "1.", "1.55", "00.5", "-0.5", "-0.0", "0,5", "1.x",
];

/// Words that are no operator, most of them close to one.
const WRONG_WORDS: [&str; 29] = [
    "", "Event", "EVENT", "even", "events", "event ", " seq", "-[", "-[]]", "[]", "-()", "-[)", "-", "atmos", "atleas",
    "at most", "afte", "afters", "After", "cu", "cuts", "Cut", "cut ", "chang", "changes", "Change", "!", "x",
    "\u{e9}vent",
];

/// Bytes that mean something to a reader of text, or that a careless one takes for something else.
const TELLING_BYTES: [u8; 22] =
    [0, 1, 8, 9, 10, 11, 13, 32, b'-', b'+', b'.', b',', b'0', b'1', b'9', b'/', b':', b'[', b']', b'e', 0x7f, 0xff];

/// Codes and lengths above their range, some of them in range when cut to a machine word. Of ten digits only a code is
/// a number, with a point only a length.
const ABOVE_RANGE: [&str; 11] = [
    "256", "511", "65536", "200000001", "4294967296", "9999999999", "200000000.1", "429496729.6", "629496729.6",
    "999999999", "999999999.9",
];

const DAMAGES: [Damage; 23] = [
    change_byte, insert_byte, delete_byte, drop_line, double_line, swap_lines, cut_text, cut_last_byte, use_crlf,
    fill_line, insert_empty_line, change_separator, change_number, change_number, add_point, change_word,
    change_operator, drop_field, add_field, misnumber, raise_operand, exceed_range, exceed_range,
];

/// A chart of so many lines, 1 to 32, that every reader must take, each of them one that is wanted.
pub fn valid(random: &mut Random, line_count: usize, is_wanted: impl Fn(&[u8]) -> bool) -> Vec<u8> {
    let mut line = |index| std::iter::repeat_with(|| valid_line(random, index)).find(|line| is_wanted(line));
    (0..line_count).filter_map(|index| line(index)).flatten().collect()
}

/// A chart of 0 to 34 lines, sound but for their count or damaged in one to three places.
pub fn any(random: &mut Random) -> Vec<u8> {
    any_more(random, 0)
}

/// Such lines to be added to a chart of so many entries: up to two more than it may have.
pub fn any_more(random: &mut Random, before: usize) -> Vec<u8> {
    let line_count = if random.one_in(2) { random.pick(&LINE_COUNTS) } else { 1 + random.below(32) };
    let line_count = if before == 0 { line_count } else { line_count % (MOST_LINES - before + 1) };
    let mut lines: Lines = (before..before + line_count).map(|index| valid_line(random, index)).collect();
    if !random.one_in(4) {
        for _ in 0..1 + random.below(3) {
            let damage = random.pick(&DAMAGES);
            if !lines.is_empty() {
                damage(random, &mut lines);
            }
        }
    }
    lines.concat()
}

fn valid_line(random: &mut Random, index: usize) -> Vec<u8> {
    let word = if index == 0 { "event" } else { random.pick(&WORDS) };
    let code = if random.one_in(2) { random.pick(&CODES) } else { random.below(256) as u64 };
    let length = if random.one_in(2) { random.pick(&LENGTHS) } else { (random.any_u64() % 2_000_000_001) as i64 };
    let length = if random.one_in(2) { length - length % 10 } else { length };
    let (a, b) = (random.below(index.max(1)), random.below(index.max(1)));
    match operator(word.as_bytes()) {
        Some(Operator::Event) => format!("{index}\t{word}\t{code}\n"),
        Some(Operator::Length(_) | Operator::After) => {
            format!("{index}\t{word}\t{a}\t{}\n", any_spelling(random, length))
        }
        _ => format!("{index}\t{word}\t{a}\t{b}\n"),
    }
    .into_bytes()
}

fn any_byte(random: &mut Random) -> u8 {
    if random.one_in(3) {
        random.below(256) as u8
    } else {
        random.pick(&TELLING_BYTES)
    }
}

/// One of the lines, as its place in the list.
fn any_line(random: &mut Random, lines: &Lines) -> usize {
    random.below(lines.len())
}

fn change_byte(random: &mut Random, lines: &mut Lines) {
    let line = any_line(random, lines);
    let byte = any_byte(random);
    let place = random.below(lines[line].len().max(1));
    if let Some(old) = lines[line].get_mut(place) {
        *old = byte;
    }
}

fn insert_byte(random: &mut Random, lines: &mut Lines) {
    let line = any_line(random, lines);
    let byte = any_byte(random);
    let place = random.below(lines[line].len() + 1);
    lines[line].insert(place, byte);
}

fn delete_byte(random: &mut Random, lines: &mut Lines) {
    let line = any_line(random, lines);
    let place = random.below(lines[line].len().max(1));
    if place < lines[line].len() {
        lines[line].remove(place);
    }
}

fn drop_line(random: &mut Random, lines: &mut Lines) {
    let line = any_line(random, lines);
    lines.remove(line);
}

fn double_line(random: &mut Random, lines: &mut Lines) {
    let line = any_line(random, lines);
    lines.insert(line, lines[line].clone());
}

fn swap_lines(random: &mut Random, lines: &mut Lines) {
    let (one, other) = (any_line(random, lines), any_line(random, lines));
    lines.swap(one, other);
}

/// Ends the text inside a line or right after it.
fn cut_text(random: &mut Random, lines: &mut Lines) {
    let line = any_line(random, lines);
    let place = random.below(lines[line].len() + 1);
    lines[line].truncate(place);
    lines.truncate(line + 1);
}

/// The last line without its byte 10, as many editors leave it.
fn cut_last_byte(_: &mut Random, lines: &mut Lines) {
    lines.last_mut().and_then(Vec::pop);
}

/// Lines ended as on another system, all of them or one.
fn use_crlf(random: &mut Random, lines: &mut Lines) {
    let only = random.one_in(2).then(|| any_line(random, lines));
    for (index, line) in lines.iter_mut().enumerate() {
        if only.is_none_or(|chosen| chosen == index) && line.pop().is_some() {
            line.extend(b"\r\n");
        }
    }
}

/// A line filled up to 60 to 69 bytes or to thousands, its byte 10 included, around the limit of 64.
fn fill_line(random: &mut Random, lines: &mut Lines) {
    let line = any_line(random, lines);
    let filler = random.pick(&[b'0', b'9', b' ', b'\t', b'x', 0]);
    let length = if random.one_in(10) { 1_000 + random.below(4_000) } else { 60 + random.below(10) };
    lines[line].pop();
    lines[line].resize(length - 1, filler);
    lines[line].push(b'\n');
}

fn insert_empty_line(random: &mut Random, lines: &mut Lines) {
    let place = random.below(lines.len() + 1);
    lines.insert(place, b"\n".to_vec());
}

/// A tab made two, or another separator in its place.
fn change_separator(random: &mut Random, lines: &mut Lines) {
    let separator: &[u8] = random.pick(&[b"\t\t" as &[u8], b" ", b"\t ", b" \t", b",", b""]);
    change_fields(random, lines, |random, _, fields| {
        let place = random.below(fields.len().max(2) - 1);
        if place + 1 < fields.len() {
            let next = fields.remove(place + 1);
            fields[place].extend(separator);
            fields[place].extend(next);
        }
    });
}

/// A number field with another spelling in its place.
fn change_number(random: &mut Random, lines: &mut Lines) {
    let spelling = random.pick(&SPELLINGS);
    change_fields(random, lines, |random, _, fields| {
        if let Some(field) = fields.get_mut(random.pick(&[0, 2, 2, 3, 3])) {
            *field = spelling.as_bytes().to_vec();
        }
    });
}

/// A point and a digit behind a number, of which only a length may have them.
fn add_point(random: &mut Random, lines: &mut Lines) {
    change_fields(random, lines, |random, _, fields| {
        if let Some(field) = fields.get_mut(random.pick(&[0, 2, 3])) {
            field.extend(random.pick(&[b".0", b".5"]));
        }
    });
}

/// The operator word with a wrong one in its place.
fn change_word(random: &mut Random, lines: &mut Lines) {
    let word = random.pick(&WRONG_WORDS);
    change_fields(random, lines, |_, _, fields| set_field(fields, 1, word));
}

/// The operator word with another operator in its place, which may take other operands.
fn change_operator(random: &mut Random, lines: &mut Lines) {
    let word = random.pick(&WORDS);
    change_fields(random, lines, |_, _, fields| set_field(fields, 1, word));
}

fn drop_field(random: &mut Random, lines: &mut Lines) {
    change_fields(random, lines, |random, _, fields| {
        let place = random.below(fields.len());
        fields.remove(place);
    });
}

fn add_field(random: &mut Random, lines: &mut Lines) {
    let spelling = random.pick(&SPELLINGS);
    change_fields(random, lines, |random, _, fields| {
        let place = random.below(fields.len() + 1);
        fields.insert(place, spelling.as_bytes().to_vec());
    });
}

/// An entry number that is not the next, by one or by a machine word.
fn misnumber(random: &mut Random, lines: &mut Lines) {
    let off = random.pick(&[1u64, 2, 1 << 8, 1 << 16, 1 << 32]);
    change_fields(random, lines, |_, number, fields| set_field(fields, 0, &(number + off).to_string()));
}

/// An operand that is the entry itself, a later one, or one that is lower only when cut to a machine word.
fn raise_operand(random: &mut Random, lines: &mut Lines) {
    let above = random.pick(&[0u64, 0, 1, 2, (1 << 8) - 1, (1 << 16) - 1, (1 << 32) - 1]);
    let place = random.pick(&[2, 3]);
    change_fields(random, lines, |_, number, fields| set_field(fields, place, &(number + above).to_string()));
}

fn exceed_range(random: &mut Random, lines: &mut Lines) {
    let number = random.pick(&ABOVE_RANGE);
    change_fields(random, lines, |_, _, fields| {
        let last = fields.len() - 1;
        set_field(fields, last, number);
    });
}

fn set_field(fields: &mut [Vec<u8>], place: usize, text: &str) {
    if let Some(field) = fields.get_mut(place) {
        *field = text.as_bytes().to_vec();
    }
}

/// Takes one line apart at its tabs, has its fields changed, by the entry number that it has or by its place where it
/// has none, and puts it together again with a byte 10.
fn change_fields(random: &mut Random, lines: &mut Lines, change: impl FnOnce(&mut Random, u64, &mut Vec<Vec<u8>>)) {
    let index = any_line(random, lines);
    let text = lines[index].strip_suffix(b"\n").unwrap_or(&lines[index]);
    let mut fields: Vec<Vec<u8>> = text.split(|byte| *byte == b'\t').map(<[u8]>::to_vec).collect();
    let entry_number = number(&fields[0]).unwrap_or(index as u64);
    change(random, entry_number, &mut fields);
    lines[index] = fields.join(&b'\t');
    lines[index].push(b'\n');
}
