//! Damage to the lines of an input, as a careless hand, a wrong editor or a broken line would do it.

use crate::inputs::SPELLINGS;
use common::random::Random;

/// The lines of an input in the making, each with its byte 10.
type Lines = Vec<Vec<u8>>;
type Damage = fn(&mut Random, &mut Lines, usize);

/// Bytes that mean something to a reader of text, or that a careless one takes for something else.
const TELLING_BYTES: [u8; 18] =
    [0, 8, b'\t', b'\n', 11, b'\r', b' ', b'-', b'+', b'.', b',', b'0', b'1', b'9', b'/', b':', 0x7f, 0xff];

const WORDS: [&str; 17] = [
    "open", "event", "clock", "forget", "Open", "opens", "even", "event ", "clocks", "cloc", "forge", "seq", "", "-[]",
    "after", "cut", "change",
];

const DAMAGES: [Damage; 20] = [
    change_byte, change_byte, insert_byte, delete_byte, drop_line, double_line, swap_lines, cut_line, join_lines,
    cut_text, cut_last_byte, lengthen, insert_empty_line, drop_empty_line, change_tab, change_digit, change_point,
    add_point, change_number, change_word,
];

/// One damage to one line.
pub fn any(random: &mut Random, lines: &mut Lines) {
    if lines.is_empty() {
        return;
    }
    let place = random.below(lines.len());
    let damage = random.pick(&DAMAGES);
    damage(random, lines, place);
}

fn any_byte(random: &mut Random) -> u8 {
    if random.one_in(3) {
        random.below(256) as u8
    } else {
        random.pick(&TELLING_BYTES)
    }
}

fn change_byte(random: &mut Random, lines: &mut Lines, place: usize) {
    let line = &mut lines[place];
    if !line.is_empty() {
        let at = random.below(line.len());
        line[at] = any_byte(random);
    }
}

fn insert_byte(random: &mut Random, lines: &mut Lines, place: usize) {
    let at = random.below(lines[place].len() + 1);
    lines[place].insert(at, any_byte(random));
}

fn delete_byte(random: &mut Random, lines: &mut Lines, place: usize) {
    let line = &mut lines[place];
    if !line.is_empty() {
        line.remove(random.below(line.len()));
    }
}

fn drop_line(_: &mut Random, lines: &mut Lines, place: usize) {
    lines.remove(place);
}

fn double_line(_: &mut Random, lines: &mut Lines, place: usize) {
    lines.insert(place, lines[place].clone());
}

fn swap_lines(random: &mut Random, lines: &mut Lines, place: usize) {
    let other = random.below(lines.len());
    lines.swap(place, other);
}

/// A line's end is lost, up to its byte 10.
fn cut_line(random: &mut Random, lines: &mut Lines, place: usize) {
    let length = random.below(lines[place].len().max(1));
    lines[place].truncate(length);
    lines[place].push(b'\n');
}

/// A line without its byte 10 stands before the next.
fn join_lines(_: &mut Random, lines: &mut Lines, place: usize) {
    lines[place].pop();
}

/// The text ends inside a line or right after it.
fn cut_text(random: &mut Random, lines: &mut Lines, place: usize) {
    let length = random.below(lines[place].len() + 1);
    lines[place].truncate(length);
    lines.truncate(place + 1);
}

fn cut_last_byte(_: &mut Random, lines: &mut Lines, _: usize) {
    lines.last_mut().and_then(Vec::pop);
}

/// A line of 63 to 66 bytes or of very many.
fn lengthen(random: &mut Random, lines: &mut Lines, place: usize) {
    let length = random.pick(&[63, 64, 65, 66, 100, 1_000, 70_000]);
    let byte = random.pick(b"0 \t1x");
    let line = &mut lines[place];
    line.pop();
    line.resize(length - 1, byte);
    line.push(b'\n');
}

fn insert_empty_line(_: &mut Random, lines: &mut Lines, place: usize) {
    lines.insert(place, b"\n".to_vec());
}

fn drop_empty_line(_: &mut Random, lines: &mut Lines, _: usize) {
    lines.retain(|line| line != b"\n");
}

/// A tab is doubled or lost, or something else stands in its place.
fn change_tab(random: &mut Random, lines: &mut Lines, place: usize) {
    let other: &[u8] = random.pick(&[b"\t\t" as &[u8], b"", b" ", b"\t ", b" \t", b"\n"]);
    let line = &mut lines[place];
    if let Some(at) = line.iter().rposition(|byte| *byte == b'\t') {
        line.splice(at..=at, other.iter().copied());
    }
}

fn change_digit(random: &mut Random, lines: &mut Lines, place: usize) {
    let digit = random.pick(b"0123456789");
    if let Some(old) = lines[place].iter_mut().rfind(|byte| byte.is_ascii_digit()) {
        *old = digit;
    }
}

/// A point is doubled, moved or lost, or something else stands in its place.
fn change_point(random: &mut Random, lines: &mut Lines, place: usize) {
    let other: &[u8] = random.pick(&[b"" as &[u8], b"..", b".0", b"0.", b",", b":", b" ", b"-"]);
    let line = &mut lines[place];
    if let Some(at) = line.iter().rposition(|byte| *byte == b'.') {
        line.splice(at..=at, other.iter().copied());
    }
}

/// A point, or one and a digit or two, behind the last field.
fn add_point(random: &mut Random, lines: &mut Lines, place: usize) {
    let line = &mut lines[place];
    line.pop();
    line.extend(random.pick(&[b"." as &[u8], b".0", b".5", b".05"]).iter().chain(b"\n"));
}

/// Another number, or none, in the last field.
fn change_number(random: &mut Random, lines: &mut Lines, place: usize) {
    let spelling = random.pick(&SPELLINGS);
    let line = &mut lines[place];
    let from = line.iter().rposition(|byte| *byte == b'\t').map_or(0, |at| at + 1);
    line.truncate(from);
    line.extend(spelling.bytes().chain([b'\n']));
}

/// Another word in the first field.
fn change_word(random: &mut Random, lines: &mut Lines, place: usize) {
    let word = random.pick(&WORDS);
    let line = &mut lines[place];
    let to = line.iter().position(|byte| *byte == b'\t').unwrap_or(0);
    line.splice(..to, word.bytes());
}
