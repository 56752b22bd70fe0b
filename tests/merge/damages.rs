//! Damage to a log, each for a refusal of its own: 7, 17 or 8.

use crate::damage;
use crate::inputs::SPELLINGS;
use common::paper::{fields, instant, spelled};
use common::random::Random;

/// The lines of a log in the making, each with its byte 10.
pub type Lines = Vec<Vec<u8>>;
/// Damages a log at a line of it, or behind that.
type Damage = fn(&mut Random, &mut Lines, usize);

const DAMAGES: [Damage; 26] = [
    add_forget, add_forget, add_forget, add_forget, add_forget, put_forget_first, put_event_first, open_again,
    drop_opening, cut_last_byte, add_carriage_return, add_leading_zero, add_leading_zero, add_high_code,
    add_ten_digits, add_minus_zero, add_long_line, add_empty_line, mark_again, mark_again, mark_before, mark_beyond,
    mark_beyond, open_beyond, empty, damage_anyhow,
];

/// Codes above 255, of which the lower 8 or 32 bits are sound ones.
const HIGH_CODES: [&str; 9] = ["256", "257", "260", "300", "512", "65537", "4294967295", "4294967297", "9999999999"];
/// Instants out of range; by a tenth the first ones, and the last ones in range in their lower 32 bits.
const BEYOND: [&str; 10] = [
    "100000000.1", "-100000000.1", "100000000.1", "-100000000.1", "100000001", "-999999999", "999999999.9",
    "214748364.8", "429496729.7", "858993459.3",
];

/// One or two damages, early in a log or late.
pub fn any(random: &mut Random, lines: &mut Lines) {
    for _ in 0..1 + usize::from(random.one_in(5)) {
        let place = place(random, lines.len());
        at(random, lines, place);
    }
}

/// One damage in the last lines of a log.
pub fn late(random: &mut Random, lines: &mut Lines) {
    let place = lines.len() - 1 - random.below(lines.len().min(20));
    at(random, lines, place);
}

/// A log without lines has no place for damage.
fn at(random: &mut Random, lines: &mut Lines, place: usize) {
    if !lines.is_empty() {
        random.pick(&DAMAGES)(random, lines, place);
    }
}

fn place(random: &mut Random, count: usize) -> usize {
    let drawn = match random.below(3) {
        0 => random.below(3),
        1 => count.saturating_sub(1 + random.below(3)),
        _ => random.below(count.max(1)),
    };
    drawn.min(count.saturating_sub(1))
}

fn damage_anyhow(random: &mut Random, lines: &mut Lines, _: usize) {
    damage::any(random, lines);
}

fn of(word: &str, field: &str) -> Vec<u8> {
    format!("{word}\t{field}\n").into_bytes()
}

/// The instant reached with a line, and its field.
fn reached(lines: &Lines, place: usize) -> (i64, Vec<u8>) {
    let marked = |line: &Vec<u8>| match fields(line)?.collect::<Vec<_>>()[..] {
        [b"open" | b"clock", field] => Some((instant(field)?, field.to_vec())),
        _ => None,
    };
    lines[..=place].iter().rev().find_map(marked).unwrap_or_default()
}

/// A forget of an instant before the open one, after it, out of range or damaged.
fn forget(random: &mut Random, open_instant: i64) -> Vec<u8> {
    match random.below(6) {
        0 => of("forget", random.pick(&BEYOND)),
        1 => of("forget", random.pick(&SPELLINGS)),
        _ => of("forget", &spelled(open_instant + i64::from(random.between(-20, 20)))),
    }
}

fn add_forget(random: &mut Random, lines: &mut Lines, place: usize) {
    let (open_instant, _) = reached(lines, place);
    lines.insert(place + 1, forget(random, open_instant));
}

/// In the place of the opening or before it.
fn put_forget_first(random: &mut Random, lines: &mut Lines, _: usize) {
    let line = forget(random, 0);
    if random.one_in(2) {
        lines[0] = line;
    } else {
        lines.insert(0, line);
    }
}

fn put_event_first(random: &mut Random, lines: &mut Lines, _: usize) {
    let line = random.pick(&["event\t1\n", "clock\t0\n", "clock\t1.5\n"]);
    lines.insert(0, line.into());
}

fn open_again(random: &mut Random, lines: &mut Lines, place: usize) {
    let other = of("open", random.pick(&["0", "0.1", "-5.0", "100000000.1"]));
    let line = if random.one_in(2) { lines[0].clone() } else { other };
    lines.insert(place + 1, line);
}

fn drop_opening(_: &mut Random, lines: &mut Lines, _: usize) {
    lines.remove(0);
}

fn cut_last_byte(_: &mut Random, lines: &mut Lines, _: usize) {
    lines.last_mut().and_then(Vec::pop);
}

fn add_carriage_return(_: &mut Random, lines: &mut Lines, place: usize) {
    let line = &mut lines[place];
    line.insert(line.len().saturating_sub(1), b'\r');
}

/// Before the first digit.
fn add_leading_zero(_: &mut Random, lines: &mut Lines, place: usize) {
    let line = &mut lines[place];
    if let Some(at) = line.iter().position(u8::is_ascii_digit) {
        line.insert(at, b'0');
    }
}

fn add_high_code(random: &mut Random, lines: &mut Lines, place: usize) {
    lines.insert(place + 1, of("event", random.pick(&HIGH_CODES)));
}

/// A number of ten digits and more where there may be nine, or as a code.
fn add_ten_digits(random: &mut Random, lines: &mut Lines, place: usize) {
    let digits =
        random.pick(&["1000000000", "-1000000000", "1000000000.0", "4294967296", "10000000000", "9999999999.5"]);
    lines.insert(place + 1, of(random.pick(&["clock", "clock", "event", "forget"]), digits));
}

fn add_minus_zero(random: &mut Random, lines: &mut Lines, place: usize) {
    let zero = random.pick(&["-0", "-0.0"]);
    if random.one_in(3) {
        lines[0] = of("open", zero);
    } else {
        lines.insert(place + 1, of(random.pick(&["clock", "clock", "forget"]), zero));
    }
}

/// A line of about 64 bytes or of very many.
fn add_long_line(random: &mut Random, lines: &mut Lines, place: usize) {
    let mut line = random.pick(&[&b"event\t1"[..], b"clock\t1", b"forget\t1", b""]).to_vec();
    line.resize(random.pick(&[62, 63, 63, 64, 64, 65, 70_000]), random.pick(b" 01\tx"));
    line.push(b'\n');
    lines.insert(place + 1, line);
}

fn add_empty_line(_: &mut Random, lines: &mut Lines, place: usize) {
    lines.insert(place + 1, b"\n".to_vec());
}

/// The open instant again, as it is spelled there or otherwise.
fn mark_again(random: &mut Random, lines: &mut Lines, place: usize) {
    let (tenths, field) = reached(lines, place);
    let whole = (tenths / 10).to_string();
    let field = String::from_utf8(field).expect("an instant is ASCII");
    let other = if field == whole { spelled(tenths) } else { whole };
    let is_same = tenths % 10 != 0 || random.one_in(2);
    lines.insert(place + 1, of("clock", if is_same { &field } else { &other }));
}

fn mark_before(random: &mut Random, lines: &mut Lines, place: usize) {
    let (tenths, _) = reached(lines, place);
    lines.insert(place + 1, of("clock", &spelled(tenths - 1 - random.below(30) as i64)));
}

fn mark_beyond(random: &mut Random, lines: &mut Lines, place: usize) {
    lines.insert(place + 1, of("clock", random.pick(&BEYOND)));
}

fn open_beyond(random: &mut Random, lines: &mut Lines, _: usize) {
    lines[0] = of("open", random.pick(&BEYOND));
}

fn empty(_: &mut Random, lines: &mut Lines, _: usize) {
    lines.clear();
}
