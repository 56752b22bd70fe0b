//! Compares the proved reading and writing of instants and lengths with plain ones, by the words of document 01 and
//! request N11: on every short text of some bytes and on texts from a fixed seed, and on numbers by plan and from a
//! fixed seed. With --self-test it compares readers and writers that are wrong on purpose instead, and each of them
//! must be found.

mod by_words;
mod calls;
mod numbers;
mod proved_decimal;
mod texts;
mod wrong_calls;

use calls::{answer, Calls, Tenths, BY_WORDS, OF_OTHER_TESTS};
use common::harness::{self, Compared, Met as _, Named, Test, LEAST_MET};
use common::random::Random;
use std::process::ExitCode;
use texts::FAULTS;

/// How many texts and numbers are compared beside those by plan.
struct Extent {
    texts: usize,
    numbers: usize,
}

const FULL: Extent = Extent { texts: 2_000_000, numbers: 1_000_000 };
/// Enough to find a wrong call.
const SELF_TEST: Extent = Extent { texts: 50_000, numbers: 20_000 };

/// What stands around a text, and would be read with it by a reader that goes too far.
const AROUND: &[u8] = b"-1.5";
/// The bytes before and behind an output, which no call may touch.
const MARGIN: usize = 8;
/// No text is longer than 12 bytes.
const LONGEST_OUT: usize = 32;
const SHORTEST_TEXT: usize = 3;
const LONGEST_TEXT: usize = 12;

fn main() -> ExitCode {
    harness::main::<DecimalTest>()
}

struct DecimalTest;

impl Test for DecimalTest {
    const NAME: &'static str = "decimal_test";
    type Met = Met;
    type Subject = Calls;

    fn compare_proved(met: &mut Met) -> Compared {
        compare(&proved_decimal::CALLS, &FULL, met)
    }

    fn compare(calls: &Calls) -> Compared {
        compare(calls, &SELF_TEST, &mut Met::nothing())
    }

    fn right() -> Vec<Named<Calls>> {
        vec![("by the words", BY_WORDS), ("as the other tests read and spell", OF_OTHER_TESTS)]
    }

    fn wrong() -> Vec<Named<Calls>> {
        wrong_calls::all()
    }
}

/// Compares all, up to the first difference.
fn compare(calls: &Calls, extent: &Extent, met: &mut Met) -> Compared {
    let mut random = Random::new(81);
    texts::planned().try_for_each(|text| compare_text(calls, &text, met))?;
    (0..extent.texts).try_for_each(|_| compare_text(calls, &texts::any(&mut random), met))?;
    for number in numbers::planned() {
        (0..=LONGEST_TEXT + 4).try_for_each(|room| compare_written(calls, number, room, met))?;
        compare_read_back(calls, number)?;
    }
    for _ in 0..extent.numbers {
        let (number, more) = (numbers::any(&mut random), 1 + random.below(LONGEST_OUT - LONGEST_TEXT));
        let length = by_words::spelled(number).len();
        [length - 1, length, length + more]
            .into_iter()
            .try_for_each(|room| compare_written(calls, number, room, met))?;
        compare_read_back(calls, number)?;
    }
    Ok(())
}

/// Reads a text as an instant and as a length.
fn compare_text(calls: &Calls, text: &[u8], met: &mut Met) -> Compared {
    let (instant, length) = (by_words::instant(text), by_words::length(text));
    compare_read("instant", calls.read_instant, text, answer(instant))?;
    compare_read("length", calls.read_length, text, answer(length))?;
    met.count_text(text, instant, length);
    // What is wider than 32 bits is out of range, and is not written.
    match instant.and_then(|tenths| i32::try_from(tenths).ok()) {
        Some(tenths) => compare_spelling(calls, text, tenths, met),
        None => Ok(()),
    }
}

/// The text stands among others, so that a reader has no end but its length.
fn compare_read(what: &str, read: fn(&[u8]) -> Tenths, text: &[u8], expected: Tenths) -> Compared {
    let among_others = [AROUND, text, AROUND].concat();
    let answer = read(&among_others[AROUND.len()..AROUND.len() + text.len()]);
    if answer == expected {
        return Ok(());
    }
    Err(format!("{what} \"{}\": {answer:?}, expected {expected:?}", text.escape_ascii()))
}

/// One spelling for each number: a sound text is what is written for its tenths, or that without its point and 0.
fn compare_spelling(calls: &Calls, text: &[u8], tenths: i32, met: &mut Met) -> Compared {
    let mut out = [0; LONGEST_OUT];
    let length = (calls.write_instant)(tenths, &mut out);
    let written = out.get(..length).unwrap_or_default();
    let is_whole = written.strip_suffix(b".0") == Some(text);
    met.spellings[usize::from(is_whole)] += 1;
    if is_whole || written == text {
        return Ok(());
    }
    Err(format!("\"{}\" is {tenths} tenths, for which \"{}\" is written", text.escape_ascii(), written.escape_ascii()))
}

/// Writes a number into an output of so many bytes: the answer, every byte of the output and those around it.
fn compare_written(calls: &Calls, number: i32, room: usize, met: &mut Met) -> Compared {
    let text = by_words::spelled(number);
    // No byte that may be written.
    let mut memory: [u8; LONGEST_OUT + 2 * MARGIN] = std::array::from_fn(|place| 0x80 | place as u8);
    let mut expected = memory;
    let length = calls::written(&text, &mut expected[MARGIN..MARGIN + room]);
    met.count_written(text.len(), room);
    let answer = (calls.write_instant)(number, &mut memory[MARGIN..MARGIN + room]);
    if (answer, memory) == (length, expected) {
        return Ok(());
    }
    let out = |memory: &[u8]| memory[MARGIN..MARGIN + room].escape_ascii().to_string();
    Err(format!(
        "{number} tenths into {room} bytes: {answer} and \"{}\", expected {length} and \"{}\"",
        out(&memory),
        out(&expected)
    ))
}

/// What is written for a number is read as that number.
fn compare_read_back(calls: &Calls, number: i32) -> Compared {
    let mut out = [0; LONGEST_OUT];
    let length = (calls.write_instant)(number, &mut out);
    compare_read("written instant", calls.read_instant, &out[..length.min(LONGEST_OUT)], answer(Some(number.into())))
}

/// What a run reached.
struct Met {
    /// Texts that are an instant: without a point, with a 0 behind it, with another digit; with a minus; wider than 32
    /// bits.
    instants: [usize; 5],
    /// Texts that are a length.
    lengths: usize,
    /// Texts that are no instant, by what is wrong.
    malformed: [usize; FAULTS.len()],
    /// Sound texts that are written so, and that are written with a point and a 0 more.
    spellings: [usize; 2],
    /// Numbers by the bytes that they take, each in every output.
    written: [usize; LONGEST_TEXT - SHORTEST_TEXT + 1],
    /// Outputs that are too short, just long enough and longer.
    outputs: [usize; 3],
}

impl Met {
    fn count_text(&mut self, text: &[u8], instant: Option<i64>, length: Option<i64>) {
        self.lengths += usize::from(length.is_some());
        let Some(tenths) = instant else {
            self.malformed[texts::fault(text)] += 1;
            return;
        };
        let has_point = text.contains(&b'.');
        let is_wide = i32::try_from(tenths).is_err();
        let met = [!has_point, has_point && tenths % 10 == 0, tenths % 10 != 0, tenths < 0, is_wide];
        self.instants.iter_mut().zip(met).for_each(|(count, met)| *count += usize::from(met));
    }

    fn count_written(&mut self, length: usize, room: usize) {
        self.written[length - SHORTEST_TEXT] += 1;
        self.outputs[usize::from(room >= length) + usize::from(room > length)] += 1;
    }

    fn counts(&self) -> impl Iterator<Item = &usize> {
        let texts = self.instants.iter().chain([&self.lengths]).chain(&self.malformed).chain(&self.spellings);
        texts.chain(&self.written).chain(&self.outputs)
    }
}

impl harness::Met for Met {
    fn nothing() -> Met {
        Met {
            instants: [0; 5],
            lengths: 0,
            malformed: [0; FAULTS.len()],
            spellings: [0; 2],
            written: [0; LONGEST_TEXT - SHORTEST_TEXT + 1],
            outputs: [0; 3],
        }
    }

    fn is_enough(&self) -> bool {
        self.counts().all(|count| *count >= LEAST_MET)
    }

    fn print(&self) {
        let [whole, with_0, tenths, negative, wide] = self.instants;
        let [same, longer] = self.spellings;
        let sound = whole + with_0 + tenths;
        println!("{} texts, no difference", sound + self.malformed.iter().sum::<usize>());
        println!("  {sound} instants: {whole} whole, {with_0} with a tenth of 0, {tenths} with another");
        println!("    {negative} with a minus, {wide} wider than 32 bits");
        println!("    {same} as they are written, {longer} without the point and 0 that are written");
        println!("  {} lengths", self.lengths);
        let faults = FAULTS.iter().zip(self.malformed).map(|(fault, count)| format!("{fault}: {count}"));
        println!("  no instant  {}", faults.collect::<Vec<_>>().join("  "));
        let bytes = (SHORTEST_TEXT..).zip(self.written).map(|(bytes, count)| format!("{bytes}: {count}"));
        println!("{} writings, no difference, by bytes", self.written.iter().sum::<usize>());
        println!("  {}", bytes.collect::<Vec<_>>().join("  "));
        let [short, exact, long] = self.outputs;
        println!("  outputs too short: {short}  just long enough: {exact}  longer: {long}");
    }
}
