//! Lines to be added to a chart, from a seed: sound ones, ones with one thing wrong, and ones that are damaged anyhow.

use common::interface::MOST_ENTRIES;
use common::plain_chart::Entry;
use common::random::Random;
use common::{random_charts, random_inputs};

/// The most lines that are added at once, but for those that are to reach a number of entries.
const MOST_LINES: usize = 4;

/// What is wrong with lines.
#[derive(Clone, Copy, Debug, PartialEq)]
pub enum Fault {
    NoLine,
    TooMany,
    TooManyMalformed,
    NoLastByte,
    Of64Bytes,
    Of65Bytes,
    EmptyLine,
    CarriageReturn,
    Word,
    NumbersFrom0,
    NumberRepeated,
    NumberSkipped,
    CodeMisnumbered,
    OwnOperand,
    LaterOperand,
    Code,
    Length,
    LengthOfOwnOperand,
    LengthOf9Digits,
    LengthOf10Digits,
    LengthMalformed,
    PointInOperand,
}

/// Each with the number that it gives; two faults in one line give the number that comes first, "2, 3, 4, 6, 5".
pub const FAULTS: [(Fault, u32, &str); 22] = [
    (Fault::NoLine, 1, "none"),
    (Fault::TooMany, 2, "33rd entry"),
    (Fault::TooManyMalformed, 2, "33rd and malformed"),
    (Fault::NoLastByte, 3, "no last byte"),
    (Fault::Of64Bytes, 3, "64 bytes"),
    (Fault::Of65Bytes, 3, "65 bytes"),
    (Fault::EmptyLine, 3, "empty line"),
    (Fault::CarriageReturn, 3, "carriage return"),
    (Fault::Word, 3, "word"),
    (Fault::NumbersFrom0, 4, "from 0 again"),
    (Fault::NumberRepeated, 4, "repeated"),
    (Fault::NumberSkipped, 4, "skipped"),
    (Fault::CodeMisnumbered, 4, "skipped and code"),
    (Fault::OwnOperand, 5, "own operand"),
    (Fault::LaterOperand, 5, "later operand"),
    (Fault::Code, 6, "code"),
    (Fault::Length, 6, "length"),
    (Fault::LengthOfOwnOperand, 6, "length and own operand"),
    (Fault::LengthOf9Digits, 6, "length of 9 digits"),
    (Fault::LengthOf10Digits, 3, "length of 10 digits"),
    (Fault::LengthMalformed, 3, "length malformed"),
    (Fault::PointInOperand, 3, "point in an operand"),
];

/// Texts that are no length.
const NO_LENGTHS: [&str; 8] = [".5", "1.", "1.55", "00.5", "0,5", "-0.5", "-0.0", "01"];

/// Lines, and where they are drawn with a fault, which one and its line, counted from 1.
pub struct Drawn {
    pub lines: Vec<u8>,
    pub fault: Option<(Fault, usize)>,
}

/// Lines for a chart of these entries, at most 32.
pub fn any(random: &mut Random, chart: &[Entry]) -> Drawn {
    match random.below(12) {
        0..=6 if chart.len() < MOST_ENTRIES => sound(random, chart),
        7 => Drawn { lines: random_charts::any_more(random, chart.len()), fault: None },
        _ => {
            let (fault, ..) = random.pick(&FAULTS);
            with_fault(random, chart, fault)
        }
    }
}

/// Sound lines for a chart of fewer than 32 entries: one as often as more, and now and then up to 31 or 32.
pub fn sound(random: &mut Random, chart: &[Entry]) -> Drawn {
    let room = MOST_ENTRIES - chart.len();
    let count = match random.below(32) {
        0 => room - usize::from(room > 1 && random.one_in(2)),
        1..=16 => 1,
        _ => 1 + random.below(room.min(MOST_LINES)),
    };
    Drawn { lines: more(random, chart, count).concat().into_bytes(), fault: None }
}

fn more(random: &mut Random, chart: &[Entry], count: usize) -> Vec<String> {
    let most_leaves = random.pick(&[2, 3, 4]);
    let text = random_inputs::more_lines(random, chart, count, most_leaves);
    text.split_inclusive('\n').map(str::to_string).collect()
}

fn with_fault(random: &mut Random, chart: &[Entry], fault: Fault) -> Drawn {
    let room = MOST_ENTRIES - chart.len();
    let drawn = |lines: Vec<String>, line: usize| Drawn { lines: lines.concat().into(), fault: Some((fault, line)) };
    let count = 1 + random.below(room.clamp(1, MOST_LINES));
    match fault {
        Fault::NoLine => drawn(vec![], 1),
        Fault::TooMany => {
            let too_many = 1 + random.below(2);
            drawn(more(random, chart, room + too_many), room + 1)
        }
        Fault::TooManyMalformed => drawn([more(random, chart, room), vec!["x\n".into()]].concat(), room + 1),
        Fault::NoLastByte => {
            let mut lines = more(random, chart, count);
            lines[count - 1].pop();
            drawn(lines, count)
        }
        Fault::NumbersFrom0 => {
            let rest = |line: &str| line[line.find('\t').expect("a line has fields")..].to_string();
            let lines = more(random, chart, count);
            drawn(lines.iter().enumerate().map(|(place, line)| format!("{place}{}", rest(line))).collect(), 1)
        }
        _ => {
            let mut lines = more(random, chart, count);
            let place = random.below(count);
            lines[place] = faulty_line(random, fault, chart.len() + place, &lines[place]);
            drawn(lines, place + 1)
        }
    }
}

/// A line in the place of a sound one of this entry number.
fn faulty_line(random: &mut Random, fault: Fault, number: usize, sound: &str) -> String {
    let filled = |length: usize| format!("{:0<filled$}\n", format!("{number}\tevent\t1"), filled = length - 1);
    match fault {
        Fault::Of64Bytes => filled(64),
        Fault::Of65Bytes => filled(65),
        Fault::EmptyLine => "\n".into(),
        Fault::CarriageReturn => sound.replace('\n', "\r\n"),
        Fault::Word => format!("{number}\tevents\t1\n"),
        Fault::NumberRepeated => format!("{}\tevent\t1\n", number - 1),
        Fault::NumberSkipped => format!("{}\tevent\t1\n", number + 1),
        Fault::CodeMisnumbered => format!("{}\tevent\t256\n", number + 1),
        Fault::OwnOperand if random.one_in(2) => format!("{number}\tor\t{number}\t0\n"),
        Fault::OwnOperand => format!("{number}\tcut\t0\t{number}\n"),
        Fault::LaterOperand => format!("{number}\tseq\t{}\t0\n", number + 1),
        Fault::Code => format!("{number}\tevent\t256\n"),
        Fault::Length => format!("{number}\tafter\t0\t200000000.1\n"),
        Fault::LengthOf9Digits => format!("{number}\tatmost\t0\t{}\n", random.pick(&["999999999", "999999999.9"])),
        Fault::LengthOf10Digits => format!("{number}\tatleast\t0\t{}\n", random.pick(&["1000000000", "1000000000.0"])),
        Fault::LengthMalformed => format!("{number}\tlasts\t0\t{}\n", random.pick(&NO_LENGTHS)),
        Fault::PointInOperand if random.one_in(2) => format!("{number}\tor\t0.0\t0\n"),
        Fault::PointInOperand => format!("{number}\tafter\t0.0\t0.5\n"),
        _ => format!("{number}\tlasts\t{number}\t200000000.1\n"),
    }
}
