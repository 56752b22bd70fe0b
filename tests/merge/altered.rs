//! Readings that bring few bytes, are interrupted or fail, by the library of altered_files.c, which lies beside this
//! program.

use crate::by_sets::{self, Pair};
use crate::pairs::{self, both};
use crate::tested::{compare, described, Scratch, Tested, NAMES};
use crate::{large_pairs, Given, Runs};
use common::harness::Compared;
use common::random::Random;
use std::process::{Command, Output};

const PAIRS: usize = 600;
const LARGE_PAIRS: usize = 10;
const FAILING_PAIRS: usize = 100;
/// The most bytes that a reading brings.
const LONGEST_PIECE: usize = 20;

/// The program with the library, which does what these variables say.
pub fn command(tested: &Tested, variables: &[(&str, String)]) -> Command {
    let library = std::env::current_exe().expect("this program has a path").with_file_name("altered_files.so");
    let mut command = tested.command();
    command.env("LD_PRELOAD", library).envs(variables.iter().map(|(name, value)| (name, value)));
    command
}

/// The same is printed, for small pairs of every kind and for some large ones.
pub fn in_pieces(given: &Given) -> Runs {
    let (scratch, mut random) = (Scratch::in_memory("pieces"), Random::new(93));
    for seed in 0..PAIRS + LARGE_PAIRS {
        let kind = if seed < PAIRS { pairs::kind(&mut random) } else { large_pairs::kind(&mut random) };
        let pair = (kind.draw)(&mut random);
        scratch.put(&pair);
        let output = scratch.run(&mut command(&given.tested, &[("PIECES", seed.to_string())]));
        compare(&format!("{}, in pieces", kind.name), &pair, &output, &by_sets::merge(&pair))?;
    }
    Ok(PAIRS + LARGE_PAIRS)
}

/// Any reading of either log in either pass, of sound pairs.
pub fn failing_readings(given: &Given) -> Runs {
    let (scratch, mut random) = (Scratch::in_memory("failing"), Random::new(94));
    for seed in 0..FAILING_PAIRS {
        let pair = both(pairs::sound(&mut random));
        scratch.put(&pair);
        for (log, name) in NAMES.iter().enumerate() {
            // So many readings at least are made.
            let readings = 1 + pair[log].as_deref().map_or(0, <[u8]>::len) / LONGEST_PIECE;
            let variables = |opening: usize, reading: usize| {
                [
                    ("PIECES", seed.to_string()),
                    ("ALTERED_FILE", name.to_string()),
                    ("ALTERED_OPENING", opening.to_string()),
                    ("FAILING_READING", reading.to_string()),
                ]
            };
            let reading = 1 + random.below(readings);
            let checking = scratch.run(&mut command(&given.tested, &variables(1, reading)));
            compare_not_read(&pair, log, &checking, b"")?;
            let merging = scratch.run(&mut command(&given.tested, &variables(2, reading)));
            compare_not_read(&pair, log, &merging, &by_sets::merge(&pair))?;
        }
    }
    Ok(4 * FAILING_PAIRS)
}

/// A line on standard error tells that a log could not be read, and what was printed is the front of a text.
pub fn compare_not_read(pair: &Pair, log: usize, output: &Output, text: &[u8]) -> Compared {
    compare_stopped(pair, output, &format!("merge: {} could not be read", NAMES[log]), text)
}

/// A line on standard error begins so, and what was printed is nothing, or the front of a text and by itself a sound
/// log.
pub fn compare_stopped(pair: &Pair, output: &Output, message: &str, text: &[u8]) -> Compared {
    let said = std::str::from_utf8(&output.stderr).unwrap_or_default();
    let is_one_line = said.find('\n').is_some_and(|place| place + 1 == said.len());
    let is_said = output.status.success() && is_one_line && said.starts_with(message);
    if is_said && text.starts_with(&output.stdout) && is_sound_or_nothing(&output.stdout) {
        return Ok(());
    }
    let expected = format!("{message:?} on standard error, and the front of \"{}\"", text.escape_ascii());
    Err(described("a run that stops", pair, output, &expected))
}

pub fn is_sound_or_nothing(printed: &[u8]) -> bool {
    printed.is_empty() || by_sets::read(&Some(printed.to_vec())).is_ok()
}
