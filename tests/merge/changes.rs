//! Logs that change between the pass that checks them and the pass that merges them, by the library of altered_files.c.
//! Of a log that only grew, what was checked is merged. Where a line is not sound any more or the log is shorter, the
//! merging stops, and what was printed until then is a sound log.

use crate::altered::{command, compare_stopped, is_sound_or_nothing};
use crate::by_sets::{self, read, Pair};
use crate::pairs::{self, both};
use crate::tested::{compare, described, Scratch, NAMES};
use crate::{large_pairs, Given, Runs};
use common::harness::{Compared, Named};
use common::paper::{instant, lines, spelled};
use common::random::Random;
use std::fs;
use std::process::Output;

const PAIRS: usize = 60;
const LARGE_PAIRS: usize = 2;
/// Not every log has a place for each change; so many must have.
const LEAST_CHANGED: usize = 50;

/// The log as the second pass finds it, or none where there is no place for the change.
type Change = fn(&mut Random, &[u8]) -> Option<Vec<u8>>;

const CHANGES: [Named<Change>; 14] = [
    ("grown by lines", |_, text| Some([text, b"event\t1\nclock\t99999999.9\nevent\t2\n"].concat())),
    ("grown by a part of a line", |_, text| Some([text, b"clo"].concat())),
    ("grown by what is no log", |_, text| Some([text, b"forget\t0\n", &[0; 70_000]].concat())),
    ("emptied", |_, _| Some(vec![])),
    ("shortened", |random, text| Some(text[..random.below(text.len())].to_vec())),
    ("shortened by lines", shortened_by_lines),
    ("a line malformed", |random, text| with_line(random, text, 0, |line| [b"x", &line[1..]].concat())),
    ("a byte 10 lost", |random, text| with_line(random, text, 0, |line| line[..line.len() - 1].to_vec())),
    ("a forget for a line", |random, text| with_line(random, text, 1, |_| b"forget\t0\n".to_vec())),
    ("an opening for a line", |random, text| with_line(random, text, 1, |_| b"open\t0\n".to_vec())),
    ("a mark set back", |random, text| with_mark(random, text, |random, open| open - random.below(3) as i64)),
    ("a mark out of range", |random, text| with_mark(random, text, |_, _| 1_000_000_001)),
    ("other codes", |_, text| Some(with_codes_of_nine(text))),
    ("another opening", |_, text| {
        Some([&b"open\t7.5\n"[..], &lines(text).skip(1).collect::<Vec<_>>().concat()].concat())
    }),
];

/// Each change to either log of sound pairs, the small ones with readings of few bytes now and then.
pub fn compare_all(given: &Given) -> Runs {
    let (scratch, mut random) = (Scratch::in_memory("changes"), Random::new(95));
    let mut counts = [0; CHANGES.len()];
    for seed in 0..PAIRS + LARGE_PAIRS {
        let is_large = seed >= PAIRS;
        let pair = if is_large { large_pairs::sound(&mut random) } else { both(pairs::sound(&mut random)) };
        scratch.put(&pair);
        for log in 0..NAMES.len() {
            let text = pair[log].as_deref().unwrap_or_default();
            let pieces = (!is_large && random.one_in(2)).then_some(seed);
            for ((_, change), count) in CHANGES.iter().zip(&mut counts) {
                let Some(changed) = change(&mut random, text) else { continue };
                compare_changed(&pair, log, &changed, &run(given, &scratch, log, Some(&changed), pieces))?;
                *count += 1;
            }
            compare_removed(&pair, log, &run(given, &scratch, log, None, pieces))?;
        }
    }
    match CHANGES.iter().zip(counts).find(|(_, count)| *count < LEAST_CHANGED) {
        Some(((name, _), count)) => Err(format!("{name}: {count} runs alone")),
        None => Ok(counts.iter().sum::<usize>() + 2 * (PAIRS + LARGE_PAIRS)),
    }
}

/// Runs the program with another log, or none, in the place of one that is opened for the second time.
fn run(given: &Given, scratch: &Scratch, log: usize, changed: Option<&[u8]>, pieces: Option<usize>) -> Output {
    let path = scratch.beside("changed");
    match changed {
        Some(changed) => fs::write(&path, changed).expect("a log can be written"),
        None => drop(fs::remove_file(&path)),
    }
    let mut variables = vec![
        ("ALTERED_FILE", NAMES[log].to_string()),
        ("ALTERED_OPENING", "2".to_string()),
        ("OPENED_INSTEAD", path.display().to_string()),
    ];
    variables.extend(pieces.map(|seed| ("PIECES", seed.to_string())));
    scratch.run(&mut command(&given.tested, &variables))
}

/// By what the second pass finds in as many bytes as the first pass had.
fn compare_changed(pair: &Pair, log: usize, changed: &[u8], output: &Output) -> Compared {
    let text = pair[log].as_deref().unwrap_or_default();
    let seen = &changed[..changed.len().min(text.len())];
    let first = lines(text).next().unwrap_or_default();
    if seen == text {
        return compare("a log that grew", pair, output, &by_sets::merge(pair));
    }
    let message = format!("merge: {} changed", NAMES[log]);
    match read(&Some(seen.to_vec())) {
        // That the opening or another line is sound and not the same, nothing is said about.
        _ if seen.starts_with(b"open\t7.5\n") => compare_either(pair, output, &message),
        Ok(_) if seen.len() == text.len() => compare_either(pair, output, &message),
        Ok(_) => compare_stopped(pair, output, &message, &merged_with(pair, log, seen)),
        Err(refused) => {
            let sound = lines(seen).take(refused.line - 1).collect::<Vec<_>>().concat();
            let sound = if sound.is_empty() { first } else { &sound };
            compare_stopped(pair, output, &message, &merged_with(pair, log, sound))
        }
    }
}

/// The merged log with another text for a log.
fn merged_with(pair: &Pair, log: usize, text: &[u8]) -> Vec<u8> {
    let mut pair = pair.clone();
    pair[log] = Some(text.to_vec());
    by_sets::merge(&pair)
}

/// Nothing but a sound log, and no other message.
fn compare_either(pair: &Pair, output: &Output, message: &str) -> Compared {
    let is_said = output.stderr.is_empty() || output.stderr.starts_with(message.as_bytes());
    if output.status.success() && is_said && is_sound_or_nothing(&output.stdout) {
        return Ok(());
    }
    Err(described("a log that is another", pair, output, &format!("a sound log, perhaps {message:?}")))
}

/// A line about the log, whatever it says of it.
fn compare_removed(pair: &Pair, log: usize, output: &Output) -> Compared {
    let first = lines(pair[log].as_deref().unwrap_or_default()).next().unwrap_or_default();
    compare_stopped(pair, output, &format!("merge: {} ", NAMES[log]), &merged_with(pair, log, first))
}

fn shortened_by_lines(random: &mut Random, text: &[u8]) -> Option<Vec<u8>> {
    let count = lines(text).count();
    (count > 1).then(|| lines(text).take(1 + random.below(count - 1)).collect::<Vec<_>>().concat())
}

/// The text with another line in the place of one.
fn replaced(text: &[u8], place: usize, line: &[u8]) -> Vec<u8> {
    let all = lines(text).enumerate();
    all.flat_map(|(at, old)| if at == place { line.to_vec() } else { old.to_vec() }).collect()
}

/// Another line in the place of any from this one on.
fn with_line(random: &mut Random, text: &[u8], least: usize, change: fn(&[u8]) -> Vec<u8>) -> Option<Vec<u8>> {
    let left = lines(text).count().checked_sub(least).filter(|left| *left > 0)?;
    let place = least + random.below(left);
    lines(text).nth(place).map(|line| replaced(text, place, &change(line)))
}

/// Another instant in the place of a mark's, by the open one.
fn with_mark(random: &mut Random, text: &[u8], change: fn(&mut Random, i64) -> i64) -> Option<Vec<u8>> {
    let tenths = |line: &[u8]| instant(line.trim_ascii_end().split(|byte| *byte == b'\t').nth(1)?);
    let instants: Vec<(usize, i64)> = lines(text)
        .enumerate()
        .filter(|(_, line)| !line.starts_with(b"event"))
        .filter_map(|(place, line)| Some((place, tenths(line)?)))
        .collect();
    let mark = 1 + random.below(instants.len().checked_sub(1).filter(|marks| *marks > 0)?);
    let instant = spelled(change(random, instants[mark - 1].1));
    Some(replaced(text, instants[mark].0, format!("clock\t{instant}\n").as_bytes()))
}

/// The same log, but that codes of one digit are 9.
fn with_codes_of_nine(text: &[u8]) -> Vec<u8> {
    lines(text)
        .flat_map(|line| if line.starts_with(b"event") && line.len() == 8 { b"event\t9\n" } else { line })
        .copied()
        .collect()
}
