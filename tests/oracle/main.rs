//! Prints what the listing program must print for the chart, empty line and log on standard input.

use oracle::listing::{listing, TABLE_ROWS};
use oracle::model::Over;
use std::io::{Read, Write};
use std::process::ExitCode;

const HELP: &str = "use: oracle [--rows N] [--all-events]
Reads a chart, an empty line and a log on standard input and prints the table at the end, or the refusal.
  --rows N      the rows that the table can hold (3000)
  --all-events  enumerate over every event, forgotten ones too: the definition to the letter, and slow on long logs
";

struct Options {
    rows: usize,
    over: Over,
}

fn main() -> ExitCode {
    let Some(options) = options(std::env::args().skip(1)) else {
        eprint!("{HELP}");
        return ExitCode::from(2);
    };
    let mut input = Vec::new();
    let printed = std::io::stdin()
        .read_to_end(&mut input)
        .and_then(|_| std::io::stdout().write_all(&listing(&input, options.rows, options.over)));
    match printed {
        Ok(()) => ExitCode::SUCCESS,
        Err(error) => {
            eprintln!("oracle: {error}");
            ExitCode::from(2)
        }
    }
}

fn options(mut arguments: impl Iterator<Item = String>) -> Option<Options> {
    let mut options = Options { rows: TABLE_ROWS, over: Over::EventsFromFloor };
    while let Some(argument) = arguments.next() {
        match argument.as_str() {
            "--rows" => options.rows = arguments.next()?.parse().ok()?,
            "--all-events" => options.over = Over::AllEvents,
            _ => return None,
        }
    }
    Some(options)
}
