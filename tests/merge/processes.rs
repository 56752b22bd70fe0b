//! Runs the merge program where files are not as they should be, and where they are large: the samples; logs that are
//! missing, come in pieces, cannot be read, change between the two passes, or are larger than the memory; outputs that
//! cannot be written.

mod altered;
#[allow(dead_code)]
mod by_sets;
#[path = "../decimal/by_words.rs"]
mod by_words;
mod changes;
#[path = "../listing/damage.rs"]
mod damage;
mod damages;
mod failures;
#[path = "../listing/inputs.rs"]
#[allow(dead_code)]
mod inputs;
mod large_pairs;
mod long;
mod pairs;
mod samples;
mod tested;

use std::process::ExitCode;
use tested::Tested;

/// How many runs were as expected, or what the first difference was.
type Runs = Result<usize, String>;

/// The program, the plain one, and the folder of the samples.
struct Given {
    tested: Tested,
    plain: Tested,
    samples: String,
}

fn main() -> ExitCode {
    let [program, plain, samples] = &std::env::args().skip(1).collect::<Vec<_>>()[..] else {
        eprintln!("use: merge_processes PROGRAM PLAIN_PROGRAM SAMPLES");
        return ExitCode::from(2);
    };
    let given = Given { tested: Tested::at(program), plain: Tested::at(plain), samples: samples.clone() };
    let parts: [(&str, fn(&Given) -> Runs); 9] = [
        ("samples", samples::compare_all),
        ("logs that are not there", failures::missing_logs),
        ("logs in pieces, interrupted by signals", altered::in_pieces),
        ("logs that cannot be read", failures::unreadable_logs),
        ("logs whose reading fails in either pass", altered::failing_readings),
        ("logs that change between the passes", changes::compare_all),
        ("outputs that cannot be written", failures::unwritten_outputs),
        ("lines of 100 megabytes in little memory", long::lines),
        ("logs of 100 megabytes in little memory", long::logs),
    ];
    for (name, compare) in parts {
        match compare(&given) {
            Ok(runs) => println!("{name}: {runs} runs as expected"),
            Err(difference) => {
                println!("{name}: {difference}");
                return ExitCode::FAILURE;
            }
        }
    }
    ExitCode::SUCCESS
}
