//! Compares the proved report with one counted from the listing of the set-building program, on inputs by plan and from
//! fixed seeds, and from that of the plain program on long ones. With --self-test it compares programs and calls that are
//! wrong on purpose instead, and each of them must be found.

mod caller;
#[path = "../listing/comparison.rs"]
mod comparison;
mod counted;
#[path = "../listing/damage.rs"]
mod damage;
mod expected;
#[path = "../listing/inputs.rs"]
mod inputs;
mod largest_table;
#[path = "../listing/lent.rs"]
mod lent;
#[path = "../listing/many_entries.rs"]
mod many_entries;
mod met;
#[path = "../listing/planned.rs"]
mod planned;
#[path = "../listing/printed.rs"]
mod printed;
mod proved_report;
mod wrong_calls;
mod wrong_reports;

use caller::{Caller, OUT_LENGTH};
use common::harness::{self, Compared, Met as _, Named, Test};
use common::random::Random;
use comparison::{compare, list_all, long_inputs, set_built, short_inputs, Listing};
use expected::Expected;
use inputs::Case;
use lent::Call;
use met::Met;
use oracle::listing::TABLE_ROWS;
use std::process::ExitCode;
use wrong_reports::Report;

const SEEDS: [u64; 4] = [71, 72, 73, 74];
const INPUTS_PER_SEED: usize = 25_000;
/// Enough to find a wrong program.
const SELF_TEST_INPUTS: usize = 4_000;
/// One input in so many is drawn for its number of entries.
const MANY_ENTRIES_ONE_IN: usize = 20;

/// What a program prints for a case, or what else is wrong with what it does.
type Program<'a> = dyn FnMut(&Case, &Expected) -> Result<Vec<u8>, String> + 'a;

fn main() -> ExitCode {
    harness::main::<ReportTest>()
}

struct ReportTest;

/// What stands in the place of the proved call.
enum Subject {
    Program(Report),
    Call(Call),
}

impl Test for ReportTest {
    const NAME: &'static str = "report_test";
    type Met = Met;
    type Subject = Subject;

    fn compare_proved(met: &mut Met) -> Compared {
        let mut caller = Caller::new(proved_report::call);
        compare_call(&mut caller, INPUTS_PER_SEED, met)?;
        compare_long(&mut |case, expected| caller.report(case, expected, OUT_LENGTH), met)
    }

    fn compare(subject: &Subject) -> Compared {
        let mut met = Met::nothing();
        match subject {
            Subject::Program(report) => {
                let mut program = |case: &Case, _: &Expected| Ok(report(&case.input, case.table_rows));
                compare_short(&mut program, SELF_TEST_INPUTS, &mut met)
            }
            Subject::Call(call) => compare_call(&mut Caller::new(*call), SELF_TEST_INPUTS, &mut met),
        }
    }

    fn right() -> Vec<Named<Subject>> {
        vec![
            ("the plain program", Subject::Program(wrong_reports::plain_report)),
            ("the plain call", Subject::Call(wrong_calls::plain_call)),
        ]
    }

    fn wrong() -> Vec<Named<Subject>> {
        let programs = wrong_reports::ALL.map(|(fault, report)| (fault, Subject::Program(report)));
        let calls = wrong_calls::ALL.map(|(fault, call)| (fault, Subject::Call(call)));
        programs.into_iter().chain(calls).collect()
    }
}

/// Compares a program on a case with the report counted from a listing.
fn compare_case(program: &mut Program, kind: &'static str, case: &Case, list: Listing, met: &mut Met) -> Compared {
    let expected = Expected::of(case, list);
    met.count(kind, case, &expected.listing);
    compare(&mut |_, _| program(case, &expected), case, &expected.report())
}

/// Compares a program on the inputs by plan and on so many from each seed, up to the first difference.
fn compare_short(program: &mut Program, per_seed: usize, met: &mut Met) -> Compared {
    for (kind, case) in short_inputs(SEEDS, per_seed).chain(inputs_of_many_entries(per_seed / MANY_ENTRIES_ONE_IN)) {
        compare_case(program, kind, &case, set_built, met)?;
    }
    Ok(())
}

/// So many from each seed.
fn inputs_of_many_entries(per_seed: usize) -> impl Iterator<Item = (&'static str, Case)> {
    SEEDS.into_iter().flat_map(move |seed| {
        let mut random = Random::new(seed);
        (0..per_seed).map(move |_| ("about 32 entries", many_entries::draw(&mut random)))
    })
}

/// Compares a program with the plain one on inputs of many events, and on the largest table.
fn compare_long(program: &mut Program, met: &mut Met) -> Compared {
    for input in long_inputs() {
        compare_case(program, "many events", &Case { input, table_rows: TABLE_ROWS }, list_all, met)?;
    }
    for case in largest_table::all() {
        compare_case(program, "the largest table", &case, list_all, met)?;
    }
    Ok(())
}

/// Compares a call on outputs of several sizes and on the short inputs.
fn compare_call(caller: &mut Caller, per_seed: usize, met: &mut Met) -> Compared {
    compare_outputs(caller)?;
    compare_short(&mut |case, expected| caller.report(case, expected, OUT_LENGTH), per_seed, met)
}

/// An output of fewer bytes than the longest report could take gets nothing, one of more bytes the same report.
fn compare_outputs(caller: &mut Caller) -> Compared {
    for table_rows in [0, 8, TABLE_ROWS] {
        let case = Case { input: planned::P1.to_vec(), table_rows };
        for out_length in [0, 39, OUT_LENGTH - 1] {
            caller.compare_short_output(&case.input, table_rows, out_length)?;
        }
        let expected = Expected::of(&case, set_built);
        for out_length in [OUT_LENGTH, OUT_LENGTH + 1, 10 * OUT_LENGTH] {
            compare(&mut |_, _| caller.report(&case, &expected, out_length), &case, &expected.report())?;
        }
    }
    Ok(())
}
