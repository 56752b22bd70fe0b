//! Compares the proved listing with the set-building program on inputs by plan and from fixed seeds, and with the plain
//! program on long ones. With --self-test it compares programs that are wrong on purpose instead, and each of them must
//! be found.

mod comparison;
mod damage;
mod inputs;
mod lent;
mod planned;
mod printed;
mod proved_listing;
mod spelled;
mod wrong_programs;

use common::harness::{self, Compared, Met as _, Named, Test, LEAST_MET};
use common::paper::{self, lines};
use common::plain_chart::{self, Entry, Nearest, Operator};
use comparison::{compare, list_all, long_inputs, set_built, short_inputs, Listing, Program};
use inputs::Case;
use lent::Lent;
use oracle::listing::TABLE_ROWS;
use printed::refusal;
use spelled::Spelled;
use std::collections::{BTreeMap, BTreeSet};
use std::process::ExitCode;

const SEEDS: [u64; 4] = [51, 52, 53, 54];
const INPUTS_PER_SEED: usize = 30_000;
/// Enough to find a wrong program.
const SELF_TEST_INPUTS: usize = 4_000;
const NEAREST: [Nearest; 2] = [Nearest::Cut, Nearest::Change];

fn main() -> ExitCode {
    harness::main::<ListingTest>()
}

struct ListingTest;

impl Test for ListingTest {
    const NAME: &'static str = "listing_test";
    type Met = Met;
    type Subject = Listing;

    fn compare_proved(met: &mut Met) -> Compared {
        let mut lent = Lent::new();
        let mut list = |input: &[u8], rows| proved_listing::list(&mut lent, input, rows);
        compare_short(&mut list, INPUTS_PER_SEED, met)?;
        compare_long(&mut list, met)?;
        compare_short_outputs(&mut lent)
    }

    fn compare(list: &Listing) -> Compared {
        compare_short(&mut |input, rows| Ok(list(input, rows)), SELF_TEST_INPUTS, &mut Met::nothing())
    }

    fn right() -> Vec<Named<Listing>> {
        vec![("the plain program", list_all)]
    }

    fn wrong() -> Vec<Named<Listing>> {
        wrong_programs::ALL.to_vec()
    }
}

/// What the inputs of a run reached.
struct Met {
    /// How many were refused with each number, 0 for none.
    refusals: BTreeMap<u32, usize>,
    kinds: BTreeMap<&'static str, usize>,
    rows: usize,
    full_tables: usize,
    /// How many listings had rows of one end and entry whose starts decide their order, without a forget and with one.
    by_start: [usize; 2],
    /// How many had delayed rows, of which none, one or many ends have no other row, without a forget and with one.
    delayed: [[usize; 3]; 2],
    /// How many had rows of `cut` and of `change`, without a forget and with one.
    nearest: [[usize; NEAREST.len()]; 2],
    spelled: Spelled,
}

impl Met {
    fn count(&mut self, kind: &'static str, case: &Case, printed: &[u8]) {
        let number = refusal(printed).map_or(0, |(number, _)| number);
        self.spelled.count(&case.input, refusal(printed));
        *self.refusals.entry(number).or_default() += 1;
        *self.kinds.entry(kind).or_default() += 1;
        if number == 0 {
            let rows = printed.iter().filter(|byte| **byte == b'\n').count() - 1;
            self.rows += rows;
            self.full_tables += usize::from(rows == case.table_rows);
            let has_forget = lines(&case.input).any(|line| line.starts_with(b"forget"));
            self.by_start[usize::from(has_forget)] += usize::from(has_rows_by_start(printed));
            if let Some(entries) = entries_of(&case.input) {
                self.count_operators(&entries, usize::from(has_forget), printed);
            }
        }
    }

    fn count_operators(&mut self, entries: &[Entry], has_forget: usize, printed: &[u8]) {
        if let Some(ends) = ends_of_delays_alone(entries, printed) {
            self.delayed[has_forget][ends.min(2)] += 1;
        }
        for (operator, count) in NEAREST.into_iter().zip(&mut self.nearest[has_forget]) {
            *count += usize::from(!ends_of(Operator::Nearest(operator), entries, &rows_of(printed)).is_empty());
        }
    }
}

/// The rows of a listing, each as its fields.
fn rows_of(printed: &[u8]) -> Vec<Vec<&[u8]>> {
    let fields = |line| paper::fields(line).map_or(Vec::new(), Iterator::collect);
    lines(printed).skip(1).map(fields).collect()
}

/// The entries of an input's chart; none where it is refused.
fn entries_of(input: &[u8]) -> Option<Vec<Entry>> {
    let chart: Vec<&[u8]> = lines(input).take_while(|line| *line != b"\n").collect();
    plain_chart::read(&chart.concat()).ok()
}

/// How many ends a listing has at which no event happened; none where it has no delayed row.
fn ends_of_delays_alone(entries: &[Entry], printed: &[u8]) -> Option<usize> {
    let rows = rows_of(printed);
    let delayed = ends_of(Operator::After, entries, &rows);
    (!delayed.is_empty()).then(|| delayed.difference(&ends_of(Operator::Event, entries, &rows)).count())
}

/// The ends of an operator's rows.
fn ends_of<'a>(operator: Operator, entries: &[Entry], rows: &[Vec<&'a [u8]>]) -> BTreeSet<&'a [u8]> {
    let is_of = |row: &&Vec<&[u8]>| operator_at(entries, row[1]) == Some(operator);
    rows.iter().filter(is_of).map(|row| row[5]).collect()
}

/// The operator of the entry that a field names.
fn operator_at(entries: &[Entry], field: &[u8]) -> Option<Operator> {
    entries.get(paper::number(field)? as usize).map(|entry| entry.operator)
}

/// Whether two neighbours of one entry and end have different starts.
fn has_rows_by_start(printed: &[u8]) -> bool {
    let rows = rows_of(printed);
    let is_one_block = |row: &[&[u8]], next: &[&[u8]]| row[1] == next[1] && row[5] == next[5];
    rows.windows(2).any(|pair| is_one_block(&pair[0], &pair[1]) && pair[0][4] != pair[1][4])
}

impl harness::Met for Met {
    fn nothing() -> Met {
        let refusals = (0..=12).map(|number| (number, 0)).collect();
        Met {
            refusals,
            kinds: BTreeMap::new(),
            rows: 0,
            full_tables: 0,
            by_start: [0; 2],
            delayed: [[0; 3]; 2],
            nearest: [[0; NEAREST.len()]; 2],
            spelled: Spelled::default(),
        }
    }

    /// 10 takes a million events and is met once.
    fn is_enough(&self) -> bool {
        let least = |number: u32| if number == 10 { 1 } else { LEAST_MET };
        let operators = self.delayed.as_flattened().iter().chain(self.nearest.as_flattened());
        let listings = self.by_start.iter().chain([&self.full_tables]).chain(operators);
        self.refusals.iter().all(|(number, count)| *count >= least(*number))
            && listings.chain(self.spelled.counts()).all(|count| *count >= LEAST_MET)
    }

    fn print(&self) {
        println!("{} inputs, no difference", self.kinds.values().sum::<usize>());
        self.kinds.iter().for_each(|(kind, count)| println!("  {kind:<27} {count:>7}"));
        let counts: Vec<String> = self.refusals.iter().map(|(number, count)| format!("{number}: {count}")).collect();
        println!("refused with each number (0: not refused)\n  {}", counts.join("  "));
        println!("{} rows listed, {} tables full to the last row", self.rows, self.full_tables);
        let [without, with] = self.by_start;
        println!("rows of one end and entry with different starts: {without} listings, {with} with a forget");
        println!("listings with delayed rows that alone have no end, one or many ends of theirs");
        for (forget, [none, one, many]) in ["no forget", "a forget"].iter().zip(self.delayed) {
            println!("  {forget:<9}  none: {none}  one: {one}  many: {many}");
        }
        println!("listings with rows of cut and of change");
        for (forget, [cut, change]) in ["no forget", "a forget"].iter().zip(self.nearest) {
            println!("  {forget:<9}  cut: {cut}  change: {change}");
        }
        self.spelled.print();
    }
}

/// Compares a program on the inputs by plan and on so many from each seed, up to the first difference.
fn compare_short(program: &mut Program, per_seed: usize, met: &mut Met) -> Compared {
    for (kind, case) in short_inputs(SEEDS, per_seed) {
        let expected = set_built(&case.input, case.table_rows);
        met.count(kind, &case, &expected);
        compare(program, &case, &expected)?;
    }
    Ok(())
}

/// Compares a program with the plain one on inputs of many events.
fn compare_long(program: &mut Program, met: &mut Met) -> Compared {
    for input in long_inputs() {
        let expected = list_all(&input, TABLE_ROWS);
        let case = Case { input, table_rows: TABLE_ROWS };
        met.count("many events", &case, &expected);
        compare(program, &case, &expected)?;
    }
    Ok(())
}

/// An output of fewer bytes than the largest table could take gets nothing.
fn compare_short_outputs(lent: &mut Lent) -> Compared {
    for rows in [0, 8, TABLE_ROWS] {
        for length in [0, 30, proved_listing::out_length(rows) - 1] {
            let printed = proved_listing::list_into(lent, planned::P1, rows, length)?;
            if !printed.is_empty() {
                return Err(format!("{} bytes printed on an output of {length}, table of {rows} rows", printed.len()));
            }
        }
    }
    Ok(())
}
