//! The listing program's output for an input: a chart, an empty line and a log. Document 01, "The listing program". By
//! request N11 instants and lengths are tenths of a millisecond inside: they come so from paper, and go so to it.

use crate::model::{Call, Model, Over};
use crate::recognitions::Row;
use common::paper::{fields, instant, lines, number};
use common::plain_chart;

/// The rows of the listing program's table.
pub const TABLE_ROWS: usize = 3_000;

/// A refusal's number and the line of the whole input, counted from 1.
struct Refused {
    number: u32,
    line: usize,
}

enum Record {
    Open(i64),
    Call(Call),
}

/// What the listing program prints with a table of so many rows.
pub fn listing(input: &[u8], table_rows: usize, over: Over) -> Vec<u8> {
    let printed = match table_at_end(input, table_rows, over) {
        Ok(rows) => table_text(&rows),
        Err(Refused { number, line }) => format!("refused\t{number}\t{line}\n"),
    };
    printed.into_bytes()
}

fn table_text(rows: &[Row]) -> String {
    let line = |(number, row): (usize, &Row)| {
        let Row { entry, left, right, start, end } = row;
        format!("{number}\t{entry}\t{left}\t{right}\t{}\t{}\n", instant_text(*start), instant_text(*end))
    };
    let header = "row\tentry\tleft\tright\tstart\tend\n".to_string();
    std::iter::once(header).chain(rows.iter().enumerate().map(line)).collect()
}

/// "Listings print one digit after" the point: the last digit is the tenth, and before it stands one digit at least.
fn instant_text(tenths: i64) -> String {
    let digits = format!("{:02}", tenths.abs());
    let (whole, tenth) = digits.split_at(digits.len() - 1);
    let minus = if tenths < 0 { "-" } else { "" };
    format!("{minus}{whole}.{tenth}")
}

/// The table after the whole input, or the first refusal.
fn table_at_end(input: &[u8], table_rows: usize, over: Over) -> Result<Vec<Row>, Refused> {
    let lines: Vec<&[u8]> = lines(input).collect();
    // "The first empty line ends the chart." Without one the whole input is the chart.
    let chart_lines = lines.iter().position(|line| *line == b"\n").unwrap_or(lines.len());
    let chart = plain_chart::read(&lines[..chart_lines].concat())
        .map_err(|verdict| Refused { number: verdict.refusal, line: verdict.line as usize })?;
    let log = lines.get(chart_lines + 1..).unwrap_or(&[]);
    let Some((first, rest)) = log.split_first() else {
        return Err(Refused { number: 7, line: lines.len() + 1 });
    };
    let first_line = chart_lines + 2;
    let refused_at = |line| move |number| Refused { number, line };
    let mut model = opened(&chart, first, table_rows, over).map_err(refused_at(first_line))?;
    for (index, line) in rest.iter().enumerate() {
        play(&mut model, line).map_err(refused_at(first_line + 1 + index))?;
    }
    Ok(model.rows())
}

/// The model after the log's first line: 7 where it is no `open`.
fn opened(chart: &[plain_chart::Entry], line: &[u8], table_rows: usize, over: Over) -> Result<Model, u32> {
    match record(line) {
        Some(Record::Open(instant)) => Model::open(chart, table_rows, over, instant),
        _ => Err(7),
    }
}

/// Plays a later line: 7 where it is not of its form or a second `open`.
fn play(model: &mut Model, line: &[u8]) -> Result<(), u32> {
    match record(line) {
        Some(Record::Call(call)) => model.play(call),
        Some(Record::Open(_)) | None => Err(7),
    }
}

/// "Log lines: `open` instant (first line only), `event` code, `clock` instant, `forget` instant." None is refusal 7.
fn record(line: &[u8]) -> Option<Record> {
    let mut fields = fields(line)?;
    let (word, operand) = (fields.next()?, fields.next()?);
    let record = match word {
        b"open" => Record::Open(instant(operand)?),
        b"event" => Record::Call(Call::Event(u8::try_from(number(operand)?).ok()?)),
        b"clock" => Record::Call(Call::Clock(instant(operand)?)),
        b"forget" => Record::Call(Call::Forget(instant(operand)?)),
        _ => return None,
    };
    fields.next().is_none().then_some(record)
}
