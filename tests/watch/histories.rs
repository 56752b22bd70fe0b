//! Random histories, compared with the set-building program after every call: the refusal's number, every field of the
//! watch, every entry of the chart, every number of the table and of the margins around it, rows by their end, trees
//! and reports.

use crate::added_lines::{self, Drawn};
use crate::additions;
use crate::blocks::On;
use crate::damage;
use crate::delays::{self, due_ends, Mark};
use crate::met::Met;
use crate::nearest;
use crate::random_calls::{self, Frequencies};
use crate::subject::{lent_table, name, Lent, Subject};
use common::chart_value;
use common::harness::Compared;
use common::interface::{Calls, Chart, Report, Watch, FIRST_FLOOR, MOST_ENTRIES};
use common::plain_chart::{self, Entry, TAKEN};
use common::random::Random;
use common::random_inputs;
use oracle::any_watch;
use oracle::history::History;
use oracle::layout::rows_held;
use oracle::model::{Call, MOST_EVENTS};
use oracle::recognitions::Row;
use std::ops::Range;

/// By how many rows a table is made longer, to see which one did not fit.
const ROWS_MORE: usize = 300;

/// A history in the making: the watch under test beside what it must show.
pub struct Run<'a> {
    calls: &'a Calls,
    opening: i32,
    played: Vec<Played>,
    /// The chart that each call must get.
    chart: Chart,
    /// When lines were last added.
    last_addition: Option<i32>,
    /// The ends that delayed rows of forgotten ones would have had, as far as no mark went past them.
    missed_ends: Vec<i64>,
    /// The operand and the end after which a row of it would have been a pair with a forgotten one.
    missed_pairs: Vec<(usize, i64)>,
    pub subject: Subject,
    pub history: History,
}

enum Played {
    Call(Call),
    Lines(Vec<u8>),
}

impl Played {
    /// For the message where something differs.
    fn shown(&self) -> String {
        match self {
            Played::Call(call) => format!("{call:?}"),
            Played::Lines(lines) => format!("Lines(\"{}\")", lines.escape_ascii()),
        }
    }
}

/// A short history on a small chart and table, and what becomes of its last state when something in it is changed.
pub fn short(calls: &Calls, random: &mut Random, met: &mut Met) -> Compared {
    let frequencies = Frequencies { events: 10, clocks: 7, forgets: 1, longest_step: 3, clocks_to_a_jump: 30 };
    let entries = entries(random);
    short_on(calls, random, met, &entries, frequencies)
}

/// The same with a delay among the operators, marks that go further and more forgets.
pub fn with_delays(calls: &Calls, random: &mut Random, met: &mut Met) -> Compared {
    let frequencies = Frequencies { events: 10, clocks: 8, forgets: 2, longest_step: 12, clocks_to_a_jump: 30 };
    let operators = if random.one_in(40) { MOST_ENTRIES - 4 } else { random.below(8) };
    let most_leaves = random.pick(&[2, 3]);
    let entries = sound(&random_inputs::delay_chart(random, operators, most_leaves));
    short_on(calls, random, met, &entries, frequencies)
}

/// The same with a `cut` or a `change` among the operators, and steps so short that rows often end together.
pub fn with_nearest(calls: &Calls, random: &mut Random, met: &mut Met) -> Compared {
    let longest_step = random.pick(&[2, 3, 8]);
    let frequencies = Frequencies { events: 10, clocks: 8, forgets: 1, longest_step, clocks_to_a_jump: 30 };
    let operators = if random.one_in(40) { MOST_ENTRIES - 6 } else { random.below(7) };
    let most_leaves = random.pick(&[3, 4]);
    let text = match random.below(3) {
        0 => random_inputs::crossing_chart(random, 1 + operators % 4),
        _ => random_inputs::nearest_chart(random, operators, most_leaves),
    };
    let entries = sound(&text);
    short_on(calls, random, met, &entries, frequencies)
}

/// The same with lines added in between, sound ones first and then any, as often as not just after an instant with an
/// event.
pub fn with_additions(calls: &Calls, random: &mut Random, met: &mut Met) -> Compared {
    let longest_step = random.pick(&[1, 2, 2, 8]);
    let frequencies = Frequencies { events: 9, clocks: 8, forgets: 1, longest_step, clocks_to_a_jump: 40 };
    let (table, entries) = (random_calls::table(random), entries_to_add_to(random));
    let (chart, opening) = (chart(random, &entries), random_calls::opening(random));
    let mut run = Run::open(calls, &entries, chart, &table, opening, 0, met)?;
    if random.one_in(80) {
        (0..62).try_for_each(|_| run.event(random, met))?;
    }
    let additions = 1 + random.below(3);
    for addition in 0..additions {
        let length = random.below(8);
        run.play_some(random, met, frequencies, length)?;
        if random.one_in(2) {
            run.event(random, met)?;
            run.play(Call::Clock(i64::from(run.history.watch.instant) + 1), met)?;
        }
        let draw = if addition == 0 { added_lines::sound } else { added_lines::any };
        let drawn = draw(random, run.history.chart());
        run.add_lines(&drawn, met)?;
    }
    let length = random.below(16);
    run.play_some(random, met, frequencies, length)?;
    run.finish(met);
    damage::compare(calls, &run.subject, random, met)
}

fn short_on(
    calls: &Calls,
    random: &mut Random,
    met: &mut Met,
    entries: &[Entry],
    frequencies: Frequencies,
) -> Compared {
    let table = random_calls::table(random);
    let chart = chart(random, entries);
    if random.one_in(10) {
        damage::compare_openings(calls, random, met, &chart, &table)?;
    }
    // Serials that are nearly spent, as after some 15,000 instants of 64 events that no entry names.
    let spent = if random.one_in(40) { MOST_EVENTS - random.below(12) } else { 0 };
    let opening = random_calls::opening(random);
    let mut run = Run::open(calls, entries, chart, &table, opening, spent, met)?;
    if random.one_in(80) {
        let count = 60 + random.below(8);
        (0..count).try_for_each(|_| run.event(random, met))?;
    }
    let length = random.below(40);
    run.play_some(random, met, frequencies, length)?;
    run.finish(met);
    (0..2).try_for_each(|_| damage::compare(calls, &run.subject, random, met))
}

/// A long history, in which the table fills, older rows are forgotten over and over and lines are added now and then.
pub fn long(calls: &Calls, random: &mut Random, met: &mut Met) -> Compared {
    let frequencies = Frequencies { events: 10, clocks: 8, forgets: 1, longest_step: 3, clocks_to_a_jump: 5_000 };
    let table = vec![7; 500 + random.below(4_000)];
    let entries = entries(random);
    let opening = random.pick(&[-1_000_000_000, -500, 0]);
    let mut run = Run::open(calls, &entries, chart(random, &entries), &table, opening, 0, met)?;
    for _ in 0..40 {
        let before = run.history.watch.instant;
        run.play_some(random, met, frequencies, 15)?;
        if random.one_in(20) && run.chart.count < MOST_ENTRIES {
            let drawn = added_lines::sound(random, run.history.chart());
            run.add_lines(&drawn, met)?;
        }
        let History { watch, rows, .. } = &run.history;
        // What started before a row in the middle; everything where no mark was taken.
        let middle = rows.get(rows.len() / 2).map_or(before.into(), |row| row.start);
        let floor = if watch.instant == before { before.into() } else { middle };
        run.play(Call::Forget(floor), met)?;
    }
    run.finish(met);
    Ok(())
}

/// Short intervals that are paired with each other, over many marks: the edge of the search for pairs.
pub fn of_short_intervals(calls: &Calls, random: &mut Random, met: &mut Met) -> Compared {
    let frequencies = Frequencies { events: 40, clocks: 20, forgets: 1, longest_step: 2, clocks_to_a_jump: 5_000 };
    let operators = 1 + random.below(4);
    let entries = sound(&random_inputs::short_interval_chart(random, operators));
    let table = vec![7; 3_000 + random.below(3_000)];
    let mut run = Run::open(calls, &entries, chart(random, &entries), &table, -20, 0, met)?;
    run.play_some(random, met, frequencies, 100)?;
    run.finish(met);
    Ok(())
}

/// A sound chart, of all 32 entries now and then.
fn entries(random: &mut Random) -> Vec<Entry> {
    let operators = random.below(9);
    let most_leaves = random.pick(&[2, 3, 4]);
    let text = match random.below(40) {
        0 => random_inputs::chart(random, MOST_ENTRIES - 3, most_leaves),
        1..=12 => random_inputs::interval_chart(random, operators),
        _ => random_inputs::chart(random, operators, most_leaves),
    };
    sound(&text)
}

/// A sound chart of fewer than 32 entries, and now and then of nearly as many, most of them of events that do not come.
fn entries_to_add_to(random: &mut Random) -> Vec<Entry> {
    let operators = random.below(4);
    let text = match random.below(12) {
        0 => with_idle_events(random_inputs::chart(random, operators, 3), 26 + random.below(6)),
        1..=5 => random_inputs::interval_chart(random, operators),
        6 | 7 => random_inputs::delay_chart(random, operators, 3),
        8 => random_inputs::nearest_chart(random, operators, 3),
        _ => random_inputs::chart(random, operators, 3),
    };
    sound(&text)
}

fn with_idle_events(chart: String, entries: usize) -> String {
    let first = chart.lines().count();
    chart + &(first..entries).map(|number| format!("{number}\tevent\t{}\n", 200 + number)).collect::<String>()
}

fn sound(chart: &str) -> Vec<Entry> {
    plain_chart::read(chart.as_bytes()).expect("the chart drawn is sound")
}

/// The chart of these entries; now and then something stands behind them.
fn chart(random: &mut Random, entries: &[Entry]) -> Chart {
    let mut chart = chart_value::of(entries);
    if random.one_in(10) {
        damage::fill_blank_entries(random, &mut chart);
    }
    chart
}

impl<'a> Run<'a> {
    pub fn open(
        calls: &'a Calls,
        entries: &[Entry],
        chart: Chart,
        table: &[i32],
        opening: i32,
        unlisted_events: usize,
        met: &mut Met,
    ) -> Result<Run<'a>, String> {
        let history = History::open(entries, table, opening, unlisted_events).expect("the instant drawn is in range");
        let mut table = lent_table(table);
        let answer = (calls.open)(chart, table.part_mut(), opening);
        met.count_answer("open", 0);
        let mut watch = answer.watch;
        watch.events += unlisted_events;
        let subject = Subject { watch, chart, table };
        let (played, missed_ends, missed_pairs) = (Vec::new(), Vec::new(), Vec::new());
        let last_addition = None;
        let run = Run { calls, opening, played, chart, last_addition, missed_ends, missed_pairs, subject, history };
        run.compare_state(0, answer.refusal)?;
        Ok(run)
    }

    pub fn play(&mut self, call: Call, met: &mut Met) -> Compared {
        let before = self.history.watch;
        if let Call::Forget(floor) = call {
            self.count_forget(floor, met);
        }
        let expected = self.history.play(call).err().unwrap_or(0);
        match (call, expected) {
            (Call::Clock(instant), 0) => self.count_mark(&before, instant, met),
            (Call::Clock(_), 12) => count_full(&self.subject, call, true, met),
            _ => {}
        }
        let answer = self.subject.play(self.calls, call);
        self.played.push(Played::Call(call));
        met.count_answer(name(call), expected);
        self.compare_state(expected, answer.refusal)
    }

    /// Adds lines, which are taken or refused.
    pub fn add_lines(&mut self, drawn: &Drawn, met: &mut Met) -> Compared {
        let before = self.history.watch;
        let verdict = self.history.add_lines(&drawn.lines).err().unwrap_or(TAKEN);
        self.chart = chart_value::with_added(&self.chart, &self.history.chart()[before.entries..]);
        if verdict == TAKEN {
            met.additions.count_taken(&before, self.last_addition, &self.chart);
            self.last_addition = Some(before.instant);
        } else {
            met.additions.count_refused(before.entries, drawn, verdict);
        }
        self.played.push(Played::Lines(drawn.lines.clone()));
        met.count_answer("add", verdict.refusal);
        let answer = self.subject.add_lines(self.calls, &drawn.lines).map_err(|altered| self.described(&altered))?;
        if answer.line != verdict.line {
            return Err(self.described(&format!("line {}, expected {}", answer.line, verdict.line)));
        }
        self.compare_state(verdict.refusal, answer.refusal)
    }

    /// Counts a mark by the watch before it and the rows that it left.
    fn count_mark(&mut self, before: &Watch, instant: i64, met: &mut Met) {
        let (chart, rows, closed) = (&self.subject.chart, &self.history.rows, before.instant.into());
        let on = on_history(before);
        met.searches.count(chart, rows, closed, has_forgotten(before));
        met.blocks.count(on, chart, rows, closed);
        let mark = Mark { watch: before, chart, rows, instant };
        met.delays.count_mark(on, &mark);
        met.nearest.count_mark(on, &mark);
        met.additions.count_mark(on, &mark, rows_held(self.history.table.len()));
        let new = mark.new_rows();
        let is_missed = |(b, end): &(usize, i64)| new.iter().any(|s| s.entry == *b && s.start > *end);
        if self.missed_pairs.iter().any(is_missed) {
            met.nearest.count_missed_pair();
            self.missed_pairs.retain(|missed| !is_missed(missed));
        }
        if self.missed_ends.iter().any(|end| *end < instant) {
            met.delays.count_missed_end();
            self.missed_ends.retain(|end| *end >= instant);
        }
    }

    /// Counts a forget by what it drops.
    fn count_forget(&mut self, floor: i64, met: &mut Met) {
        let (chart, History { watch, rows, .. }) = (&self.subject.chart, &self.history);
        if floor < watch.floor.into() || floor > watch.instant.into() {
            return;
        }
        let dropped: Vec<Row> = rows.iter().filter(|row| row.start < floor).copied().collect();
        self.missed_ends.extend(due_ends(chart, &dropped).filter(|end| *end >= i64::from(watch.instant)));
        self.missed_pairs.extend(nearest::waiting(chart, rows, floor));
        met.nearest.count_forget(chart, rows, floor);
        met.additions.count_forget(watch, chart, floor);
        if delays::delays(chart).any(|(number, _)| dropped.iter().any(|row| row.entry == number)) {
            met.delays.count_forgotten();
        }
    }

    /// So many calls, and reads now and then.
    fn play_some(&mut self, random: &mut Random, met: &mut Met, frequencies: Frequencies, calls: usize) -> Compared {
        for _ in 0..calls {
            let History { watch, table, .. } = &self.history;
            let call = random_calls::call(random, frequencies, watch, &self.subject.chart, table);
            self.play(call, met)?;
            if random.one_in(4) {
                self.read_rows(random, met)?;
                self.read_tree(random, met)?;
                self.read_report(met)?;
            }
        }
        Ok(())
    }

    fn event(&mut self, random: &mut Random, met: &mut Met) -> Compared {
        let code = random_calls::code(random, &self.subject.chart);
        self.play(Call::Event(code), met)
    }

    fn finish(&self, met: &mut Met) {
        met.count_history(&self.subject.chart, &self.subject.watch, self.subject.table.part());
        met.additions.histories += usize::from(self.last_addition.is_some());
    }

    fn read_rows(&self, random: &mut Random, met: &mut Met) -> Compared {
        let History { watch, table, .. } = &self.history;
        let end = random_calls::end(random, watch, table);
        let rows = self.history.rows_ending(end);
        met.additions.count_rows_read(watch, &self.history.rows[rows.clone()]);
        compare_check_and_rows(self.calls, &self.subject, end, 0, rows, met)
            .map_err(|difference| self.described(&difference))
    }

    fn read_tree(&self, random: &mut Random, met: &mut Met) -> Compared {
        let row = any_row(random, self.history.watch.rows);
        met.blocks.count_tree(&self.subject.chart, &self.history.rows, row);
        met.additions.count_tree(&self.history.watch, self.history.rows.get(row));
        let tree_at = |room: usize| self.history.tree(row, room);
        compare_tree(self.calls, &self.subject, row, tree_at, random, met)
            .map_err(|difference| self.described(&difference))
    }

    pub fn read_report(&self, met: &mut Met) -> Compared {
        let (watch, report) = (&self.history.watch, self.history.report());
        met.additions.count_report(watch, &report);
        compare_report(self.calls, &self.subject, on_history(watch), report, met)
            .map_err(|difference| self.described(&difference))
    }

    /// Compares a call's number and all that it left.
    fn compare_state(&self, expected: u32, refusal: u32) -> Compared {
        let (subject, history) = (&self.subject, &self.history);
        if refusal != expected {
            return Err(self.described(&format!("answered {refusal}, expected {expected}")));
        }
        if subject.watch != history.watch {
            return Err(self.described(&format!("watch {:?}\nexpected {:?}", subject.watch, history.watch)));
        }
        if subject.chart != self.chart {
            return Err(self.described(&format!("chart {:?}\nexpected {:?}", subject.chart, self.chart)));
        }
        if !subject.table.holds(&history.table) {
            let table = subject.table.part();
            return Err(self.described(&format!("table {table:?}\nexpected {:?}", history.table)));
        }
        Ok(())
    }

    fn described(&self, difference: &str) -> String {
        let chart = &self.chart.entries[..self.chart.count];
        let (length, opening) = (self.history.table.len(), self.opening);
        let played = self.played.iter().map(Played::shown).collect::<Vec<_>>().join(", ");
        format!("{difference}\nchart {chart:?}\ntable of {length} numbers, opened at {opening}, then {played}")
    }
}

fn has_forgotten(watch: &Watch) -> bool {
    watch.floor > FIRST_FLOOR
}

fn on_history(watch: &Watch) -> On {
    if has_forgotten(watch) {
        On::AfterForget
    } else {
        On::NothingForgotten
    }
}

/// Counts a mark that is refused with 12 where the open instant alone would have fitted, and one whose first row too
/// many is of a `cut` or `change` or of an added entry.
pub fn count_full(subject: &Subject, mark: Call, is_history: bool, met: &mut Met) {
    let Subject { watch, chart, table } = subject;
    let next = Call::Clock(i64::from(watch.instant) + 1);
    if delays::delays(chart).next().is_some() && any_watch::play(watch, chart, table.part(), next).0.refusal == 0 {
        met.delays.count_full(is_history);
    }
    let is_counted = nearest::nearest(chart).next().is_some() || additions::added(watch, chart).next().is_some();
    if let Some(entry) = is_counted.then(|| entry_too_many(subject, mark)).flatten() {
        if nearest::is_nearest(&chart.entries[entry]) {
            met.nearest.count_full(is_history);
        }
        if additions::is_added(watch, entry) {
            met.additions.count_full();
        }
    }
}

/// The entry of the first row that does not fit: a longer table has it in that place. None where that is full, too.
fn entry_too_many(Subject { watch, chart, table }: &Subject, mark: Call) -> Option<usize> {
    let held = rows_held(table.part().len()) * 5;
    let longer = [&table.part()[..held], &[0; ROWS_MORE * 5]].concat();
    let (answer, after) = any_watch::play(watch, chart, &longer, mark);
    (answer.refusal == 0).then(|| after[held] as usize)
}

/// A row in use, mostly, or a number that is none.
pub fn any_row(random: &mut Random, rows: usize) -> usize {
    match random.below(8) {
        0 => random.pick(&[rows, rows + 1, 65_535, usize::MAX]),
        _ => random.below(rows.max(1)),
    }
}

/// Compares the check call and the rows with an end, which a refusal leaves empty.
pub fn compare_check_and_rows(
    calls: &Calls,
    subject: &Subject,
    end: i32,
    refusal: u32,
    expected: Range<usize>,
    met: &mut Met,
) -> Compared {
    let table = subject.table.part().to_vec();
    let checked = (calls.check)(subject.watch, subject.chart, subject.table.part());
    let rows = (calls.rows_ending)(subject.watch, subject.chart, subject.table.part(), end);
    met.count_answer("check", refusal);
    met.count_answer("rows", refusal);
    met.count_rows_read(expected.len());
    if checked != refusal {
        return Err(format!("check answered {checked}, expected {refusal}"));
    }
    if (rows.first, rows.count) != (expected.start, expected.len()) {
        return Err(format!("rows ending at {end}: {rows:?}, expected {expected:?}"));
    }
    if !subject.table.holds(&table) {
        return Err("a read altered the table".to_string());
    }
    Ok(())
}

/// Compares every number of a report, which leaves the table.
pub fn compare_report(calls: &Calls, subject: &Subject, on: On, expected: Report, met: &mut Met) -> Compared {
    let table = subject.table.part().to_vec();
    let report = (calls.report)(subject.watch, subject.chart, subject.table.part());
    met.count_answer("report", expected.refusal);
    met.reports.count(on, &expected);
    if report != expected {
        return Err(format!("{report:?}\nexpected {expected:?}"));
    }
    if !subject.table.holds(&table) {
        return Err("a report altered the table".to_string());
    }
    Ok(())
}

/// Compares the tree of a row on an output that is just long enough and on one of another length.
pub fn compare_tree(
    calls: &Calls,
    subject: &Subject,
    row: usize,
    tree_at: impl Fn(usize) -> Result<String, u32>,
    random: &mut Random,
    met: &mut Met,
) -> Compared {
    let length = tree_at(usize::MAX).map_or(0, |tree| tree.len());
    let other = random.pick(&[length.saturating_sub(1), length.saturating_sub(1), length + 1, length / 2, length + 20]);
    [length, other].into_iter().try_for_each(|room| compare_tree_in(calls, subject, row, room, tree_at(room), met))
}

/// Compares the tree of a row on an output of so many bytes, those past the tree included.
pub fn compare_tree_in(
    calls: &Calls,
    subject: &Subject,
    row: usize,
    room: usize,
    expected: Result<String, u32>,
    met: &mut Met,
) -> Compared {
    let mut after: Vec<u8> = (0..room).map(|place| (place * 37) as u8).collect();
    let mut out = Lent::new(&after, 0xa5);
    if let Ok(tree) = &expected {
        after[..tree.len()].copy_from_slice(tree.as_bytes());
    }
    let (refusal, length) = expected.map_or_else(|refusal| (refusal, 0), |tree| (0, tree.len()));
    let answer = (calls.tree)(subject.watch, subject.chart, subject.table.part(), row, out.part_mut());
    met.count_answer("tree", refusal);
    if (answer.refusal, answer.length) == (refusal, length) && out.holds(&after) {
        return Ok(());
    }
    let (written, wanted) = (out.part().escape_ascii(), after.escape_ascii());
    Err(format!(
        "tree of row {row} into {room} bytes: {answer:?} and \"{written}\", expected {refusal}, {length}, \"{wanted}\""
    ))
}
