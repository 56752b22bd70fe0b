//! Watches, charts and tables that no history made: what a history left, with something in it changed. Each call must
//! answer what `oracle::any_watch` says, 13 exactly where `oracle::consistency` finds a cause.

use crate::added_lines;
use crate::additions;
use crate::blocks::On;
use crate::delays::{delays, Fault, Mark, FAULTS};
use crate::histories::{any_row, compare_check_and_rows, compare_report, compare_tree, count_full};
use crate::met::Met;
use crate::nearest::{nearest, Damage, Pair, DAMAGES};
use crate::random_calls::{self, near_instant_of_row, number, Frequencies, OUT_OF_RANGE};
use crate::subject::{lent_table, name, Subject};
use common::chart_value;
use common::harness::Compared;
use common::interface::{Answer, Calls, Chart, Entry, FIRST_FLOOR, MOST_ENTRIES};
use common::random::Random;
use common::random_charts;
use oracle::conditions::Interval;
use oracle::layout::{flat, rows_held, rows_in_use};
use oracle::model::Call;
use oracle::recognitions::Row;
use oracle::{any_watch, consistency};

type Change = fn(&mut Random, &mut Subject);

const CHANGES: [Change; 25] = [
    change_instant,
    change_floor,
    change_count,
    change_pending,
    change_rows,
    change_codes,
    change_entries,
    change_since,
    raise_since,
    fill_since,
    change_number_in_use,
    change_number_in_use,
    change_number_behind,
    change_reference,
    change_reference,
    change_interval_near_end,
    change_interval_near_end,
    move_event,
    swap_rows,
    copy_row,
    drop_row,
    append_row,
    change_entry,
    change_entry,
    change_delay,
];

/// Changes a history's last state in one place or more and compares every call on it.
pub fn compare(calls: &Calls, last: &Subject, random: &mut Random, met: &mut Met) -> Compared {
    let mut changed = last.clone();
    let fault = if random.one_in(4) { append_faulty_delay(random, &mut changed) } else { None };
    let damage = if fault.is_none() && random.one_in(3) { append_nearest(random, &mut changed) } else { None };
    let is_changed = fault.is_some() || damage.is_some();
    let of_entries = if !is_changed && random.one_in(4) { damage_entries(random, &mut changed) } else { None };
    if !is_changed && of_entries.is_none() {
        change(random, &mut changed);
    }
    if let Some(entries) = chart_value::entries(&changed.chart) {
        let causes = consistency::causes(&changed.watch, &entries, changed.table.part());
        met.count_causes(&causes);
        fault.filter(|_| causes.len() == 1).into_iter().for_each(|fault| met.delays.count_fault(fault));
        if let Some((op, damage)) = damage.filter(|(_, damage)| causes.len() == usize::from(!damage.is_consistent())) {
            met.nearest.count_damage(op, damage);
        }
        let is_counted = |damage: &additions::Damage| causes.len() == usize::from(!damage.is_consistent());
        of_entries.filter(is_counted).into_iter().for_each(|damage| met.additions.count_damage(damage));
    }
    let compared =
        compare_plays(calls, &changed, random, met).and_then(|()| compare_reads(calls, &changed, random, met));
    compared.map_err(|difference| {
        let Subject { watch, chart, table } = &changed;
        let entries = &chart.entries[..chart.count.min(chart.entries.len())];
        let table = table.part();
        format!("{difference}\nchart of {}: {entries:?}\nwatch {watch:?}\ntable {table:?}", chart.count)
    })
}

/// One change or more.
fn change(random: &mut Random, subject: &mut Subject) {
    let changes = if random.one_in(4) { 2 + random.below(2) } else { 1 };
    for _ in 0..changes {
        random.pick(&CHANGES)(random, subject);
    }
    if random.one_in(16) {
        break_chart(random, &mut subject.chart);
    }
}

/// An event, a clock mark, a forget and an addition, each on the watch given.
fn compare_plays(calls: &Calls, given: &Subject, random: &mut Random, met: &mut Met) -> Compared {
    let only = |events, clocks, forgets| Frequencies { events, clocks, forgets, longest_step: 3, clocks_to_a_jump: 20 };
    for frequencies in [only(1, 0, 0), only(0, 1, 0), only(0, 0, 1)] {
        let Subject { watch, chart, table } = given;
        let call = random_calls::call(random, frequencies, watch, chart, table.part());
        let (expected, table) = any_watch::play(watch, chart, table.part(), call);
        let mut subject = given.clone();
        let answer = subject.play(calls, call);
        met.count_answer(name(call), expected.refusal);
        match (call, expected.refusal) {
            (Call::Clock(instant), 0) => {
                let rows = &rows_in_use(&expected.watch, &table);
                met.blocks.count(On::NoHistory, chart, rows, watch.instant.into());
                let mark = Mark { watch, chart, rows, instant };
                met.delays.count_mark(On::NoHistory, &mark);
                met.nearest.count_mark(On::NoHistory, &mark);
                met.additions.count_mark(On::NoHistory, &mark, rows_held(table.len()));
            }
            (Call::Clock(_), 12) => count_full(given, call, false, met),
            _ => {}
        }
        compare_outcome(&format!("{call:?}"), (answer, &subject), (expected, &table))?;
    }
    let lines = match chart_value::entries(&given.chart) {
        Some(entries) => added_lines::any(random, &entries).lines,
        None => random_charts::any_more(random, given.chart.count.min(MOST_ENTRIES)),
    };
    compare_addition(calls, given, &lines, met)
}

/// An addition to any watch and chart: every field of the answer, and the table, which no addition alters.
pub fn compare_addition(calls: &Calls, given: &Subject, lines: &[u8], met: &mut Met) -> Compared {
    let expected = any_watch::add_lines(&given.watch, &given.chart, given.table.part(), lines);
    let mut subject = given.clone();
    let answer = subject.add_lines(calls, lines)?;
    met.count_answer("add", expected.refusal);
    let lines = lines.escape_ascii();
    if answer != expected {
        return Err(format!("addition of \"{lines}\": {answer:?}\nexpected {expected:?}"));
    }
    if !subject.table.holds(given.table.part()) {
        return Err(format!("addition of \"{lines}\" left the table {:?}", subject.table.part()));
    }
    Ok(())
}

fn compare_outcome(call: &str, (answer, subject): (Answer, &Subject), expected: (Answer, &Vec<i32>)) -> Compared {
    if answer != expected.0 {
        return Err(format!("{call} answered {answer:?}\nexpected {:?}", expected.0));
    }
    if !subject.table.holds(expected.1) {
        return Err(format!("{call} left the table {:?}\nexpected {:?}", subject.table.part(), expected.1));
    }
    Ok(())
}

fn compare_reads(calls: &Calls, given: &Subject, random: &mut Random, met: &mut Met) -> Compared {
    let Subject { watch, chart, table } = given;
    let refusal = any_watch::check(watch, chart, table.part());
    let end = random_calls::end(random, watch, table.part());
    let rows = any_watch::rows_ending(watch, chart, table.part(), end);
    compare_check_and_rows(calls, given, end, refusal, rows, met)?;
    compare_report(calls, given, On::NoHistory, any_watch::report(watch, chart, table.part()), met)?;
    let row = any_row(random, watch.rows.min(65_535));
    let tree_at = |room: usize| any_watch::tree(watch, chart, table.part(), row, room);
    compare_tree(calls, given, row, tree_at, random, met)
}

/// Openings that are refused with 14, with 8, or not at all, on tables of any contents.
pub fn compare_openings(calls: &Calls, random: &mut Random, met: &mut Met, chart: &Chart, table: &[i32]) -> Compared {
    let mut chart = *chart;
    if random.one_in(2) {
        break_chart(random, &mut chart);
    }
    let instant = if random.one_in(4) { random_calls::opening(random) } else { random.pick(&OUT_OF_RANGE) };
    let (expected, after) = any_watch::open(&chart, table, instant);
    let mut lent = lent_table(table);
    let answer = (calls.open)(chart, lent.part_mut(), instant);
    met.count_answer("open", expected.refusal);
    let subject = Subject { watch: answer.watch, chart, table: lent };
    compare_outcome(&format!("opening at {instant}"), (answer, &subject), (expected, &after))?;
    // "An empty watch has none": what a refused opening hands back is out of joint with every chart.
    let (checked, check) =
        ((calls.check)(answer.watch, chart, &after), any_watch::check(&expected.watch, &chart, &after));
    if checked != check {
        return Err(format!("check after an opening at {instant} answered {checked}, expected {check}"));
    }
    let report = any_watch::report(&expected.watch, &chart, &after);
    compare_report(calls, &subject, On::NothingForgotten, report, met)
        .map_err(|difference| format!("after an opening at {instant}: {difference}"))
}

// What can be changed in a watch.

fn change_instant(random: &mut Random, subject: &mut Subject) {
    let watch = &mut subject.watch;
    watch.instant = match random.below(4) {
        0 => random.pick(&OUT_OF_RANGE),
        1 => watch.floor.saturating_add(random.between(-1, 1)),
        _ => near_instant_of_row(random, watch, subject.table.part()),
    };
}

fn change_floor(random: &mut Random, subject: &mut Subject) {
    let watch = &mut subject.watch;
    watch.floor = match random.below(4) {
        0 => random.pick(&OUT_OF_RANGE),
        1 => watch.instant.saturating_add(random.between(0, 1)),
        _ => near_instant_of_row(random, watch, subject.table.part()),
    };
}

fn change_count(random: &mut Random, subject: &mut Subject) {
    let watch = &mut subject.watch;
    let less = watch.events.saturating_sub(1 + random.below(3));
    let pending = watch.pending;
    watch.events =
        random.pick(&[0, less, less, pending, pending.saturating_sub(1), 999_999, 1_000_000, 1_000_001, usize::MAX]);
}

fn change_pending(random: &mut Random, subject: &mut Subject) {
    let watch = &mut subject.watch;
    watch.pending = random.pick(&[0, 1, 63, 64, 65, 65, watch.events, watch.events.saturating_add(1), usize::MAX]);
    if random.one_in(2) {
        watch.events = watch.events.max(watch.pending.min(1_000));
    }
    change_codes(random, subject);
}

fn change_rows(random: &mut Random, subject: &mut Subject) {
    let (rows, held) = (subject.watch.rows, subject.table.part().len() / 5);
    let overflowing = usize::MAX / 5 + 1;
    subject.watch.rows =
        random.pick(&[0, rows.saturating_sub(1), rows + 1, held, held + 1, held + 1, 65_536, overflowing, usize::MAX]);
}

/// Codes of the pending events and of the places behind them, which no call looks at.
fn change_codes(random: &mut Random, subject: &mut Subject) {
    for _ in 0..1 + random.below(8) {
        let place = random.below(subject.watch.codes.len());
        subject.watch.codes[place] = random.pick(&[0, 1, 2, 3, 255]);
    }
}

/// How many entries the watch has.
fn change_entries(random: &mut Random, subject: &mut Subject) {
    let entries = subject.watch.entries;
    subject.watch.entries =
        random.pick(&[0, entries.saturating_sub(1), entries.saturating_add(1), 31, 32, 33, 1 << 32, usize::MAX]);
}

/// The instant from which one entry counts, or one of the places behind them.
fn change_since(random: &mut Random, subject: &mut Subject) {
    let place = random.below(subject.watch.entries.clamp(1, MOST_ENTRIES));
    subject.watch.since[place] = any_since(random, subject);
}

/// The instants from which an entry and those behind it count.
fn raise_since(random: &mut Random, subject: &mut Subject) {
    let entries = subject.watch.entries.clamp(1, MOST_ENTRIES);
    let first = random.below(entries);
    let raised = any_since(random, subject);
    subject.watch.since[first..entries].iter_mut().for_each(|since| *since = raised.max(*since));
}

fn any_since(random: &mut Random, subject: &Subject) -> i32 {
    let watch = &subject.watch;
    match random.below(6) {
        0 => random.pick(&OUT_OF_RANGE),
        1 => FIRST_FLOOR,
        2 => watch.instant.saturating_add(random.between(-1, 1)),
        _ => near_instant_of_row(random, watch, subject.table.part()),
    }
}

/// Anything in the places behind the entries, which no call looks at.
fn fill_since(random: &mut Random, subject: &mut Subject) {
    let behind = subject.watch.since.iter_mut().skip(subject.watch.entries);
    behind.for_each(|since| *since = number(random));
}

/// One thing in a watch's entries that no call left there; none where the rows there are leave no room for it.
fn damage_entries(random: &mut Random, subject: &mut Subject) -> Option<additions::Damage> {
    use additions::Damage;
    let rows = rows_in_use(&subject.watch, subject.table.part());
    let watch = &mut subject.watch;
    let (entries, instant) = (watch.entries, watch.instant);
    let first = random.below(entries);
    let least_start = |first: usize| {
        let starts = rows.iter().filter(|row| row.entry >= first).map(|row| row.start as i32);
        starts.min().unwrap_or(instant)
    };
    let raise = |since: &mut [i32], to: i32| since.iter_mut().for_each(|instant| *instant = to.max(*instant));
    let (damage, _) = random.pick(&additions::DAMAGES);
    // Of these each is another watch under which marks are compared.
    let damage = if random.one_in(3) { Damage::Raised } else { damage };
    match damage {
        Damage::OneLess => watch.entries -= 1,
        Damage::OneMore => watch.entries += 1,
        Damage::NoEntries => watch.entries = 0,
        Damage::BelowRange => watch.since[0] = FIRST_FLOOR - 1,
        Damage::AboveOpen if rows.iter().any(|row| row.entry >= first) => return None,
        Damage::AboveOpen => watch.since[first..entries].fill(instant + 1),
        Damage::Falls if first == 0 || least_start(first - 1) == FIRST_FLOOR => return None,
        Damage::Falls => {
            watch.since[first - 1] = least_start(first - 1);
            watch.since[first..entries].fill(least_start(first - 1) - 1);
        }
        Damage::RowTooEarly => {
            let row = rows.get(random.below(rows.len().max(1)))?;
            raise(&mut watch.since[row.entry..entries], row.start as i32 + 1);
        }
        Damage::Raised => raise(&mut watch.since[first..entries], least_start(first)),
        Damage::FilledBehind => fill_since(random, subject),
    }
    Some(damage)
}

// What can be changed in a table.

fn change_number_in_use(random: &mut Random, subject: &mut Subject) {
    let end = subject.watch.rows.saturating_mul(5).min(subject.table.part().len());
    change_number_between(random, subject, 0, end);
}

/// A number of an unused row, or one after the last row that the table can hold.
fn change_number_behind(random: &mut Random, subject: &mut Subject) {
    let end = subject.table.part().len();
    let from = subject.watch.rows.saturating_mul(5).min(end);
    change_number_between(random, subject, from, end);
}

fn change_number_between(random: &mut Random, subject: &mut Subject, from: usize, end: usize) {
    if from < end {
        let place = from + random.below(end - from);
        let old = subject.table.part()[place];
        let near = old.saturating_add(random.pick(&[-2, -1, 1, 2]));
        subject.table.part_mut()[place] = if random.one_in(2) { near } else { number(random) };
    }
}

/// The rows in use that there are, as numbers.
fn row_count(subject: &Subject) -> usize {
    subject.watch.rows.min(subject.table.part().len() / 5)
}

/// Left or right of a row: none, its own number, another row, or no row.
fn change_reference(random: &mut Random, subject: &mut Subject) {
    let rows = row_count(subject);
    if rows > 0 {
        let row = random.below(rows);
        let others = [-1, -1, -2, row as i32, rows as i32, random.below(rows) as i32, random.below(rows) as i32];
        let reference = random.pick(&others);
        subject.table.part_mut()[row * 5 + random.pick(&[1, 1, 2])] = reference;
    }
}

/// The start or the end of one of the last rows, which few others refer to, moved by a little.
fn change_interval_near_end(random: &mut Random, subject: &mut Subject) {
    let rows = row_count(subject);
    if rows > 0 {
        let row = rows - 1 - random.below(rows.min(3));
        let number = &mut subject.table.part_mut()[row * 5 + random.pick(&[3, 4, 4, 4])];
        *number = number.saturating_add(random.pick(&[-1, 1, 1]));
    }
}

/// A row of one instant moved to another.
fn move_event(random: &mut Random, subject: &mut Subject) {
    let rows = row_count(subject);
    if rows > 0 {
        let at = random.below(rows) * 5;
        let instant = near_instant_of_row(random, &subject.watch, subject.table.part());
        let row = &mut subject.table.part_mut()[at..at + 5];
        if row[3] == row[4] {
            row[3] = instant;
            row[4] = instant;
        }
    }
}

fn swap_rows(random: &mut Random, subject: &mut Subject) {
    let rows = row_count(subject);
    if rows > 0 {
        let one = random.below(rows);
        let other = if random.one_in(2) { (one + 1) % rows } else { random.below(rows) };
        (0..5).for_each(|place| subject.table.part_mut().swap(one * 5 + place, other * 5 + place));
    }
}

fn copy_row(random: &mut Random, subject: &mut Subject) {
    let rows = row_count(subject);
    if rows > 0 {
        let (from, to) = (random.below(rows) * 5, random.below(rows) * 5);
        subject.table.part_mut().copy_within(from..from + 5, to);
    }
}

/// The last rows forgotten without their zeros, or with them.
fn drop_row(random: &mut Random, subject: &mut Subject) {
    let rows = row_count(subject);
    if rows > 0 {
        subject.watch.rows = rows - 1;
        if random.one_in(2) {
            subject.table.part_mut()[(rows - 1) * 5..rows * 5].fill(0);
        }
    }
}

/// A copy of the last row or of another behind the last: a row too many, and yet consistent with the others.
fn append_row(random: &mut Random, subject: &mut Subject) {
    let rows = row_count(subject);
    if rows > 0 && (rows + 1) * 5 <= subject.table.part().len() {
        let from = if random.one_in(2) { rows - 1 } else { random.below(rows) };
        subject.table.part_mut().copy_within(from * 5..from * 5 + 5, rows * 5);
        subject.watch.rows = rows + 1;
    }
}

/// A row behind the last that is a delayed one but for one number, and the open instant after it; none where the rows
/// there are give no such row that stands in its place by its end.
fn append_faulty_delay(random: &mut Random, subject: &mut Subject) -> Option<Fault> {
    let Subject { watch, chart, table } = subject;
    let (place, held) = (watch.rows, table.part().len() / 5);
    let entries: Vec<(usize, Entry)> = delays(chart).map(|(number, entry)| (number, *entry)).collect();
    if entries.is_empty() || place == 0 || place + 2 > held.min(65_535) {
        return None;
    }
    let (number, entry) = random.pick(&entries);
    let rows = rows_in_use(watch, table.part());
    let of_operand: Vec<usize> = (0..place).filter(|index| rows[*index].entry == entry.a as usize).collect();
    let left = *of_operand.get(random.below(of_operand.len().max(1)))?;
    let (fault, _) = random.pick(&FAULTS);
    let Row { start, end, .. } = rows[left];
    let right_row = Row { entry: number, left: left as i64, right: -1, start, end: end + i64::from(entry.b) };
    let faulty = with_fault(random, fault, right_row, &rows)?;
    let added = if let Fault::LeftNotLower = fault { vec![faulty, rows[left]] } else { vec![faulty] };
    let last_end = added.last()?.end;
    if faulty.end < rows[place - 1].end || last_end < faulty.end || last_end >= 1_000_000_000 {
        return None;
    }
    let all = [rows, added].concat();
    let numbers = flat(&all, table.part());
    table.part_mut().copy_from_slice(&numbers);
    watch.rows = all.len();
    watch.instant = watch.instant.max(last_end as i32 + 1);
    Some(fault)
}

/// A row that would be the next with one number changed; none where the rows before it have nothing for the fault.
fn with_fault(random: &mut Random, fault: Fault, row: Row, rows: &[Row]) -> Option<Row> {
    let off = random.pick(&[-1, 1]);
    let left = &rows[row.left as usize];
    Some(match fault {
        Fault::EndOffByOne => Row { end: row.end + off, ..row },
        Fault::EndWithoutDelay if row.end == left.end => return None,
        Fault::EndWithoutDelay => Row { end: left.end, ..row },
        Fault::Start => Row { start: row.start + off, ..row },
        Fault::Right => Row { right: random.pick(&[0, row.left, rows.len() as i64]), ..row },
        Fault::LeftOfAnotherEntry => {
            let is_another =
                |other: &&Row| other.entry != left.entry && (other.start, other.end) == (left.start, left.end);
            let place = rows.iter().position(|other| is_another(&other))?;
            Row { left: place as i64, ..row }
        }
        Fault::LeftNotLower => Row { left: rows.len() as i64 + 1, ..row },
    })
}

/// A row of a `cut` or `change` behind the last that no mark made: with a rival, or wrong in one thing; none where the
/// rows there are give no such row that stands in its place by its end.
fn append_nearest(random: &mut Random, subject: &mut Subject) -> Option<(u8, Damage)> {
    let Subject { watch, chart, table } = subject;
    let entries: Vec<(usize, Entry)> = nearest(chart).map(|(number, entry)| (number, *entry)).collect();
    let held = table.part().len() / 5;
    if entries.is_empty() || watch.rows == 0 || watch.rows + 2 > held.min(65_535) {
        return None;
    }
    let (number, entry) = random.pick(&entries);
    let rows = rows_in_use(watch, table.part());
    let (damage, _) = random.pick(&DAMAGES);
    let pairs = damaged_pairs(&entry, damage, &rows);
    let (left, right) = *pairs.get(random.below(pairs.len().max(1)))?;
    let (r, s) = (rows[left], rows[right]);
    let (start, end) = (r.start.min(s.start), r.end.max(s.end));
    let row =
        with_damage(damage, Row { entry: number, left: left as i64, right: right as i64, start, end }, rows.len());
    let added = if damage == Damage::RightNotLower { vec![row, s] } else { vec![row] };
    let all = [rows, added].concat();
    let numbers = flat(&all, table.part());
    table.part_mut().copy_from_slice(&numbers);
    watch.rows = all.len();
    watch.instant = watch.instant.max(row.end as i32 + 1);
    Some((entry.op, damage))
}

/// The places of r and s that a row with such a damage may be made of, where it ends with the last row or behind it.
fn damaged_pairs(entry: &Entry, damage: Damage, rows: &[Row]) -> Vec<(usize, usize)> {
    let interval = |row: &Row| Interval { start: row.start, end: row.end };
    let of = |operand: u32| (0..rows.len()).filter(move |place| rows[*place].entry == operand as usize);
    let [of_a, of_b] =
        [entry.a, entry.b].map(|operand| of(operand).map(|place| interval(&rows[place])).collect::<Vec<_>>());
    let last_end = rows[rows.len() - 1].end;
    let is_wanted = |(left, right): &(usize, usize)| {
        let (r, s) = (interval(&rows[*left]), interval(&rows[*right]));
        let pair = Pair { is_change: true, r, s, of_a: &of_a, of_b: &of_b };
        let is_last = r.end.max(s.end) == last_end;
        is_last
            && match damage {
                Damage::EndAtStart => r.end == s.start,
                Damage::EndAfterStart => r.end > s.start,
                Damage::RivalOfSecond => r.end < s.start && pair.has_rival_of_second(),
                Damage::RivalOfFirst => r.end < s.start && pair.has_rival_of_first(),
                _ => r.end < s.start,
            }
    };
    of(entry.a).flat_map(|left| of(entry.b).map(move |right| (left, right))).filter(is_wanted).collect()
}

/// The row with what is wrong with it; `place` is its own.
fn with_damage(damage: Damage, row: Row, place: usize) -> Row {
    match damage {
        Damage::Start => Row { start: row.start + 1, ..row },
        Damage::End => Row { end: row.end + 1, ..row },
        Damage::NoLeft => Row { left: -1, ..row },
        Damage::NoRight => Row { right: -1, ..row },
        Damage::Exchanged => Row { left: row.right, right: row.left, ..row },
        Damage::RightNotLower => Row { right: place as i64 + 1, ..row },
        _ => row,
    }
}

// What can be changed in a chart.

/// Another operator, mostly one that a watch may use too, another operand, code or length.
fn change_entry(random: &mut Random, subject: &mut Subject) {
    let chart = &mut subject.chart;
    let index = random.below(chart.count.clamp(1, 32));
    let entry = &mut chart.entries[index];
    match (random.below(4), entry.op) {
        (0 | 1, 4..=7) => entry.op = 4 + random.below(4) as u8,
        (0 | 1, 14..=17) => entry.op = 14 + random.below(4) as u8,
        (0 | 1, 1 | 3 | 8..=13 | 18 | 19) => entry.op = random.pick(&[1, 3, 8, 9, 10, 11, 12, 13, 18, 19]),
        (2, _) => entry.a = random.below(index.max(1)) as u32,
        (3, _) => entry.b = random.below(index.max(6)) as u32,
        _ => {
            chart.count = chart.count.clamp(2, 32) - 1;
            if random.one_in(2) {
                subject.watch.entries = chart.count;
            }
        }
    }
}

/// Another delay, shorter or longer by an instant or as long as can be.
fn change_delay(random: &mut Random, subject: &mut Subject) {
    let numbers: Vec<usize> = delays(&subject.chart).map(|(number, _)| number).collect();
    if !numbers.is_empty() {
        let length = &mut subject.chart.entries[random.pick(&numbers)].b;
        *length = random.pick(&[length.saturating_sub(1), length.saturating_add(1), 0, 1, 2_000_000_000]);
    }
}

/// A chart that a watch may not use, most of the time.
fn break_chart(random: &mut Random, chart: &mut Chart) {
    let index = random.below(chart.count.clamp(1, 32));
    let another = chart.entries[random.below(32)];
    let entry = &mut chart.entries[index];
    match random.below(6) {
        0 => chart.count = random.pick(&[0, 33, 34, 1 << 32, usize::MAX]),
        1 => entry.op = random.pick(&[20, 20, 21, 128, 255]),
        2 => entry.a = random.pick(&[index as u32, index as u32 + 1, 32, 255, 256, 257, 1 << 31, u32::MAX]),
        3 => entry.b = random.pick(&[index as u32, 1, 32, 2_000_000_000, 2_000_000_001, u32::MAX]),
        4 => *entry = another,
        _ => entry.op = random.below(20) as u8,
    }
}

/// Anything in the entries behind the chart's own, which no call looks at.
pub fn fill_blank_entries(random: &mut Random, chart: &mut Chart) {
    for entry in chart.entries.iter_mut().skip(chart.count) {
        entry.op = random.any_u64() as u8;
        entry.a = random.any_u64() as u32;
        entry.b = random.any_u64() as u32;
    }
}
