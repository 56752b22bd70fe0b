//! The C interface of the watch as Rust values: the structs of include/chronicle.h, and its calls with slices in the
//! place of pointers and lengths, so that one test runs on the proved watch and on any other.

pub const MOST_ENTRIES: usize = 32;
pub const MOST_PENDING: usize = 64;
/// The floor of an opened watch, from which the entries of its opening count.
pub const FIRST_FLOOR: i32 = -1_000_000_000;

#[repr(C)]
#[derive(Clone, Copy, Debug, PartialEq)]
pub struct Entry {
    pub op: u8,
    pub a: u32,
    pub b: u32,
}

#[repr(C)]
#[derive(Clone, Copy, Debug, PartialEq)]
pub struct Chart {
    pub count: usize,
    pub entries: [Entry; 32],
}

#[repr(C)]
#[derive(Clone, Copy, Debug, PartialEq)]
pub struct ChartAnswer {
    pub refusal: u32,
    pub line: u32,
    pub chart: Chart,
}

#[repr(C)]
#[derive(Clone, Copy, Debug, PartialEq)]
pub struct Watch {
    pub instant: i32,
    pub floor: i32,
    pub events: usize,
    pub rows: usize,
    pub pending: usize,
    pub codes: [u8; 64],
    pub entries: usize,
    /// The instant from which each entry counts.
    pub since: [i32; 32],
}

#[repr(C)]
#[derive(Clone, Copy, Debug, PartialEq)]
pub struct Answer {
    pub refusal: u32,
    pub watch: Watch,
}

/// What an addition answers: the refusal's number and the line, both 0 where it is taken; watch and chart after it.
#[repr(C)]
#[derive(Clone, Copy, Debug, PartialEq)]
pub struct Addition {
    pub refusal: u32,
    pub line: u32,
    pub watch: Watch,
    pub chart: Chart,
}

/// The rows `first` to `first + count - 1`. Where no row has the end asked for, `count` is 0 and `first` is how many
/// rows end before it; of a refused call both are 0.
#[repr(C)]
#[derive(Clone, Copy, Debug, PartialEq)]
pub struct Rows {
    pub first: usize,
    pub count: usize,
}

#[repr(C)]
#[derive(Clone, Copy, Debug, PartialEq)]
pub struct TreeAnswer {
    pub refusal: u32,
    pub length: usize,
}

/// What a report answers: the refusal's number; how many entries the chart has, how many rows are in use, and how many
/// were read for the tallies, those read for the check apart; and how many rows each entry has, with zeros behind the
/// last. Of a refused call all but the number are 0.
#[repr(C)]
#[derive(Clone, Copy, Debug, PartialEq)]
pub struct Report {
    pub refusal: u32,
    pub entries: usize,
    pub rows: usize,
    pub read: usize,
    pub tallies: [usize; 32],
}

/// The calls of a watch, the proved one or another.
#[derive(Clone, Copy)]
pub struct Calls {
    pub read_chart: fn(&[u8]) -> ChartAnswer,
    pub open: fn(Chart, &mut [i32], i32) -> Answer,
    pub event: fn(Watch, Chart, &[i32], u8) -> Answer,
    pub clock: fn(Watch, Chart, &mut [i32], i32) -> Answer,
    pub forget: fn(Watch, Chart, &mut [i32], i32) -> Answer,
    pub check: fn(Watch, Chart, &[i32]) -> u32,
    pub rows_ending: fn(Watch, Chart, &[i32], i32) -> Rows,
    pub tree: fn(Watch, Chart, &[i32], usize, &mut [u8]) -> TreeAnswer,
    pub add_lines: fn(Watch, Chart, &[i32], &[u8]) -> Addition,
    pub report: fn(Watch, Chart, &[i32]) -> Report,
}

impl Chart {
    pub fn no_entries() -> Chart {
        Chart { count: 0, entries: [Entry { op: 0, a: 0, b: 0 }; MOST_ENTRIES] }
    }
}

impl Report {
    /// "Refused (14, 13), the library's report gives only the number."
    pub fn refused(refusal: u32) -> Report {
        Report { refusal, entries: 0, rows: 0, read: 0, tallies: [0; MOST_ENTRIES] }
    }
}

impl Watch {
    /// "Floor -1,000,000,000, counts 0, no events"; and of entries, "an empty watch has none".
    pub fn empty(instant: i32) -> Watch {
        let (codes, since) = ([0; MOST_PENDING], [0; MOST_ENTRIES]);
        Watch { instant, floor: FIRST_FLOOR, events: 0, rows: 0, pending: 0, codes, entries: 0, since }
    }

    /// What an opening under a chart of so many entries, at most 32, hands back: each counts from the opening floor.
    pub fn opened(instant: i32, entries: usize) -> Watch {
        let mut watch = Watch { entries, ..Watch::empty(instant) };
        watch.since[..entries].fill(FIRST_FLOOR);
        watch
    }
}
