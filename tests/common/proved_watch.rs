//! The proved watch, linked from the archive that `tools/build host` writes. include/chronicle.h declares the same.

use common::interface::{Addition, Answer, Calls, Chart, ChartAnswer, Report, Rows, TreeAnswer, Watch};

#[link(name = "host", kind = "static")]
extern "C" {
    fn chronicle_read_chart(bytes: *const u8, length: usize) -> ChartAnswer;
    fn chronicle_open(chart: Chart, table: *mut i32, length: usize, instant: i32) -> Answer;
    fn chronicle_event(watch: Watch, chart: Chart, table: *const i32, length: usize, code: u8) -> Answer;
    fn chronicle_clock(watch: Watch, chart: Chart, table: *mut i32, length: usize, instant: i32) -> Answer;
    fn chronicle_forget(watch: Watch, chart: Chart, table: *mut i32, length: usize, floor: i32) -> Answer;
    fn chronicle_check(watch: Watch, chart: Chart, table: *const i32, length: usize) -> u32;
    fn chronicle_rows_ending(watch: Watch, chart: Chart, table: *const i32, length: usize, end: i32) -> Rows;
    fn chronicle_tree(
        watch: Watch,
        chart: Chart,
        table: *const i32,
        length: usize,
        row: usize,
        out: *mut u8,
        out_length: usize,
    ) -> TreeAnswer;
    fn chronicle_add_lines(
        watch: Watch,
        chart: Chart,
        table: *const i32,
        length: usize,
        bytes: *const u8,
        size: usize,
    ) -> Addition;
    fn chronicle_report(watch: Watch, chart: Chart, table: *const i32, length: usize) -> Report;
}

// The sizes that the C compiler gives the structs, and the archive's code takes them to have.
const _: () = assert!(size_of::<Chart>() == 392 && size_of::<ChartAnswer>() == 400);
const _: () = assert!(size_of::<Watch>() == 232 && size_of::<Answer>() == 240 && size_of::<Addition>() == 632);
const _: () = assert!(size_of::<Report>() == 288);

// SAFETY of every call: a slice is valid for its whole length during the call, a mutable one is lent to nobody else,
// and no call keeps a pointer.
pub const CALLS: Calls = Calls {
    read_chart: |bytes| unsafe { chronicle_read_chart(bytes.as_ptr(), bytes.len()) },
    open: |chart, table, instant| unsafe { chronicle_open(chart, table.as_mut_ptr(), table.len(), instant) },
    event: |watch, chart, table, code| unsafe { chronicle_event(watch, chart, table.as_ptr(), table.len(), code) },
    clock: |watch, chart, table, instant| unsafe {
        chronicle_clock(watch, chart, table.as_mut_ptr(), table.len(), instant)
    },
    forget: |watch, chart, table, floor| unsafe {
        chronicle_forget(watch, chart, table.as_mut_ptr(), table.len(), floor)
    },
    check: |watch, chart, table| unsafe { chronicle_check(watch, chart, table.as_ptr(), table.len()) },
    rows_ending: |watch, chart, table, end| unsafe {
        chronicle_rows_ending(watch, chart, table.as_ptr(), table.len(), end)
    },
    tree: |watch, chart, table, row, out| unsafe {
        chronicle_tree(watch, chart, table.as_ptr(), table.len(), row, out.as_mut_ptr(), out.len())
    },
    add_lines: |watch, chart, table, bytes| unsafe {
        chronicle_add_lines(watch, chart, table.as_ptr(), table.len(), bytes.as_ptr(), bytes.len())
    },
    report: |watch, chart, table| unsafe { chronicle_report(watch, chart, table.as_ptr(), table.len()) },
};
