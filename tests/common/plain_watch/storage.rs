//! Where the plain watch keeps its rows: in a table, and beside it, or not, a list of rows for each entry. A call on a
//! lent table has the table alone and finds an entry's rows among all of them, as the proved call does; lists would have
//! to be made anew in every call. The plain listing program has the watch to itself and keeps them from line to line.

use std::slice;

/// Entry, left, right, start, end.
pub type Row = [i32; 5];
pub const ENTRY: usize = 0;
pub const START: usize = 3;
pub const END: usize = 4;
pub const UNUSED: Row = [0; 5];

/// A row as operators see it: its number and its interval.
#[derive(Clone, Copy, PartialEq)]
pub struct Span {
    pub row: i32,
    pub start: i32,
    pub end: i32,
}

impl Span {
    #[inline]
    pub fn of(number: i32, row: &Row) -> Span {
        Span { row: number, start: row[START], end: row[END] }
    }
}

/// The rows of a watch while instants are closed. The first `before` were there before the mark; the first `old` end
/// before the instant that is closed, those from there to `count` at it.
pub struct Storage<'a> {
    pub rows: &'a mut [Row],
    pub before: usize,
    pub old: usize,
    pub count: usize,
    pub index: Option<&'a mut Index>,
}

impl<'a> Storage<'a> {
    pub fn new(rows: &'a mut [Row], in_use: usize, index: Option<&'a mut Index>) -> Storage<'a> {
        Storage { rows, before: in_use, old: in_use, count: in_use, index }
    }

    /// Goes on to a later instant: the rows of this one are old there.
    #[inline]
    pub fn go_on(&mut self) {
        self.old = self.count;
        if let Some(index) = &mut self.index {
            index.lists.iter_mut().for_each(|list| list.old = list.spans.len());
        }
    }

    /// Leaves the rows from before the mark alone, the others being zeros again: the table was full, so every row was
    /// written.
    pub fn take_back(&mut self) {
        self.rows[self.before..].fill(UNUSED);
        if let Some(index) = &mut self.index {
            for list in &mut index.lists {
                list.spans.truncate(list.spans.partition_point(|span| (span.row as usize) < self.before));
                list.old = list.spans.len();
            }
        }
    }
}

/// The list of each entry, and the entries, as bits, that name the code of a pending event.
pub struct Index {
    pub lists: Vec<List>,
    pub named: u32,
}

/// The rows of one entry, in their order, of which the first `old` end before the instant that is closed.
#[derive(Default)]
pub struct List {
    spans: Vec<Span>,
    old: usize,
}

impl List {
    /// Adds new rows, the first of which has the number `first`.
    #[inline]
    pub fn add(&mut self, first: usize, rows: &[Row]) {
        self.spans.extend(rows.iter().zip(first as i32..).map(|(row, number)| Span::of(number, row)));
    }
}

impl Index {
    pub fn new(entries: usize) -> Index {
        Index { lists: (0..entries).map(|_| List::default()).collect(), named: 0 }
    }

    /// After a mark nothing is pending, and no row is new.
    #[inline]
    pub fn mark(&mut self) {
        if self.named != 0 {
            self.lists.iter_mut().for_each(|list| list.old = list.spans.len());
        }
        self.named = 0;
    }

    /// Renumbers the rows and leaves those that start at the floor or later.
    pub fn forget(&mut self, floor: i32, places: &[u16]) {
        for list in &mut self.lists {
            list.spans.retain_mut(|span| {
                span.row = i32::from(places[span.row as usize]);
                span.start >= floor
            });
            list.old = list.spans.len();
        }
    }
}

/// The rows of lower entries, which an entry's own are made of.
pub trait Lower: Copy {
    type Rows: Part;

    fn old(self, entry: u32) -> Self::Rows;
    fn new(self, entry: u32) -> Self::Rows;
    fn all(self, entry: u32) -> Self::Rows;
}

/// Some of the rows of an entry, in their order, which is by their end.
pub trait Part: Copy {
    fn spans(self) -> impl DoubleEndedIterator<Item = Span>;

    /// Those that end before an instant, and the others.
    fn cut(self, instant: i32) -> (Self, Self);

    /// Those that end at an instant or later, from the last back.
    fn back_to(self, instant: i32) -> impl Iterator<Item = Span>;
}

impl<'a> Lower for &'a [List] {
    type Rows = &'a [Span];

    #[inline]
    fn old(self, entry: u32) -> &'a [Span] {
        let list = &self[entry as usize];
        &list.spans[..list.old]
    }

    #[inline]
    fn new(self, entry: u32) -> &'a [Span] {
        let list = &self[entry as usize];
        &list.spans[list.old..]
    }

    #[inline]
    fn all(self, entry: u32) -> &'a [Span] {
        &self[entry as usize].spans
    }
}

impl Part for &[Span] {
    #[inline]
    fn spans(self) -> impl DoubleEndedIterator<Item = Span> {
        self.iter().copied()
    }

    #[inline]
    fn cut(self, instant: i32) -> (Self, Self) {
        self.split_at(self.partition_point(|span| span.end < instant))
    }

    /// Without `cut`: mostly few of them are asked for.
    #[inline]
    fn back_to(self, instant: i32) -> impl Iterator<Item = Span> {
        self.iter().rev().copied().take_while(move |span| span.end >= instant)
    }
}

/// All rows of a table, of which the first `old` are old.
#[derive(Clone, Copy)]
pub struct Table<'a> {
    pub rows: &'a [Row],
    pub old: usize,
}

impl<'a> Table<'a> {
    #[inline]
    fn part(self, entry: u32, first: usize, end: usize) -> TablePart<'a> {
        TablePart { entry: entry as i32, first, rows: &self.rows[first..end] }
    }
}

impl<'a> Lower for Table<'a> {
    type Rows = TablePart<'a>;

    #[inline]
    fn old(self, entry: u32) -> TablePart<'a> {
        self.part(entry, 0, self.old)
    }

    #[inline]
    fn new(self, entry: u32) -> TablePart<'a> {
        self.part(entry, self.old, self.rows.len())
    }

    #[inline]
    fn all(self, entry: u32) -> TablePart<'a> {
        self.part(entry, 0, self.rows.len())
    }
}

/// The rows of an entry among these, the first of which has the number `first`.
#[derive(Clone, Copy)]
pub struct TablePart<'a> {
    entry: i32,
    first: usize,
    rows: &'a [Row],
}

impl Part for TablePart<'_> {
    #[inline]
    fn spans(self) -> impl DoubleEndedIterator<Item = Span> {
        TableSpans { entry: self.entry, next: self.first as i32, rows: self.rows.iter() }
    }

    #[inline]
    fn cut(self, instant: i32) -> (Self, Self) {
        let (before, from) = self.rows.split_at(self.rows.partition_point(|row| row[END] < instant));
        (TablePart { rows: before, ..self }, TablePart { rows: from, first: self.first + before.len(), ..self })
    }

    #[inline]
    fn back_to(self, instant: i32) -> impl Iterator<Item = Span> {
        self.cut(instant).1.spans().rev()
    }
}

/// One loop to the compiler, which the standard library's adapters are not here.
struct TableSpans<'a> {
    entry: i32,
    next: i32,
    rows: slice::Iter<'a, Row>,
}

impl Iterator for TableSpans<'_> {
    type Item = Span;

    #[inline]
    fn next(&mut self) -> Option<Span> {
        loop {
            let row = self.rows.next()?;
            self.next += 1;
            if row[ENTRY] == self.entry {
                return Some(Span::of(self.next - 1, row));
            }
        }
    }
}

impl DoubleEndedIterator for TableSpans<'_> {
    #[inline]
    fn next_back(&mut self) -> Option<Span> {
        loop {
            let row = self.rows.next_back()?;
            if row[ENTRY] == self.entry {
                return Some(Span::of(self.next + self.rows.len() as i32, row));
            }
        }
    }
}

/// The place of an entry's own rows: the table's free ones. The entry counts from an instant on.
pub struct Own<'a> {
    pub entry: i32,
    pub since: i32,
    pub free: &'a mut [Row],
    pub pushed: usize,
}

impl Own<'_> {
    /// Appends a row of the entry, but for one that starts before the entry counts; none where the table is full.
    #[inline]
    pub fn push(&mut self, left: i32, right: i32, start: i32, end: i32) -> Option<()> {
        if start < self.since {
            return Some(());
        }
        *self.free.get_mut(self.pushed)? = [self.entry, left, right, start, end];
        self.pushed += 1;
        Some(())
    }
}
