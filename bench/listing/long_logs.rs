//! Inputs of many events, drawn with a plain watch at hand so that the table stays about as full as asked for. Their
//! instants and lengths are whole milliseconds.

use crate::watch::Watch;
use crate::TABLE_ROWS;
use common::plain_chart;
use common::plain_watch::storage::START;
use common::random::Random;

/// The tenths in which the watch counts.
const MILLISECOND: i32 = 10;
/// Before the lamp trigger, in milliseconds.
const OPENING: i32 = -1_000;

/// A chart, and the codes of the events that come in, each as often as it stands here.
pub struct Workload {
    pub name: &'static str,
    chart: &'static str,
    codes: &'static [u8],
    most_events_an_instant: usize,
    /// No more rows than this come with one mark.
    most_new_rows: usize,
    /// A forget drops one row in so many, each of these as often as another.
    one_forgotten_in: &'static [usize],
}

/// A chart, an empty line and a log, and how many rows are in use after its marks.
pub struct Drawn {
    pub input: Vec<u8>,
    pub most_rows: usize,
    pub mean_rows: usize,
}

pub const WORKLOADS: [Workload; 3] = [
    // Most events are of codes that the chart does not name.
    Workload {
        name: "samples",
        chart: "0\tevent\t1\n1\tevent\t2\n2\tor\t0\t1\n3\tatmost\t2\t5\n",
        codes: &[1, 2, 7, 8, 9, 9, 9, 9],
        most_events_an_instant: 8,
        most_new_rows: 40,
        one_forgotten_in: &[10, 2],
    },
    // Stage settled (1), shutter opened (2), focus moved (3), and settled before opened with no focus move between.
    Workload {
        name: "morning",
        chart: "0\tevent\t1\n1\tevent\t2\n2\tevent\t3\n3\tseq\t0\t1\n4\t-[]\t3\t2\n5\tatmost\t4\t8\n6\tor\t5\t2\n",
        codes: &[1, 2, 3, 3, 3, 3, 7, 8, 9, 9],
        most_events_an_instant: 4,
        most_new_rows: 400,
        one_forgotten_in: &[10, 2],
    },
    // Intervals between two events, and their relations.
    Workload {
        name: "relations",
        chart: "0\tevent\t1\n1\tevent\t2\n2\tseq\t0\t1\n3\tatmost\t2\t2\n4\tmeets\t3\t3\n5\toverlaps\t3\t3\n\
                6\tstarts\t3\t3\n7\tduring\t3\t3\n8\tfinishes\t3\t3\n9\tequals\t3\t3\n10\t-][\t3\t0\n",
        codes: &[1, 2, 7, 7, 7, 8, 8, 9, 9, 9],
        most_events_an_instant: 4,
        most_new_rows: 400,
        one_forgotten_in: &[10, 2],
    },
];

/// An event and relations over it as entries.
macro_rules! overlaps {
    ($($entry:literal)*) => {
        concat!("0\tevent\t1\n" $(, $entry, "\toverlaps\t0\t0\n")*)
    };
}

/// The most relations over a single event, of which no two rows overlap, beside a table that is kept nearly full: what a
/// mark costs is what it looks at in vain.
pub const FULL_TABLE: Workload = Workload {
    name: "overlaps",
    chart: overlaps!(1 2 3 4 5 6 7 8 9 10 11 12 13 14 15 16 17 18 19 20 21 22 23 24 25 26 27 28 29 30 31),
    codes: &[1],
    most_events_an_instant: 1,
    most_new_rows: 1,
    one_forgotten_in: &[30],
};
/// How many rows of it may be in use before some are forgotten.
pub const FULL_TABLE_ROWS: usize = 2_990;

impl Workload {
    /// An input of so many events. Some rows are forgotten as soon as more than `rows` are in use or the next mark could
    /// fill the table.
    pub fn draw(&self, random: &mut Random, events: usize, rows: usize) -> Drawn {
        let entries = plain_chart::read(self.chart.as_bytes()).expect("the workload's chart is sound");
        let opening = i64::from(OPENING * MILLISECOND);
        let mut watch = Watch::open(&entries, TABLE_ROWS, opening).expect("the instant is in range");
        let mut text = format!("{}\nopen\t{OPENING}\n", self.chart);
        let (mut left, mut marks, mut most_rows, mut sum_of_rows) = (events, 0, 0, 0);
        while left > 0 {
            let count = (1 + random.below(self.most_events_an_instant)).min(left);
            left -= count;
            self.play_instant(random, &mut watch, count, rows, &mut text);
            marks += 1;
            most_rows = most_rows.max(watch.rows().len());
            sum_of_rows += watch.rows().len();
        }
        Drawn { input: text.into_bytes(), most_rows, mean_rows: sum_of_rows / marks.max(1) }
    }

    /// Some events, a forget where it is time for one, and a mark.
    fn play_instant(&self, random: &mut Random, watch: &mut Watch, events: usize, rows: usize, text: &mut String) {
        (0..events).for_each(|_| *text += &event(watch, random.pick(self.codes)));
        if watch.rows().len() > rows.min(TABLE_ROWS - self.most_new_rows) {
            *text += &forget(watch, random.pick(self.one_forgotten_in));
        }
        let instant = watch.instant() + MILLISECOND * (1 + random.below(3) as i32);
        watch.clock(instant.into()).expect("the workload's rows fit");
        *text += &format!("clock\t{}\n", instant / MILLISECOND);
    }
}

fn event(watch: &mut Watch, code: u8) -> String {
    watch.event(code).expect("the workload's events are taken");
    format!("event\t{code}\n")
}

/// Forgets until one row in so many is gone.
fn forget(watch: &mut Watch, one_in: usize) -> String {
    let mut starts: Vec<i32> = watch.rows().iter().map(|row| row[START]).collect();
    starts.sort_unstable();
    let floor = starts[starts.len() / one_in] + MILLISECOND;
    let floor = floor.min(watch.instant());
    watch.forget(floor.into()).expect("a floor at a row's start is taken");
    format!("forget\t{}\n", floor / MILLISECOND)
}

/// One event more than there are serials: the last instant is full too, so that 9 and 10 both apply to it.
pub fn one_event_too_many() -> Vec<u8> {
    let mut text = "0\tevent\t1\n1\tseq\t0\t0\n\nopen\t-1000\n".to_string();
    for mark in 0..1_000_000 / 64 {
        if mark > 0 {
            text += &format!("clock\t{mark}\nforget\t{}\n", (mark - 50).max(-1_000));
        }
        (0..64).for_each(|place| text += if place == 31 { "event\t1\n" } else { "event\t2\n" });
    }
    (text + "event\t2\n").into_bytes()
}
