//! Pairs of logs by hand, and what must be printed for them by the words of the request.

use crate::by_sets::Pair;

/// The first log, the second and what is printed: a space stands for a tab, a comma and a space for byte 10.
type Plan = (Option<&'static str>, Option<&'static str>, &'static str);

const PLANS: [Plan; 38] = [
    // What is merged.
    (Some("open 0"), Some("open 0"), "open 0.0"),
    (Some("open 5"), Some("open 5.0"), "open 5.0"),
    (Some("open -0.5, event 7"), Some("open -0.5"), "open -0.5, event 7"),
    (
        Some("open 0, event 1, event 2"),
        Some("open 0, event 3, event 1"),
        "open 0.0, event 1, event 2, event 3, event 1",
    ),
    (Some("open 0, clock 1, event 1"), Some("open 0, clock 1.0, event 2"), "open 0.0, clock 1.0, event 1, event 2"),
    (
        Some("open 0, clock 2, event 1"),
        Some("open 0, clock 1, event 2"),
        "open 0.0, clock 1.0, event 2, clock 2.0, event 1",
    ),
    (Some("open 0, clock 1"), Some("open 0, clock 1"), "open 0.0, clock 1.0"),
    (Some("open 0, clock 1"), Some("open 0, clock 2.5"), "open 0.0, clock 1.0, clock 2.5"),
    (Some("open 0"), Some("open 0, clock 0.1, clock 0.2, event 0"), "open 0.0, clock 0.1, clock 0.2, event 0"),
    (
        Some("open -11, clock -2, event 1, clock 9"),
        Some("open -11.0, clock -10, clock 10, event 2"),
        "open -11.0, clock -10.0, clock -2.0, event 1, clock 9.0, clock 10.0, event 2",
    ),
    (
        Some("open -1, event 1, clock -0.1, event 2, clock 3, event 3"),
        Some("open -1, event 4, clock 3, event 5"),
        "open -1.0, event 1, event 4, clock -0.1, event 2, clock 3.0, event 3, event 5",
    ),
    (
        Some("open -100000000, clock 100000000, event 255"),
        Some("open -100000000.0, clock 99999999.9"),
        "open -100000000.0, clock 99999999.9, clock 100000000.0, event 255",
    ),
    // 7.
    (None, None, "refused 7 1"),
    (Some("open 0"), None, "refused 7 1"),
    (Some(""), Some("open 0"), "refused 7 1"),
    (Some("event 1, open 0"), Some("open 0"), "refused 7 1"),
    (Some("forget 0"), Some("open 0"), "refused 7 1"),
    (Some("open 0, event 1, open 0"), Some("open 0"), "refused 7 3"),
    (Some("open 0"), Some("open 0, event 256"), "refused 7 2"),
    (Some("open 0, clock 1000000000"), Some("open 0"), "refused 7 2"),
    (Some("open -0.0"), Some("open 0"), "refused 7 1"),
    (Some("open 0, event 01"), Some("open 0"), "refused 7 2"),
    (Some("open 0, forget 00"), Some("open 0"), "refused 7 2"),
    // 17.
    (Some("open 0, forget 0"), Some("open 0"), "refused 17 2"),
    (Some("open 0"), Some("open 0, clock 1, forget 999999999.9, clock 1"), "refused 17 3"),
    (Some("open 0, clock 0, forget 0"), Some("open 0"), "refused 8 2"),
    // 8.
    (Some("open 100000000.1"), Some("open 100000000.1"), "refused 8 1"),
    (Some("open 0, clock 0.0"), Some("open 0"), "refused 8 2"),
    (Some("open 0"), Some("open 0, clock 5, event 1, clock 4.9"), "refused 8 4"),
    (Some("open 0"), Some("open 0, clock 100000000.1"), "refused 8 2"),
    (Some("open 0"), Some("open 0, clock -100000000.1"), "refused 8 2"),
    // 18, and what comes before what.
    (Some("open 0"), Some("open 0.1"), "refused 18 1"),
    (Some("open 5"), Some("open -5, clock 7"), "refused 18 1"),
    (Some("open 0"), Some("open 1, clock 1"), "refused 8 2"),
    (Some("open 0, event 1, clock 0"), Some("open 1, forget 1"), "refused 8 3"),
    (Some("open 0, event 1, event 1, event 1, forget 0"), Some("event 1"), "refused 17 5"),
    (Some("open 0, event 1, event 1"), Some("open 0, event 1000"), "refused 7 2"),
    (Some("open 0"), Some("open 100000000.1"), "refused 8 1"),
];

pub fn all() -> impl Iterator<Item = (Pair, Vec<u8>)> {
    let planned = PLANS.iter().map(|(first, second, printed)| ([first.map(log), second.map(log)], log(printed)));
    planned.chain(crowded())
}

fn log(plan: &str) -> Vec<u8> {
    let line = |line: &str| line.replacen(' ', "\t", 2) + "\n";
    plan.split(", ").filter(|line| !line.is_empty()).map(line).collect::<String>().into_bytes()
}

/// No number of events at an instant is refused; and a last line without byte 10 is, at its line.
fn crowded() -> [(Pair, Vec<u8>); 2] {
    let log = format!("open\t0\n{}", "event\t9\n".repeat(100));
    let cut = log.as_bytes()[..log.len() - 1].to_vec();
    let both = format!("open\t0.0\n{}", "event\t9\n".repeat(200));
    let sound = Some(log.into_bytes());
    [([sound.clone(), sound.clone()], both.into_bytes()), ([sound, Some(cut)], b"refused\t7\t101\n".to_vec())]
}
