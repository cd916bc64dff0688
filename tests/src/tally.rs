//! Counts what was reached, and says which class never was.

use crate::change::CHANGES;
use std::collections::BTreeMap;

#[derive(Default)]
pub struct Tally {
    groups: BTreeMap<&'static str, BTreeMap<String, u64>>,
}

/// Sorts of locks that line 15 refuses.
const WRONG_LOCKS: &[&str] = &[
    "mask 2^M",
    "mask 2^M and modes",
    "mask with a bit above M",
    "mask with bit 63",
    "mask 1024 with ten modes",
    "mask that ten modes would have",
    "mask right if cut to 16 bits",
    "mask right if cut to 32 bits",
    "value of a mode that is not locked",
    "value with mask 0",
    "value at or above M alone",
    "values right if cut to 16 bits",
    "values right if cut to 32 bits",
    "mask and values wrong",
];

/// Classes of plans, searches and sheets that a whole run has to reach.
const CLASSES: [(&str, &[&str]); 24] = [
    ("junctions", &["1", "2..12", "13..255", "256", "257 (refused)"]),
    ("modes", &["11 (refused)"]),
    ("records", &["J + 1", "up to 100", "up to 255", "256", "257", "up to 2047", "2048", "2049 (refused)"]),
    ("named belts", &["0", "1..4", "5..16", "17..47", "48", "49 (refused)"]),
    ("ending", &["route", "none", "spent"]),
    ("steps of the route", &["0", "1", "2..9", "10..254", "255"]),
    ("queries", &["s < t", "s = t", "s > t"]),
    (
        "budgets",
        &[
            "1",
            "2",
            "one too few",
            "exactly enough",
            "one more",
            "2^(k+1) - 1",
            "1000000",
            "2^64 - 1",
            "up to enough",
            "affordable",
        ],
    ),
    (
        "searches",
        &[
            "picks open different counts",
            "orders open different counts",
            "over 1000 opened",
            "cheapest route not permitted",
            "first of equally cheap permitted routes",
            "setting over 0",
            "several settings work",
            "cost over 65535",
            "cost over 2^32 - 1",
            "equally cheap over a carry",
        ],
    ),
    (
        "another route by a wrong cost",
        &["halves exchanged", "high half alone", "low half alone", "no carry between the halves", "sum cut to 32 bits"],
    ),
    (
        "plans",
        &[
            "zero costs",
            "belt cost over 65535",
            "belt cost 2^32 - 1",
            "twins",
            "empty rule",
            "belt twice in a rule",
            "belt with both signs in a rule",
            "no rules",
            "all bounds at once",
            "damaged and still valid",
        ],
    ),
    ("locks", &["no mode", "some modes", "every mode", "mode 10"]),
    ("every lock, by modes", &["1", "2", "3", "4"]),
    (
        "what a lock changes",
        &[
            "the route",
            "a route into none",
            "the opened count",
            "the setting alone",
            "the setting, in a mode that is not locked",
            "the setting, in a mode that no rule names",
        ],
    ),
    (
        "sheets under a lock",
        &[
            "accepted",
            "14, a rule is not met",
            "14, the lock is broken",
            "14, the lock is broken and a rule is not met",
            "13, and the lock is broken",
            "12, and the lock is broken",
            "11, and the lock is broken",
        ],
    ),
    ("wrong locks, search", WRONG_LOCKS),
    ("wrong locks, check", WRONG_LOCKS),
    (
        "lines broken, search",
        &[
            "8 alone",
            "15 alone",
            "9 alone",
            "10 alone",
            "8 before 15",
            "8 before 9",
            "8 before 10",
            "15 before 9",
            "15 before 10",
            "9 before 10",
        ],
    ),
    (
        "lines broken, check",
        &[
            "8 alone",
            "15 alone",
            "11 alone",
            "12 alone",
            "13 alone",
            "14 alone",
            "8 before 15",
            "8 before 11",
            "8 before 12",
            "8 before 13",
            "8 before 14",
            "15 before 11",
            "15 before 12",
            "15 before 13",
            "15 before 14",
            "12 before 13",
            "12 before 14",
            "13 before 14",
        ],
    ),
    (
        "archive forms",
        &[
            "the plan itself",
            "no record above the junctions",
            "rules and no belts",
            "2048 records",
            "belts renumbered",
            "belts of high cost renumbered",
            "named belts renumbered",
            "belts not in the order of their junctions",
            "mode with the number of a renumbered belt",
            "modes not in the order of their numbers",
            "rule before a belt",
            "literal before the belt that it names",
            "first literal not behind its rule",
            "rule between two literals of another",
            "empty rule before another",
            "empty rule at the end",
        ],
    ),
    ("same archive form", &["same bytes", "rules and literals elsewhere"]),
    (
        "queries of archive forms",
        &[
            "sheet with other belts",
            "same sheet",
            "none",
            "spent",
            "refused with 8",
            "refused with 15",
            "refused with 9",
            "refused with 10",
        ],
    ),
    (
        "out for an archive form",
        &[
            "empty",
            "empty, and the plan too",
            "one byte short",
            "one record short",
            "short",
            "3072 bytes, and short",
            "as long as the plan",
            "long enough, under 3072 bytes",
            "one byte more",
            "one record more",
            "more",
            "70000 bytes",
        ],
    ),
    ("another archive form by", &["layout with the belts in another order"]),
];

impl Tally {
    pub fn add(&mut self, group: &'static str, name: &str) {
        let names = self.groups.entry(group).or_default();
        match names.get_mut(name) {
            Some(count) => *count += 1,
            None => {
                names.insert(name.to_string(), 1);
            }
        }
    }

    /// Counts the first of some broken lines, alone or before each of the others.
    pub fn add_lines(&mut self, group: &'static str, lines: &[u64]) {
        match lines {
            [] => {}
            [only] => self.add(group, &format!("{only} alone")),
            [first, others @ ..] => {
                for other in others {
                    self.add(group, &format!("{first} before {other}"));
                }
            }
        }
    }

    pub fn print(&self) {
        for (group, names) in &self.groups {
            let mut entries: Vec<(&String, &u64)> = names.iter().collect();
            // By the number in front, not by its first digit.
            entries.sort_by_key(|(name, _)| (number_in_front(name), name.as_str()));
            println!("{group}:");
            for line in entries.chunks(6) {
                let words: Vec<String> = line.iter().map(|(name, count)| format!("{name}: {count}")).collect();
                println!("  {}", words.join(", "));
            }
        }
    }

    /// Every required class that was never reached; `damages` are those of plans and sheets.
    pub fn missing(&self, damages: &[(&'static str, String)]) -> Vec<String> {
        let mut required: Vec<(&str, String)> = damages.to_vec();
        for (group, names) in CLASSES {
            required.extend(names.iter().map(|name| (group, name.to_string())));
        }
        required.extend((0..=7).map(|number| ("answers of planner_check_plan", number.to_string())));
        let searches = (0..=10).chain([15, 100, 101]);
        required.extend(searches.map(|number| ("answers of planner_search", number.to_string())));
        required.extend((0..=8).chain(11..=15).map(|number| ("answers of planner_check_sheet", number.to_string())));
        required.extend((0..=7).chain([16]).map(|number| ("answers of planner_archive", number.to_string())));
        required.extend(CHANGES.map(|(name, _)| ("another archive form by", name.to_string())));
        required.push(("lines broken, archive form", "16 alone".to_string()));
        for line in 1..=7 {
            required.push(("lines broken, archive form", format!("{line} alone")));
            required.push(("lines broken, archive form", format!("{line} before 16")));
        }
        required.extend((0..=10).map(|modes| ("modes", modes.to_string())));
        for ending in ["route", "none", "spent"] {
            for (pick, order) in [(0, 0), (0, 1), (1, 0), (1, 1), (2, 0), (2, 1)] {
                for group in ["pick, order and ending", "pick, order and ending under a lock"] {
                    required.push((group, format!("{pick} {order} {ending}")));
                }
            }
        }
        let reached = |group: &str, name: &str| self.groups.get(group).is_some_and(|names| names.contains_key(name));
        required.retain(|(group, name)| !reached(group, name));
        required.iter().map(|(group, name)| format!("{group}: {name}")).collect()
    }
}

fn number_in_front(name: &str) -> u64 {
    let digits: String = name.chars().take_while(|letter| letter.is_ascii_digit()).collect();
    digits.parse().unwrap_or(0)
}
