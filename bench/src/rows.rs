//! The benchmark's rows: which plan, which query.

use crate::check;
use crate::plans::spec::Graph::{Dear, Local, Scattered, SideLine};
use crate::plans::spec::Rules::{Bans, Covers, Mixed, Modes};
use crate::plans::spec::{Network, Size, Spec, LARGEST};
use crate::query::Query;
use std::path::Path;

pub struct Row {
    pub name: String,
    /// None if the plan is refused.
    pub size: Option<Size>,
    pub plan: Vec<u8>,
    pub query: Query,
}

pub struct PlanRow {
    pub name: &'static str,
    pub plan: Vec<u8>,
}

/// More than any of the searches with it opens.
const AMPLE: u64 = 1_000_000;

const SMALL: Network = Network { junctions: 12, belts: 40, graph: Local(4) };
const SHUFFLED_40: Network = Network { junctions: 40, belts: 120, graph: Scattered(8) };
const FAN_3: Network = Network { junctions: 64, belts: 200, graph: Local(8) };
const SPARSE: Network = Network { junctions: 250, belts: 500, graph: Local(3) };
const DENSE: Network = Network { junctions: 64, belts: 500, graph: Local(16) };
const FAN_4: Network = Network { junctions: 250, belts: 1_000, graph: Local(8) };
const FAN_8: Network = Network { junctions: 128, belts: 1_000, graph: Local(20) };
const NARROW: Network = Network { junctions: 256, belts: LARGEST, graph: Local(6) };
const BIG: Network = Network { junctions: 256, belts: LARGEST, graph: Local(16) };
const WIDE: Network = Network { junctions: 256, belts: LARGEST, graph: Local(255) };
const DEAREST: Network = Network { junctions: 256, belts: LARGEST, graph: Dear(16) };
const STREWN: Network = Network { junctions: 256, belts: LARGEST, graph: Scattered(16) };
const SIDE: Network = Network { junctions: 256, belts: LARGEST, graph: SideLine(16) };

pub fn searches() -> Vec<Row> {
    let rows = [small(), medium(), large(), largest(), trips(), modes(), locks()];
    rows.into_iter().flatten().collect()
}

fn row(name: &str, spec: Spec, query: Query) -> Row {
    let (size, plan) = spec.plan();
    Row { name: name.into(), size: Some(size), plan, query }
}

/// The row of a query of a plan file, called by the file.
pub fn of_file(path: &Path, query: Query) -> Result<Row, String> {
    let read = std::fs::read(path);
    let plan = read.map_err(|error| format!("{} cannot be read: {error}", path.display()))?;
    let name = path.file_name().unwrap_or(path.as_os_str()).to_string_lossy().into();
    let size = check::check(&plan).ok().map(|records| Size::of(&records));
    Ok(Row { name, size, plan, query })
}

fn ask(s: u64, t: u64, pick: u64, order: u64, budget: u64) -> Query {
    Query { s, t, pick, order, budget, mask: 0, values: 0 }
}

/// The same query with some modes locked on and others locked off.
fn locked(on: &[u32], off: &[u32], query: Query) -> Query {
    let bits = |modes: &[u32]| modes.iter().map(|mode| 1 << (mode - 1)).sum::<u64>();
    Query { mask: bits(on) + bits(off), values: bits(on), ..query }
}

/// 40 belts. The first row opens one subproblem: the call's own cost.
fn small() -> Vec<Row> {
    vec![
        row("40 one opened", SMALL.rules(2, 6, Covers(3)), ask(1, 12, 0, 0, AMPLE)),
        row("40 few named", SMALL.rules(3, 6, Bans(6)), ask(1, 12, 2, 0, AMPLE)),
        row("40 covers", SMALL.rules(0, 18, Covers(3)), ask(1, 12, 2, 1, AMPLE)),
    ]
}

/// 200 and 500 belts: fan-out 3, 2 and 8.
fn medium() -> Vec<Row> {
    vec![
        row("200 few named", FAN_3.rules(3, 6, Bans(6)), ask(1, 64, 0, 1, AMPLE)),
        row("200 covers", FAN_3.rules(2, 24, Covers(3)), ask(1, 64, 2, 0, AMPLE)),
        row("200 48 bans", FAN_3.rules(3, 48, Bans(48)), ask(1, 64, 1, 1, AMPLE)),
        row("500 sparse few", SPARSE.rules(3, 6, Bans(6)), ask(1, 250, 2, 1, AMPLE)),
        row("500 sparse bans", SPARSE.rules(1, 12, Bans(12)), ask(1, 250, 1, 1, AMPLE)),
        row("500 sparse 48 mixed", SPARSE.rules(0, 48, Mixed(48)), ask(1, 250, 0, 0, 200_000)),
        row("500 dense none", DENSE.rules(2, 24, Covers(3)), ask(1, 64, 1, 0, AMPLE)),
        row("500 dense 48 covers", DENSE.rules(1, 48, Covers(3)), ask(1, 64, 0, 1, 200_000)),
    ]
}

/// 1,000 belts: fan-out 4 and 8.
fn large() -> Vec<Row> {
    vec![
        row("1000 few named", FAN_4.rules(0, 6, Covers(3)), ask(1, 250, 0, 0, AMPLE)),
        row("1000 covers", FAN_4.rules(3, 18, Covers(3)), ask(1, 250, 2, 0, AMPLE)),
        row("1000 48 mixed", FAN_4.rules(1, 48, Mixed(48)), ask(1, 250, 1, 0, 100_000)),
        row("1000 dense 48 covers", FAN_8.rules(0, 48, Covers(3)), ask(1, 128, 2, 0, 100_000)),
    ]
}

/// 2,048 records, from the first junction to the last.
fn largest() -> Vec<Row> {
    vec![
        row("largest one opened", BIG.rules(0, 12, Bans(12)), ask(1, 256, 0, 0, AMPLE)),
        row("largest few named", BIG.rules(3, 6, Covers(3)), ask(1, 256, 0, 1, AMPLE)),
        row("largest covers", BIG.rules(0, 12, Covers(3)), ask(1, 256, 0, 0, AMPLE)),
        row("largest dear", DEAREST.rules(0, 12, Covers(3)), ask(1, 256, 0, 0, AMPLE)),
        row("largest scattered", STREWN.rules(0, 12, Covers(3)), ask(1, 256, 0, 0, AMPLE)),
        row("largest 48 covers", BIG.rules(1, 48, Covers(3)), ask(1, 256, 1, 1, 200_000)),
        row("largest 48 mixed", BIG.rules(2, 48, Mixed(48)), ask(1, 256, 2, 0, 50_000)),
        row("largest wide", WIDE.rules(1, 24, Covers(2)), ask(1, 256, 2, 1, AMPLE)),
        row("largest 300 rules", NARROW.rules(0, 48, Mixed(300)), ask(1, 256, 0, 0, 50_000)),
    ]
}

/// 2,048 records, of which the search needs only a part: s and t stand close
/// together, or few junctions can be reached from s.
fn trips() -> Vec<Row> {
    let short = BIG.rules(4, 36, Covers(12)).leaving(120..140);
    let short_48 = BIG.rules(0, 48, Mixed(100)).leaving(110..150);
    let late = BIG.rules(3, 48, Mixed(100)).leaving(226..256);
    vec![
        row("short trip", short, ask(120, 140, 0, 0, AMPLE)),
        row("short trip 48", short_48, ask(120, 140, 1, 1, AMPLE)),
        row("late start 48", late, ask(236, 256, 2, 0, 200_000)),
        row("side line 48", SIDE.rules(1, 48, Mixed(60)), ask(1, 256, 2, 1, AMPLE)),
    ]
}

/// Ten modes: every setting is tried for a route that none permits.
fn modes() -> Vec<Row> {
    vec![
        row("40 ten modes", SMALL.rules(3, 12, Modes(12)), ask(1, 12, 0, 1, AMPLE)),
        row("500 ten modes", SPARSE.rules(0, 12, Modes(12)), ask(1, 250, 0, 0, AMPLE)),
        row("1000 ten modes", FAN_4.rules(1, 24, Modes(24)), ask(1, 250, 2, 0, 2_000)),
        row("largest ten modes", NARROW.rules(1, 48, Modes(48)), ask(1, 256, 1, 1, 2_000)),
        row("largest 120 mode rules", NARROW.rules(0, 24, Modes(120)), ask(1, 256, 2, 1, 1_000)),
    ]
}

/// Rows of ten modes again, some of them locked: another route is found.
fn locks() -> Vec<Row> {
    let small = locked(&[1, 7], &[4, 10], ask(1, 12, 0, 1, AMPLE));
    let sparse = locked(&[], &[3, 6, 9], ask(1, 250, 0, 0, AMPLE));
    vec![
        row("40 ten modes locked", SMALL.rules(3, 12, Modes(12)), small),
        row("500 ten modes locked", SPARSE.rules(0, 12, Modes(12)), sparse),
    ]
}

fn plan(name: &'static str, spec: Spec) -> PlanRow {
    PlanRow { name, plan: spec.plan().1 }
}

/// Plans for the plan check alone.
pub fn plans() -> Vec<PlanRow> {
    vec![
        plan("check 40", SMALL.rules(1, 12, Bans(12))),
        plan("check 500", DENSE.rules(1, 24, Mixed(24))),
        plan("check 1000", FAN_4.rules(1, 48, Mixed(48))),
        plan("check largest belts", BIG.rules(1, 12, Bans(12))),
        plan("check largest rules", NARROW.rules(1, 48, Mixed(300))),
        plan("check scattered", STREWN.rules(1, 48, Mixed(100))),
    ]
}

/// Plans to be written in their archive form: one of 40 junctions, and largest ones. Two
/// have their records scattered, the others are their own archive form.
pub fn archives() -> Vec<PlanRow> {
    vec![
        plan("archive 40 junctions", SHUFFLED_40.rules(1, 12, Mixed(20))),
        plan("archive largest belts", BIG.rules(1, 12, Bans(12))),
        plan("archive largest rules", NARROW.rules(1, 48, Mixed(300))),
        plan("archive scattered", STREWN.rules(1, 48, Mixed(100))),
    ]
}

#[cfg(test)]
mod tests {
    use super::*;
    use crate::baseline;
    use crate::query::{Answer, ROUTE, WRITTEN};
    use crate::records::{self, Record, SHEET_MAX};

    fn example(name: &str) -> Result<Row, String> {
        let folder = Path::new(env!("CARGO_MANIFEST_DIR")).join("../examples");
        of_file(&folder.join(name), ask(1, 3, 0, 0, AMPLE))
    }

    #[test]
    fn plan_files() {
        let row = example("P.plan").expect("plan P");
        assert_eq!(row.name, "P.plan");
        assert_eq!(row.plan.len(), 120);
        let size = Size { junctions: 3, belts: 3, rules: 1, named: 2, modes: 1 };
        assert_eq!(row.size, Some(size));
        assert_eq!(example("refused-5.plan").expect("a refused plan").size, None);
    }

    /// What the baseline answers in a row, and the records of the sheet.
    fn answer(name: &str) -> (Answer, Vec<Record>) {
        let rows = searches();
        let row = rows.iter().find(|row| row.name == name).expect(name);
        let mut out = [0; SHEET_MAX];
        let answer = baseline::search(&row.plan, &row.query, &mut out);
        (answer, records::decode(&out))
    }

    /// Dear belts change nothing but the cost, which is over 2^32.
    #[test]
    fn dear_row() {
        let (low_answer, low_sheet) = answer("largest covers");
        let (answer, sheet) = answer("largest dear");
        assert_eq!(answer, low_answer);
        assert_eq!(sheet[1..], low_sheet[1..]);
        assert_eq!(low_sheet[0][2], 0);
        assert!(sheet[0][2] > 0);
    }

    /// The locks choose other routes, with settings that keep them.
    #[test]
    fn locked_rows() {
        for (name, mask, values) in [("40 ten modes", 585, 65), ("500 ten modes", 292, 0)] {
            let (free_answer, free_sheet) = answer(name);
            let (answer, sheet) = answer(&format!("{name} locked"));
            assert_eq!((free_answer.number, answer.number), (ROUTE, ROUTE));
            assert_ne!(sheet[1..], free_sheet[1..]);
            assert_eq!(sheet[0][5] & mask, values);
        }
    }

    /// The scattered rows have something to do, and the others are as they were.
    #[test]
    fn archive_rows() {
        for row in archives() {
            let mut out = vec![0; row.plan.len()];
            assert_eq!(baseline::archive(&row.plan, &mut out).number, WRITTEN, "{}", row.name);
            let scattered = ["archive 40 junctions", "archive scattered"].contains(&row.name);
            assert_eq!(out != row.plan, scattered, "{}", row.name);
        }
    }

    #[test]
    fn missing_file() {
        let error = example("no-such.plan").err().expect("there is no such file");
        assert!(error.contains("no-such.plan"), "{error}");
    }
}
