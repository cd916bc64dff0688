//! The table of refusals as a plain predicate over bytes: for each line of the
//! table one function that says whether it is broken. Each of the library's
//! functions has its own list of lines, and the first broken one in the list is the
//! answer. The lines 1 to 7 are of the plan alone and come first in every list.

use crate::enumerate::works;
use crate::lock::Lock;
use crate::plan::{
    records_of, About, Belt, Literal, Plan, Record, MAX_JUNCTIONS, MAX_MODES, MAX_NAMED, MAX_RECORDS, RECORD,
};

pub const SHEET_MAX: usize = 3072;

/// What a search and a check of a sheet are asked alike.
#[derive(Clone, Copy, Debug)]
pub struct Trip {
    pub s: u64,
    pub t: u64,
    pub lock: Lock,
}

/// The parameters of a search, and the length of the buffer lent to it.
#[derive(Clone, Debug)]
pub struct Query {
    pub trip: Trip,
    pub pick: u64,
    pub order: u64,
    pub budget: u64,
    pub out_len: usize,
}

/// Whether records break a line.
type Line = fn(&[Record]) -> bool;

/// The plan that some bytes stand for, or the line (1 to 7) that they break first.
pub fn read(bytes: &[u8]) -> Result<Plan, u64> {
    if line_1(bytes) {
        return Err(1);
    }
    let records = records_of(bytes);
    let lines: [(u64, Line); 6] = [(2, line_2), (3, line_3), (4, line_4), (5, line_5), (6, line_6), (7, line_7)];
    for (number, broken) in lines {
        if broken(&records) {
            return Err(number);
        }
    }
    Ok(plan_of(&records))
}

/// The lines that a search of a valid plan breaks, in the order of its list: 8, 15, 9, 10.
pub fn search_lines(plan: &Plan, query: &Query) -> Vec<u64> {
    let Query { trip, .. } = query;
    broken(&[
        (8, line_8(plan, trip)),
        (15, line_15(plan, trip)),
        (9, query.pick > 2 || query.order > 1 || query.budget == 0),
        (10, query.out_len < SHEET_MAX),
    ])
}

/// The lines that a check against a valid plan breaks, in the order of its list: 8, 15, 11
/// to 14. The last three are only asked of a sheet that has the form.
pub fn check_lines(plan: &Plan, trip: &Trip, sheet: &[u8]) -> Vec<u64> {
    let mut lines = vec![(8, line_8(plan, trip)), (15, line_15(plan, trip))];
    if line_11(plan, sheet) {
        lines.push((11, true));
        return broken(&lines);
    }
    let records = records_of(sheet);
    let belts: Vec<&Belt> = records[1..].iter().map(|step| plan.belt(step[2].into()).expect("line 11")).collect();
    lines.push((12, line_12(&belts, trip)));
    lines.push((13, line_13(&belts, &records[0])));
    lines.push((14, line_14(plan, &belts, &trip.lock, records[0][5].into())));
    broken(&lines)
}

/// The broken ones of some lines.
fn broken(lines: &[(u64, bool)]) -> Vec<u64> {
    lines.iter().filter(|(_, broken)| *broken).map(|(number, _)| *number).collect()
}

/// Plan under 24 or over 24,576 bytes, or not 12 times f4 of record 0.
fn line_1(bytes: &[u8]) -> bool {
    if bytes.len() < 24 || bytes.len() > MAX_RECORDS * RECORD {
        return true;
    }
    let f4 = usize::from(records_of(bytes)[0][4]);
    bytes.len() != 12 * f4
}

/// f0, J, M or f5 of record 0 wrong, or N < J + 1.
fn line_2(records: &[Record]) -> bool {
    let [f0, junctions, modes, _, count, f5] = records[0].map(usize::from);
    let junctions_right = (1..=MAX_JUNCTIONS).contains(&junctions);
    f0 != 7 || !junctions_right || modes > MAX_MODES || f5 != 0 || count < junctions + 1
}

/// A kind, a ranged field or a zero field wrong.
fn line_3(records: &[Record]) -> bool {
    let junctions = records[0][1];
    for (index, record) in records.iter().enumerate().skip(1) {
        let [kind, _, f2, f3, f4, f5] = *record;
        let right = if index <= usize::from(junctions) {
            kind == 1 && f2 == 0 && f3 == 0 && f4 == 0 && f5 == 0
        } else {
            match kind {
                2 => f2 >= 1 && f2 <= junctions && f5 == 0,
                3 => f3 == 0 && f4 == 0 && f5 == 0,
                4 => f2 <= 1 && f3 <= 1 && f5 == 0,
                _ => false,
            }
        };
        if !right {
            return true;
        }
    }
    false
}

/// A chain index wrong, or a record above J reached twice or never.
fn line_4(records: &[Record]) -> bool {
    for (holder, record) in records.iter().enumerate() {
        let wrong = match record[0] {
            7 => wrong_index(records, holder, record[3], 3),
            1 | 2 => wrong_index(records, holder, record[1], 2),
            3 => wrong_index(records, holder, record[1], 3) || wrong_index(records, holder, record[2], 4),
            _ => wrong_index(records, holder, record[1], 4),
        };
        if wrong {
            return true;
        }
    }
    let mut reached = vec![0; records.len()];
    for junction in 1..=usize::from(records[0][1]) {
        for belt in chain(records, records[junction][1]) {
            reached[belt] += 1;
        }
    }
    for rule in chain(records, records[0][3]) {
        reached[rule] += 1;
        for literal in chain(records, records[rule][2]) {
            reached[literal] += 1;
        }
    }
    let above = usize::from(records[0][1]) + 1;
    reached[above..].iter().any(|times| *times != 1)
}

/// Not below N, not larger than its holder, or of another kind. Zero ends a chain.
fn wrong_index(records: &[Record], holder: usize, index: u16, kind: u16) -> bool {
    let index = usize::from(index);
    index != 0 && (index >= records.len() || index <= holder || records[index][0] != kind)
}

/// The records of a chain, from its head on.
fn chain(records: &[Record], head: u16) -> Vec<usize> {
    let mut chain = Vec::new();
    let mut index = usize::from(head);
    while index != 0 {
        chain.push(index);
        index = usize::from(records[index][1]);
    }
    chain
}

/// A belt not leading to a higher junction.
fn line_5(records: &[Record]) -> bool {
    let junctions = usize::from(records[0][1]);
    (1..=junctions).any(|junction| {
        let mut belts = chain(records, records[junction][1]).into_iter();
        belts.any(|belt| usize::from(records[belt][2]) <= junction)
    })
}

/// A literal naming no belt record, or a mode outside 1 to M.
fn line_6(records: &[Record]) -> bool {
    records.iter().any(|record| {
        let number = usize::from(record[4]);
        let is_literal = record[0] == 4;
        let names_belt = number < records.len() && records[number][0] == 2;
        let names_mode = number >= 1 && number <= usize::from(records[0][2]);
        is_literal && (if record[3] == 0 { !names_belt } else { !names_mode })
    })
}

/// Over 48 named belts.
fn line_7(records: &[Record]) -> bool {
    let mut named = vec![false; records.len()];
    for record in records {
        if record[0] == 4 && record[3] == 0 {
            named[usize::from(record[4])] = true;
        }
    }
    named.iter().filter(|named| **named).count() > MAX_NAMED
}

/// s or t outside 1 to J.
fn line_8(plan: &Plan, trip: &Trip) -> bool {
    let junctions = plan.junctions as u64;
    [trip.s, trip.t].iter().any(|end| *end < 1 || *end > junctions)
}

/// Sheet empty, too long or not in the form, a step that is no belt, or a setting too large.
fn line_11(plan: &Plan, sheet: &[u8]) -> bool {
    if sheet.is_empty() || sheet.len() > SHEET_MAX || sheet.len() % RECORD != 0 {
        return true;
    }
    let records = records_of(sheet);
    let steps = records.len() - 1;
    let [f0, f1, _, _, _, setting] = records[0];
    let first = if steps == 0 { 0 } else { 1 };
    if f0 != 8 || f1 != first || u64::from(setting) >= 1 << plan.modes {
        return true;
    }
    (1..=steps).any(|step| {
        let next = if step == steps { 0 } else { step + 1 };
        let belt = records[step][2];
        records[step] != [5, next as u16, belt, 0, 0, 0] || plan.belt(belt.into()).is_none()
    })
}

/// The belts are not a route from s to t.
fn line_12(belts: &[&Belt], trip: &Trip) -> bool {
    let mut at = trip.s;
    for belt in belts {
        if belt.from as u64 != at {
            return true;
        }
        at = belt.to as u64;
    }
    at != trip.t
}

/// The cost, 48 bits high first, differs from the sum.
fn line_13(belts: &[&Belt], head: &Record) -> bool {
    let [_, _, high, middle, low, _] = head.map(u64::from);
    let cost = high * 65_536 * 65_536 + middle * 65_536 + low;
    cost != belts.iter().map(|belt| belt.cost).sum::<u64>()
}

/// A rule is not met under the sheet's setting, or the setting breaks the lock.
fn line_14(plan: &Plan, belts: &[&Belt], lock: &Lock, setting: u64) -> bool {
    let on_route = |name: usize| belts.iter().any(|belt| belt.name == name);
    !works(plan, &on_route, setting) || !lock.agrees(plan.modes, setting)
}

/// Mask with a bit at or above M, or a value with a bit outside the mask.
fn line_15(plan: &Plan, trip: &Trip) -> bool {
    trip.lock.is_wrong(plan.modes)
}

/// The plan that unrefused records stand for.
fn plan_of(records: &[Record]) -> Plan {
    let junctions = usize::from(records[0][1]);
    let mut belts = Vec::new();
    for junction in 1..=junctions {
        for name in chain(records, records[junction][1]) {
            let [_, _, to, low, high, _] = records[name];
            let cost = u64::from(high) * 65_536 + u64::from(low);
            belts.push(Belt { name, from: junction, to: to.into(), cost });
        }
    }
    belts.sort_by_key(|belt| belt.name);
    let rules = chain(records, records[0][3]);
    let rules = rules.iter().map(|rule| chain(records, records[*rule][2]));
    let rules = rules.map(|literals| literals.iter().map(|literal| literal_of(&records[*literal])).collect());
    Plan { junctions, modes: records[0][2].into(), belts, rules: rules.collect() }
}

fn literal_of(record: &Record) -> Literal {
    let number = usize::from(record[4]);
    let about = if record[3] == 0 { About::Belt(number) } else { About::Mode(number) };
    Literal { wanted: record[2] == 1, about }
}
