//! Fixed plans and sheets with numbers that are written down beforehand: plan P
//! with its neighbours, plans that tell picks, orders and ties apart, costs in both
//! of their halves, locks, and what is refused. They hold the library and the tests'
//! own expectations to the same numbers.

use crate::compare::{Answer, Judge, Verdict};
use crate::enumerate::{self, Limits};
use crate::lock::{Lock, FREE};
use crate::plan::{bytes_of, records_of, Plan, Record};
use crate::refusals::{self, Query, Trip, SHEET_MAX};
use crate::sheet;
use crate::written::{self, Ending, Named};

/// What a search has to find: belts, cost and setting, none, or spent.
#[derive(Clone, Copy)]
pub enum Found<'a> {
    Route(&'a [usize], u64, u64),
    None,
    Spent,
}

/// Name, records, (s, t, pick, order, budget), what is found, opened.
pub type Anchor<'a> = (&'static str, Vec<Record>, [u64; 5], Found<'a>, u64);

/// Mask and values of the lock, and what is asked under it.
type Locked<'a> = ([u64; 2], Anchor<'a>);

pub const ENOUGH: u64 = 1_000_000;

/// Three junctions, belts from index 4, then rules and literals.
pub fn plan(modes: u16, heads: [u16; 3], first_rule: u16, above: &[Record]) -> Vec<Record> {
    let mut records: Vec<Record> = vec![[7, 3, modes, first_rule, 4 + above.len() as u16, 0]];
    records.extend(heads.map(|head| [1, head, 0, 0, 0, 0]));
    records.extend_from_slice(above);
    records
}

const P_BELTS: [Record; 3] = [[2, 5, 2, 3, 0, 0], [2, 0, 3, 9, 0, 0], [2, 0, 3, 4, 0, 0]];

/// P's junctions and belts with other rules.
pub fn p_with(modes: u16, rules: &[Record]) -> Vec<Record> {
    let first_rule = if rules.is_empty() { 0 } else { 7 };
    plan(modes, [4, 6, 0], first_rule, &[&P_BELTS[..], rules].concat())
}

pub fn p() -> Vec<Record> {
    p_with(1, &[[3, 0, 8, 0, 0, 0], [4, 9, 0, 0, 4, 0], [4, 0, 0, 0, 6, 0]])
}

/// P with the only rule "not belt 4, or mode 1".
pub fn e10() -> Vec<Record> {
    p_with(1, &[[3, 0, 8, 0, 0, 0], [4, 9, 0, 0, 4, 0], [4, 0, 1, 1, 1, 0]])
}

/// P with a belt 5 that costs 65,545.
pub fn p_high() -> Vec<Record> {
    let mut records = p();
    records[5] = [2, 0, 3, 9, 1, 0];
    records
}

/// E1 to E11.
fn examples() -> Vec<Anchor<'static>> {
    let mut cheaper = p_with(1, &[]);
    cheaper[5][3] = 7;
    let e9: [Record; 5] =
        [[3, 10, 8, 0, 0, 0], [4, 9, 0, 0, 4, 0], [4, 0, 0, 0, 6, 0], [3, 0, 11, 0, 0, 0], [4, 0, 0, 0, 5, 0]];
    let e11: [Record; 4] = [[3, 9, 8, 0, 0, 0], [4, 0, 1, 1, 1, 0], [3, 0, 10, 0, 0, 0], [4, 0, 0, 1, 1, 0]];
    vec![
        ("E1", p(), [1, 3, 0, 0, ENOUGH], Found::Route(&[5], 9, 0), 5),
        ("E2", p(), [1, 3, 0, 1, ENOUGH], Found::Route(&[5], 9, 0), 5),
        ("E3", p(), [1, 3, 0, 0, 4], Found::Spent, 4),
        ("E4", p(), [1, 3, 0, 0, 5], Found::Route(&[5], 9, 0), 5),
        ("E5", p(), [1, 1, 0, 0, ENOUGH], Found::Route(&[], 0, 0), 1),
        ("E6", p(), [3, 1, 0, 0, ENOUGH], Found::None, 1),
        ("E7", p_with(1, &[]), [1, 3, 0, 0, ENOUGH], Found::Route(&[4, 6], 7, 0), 1),
        ("E8", cheaper, [1, 3, 0, 0, ENOUGH], Found::Route(&[4, 6], 7, 0), 1),
        ("E9", p_with(1, &e9), [1, 3, 0, 0, ENOUGH], Found::None, 11),
        ("E10", e10(), [1, 3, 0, 0, ENOUGH], Found::Route(&[4, 6], 7, 1), 1),
        ("E11", p_with(1, &e11), [1, 3, 0, 0, ENOUGH], Found::None, 1),
    ]
}

/// P with four modes and the only rule "mode 4, or not belt 4".
fn mode_4_or_not_belt_4() -> Vec<Record> {
    p_with(4, &[[3, 0, 8, 0, 0, 0], [4, 9, 1, 1, 4, 0], [4, 0, 0, 0, 4, 0]])
}

/// Modes apart from belts, empty rules, named belts outside of s to t, equal costs.
fn rules_and_ties() -> Vec<Anchor<'static>> {
    let p_and_empty: [Record; 4] = [[3, 10, 8, 0, 0, 0], [4, 9, 0, 0, 4, 0], [4, 0, 0, 0, 6, 0], [3, 0, 0, 0, 0, 0]];
    let only_4: [Record; 2] = [[3, 0, 8, 0, 0, 0], [4, 0, 1, 0, 4, 0]];
    let tie = [
        [2, 5, 2, 3, 0, 0],
        [2, 6, 2, 3, 0, 0],
        [2, 0, 3, 7, 0, 0],
        [2, 0, 3, 4, 0, 0],
        [3, 0, 9, 0, 0, 0],
        [4, 10, 1, 0, 5, 0],
        [4, 0, 0, 0, 7, 0],
    ];
    vec![
        ("mode 4 and belt 4", mode_4_or_not_belt_4(), [1, 3, 0, 0, ENOUGH], Found::Route(&[4, 6], 7, 8), 1),
        ("P and an empty rule", p_with(1, &p_and_empty), [1, 3, 0, 0, ENOUGH], Found::None, 7),
        ("only an empty rule", p_with(0, &[[3, 0, 0, 0, 0, 0]]), [1, 3, 0, 0, ENOUGH], Found::None, 1),
        ("only belt 4, 1 to 1", p_with(0, &only_4), [1, 1, 0, 0, ENOUGH], Found::None, 3),
        ("only belt 4, 2 to 3", p_with(0, &only_4), [2, 3, 0, 0, 3], Found::None, 3),
        ("only belt 4, 2 to 3, budget 2", p_with(0, &only_4), [2, 3, 0, 0, 2], Found::Spent, 2),
        ("only belt 4, 3 to 1", p_with(0, &only_4), [3, 1, 0, 0, ENOUGH], Found::None, 1),
        ("equal cost", plan(0, [4, 7, 0], 8, &tie), [1, 3, 0, 0, ENOUGH], Found::Route(&[5, 7], 7, 0), 5),
    ]
}

/// Counts that differ by pick and by order.
fn picks_and_orders() -> Vec<Anchor<'static>> {
    let belts = [[2, 5, 2, 3, 0, 0], [2, 6, 2, 3, 0, 0], [2, 0, 3, 9, 0, 0], [2, 0, 3, 4, 0, 0]];
    let with = |rules: &[Record]| plan(0, [4, 7, 0], 8, &[&belts[..], rules].concat());
    let not_5_not_7 = [[3, 10, 9, 0, 0, 0], [4, 0, 0, 0, 5, 0], [3, 0, 11, 0, 0, 0], [4, 0, 0, 0, 7, 0]];
    let twice_7 =
        [[3, 11, 9, 0, 0, 0], [4, 10, 0, 0, 7, 0], [4, 0, 0, 0, 7, 0], [3, 0, 12, 0, 0, 0], [4, 0, 0, 0, 5, 0]];
    let both_7 =
        [[3, 11, 9, 0, 0, 0], [4, 10, 1, 0, 4, 0], [4, 0, 1, 0, 7, 0], [3, 0, 12, 0, 0, 0], [4, 0, 1, 0, 7, 0]];
    let orders = [
        [2, 5, 2, 3, 0, 0],
        [2, 0, 3, 9, 0, 0],
        [2, 7, 3, 4, 0, 0],
        [2, 0, 3, 4, 0, 0],
        [3, 10, 9, 0, 0, 0],
        [4, 0, 0, 0, 5, 0],
        [3, 0, 11, 0, 0, 0],
        [4, 0, 0, 0, 6, 0],
    ];
    let orders = plan(0, [4, 6, 0], 8, &orders);
    vec![
        ("pick 0", with(&not_5_not_7), [1, 3, 0, 0, ENOUGH], Found::Route(&[6], 9, 0), 7),
        ("pick 1", with(&not_5_not_7), [1, 3, 1, 0, ENOUGH], Found::Route(&[6], 9, 0), 7),
        ("pick 2", with(&not_5_not_7), [1, 3, 2, 0, ENOUGH], Found::Route(&[6], 9, 0), 5),
        ("pick 1, a belt twice in a rule", with(&twice_7), [1, 3, 1, 0, ENOUGH], Found::Route(&[6], 9, 0), 7),
        ("pick 0, 1 to 2", with(&both_7), [1, 2, 0, 0, ENOUGH], Found::None, 7),
        ("pick 1, 1 to 2", with(&both_7), [1, 2, 1, 0, ENOUGH], Found::None, 5),
        ("order 0", orders.clone(), [1, 3, 0, 0, ENOUGH], Found::Route(&[4, 7], 7, 0), 5),
        ("order 1", orders, [1, 3, 0, 1, ENOUGH], Found::Route(&[4, 7], 7, 0), 7),
    ]
}

/// Costs in both halves, f4 the high one. Where the halves are exchanged or one is left
/// out, another route is the cheapest; where routes cost the same, their halves differ.
fn high_costs() -> Vec<Anchor<'static>> {
    let with = |belts: &[Record]| plan(1, [4, 6, 0], 0, belts);
    let high_5 = [P_BELTS[0], [2, 0, 3, 0, 1, 0], P_BELTS[2]];
    let high_6 = [[2, 5, 2, 0, 0, 0], [2, 0, 3, 2, 0, 0], [2, 0, 3, 0, 1, 0]];
    let equal = [[2, 5, 2, 65_535, 0, 0], [2, 0, 3, 0, 1, 0], [2, 0, 3, 1, 0, 0]];
    vec![
        ("low half 0", with(&high_5), [1, 3, 0, 0, ENOUGH], Found::Route(&[4, 6], 7, 0), 1),
        ("halves exchanged", with(&high_6), [1, 3, 0, 0, ENOUGH], Found::Route(&[5], 2, 0), 1),
        ("65535 + 1 and 65536", with(&equal), [1, 3, 0, 0, ENOUGH], Found::Route(&[4, 6], 65_536, 0), 1),
        ("P with a high half", p_high(), [1, 3, 0, 0, ENOUGH], Found::Route(&[5], 65_545, 0), 5),
        ("P with a high half, order 1", p_high(), [1, 3, 0, 1, ENOUGH], Found::Route(&[5], 65_545, 0), 5),
    ]
}

/// Permitted routes that cost the same, of which the search finds the first one last.
fn high_ties() -> Vec<Anchor<'static>> {
    // Belts 4 7, 5 7 and 6 cost 65,536 each. The rule: belt 5, or not belt 7.
    let at_65536 = [
        [2, 5, 2, 65_535, 0, 0],
        [2, 6, 2, 65_535, 0, 0],
        [2, 0, 3, 0, 1, 0],
        [2, 0, 3, 1, 0, 0],
        [3, 0, 9, 0, 0, 0],
        [4, 10, 1, 0, 5, 0],
        [4, 0, 0, 0, 7, 0],
    ];
    // Belts 4 6, twice 2^31, and 5 7, 2^32 - 1 and 1, cost 2^32. The rule: not belt 4, or not belt 7.
    let at_2_32 = [
        [2, 5, 2, 0, 32_768, 0],
        [2, 0, 2, 65_535, 65_535, 0],
        [2, 7, 3, 0, 32_768, 0],
        [2, 0, 3, 1, 0, 0],
        [3, 0, 9, 0, 0, 0],
        [4, 10, 0, 0, 4, 0],
        [4, 0, 0, 0, 7, 0],
    ];
    vec![
        ("tie at 65536", plan(0, [4, 7, 0], 8, &at_65536), [1, 3, 0, 0, ENOUGH], Found::Route(&[5, 7], 65_536, 0), 5),
        ("tie at 2^32", plan(0, [4, 6, 0], 8, &at_2_32), [1, 3, 0, 0, ENOUGH], Found::Route(&[4, 6], 1 << 32, 0), 5),
    ]
}

/// A row of 256 junctions, with a belt of 2^32 - 1 from each to the next one: 257 to 511.
pub fn dearest_row() -> Vec<Record> {
    let mut records: Vec<Record> = vec![[7, 256, 0, 0, 512, 0]];
    records.extend((257..=511).map(|belt| [1, belt, 0, 0, 0, 0]));
    records.push([1, 0, 0, 0, 0, 0]);
    records.extend((2..=256).map(|to| [2, 0, to, 65_535, 65_535, 0]));
    records
}

const DEAREST: u64 = 1_095_216_660_225;

/// First records of a sheet for the whole row, and the line that is broken; 0 if none is.
fn dearest_heads() -> Vec<(Record, u64)> {
    vec![
        ([8, 1, 254, 65_535, 65_281, 0], 0),
        ([8, 1, 0, 65_535, 65_281, 0], 13),
        ([8, 1, 253, 65_535, 65_281, 0], 13),
        ([8, 1, 255, 65_535, 65_281, 0], 13),
        ([8, 1, 65_534, 65_535, 65_281, 0], 13),
        ([8, 1, 254, 65_534, 65_281, 0], 13),
        ([8, 1, 254, 65_535, 65_280, 0], 13),
        ([8, 1, 65_281, 65_535, 254, 0], 13),
    ]
}

/// Holds the library to the dearest route of all, and to sheets for it.
fn hold_dearest(judge: &mut Judge) -> Verdict {
    let row = dearest_row();
    let belts: Vec<usize> = (257..=511).collect();
    for (head, line) in dearest_heads() {
        let mut sheet = records_of(&sheet::write(&belts, DEAREST, 0));
        sheet[0] = head;
        hold_sheet(judge, &row, &sheet, &Trip { s: 1, t: 256, lock: FREE }, line)?;
    }
    hold(judge, &FREE, ("dearest row", row, [1, 256, 0, 0, ENOUGH], Found::Route(&belts, DEAREST, 0), 1))
}

/// Costs, and the fields f2 to f4 of the first record of a sheet.
fn cost_fields() -> [(u64, [u16; 3]); 5] {
    [(9, [0, 0, 9]), (65_536, [0, 1, 0]), (65_545, [0, 1, 9]), (1 << 32, [1, 0, 0]), (DEAREST, [254, 65_535, 65_281])]
}

/// Holds the sheets that the tests expect to the written fields.
fn hold_cost_fields() -> Verdict {
    for (cost, fields) in cost_fields() {
        let own = records_of(&sheet::write(&[], cost, 0))[0];
        if own[2..5] != fields {
            return Err(format!("the tests write {own:?} and not {fields:?} for a cost of {cost}"));
        }
    }
    Ok(())
}

/// Records of P that are changed, and the line that is broken then; 0 if none is.
pub fn changed_plans() -> Vec<(&'static [(usize, Record)], u64)> {
    vec![
        (&[], 0),
        (&[(1, [1, 10, 0, 0, 0, 0])], 4),
        (&[(1, [1, 10, 0, 0, 0, 0]), (9, [4, 0, 0, 0, 6, 1])], 3),
        (&[(6, [2, 0, 0, 4, 0, 0])], 3),
        (&[(6, [2, 0, 4, 4, 0, 0])], 3),
        (&[(6, [2, 0, 2, 4, 0, 0])], 5),
        (&[(9, [4, 0, 0, 0, 0, 0])], 6),
        (&[(9, [4, 0, 0, 0, 7, 0])], 6),
        (&[(9, [4, 0, 0, 0, 10, 0])], 6),
        (&[(9, [4, 0, 0, 1, 2, 0])], 6),
        (&[(5, [2, 0, 3, 9, 1, 0])], 0),
        (&[(5, [2, 0, 3, 65_535, 65_535, 0])], 0),
        (&[(5, [2, 0, 3, 9, 0, 1])], 3),
        (&[(5, [2, 0, 3, 9, 1, 1])], 3),
        (&[(5, [2, 6, 3, 9, 0, 0])], 4),
        (&[(5, [2, 6, 3, 9, 0, 0]), (2, [1, 0, 0, 0, 0, 0])], 0),
    ]
}

/// Sheets for P from s to t, and the line that is broken; 0 if none is.
fn sheets() -> Vec<(&'static [Record], u64, u64, u64)> {
    vec![
        (&[[8, 1, 0, 0, 9, 0], [5, 0, 5, 0, 0, 0]], 1, 3, 0),
        (&[[8, 1, 0, 0, 9, 1], [5, 0, 5, 0, 0, 0]], 1, 3, 0),
        (&[[8, 1, 0, 0, 9, 2], [5, 0, 5, 0, 0, 0]], 1, 3, 11),
        (&[[8, 1, 0, 0, 9, 0], [5, 0, 5, 0, 0, 1]], 1, 3, 11),
        (&[[8, 1, 0, 0, 9, 0], [5, 0, 5, 0, 0, 0], [0, 0, 0, 0, 0, 0]], 1, 3, 11),
        (&[[8, 1, 0, 0, 9, 0], [5, 0, 7, 0, 0, 0]], 1, 3, 11),
        (&[[8, 1, 0, 0, 0, 0]], 1, 3, 11),
        (&[], 1, 3, 11),
        (&[[8, 0, 0, 0, 0, 0]], 1, 3, 12),
        (&[[8, 0, 0, 0, 0, 0]], 1, 1, 0),
        (&[[8, 1, 0, 0, 8, 0], [5, 0, 5, 0, 0, 0]], 1, 2, 12),
        (&[[8, 1, 1, 0, 9, 0], [5, 0, 5, 0, 0, 0]], 1, 3, 13),
        (&[[8, 1, 0, 0, 7, 0], [5, 2, 4, 0, 0, 0], [5, 0, 6, 0, 0, 0]], 1, 3, 14),
        (&[[8, 1, 0, 0, 7, 0], [5, 2, 4, 0, 0, 0], [5, 0, 6, 0, 0, 0]], 0, 3, 8),
    ]
}

/// The same for P with a belt 5 of 65,545: sheets with other costs are those of wrong readings.
fn high_sheets() -> Vec<(&'static [Record], u64, u64, u64)> {
    vec![
        (&[[8, 1, 0, 1, 9, 0], [5, 0, 5, 0, 0, 0]], 1, 3, 0),
        (&[[8, 1, 0, 0, 9, 0], [5, 0, 5, 0, 0, 0]], 1, 3, 13),
        (&[[8, 1, 0, 0, 1, 0], [5, 0, 5, 0, 0, 0]], 1, 3, 13),
        (&[[8, 1, 0, 9, 1, 0], [5, 0, 5, 0, 0, 0]], 1, 3, 13),
        (&[[8, 1, 1, 1, 9, 0], [5, 0, 5, 0, 0, 0]], 1, 3, 13),
        (&[[8, 1, 0, 0, 7, 0], [5, 2, 4, 0, 0, 0], [5, 0, 6, 0, 0, 0]], 1, 3, 14),
    ]
}

/// Locks and plans in which they choose the setting, but no route: rules over modes alone, or none.
fn locked_settings() -> Vec<Locked<'static>> {
    let query = [1, 3, 0, 0, ENOUGH];
    let with = |rule: [Record; 2]| p_with(2, &[&[[3, 0, 8, 0, 0, 0]], &rule[..]].concat());
    let either = || with([[4, 9, 1, 1, 1, 0], [4, 0, 1, 1, 2, 0]]);
    let then = || with([[4, 9, 0, 1, 1, 0], [4, 0, 1, 1, 2, 0]]);
    let route = |setting| Found::Route(&[4, 6], 7, setting);
    vec![
        ([1, 1], ("P, mode 1 on", p(), query, Found::Route(&[5], 9, 1), 5)),
        ([1, 0], ("P, mode 1 off", p(), query, Found::Route(&[5], 9, 0), 5)),
        ([0, 0], ("mode 1 or 2", either(), query, route(1), 1)),
        ([1, 0], ("mode 1 or 2, 1 off", either(), query, route(2), 1)),
        ([1, 1], ("mode 1 or 2, 1 on", either(), query, route(1), 1)),
        ([2, 0], ("mode 1 or 2, 2 off", either(), query, route(1), 1)),
        ([2, 2], ("mode 1 or 2, 2 on", either(), query, route(2), 1)),
        ([3, 0], ("mode 1 or 2, both off", either(), query, Found::None, 1)),
        ([3, 1], ("mode 1 or 2, 1 on, 2 off", either(), query, route(1), 1)),
        ([3, 2], ("mode 1 or 2, 1 off, 2 on", either(), query, route(2), 1)),
        ([3, 3], ("mode 1 or 2, both on", either(), query, route(3), 1)),
        ([0, 0], ("not mode 1, or mode 2", then(), query, route(0), 1)),
        ([1, 1], ("not mode 1, or mode 2, 1 on", then(), query, route(3), 1)),
        ([2, 2], ("not mode 1, or mode 2, 2 on", then(), query, route(2), 1)),
        ([3, 1], ("not mode 1, or mode 2, 1 on, 2 off", then(), query, Found::None, 1)),
    ]
}

/// Locks and plans in which they choose the route, and with it the count.
fn locked_routes() -> Vec<Locked<'static>> {
    let query = [1, 3, 0, 0, ENOUGH];
    let apart = mode_4_or_not_belt_4;
    vec![
        ([1, 0], ("E10, mode 1 off", e10(), query, Found::Route(&[5], 9, 0), 3)),
        ([1, 1], ("E10, mode 1 on", e10(), query, Found::Route(&[4, 6], 7, 1), 1)),
        ([1, 0], ("E10, mode 1 off, order 1", e10(), [1, 3, 0, 1, ENOUGH], Found::Route(&[5], 9, 0), 3)),
        ([1, 0], ("E10, mode 1 off, budget 3", e10(), [1, 3, 0, 0, 3], Found::Route(&[5], 9, 0), 3)),
        ([1, 0], ("E10, mode 1 off, budget 2", e10(), [1, 3, 0, 0, 2], Found::Spent, 2)),
        ([1, 1], ("E10, mode 1 on, budget 1", e10(), [1, 3, 0, 0, 1], Found::Route(&[4, 6], 7, 1), 1)),
        ([1, 1], ("E10, mode 1 on, 1 to 1", e10(), [1, 1, 0, 0, ENOUGH], Found::Route(&[], 0, 1), 1)),
        ([1, 1], ("E10, mode 1 on, 3 to 1", e10(), [3, 1, 0, 0, ENOUGH], Found::None, 1)),
        ([8, 0], ("mode 4 and belt 4, 4 off", apart(), query, Found::Route(&[5], 9, 0), 3)),
        ([13, 5], ("mode 4 and belt 4, 4 off, 1 and 3 on", apart(), query, Found::Route(&[5], 9, 5), 3)),
        ([1, 1], ("mode 4 and belt 4, 1 on", apart(), query, Found::Route(&[4, 6], 7, 9), 1)),
        ([15, 8], ("mode 4 and belt 4, 4 on alone", apart(), query, Found::Route(&[4, 6], 7, 8), 1)),
    ]
}

/// Two rules that a mode each can meet, "not belt 5, or mode 1" and "not belt 7, or mode 2",
/// under locks and with counts that differ by pick.
fn locked_picks() -> Vec<Locked<'static>> {
    let above = [
        [2, 5, 2, 3, 0, 0],
        [2, 6, 2, 3, 0, 0],
        [2, 0, 3, 9, 0, 0],
        [2, 0, 3, 4, 0, 0],
        [3, 11, 9, 0, 0, 0],
        [4, 10, 0, 0, 5, 0],
        [4, 0, 1, 1, 1, 0],
        [3, 0, 12, 0, 0, 0],
        [4, 13, 0, 0, 7, 0],
        [4, 0, 1, 1, 2, 0],
    ];
    let with = || plan(2, [4, 7, 0], 8, &above);
    let (pick_0, pick_2) = ([1, 3, 0, 0, ENOUGH], [1, 3, 2, 0, ENOUGH]);
    vec![
        ([0, 0], ("two modes, pick 0", with(), pick_0, Found::Route(&[4, 7], 7, 2), 1)),
        ([3, 2], ("two modes, 1 off, 2 on, pick 0", with(), pick_0, Found::Route(&[4, 7], 7, 2), 1)),
        ([2, 0], ("two modes, 2 off, pick 0", with(), pick_0, Found::Route(&[6], 9, 0), 7)),
        ([3, 1], ("two modes, 1 on, 2 off, pick 0", with(), pick_0, Found::Route(&[6], 9, 1), 7)),
        ([3, 0], ("two modes, both off, pick 2", with(), pick_2, Found::Route(&[6], 9, 0), 5)),
    ]
}

/// P with M modes, mask and values, and the line that is broken; 0 if none is.
fn locks() -> Vec<(u16, [u64; 2], u64)> {
    vec![
        (0, [0, 0], 0),
        (0, [1, 0], 15),
        (0, [0, 1], 15),
        (1, [1, 0], 0),
        (1, [1, 1], 0),
        (1, [2, 0], 15),
        (1, [2, 2], 15),
        (1, [3, 1], 15),
        (1, [0, 1], 15),
        (1, [1, 2], 15),
        (1, [1, 3], 15),
        (1, [1 << 63, 0], 15),
        (1, [(1 << 63) + 1, 1], 15),
        (1, [65_537, 0], 15),
        (1, [65_537, 65_537], 15),
        (1, [1, 65_537], 15),
        (1, [(1 << 32) + 1, 1], 15),
        (1, [1, (1 << 32) + 1], 15),
        (1, [1, (1 << 63) + 1], 15),
        (5, [31, 31], 0),
        (5, [32, 0], 15),
        (5, [21, 10], 15),
        (10, [1_023, 0], 0),
        (10, [1_023, 1_023], 0),
        (10, [512, 512], 0),
        (10, [1_024, 0], 15),
        (10, [1_024, 1_024], 15),
        (10, [1_023, 1_024], 15),
        (10, [u64::MAX, u64::MAX], 15),
    ]
}

/// Queries of P, and the line of the search that is broken first.
fn wrong_queries() -> Vec<(Query, u64)> {
    let lock = Lock { mask: 2, values: 0 };
    let trip = Trip { s: 1, t: 3, lock };
    let free = Trip { lock: FREE, ..trip };
    let value = Trip { lock: Lock { mask: 0, values: 1 }, ..trip };
    let query = |trip| Query { trip, pick: 0, order: 0, budget: ENOUGH, out_len: SHEET_MAX };
    vec![
        (query(Trip { s: 0, ..trip }), 8),
        (query(Trip { t: 4, ..trip }), 8),
        (Query { budget: 0, out_len: 0, ..query(Trip { s: 0, ..trip }) }, 8),
        (query(trip), 15),
        (Query { pick: 3, ..query(trip) }, 15),
        (Query { order: 2, ..query(trip) }, 15),
        (Query { budget: 0, ..query(trip) }, 15),
        (Query { out_len: 3071, ..query(trip) }, 15),
        (Query { budget: 0, out_len: 0, ..query(trip) }, 15),
        (Query { budget: 0, ..query(value) }, 15),
        (Query { budget: 0, out_len: 0, ..query(free) }, 9),
        (Query { out_len: 3071, ..query(free) }, 10),
    ]
}

/// Belt 5, and belts 4 and 6, with a cost and a setting.
fn belt_5(cost: u16, setting: u16) -> Vec<Record> {
    vec![[8, 1, 0, 0, cost, setting], [5, 0, 5, 0, 0, 0]]
}

fn belts_4_6(setting: u16) -> Vec<Record> {
    vec![[8, 1, 0, 0, 7, setting], [5, 2, 4, 0, 0, 0], [5, 0, 6, 0, 0, 0]]
}

/// Sheets for E10's plan, s, t, mask and values, and the line that is broken; 0 if none is.
fn locked_sheets() -> Vec<(Vec<Record>, [u64; 4], u64)> {
    vec![
        (belt_5(9, 1), [1, 3, 1, 0], 14),
        (belt_5(8, 1), [1, 3, 1, 0], 13),
        (belt_5(9, 1), [1, 2, 1, 0], 12),
        (belt_5(9, 2), [1, 3, 1, 0], 11),
        // Every rule is met, with mode 1 off too.
        (belt_5(9, 0), [1, 3, 1, 1], 14),
        (belt_5(9, 1), [1, 3, 1, 1], 0),
        (belt_5(9, 0), [1, 3, 1, 0], 0),
        (belts_4_6(1), [1, 3, 1, 1], 0),
        (belts_4_6(1), [1, 3, 1, 0], 14),
        (belts_4_6(0), [1, 3, 1, 0], 14),
        (belts_4_6(0), [1, 3, 1, 1], 14),
        (vec![[8, 0, 0, 0, 0, 0]], [1, 1, 1, 1], 14),
        (vec![[8, 0, 0, 0, 0, 1]], [1, 1, 1, 1], 0),
        (belt_5(9, 0), [1, 3, 0, 0], 0),
        (belt_5(9, 1), [1, 3, 0, 0], 0),
        (belt_5(9, 0), [1, 3, 2, 0], 15),
        (belt_5(9, 1), [1, 3, 0, 1], 15),
        (vec![], [1, 3, 2, 0], 15),
        (belt_5(9, 2), [1, 3, 2, 2], 15),
        (belt_5(9, 0), [1, 2, 2, 0], 15),
        (belt_5(8, 0), [1, 3, 2, 0], 15),
        (belts_4_6(0), [1, 3, 2, 0], 15),
        (belt_5(9, 0), [0, 3, 2, 0], 8),
        (belt_5(9, 0), [1, 4, 0, 1], 8),
    ]
}

/// The same for P with two modes and the only rule "mode 1, or mode 2".
fn half_locked_sheets() -> Vec<(Vec<Record>, [u64; 4], u64)> {
    vec![
        (belts_4_6(1), [1, 3, 1, 0], 14),
        (belts_4_6(2), [1, 3, 1, 0], 0),
        (belts_4_6(3), [1, 3, 1, 0], 14),
        (belts_4_6(1), [1, 3, 2, 2], 14),
        (belts_4_6(2), [1, 3, 2, 2], 0),
        (belts_4_6(3), [1, 3, 2, 2], 0),
        (belts_4_6(0), [1, 3, 2, 0], 14),
        (belts_4_6(1), [1, 3, 3, 2], 14),
    ]
}

/// Holds the library to each lock of P, right and wrong. No rule has a mode, so the setting is the values.
fn hold_locks(judge: &mut Judge) -> Verdict {
    for (modes, [mask, values], line) in locks() {
        let mut records = p();
        records[0][2] = modes;
        let trip = Trip { s: 1, t: 3, lock: Lock { mask, values } };
        if line == 0 {
            let query = [1, 3, 0, 0, ENOUGH];
            let anchor = ("P and a lock", records.clone(), query, Found::Route(&[5], 9, values), 5);
            hold(judge, &trip.lock, anchor)?;
            hold_sheet(judge, &records, &belt_5(9, values as u16), &trip, 0)?;
        } else {
            let query = Query { trip, pick: 0, order: 0, budget: ENOUGH, out_len: SHEET_MAX };
            hold_query(judge, &records, &query, line)?;
            hold_sheet(judge, &records, &belt_5(9, 0), &trip, line)?;
        }
    }
    for (query, line) in wrong_queries() {
        hold_query(judge, &p(), &query, line)?;
    }
    Ok(())
}

/// Holds the library to sheets under locks.
fn hold_locked_sheets(judge: &mut Judge) -> Verdict {
    let either = p_with(2, &[[3, 0, 8, 0, 0, 0], [4, 9, 1, 1, 1, 0], [4, 0, 1, 1, 2, 0]]);
    for (plan, sheets) in [(e10(), locked_sheets()), (either, half_locked_sheets())] {
        for (sheet, [s, t, mask, values], line) in sheets {
            let trip = Trip { s, t, lock: Lock { mask, values } };
            hold_sheet(judge, &plan, &sheet, &trip, line)?;
        }
    }
    Ok(())
}

/// Holds the library and the tests' own predicate to the written lines.
fn hold_refusals(judge: &mut Judge) -> Verdict {
    for (changes, line) in changed_plans() {
        let mut records = p();
        for (index, record) in changes {
            records[*index] = *record;
        }
        let own = refusals::read(&bytes_of(&records)).err().unwrap_or(0);
        if own != line {
            return Err(format!("fixed plan: the tests say {own} and not {line} for P with {changes:?}"));
        }
        judge.plan(&bytes_of(&records), line)?;
    }
    for (plan, sheets) in [(p(), sheets()), (p_high(), high_sheets())] {
        for (records, s, t, line) in sheets {
            hold_sheet(judge, &plan, records, &Trip { s, t, lock: FREE }, line)?;
        }
    }
    Ok(())
}

/// A fixed plan as the tests read it.
pub fn read(bytes: &[u8]) -> Result<Plan, String> {
    refusals::read(bytes).map_err(|line| format!("the tests refuse a fixed plan by line {line}"))
}

/// Holds the library and the tests' own predicate to the line of a sheet.
fn hold_sheet(judge: &mut Judge, plan: &[Record], sheet: &[Record], trip: &Trip, line: u64) -> Verdict {
    let (plan, sheet) = (bytes_of(plan), bytes_of(sheet));
    let own = refusals::check_lines(&read(&plan)?, trip, &sheet).first().copied().unwrap_or(0);
    if own != line {
        return Err(format!("fixed sheet: the tests say {own} and not {line} for {:?}, {trip:?}", records_of(&sheet)));
    }
    judge.check(&plan, trip, &sheet, line)
}

/// Holds the library and the tests' own predicate to the line of a search.
fn hold_query(judge: &mut Judge, plan: &[Record], query: &Query, line: u64) -> Verdict {
    let plan = bytes_of(plan);
    let own = refusals::search_lines(&read(&plan)?, query).first().copied().unwrap_or(0);
    if own != line {
        return Err(format!("fixed query: the tests say {own} and not {line} for {query:?}"));
    }
    judge.search(&plan, query, &Answer::Refused(line))
}

pub fn run(judge: &mut Judge) -> Verdict {
    hold_cost_fields()?;
    hold_refusals(judge)?;
    for anchors in [examples(), rules_and_ties(), picks_and_orders(), high_costs(), high_ties()] {
        for anchor in anchors {
            hold(judge, &FREE, anchor)?;
        }
    }
    hold_dearest(judge)?;
    for anchors in [locked_settings(), locked_routes(), locked_picks()] {
        for ([mask, values], anchor) in anchors {
            hold(judge, &Lock { mask, values }, anchor)?;
        }
    }
    hold_locks(judge)?;
    hold_locked_sheets(judge)
}

/// Holds the library and the tests' own search to the written numbers.
pub fn hold(judge: &mut Judge, lock: &Lock, anchor: Anchor) -> Verdict {
    let name = anchor.0;
    hold_numbers(judge, lock, anchor).map_err(|message| format!("fixed plan {name}, {lock:?}: {message}"))
}

fn hold_numbers(
    judge: &mut Judge,
    lock: &Lock,
    (_, records, [s, t, pick, order, budget], found, opened): Anchor,
) -> Verdict {
    let bytes = bytes_of(&records);
    let plan = read(&bytes)?;
    let limits = Limits { routes: 100, belts_tried: 1000 };
    let routes = enumerate::routes(&plan, s as usize, t as usize, limits).expect("few routes");
    let routes = enumerate::under(&plan, lock, &routes);
    let (ending, count) = written::search(&routes, &Named::of(&plan), pick, order, budget);
    let (agree, answer) = match found {
        Found::None => (ending == Ending::None, Answer::None { opened }),
        Found::Spent => (ending == Ending::Spent, Answer::Spent { opened }),
        Found::Route(belts, cost, setting) => {
            let same = |place: usize| {
                let route = &routes[place];
                route.belts == belts && route.cost == cost && route.setting == Some(setting)
            };
            let agree = matches!(ending, Ending::Route(place) if same(place));
            (agree, Answer::Route { opened, sheet: sheet::write(belts, cost, setting) })
        }
    };
    if !agree || count != opened {
        return Err(format!("the tests' own search ends with {ending:?} and opens {count}"));
    }
    let trip = Trip { s, t, lock: *lock };
    judge.search(&bytes, &Query { trip, pick, order, budget, out_len: SHEET_MAX }, &answer)
}
