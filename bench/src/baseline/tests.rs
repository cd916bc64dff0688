//! The baseline against the scope paper's examples and refusals, under locks, and
//! against fixed archive forms.
//! The numbers are written out here, so that both sides of the benchmark cannot
//! agree on a wrong search.

use crate::baseline::{archive, search};
use crate::check;
use crate::query::{Answer, Query, NONE, ROUTE, SPENT, WRITTEN};
use crate::records::{encode, Record, SHEET_MAX, SIZE};

const P: [Record; 10] = [
    [7, 3, 1, 7, 10, 0],
    [1, 4, 0, 0, 0, 0],
    [1, 6, 0, 0, 0, 0],
    [1, 0, 0, 0, 0, 0],
    [2, 5, 2, 3, 0, 0],
    [2, 0, 3, 9, 0, 0],
    [2, 0, 3, 4, 0, 0],
    [3, 0, 8, 0, 0, 0],
    [4, 9, 0, 0, 4, 0],
    [4, 0, 0, 0, 6, 0],
];

/// Plan P's junctions and belts with other rules behind them.
fn with_rules(rules: &[Record]) -> Vec<Record> {
    let mut records = P[..7].to_vec();
    records.extend(rules);
    records[0][3] = if rules.is_empty() { 0 } else { 7 };
    records[0][4] = records.len() as u16;
    records
}

fn bytes(records: &[Record]) -> Vec<u8> {
    let mut bytes = vec![0; SIZE * records.len()];
    for (record, place) in records.iter().zip(bytes.chunks_exact_mut(SIZE)) {
        encode(*record, place);
    }
    bytes
}

fn ask(records: &[Record], query: Query) -> (Answer, Vec<u8>) {
    let mut out = [0xEE; SHEET_MAX];
    let answer = search(&bytes(records), &query, &mut out);
    let (sheet, rest) = out.split_at(answer.length as usize);
    assert!(rest.iter().all(|&byte| byte == 0xEE), "bytes behind the sheet changed");
    (answer, sheet.to_vec())
}

const QUERY: Query = Query { s: 1, t: 3, pick: 0, order: 0, budget: 1_000_000, mask: 0, values: 0 };

fn expect_route(records: &[Record], query: Query, opened: u64, sheet: &[Record]) {
    let (answer, written) = ask(records, query);
    let length = (SIZE * sheet.len()) as u64;
    assert_eq!(answer, Answer { number: ROUTE, opened, length });
    assert_eq!(written, bytes(sheet));
}

fn expect_no_route(records: &[Record], query: Query, number: u64, opened: u64) {
    assert_eq!(ask(records, query).0, Answer { number, opened, length: 0 });
}

fn belt_5(setting: u16) -> [Record; 2] {
    [[8, 1, 0, 0, 9, setting], [5, 0, 5, 0, 0, 0]]
}

fn belts_4_6(setting: u16) -> [Record; 3] {
    [[8, 1, 0, 0, 7, setting], [5, 2, 4, 0, 0, 0], [5, 0, 6, 0, 0, 0]]
}

#[test]
fn examples_on_p() {
    expect_route(&P, QUERY, 5, &belt_5(0)); // E1
    expect_route(&P, Query { order: 1, ..QUERY }, 5, &belt_5(0)); // E2
    expect_no_route(&P, Query { budget: 4, ..QUERY }, SPENT, 4); // E3
    expect_route(&P, Query { budget: 5, ..QUERY }, 5, &belt_5(0)); // E4
    expect_route(&P, Query { t: 1, ..QUERY }, 1, &[[8, 0, 0, 0, 0, 0]]); // E5
    expect_no_route(&P, Query { s: 3, t: 1, ..QUERY }, NONE, 1); // E6
}

/// The rule of E10.
const NOT_4_OR_MODE_1: [Record; 3] = [P[7], [4, 9, 0, 0, 4, 0], [4, 0, 1, 1, 1, 0]];

#[test]
fn examples_with_other_rules() {
    let mut free = with_rules(&[]);
    expect_route(&free, QUERY, 1, &belts_4_6(0)); // E7
    free[5][3] = 7;
    expect_route(&free, QUERY, 1, &belts_4_6(0)); // E8
    let not_5 = [[3, 10, 8, 0, 0, 0], P[8], P[9], [3, 0, 11, 0, 0, 0], [4, 0, 0, 0, 5, 0]];
    expect_no_route(&with_rules(&not_5), QUERY, NONE, 11); // E9
    expect_route(&with_rules(&NOT_4_OR_MODE_1), QUERY, 1, &belts_4_6(1)); // E10
    let clash = [[3, 9, 8, 0, 0, 0], [4, 0, 1, 1, 1, 0], [3, 0, 10, 0, 0, 0], [4, 0, 0, 1, 1, 0]];
    expect_no_route(&with_rules(&clash), QUERY, NONE, 1); // E11
}

fn locked(mask: u64, values: u64) -> Query {
    Query { mask, values, ..QUERY }
}

/// The setting is the lowest one within the lock, whatever the rules name.
#[test]
fn locks_and_settings() {
    expect_route(&P, locked(1, 0), 5, &belt_5(0));
    expect_route(&P, locked(1, 1), 5, &belt_5(1));
    let two_modes = |wanted| {
        let mut plan = with_rules(&[P[7], [4, 9, wanted, 1, 1, 0], [4, 0, 1, 1, 2, 0]]);
        plan[0][2] = 2;
        plan
    };
    let either = two_modes(1); // mode 1, or mode 2
    expect_route(&either, QUERY, 1, &belts_4_6(1));
    expect_route(&either, locked(1, 0), 1, &belts_4_6(2));
    expect_route(&either, locked(2, 2), 1, &belts_4_6(2));
    expect_route(&either, locked(3, 3), 1, &belts_4_6(3));
    expect_no_route(&either, locked(3, 0), NONE, 1);
    let then = two_modes(0); // not mode 1, or mode 2
    expect_route(&then, QUERY, 1, &belts_4_6(0));
    expect_route(&then, locked(1, 1), 1, &belts_4_6(3));
    expect_no_route(&then, locked(3, 1), NONE, 1);
}

/// A lock says which routes are permitted, and so it changes the count.
#[test]
fn locks_and_routes() {
    let plan = with_rules(&NOT_4_OR_MODE_1);
    expect_route(&plan, locked(1, 1), 1, &belts_4_6(1));
    expect_route(&plan, locked(1, 0), 3, &belt_5(0));
    expect_no_route(&plan, Query { budget: 2, ..locked(1, 0) }, SPENT, 2);
}

/// The lines of a query are asked in the order 8, 15, 9, 10.
#[test]
fn query_refusals() {
    let refused = |query: Query, room: usize| {
        let mut out = [0xEE; SHEET_MAX];
        let answer = search(&bytes(&P), &query, &mut out[..room]);
        assert_eq!(out, [0xEE; SHEET_MAX]);
        assert_eq!((answer.opened, answer.length), (0, 0));
        answer.number
    };
    let short = SHEET_MAX - 1;
    assert_eq!(refused(Query { s: 0, ..locked(2, 0) }, short), 8);
    assert_eq!(refused(Query { t: 4, ..locked(2, 0) }, SHEET_MAX), 8);
    for (mask, values) in [(2, 0), (3, 1), (0, 1), (1, 3), (65_537, 1), (1 << 63, 0), (1, 1 << 63)]
    {
        assert_eq!(refused(locked(mask, values), SHEET_MAX), 15);
        assert_eq!(refused(Query { budget: 0, ..locked(mask, values) }, short), 15);
    }
    assert_eq!(refused(Query { pick: 3, ..locked(1, 1) }, short), 9);
    assert_eq!(refused(Query { order: 2, ..QUERY }, short), 9);
    assert_eq!(refused(Query { budget: 0, ..QUERY }, short), 9);
    assert_eq!(refused(locked(1, 1), short), 10);
}

/// With ten modes each of them can be locked, and no eleventh.
#[test]
fn locks_of_ten_modes() {
    let mut plan = P;
    plan[0][2] = 10;
    expect_route(&plan, locked(1_023, 1_023), 5, &belt_5(1_023));
    expect_route(&plan, locked(512, 512), 5, &belt_5(512));
    expect_no_route(&plan, locked(1_024, 0), 15, 0);
    plan[0][2] = 0;
    expect_no_route(&plan, locked(1, 0), 15, 0);
}

/// Three belts from 1 to 2. The first is forbidden; of the others, which cost the
/// same, the lower one is the route.
#[test]
fn twin_belts() {
    let plan = [
        [7, 2, 0, 6, 8, 0],
        [1, 3, 0, 0, 0, 0],
        [1, 0, 0, 0, 0, 0],
        [2, 4, 2, 5, 0, 0],
        [2, 5, 2, 7, 0, 0],
        [2, 0, 2, 7, 0, 0],
        [3, 0, 7, 0, 0, 0],
        [4, 0, 0, 0, 3, 0],
    ];
    let belt_4 = [[8, 1, 0, 0, 7, 0], [5, 0, 4, 0, 0, 0]];
    expect_route(&plan, Query { t: 2, ..QUERY }, 3, &belt_4);
}

/// Plan P with other costs, each as its low and its high half.
fn with_costs(costs: [[u16; 2]; 3]) -> [Record; 10] {
    let mut records = P;
    for (record, [low, high]) in records[4..7].iter_mut().zip(costs) {
        record[3] = low;
        record[4] = high;
    }
    records
}

/// A cost is f4 * 65,536 + f3.
#[test]
fn costs_have_two_halves() {
    let belt_5 = [[8, 1, 0, 1, 9, 0], [5, 0, 5, 0, 0, 0]];
    expect_route(&with_costs([[3, 0], [9, 1], [4, 0]]), QUERY, 5, &belt_5);
    let free = |costs| {
        let mut records = with_rules(&[]);
        records[4..7].copy_from_slice(&with_costs(costs)[4..7]);
        records
    };
    // By the low halves belt 5 would cost less.
    expect_route(&free([[3, 0], [0, 1], [4, 0]]), QUERY, 1, &belts_4_6(0));
    // By the low halves belts 4 and 6 would cost 0, and with the halves exchanged 1.
    let belt_5 = [[8, 1, 0, 0, 2, 0], [5, 0, 5, 0, 0, 0]];
    expect_route(&free([[0, 0], [2, 0], [0, 1]]), QUERY, 1, &belt_5);
    // 65,535 and 1 cost as much as 65,536.
    let carried = [[8, 1, 0, 1, 0, 0], [5, 2, 4, 0, 0, 0], [5, 0, 6, 0, 0, 0]];
    expect_route(&free([[65_535, 0], [0, 1], [1, 0]]), QUERY, 1, &carried);
    let belt_5 = [[8, 1, 0, 1, 0, 0], [5, 0, 5, 0, 0, 0]];
    expect_route(&free([[65_535, 0], [0, 1], [2, 0]]), QUERY, 1, &belt_5);
}

/// Belts 4 and 6, twice 2^31, cost as much as 5 and 7, 2^32 - 1 and 1. The rule: not
/// belt 4, or not belt 7. The route with the lower belt is found last.
#[test]
fn equal_costs_of_33_bits() {
    let plan = [
        [7, 3, 0, 8, 11, 0],
        [1, 4, 0, 0, 0, 0],
        [1, 6, 0, 0, 0, 0],
        [1, 0, 0, 0, 0, 0],
        [2, 5, 2, 0, 32_768, 0],
        [2, 0, 2, 65_535, 65_535, 0],
        [2, 7, 3, 0, 32_768, 0],
        [2, 0, 3, 1, 0, 0],
        [3, 0, 9, 0, 0, 0],
        [4, 10, 0, 0, 4, 0],
        [4, 0, 0, 0, 7, 0],
    ];
    let sheet = [[8, 1, 1, 0, 0, 0], [5, 2, 4, 0, 0, 0], [5, 0, 6, 0, 0, 0]];
    expect_route(&plan, QUERY, 5, &sheet);
}

/// 256 junctions, and from each of the first ones a belt of 2^32 - 1 to the next one.
fn dearest_row(belts: u16) -> Vec<Record> {
    let mut records = vec![[7, 256, 0, 0, 257 + belts, 0]];
    records.extend((0..256).map(|i| [1, if i < belts { 257 + i } else { 0 }, 0, 0, 0, 0]));
    records.extend((0..belts).map(|i| [2, 0, i + 2, 65_535, 65_535, 0]));
    records
}

/// No route is dearer than one of 255 belts at 2^32 - 1, and it is a route.
#[test]
fn dearest_route() {
    let mut sheet = vec![[8, 1, 254, 65_535, 65_281, 0]];
    sheet.extend((1..=255).map(|i| [5, if i < 255 { i + 1 } else { 0 }, 256 + i, 0, 0, 0]));
    let query = Query { t: 256, ..QUERY };
    expect_route(&dearest_row(255), query, 1, &sheet);
    expect_no_route(&dearest_row(254), query, NONE, 1);
}

/// Plan P with the belt from 2 ahead of those from 1: the pick goes by index, and
/// not by junction.
#[test]
fn named_belts_out_of_order() {
    let mut plan = P;
    plan[1][1] = 5;
    plan[2][1] = 4;
    plan[4] = [2, 0, 3, 4, 0, 0];
    plan[5] = [2, 6, 2, 3, 0, 0];
    plan[6] = [2, 0, 3, 9, 0, 0];
    plan[9][4] = 5;
    let belt_6 = [[8, 1, 0, 0, 9, 0], [5, 0, 6, 0, 0, 0]];
    for (pick, order) in [(0, 0), (0, 1), (1, 0), (1, 1), (2, 0), (2, 1)] {
        expect_route(&plan, Query { pick, order, ..QUERY }, 5, &belt_6);
    }
    expect_no_route(&plan, Query { order: 1, budget: 4, ..QUERY }, SPENT, 4);
}

/// The plan has this archive form, and the form is its own.
fn expect_form(plan: &[Record], form: &[Record]) {
    let form = bytes(form);
    for plan in [&bytes(plan), &form] {
        let mut out = vec![0xEE; plan.len() + 30];
        let answer = archive(plan, &mut out);
        let length = plan.len() as u64;
        assert_eq!(answer, Answer { number: WRITTEN, opened: 0, length });
        assert_eq!(out[..plan.len()], form);
        assert_eq!(out[plan.len()..], [0xEE; 30]);
    }
}

/// Belts, rules and literals in all sorts of order.
#[test]
fn archive_forms() {
    expect_form(&P, &P);
    let mut shuffled = P;
    shuffled[0][3] = 4;
    shuffled[1][1] = 7;
    shuffled[2][1] = 9;
    shuffled[4..7].copy_from_slice(&[[3, 0, 5, 0, 0, 0], [4, 6, 0, 0, 7, 0], [4, 0, 0, 0, 9, 0]]);
    shuffled[7..].copy_from_slice(&[[2, 8, 2, 3, 0, 0], [2, 0, 3, 9, 0, 0], [2, 0, 3, 4, 0, 0]]);
    expect_form(&shuffled, &P);
    let interleaved = [
        [7, 3, 2, 4, 13, 0],
        [1, 5, 0, 0, 0, 0],
        [1, 12, 0, 0, 0, 0],
        [1, 0, 0, 0, 0, 0],
        [3, 6, 8, 0, 0, 0],
        [2, 9, 2, 3, 0, 0],
        [3, 0, 7, 0, 0, 0],
        [4, 0, 1, 1, 2, 0],
        [4, 10, 0, 0, 12, 0],
        [2, 0, 3, 9, 0, 0],
        [4, 11, 1, 1, 1, 0],
        [4, 0, 0, 0, 5, 0],
        [2, 0, 3, 4, 0, 0],
    ];
    let mut form = with_rules(&[
        [3, 11, 8, 0, 0, 0],
        [4, 9, 0, 0, 6, 0],
        [4, 10, 1, 1, 1, 0],
        [4, 0, 0, 0, 4, 0],
        [3, 0, 12, 0, 0, 0],
        [4, 0, 1, 1, 2, 0],
    ]);
    form[0][2] = 2;
    expect_form(&interleaved, &form);
    let empty_rules = with_rules(&[[3, 8, 0, 0, 0, 0], [3, 0, 0, 0, 0, 0]]);
    expect_form(&empty_rules, &empty_rules);
    expect_form(&dearest_row(255), &dearest_row(255));
}

/// Belts stand by index, and not by the junctions that they leave.
#[test]
fn belts_by_index() {
    let plan = [
        [7, 3, 0, 4, 8, 0],
        [1, 7, 0, 0, 0, 0],
        [1, 5, 0, 0, 0, 0],
        [1, 0, 0, 0, 0, 0],
        [3, 0, 6, 0, 0, 0],
        [2, 0, 3, 4, 9, 0],
        [4, 0, 1, 0, 7, 0],
        [2, 0, 2, 3, 0, 0],
    ];
    let form = [
        [7, 3, 0, 6, 8, 0],
        [1, 5, 0, 0, 0, 0],
        [1, 4, 0, 0, 0, 0],
        [1, 0, 0, 0, 0, 0],
        [2, 0, 3, 4, 9, 0],
        [2, 0, 2, 3, 0, 0],
        [3, 0, 7, 0, 0, 0],
        [4, 0, 1, 0, 5, 0],
    ];
    expect_form(&plan, &form);
}

/// Lines 1 to 7, and then 16: out shorter than the plan.
#[test]
fn archive_refusals() {
    let number = |plan: &[u8], room: usize| {
        let mut out = vec![0xEE; room];
        let answer = archive(plan, &mut out);
        if answer.number != WRITTEN {
            assert_eq!((answer.length, out), (0, vec![0xEE; room]));
        }
        answer.number
    };
    let mut broken = P;
    broken[9][4] = 7;
    for room in [0, 119, 120] {
        assert_eq!(number(&bytes(&broken), room), 6);
        assert_eq!(number(&bytes(&P), room), if room < 120 { 16 } else { WRITTEN });
    }
    assert_eq!(number(&[], 0), 1);
}

#[test]
fn plan_refusals() {
    let refused = |at: usize, field: usize, value: u16| {
        let mut records = P;
        records[at][field] = value;
        check::number(&bytes(&records))
    };
    assert_eq!(check::number(&bytes(&P)), 0);
    assert_eq!(check::number(&bytes(&P[..1])), 1);
    assert_eq!(refused(0, 4, 9), 1);
    assert_eq!(refused(0, 1, 257), 2);
    assert_eq!(refused(0, 2, 11), 2);
    assert_eq!(refused(6, 2, 0), 3);
    assert_eq!(refused(6, 2, 4), 3);
    assert_eq!(refused(9, 5, 1), 3);
    assert_eq!(refused(5, 4, 1), 0);
    assert_eq!(refused(5, 5, 1), 3);
    assert_eq!(refused(5, 1, 6), 4);
    assert_eq!(refused(1, 1, 10), 4);
    assert_eq!(refused(6, 2, 2), 5);
    assert_eq!(refused(9, 4, 7), 6);
    assert_eq!(refused(9, 4, 10), 6);
}

/// Line 7 counts belts, not literals: 48 named belts pass, 49 do not.
#[test]
fn named_belts_are_limited() {
    let plan = |named: u16| {
        let literals = 2 * named;
        let last = 2 + named + literals;
        let mut records =
            vec![[7, 2, 0, 3 + named, last + 2, 0], [1, 3, 0, 0, 0, 0], [1, 0, 0, 0, 0, 0]];
        let belts = 3..3 + named;
        records.extend(belts.clone().map(|i| [2, (i + 1) % (3 + named), 2, 1, 0, 0]));
        records.push([3, 0, 4 + named, 0, 0, 0]);
        let next = |i: u16| if i == last + 1 { 0 } else { i + 1 };
        records.extend((4 + named..=last + 1).map(|i| [4, next(i), 1, 0, 3 + i % named, 0]));
        bytes(&records)
    };
    assert_eq!(check::number(&plan(48)), 0);
    assert_eq!(check::number(&plan(49)), 7);
}
