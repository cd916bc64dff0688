//! Fixed plans with the records of their archive forms, pairs of plans that these tell apart, and out
//! buffers that are too short. They hold the library and the tests' own writer to the same records, and
//! the queries of a plan and of its form to the same written numbers.

use crate::anchors::{changed_plans, dearest_row, e10, hold, p, p_high, p_with, plan, read, Found, ENOUGH};
use crate::archive::{content, records};
use crate::compare::{Judge, Verdict};
use crate::lock::FREE;
use crate::plan::{bytes_of, Record};
use crate::refusals;
use crate::searches::PICKS_AND_ORDERS;

/// Name, a plan, its archive form, s and t, what is found in the plan and in the form, opened.
type Fixed = (&'static str, Vec<Record>, Vec<Record>, [u64; 2], [Found<'static>; 2], u64);

/// A plan that is its own archive form, what is found from its first junction to its last, opened.
type Kept = (Vec<Record>, Found<'static>, u64);

/// Two twins from 1 to 2, and the rule "belt 6", the cheaper of them, which stands before them.
fn d() -> (Vec<Record>, Vec<Record>) {
    let plan = vec![
        [7, 2, 0, 3, 7, 0],
        [1, 5, 0, 0, 0, 0],
        [1, 0, 0, 0, 0, 0],
        [3, 0, 4, 0, 0, 0],
        [4, 0, 1, 0, 6, 0],
        [2, 6, 2, 3, 0, 0],
        [2, 0, 2, 1, 0, 0],
    ];
    let form = vec![
        [7, 2, 0, 5, 7, 0],
        [1, 3, 0, 0, 0, 0],
        [1, 0, 0, 0, 0, 0],
        [2, 4, 2, 3, 0, 0],
        [2, 0, 2, 1, 0, 0],
        [3, 0, 6, 0, 0, 0],
        [4, 0, 1, 0, 4, 0],
    ];
    (plan, form)
}

/// P's belts, and the rules "not belt 12, or mode 1, or not belt 5" and "mode 2": all chains are interleaved.
fn interleaved() -> (Vec<Record>, Vec<Record>) {
    let above = [
        [3, 6, 8, 0, 0, 0],
        [2, 9, 2, 3, 0, 0],
        [3, 0, 7, 0, 0, 0],
        [4, 0, 1, 1, 2, 0],
        [4, 10, 0, 0, 12, 0],
        [2, 0, 3, 9, 0, 0],
        [4, 11, 1, 1, 1, 0],
        [4, 0, 0, 0, 5, 0],
        [2, 0, 3, 4, 0, 0],
    ];
    let rules = [
        [3, 11, 8, 0, 0, 0],
        [4, 9, 0, 0, 6, 0],
        [4, 10, 1, 1, 1, 0],
        [4, 0, 0, 0, 4, 0],
        [3, 0, 12, 0, 0, 0],
        [4, 0, 1, 1, 2, 0],
    ];
    (plan(2, [5, 12, 0], 4, &above), p_with(2, &rules))
}

/// P with its rule and literals before the belts.
fn shuffled_p() -> Vec<Record> {
    let above = [
        [3, 0, 5, 0, 0, 0],
        [4, 6, 0, 0, 7, 0],
        [4, 0, 0, 0, 9, 0],
        [2, 8, 2, 3, 0, 0],
        [2, 0, 3, 9, 0, 0],
        [2, 0, 3, 4, 0, 0],
    ];
    plan(1, [7, 9, 0], 4, &above)
}

/// The belt from 2 to 3 stands before that from 1 to 2, which the rule wants: "belt 7".
fn belts_by_index() -> (Vec<Record>, Vec<Record>) {
    let above = [[3, 0, 6, 0, 0, 0], [2, 0, 3, 4, 0, 0], [4, 0, 1, 0, 7, 0], [2, 0, 2, 3, 0, 0]];
    let form = [[2, 0, 3, 4, 0, 0], [2, 0, 2, 3, 0, 0], [3, 0, 7, 0, 0, 0], [4, 0, 1, 0, 5, 0]];
    (plan(0, [7, 5, 0], 4, &above), plan(0, [5, 4, 0], 6, &form))
}

/// D with the rule "mode 6": a belt has the same number, and is called 4 in the form.
fn mode_6() -> (Vec<Record>, Vec<Record>) {
    let (mut plan, mut form) = d();
    for records in [&mut plan, &mut form] {
        records[0][2] = 6;
    }
    plan[4] = [4, 0, 1, 1, 6, 0];
    form[6] = [4, 0, 1, 1, 6, 0];
    (plan, form)
}

/// The rules "not belt 4" and "not belt 6".
fn two_rules() -> [Record; 4] {
    [[3, 9, 8, 0, 0, 0], [4, 0, 0, 0, 4, 0], [3, 0, 10, 0, 0, 0], [4, 0, 0, 0, 6, 0]]
}

/// Plans with other archive forms than themselves, and P.
fn fixed() -> Vec<Fixed> {
    let (d, d_form) = d();
    let (interleaved, interleaved_form) = interleaved();
    let (by_index, by_index_form) = belts_by_index();
    let (mode_6, mode_6_form) = mode_6();
    let rules_first = [[3, 8, 9, 0, 0, 0], [3, 0, 10, 0, 0, 0], [4, 0, 0, 0, 4, 0], [4, 0, 0, 0, 6, 0]];
    let route = Found::Route;
    vec![
        ("D", d, d_form, [1, 2], [route(&[6], 1, 0), route(&[4], 1, 0)], 1),
        ("interleaved", interleaved, interleaved_form, [1, 3], [route(&[5, 12], 7, 3), route(&[4, 6], 7, 3)], 1),
        ("P shuffled", shuffled_p(), p(), [1, 3], [route(&[8], 9, 0), route(&[5], 9, 0)], 5),
        ("P", p(), p(), [1, 3], [route(&[5], 9, 0); 2], 5),
        ("belts by index", by_index, by_index_form, [1, 3], [route(&[7, 5], 7, 0), route(&[5, 4], 7, 0)], 1),
        ("mode 6 and belt 6", mode_6, mode_6_form, [1, 2], [route(&[6], 1, 32), route(&[4], 1, 32)], 1),
        ("rules first", p_with(1, &rules_first), p_with(1, &two_rules()), [1, 3], [route(&[5], 9, 0); 2], 5),
    ]
}

/// P's junctions with other belts and without rules.
fn b_with(heads: [u16; 3], belts: &[Record]) -> Vec<Record> {
    plan(1, heads, 0, belts)
}

/// Two belts from 1 to 2.
fn twins(costs: [u16; 2]) -> Vec<Record> {
    let [first, second] = costs;
    vec![[7, 2, 0, 0, 5, 0], [1, 3, 0, 0, 0, 0], [1, 0, 0, 0, 0, 0], [2, 4, 2, first, 0, 0], [2, 0, 2, second, 0, 0]]
}

/// Two plans that differ in the list of belts or in J, and what tells them apart.
fn belts_apart() -> Vec<(&'static str, Kept, Kept)> {
    let b = || (p_with(1, &[]), Found::Route(&[4, 6], 7, 0), 1);
    let p = || (p(), Found::Route(&[5], 9, 0), 5);
    let twins = |costs, belts| (twins(costs), Found::Route(belts, 1, 0), 1);
    let junctions = b_with([4, 5, 0], &[[2, 6, 2, 3, 0, 0], [2, 0, 3, 4, 0, 0], [2, 0, 3, 9, 0, 0]]);
    let leads = b_with([4, 6, 0], &[[2, 5, 2, 3, 0, 0], [2, 0, 2, 9, 0, 0], [2, 0, 3, 4, 0, 0]]);
    let mut four = vec![[7, 4, 1, 0, 8, 0]];
    four.extend([5, 7, 0, 0].map(|head| [1, head, 0, 0, 0, 0]));
    four.extend([[2, 6, 2, 3, 0, 0], [2, 0, 3, 9, 0, 0], [2, 0, 3, 4, 0, 0]]);
    let mut leaves = p().0;
    leaves[2] = [1, 0, 0, 0, 0, 0];
    leaves[5] = [2, 6, 3, 9, 0, 0];
    vec![
        ("twins exchanged", twins([3, 1], &[4]), twins([1, 3], &[3])),
        ("order of belts of different junctions", b(), (junctions, Found::Route(&[4, 5], 7, 0), 1)),
        ("count of junctions", b(), (four, Found::None, 1)),
        ("where a belt leads", b(), (leads, Found::Route(&[4, 6], 7, 0), 1)),
        ("where a belt leaves", p(), (leaves, Found::Route(&[6], 4, 0), 1)),
        ("high half of a cost", p(), (p_high(), Found::Route(&[5], 65_545, 0), 5)),
    ]
}

/// Two plans with P's belts that differ in their rules or in M, and what tells them apart.
fn rules_apart() -> Vec<(&'static str, Kept, Kept)> {
    let none = |rules: &[Record], opened| (p_with(1, rules), Found::None, opened);
    let belt_5 = |modes, rules: &[Record], opened| (p_with(modes, rules), Found::Route(&[5], 9, 0), opened);
    let p = || (p(), Found::Route(&[5], 9, 0), 5);
    let e10 = || (e10(), Found::Route(&[4, 6], 7, 1), 1);
    let rule = |literals: [Record; 2]| [&[[3, 0, 8, 0, 0, 0]], &literals[..]].concat();
    let mode_2 = p_with(2, &rule([[4, 9, 0, 0, 4, 0], [4, 0, 1, 1, 2, 0]]));
    let mut mode_1 = e10().0;
    mode_1[0][2] = 2;
    let not_mode = p_with(1, &rule([[4, 9, 0, 0, 4, 0], [4, 0, 0, 1, 1, 0]]));
    let twice = [[3, 0, 8, 0, 0, 0], [4, 9, 0, 0, 4, 0], [4, 10, 0, 0, 4, 0], [4, 0, 0, 0, 6, 0]];
    let [one, other] = [[4, 0, 0, 0, 4, 0], [4, 0, 0, 0, 6, 0]];
    let turned = [two_rules()[0], other, two_rules()[2], one];
    let last_empty = [[3, 10, 8, 0, 0, 0], [4, 9, 0, 0, 4, 0], [4, 0, 0, 0, 6, 0], [3, 0, 0, 0, 0, 0]];
    let first_empty = [[3, 8, 0, 0, 0, 0], [3, 0, 9, 0, 0, 0], [4, 10, 0, 0, 4, 0], [4, 0, 0, 0, 6, 0]];
    let e9 = [[3, 10, 8, 0, 0, 0], [4, 9, 0, 0, 4, 0], [4, 0, 0, 0, 6, 0], [3, 0, 11, 0, 0, 0], [4, 0, 0, 0, 5, 0]];
    let moved = [[3, 9, 8, 0, 0, 0], [4, 0, 0, 0, 4, 0], [3, 0, 10, 0, 0, 0], [4, 11, 0, 0, 6, 0], [4, 0, 0, 0, 5, 0]];
    vec![
        ("order of literals", p(), belt_5(1, &rule([[4, 9, 0, 0, 6, 0], [4, 0, 0, 0, 4, 0]]), 5)),
        ("literal said twice", p(), belt_5(1, &twice, 5)),
        ("order of rules", belt_5(1, &two_rules(), 5), belt_5(1, &turned, 5)),
        ("empty rule", p(), none(&last_empty, 7)),
        ("only an empty rule", (p_with(1, &[]), Found::Route(&[4, 6], 7, 0), 1), none(&[[3, 0, 0, 0, 0, 0]], 1)),
        ("order of rules, one empty", none(&first_empty, 7), none(&last_empty, 7)),
        ("literal in the next rule", none(&e9, 11), belt_5(1, &moved, 7)),
        ("wanted or unwanted", e10(), (not_mode, Found::Route(&[4, 6], 7, 0), 1)),
        ("mode", (mode_1, Found::Route(&[4, 6], 7, 1), 1), (mode_2, Found::Route(&[4, 6], 7, 2), 1)),
        ("count of modes", p(), belt_5(2, &p().0[7..], 5)),
    ]
}

/// Holds the library and the tests' own writer to the records of an archive form.
fn hold_form(judge: &mut Judge, plan: &[Record], form: &[Record]) -> Verdict {
    let (bytes, form_bytes) = (bytes_of(plan), bytes_of(form));
    let own = content(&read(&bytes)?);
    if records(&own) != form {
        return Err(format!("the tests' own archive form is {:?}", records(&own)));
    }
    if content(&read(&form_bytes)?) != own {
        return Err("the tests find other belts or rules in the archive form".to_string());
    }
    judge.plan(&form_bytes, 0)?;
    judge.archive(&bytes, bytes.len(), Ok(&form_bytes))?;
    judge.archive(&form_bytes, bytes.len(), Ok(&form_bytes))
}

fn hold_fixed(judge: &mut Judge, (name, plan, form, [s, t], found, opened): Fixed) -> Verdict {
    let told = |message: String| format!("fixed archive form, {name}: {message}");
    hold_form(judge, &plan, &form).map_err(told)?;
    for (pick, order) in PICKS_AND_ORDERS {
        for (records, found) in [&plan, &form].into_iter().zip(found) {
            hold(judge, &FREE, (name, records.clone(), [s, t, pick, order, ENOUGH], found, opened)).map_err(told)?;
        }
    }
    Ok(())
}

/// Both plans are their own archive forms, and so these differ.
fn hold_apart(judge: &mut Judge, name: &'static str, one: Kept, other: Kept) -> Verdict {
    let told = |message: String| format!("plans told apart by {name}: {message}");
    if one.0 == other.0 {
        return Err(told("they are the same".to_string()));
    }
    for (plan, found, opened) in [one, other] {
        hold_form(judge, &plan, &plan).map_err(told)?;
        let query = [1, plan[0][1].into(), 0, 0, ENOUGH];
        hold(judge, &FREE, (name, plan, query, found, opened)).map_err(told)?;
    }
    Ok(())
}

/// Plans, and lengths of out buffers that are too short for them and that are long enough.
fn out_buffers() -> [(Vec<Record>, &'static [usize], &'static [usize]); 3] {
    let smallest = vec![[7, 1, 0, 0, 2, 0], [1, 0, 0, 0, 0, 0]];
    [
        (smallest, &[0, 12, 23], &[24, 25]),
        (d().0, &[0, 72, 83], &[84, 85, 3_072]),
        (dearest_row(), &[3_072, 6_143], &[6_144, 70_000]),
    ]
}

/// So many belts from 1 to 2, and a rule that names them all.
fn many_named(belts: u16) -> Vec<Record> {
    let (rule, end) = (3 + belts, 4 + 2 * belts);
    let next = |index: u16, end: u16| if index + 1 < end { index + 1 } else { 0 };
    let mut records = vec![[7, 2, 0, rule, end, 0], [1, 3, 0, 0, 0, 0], [1, 0, 0, 0, 0, 0]];
    records.extend((3..rule).map(|index| [2, next(index, rule), 2, 1, 0, 0]));
    records.push([3, 0, rule + 1, 0, 0, 0]);
    records.extend((rule + 1..end).map(|index| [4, next(index, end), 1, 0, index - rule + 2, 0]));
    records
}

/// Bytes that are no plan, and the line that they break first.
fn no_plans() -> Vec<(Vec<u8>, u64)> {
    let with = |changes: &[(usize, Record)]| {
        let mut records = p();
        for (index, record) in changes {
            records[*index] = *record;
        }
        bytes_of(&records)
    };
    let mut all = vec![
        (vec![], 1),
        (with(&[])[..23].to_vec(), 1),
        (with(&[(0, [7, 3, 1, 7, 9, 0])]), 1),
        (with(&[(0, [7, 257, 1, 7, 10, 0])]), 2),
        (with(&[(0, [7, 3, 11, 7, 10, 0])]), 2),
        (bytes_of(&many_named(49)), 7),
    ];
    let changed = changed_plans().into_iter().filter(|(_, line)| *line != 0);
    all.extend(changed.map(|(changes, line)| (with(changes), line)));
    all
}

/// Holds the library to the line of out buffers, and to the lines before it.
fn hold_lines(judge: &mut Judge) -> Verdict {
    for (plan, too_short, long_enough) in out_buffers() {
        let bytes = bytes_of(&plan);
        let form = bytes_of(&records(&content(&read(&bytes)?)));
        for out_len in too_short {
            judge.archive(&bytes, *out_len, Err(16))?;
        }
        for out_len in long_enough {
            judge.archive(&bytes, *out_len, Ok(&form))?;
        }
    }
    for (bytes, line) in no_plans() {
        if refusals::read(&bytes).err() != Some(line) {
            return Err(format!("the tests do not refuse a fixed plan of {} bytes by line {line}", bytes.len()));
        }
        let length = bytes.len();
        for out_len in [0, length.saturating_sub(1), length, length + 1] {
            judge.archive(&bytes, out_len, Err(line))?;
        }
    }
    hold_form(judge, &many_named(48), &many_named(48))
}

pub fn run(judge: &mut Judge) -> Verdict {
    for anchor in fixed() {
        hold_fixed(judge, anchor)?;
    }
    for (name, one, other) in belts_apart().into_iter().chain(rules_apart()) {
        hold_apart(judge, name, one, other)?;
    }
    hold_lines(judge)
}
