//! The archive form of a plan: the belts in rising index, then each rule with its
//! literals.

use super::depot::chain;
use crate::check;
use crate::query::{Answer, WRITTEN};
use crate::records::{encode, Record, BELT, JUNCTION, LITERAL, PLAN_MAX, RULE, SIZE};

/// The new index of each belt, by record; 0 for what is none.
type Indices = [u16; PLAN_MAX / SIZE];

/// The whole call: checks the plan and the room for it, and writes its archive form.
pub fn archive(plan: &[u8], out: &mut [u8]) -> Answer {
    let refused = |number| Answer { number, opened: 0, length: 0 };
    match check::check(plan) {
        Err(number) => refused(number),
        Ok(_) if out.len() < plan.len() => refused(16),
        Ok(records) => {
            write(&records, out);
            Answer { number: WRITTEN, opened: 0, length: plan.len() as u64 }
        }
    }
}

/// Writes the form of a checked plan to the start of `out`, record after record.
fn write(records: &[Record], out: &mut [u8]) {
    let (new, behind_belts) = new_indices(records);
    let new = |index: u16| new[usize::from(index)];
    let mut places = out.chunks_exact_mut(SIZE);
    let mut put = |record| encode(record, places.next().expect("room for each record"));
    let [kind, junctions, modes, first_rule, count, _] = records[0];
    put([kind, junctions, modes, if first_rule == 0 { 0 } else { behind_belts }, count, 0]);
    let (heads, above) = records[1..].split_at(usize::from(junctions));
    for junction in heads {
        put([JUNCTION, new(junction[1]), 0, 0, 0, 0]);
    }
    for &[kind, next, head, low, high, _] in above {
        if kind == BELT {
            put([BELT, new(next), head, low, high, 0]);
        }
    }
    let mut at = behind_belts;
    for rule in chain(records, first_rule) {
        let [_, next_rule, first, ..] = records[rule];
        let behind = at + 1 + chain(records, first).count() as u16;
        let next_rule = if next_rule == 0 { 0 } else { behind };
        put([RULE, next_rule, if first == 0 { 0 } else { at + 1 }, 0, 0, 0]);
        for literal in chain(records, first) {
            at += 1;
            let [_, next, wanted, about, name, _] = records[literal];
            let name = if about == 0 { new(name) } else { name };
            put([LITERAL, if next == 0 { 0 } else { at + 1 }, wanted, about, name, 0]);
        }
        at = behind;
    }
}

/// New indices from that behind the last junction on, and the one behind the last belt.
fn new_indices(records: &[Record]) -> (Indices, u16) {
    let mut new = [0; PLAN_MAX / SIZE];
    let mut next = records[0][1] + 1;
    for (new, record) in new.iter_mut().zip(records) {
        let is_belt = record[0] == BELT;
        *new = if is_belt { next } else { 0 };
        next += u16::from(is_belt);
    }
    (new, next)
}
