//! The baseline's plan check: lines 1 to 7 of the refusal table, a pass for each
//! line, since the lower number wins over the whole plan.

use crate::records::{self, Record, BELT, JUNCTION, LITERAL, PLAN, RULE};

/// The number of the first broken line, 0 for a plan.
pub fn number(plan: &[u8]) -> u64 {
    match check(plan) {
        Ok(_) => 0,
        Err(line) => line,
    }
}

/// The records of a plan, or the first broken line.
pub fn check(plan: &[u8]) -> Result<Vec<Record>, u64> {
    if plan.len() < 24 || plan.len() > records::PLAN_MAX {
        return Err(1);
    }
    let count = u16::from_be_bytes([plan[8], plan[9]]) as usize;
    if plan.len() != records::SIZE * count {
        return Err(1);
    }
    let records = records::decode(plan);
    let broken = if !head_sound(&records) {
        2
    } else if !fields_sound(&records) {
        3
    } else if !chains_sound(&records) {
        4
    } else if !belts_rise(&records) {
        5
    } else if !literals_name(&records) {
        6
    } else if named_belts(&records) > 48 {
        7
    } else {
        return Ok(records);
    };
    Err(broken)
}

fn junctions(records: &[Record]) -> usize {
    records[0][1] as usize
}

/// Line 2.
fn head_sound(records: &[Record]) -> bool {
    let [kind, junctions, modes, _, count, zero] = records[0];
    kind == PLAN && (1..=256).contains(&junctions) && modes <= 10 && zero == 0 && count > junctions
}

/// Line 3: kinds, ranged fields and zero fields.
fn fields_sound(records: &[Record]) -> bool {
    let (head, others) = records[1..].split_at(junctions(records));
    let top = records[0][1];
    let junction_sound = |r: &Record| r[0] == JUNCTION && r[2..] == [0; 4];
    let other_sound = |r: &Record| match r[0] {
        BELT => r[5] == 0 && (1..=top).contains(&r[2]),
        RULE => r[3..] == [0; 3],
        LITERAL => r[2] <= 1 && r[3] <= 1 && r[5] == 0,
        _ => false,
    };
    head.iter().all(junction_sound) && others.iter().all(other_sound)
}

/// Line 4: chains rise, stay within their kind, and reach every record once.
fn chains_sound(records: &[Record]) -> bool {
    let mut reached = vec![false; records.len()];
    let mut follow = |holder: usize, next: u16, kind: u16| {
        let next = next as usize;
        if next == 0 {
            return true;
        }
        if next <= holder || next >= records.len() || records[next][0] != kind || reached[next] {
            return false;
        }
        reached[next] = true;
        true
    };
    for (i, r) in records.iter().enumerate() {
        let sound = match r[0] {
            PLAN => follow(i, r[3], RULE),
            JUNCTION | BELT => follow(i, r[1], BELT),
            RULE => follow(i, r[1], RULE) && follow(i, r[2], LITERAL),
            _ => follow(i, r[1], LITERAL),
        };
        if !sound {
            return false;
        }
    }
    reached[junctions(records) + 1..].iter().all(|&once| once)
}

/// Line 5: every belt leads to a higher junction than it leaves.
fn belts_rise(records: &[Record]) -> bool {
    for junction in 1..=junctions(records) {
        let mut next = records[junction][1] as usize;
        while next != 0 {
            let belt = records[next];
            if belt[2] as usize <= junction {
                return false;
            }
            next = belt[1] as usize;
        }
    }
    true
}

/// Line 6: every literal names a belt record or a mode of the plan.
fn literals_name(records: &[Record]) -> bool {
    let modes = records[0][2];
    records.iter().filter(|r| r[0] == LITERAL).all(|r| match r[3] {
        0 => records.get(r[4] as usize).is_some_and(|named| named[0] == BELT),
        _ => (1..=modes).contains(&r[4]),
    })
}

/// Line 7 counts each named belt once.
pub fn named_belts(records: &[Record]) -> usize {
    let mut named = vec![false; records.len()];
    let mut count = 0;
    for r in records.iter().filter(|r| r[0] == LITERAL && r[3] == 0) {
        let seen = &mut named[r[4] as usize];
        count += usize::from(!*seen);
        *seen = true;
    }
    count
}
