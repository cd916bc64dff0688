//! Route sheets: their bytes, and damage to them. As for plans, each damage aims
//! at one line of the refusal table by one cause, and the predicate says whether
//! it hits.

use crate::enumerate::works;
use crate::lock::Lock;
use crate::plan::{bytes_of, field, records_of, set_field, Plan, Record, RECORD};
use crate::refusals::SHEET_MAX;
use crate::rng::Rng;

/// The sheet of a route.
pub fn write(belts: &[usize], cost: u64, setting: u64) -> Vec<u8> {
    let first = if belts.is_empty() { 0 } else { 1 };
    let [high, middle, low] = [cost >> 32, cost >> 16, cost].map(|part| (part & 0xffff) as u16);
    let mut records: Vec<Record> = vec![[8, first, high, middle, low, setting as u16]];
    for (turn, belt) in belts.iter().enumerate() {
        let next = if turn + 1 == belts.len() { 0 } else { turn + 2 };
        records.push([5, next as u16, *belt as u16, 0, 0, 0]);
    }
    bytes_of(&records)
}

/// The plan a sheet is for, and the lock it is checked under.
pub struct Around<'a> {
    pub plan: &'a Plan,
    pub plan_bytes: &'a [u8],
    pub lock: Lock,
}

type Apply = Box<dyn Fn(&mut Vec<u8>, &Around, &mut Rng) -> Option<()>>;

pub struct Damage {
    pub name: String,
    /// The line aimed at; 0 if it may be any, or none.
    pub line: u64,
    apply: Apply,
}

impl Damage {
    /// Damages the sheet, or leaves it if it has no place for it.
    pub fn apply(&self, sheet: &mut Vec<u8>, around: &Around, rng: &mut Rng) -> bool {
        sheet.len() >= RECORD && (self.apply)(sheet, around, rng).is_some()
    }
}

pub fn damages() -> Vec<Damage> {
    let mut damages = Vec::new();
    add_lengths(&mut damages);
    add_form(&mut damages);
    add_names(&mut damages);
    add_routes(&mut damages);
    add_costs(&mut damages);
    add_settings(&mut damages);
    add_blind(&mut damages);
    damages
}

fn add(
    damages: &mut Vec<Damage>,
    line: u64,
    name: &str,
    apply: impl Fn(&mut Vec<u8>, &Around, &mut Rng) -> Option<()> + 'static,
) {
    damages.push(Damage { name: name.to_string(), line, apply: Box::new(apply) });
}

/// Some step's index, or nothing if there is no step.
fn step(sheet: &[u8], rng: &mut Rng) -> Option<usize> {
    let steps = sheet.len() / RECORD - 1;
    (steps > 0).then(|| rng.range(1, steps))
}

/// Line 11: the length.
fn add_lengths(damages: &mut Vec<Damage>) {
    add(damages, 11, "no bytes", |sheet, _, _| {
        sheet.clear();
        Some(())
    });
    add(damages, 11, "over 3072 bytes", |sheet, around, rng| {
        let names: Vec<usize> = around.plan.belts.iter().map(|belt| belt.name).collect();
        let name = rng.pick(&names)?;
        *sheet = write(&vec![name; SHEET_MAX / RECORD], 0, 0);
        Some(())
    });
    add(damages, 11, "65536 bytes more", |sheet, _, _| {
        sheet.resize(sheet.len() + 65_536, 0);
        Some(())
    });
    add(damages, 11, "part of a record more", |sheet, _, rng| {
        sheet.resize(sheet.len() + rng.range(1, 11), 0);
        Some(())
    });
    add(damages, 11, "part of a record less", |sheet, _, rng| {
        sheet.truncate(sheet.len() - rng.range(1, 11));
        Some(())
    });
    add(damages, 11, "record behind the last", |sheet, _, rng| {
        let last = sheet[sheet.len() - RECORD..].to_vec();
        sheet.extend([vec![0; RECORD], last][rng.below(2)].clone());
        Some(())
    });
    add(damages, 11, "last record missing", |sheet, _, rng| {
        step(sheet, rng)?;
        sheet.truncate(sheet.len() - RECORD);
        Some(())
    });
}

/// Sets a field; a damage that ends with it is done.
fn put(bytes: &mut [u8], index: usize, number: usize, value: u16) -> Option<()> {
    set_field(bytes, index, number, value);
    Some(())
}

/// Sets a field to one of some values that it does not have yet.
fn set_other(sheet: &mut [u8], index: usize, number: usize, values: &[u16], rng: &mut Rng) -> Option<()> {
    let old = field(sheet, index, number);
    let others: Vec<u16> = values.iter().copied().filter(|value| *value != old).collect();
    set_field(sheet, index, number, rng.pick(&others)?);
    Some(())
}

/// Line 11: kinds, next indices and zero fields.
fn add_form(damages: &mut Vec<Damage>) {
    add(damages, 11, "f0 of record 0", |sheet, _, rng| set_other(sheet, 0, 0, &[0, 5, 7, 9, 0x0800, 0x0108], rng));
    add(damages, 11, "f1 of record 0", |sheet, _, rng| set_other(sheet, 0, 1, &[0, 1, 2, 256, 257, 65_535], rng));
    add(damages, 11, "kind of a step", |sheet, _, rng| {
        let index = step(sheet, rng)?;
        set_other(sheet, index, 0, &[0, 2, 4, 6, 8, 0x0500, 0x0105], rng)
    });
    add(damages, 11, "next of a step", |sheet, _, rng| {
        let index = step(sheet, rng)?;
        let own = index as u16;
        set_other(sheet, index, 1, &[0, own - 1, own, own + 1, own + 2, 256 + own, 65_535], rng)
    });
    add(damages, 11, "next of the last step", |sheet, _, rng| {
        let last = sheet.len() / RECORD - 1;
        let own = last as u16;
        (last > 0).then_some(())?;
        set_other(sheet, last, 1, &[1, own, own + 1, 256, 65_535], rng)
    });
    for number in [3, 4, 5] {
        add(damages, 11, &format!("f{number} of a step"), move |sheet, _, rng| {
            let index = step(sheet, rng)?;
            set_other(sheet, index, number, &[1, 256, 65_535], rng)
        });
    }
}

/// Line 11: a step that names no belt.
fn add_names(damages: &mut Vec<Damage>) {
    let wrong: [(&str, u16); 4] = [("record 0", 7), ("a junction", 1), ("a rule", 3), ("a literal", 4)];
    for (name, kind) in wrong {
        add(damages, 11, &format!("step names {name}"), move |sheet, around, rng| {
            let records = records_of(around.plan_bytes);
            let of_kind: Vec<usize> = (0..records.len()).filter(|index| records[*index][0] == kind).collect();
            let index = step(sheet, rng)?;
            put(sheet, index, 2, rng.pick(&of_kind)? as u16)
        });
    }
    add(damages, 11, "step names record N or a later one", |sheet, around, rng| {
        let index = step(sheet, rng)?;
        let records = (around.plan_bytes.len() / RECORD) as u16;
        set_other(sheet, index, 2, &[records, records + 1, 2048, 32_768, 65_535], rng)
    });
}

/// Writes the sheet again with other belts, and with their cost or the old one.
fn with_belts(
    sheet: &mut Vec<u8>,
    around: &Around,
    rng: &mut Rng,
    change: impl FnOnce(&mut Vec<usize>, &mut Rng) -> Option<()>,
) -> Option<()> {
    let records = records_of(sheet);
    let mut belts: Vec<usize> = records[1..].iter().map(|step| step[2].into()).collect();
    change(&mut belts, rng)?;
    let costs = belts.iter().map(|name| around.plan.belt(*name).map_or(0, |belt| belt.cost));
    *sheet = write(&belts, costs.sum(), records[0][5].into());
    if rng.chance(1, 4) {
        for number in [2, 3, 4] {
            set_field(sheet, 0, number, records[0][number]);
        }
    }
    Some(())
}

/// Line 12: steps in the form that are no route from s to t.
fn add_routes(damages: &mut Vec<Damage>) {
    add(damages, 12, "belt left out", |sheet, around, rng| {
        with_belts(sheet, around, rng, |belts, rng| {
            let turn = rng.pick(&(0..belts.len()).collect::<Vec<usize>>())?;
            belts.remove(turn);
            Some(())
        })
    });
    add(damages, 12, "last belt left out", |sheet, around, rng| {
        with_belts(sheet, around, rng, |belts, _| belts.pop().map(|_| ()))
    });
    add(damages, 12, "belt twice", |sheet, around, rng| {
        with_belts(sheet, around, rng, |belts, rng| {
            let turn = rng.pick(&(0..belts.len()).collect::<Vec<usize>>())?;
            (belts.len() < 255).then(|| belts.insert(turn, belts[turn]))
        })
    });
    add(damages, 12, "two belts exchanged", |sheet, around, rng| {
        with_belts(sheet, around, rng, |belts, rng| {
            (belts.len() > 1).then_some(())?;
            let turn = rng.range(1, belts.len() - 1);
            belts.swap(turn - 1, turn);
            Some(())
        })
    });
    add(damages, 12, "another belt", |sheet, around, rng| {
        let names: Vec<usize> = around.plan.belts.iter().map(|belt| belt.name).collect();
        with_belts(sheet, around, rng, |belts, rng| {
            let turn = rng.pick(&(0..belts.len()).collect::<Vec<usize>>())?;
            belts[turn] = rng.pick(&names)?;
            Some(())
        })
    });
    add(damages, 12, "belt behind the end", |sheet, around, rng| add_belt(sheet, around, rng, true));
    add(damages, 12, "belt before the start", |sheet, around, rng| add_belt(sheet, around, rng, false));
    add(damages, 12, "no steps", |sheet, around, rng| {
        with_belts(sheet, around, rng, |belts, _| (!belts.is_empty()).then(|| belts.clear()))
    });
}

/// Adds a belt that goes on behind the last one or leads to the first one; without steps, any.
fn add_belt(sheet: &mut Vec<u8>, around: &Around, rng: &mut Rng, behind: bool) -> Option<()> {
    let plan = around.plan;
    with_belts(sheet, around, rng, |belts, rng| {
        let end = if behind { belts.last() } else { belts.first() };
        let end = end.and_then(|name| plan.belt(*name));
        let fits = plan.belts.iter().filter(|belt| match end {
            Some(end) => (behind && belt.from == end.to) || (!behind && belt.to == end.from),
            None => true,
        });
        let name = rng.pick(&fits.map(|belt| belt.name).collect::<Vec<usize>>())?;
        let place = if behind { belts.len() } else { 0 };
        (belts.len() < 255).then(|| belts.insert(place, name))
    })
}

/// Line 13.
fn add_costs(damages: &mut Vec<Damage>) {
    add(damages, 13, "cost one more", |sheet, _, _| add_cost(sheet, 1));
    add(damages, 13, "cost one less", |sheet, _, _| add_cost(sheet, (1 << 48) - 1));
    add(damages, 13, "cost 65536 more", |sheet, _, _| add_cost(sheet, 1 << 16));
    add(damages, 13, "cost 65536 less", |sheet, _, _| add_cost(sheet, (1 << 48) - (1 << 16)));
    add(damages, 13, "cost 2^32 more", |sheet, _, _| add_cost(sheet, 1 << 32));
    add(damages, 13, "cost 2^32 less", |sheet, _, _| add_cost(sheet, (1 << 48) - (1 << 32)));
    add(damages, 13, "cost cut to 32 bits", |sheet, _, rng| set_other(sheet, 0, 2, &[0], rng));
    add(damages, 13, "highest bit of the cost", |sheet, _, _| add_cost(sheet, 1 << 47));
    add(damages, 13, "cost low first", |sheet, _, rng| {
        let (high, low) = (field(sheet, 0, 2), field(sheet, 0, 4));
        set_other(sheet, 0, 2, &[low], rng)?;
        put(sheet, 0, 4, high)
    });
}

/// Adds to the cost, modulo 2^48.
fn add_cost(sheet: &mut [u8], more: u64) -> Option<()> {
    let fields = [2, 3, 4].map(|number| u64::from(field(sheet, 0, number)));
    let cost = (fields[0] << 32) + (fields[1] << 16) + fields[2] + more;
    set_field(sheet, 0, 2, (cost >> 32 & 0xffff) as u16);
    set_field(sheet, 0, 3, (cost >> 16 & 0xffff) as u16);
    put(sheet, 0, 4, (cost & 0xffff) as u16)
}

/// Lines 11 and 14: settings that are none, that work and that don't.
fn add_settings(damages: &mut Vec<Damage>) {
    add(damages, 11, "setting 2^M", |sheet, around, _| put(sheet, 0, 5, 1 << around.plan.modes));
    add(damages, 11, "setting over 2^M", |sheet, around, rng| {
        let over = 1 << around.plan.modes;
        let with_bit = over | field(sheet, 0, 5);
        set_other(sheet, 0, 5, &[over + 1, with_bit, 1024, 2048, 32_768, 65_535], rng)
    });
    add(damages, 14, "setting does not work", |sheet, around, rng| set_setting(sheet, around, rng, true, false));
    add(damages, 14, "setting breaks the lock", |sheet, around, rng| set_setting(sheet, around, rng, false, true));
    add(damages, 14, "setting breaks both", |sheet, around, rng| set_setting(sheet, around, rng, false, false));
    add(damages, 0, "setting works", |sheet, around, rng| set_setting(sheet, around, rng, true, true));
}

/// Sets some setting that agrees with the lock or breaks it, and under which all rules are
/// met or some rule is not.
fn set_setting(sheet: &mut [u8], around: &Around, rng: &mut Rng, agreeing: bool, working: bool) -> Option<()> {
    let Around { plan, lock, .. } = around;
    let belts: Vec<usize> = records_of(sheet)[1..].iter().map(|step| step[2].into()).collect();
    let on_route = |name: usize| belts.contains(&name);
    // A dozen tries find one or leave the sheet alone.
    for _ in 0..12 {
        let any = rng.below(1 << plan.modes) as u64;
        let setting = if agreeing { lock.put_into(plan.modes, any) } else { any };
        if lock.agrees(plan.modes, setting) == agreeing && works(plan, &on_route, setting) == working {
            return put(sheet, 0, 5, setting as u16);
        }
    }
    None
}

/// Changes that aim at nothing.
fn add_blind(damages: &mut Vec<Damage>) {
    add(damages, 0, "any bit", |sheet, _, rng| {
        let at = rng.below(sheet.len());
        sheet[at] ^= 1 << rng.below(8);
        Some(())
    });
    add(damages, 0, "any byte", |sheet, _, rng| {
        let at = rng.below(sheet.len());
        sheet[at] = rng.next() as u8;
        Some(())
    });
    add(damages, 0, "the plan itself", |sheet, around, _| {
        *sheet = around.plan_bytes.to_vec();
        Some(())
    });
}
