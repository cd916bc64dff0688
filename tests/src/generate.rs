//! Seeded drafts of valid plans. Most are small; some have 256 junctions, 2,048
//! records, ten modes or 48 named belts. Between two junctions of a draft's core
//! there are few routes, whatever stands around it.

use crate::layout::{Draft, DraftBelt};
use crate::plan::{About, Literal, MAX_JUNCTIONS, MAX_MODES, MAX_NAMED, MAX_RECORDS};
use crate::rng::Rng;

pub fn draft(rng: &mut Rng) -> Draft {
    match rng.below(1000) {
        0..=59 => small(tiny(rng), rng),
        60..=459 => small(tangle(rng), rng),
        460..=679 => small(ladder(rng), rng),
        680..=929 => small(thin(rng), rng),
        930..=974 => small(sparse(rng), rng),
        _ => large(rng),
    }
}

/// Costs and rules for a graph.
fn small(mut draft: Draft, rng: &mut Rng) -> Draft {
    draft.modes = rng.range(0, MAX_MODES);
    set_costs(&mut draft, rng);
    rng.shuffle(&mut draft.belts);
    let most_named = pool_size(rng);
    add_rules(&mut draft, most_named, rng);
    // At and around 256 records, where the planner takes larger arrays.
    if rng.chance(1, 60) {
        let records = rng.range(255, 258);
        fill(&mut draft, records, rng);
    }
    draft
}

/// Many junctions and mostly 2,048 records; now and then every bound at once.
fn large(rng: &mut Rng) -> Draft {
    let all_bounds = rng.chance(1, 8);
    let mut draft = if rng.chance(1, 3) { long(rng) } else { shifted(rng) };
    if all_bounds && draft.junctions < MAX_JUNCTIONS {
        draft.junctions = MAX_JUNCTIONS;
    }
    draft.modes = if all_bounds { MAX_MODES } else { rng.range(0, MAX_MODES) };
    set_costs(&mut draft, rng);
    // Belts outside of the core come before the rules, so that rules name some of them.
    let outside = if all_bounds { 60 } else { rng.range(0, 1200) };
    while draft.belts.len() < outside && add_outside_belt(&mut draft, rng) {}
    rng.shuffle(&mut draft.belts);
    let most_named = if all_bounds { MAX_NAMED } else { pool_size(rng) };
    add_rules(&mut draft, most_named, rng);
    if all_bounds || rng.chance(3, 4) {
        fill(&mut draft, MAX_RECORDS, rng);
    }
    draft
}

fn belt(from: usize, to: usize) -> DraftBelt {
    DraftBelt { from, to, cost: 0 }
}

fn with_belts(junctions: usize, belts: Vec<DraftBelt>) -> Draft {
    Draft { junctions, modes: 0, belts, rules: Vec::new(), core: (1, junctions) }
}

/// One or two junctions, and twins between two.
fn tiny(rng: &mut Rng) -> Draft {
    let junctions = rng.range(1, 2);
    let twins = if junctions == 2 { rng.range(0, 5) } else { 0 };
    with_belts(junctions, (0..twins).map(|_| belt(1, 2)).collect())
}

/// Belts anywhere between a few junctions.
fn tangle(rng: &mut Rng) -> Draft {
    let junctions = rng.range(2, 7);
    let count = rng.range(0, 14);
    let mut belts: Vec<DraftBelt> = (0..count).map(|_| random_belt(1, junctions, rng)).collect();
    if rng.chance(1, 3) && !belts.is_empty() {
        let twin = belts[rng.below(belts.len())].clone();
        belts.push(twin);
    }
    with_belts(junctions, belts)
}

/// Layers of one to three junctions, with belts from layer to layer.
fn ladder(rng: &mut Rng) -> Draft {
    let mut belts = Vec::new();
    let mut layer = vec![1];
    for _ in 0..rng.range(1, 4) {
        let first = layer[layer.len() - 1] + 1;
        let next: Vec<usize> = (first..first + rng.range(1, 3)).collect();
        for from in &layer {
            for to in &next {
                if rng.chance(3, 4) {
                    belts.push(belt(*from, *to));
                }
            }
        }
        layer = next;
    }
    let end = layer[layer.len() - 1] + 1;
    for from in &layer {
        belts.push(belt(*from, end));
    }
    with_belts(end, belts)
}

/// A chain with a few twins and shortcuts.
fn thin(rng: &mut Rng) -> Draft {
    let junctions = if rng.chance(1, 3) { rng.range(48, 60) } else { rng.range(3, 40) };
    let extras = rng.range(0, 6);
    chain(junctions, extras, rng)
}

/// A chain through as many junctions as a plan can have.
fn long(rng: &mut Rng) -> Draft {
    let extras = rng.range(0, 3);
    chain(MAX_JUNCTIONS, extras, rng)
}

fn chain(junctions: usize, extras: usize, rng: &mut Rng) -> Draft {
    let mut belts: Vec<DraftBelt> = (1..junctions).map(|from| belt(from, from + 1)).collect();
    for _ in 0..extras {
        let from = rng.range(1, junctions - 1);
        let to = if rng.chance(1, 2) { from + 1 } else { rng.range(from + 1, junctions.min(from + 6)) };
        belts.push(belt(from, to));
    }
    with_belts(junctions, belts)
}

/// Many junctions, and so few belts that routes are short and few.
fn sparse(rng: &mut Rng) -> Draft {
    let junctions = rng.range(10, MAX_JUNCTIONS);
    let count = rng.range(0, junctions + junctions / 2);
    let mut belts = Vec::new();
    for _ in 0..count {
        let from = rng.range(1, junctions - 1);
        let to = if rng.chance(1, 2) {
            rng.range(from + 1, junctions.min(from + 4))
        } else {
            rng.range(from + 1, junctions)
        };
        belts.push(belt(from, to));
    }
    with_belts(junctions, belts)
}

/// A small graph somewhere among many junctions.
fn shifted(rng: &mut Rng) -> Draft {
    let mut draft = match rng.below(3) {
        0 => tangle(rng),
        1 => ladder(rng),
        _ => chain(60, 3, rng),
    };
    let size = draft.junctions;
    let junctions = if rng.chance(1, 2) { MAX_JUNCTIONS } else { rng.range(size + 2, MAX_JUNCTIONS) };
    let shift = rng.range(0, junctions - size);
    for belt in &mut draft.belts {
        belt.from += shift;
        belt.to += shift;
    }
    draft.junctions = junctions;
    draft.core = (shift + 1, shift + size);
    draft
}

fn random_belt(low: usize, high: usize, rng: &mut Rng) -> DraftBelt {
    let from = rng.range(low, high - 1);
    let to = rng.range(from + 1, high);
    belt(from, to)
}

/// A belt that lies on no route inside the core. False if there is no room for one.
fn add_outside_belt(draft: &mut Draft, rng: &mut Rng) -> bool {
    let (low, high) = draft.core;
    let above = high < draft.junctions;
    let below = low > 1;
    if !above && !below {
        return false;
    }
    let (from, to) = if above && (!below || rng.chance(1, 2)) {
        let to = rng.range(high + 1, draft.junctions);
        (rng.range(1, to - 1), to)
    } else {
        let from = rng.range(1, low - 1);
        (from, rng.range(from + 1, draft.junctions))
    };
    let cost = rng.next() as u32;
    draft.belts.push(DraftBelt { from, to, cost });
    true
}

/// Mostly each belt takes one of a few costs, so that routes often cost the same.
fn set_costs(draft: &mut Draft, rng: &mut Rng) {
    let count = draft.belts.len().max(1);
    let costs = match rng.below(16) {
        0..=7 => low_costs(count, rng),
        8..=14 => high_costs(count, rng),
        _ => return set_climbs(draft, rng),
    };
    for belt in &mut draft.belts {
        belt.cost = costs[rng.below(costs.len())];
    }
}

/// Each belt costs what it climbs, so that all routes between two junctions cost the
/// same, in whatever parts; some belts cost 1 more.
fn set_climbs(draft: &mut Draft, rng: &mut Rng) {
    let step = if rng.chance(1, 2) { 131_072 } else { u32::MAX as usize / draft.junctions };
    let mut heights = vec![0; draft.junctions + 1];
    for junction in 1..=draft.junctions {
        heights[junction] = heights[junction - 1] + rng.below(step) as u32;
    }
    for belt in &mut draft.belts {
        let more = u32::from(rng.chance(1, 16));
        belt.cost = heights[belt.to] - heights[belt.from] + more;
    }
}

/// A half of a cost.
fn half(rng: &mut Rng) -> u32 {
    rng.below(65_536) as u32
}

fn cost(high: u32, low: u32) -> u32 {
    high * 65_536 + low
}

/// Costs without a high half: all zero, all equal, small, the extremes, or any.
fn low_costs(count: usize, rng: &mut Rng) -> Vec<u32> {
    match rng.below(8) {
        0 => vec![0],
        1 => vec![half(rng)],
        2 | 3 => (0..4).collect(),
        4 => vec![0, 1, 255, 256, 65_535],
        5 => (65_533..=65_535).collect(),
        6 => (0..40).collect(),
        _ => (0..count).map(|_| half(rng)).collect(),
    }
}

/// Costs with a high half: around 65,536, up to the most that a belt can cost, or any.
fn high_costs(count: usize, rng: &mut Rng) -> Vec<u32> {
    let (one, other) = (half(rng), half(rng));
    match rng.below(10) {
        0 => (65_534..=65_537).collect(),
        // 65,535 and 1 cost as much as 65,536 and 0.
        1 => vec![0, 1, 65_535, 65_536],
        // The low half is zero, or the same for all.
        2 => (0..4).map(|high| cost(high, 0)).collect(),
        3 => (0..4).map(|high| cost(high, one)).collect(),
        // The same two halves, exchanged.
        4 => vec![cost(one, other), cost(other, one)],
        5 => (0..9).map(|number| cost(number / 3, number % 3)).collect(),
        // Two such belts cost more than 32 bits can hold.
        6 => vec![u32::MAX],
        7 => (u32::MAX - 2..=u32::MAX).collect(),
        // Twice 2^31 costs as much as 2^32 - 1 and 1.
        8 => vec![0, 1, 1 << 31, u32::MAX],
        _ => (0..count).map(|_| rng.next() as u32).collect(),
    }
}

/// Rules over some of the belts and the modes.
fn add_rules(draft: &mut Draft, most_named: usize, rng: &mut Rng) {
    let mut pool: Vec<usize> = (0..draft.belts.len()).collect();
    rng.shuffle(&mut pool);
    pool.truncate(most_named);
    let size = pool.len();
    let count = if size > 12 { rng.range(3, 12) } else { rng.range(0, 6) };
    let about_modes = [0, 1, 2, 5][rng.below(4)];
    for _ in 0..count {
        let rule = random_rule(&pool, draft.modes, about_modes, rng);
        draft.rules.push(rule);
    }
    if size > 12 {
        // So many belts are not hit by chance: each goes into some rule.
        for place in pool {
            let rule = rng.below(draft.rules.len());
            let literal = Literal { wanted: rng.chance(1, 3), about: About::Belt(place) };
            draft.rules[rule].push(literal);
        }
    }
    if rng.chance(1, 40) {
        let at = rng.range(0, draft.rules.len());
        draft.rules.insert(at, Vec::new());
    }
    for rule in &mut draft.rules {
        rng.shuffle(rule);
    }
    if rng.chance(2, 3) {
        permit_some_route(draft, rng);
    }
}

/// Turns literals round so that some route through the core and some setting meet every
/// rule. Left to chance, rules mostly permit the cheapest route or none at all.
fn permit_some_route(draft: &mut Draft, rng: &mut Rng) {
    let on_route = walk(draft, rng);
    let setting = rng.next();
    let holds = |literal: &Literal| match literal.about {
        About::Belt(place) => on_route[place] == literal.wanted,
        About::Mode(mode) => (setting >> mode & 1 == 1) == literal.wanted,
    };
    for rule in &mut draft.rules {
        if !rule.is_empty() && !rule.iter().any(holds) {
            let turned = rng.below(rule.len());
            rule[turned].wanted = !rule[turned].wanted;
        }
    }
    if named(draft).len() <= 12 {
        forbid_others(draft, &on_route, rng);
    }
}

/// Adds a few rules against belts that other routes have and this one has not. Some of
/// these rules a mode meets too, so that a lock on it says whether the belt may be used.
fn forbid_others(draft: &mut Draft, on_route: &[bool], rng: &mut Rng) {
    for _ in 0..rng.range(0, 4) {
        let other = walk(draft, rng);
        let apart: Vec<usize> = (0..other.len()).filter(|place| other[*place] && !on_route[*place]).collect();
        if let Some(place) = rng.pick(&apart) {
            let mut rule = vec![Literal { wanted: false, about: About::Belt(place) }];
            if draft.modes > 0 && rng.chance(1, 2) {
                rule.push(Literal { wanted: rng.chance(1, 2), about: About::Mode(rng.range(1, draft.modes)) });
            }
            draft.rules.push(rule);
        }
    }
}

/// The belts of a random route that starts where the core does, as far as it gets.
fn walk(draft: &Draft, rng: &mut Rng) -> Vec<bool> {
    let (mut at, end) = draft.core;
    let mut on_route = vec![false; draft.belts.len()];
    while at < end {
        let goes_on = |place: &usize| draft.belts[*place].from == at && draft.belts[*place].to <= end;
        let onward: Vec<usize> = (0..draft.belts.len()).filter(goes_on).collect();
        let Some(place) = rng.pick(&onward) else { break };
        on_route[place] = true;
        at = draft.belts[place].to;
    }
    on_route
}

/// The places of the belts that the rules name, each once.
fn named(draft: &Draft) -> Vec<usize> {
    let names = draft.rules.iter().flatten().filter_map(|literal| match literal.about {
        About::Belt(place) => Some(place),
        About::Mode(_) => None,
    });
    let mut names: Vec<usize> = names.collect();
    names.sort();
    names.dedup();
    names
}

/// How many belts the rules may name.
fn pool_size(rng: &mut Rng) -> usize {
    match rng.below(20) {
        0 => 0,
        1..=10 => rng.range(1, 4),
        11..=15 => rng.range(5, 12),
        16 | 17 => rng.range(13, MAX_NAMED),
        _ => MAX_NAMED,
    }
}

/// One to four literals, some of eight about modes, now and then one again or turned round.
fn random_rule(pool: &[usize], modes: usize, about_modes: usize, rng: &mut Rng) -> Vec<Literal> {
    let mut rule = Vec::new();
    for _ in 0..[1, 1, 1, 2, 2, 2, 3, 4][rng.below(8)] {
        let about_mode = modes > 0 && (pool.is_empty() || rng.chance(about_modes, 8));
        let literal = match rng.pick(pool) {
            _ if about_mode => Literal { wanted: rng.chance(1, 2), about: About::Mode(rng.range(1, modes)) },
            Some(place) => Literal { wanted: rng.chance(1, 3), about: About::Belt(place) },
            None => continue,
        };
        rule.push(literal);
        if rng.chance(1, 8) {
            rule.push(literal);
        }
        if rng.chance(1, 16) {
            rule.push(Literal { wanted: !literal.wanted, ..literal });
        }
    }
    rule
}

/// Adds records that change no route of the core and no rule, up to a count.
pub fn fill(draft: &mut Draft, records: usize, rng: &mut Rng) {
    while draft.records() < records {
        let room = records - draft.records();
        let filled: Vec<usize> = (0..draft.rules.len()).filter(|rule| !draft.rules[*rule].is_empty()).collect();
        match (rng.below(3), rng.pick(&filled)) {
            (0, Some(rule)) if draft.rules[rule].len() < room => {
                let copy = draft.rules[rule].clone();
                draft.rules.push(copy);
            }
            (1, Some(rule)) => {
                let again = draft.rules[rule][rng.below(draft.rules[rule].len())];
                let at = rng.range(0, draft.rules[rule].len());
                draft.rules[rule].insert(at, again);
            }
            _ if add_outside_belt(draft, rng) => {}
            // Where nothing else can be had, an empty rule, which changes what is permitted.
            (_, None) => draft.rules.push(Vec::new()),
            _ => {}
        }
    }
}

/// Adds twins and literals until `count` belts are named. Takes two junctions or more.
pub fn name_belts(draft: &mut Draft, count: usize, rng: &mut Rng) {
    while draft.belts.len() < count {
        let twin = random_belt(1, draft.junctions, rng);
        draft.belts.push(twin);
    }
    let named = named(draft);
    let mut others: Vec<usize> = (0..draft.belts.len()).filter(|place| !named.contains(place)).collect();
    rng.shuffle(&mut others);
    others.truncate(count.saturating_sub(named.len()));
    for place in others {
        if draft.rules.is_empty() || rng.chance(1, 4) {
            draft.rules.push(Vec::new());
        }
        let rule = rng.below(draft.rules.len());
        draft.rules[rule].push(Literal { wanted: rng.chance(1, 2), about: About::Belt(place) });
    }
}
