//! Lays a draft out as records. Chains are interleaved at random as far as the
//! form allows it: an index is larger than that of the record holding it.

use crate::plan::{About, Belt, Literal, Plan, Record};
use crate::rng::Rng;

#[derive(Clone, Debug, PartialEq)]
pub struct DraftBelt {
    pub from: usize,
    pub to: usize,
    pub cost: u32,
}

/// A plan before its records have indices: a literal's belt is a place in `belts`.
/// Routes between junctions inside `core` are few enough to be listed.
#[derive(Clone, Debug, PartialEq)]
pub struct Draft {
    pub junctions: usize,
    pub modes: usize,
    pub belts: Vec<DraftBelt>,
    pub rules: Vec<Vec<Literal>>,
    pub core: (usize, usize),
}

impl Draft {
    /// How many records the draft takes.
    pub fn records(&self) -> usize {
        let literals: usize = self.rules.iter().map(|rule| rule.len()).sum();
        1 + self.junctions + self.belts.len() + self.rules.len() + literals
    }
}

/// A record above the junctions.
#[derive(Clone, Copy)]
enum Item {
    /// A list of belts that stand in this order, and turn in it.
    Belt(usize, usize),
    Rule(usize),
    /// Rule, and turn in its chain of literals.
    Literal(usize, usize),
}

/// The index of every item.
struct Indices {
    /// By place in the draft.
    belts: Vec<usize>,
    rules: Vec<usize>,
    literals: Vec<Vec<usize>>,
}

/// Records and the plan they stand for. The belts that leave one junction keep their order.
pub fn lay_out(draft: &Draft, rng: &mut Rng) -> (Vec<Record>, Plan) {
    lay_out_by(draft, &leaving(draft), rng)
}

/// The same, and all belts keep the order of the draft: what is drawn is where rules and literals stand.
pub fn lay_out_in_order(draft: &Draft, rng: &mut Rng) -> (Vec<Record>, Plan) {
    lay_out_by(draft, &[(0..draft.belts.len()).collect()], rng)
}

/// Each list has places of belts, whose indices rise along the list.
fn lay_out_by(draft: &Draft, lists: &[Vec<usize>], rng: &mut Rng) -> (Vec<Record>, Plan) {
    let indices = indices(draft, lists, &placed(draft, lists, rng));
    (records(draft, &leaving(draft), &indices), named_plan(draft, &indices))
}

/// The places of the belts that leave each junction, in chain order.
fn leaving(draft: &Draft) -> Vec<Vec<usize>> {
    let mut chains = vec![Vec::new(); draft.junctions + 1];
    for (place, belt) in draft.belts.iter().enumerate() {
        chains[belt.from].push(place);
    }
    chains
}

/// All items in the order of their indices. An item is ready once its holder is placed.
fn placed(draft: &Draft, lists: &[Vec<usize>], rng: &mut Rng) -> Vec<Item> {
    let mut ready: Vec<Item> = Vec::new();
    for (list, belts) in lists.iter().enumerate() {
        if !belts.is_empty() {
            ready.push(Item::Belt(list, 0));
        }
    }
    if !draft.rules.is_empty() {
        ready.push(Item::Rule(0));
    }
    let style = rng.below(5);
    let mut placed = Vec::new();
    while !ready.is_empty() {
        let item = ready.swap_remove(choice(&ready, style, rng));
        placed.push(item);
        match item {
            Item::Belt(list, turn) if turn + 1 < lists[list].len() => {
                ready.push(Item::Belt(list, turn + 1));
            }
            Item::Belt(..) => {}
            Item::Rule(rule) => {
                if rule + 1 < draft.rules.len() {
                    ready.push(Item::Rule(rule + 1));
                }
                if !draft.rules[rule].is_empty() {
                    ready.push(Item::Literal(rule, 0));
                }
            }
            Item::Literal(rule, turn) if turn + 1 < draft.rules[rule].len() => {
                ready.push(Item::Literal(rule, turn + 1));
            }
            Item::Literal(..) => {}
        }
    }
    placed
}

/// Which of the ready items is next: belts first, belts last, or any.
fn choice(ready: &[Item], style: usize, rng: &mut Rng) -> usize {
    let is_belt = |place: &usize| matches!(ready[*place], Item::Belt(..));
    let liked: Vec<usize> = match style {
        0 => (0..ready.len()).filter(is_belt).collect(),
        1 => (0..ready.len()).filter(|place| !is_belt(place)).collect(),
        _ => Vec::new(),
    };
    rng.pick(&liked).unwrap_or_else(|| rng.below(ready.len()))
}

fn indices(draft: &Draft, lists: &[Vec<usize>], placed: &[Item]) -> Indices {
    let mut indices = Indices {
        belts: vec![0; draft.belts.len()],
        rules: vec![0; draft.rules.len()],
        literals: draft.rules.iter().map(|rule| vec![0; rule.len()]).collect(),
    };
    for (place, item) in placed.iter().enumerate() {
        let index = draft.junctions + 1 + place;
        match *item {
            Item::Belt(list, turn) => indices.belts[lists[list][turn]] = index,
            Item::Rule(rule) => indices.rules[rule] = index,
            Item::Literal(rule, turn) => indices.literals[rule][turn] = index,
        }
    }
    indices
}

fn records(draft: &Draft, leaving: &[Vec<usize>], indices: &Indices) -> Vec<Record> {
    let count = draft.records();
    let mut records = vec![[0; 6]; count];
    let head = |chain: &[usize]| chain.first().map_or(0, |index| *index as u16);
    let first_rule = head(&indices.rules);
    records[0] = [7, draft.junctions as u16, draft.modes as u16, first_rule, count as u16, 0];
    for junction in 1..=draft.junctions {
        let chain: Vec<usize> = leaving[junction].iter().map(|place| indices.belts[*place]).collect();
        records[junction] = [1, head(&chain), 0, 0, 0, 0];
        for (turn, place) in leaving[junction].iter().enumerate() {
            let DraftBelt { to, cost, .. } = draft.belts[*place];
            let (low, high) = ((cost % 65_536) as u16, (cost / 65_536) as u16);
            records[chain[turn]] = [2, head(&chain[turn + 1..]), to as u16, low, high, 0];
        }
    }
    for (rule, index) in indices.rules.iter().enumerate() {
        let chain = &indices.literals[rule];
        records[*index] = [3, head(&indices.rules[rule + 1..]), head(chain), 0, 0, 0];
        for (turn, literal) in draft.rules[rule].iter().enumerate() {
            let next = head(&chain[turn + 1..]);
            records[chain[turn]] = match literal.about {
                About::Belt(place) => [4, next, literal.wanted as u16, 0, indices.belts[place] as u16, 0],
                About::Mode(mode) => [4, next, literal.wanted as u16, 1, mode as u16, 0],
            };
        }
    }
    records
}

/// The draft with belts called by their names.
fn named_plan(draft: &Draft, indices: &Indices) -> Plan {
    let mut belts: Vec<Belt> = Vec::new();
    for (place, belt) in draft.belts.iter().enumerate() {
        let name = indices.belts[place];
        belts.push(Belt { name, from: belt.from, to: belt.to, cost: u64::from(belt.cost) });
    }
    belts.sort_by_key(|belt| belt.name);
    let rename = |literal: &Literal| match literal.about {
        About::Belt(place) => Literal { wanted: literal.wanted, about: About::Belt(indices.belts[place]) },
        About::Mode(_) => *literal,
    };
    let rules = draft.rules.iter().map(|rule| rule.iter().map(rename).collect()).collect();
    Plan { junctions: draft.junctions, modes: draft.modes, belts, rules }
}
