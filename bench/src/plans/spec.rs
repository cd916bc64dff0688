//! A plan by a few numbers and a seed.

use super::rules::{bans, cheap_belts, covers, mixed, mode_conflict, mode_ties};
use super::{graphs, Belt, Draft, Literal};
use crate::check::named_belts;
use crate::records::{Record, BELT, PLAN_MAX, RULE, SIZE};
use crate::rng::Rng;
use std::ops::Range;

/// Where belts lead.
#[derive(Clone, Copy)]
pub enum Graph {
    /// To the next junction and to others within this reach.
    Local(usize),
    /// As Local; the records above the junctions stand in random order.
    Scattered(usize),
    /// As Local, with dear belts.
    Dear(usize),
    /// Every so many junctions stand on a side line.
    SideLine(usize),
}

/// What the rules say of the named belts.
#[derive(Clone, Copy)]
pub enum Rules {
    /// So many bans of two belts.
    Bans(usize),
    /// One of so many neighbours.
    Covers(usize),
    /// So many rules of three belts at random.
    Mixed(usize),
    /// So many rules over ten modes and the belts, and two conflicts.
    Modes(usize),
}

const MODES: usize = 10;

#[derive(Clone, Copy)]
pub struct Network {
    pub junctions: usize,
    pub belts: usize,
    pub graph: Graph,
}

/// As many belts as a plan of the largest size has room for.
pub const LARGEST: usize = usize::MAX;

impl Network {
    /// Rules over `named` belts anywhere in the network.
    pub fn rules(self, seed: u64, named: usize, rules: Rules) -> Spec {
        Spec { network: self, seed, named, span: 1..self.junctions, rules }
    }

    fn make(&self, rng: &mut Rng, rule_records: usize) -> Vec<Belt> {
        let belts = match self.belts {
            LARGEST => PLAN_MAX / SIZE - 1 - self.junctions - rule_records,
            belts => belts,
        };
        match self.graph {
            Graph::Local(reach) | Graph::Scattered(reach) => {
                graphs::local(rng, self.junctions, belts, reach)
            }
            Graph::Dear(reach) => graphs::dear(graphs::local(rng, self.junctions, belts, reach)),
            Graph::SideLine(step) => graphs::side_line(rng, self.junctions, belts, step),
        }
    }
}

pub struct Spec {
    network: Network,
    seed: u64,
    /// How many belts the rules name, and the junctions these leave.
    named: usize,
    span: Range<usize>,
    rules: Rules,
}

#[derive(Debug, PartialEq)]
pub struct Size {
    pub junctions: usize,
    pub belts: usize,
    pub rules: usize,
    pub named: usize,
    pub modes: usize,
}

impl Size {
    /// The size of a plan that is not refused.
    pub fn of(records: &[Record]) -> Size {
        let [_, junctions, modes, ..] = records[0];
        let count = |kind: u16| records.iter().filter(|record| record[0] == kind).count();
        Size {
            junctions: junctions.into(),
            belts: count(BELT),
            rules: count(RULE),
            named: named_belts(records),
            modes: modes.into(),
        }
    }
}

impl Spec {
    /// The named belts leave these junctions only.
    pub fn leaving(self, span: Range<usize>) -> Spec {
        Spec { span, ..self }
    }

    pub fn plan(&self) -> (Size, Vec<u8>) {
        let mut rng = Rng::new(self.seed);
        let belts = self.network.make(&mut rng, self.rule_records());
        let named = cheap_belts(&mut rng, &belts, self.span.clone(), self.named);
        let rules = self.make_rules(&mut rng, &named);
        let modes = if let Rules::Modes(_) = self.rules { MODES } else { 0 };
        let draft = Draft { junctions: self.network.junctions, modes, belts, rules };
        let bytes = match self.network.graph {
            Graph::Scattered(_) => draft.scattered_bytes(&mut rng),
            _ => draft.bytes(),
        };
        (draft.size(), bytes)
    }

    fn make_rules(&self, rng: &mut Rng, named: &[usize]) -> Vec<Vec<Literal>> {
        match self.rules {
            Rules::Bans(count) => bans(rng, named, count),
            Rules::Covers(size) => covers(named, size),
            Rules::Mixed(count) => mixed(rng, named, count, 3),
            Rules::Modes(count) => {
                let mut rules = mode_ties(rng, named, MODES, count);
                rules.extend(mode_conflict(named[0], 1));
                rules.extend(mode_conflict(named[named.len() / 2], MODES));
                rules
            }
        }
    }

    /// How many records the rules and their literals take.
    fn rule_records(&self) -> usize {
        match self.rules {
            Rules::Bans(count) => 3 * count,
            Rules::Covers(size) => self.named.div_ceil(size) + self.named,
            Rules::Mixed(count) => 4 * count,
            Rules::Modes(count) => 5 * count + 12,
        }
    }
}
