//! Generated plans: a draft of belts and rules, and its bytes.

mod graphs;
mod rules;
pub mod spec;

use crate::records::{encode, BELT, JUNCTION, LITERAL, PLAN, RULE, SIZE};
use crate::rng::Rng;
use spec::Size;

#[derive(Clone, Copy)]
pub struct Belt {
    pub from: usize,
    pub to: usize,
    pub cost: u32,
}

#[derive(Clone, Copy)]
pub enum Literal {
    /// A belt by its place in the draft.
    Belt(usize, bool),
    /// A mode by its number, from 1.
    Mode(usize, bool),
}

pub struct Draft {
    pub junctions: usize,
    pub modes: usize,
    pub belts: Vec<Belt>,
    pub rules: Vec<Vec<Literal>>,
}

/// One record above the junctions, by its place in the draft.
#[derive(Clone, Copy)]
enum Item {
    Belt(usize),
    Rule(usize),
    Literal(usize, usize),
}

impl Draft {
    /// How many records the plan has.
    fn records(&self) -> usize {
        let literals: usize = self.rules.iter().map(Vec::len).sum();
        1 + self.junctions + self.belts.len() + self.rules.len() + literals
    }

    pub fn size(&self) -> Size {
        Size {
            junctions: self.junctions,
            belts: self.belts.len(),
            rules: self.rules.len(),
            named: self.named(),
            modes: self.modes,
        }
    }

    fn named(&self) -> usize {
        let mut named = vec![false; self.belts.len()];
        for literal in self.rules.iter().flatten() {
            if let Literal::Belt(belt, _) = *literal {
                named[belt] = true;
            }
        }
        named.iter().filter(|&&named| named).count()
    }

    /// The plan with the belts in the draft's order, then the rules.
    pub fn bytes(&self) -> Vec<u8> {
        self.encode(&[self.belt_items(), self.rule_items()].concat())
    }

    /// The same plan with its belts in random order, and the rules strewn
    /// among them.
    pub fn scattered_bytes(&self, rng: &mut Rng) -> Vec<u8> {
        let mut belts = self.belt_items();
        rng.shuffle(&mut belts);
        let (mut belts, mut rules) = (belts.as_slice(), &self.rule_items()[..]);
        let mut items = Vec::new();
        while !belts.is_empty() || !rules.is_empty() {
            let from = if rng.below(belts.len() + rules.len()) < belts.len() {
                &mut belts
            } else {
                &mut rules
            };
            items.push(from[0]);
            *from = &from[1..];
        }
        self.encode(&items)
    }

    fn belt_items(&self) -> Vec<Item> {
        (0..self.belts.len()).map(Item::Belt).collect()
    }

    fn rule_items(&self) -> Vec<Item> {
        let mut items = Vec::new();
        for (rule, literals) in self.rules.iter().enumerate() {
            items.push(Item::Rule(rule));
            items.extend((0..literals.len()).map(|place| Item::Literal(rule, place)));
        }
        items
    }

    /// Writes the records from the last to the first, so that every chain's next
    /// index is known when its holder is written.
    fn encode(&self, items: &[Item]) -> Vec<u8> {
        let index = |place: usize| (1 + self.junctions + place) as u16;
        let belt_index = self.belt_indices(items);
        let mut bytes = vec![0; SIZE * self.records()];
        let mut put = |at: u16, record| encode(record, &mut bytes[SIZE * at as usize..][..SIZE]);
        let mut leaving = vec![0; self.junctions + 1];
        let mut literals = vec![0; self.rules.len()];
        let mut first_rule = 0;
        for (place, &item) in items.iter().enumerate().rev() {
            let at = index(place);
            match item {
                Item::Belt(belt) => {
                    let Belt { from, to, cost } = self.belts[belt];
                    let (low, high) = (cost as u16, (cost >> 16) as u16);
                    put(at, [BELT, leaving[from], to as u16, low, high, 0]);
                    leaving[from] = at;
                }
                Item::Rule(rule) => {
                    put(at, [RULE, first_rule, literals[rule], 0, 0, 0]);
                    first_rule = at;
                }
                Item::Literal(rule, which) => {
                    put(at, literal_record(self.rules[rule][which], literals[rule], &belt_index));
                    literals[rule] = at;
                }
            }
        }
        for (junction, &first) in leaving.iter().enumerate().skip(1) {
            put(junction as u16, [JUNCTION, first, 0, 0, 0, 0]);
        }
        put(
            0,
            [PLAN, self.junctions as u16, self.modes as u16, first_rule, self.records() as u16, 0],
        );
        bytes
    }

    fn belt_indices(&self, items: &[Item]) -> Vec<u16> {
        let mut indices = vec![0; self.belts.len()];
        for (place, item) in items.iter().enumerate() {
            if let Item::Belt(belt) = *item {
                indices[belt] = (1 + self.junctions + place) as u16;
            }
        }
        indices
    }
}

fn literal_record(literal: Literal, next: u16, belt_index: &[u16]) -> [u16; 6] {
    match literal {
        Literal::Belt(belt, wanted) => [LITERAL, next, wanted.into(), 0, belt_index[belt], 0],
        Literal::Mode(mode, wanted) => [LITERAL, next, wanted.into(), 1, mode as u16, 0],
    }
}
