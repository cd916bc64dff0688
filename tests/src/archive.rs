//! The archive form of a plan, written from lists. What stands above the junctions is listed first:
//! the belts in rising index, then each rule and its literals. Every chain index is then looked up
//! in that list.

use crate::compare::Answer;
use crate::layout::{Draft, DraftBelt};
use crate::plan::{bytes_of, records_of, About, Literal, Plan, Record};

/// What a plan agrees in with every plan that has the same archive form: J, M, the belts in rising
/// index, and the rules, in which a belt is called by its place in that list.
pub fn content(plan: &Plan) -> Draft {
    let place = |name: usize| plan.belts.iter().position(|belt| belt.name == name).expect("a belt of the plan");
    let called = |literal: &Literal| match literal.about {
        About::Belt(name) => Literal { about: About::Belt(place(name)), ..*literal },
        About::Mode(_) => *literal,
    };
    let cost = |cost: u64| u32::try_from(cost).expect("a cost of 32 bits");
    Draft {
        junctions: plan.junctions,
        modes: plan.modes,
        belts: plan
            .belts
            .iter()
            .map(|belt| DraftBelt { from: belt.from, to: belt.to, cost: cost(belt.cost) })
            .collect(),
        rules: plan.rules.iter().map(|rule| rule.iter().map(called).collect()).collect(),
        core: (1, plan.junctions),
    }
}

/// A record above the junctions.
enum Item<'a> {
    Belt(&'a DraftBelt),
    Rule,
    Literal(&'a Literal),
}

impl Item<'_> {
    fn leaves(&self, junction: usize) -> bool {
        matches!(self, Item::Belt(belt) if belt.from == junction)
    }

    fn is_rule(&self) -> bool {
        matches!(self, Item::Rule)
    }

    fn is_literal(&self) -> bool {
        matches!(self, Item::Literal(_))
    }
}

/// All records above the junctions, in the order of the archive form.
struct Listed<'a> {
    junctions: usize,
    items: Vec<Item<'a>>,
}

impl<'a> Listed<'a> {
    fn of(content: &'a Draft) -> Listed<'a> {
        let mut items: Vec<Item> = content.belts.iter().map(Item::Belt).collect();
        for rule in &content.rules {
            items.push(Item::Rule);
            items.extend(rule.iter().map(Item::Literal));
        }
        Listed { junctions: content.junctions, items }
    }

    /// The index of the record at a place of the list.
    fn index(&self, place: usize) -> u16 {
        (self.junctions + 1 + place) as u16
    }

    /// The index of the first fitting record at this place or behind it; 0 if there is none.
    fn first(&self, place: usize, fits: impl Fn(&Item<'a>) -> bool) -> u16 {
        let behind = self.items[place..].iter().position(fits);
        behind.map_or(0, |further| self.index(place + further))
    }

    /// The index of the literal at just this place; 0 if there stands none.
    fn literal_at(&self, place: usize) -> u16 {
        let literal = self.items.get(place).filter(|item| item.is_literal());
        literal.map_or(0, |_| self.index(place))
    }

    fn record(&self, place: usize) -> Record {
        let behind = place + 1;
        match self.items[place] {
            Item::Belt(&DraftBelt { from, to, cost }) => {
                let next = self.first(behind, |item| item.leaves(from));
                [2, next, to as u16, (cost % 65_536) as u16, (cost / 65_536) as u16, 0]
            }
            Item::Rule => [3, self.first(behind, Item::is_rule), self.literal_at(behind), 0, 0, 0],
            Item::Literal(literal) => {
                let (sort, number) = match literal.about {
                    About::Belt(place) => (0, self.index(place)),
                    About::Mode(mode) => (1, mode as u16),
                };
                [4, self.literal_at(behind), literal.wanted as u16, sort, number, 0]
            }
        }
    }
}

/// The records of the archive form.
pub fn records(content: &Draft) -> Vec<Record> {
    let listed = Listed::of(content);
    let first_rule = listed.first(0, Item::is_rule);
    let count = content.records() as u16;
    let mut records = vec![[7, content.junctions as u16, content.modes as u16, first_rule, count, 0]];
    for junction in 1..=content.junctions {
        records.push([1, listed.first(0, |item| item.leaves(junction)), 0, 0, 0, 0]);
    }
    records.extend((0..listed.items.len()).map(|place| listed.record(place)));
    records
}

/// The archive form of a plan, and what its belts are called there.
pub struct Form {
    pub content: Draft,
    pub bytes: Vec<u8>,
    /// The belts of the plan, in rising index.
    names: Vec<usize>,
}

impl Form {
    pub fn of(plan: &Plan) -> Form {
        let content = content(plan);
        let bytes = bytes_of(&records(&content));
        Form { content, bytes, names: plan.belts.iter().map(|belt| belt.name).collect() }
    }

    /// Whether the contents of two plans are the same: just then their forms are.
    pub fn agrees(&self, other: &Form) -> Result<bool, String> {
        let same = self.content == other.content;
        if (self.bytes == other.bytes) != same {
            return Err("the tests' own archive forms do not tell whether two plans have the same content".to_string());
        }
        Ok(same)
    }

    /// The plan has a belt with this index.
    pub fn names(&self, index: usize) -> bool {
        self.names.binary_search(&index).is_ok()
    }

    /// The index that a belt of the plan has in the form.
    pub fn renumbered(&self, name: usize) -> usize {
        let place = self.names.binary_search(&name).expect("a belt of the plan");
        self.content.junctions + 1 + place
    }

    /// A sheet of the plan, with its belts renumbered.
    pub fn sheet(&self, sheet: &[u8]) -> Vec<u8> {
        let mut records = records_of(sheet);
        for step in &mut records[1..] {
            step[2] = self.renumbered(step[2].into()) as u16;
        }
        bytes_of(&records)
    }

    /// What the form answers where the plan answers this.
    pub fn answer(&self, answer: &Answer) -> Answer {
        match answer {
            Answer::Route { opened, sheet } => Answer::Route { opened: *opened, sheet: self.sheet(sheet) },
            other => other.clone(),
        }
    }
}
