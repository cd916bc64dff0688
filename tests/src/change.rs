//! Changes to a draft that make another plan of it: one number, or one place in an order. The archive
//! forms of the two are told apart.

use crate::layout::{Draft, DraftBelt};
use crate::plan::{About, Literal, MAX_JUNCTIONS, MAX_MODES};
use crate::rng::Rng;

/// Changes the draft, or leaves it if it has no place for that.
type Apply = fn(&mut Draft, &mut Rng) -> Option<()>;

pub const CHANGES: [(&str, Apply); 21] = [
    ("junctions", |draft, _| (draft.junctions < MAX_JUNCTIONS).then(|| draft.junctions += 1)),
    ("modes", modes),
    ("low half of a cost", |draft, rng| cost(draft, 1, rng)),
    ("high half of a cost", |draft, rng| cost(draft, 65_536, rng)),
    ("where a belt leads", leads),
    ("where a belt leaves", leaves),
    ("order of twins", |draft, rng| {
        order_of_belts(draft, |a, b| a.from == b.from && a.to == b.to && a.cost != b.cost, rng)
    }),
    ("order of belts of one junction", |draft, rng| {
        order_of_belts(draft, |a, b| a.from == b.from && a.to != b.to, rng)
    }),
    ("order of belts of different junctions", |draft, rng| order_of_belts(draft, |a, b| a.from != b.from, rng)),
    ("belt more", belt_more),
    ("wanted or unwanted", wanted),
    ("belt of a literal", belt_named),
    ("mode of a literal", mode_named),
    ("literal of a belt or of a mode", belt_or_mode),
    ("order of literals", order_of_literals),
    ("literal said twice", literal_twice),
    ("literal left out", literal_out),
    ("literal in the next rule", literal_moved),
    ("order of rules", order_of_rules),
    ("empty rule more", empty_rule),
    ("rule left out", rule_out),
];

/// The draft changed in this way, if it can be.
pub fn changed(draft: &Draft, apply: Apply, rng: &mut Rng) -> Option<Draft> {
    let mut other = draft.clone();
    apply(&mut other, rng)?;
    Some(other)
}

/// A place of a list.
fn place<T>(things: &[T], rng: &mut Rng) -> Option<usize> {
    (!things.is_empty()).then(|| rng.below(things.len()))
}

fn some_belt<'a>(draft: &'a mut Draft, rng: &mut Rng) -> Option<&'a mut DraftBelt> {
    let place = place(&draft.belts, rng)?;
    Some(&mut draft.belts[place])
}

/// A number from `low` to `high` other than this one.
fn other(low: usize, high: usize, number: usize, rng: &mut Rng) -> Option<usize> {
    let numbers: Vec<usize> = (low..=high).filter(|other| *other != number).collect();
    rng.pick(&numbers)
}

/// One mode more, or one less if no rule names the last one.
fn modes(draft: &mut Draft, rng: &mut Rng) -> Option<()> {
    let modes = draft.modes;
    let named = draft.rules.iter().flatten().any(|literal| literal.about == About::Mode(modes));
    let (less, more) = (modes > 0 && !named, modes < MAX_MODES);
    draft.modes = match (less, more) {
        (false, false) => return None,
        (true, true) if rng.chance(1, 2) => modes + 1,
        (true, _) => modes - 1,
        (false, true) => modes + 1,
    };
    Some(())
}

/// Another half of a cost: the half that counts so much.
fn cost(draft: &mut Draft, counts: u32, rng: &mut Rng) -> Option<()> {
    let belt = some_belt(draft, rng)?;
    let half = belt.cost / counts % 65_536;
    let new = half ^ [1, 0x8000, rng.range(1, 65_535) as u32][rng.below(3)];
    belt.cost = belt.cost - half * counts + new * counts;
    Some(())
}

fn leads(draft: &mut Draft, rng: &mut Rng) -> Option<()> {
    let junctions = draft.junctions;
    let belt = some_belt(draft, rng)?;
    belt.to = other(belt.from + 1, junctions, belt.to, rng)?;
    Some(())
}

fn leaves(draft: &mut Draft, rng: &mut Rng) -> Option<()> {
    let belt = some_belt(draft, rng)?;
    belt.from = other(1, belt.to - 1, belt.from, rng)?;
    Some(())
}

/// Exchanges two belts of this sort in the list; literals go on naming the same belts.
fn order_of_belts(draft: &mut Draft, sort: fn(&DraftBelt, &DraftBelt) -> bool, rng: &mut Rng) -> Option<()> {
    let one = place(&draft.belts, rng)?;
    let others = (0..draft.belts.len()).filter(|other| sort(&draft.belts[one], &draft.belts[*other]));
    let other = rng.pick(&others.collect::<Vec<usize>>())?;
    draft.belts.swap(one, other);
    for literal in draft.rules.iter_mut().flatten() {
        literal.about = match literal.about {
            About::Belt(place) if place == one => About::Belt(other),
            About::Belt(place) if place == other => About::Belt(one),
            about => about,
        };
    }
    Some(())
}

/// A belt like some other one, at the end of the list.
fn belt_more(draft: &mut Draft, rng: &mut Rng) -> Option<()> {
    let belt = some_belt(draft, rng)?.clone();
    draft.belts.push(belt);
    Some(())
}

/// Some literal that fits: its rule and its turn.
fn some_literal(draft: &Draft, fits: impl Fn(&Literal) -> bool, rng: &mut Rng) -> Option<(usize, usize)> {
    let all = draft.rules.iter().enumerate();
    let all = all.flat_map(|(rule, literals)| literals.iter().enumerate().map(move |(turn, one)| (rule, turn, one)));
    let fitting: Vec<(usize, usize)> =
        all.filter(|(_, _, one)| fits(one)).map(|(rule, turn, _)| (rule, turn)).collect();
    rng.pick(&fitting)
}

fn wanted(draft: &mut Draft, rng: &mut Rng) -> Option<()> {
    let (rule, turn) = some_literal(draft, |_| true, rng)?;
    draft.rules[rule][turn].wanted ^= true;
    Some(())
}

fn names_belt(literal: &Literal) -> bool {
    matches!(literal.about, About::Belt(_))
}

fn belt_named(draft: &mut Draft, rng: &mut Rng) -> Option<()> {
    let (rule, turn) = some_literal(draft, names_belt, rng)?;
    let last = draft.belts.len() - 1;
    let literal = &mut draft.rules[rule][turn];
    let About::Belt(belt) = literal.about else { return None };
    literal.about = About::Belt(other(0, last, belt, rng)?);
    Some(())
}

fn mode_named(draft: &mut Draft, rng: &mut Rng) -> Option<()> {
    let (rule, turn) = some_literal(draft, |literal| !names_belt(literal), rng)?;
    let literal = &mut draft.rules[rule][turn];
    let About::Mode(mode) = literal.about else { return None };
    literal.about = About::Mode(other(1, draft.modes, mode, rng)?);
    Some(())
}

fn belt_or_mode(draft: &mut Draft, rng: &mut Rng) -> Option<()> {
    let (rule, turn) = some_literal(draft, |_| true, rng)?;
    let about = match draft.rules[rule][turn].about {
        About::Belt(_) => (draft.modes > 0).then(|| About::Mode(rng.range(1, draft.modes)))?,
        About::Mode(_) => About::Belt(place(&draft.belts, rng)?),
    };
    draft.rules[rule][turn].about = about;
    Some(())
}

/// Two different things of a list, by their places.
fn two_different<T: PartialEq>(things: &[T], rng: &mut Rng) -> Option<(usize, usize)> {
    let one = place(things, rng)?;
    let others: Vec<usize> = (0..things.len()).filter(|other| things[*other] != things[one]).collect();
    Some((one, rng.pick(&others)?))
}

fn order_of_literals(draft: &mut Draft, rng: &mut Rng) -> Option<()> {
    let rule = place(&draft.rules, rng)?;
    let (one, other) = two_different(&draft.rules[rule], rng)?;
    draft.rules[rule].swap(one, other);
    Some(())
}

fn order_of_rules(draft: &mut Draft, rng: &mut Rng) -> Option<()> {
    let (one, other) = two_different(&draft.rules, rng)?;
    draft.rules.swap(one, other);
    Some(())
}

fn literal_twice(draft: &mut Draft, rng: &mut Rng) -> Option<()> {
    let (rule, turn) = some_literal(draft, |_| true, rng)?;
    let again = draft.rules[rule][turn];
    draft.rules[rule].insert(turn, again);
    Some(())
}

fn literal_out(draft: &mut Draft, rng: &mut Rng) -> Option<()> {
    let (rule, turn) = some_literal(draft, |_| true, rng)?;
    draft.rules[rule].remove(turn);
    Some(())
}

/// The last literal of a rule becomes the first of the next one: their order as a whole stays.
fn literal_moved(draft: &mut Draft, rng: &mut Rng) -> Option<()> {
    let rule = place(draft.rules.get(1..)?, rng)?;
    let last = draft.rules[rule].pop()?;
    draft.rules[rule + 1].insert(0, last);
    Some(())
}

fn empty_rule(draft: &mut Draft, rng: &mut Rng) -> Option<()> {
    let at = rng.range(0, draft.rules.len());
    draft.rules.insert(at, Vec::new());
    Some(())
}

fn rule_out(draft: &mut Draft, rng: &mut Rng) -> Option<()> {
    let at = place(&draft.rules, rng)?;
    draft.rules.remove(at);
    Some(())
}
