//! Rules over chosen belts and modes.

use super::{Belt, Literal};
use crate::rng::Rng;

pub type Rules = Vec<Vec<Literal>>;

/// `count` belts that leave a junction of `span`, taken at random from the
/// cheaper third for their length, in rising place. Cheap routes use many of
/// them, so that rules over them make the search branch.
pub fn cheap_belts(
    rng: &mut Rng,
    belts: &[Belt],
    span: std::ops::Range<usize>,
    count: usize,
) -> Vec<usize> {
    let mut places: Vec<usize> =
        (0..belts.len()).filter(|&place| span.contains(&belts[place].from)).collect();
    places.sort_by_key(|&place| {
        let belt = belts[place];
        1_000 * belt.cost as usize / (belt.to - belt.from)
    });
    places.truncate(count.max(places.len() / 3));
    rng.shuffle(&mut places);
    places.truncate(count);
    places.sort();
    places
}

/// Every belt in turn is banned together with another one.
pub fn bans(rng: &mut Rng, named: &[usize], count: usize) -> Rules {
    let rule = |i: usize| {
        let other = named[(i + rng.between(1, named.len() - 1)) % named.len()];
        vec![Literal::Belt(named[i % named.len()], false), Literal::Belt(other, false)]
    };
    (0..count).map(rule).collect()
}

/// Of each `size` neighbours among the named belts one has to be on the route.
pub fn covers(named: &[usize], size: usize) -> Rules {
    let rule = |some: &[usize]| some.iter().map(|&belt| Literal::Belt(belt, true)).collect();
    named.chunks(size).map(rule).collect()
}

/// `count` rules of `size` belts each, wanted or unwanted at random.
pub fn mixed(rng: &mut Rng, named: &[usize], count: usize, size: usize) -> Rules {
    let rule = |i: usize| {
        let literal = |j: usize| {
            let place = if j == 0 { i % named.len() } else { rng.below(named.len()) };
            Literal::Belt(named[place], rng.coin())
        };
        (0..size).map(literal).collect()
    };
    (0..count).map(rule).collect()
}

/// `count` rules of three modes at random, each of which a belt off the route
/// meets too: the more of these belts a route has, the fewer settings work.
pub fn mode_ties(rng: &mut Rng, named: &[usize], modes: usize, count: usize) -> Rules {
    let rule = |i: usize| {
        let mut literals: Vec<Literal> =
            (0..3).map(|_| Literal::Mode(rng.between(1, modes), rng.coin())).collect();
        literals.push(Literal::Belt(named[i % named.len()], false));
        literals
    };
    (0..count).map(rule).collect()
}

/// The mode has to be on and off at once, unless this belt is off the route: for
/// a route with it every setting is tried in vain.
pub fn mode_conflict(belt: usize, mode: usize) -> Rules {
    let rule = |wanted| vec![Literal::Mode(mode, wanted), Literal::Belt(belt, false)];
    vec![rule(true), rule(false)]
}
