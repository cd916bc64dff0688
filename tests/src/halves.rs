//! The two halves of a belt's cost. Counts queries in which a wrong use of them would
//! choose another route, so that none can hide behind a right cost on the sheet.

use crate::enumerate::Route;
use crate::plan::Plan;

/// What a wrong program takes for the cost of a route, from the costs of its belts.
type Reading = fn(&[u64]) -> u64;

const WRONG: [(&str, Reading); 5] = [
    ("halves exchanged", |costs| costs.iter().map(|cost| low(cost) * 65_536 + high(cost)).sum()),
    ("high half alone", |costs| costs.iter().map(high).sum()),
    ("low half alone", |costs| costs.iter().map(low).sum()),
    ("no carry between the halves", |costs| (high_halves(costs) << 32) + costs.iter().map(low).sum::<u64>()),
    ("sum cut to 32 bits", |costs| costs.iter().sum::<u64>() % (1 << 32)),
];

fn high(cost: &u64) -> u64 {
    cost / 65_536
}

fn low(cost: &u64) -> u64 {
    cost % 65_536
}

fn high_halves(costs: &[u64]) -> u64 {
    costs.iter().map(high).sum()
}

/// A permitted route, and the costs of its belts.
pub struct Priced<'a> {
    route: &'a Route,
    costs: Vec<u64>,
}

/// The permitted ones of some routes, in the same order.
pub fn permitted<'a>(plan: &Plan, routes: &'a [Route]) -> Vec<Priced<'a>> {
    let mut by_name = vec![0; 1 + plan.belts.last().map_or(0, |belt| belt.name)];
    for belt in &plan.belts {
        by_name[belt.name] = belt.cost;
    }
    let permitted = routes.iter().filter(|route| route.setting.is_some());
    permitted.map(|route| Priced { route, costs: route.belts.iter().map(|name| by_name[*name]).collect() }).collect()
}

/// The wrong readings by which another route than the first comes first.
pub fn told_apart(routes: &[Priced]) -> Vec<&'static str> {
    let leads_astray = |reading: &Reading| {
        let chosen = routes.iter().min_by_key(|priced| (reading(&priced.costs), &priced.route.belts));
        chosen.is_some_and(|chosen| chosen.route.belts != routes[0].route.belts)
    };
    WRONG.iter().filter(|(_, reading)| leads_astray(reading)).map(|(name, _)| *name).collect()
}

/// A later route costs as much as the first, but its belts' halves add up to other sums.
pub fn tie_over_a_carry(routes: &[Priced]) -> bool {
    let Some(first) = routes.first() else { return false };
    let mut ties = routes.iter().filter(|priced| priced.route.cost == first.route.cost);
    ties.any(|priced| high_halves(&priced.costs) != high_halves(&first.costs))
}
