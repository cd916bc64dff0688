//! The search as it is written down, step by step, over the listed routes: the
//! relaxed route of a subproblem is the first listed one that has every
//! required and no forbidden belt. A route is permitted if it has a setting under
//! the lock with which it is listed; nothing else here depends on the lock.

use crate::enumerate::{comes_before, Route};
use crate::plan::{About, Plan};

#[derive(Clone, Debug, PartialEq)]
pub enum Ending {
    /// The place of the route in the list.
    Route(usize),
    None,
    Spent,
}

/// Bit i stands for the i-th named belt.
#[derive(Clone, Copy)]
struct Subproblem {
    required: u64,
    forbidden: u64,
}

/// A plan's named belts: how many, and in how many rules each one is.
pub struct Named {
    pub count: usize,
    rules: Vec<usize>,
}

impl Named {
    pub fn of(plan: &Plan) -> Named {
        let names = plan.named();
        let in_rules = |name: &usize| {
            let naming = |literals: &Vec<crate::plan::Literal>| {
                literals.iter().any(|literal| literal.about == About::Belt(*name))
            };
            plan.rules.iter().filter(|rule| naming(rule)).count()
        };
        Named { count: names.len(), rules: names.iter().map(in_rules).collect() }
    }
}

/// How the search ends, and the opened count.
pub fn search(routes: &[Route], named: &Named, pick: u64, order: u64, budget: u64) -> (Ending, u64) {
    let mut pile = vec![Subproblem { required: 0, forbidden: 0 }];
    let mut opened = 0;
    let mut best: Option<usize> = None;
    loop {
        if pile.is_empty() {
            return (best.map_or(Ending::None, Ending::Route), opened);
        }
        if opened == budget {
            return (Ending::Spent, opened);
        }
        let taken = pile.pop().expect("not empty");
        opened += 1;
        let Some(relaxed) = relaxed(routes, taken) else { continue };
        if best.is_some_and(|best| !comes_before(&routes[relaxed], &routes[best])) {
            continue;
        }
        if routes[relaxed].setting.is_some() {
            best = Some(relaxed);
            continue;
        }
        let unfixed: Vec<usize> =
            (0..named.count).filter(|belt| (taken.required | taken.forbidden) >> belt & 1 == 0).collect();
        if unfixed.is_empty() {
            continue;
        }
        let belt = picked(&unfixed, named, &routes[relaxed], pick);
        let requiring = Subproblem { required: taken.required | 1 << belt, ..taken };
        let forbidding = Subproblem { forbidden: taken.forbidden | 1 << belt, ..taken };
        // The newest is taken next, so the half that comes next goes on last.
        pile.extend(if order == 0 { [requiring, forbidding] } else { [forbidding, requiring] });
    }
}

fn relaxed(routes: &[Route], problem: Subproblem) -> Option<usize> {
    let admitted =
        |route: &Route| route.named & problem.required == problem.required && route.named & problem.forbidden == 0;
    routes.iter().position(admitted)
}

/// The unfixed belt to branch on; `unfixed` is not empty and rises.
fn picked(unfixed: &[usize], named: &Named, relaxed: &Route, pick: u64) -> usize {
    let lowest = unfixed[0];
    match pick {
        0 => lowest,
        1 => {
            let most = unfixed.iter().map(|belt| named.rules[*belt]).max().expect("not empty");
            *unfixed.iter().find(|belt| named.rules[**belt] == most).expect("one has the most")
        }
        _ => *unfixed.iter().find(|belt| relaxed.named >> **belt & 1 == 1).unwrap_or(&lowest),
    }
}
