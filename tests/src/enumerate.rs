//! All routes and all settings, one after the other. Nothing is cut off, and
//! nothing is shared between routes.

use crate::lock::{is_on, Lock, FREE};
use crate::plan::{About, Belt, Literal, Plan};

#[derive(Clone, Debug)]
pub struct Route {
    /// Names of the belts, in route order.
    pub belts: Vec<usize>,
    pub cost: u64,
    /// Bit i is set if the i-th named belt is on the route.
    pub named: u64,
    /// The lowest setting that agrees with the lock and under which every rule is met.
    pub setting: Option<u64>,
}

/// How far a listing goes before it is given up.
#[derive(Clone, Copy)]
pub struct Limits {
    pub routes: usize,
    pub belts_tried: usize,
}

/// Route a comes before route b.
pub fn comes_before(a: &Route, b: &Route) -> bool {
    if a.cost != b.cost {
        return a.cost < b.cost;
    }
    for (belt_a, belt_b) in a.belts.iter().zip(&b.belts) {
        if belt_a != belt_b {
            return belt_a < belt_b;
        }
    }
    false
}

/// All routes from s to t, the first one first, or nothing if they are too many. No mode
/// is locked.
pub fn routes(plan: &Plan, s: usize, t: usize, limits: Limits) -> Option<Vec<Route>> {
    let mut walk = Walk { leaving: vec![Vec::new(); plan.junctions + 1], t, limits, found: Vec::new() };
    for belt in &plan.belts {
        walk.leaving[belt.from].push(belt);
    }
    if !walk.from(s, &mut Vec::new()) {
        return None;
    }
    let named = plan.named();
    let mut routes: Vec<Route> = walk.found.iter().map(|belts| route(plan, &named, belts)).collect();
    routes.sort_by(|a, b| (a.cost, &a.belts).cmp(&(b.cost, &b.belts)));
    Some(routes)
}

struct Walk<'a> {
    leaving: Vec<Vec<&'a Belt>>,
    t: usize,
    limits: Limits,
    found: Vec<Vec<&'a Belt>>,
}

impl<'a> Walk<'a> {
    /// Goes on from a junction in every way. False if it is given up.
    fn from(&mut self, at: usize, trail: &mut Vec<&'a Belt>) -> bool {
        if at == self.t {
            self.found.push(trail.clone());
            return self.found.len() <= self.limits.routes;
        }
        for turn in 0..self.leaving[at].len() {
            let belt = self.leaving[at][turn];
            // Belts lead upward, so nothing comes back from above t.
            if belt.to > self.t {
                continue;
            }
            if self.limits.belts_tried == 0 {
                return false;
            }
            self.limits.belts_tried -= 1;
            trail.push(belt);
            if !self.from(belt.to, trail) {
                return false;
            }
            trail.pop();
        }
        true
    }
}

fn route(plan: &Plan, named: &[usize], belts: &[&Belt]) -> Route {
    let names: Vec<usize> = belts.iter().map(|belt| belt.name).collect();
    let mut bits = 0;
    for (place, name) in named.iter().enumerate() {
        if names.contains(name) {
            bits |= 1 << place;
        }
    }
    Route {
        cost: belts.iter().map(|belt| belt.cost).sum(),
        named: bits,
        setting: lowest_setting(plan, &FREE, &names),
        belts: names,
    }
}

/// The same routes under a lock.
pub fn under(plan: &Plan, lock: &Lock, routes: &[Route]) -> Vec<Route> {
    let locked = |route: &Route| Route { setting: lowest_setting(plan, lock, &route.belts), ..route.clone() };
    routes.iter().map(locked).collect()
}

/// The first permitted one of some listed routes.
pub fn first_permitted(routes: &[Route]) -> Option<&Route> {
    routes.iter().find(|route| route.setting.is_some())
}

/// Counts upward through all settings to the first that agrees and works.
fn lowest_setting(plan: &Plan, lock: &Lock, belts: &[usize]) -> Option<u64> {
    let mut on = vec![false; 1 + plan.belts.iter().map(|belt| belt.name).max().unwrap_or(0)];
    for name in belts {
        on[*name] = true;
    }
    let fits = |setting: &u64| lock.agrees(plan.modes, *setting) && works(plan, &|name| on[name], *setting);
    (0..1 << plan.modes).find(fits)
}

/// Every rule is met on this route under this setting.
pub fn works(plan: &Plan, on_route: &dyn Fn(usize) -> bool, setting: u64) -> bool {
    plan.rules.iter().all(|rule| met(rule, on_route, setting))
}

/// Some literal of the rule holds.
fn met(rule: &[Literal], on_route: &dyn Fn(usize) -> bool, setting: u64) -> bool {
    rule.iter().any(|literal| match literal.about {
        About::Belt(name) => on_route(name) == literal.wanted,
        About::Mode(mode) => is_on(setting, mode) == literal.wanted,
    })
}
