//! The rule test and the lowest setting that passes it.

use super::depot::{Depot, Literal, Subject};
use crate::query::Query;

/// The lowest setting that agrees with the query's lock and under which a route with
/// these named belts meets every rule.
pub fn lowest_setting(depot: &Depot, query: &Query, named: u64) -> Option<u16> {
    // A lock that is not refused has ten bits at most.
    settle(depot, query.mask as u16, named, depot.modes, query.values as u16)
}

/// Modes above `mode` are set, and all locked ones; tries it off, then on, and each
/// lower one inside. A locked mode is left as it is.
fn settle(depot: &Depot, locked: u16, named: u64, mode: u16, setting: u16) -> Option<u16> {
    if mode == 0 {
        return meets(depot, named, setting).then_some(setting);
    }
    let bit = 1 << (mode - 1);
    let inside = |setting| settle(depot, locked, named, mode - 1, setting);
    if locked & bit != 0 {
        return inside(setting);
    }
    inside(setting).or_else(|| inside(setting | bit))
}

fn meets(depot: &Depot, named: u64, setting: u16) -> bool {
    depot.rules.iter().all(|rule| rule.iter().any(|literal| holds(literal, named, setting)))
}

fn holds(literal: &Literal, named: u64, setting: u16) -> bool {
    let on = match literal.subject {
        Subject::Belt(bit) => named & bit != 0,
        Subject::Mode(bit) => setting & bit != 0,
    };
    on == literal.wanted
}
