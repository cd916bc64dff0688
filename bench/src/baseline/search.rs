//! The written search over a stack of subproblems.

use super::depot::Depot;
use super::relax::{Relaxation, Subproblem, UNBOUNDED};
use super::rules::lowest_setting;
use crate::query::Query;

/// A permitted route.
pub struct Best {
    pub cost: u64,
    pub belts: Vec<u16>,
    pub setting: u16,
}

pub enum Ending {
    Route(Best),
    None,
    Spent,
}

pub struct Search<'a> {
    depot: &'a Depot,
    relaxation: Relaxation<'a>,
    query: Query,
    stack: Vec<Subproblem>,
    best: Option<Best>,
    opened: u64,
}

impl<'a> Search<'a> {
    /// The depot must have been read for the query's pick.
    pub fn new(depot: &'a Depot, query: &Query) -> Search<'a> {
        let (s, t) = (query.s as usize - 1, query.t as usize - 1);
        Search {
            depot,
            relaxation: Relaxation::new(depot, s, t),
            query: *query,
            stack: vec![Subproblem { required: 0, forbidden: 0, unfixed: depot.all_named() }],
            best: None,
            opened: 0,
        }
    }

    pub fn opened(&self) -> u64 {
        self.opened
    }

    pub fn run(&mut self) -> Ending {
        while !self.stack.is_empty() {
            if self.opened == self.query.budget {
                return Ending::Spent;
            }
            if let Some(sub) = self.stack.pop() {
                self.open(sub);
            }
        }
        self.best.take().map_or(Ending::None, Ending::Route)
    }

    fn open(&mut self, sub: Subproblem) {
        self.opened += 1;
        let bound = self.best.as_ref().map_or(UNBOUNDED, |best| best.cost);
        let Some(cost) = self.relaxation.cost(&sub, bound) else {
            return;
        };
        if cost == bound && !self.lower_than_best() {
            return;
        }
        let on_route = self.relaxation.named();
        if let Some(setting) = lowest_setting(self.depot, &self.query, on_route) {
            let belts = self.relaxation.belts().collect();
            self.best = Some(Best { cost, belts, setting });
        } else if sub.unfixed != 0 {
            self.branch(sub, self.pick(sub.unfixed, on_route));
        }
    }

    /// Of two routes that cost the same, the one at hand and the best: has the one
    /// at hand the lower belt where they part?
    fn lower_than_best(&self) -> bool {
        let best = self.best.iter().flat_map(|best| best.belts.iter().copied());
        self.relaxation.belts().lt(best)
    }

    /// The rank of the belt to fix next.
    fn pick(&self, unfixed: u64, on_route: u64) -> u32 {
        let first = if self.query.pick == 2 { unfixed & on_route } else { 0 };
        if first != 0 {
            first.trailing_zeros()
        } else {
            unfixed.trailing_zeros()
        }
    }

    fn branch(&mut self, sub: Subproblem, rank: u32) {
        let place = self.depot.place_bit(rank);
        let unfixed = sub.unfixed ^ 1 << rank;
        let require = Subproblem { required: sub.required | place, unfixed, ..sub };
        let forbid = Subproblem { forbidden: sub.forbidden | place, unfixed, ..sub };
        // The newest is taken next.
        if self.query.order == 0 {
            self.stack.extend([require, forbid]);
        } else {
            self.stack.extend([forbid, require]);
        }
    }
}
