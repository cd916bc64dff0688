//! The searches of a case: all picks and orders, several budgets, with and without a
//! lock, and queries that have to be refused.

use crate::case::{rank, Case, Scene};
use crate::compare::{Answer, Verdict};
use crate::enumerate::{self, Limits, Route};
use crate::halves;
use crate::lock::{self, Lock};
use crate::plan::RECORD;
use crate::refusals::{self, Query, Trip, SHEET_MAX};
use crate::sheet;
use crate::written::{self, Ending};

/// A search is dear if it may look at more literals than this.
const LITERALS_READ: u64 = 1 << 22;

pub const PICKS_AND_ORDERS: [(u64, u64); 6] = [(0, 0), (0, 1), (1, 0), (1, 1), (2, 0), (2, 1)];

impl Case<'_> {
    /// Searches and sheets from s to t, with or without a lock.
    pub fn pair(&mut self, scene: &Scene, s: usize, t: usize) -> Verdict {
        // In a large plan each opened subproblem is dear.
        let most = if scene.bytes.len() > 6000 { 40 } else { 300 };
        let Some(free) = enumerate::routes(&scene.plan, s, t, Limits { routes: most, belts_tried: 100_000 }) else {
            self.judge.tally.add("queries", "too many routes, passed over");
            return Ok(());
        };
        self.judge.tally.add("queries", ["s < t", "s = t", "s > t"][usize::from(s >= t) + usize::from(s > t)]);
        let modes = scene.plan.modes;
        let trip = Trip { s: s as u64, t: t as u64, lock: lock::right(modes, &mut self.rng) };
        let routes = enumerate::under(&scene.plan, &trip.lock, &free);
        self.note_routes(scene, &trip.lock, &routes);
        self.note_halves(scene, &routes);
        self.note_lock(scene, &trip.lock, &free, &routes);
        self.searches(scene, &trip, &routes)?;
        self.sheets(scene, &trip, &routes)?;
        if (1..=4).contains(&modes) && self.rng.chance(1, 100) {
            self.every_lock(scene, &trip, &free)?;
        }
        Ok(())
    }

    /// All picks and orders, and several budgets.
    fn searches(&mut self, scene: &Scene, trip: &Trip, routes: &[Route]) -> Verdict {
        let mut counts = Vec::new();
        for (pick, order) in PICKS_AND_ORDERS {
            counts.push(self.enough_asked(scene, trip, routes, pick, order)?);
        }
        self.note_counts(&counts);
        self.own_sheet(scene, trip, routes)?;
        let choice = self.rng.below(PICKS_AND_ORDERS.len());
        let (pick, order) = PICKS_AND_ORDERS[choice];
        let query = self.query(trip, pick, order, 1);
        self.budgets(scene, routes, query, counts[choice])
    }

    /// A search with a budget that is enough, or else affordable; how many one that ends opens.
    pub fn enough_asked(
        &mut self,
        scene: &Scene,
        trip: &Trip,
        routes: &[Route],
        pick: u64,
        order: u64,
    ) -> Result<u64, String> {
        let (_, count) = written::search(routes, &scene.named, pick, order, u64::MAX);
        let (name, budget) = self.large_budget(scene, count);
        self.judge.tally.add("budgets", name);
        let query = self.query(trip, pick, order, budget);
        self.asked(scene, routes, &query)?;
        Ok(count)
    }

    /// The sheet that the searches wrote is accepted, and so is the renumbered one.
    fn own_sheet(&mut self, scene: &Scene, trip: &Trip, routes: &[Route]) -> Verdict {
        let Some(route) = enumerate::first_permitted(routes) else { return Ok(()) };
        let Route { belts, cost, setting, .. } = route;
        let sheet = sheet::write(belts, *cost, setting.expect("permitted"));
        self.judge.check(&scene.bytes, trip, &sheet, 0)?;
        self.judge.check(&scene.form.bytes, trip, &scene.form.sheet(&sheet), 0)
    }

    /// Counts whether the opened counts, by pick and order, tell these apart.
    fn note_counts(&mut self, counts: &[u64]) {
        let differ = |counts: &[u64]| counts.iter().any(|count| *count != counts[0]);
        let orders = |order: usize| [counts[order], counts[2 + order], counts[4 + order]];
        let found = [
            ("picks open different counts", differ(&orders(0)) || differ(&orders(1))),
            ("orders open different counts", counts.chunks(2).any(differ)),
            ("over 1000 opened", counts.iter().any(|count| *count > 1000)),
        ];
        for (name, _) in found.iter().filter(|(_, found)| *found) {
            self.judge.tally.add("searches", name);
        }
    }

    /// Counts what sort of route is to be found.
    fn note_routes(&mut self, scene: &Scene, lock: &Lock, routes: &[Route]) {
        let Some(first) = routes.iter().position(|route| route.setting.is_some()) else { return };
        let best = &routes[first];
        let steps = best.belts.len();
        let tally = &mut self.judge.tally;
        tally.add("steps of the route", ["0", "1", "2..9", "10..254", "255"][rank(steps, &[0, 1, 9, 254])]);
        let tie = routes[first + 1..].iter().any(|route| route.cost == best.cost && route.setting.is_some());
        let lowest = best.setting.expect("permitted");
        let on_route = |name: usize| best.belts.contains(&name);
        let modes = scene.plan.modes;
        let works = |setting| lock.agrees(modes, setting) && enumerate::works(&scene.plan, &on_route, setting);
        let several = modes <= 4 && (lowest + 1..1 << modes).any(works);
        let found = [
            ("cheapest route not permitted", first > 0),
            ("first of equally cheap permitted routes", tie),
            ("setting over 0", lowest > 0),
            ("several settings work", several),
            ("cost over 65535", best.cost > 65_535),
            ("cost over 2^32 - 1", best.cost >= 1 << 32),
        ];
        for (name, _) in found.iter().filter(|(_, found)| *found) {
            tally.add("searches", name);
        }
    }

    /// Counts what the halves of costs have to do with the route to be found.
    fn note_halves(&mut self, scene: &Scene, routes: &[Route]) {
        let permitted = halves::permitted(&scene.plan, routes);
        for name in halves::told_apart(&permitted) {
            self.judge.tally.add("another route by a wrong cost", name);
        }
        if halves::tie_over_a_carry(&permitted) {
            self.judge.tally.add("searches", "equally cheap over a carry");
        }
    }

    /// A budget for a search that opens so many, and its name: one that is enough, but
    /// mostly a smaller one where the planner would try very many settings.
    fn large_budget(&mut self, scene: &Scene, count: u64) -> (&'static str, u64) {
        let affordable = affordable(scene);
        if count > affordable && self.rng.chance(3, 4) {
            return ("affordable", affordable);
        }
        [("2^(k+1) - 1", enough(scene)), ("1000000", 1_000_000), ("2^64 - 1", u64::MAX)][self.rng.below(3)]
    }

    pub fn query(&mut self, trip: &Trip, pick: u64, order: u64, budget: u64) -> Query {
        Query { trip: *trip, pick, order, budget, out_len: self.out_len() }
    }

    /// The length of a buffer that is large enough, mostly just so.
    fn out_len(&mut self) -> usize {
        match self.rng.below(40) {
            0 => 70_000,
            1..=4 => SHEET_MAX + RECORD,
            5..=8 => SHEET_MAX + self.rng.range(1, 1200),
            _ => SHEET_MAX,
        }
    }

    /// Asks for a route and compares with the written search and the first permitted route.
    fn asked(&mut self, scene: &Scene, routes: &[Route], query: &Query) -> Verdict {
        let (ending, opened) = written::search(routes, &scene.named, query.pick, query.order, query.budget);
        let first = routes.iter().position(|route| route.setting.is_some());
        let answer = match ending {
            Ending::Spent if query.budget >= enough(scene) => {
                return Err(format!("the written search is spent at {}", query.budget));
            }
            Ending::Spent => Answer::Spent { opened },
            Ending::None if first.is_none() => Answer::None { opened },
            Ending::Route(place) if first == Some(place) => {
                let Route { belts, cost, setting, .. } = &routes[place];
                self.sheet = sheet::write(belts, *cost, setting.expect("permitted"));
                Answer::Route { opened, sheet: self.sheet.clone() }
            }
            _ => return Err("the written search does not end with the first permitted route".to_string()),
        };
        self.search_both(scene, query, &answer)
    }

    /// Budgets around the count, small ones and large ones.
    fn budgets(&mut self, scene: &Scene, routes: &[Route], mut query: Query, count: u64) -> Verdict {
        let budgets = [
            ("1", 1),
            ("2", 2),
            ("up to enough", 1 + self.rng.next() % count),
            ("one too few", count - 1),
            ("exactly enough", count),
            ("one more", count + 1),
            ("2^(k+1) - 1", enough(scene)),
            ("2^64 - 1", u64::MAX),
        ];
        let some = self.rng.chance(1, 2);
        let affordable = affordable(scene);
        for (name, budget) in budgets {
            let dear = budget.min(count) > affordable && self.rng.chance(9, 10);
            // One too few of 1 is no budget.
            if budget == 0 || dear || some && self.rng.chance(1, 2) {
                continue;
            }
            self.judge.tally.add("budgets", name);
            query.budget = budget;
            query.out_len = self.out_len();
            self.asked(scene, routes, &query)?;
        }
        Ok(())
    }

    /// Queries that break one or several of the lines 8, 15, 9 and 10.
    pub fn bad_queries(&mut self, scene: &Scene) -> Verdict {
        for _ in 0..8 {
            let query = self.bad_query(scene.plan.junctions, scene.plan.modes);
            let lines = refusals::search_lines(&scene.plan, &query);
            let Some(first) = lines.first().copied() else {
                return Err(format!("the tests' own predicate does not refuse {query:?}"));
            };
            self.judge.tally.add_lines("lines broken, search", &lines);
            if first == 15 {
                self.note_wrong_lock("wrong locks, search", scene, &query.trip);
            }
            self.search_both(scene, &query, &Answer::Refused(first))?;
            let sheet = match self.rng.below(4) {
                0 => Vec::new(),
                1 => self.damaged_sheet(scene, &query.trip, self.sheet.clone()),
                _ => self.sheet.clone(),
            };
            self.checked(scene, &query.trip, &sheet)?;
        }
        Ok(())
    }

    /// A query with one to four wrong parts.
    pub fn bad_query(&mut self, junctions: usize, modes: usize) -> Query {
        let [s, t] = [(); 2].map(|()| self.rng.range(1, junctions) as u64);
        let trip = Trip { s, t, lock: lock::right(modes, &mut self.rng) };
        let (pick, order) = PICKS_AND_ORDERS[self.rng.below(6)];
        let mut query = self.query(&trip, pick, order, u64::MAX);
        let over = [0, junctions as u64 + 1, 257, 65_536, 65_537, (1 << 32) + 1, 1 << 63, (1 << 63) + 1, u64::MAX];
        let parts = self.rng.range(1, 4);
        for _ in 0..parts {
            let value = over[self.rng.below(over.len())];
            match self.rng.below(8) {
                0 => query.trip.s = value,
                1 => query.trip.t = value,
                2 => query.pick = [3, 4, 256, 1 << 32, (1 << 32) + 2, u64::MAX][self.rng.below(6)],
                3 => query.order = [2, 3, 256, 1 << 32, (1 << 32) + 1, u64::MAX][self.rng.below(6)],
                4 => query.budget = 0,
                5 => query.out_len = [0, 1, 12, 24, 3060, 3071][self.rng.below(6)],
                _ => query.trip.lock = lock::wrong(modes, &mut self.rng),
            }
        }
        query
    }
}

/// 2^(k+1) - 1, where k is the number of named belts.
fn enough(scene: &Scene) -> u64 {
    (1 << (scene.named.count + 1)) - 1
}

/// How many subproblems may be opened before the search is dear: for each one, every
/// literal may be looked at under every setting.
fn affordable(scene: &Scene) -> u64 {
    let literals: usize = scene.plan.rules.iter().map(|rule| rule.len()).sum();
    (LITERALS_READ / ((8 + literals as u64) << scene.plan.modes)).max(1)
}
