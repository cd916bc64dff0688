//! The locks of a case: every lock of a plan with few modes, and what locks change and
//! break.

use crate::case::{Case, Scene};
use crate::compare::Verdict;
use crate::enumerate::{first_permitted, under, Route};
use crate::lock::{self, is_on, Lock};
use crate::plan::{About, Plan};
use crate::refusals::Trip;
use crate::searches::PICKS_AND_ORDERS;
use crate::written;

impl Case<'_> {
    /// Every mask with every value of it: a search, and the sheet of some route under each setting.
    pub fn every_lock(&mut self, scene: &Scene, trip: &Trip, free: &[Route]) -> Verdict {
        let some = if free.is_empty() { None } else { Some(&free[self.rng.below(free.len())]) };
        for lock in lock::every(scene.plan.modes) {
            let trip = Trip { lock, ..*trip };
            let routes = under(&scene.plan, &lock, free);
            self.note_lock(scene, &lock, free, &routes);
            let (pick, order) = PICKS_AND_ORDERS[self.rng.below(PICKS_AND_ORDERS.len())];
            self.enough_asked(scene, &trip, &routes, pick, order)?;
            if let Some(route) = some {
                self.every_setting(scene, &trip, route)?;
            }
        }
        self.judge.tally.add("every lock, by modes", &scene.plan.modes.to_string());
        Ok(())
    }

    /// Counts what a lock changes, beside the same query without it.
    pub fn note_lock(&mut self, scene: &Scene, lock: &Lock, free: &[Route], routes: &[Route]) {
        let modes = scene.plan.modes;
        let locked = (1..=modes).filter(|mode| is_on(lock.mask, *mode)).count();
        let tally = &mut self.judge.tally;
        if locked == 0 {
            return tally.add("locks", "no mode");
        }
        tally.add("locks", if locked == modes { "every mode" } else { "some modes" });
        if is_on(lock.mask, 10) {
            tally.add("locks", "mode 10");
        }
        let count = |routes: &[Route]| written::search(routes, &scene.named, 0, 0, u64::MAX).1;
        if count(free) != count(routes) {
            tally.add("what a lock changes", "the opened count");
        }
        let name = match (first_permitted(free), first_permitted(routes)) {
            (Some(before), Some(after)) if before.belts != after.belts => "the route",
            (Some(before), Some(after)) => return self.note_settings(scene, lock, before, after),
            (Some(_), None) => "a route into none",
            _ => return,
        };
        tally.add("what a lock changes", name);
    }

    /// Counts how a lock changes the setting of a route that is found with and without it.
    fn note_settings(&mut self, scene: &Scene, lock: &Lock, before: &Route, after: &Route) {
        let (before, after) = (before.setting.expect("permitted"), after.setting.expect("permitted"));
        let found = [
            ("the setting alone", before != after),
            ("the setting, in a mode that is not locked", after != lock.put_into(scene.plan.modes, before)),
            ("the setting, in a mode that no rule names", unnamed_mode_on(&scene.plan, after)),
        ];
        for (name, _) in found.iter().filter(|(_, found)| *found) {
            self.judge.tally.add("what a lock changes", name);
        }
    }

    /// Counts what is wrong with a lock.
    pub fn note_wrong_lock(&mut self, group: &'static str, scene: &Scene, trip: &Trip) {
        for name in lock::sorts(scene.plan.modes, &trip.lock) {
            self.judge.tally.add(group, name);
        }
    }
}

/// A mode is on that is in no rule.
fn unnamed_mode_on(plan: &Plan, setting: u64) -> bool {
    let named = |mode: usize| plan.rules.iter().flatten().any(|literal| literal.about == About::Mode(mode));
    (1..=plan.modes).any(|mode| is_on(setting, mode) && !named(mode))
}
