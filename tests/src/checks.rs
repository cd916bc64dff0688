//! The sheets of a case: those of listed routes under all or some settings, damaged
//! ones, and the same under other locks and other ends.

use crate::case::{class, Case, Scene, SHEET_DAMAGE};
use crate::compare::Verdict;
use crate::enumerate::Route;
use crate::lock::{self, FREE};
use crate::plan::{field, RECORD};
use crate::refusals::{self, Trip};
use crate::sheet::{self, Around};

impl Case<'_> {
    /// Sheets of listed routes, right and damaged, and asked for other ends and locks.
    pub fn sheets(&mut self, scene: &Scene, trip: &Trip, routes: &[Route]) -> Verdict {
        let settings = 1u64 << scene.plan.modes;
        if routes.len() as u64 * settings <= 12 {
            for route in routes {
                self.every_setting(scene, trip, route)?;
            }
        }
        for _ in 0..3 {
            let sheet = self.some_sheet(scene, routes);
            self.checked(scene, trip, &sheet)?;
        }
        for _ in 0..6 {
            let sheet = self.some_sheet(scene, routes);
            let damaged = self.damaged_sheet(scene, trip, sheet);
            self.checked(scene, trip, &damaged)?;
        }
        self.other_ends(scene, trip, routes)?;
        self.other_locks(scene, trip, routes)
    }

    /// The sheet of a route, under each setting.
    pub fn every_setting(&mut self, scene: &Scene, trip: &Trip, route: &Route) -> Verdict {
        for setting in 0..1 << scene.plan.modes {
            self.checked(scene, trip, &sheet::write(&route.belts, route.cost, setting))?;
        }
        Ok(())
    }

    fn other_ends(&mut self, scene: &Scene, trip: &Trip, routes: &[Route]) -> Verdict {
        let sheet = self.some_sheet(scene, routes);
        let [s, t] = [(); 2].map(|()| self.rng.range(1, scene.plan.junctions) as u64);
        self.checked(scene, &Trip { s, ..*trip }, &sheet)?;
        self.checked(scene, &Trip { t, ..*trip }, &sheet)
    }

    /// Sheets under other locks than they were made for, right and wrong ones.
    fn other_locks(&mut self, scene: &Scene, trip: &Trip, routes: &[Route]) -> Verdict {
        let modes = scene.plan.modes;
        for damaged in [false, true] {
            let mut sheet = self.some_sheet(scene, routes);
            if damaged {
                sheet = self.damaged_sheet(scene, trip, sheet);
            }
            for lock in [lock::right(modes, &mut self.rng), lock::wrong(modes, &mut self.rng)] {
                self.checked(scene, &Trip { lock, ..*trip }, &sheet)?;
            }
        }
        Ok(())
    }

    /// The sheet of some route, mostly under the lowest setting that agrees and works.
    fn some_sheet(&mut self, scene: &Scene, routes: &[Route]) -> Vec<u8> {
        if routes.is_empty() || self.rng.chance(1, 20) {
            return self.sheet.clone();
        }
        let permitted: Vec<usize> = (0..routes.len()).filter(|place| routes[*place].setting.is_some()).collect();
        let place = if self.rng.chance(1, 2) { self.rng.pick(&permitted) } else { None };
        let route = &routes[place.unwrap_or(self.rng.below(routes.len()))];
        let any = self.rng.below(1 << scene.plan.modes) as u64;
        let setting = route.setting.filter(|_| self.rng.chance(3, 4)).unwrap_or(any);
        sheet::write(&route.belts, route.cost, setting)
    }

    /// One damage, now and then two.
    pub fn damaged_sheet(&mut self, scene: &Scene, trip: &Trip, mut sheet: Vec<u8>) -> Vec<u8> {
        let around = Around { plan: &scene.plan, plan_bytes: &scene.bytes, lock: trip.lock };
        let damages = self.damages;
        let chosen = &damages.sheets[self.rng.below(damages.sheets.len())];
        if chosen.apply(&mut sheet, &around, &mut self.rng) {
            let lines = refusals::check_lines(&scene.plan, trip, &sheet);
            if chosen.line == 0 || lines.first() == Some(&chosen.line) {
                self.judge.tally.add(SHEET_DAMAGE, &class(chosen.line, &chosen.name));
            }
        }
        if self.rng.chance(1, 6) {
            let more = &damages.sheets[self.rng.below(damages.sheets.len())];
            more.apply(&mut sheet, &around, &mut self.rng);
        }
        sheet
    }

    pub fn checked(&mut self, scene: &Scene, trip: &Trip, sheet: &[u8]) -> Verdict {
        let lines = refusals::check_lines(&scene.plan, trip, sheet);
        self.judge.tally.add_lines("lines broken, check", &lines);
        let first = lines.first().copied().unwrap_or(0);
        if first == 15 {
            self.note_wrong_lock("wrong locks, check", scene, trip);
        } else if trip.lock != FREE {
            self.note_locked_sheet(scene, trip, sheet, first);
        }
        self.judge.check(&scene.bytes, trip, sheet, first)
    }

    /// Counts what a lock has to do with the answer for a sheet.
    fn note_locked_sheet(&mut self, scene: &Scene, trip: &Trip, sheet: &[u8], line: u64) {
        let breaks = sheet.len() >= RECORD && !trip.lock.agrees(scene.plan.modes, field(sheet, 0, 5).into());
        let rules_met = || refusals::check_lines(&scene.plan, &Trip { lock: FREE, ..*trip }, sheet).is_empty();
        let name = match line {
            0 => "accepted",
            14 if !breaks => "14, a rule is not met",
            14 if rules_met() => "14, the lock is broken",
            14 => "14, the lock is broken and a rule is not met",
            13 if breaks => "13, and the lock is broken",
            12 if breaks => "12, and the lock is broken",
            11 if breaks => "11, and the lock is broken",
            _ => return,
        };
        self.judge.tally.add("sheets under a lock", name);
    }
}
