//! One case: a plan from a seed, and everything that is asked about it.

use crate::archive::Form;
use crate::compare::{print_changes, print_records, Answer, Judge, Verdict};
use crate::layout::{lay_out, Draft};
use crate::plan::{bytes_of, About, Literal, Plan, MAX_JUNCTIONS, MAX_MODES, MAX_NAMED, MAX_RECORDS, RECORD};
use crate::refusals::Trip;
use crate::rng::Rng;
use crate::written::Named;
use crate::{damage, generate, lock, refusals, sheet};

/// The damages that a case chooses from.
pub struct Damages {
    plans: Vec<damage::Damage>,
    pub sheets: Vec<sheet::Damage>,
}

const PLAN_DAMAGE: &str = "damage to plans";
pub const SHEET_DAMAGE: &str = "damage to sheets";

impl Damages {
    pub fn all() -> Damages {
        Damages { plans: damage::all(), sheets: sheet::damages() }
    }

    /// The classes that a whole run has to reach.
    pub fn classes(&self) -> Vec<(&'static str, String)> {
        let plans = self.plans.iter().map(|damage| (PLAN_DAMAGE, class(damage.line, &damage.name)));
        let sheets = self.sheets.iter().map(|damage| (SHEET_DAMAGE, class(damage.line, &damage.name)));
        plans.chain(sheets).collect()
    }
}

/// What a damage counts as: the line it aims at, and its name.
pub fn class(line: u64, name: &str) -> String {
    if line == 0 {
        return name.to_string();
    }
    format!("line {line}: {name}")
}

/// A plan's bytes, what they stand for, its named belts, and its archive form.
pub struct Scene {
    pub bytes: Vec<u8>,
    pub plan: Plan,
    pub named: Named,
    pub form: Form,
}

impl Scene {
    fn of(bytes: Vec<u8>, plan: Plan) -> Scene {
        Scene { bytes, named: Named::of(&plan), form: Form::of(&plan), plan }
    }
}

pub struct Case<'a> {
    pub rng: Rng,
    /// Draws for what is asked about archive forms, so that the others of a seed do not depend on them.
    pub aside: Rng,
    pub judge: &'a mut Judge,
    pub damages: &'a Damages,
    /// A sheet to lend where no better one is at hand.
    pub sheet: Vec<u8>,
}

/// Runs the case of a seed.
pub fn run(seed: u64, damages: &Damages, judge: &mut Judge) -> Verdict {
    judge.begin(seed);
    let (rng, aside) = (Rng::new(seed), Rng::new(seed.rotate_left(32)));
    let mut case = Case { rng, aside, judge, damages, sheet: sheet::write(&[], 0, 0) };
    let draft = generate::draft(&mut case.rng);
    let scene = case.scene(&draft)?;
    case.note_plan(&scene);
    case.judge.plan(&scene.bytes, 0)?;
    case.archived(&scene)?;
    for (s, t) in case.pairs(&draft) {
        case.pair(&scene, s, t)?;
    }
    case.bad_queries(&scene)?;
    case.broken_plans(&scene)?;
    case.bounds(&draft)
}

impl Case<'_> {
    /// Lays a draft out; its bytes have to read back as the plan they were made from.
    fn scene(&mut self, draft: &Draft) -> Result<Scene, String> {
        let (records, plan) = lay_out(draft, &mut self.rng);
        let bytes = bytes_of(&records);
        if self.judge.verbose {
            println!("Plan with {} junctions, {} modes, {} records:", plan.junctions, plan.modes, records.len());
            print_records(&bytes);
        }
        match refusals::read(&bytes) {
            Ok(read) if read == plan => Ok(Scene::of(bytes, plan)),
            Ok(_) => Err("the tests' own reading of a plan differs from the plan".to_string()),
            Err(line) => Err(format!("the tests' own reading refuses a generated plan by line {line}")),
        }
    }

    /// Counts what sort of plan it is.
    fn note_plan(&mut self, scene: &Scene) {
        let Scene { bytes, plan, named, .. } = scene;
        let records = bytes.len() / RECORD;
        let tally = &mut self.judge.tally;
        tally.add("junctions", ["1", "2..12", "13..255", "256"][rank(plan.junctions, &[1, 12, 255])]);
        let sizes = ["up to 100", "up to 255", "256", "257", "up to 2047", "2048"];
        let size = sizes[rank(records, &[100, 255, 256, 257, 2047])];
        tally.add("records", if records == plan.junctions + 1 { "J + 1" } else { size });
        tally.add("modes", &plan.modes.to_string());
        tally.add("named belts", ["0", "1..4", "5..16", "17..47", "48"][rank(named.count, &[0, 4, 16, 47])]);
        let mut ends: Vec<(usize, usize)> = plan.belts.iter().map(|belt| (belt.from, belt.to)).collect();
        ends.sort();
        let bounds = plan.junctions == 256 && records == 2048 && plan.modes == 10 && named.count == 48;
        let found = [
            ("zero costs", !plan.belts.is_empty() && plan.belts.iter().all(|belt| belt.cost == 0)),
            ("belt cost over 65535", plan.belts.iter().any(|belt| belt.cost > 65_535)),
            ("belt cost 2^32 - 1", plan.belts.iter().any(|belt| belt.cost == (1 << 32) - 1)),
            ("twins", ends.windows(2).any(|pair| pair[0] == pair[1])),
            ("empty rule", plan.rules.iter().any(|rule| rule.is_empty())),
            ("belt twice in a rule", plan.rules.iter().any(|rule| names_twice(rule, true))),
            ("belt with both signs in a rule", plan.rules.iter().any(|rule| names_twice(rule, false))),
            ("no rules", plan.rules.is_empty()),
            ("all bounds at once", bounds),
        ];
        for (name, _) in found.iter().filter(|(_, found)| *found) {
            tally.add("plans", name);
        }
    }

    /// Pairs of junctions to ask about: all of a few, else some of each sort.
    fn pairs(&mut self, draft: &Draft) -> Vec<(usize, usize)> {
        let all = draft.junctions;
        if all <= 3 && self.rng.chance(1, 4) {
            return (1..=all).flat_map(|s| (1..=all).map(move |t| (s, t))).collect();
        }
        let (low, high) = draft.core;
        let mut pairs = vec![(low, high)];
        for _ in 0..2 {
            let (one, other) = (self.rng.range(low, high), self.rng.range(low, high));
            pairs.push((one.min(other), one.max(other)));
        }
        match self.rng.below(4) {
            0 => pairs.push((1, all)),
            1 => pairs.push((self.rng.range(1, all), self.rng.range(1, all))),
            2 => pairs.push((high, low)),
            _ => pairs.push((low, low)),
        }
        pairs.sort();
        pairs.dedup();
        pairs
    }

    /// Plans with one damage, with several, and with some that often leave a valid plan.
    fn broken_plans(&mut self, scene: &Scene) -> Verdict {
        let damages = self.damages;
        let all: Vec<&damage::Damage> = damages.plans.iter().collect();
        let blind: Vec<&damage::Damage> = damages.plans.iter().filter(|damage| damage.is_blind()).collect();
        for (choices, number) in
            [(&all, 1), (&all, 1), (&all, 1), (&all, 1), (&all, 1), (&all, 2), (&all, 3), (&blind, 1)]
        {
            let mut bytes = scene.bytes.clone();
            for _ in 0..number {
                let chosen = choices[self.rng.below(choices.len())];
                let applied = chosen.apply(&mut bytes, &mut self.rng);
                if applied && number == 1 && (chosen.is_blind() || refusals::read(&bytes).err() == Some(chosen.line)) {
                    self.judge.tally.add(PLAN_DAMAGE, &class(chosen.line, &chosen.name));
                }
                if applied && self.judge.verbose {
                    println!("Damage: {}. Records that changed:", class(chosen.line, &chosen.name));
                    print_changes(&scene.bytes, &bytes);
                }
            }
            self.broken_plan(scene, bytes)?;
        }
        Ok(())
    }

    /// A damaged plan: refused by all functions alike, or another valid plan.
    fn broken_plan(&mut self, scene: &Scene, bytes: Vec<u8>) -> Verdict {
        match refusals::read(&bytes) {
            Err(line) => self.refused(&bytes, line, scene.plan.junctions, scene.plan.modes),
            Ok(_) if bytes == scene.bytes => Ok(()),
            Ok(plan) => {
                self.judge.tally.add("plans", "damaged and still valid");
                self.judge.plan(&bytes, 0)?;
                let (one, other) = (self.rng.range(1, plan.junctions), self.rng.range(1, plan.junctions));
                let damaged = Scene::of(bytes, plan);
                self.archived(&damaged)?;
                if scene.form.agrees(&damaged.form)? {
                    self.judge.tally.add("same archive form", "damaged plan");
                }
                self.pair(&damaged, one.min(other), one.max(other))
            }
        }
    }

    /// A plan that breaks one of the lines 1 to 7, whatever else is asked.
    fn refused(&mut self, bytes: &[u8], line: u64, junctions: usize, modes: usize) -> Verdict {
        self.judge.plan(bytes, line)?;
        let mut query = self.bad_query(junctions, modes);
        if self.rng.chance(1, 2) {
            let trip = Trip { s: 1, t: junctions as u64, lock: lock::right(modes, &mut self.rng) };
            query = self.query(&trip, 0, 0, 1_000_000);
        }
        self.judge.search(bytes, &query, &Answer::Refused(line))?;
        let sheet = if self.rng.chance(1, 4) { Vec::new() } else { self.sheet.clone() };
        self.judge.check(bytes, &query.trip, &sheet, line)?;
        self.no_form(bytes, line)
    }

    /// Plans at and just over the bounds: named belts, records, junctions, modes.
    fn bounds(&mut self, draft: &Draft) -> Verdict {
        if draft.junctions > 1 && draft.records() < 1000 && self.rng.chance(1, 20) {
            let mut at = draft.clone();
            generate::name_belts(&mut at, MAX_NAMED, &mut self.rng);
            self.at_bound(&at)?;
            let more = if self.rng.chance(1, 2) { 1 } else { self.rng.range(1, 80) };
            generate::name_belts(&mut at, MAX_NAMED + more, &mut self.rng);
            self.over_bound(&at, 7, "named belts", "49 (refused)")?;
        }
        if self.rng.chance(1, 100) {
            let mut at = draft.clone();
            generate::fill(&mut at, MAX_RECORDS, &mut self.rng);
            self.at_bound(&at)?;
            let mut over = draft.clone();
            generate::fill(&mut over, MAX_RECORDS + 1, &mut self.rng);
            self.over_bound(&over, 1, "records", "2049 (refused)")?;
        }
        if draft.records() < 1000 && self.rng.chance(1, 50) {
            let over = Draft { junctions: MAX_JUNCTIONS + 1, ..draft.clone() };
            self.over_bound(&over, 2, "junctions", "257 (refused)")?;
            let over = Draft { modes: MAX_MODES + 1, ..draft.clone() };
            self.over_bound(&over, 2, "modes", "11 (refused)")?;
        }
        Ok(())
    }

    fn at_bound(&mut self, draft: &Draft) -> Verdict {
        let scene = self.scene(draft)?;
        self.note_plan(&scene);
        self.judge.plan(&scene.bytes, 0)?;
        self.archived(&scene)?;
        let (low, high) = draft.core;
        let t = self.rng.range(low, high);
        self.pair(&scene, low, t)
    }

    fn over_bound(&mut self, draft: &Draft, line: u64, group: &'static str, name: &str) -> Verdict {
        let (records, _) = lay_out(draft, &mut self.rng);
        let bytes = bytes_of(&records);
        if refusals::read(&bytes).err() != Some(line) {
            return Err(format!("the tests' own reading does not refuse this plan by line {line}"));
        }
        self.judge.tally.add(group, name);
        self.refused(&bytes, line, draft.junctions, draft.modes)
    }
}

/// The rule names a belt twice, with the same sign or with both.
fn names_twice(rule: &[Literal], same_sign: bool) -> bool {
    rule.iter().enumerate().filter(|(_, one)| matches!(one.about, About::Belt(_))).any(|(turn, one)| {
        let mut before = rule[..turn].iter();
        before.any(|other| other.about == one.about && (other.wanted == one.wanted) == same_sign)
    })
}

/// How many of the rising bounds the number is over.
pub fn rank(number: usize, bounds: &[usize]) -> usize {
    bounds.iter().filter(|bound| number > **bound).count()
}
