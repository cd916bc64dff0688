//! The archive form of a case's plan: its bytes, out buffers of all lengths, which plans have the same
//! form and which have another one, and the plan's queries asked of the form.

use crate::archive::{content, Form};
use crate::case::{Case, Scene};
use crate::change::{changed, CHANGES};
use crate::compare::{print_records, Answer, Verdict};
use crate::layout::{lay_out, lay_out_in_order};
use crate::plan::{bytes_of, records_of, About, Belt, Plan, Record, MAX_NAMED, MAX_RECORDS, RECORD};
use crate::refusals::{self, Query, SHEET_MAX};

impl Case<'_> {
    /// What is asked about the form of a plan. The plan's queries are asked of it one by one, by `search_both`.
    pub fn archived(&mut self, scene: &Scene) -> Verdict {
        self.note_form(scene);
        let form = &scene.form;
        if refusals::read(&form.bytes).map(|read| content(&read)).as_ref() != Ok(&form.content) {
            return Err("the tests' own archive form does not read back as the plan".to_string());
        }
        self.judge.plan(&form.bytes, 0)?;
        self.out_buffers(scene)?;
        // Writing twice changes nothing.
        let out_len = self.long_enough(form.bytes.len()).1;
        self.judge.archive(&form.bytes, out_len, Ok(&form.bytes))?;
        self.same_form(scene)?;
        self.other_forms(scene)
    }

    /// Out buffers that are long enough and others, at the bound and away from it.
    fn out_buffers(&mut self, scene: &Scene) -> Verdict {
        let length = scene.bytes.len();
        let short = [("one byte short", length - 1), self.too_short(length)];
        let long = [("as long as the plan", length), self.long_enough(length)];
        for (name, out_len) in short.into_iter().chain(long) {
            self.judge.tally.add("out for an archive form", name);
            if out_len < length {
                self.judge.tally.add_lines("lines broken, archive form", &[16]);
                self.judge.archive(&scene.bytes, out_len, Err(16))?;
            } else {
                self.judge.archive(&scene.bytes, out_len, Ok(&scene.form.bytes))?;
            }
        }
        Ok(())
    }

    /// A length below that of a plan, and its name. What a sheet takes is not enough for a longer plan.
    fn too_short(&mut self, length: usize) -> (&'static str, usize) {
        match self.aside.below(4) {
            0 => ("empty", 0),
            1 => ("one record short", length - RECORD),
            2 if length > SHEET_MAX => ("3072 bytes, and short", SHEET_MAX),
            _ => ("short", self.aside.below(length)),
        }
    }

    /// A length from that of a plan on, and its name. A short plan needs less than a sheet.
    fn long_enough(&mut self, length: usize) -> (&'static str, usize) {
        match self.aside.below(6) {
            0 if length < SHEET_MAX => ("long enough, under 3072 bytes", self.aside.range(length, SHEET_MAX - 1)),
            0 | 1 => ("one byte more", length + 1),
            2 => ("one record more", length + RECORD),
            3 => ("70000 bytes", 70_000.max(length)),
            _ => ("more", length + self.aside.range(1, 1200)),
        }
    }

    /// A plan that is refused with a line of 1 to 7 has no form, whether out is long enough or not.
    pub fn no_form(&mut self, bytes: &[u8], line: u64) -> Verdict {
        let length = bytes.len();
        let short = if self.aside.chance(1, 3) { 0 } else { self.aside.below(length.max(1)) };
        let enough = if self.aside.chance(1, 3) { length } else { length + self.aside.range(1, 100) };
        for out_len in [short, enough] {
            if length == 0 && out_len == 0 {
                self.judge.tally.add("out for an archive form", "empty, and the plan too");
            }
            let lines = if out_len < length { vec![line, 16] } else { vec![line] };
            self.judge.tally.add_lines("lines broken, archive form", &lines);
            self.judge.archive(bytes, out_len, Err(line))?;
        }
        Ok(())
    }

    /// Plans with the same content, but rules and literals at other places, have the same form.
    fn same_form(&mut self, scene: &Scene) -> Verdict {
        for _ in 0..2 {
            let (records, plan) = lay_out_in_order(&scene.form.content, &mut self.aside);
            let bytes = self.accepted(&records, &plan)?;
            if content(&plan) != scene.form.content {
                return Err("the tests' own layout does not keep the order of the belts".to_string());
            }
            let name = if bytes == scene.bytes { "same bytes" } else { "rules and literals elsewhere" };
            self.judge.tally.add("same archive form", name);
            let out_len = self.long_enough(bytes.len()).1;
            self.judge.archive(&bytes, out_len, Ok(&scene.form.bytes))?;
        }
        Ok(())
    }

    /// Plans with another content, by one change each, have another form.
    fn other_forms(&mut self, scene: &Scene) -> Verdict {
        for _ in 0..3 {
            let (name, apply) = CHANGES[self.aside.below(CHANGES.len())];
            let Some(draft) = changed(&scene.form.content, apply, &mut self.aside) else { continue };
            let (records, plan) = lay_out_in_order(&draft, &mut self.aside);
            if records.len() > MAX_RECORDS || plan.named().len() > MAX_NAMED {
                continue;
            }
            self.judge.tally.add("another archive form by", name);
            self.other_form(scene, &records, &plan)?;
        }
        let (records, plan) = lay_out(&scene.form.content, &mut self.aside);
        if content(&plan) == scene.form.content {
            return Ok(());
        }
        self.judge.tally.add("another archive form by", "layout with the belts in another order");
        self.other_form(scene, &records, &plan)
    }

    /// A plan whose content differs: the library writes its form, and that is another one.
    fn other_form(&mut self, scene: &Scene, records: &[Record], plan: &Plan) -> Verdict {
        let bytes = self.accepted(records, plan)?;
        let form = Form::of(plan);
        if scene.form.agrees(&form)? {
            return Err("a changed plan has the same content".to_string());
        }
        self.judge.archive(&bytes, bytes.len(), Ok(&form.bytes))
    }

    /// The bytes of records that stand for this plan, and that the tests and the library accept.
    fn accepted(&mut self, records: &[Record], plan: &Plan) -> Result<Vec<u8>, String> {
        let bytes = bytes_of(records);
        if self.judge.verbose {
            println!("Another plan:");
            print_records(&bytes);
        }
        if refusals::read(&bytes).as_ref() != Ok(plan) {
            return Err("the tests' own reading of another plan differs from that plan".to_string());
        }
        self.judge.plan(&bytes, 0)?;
        Ok(bytes)
    }

    /// Asks a query of a plan, and of its form: the same answer, with the belts renumbered.
    pub fn search_both(&mut self, scene: &Scene, query: &Query, answer: &Answer) -> Verdict {
        self.judge.search(&scene.bytes, query, answer)?;
        let renumbered = scene.form.answer(answer);
        let name = match (answer, &renumbered) {
            (Answer::Refused(line), _) => format!("refused with {line}"),
            (Answer::None { .. }, _) => "none".to_string(),
            (Answer::Spent { .. }, _) => "spent".to_string(),
            (Answer::Route { sheet: old, .. }, Answer::Route { sheet: new, .. }) if old == new => {
                "same sheet".to_string()
            }
            (Answer::Route { .. }, _) => "sheet with other belts".to_string(),
        };
        self.judge.tally.add("queries of archive forms", &name);
        let verdict = self.judge.search(&scene.form.bytes, query, &renumbered);
        verdict.map_err(|message| format!("of the archive form, {message}"))
    }

    /// Counts what the writer has to do for this form.
    fn note_form(&mut self, scene: &Scene) {
        let Scene { bytes, plan, form, .. } = scene;
        let records = records_of(bytes);
        let moved = |name: usize| form.renumbered(name) != name;
        let belts = |fits: &dyn Fn(&Belt) -> bool| plan.belts.iter().any(|belt| moved(belt.name) && fits(belt));
        let named = plan.named();
        let found = [
            ("the plan itself", *bytes == form.bytes),
            ("no record above the junctions", records.len() == plan.junctions + 1),
            ("rules and no belts", plan.belts.is_empty() && !plan.rules.is_empty()),
            ("2048 records", records.len() == MAX_RECORDS),
            ("belts renumbered", belts(&|_| true)),
            ("belts of high cost renumbered", belts(&|belt| belt.cost > 65_535)),
            ("named belts renumbered", belts(&|belt| named.contains(&belt.name))),
            ("belts not in the order of their junctions", plan.belts.windows(2).any(|two| two[0].from > two[1].from)),
            ("mode with the number of a renumbered belt", modes(plan).any(|mode| form.names(mode) && moved(mode))),
            ("modes not in the order of their numbers", !in_order(plan)),
            ("rule before a belt", after(&records, 3).any(|kind| kind == 2)),
            ("literal before the belt that it names", literals(&records).any(|(at, literal)| names_later(at, literal))),
            ("first literal not behind its rule", heads(&records).any(|(at, head)| head != at + 1)),
            (
                "rule between two literals of another",
                literals(&records).any(|(at, literal)| leaps(&records, at, literal)),
            ),
            ("empty rule before another", plan.rules.iter().rev().skip(1).any(|rule| rule.is_empty())),
            ("empty rule at the end", plan.rules.last().is_some_and(|rule| rule.is_empty())),
        ];
        for (name, _) in found.iter().filter(|(_, found)| *found) {
            self.judge.tally.add("archive forms", name);
        }
    }
}

/// The modes that the rules name, in the order in which they do.
fn modes(plan: &Plan) -> impl Iterator<Item = usize> + '_ {
    plan.rules.iter().flatten().filter_map(|literal| match literal.about {
        About::Mode(mode) => Some(mode),
        About::Belt(_) => None,
    })
}

/// No mode is named before each lower one was.
fn in_order(plan: &Plan) -> bool {
    let mut highest = 0;
    for mode in modes(plan) {
        if mode > highest + 1 {
            return false;
        }
        highest = highest.max(mode);
    }
    true
}

/// The kinds of the records from the first one of this kind on.
fn after(records: &[Record], kind: u16) -> impl Iterator<Item = u16> + '_ {
    records.iter().map(|record| record[0]).skip_while(move |other| *other != kind)
}

/// The literal records, with their indices.
fn literals(records: &[Record]) -> impl Iterator<Item = (usize, &Record)> {
    records.iter().enumerate().filter(|(_, record)| record[0] == 4)
}

/// The rules that have literals: their indices, and those of the first literals.
fn heads(records: &[Record]) -> impl Iterator<Item = (usize, usize)> + '_ {
    let rules = records.iter().enumerate().filter(|(_, record)| record[0] == 3 && record[2] != 0);
    rules.map(|(at, record)| (at, record[2].into()))
}

fn names_later(at: usize, literal: &Record) -> bool {
    literal[3] == 0 && usize::from(literal[4]) > at
}

/// A rule stands between a literal and the next one of its chain.
fn leaps(records: &[Record], at: usize, literal: &Record) -> bool {
    let next = usize::from(literal[1]);
    next != 0 && records[at..next].iter().any(|record| record[0] == 3)
}
