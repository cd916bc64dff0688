//! Calls the library and compares its answer, and everything lent to it, with
//! what is expected.

use crate::call::{self, PlannerReply, Replied};
use crate::lock::FREE;
use crate::plan::{records_of, Record, RECORD};
use crate::refusals::{Query, Trip};
use crate::rng::Rng;
use crate::tally::Tally;

/// Nothing, or what went wrong.
pub type Verdict = Result<(), String>;

/// What a search is expected to answer.
#[derive(Clone, Debug)]
pub enum Answer {
    Refused(u64),
    Route { opened: u64, sheet: Vec<u8> },
    None { opened: u64 },
    Spent { opened: u64 },
}

pub struct Judge {
    pub tally: Tally,
    pub verbose: bool,
    /// For guard bytes and for what buffers hold before a call.
    guards: Rng,
}

impl Judge {
    pub fn new(verbose: bool) -> Judge {
        Judge { tally: Tally::default(), verbose, guards: Rng::new(0) }
    }

    /// Makes the guard bytes of a case depend on its seed alone.
    pub fn begin(&mut self, seed: u64) {
        self.guards = Rng::new(!seed);
    }

    pub fn plan(&mut self, plan: &[u8], expected: u64) -> Verdict {
        let (number, strayed) = call::check_plan(plan, &mut self.guards);
        self.tally.add("answers of planner_check_plan", &number.to_string());
        self.number(&format!("plan of {} bytes", plan.len()), plan, expected, number, strayed)
    }

    pub fn check(&mut self, plan: &[u8], trip: &Trip, sheet: &[u8], expected: u64) -> Verdict {
        let (number, strayed) = call::check_sheet(plan, trip, sheet, &mut self.guards);
        self.tally.add("answers of planner_check_sheet", &number.to_string());
        let what = format!("check {}, sheet of {} bytes ({})", told(trip), sheet.len(), shown(sheet));
        self.number(&what, plan, expected, number, strayed)
    }

    /// Compares a bare number, and asks that nothing changed.
    fn number(&mut self, what: &str, plan: &[u8], expected: u64, got: u64, strayed: Option<String>) -> Verdict {
        if self.verbose {
            println!("{what}: expected {expected}, got {got}");
        }
        if got != expected {
            return self.wrong(plan, format!("{what}: expected {expected}, got {got}"));
        }
        strayed.map_or(Ok(()), |strayed| self.wrong(plan, format!("{what}: {strayed}")))
    }

    pub fn search(&mut self, plan: &[u8], query: &Query, expected: &Answer) -> Verdict {
        let got = call::search(plan, query, &mut self.guards);
        self.note_search(query, expected, got.reply.number);
        let what = format!(
            "search {}, pick {}, order {}, budget {}, out {} bytes",
            told(&query.trip),
            query.pick,
            query.order,
            query.budget,
            query.out_len
        );
        self.written(&what, plan, expected.after(&got), &got)
    }

    /// The archive form of a plan: its bytes are expected, or the line that is broken.
    pub fn archive(&mut self, plan: &[u8], out_len: usize, expected: Result<&[u8], u64>) -> Verdict {
        let got = call::archive(plan, out_len, &mut self.guards);
        self.tally.add("answers of planner_archive", &got.reply.number.to_string());
        let what = format!("archive form of {} bytes, out {out_len} bytes", plan.len());
        let (number, form) = match expected {
            Ok(form) => (0, form),
            Err(line) => (line, &[][..]),
        };
        let wanted = State::with(PlannerReply { number, opened: 0, length: form.len() as u64, tests: 0 }, form, &got);
        self.written(&what, plan, wanted, &got)
    }

    /// Compares a whole reply and the whole out buffer, and asks that nothing else changed.
    fn written(&mut self, what: &str, plan: &[u8], wanted: State, got: &Replied) -> Verdict {
        let state = State { reply: got.reply, out: got.out.clone() };
        if self.verbose {
            println!("{what}: expected {}, got {}", wanted.shown(), state.shown());
        }
        if let Some(strayed) = &got.strayed {
            return self.wrong(plan, format!("{what}: {strayed}"));
        }
        if wanted != state {
            let differs = got.out.iter().zip(&wanted.out).position(|(got, wanted)| got != wanted);
            let told = |at| format!("; out differs first at byte {at}, in record {}", at / RECORD);
            let differs = differs.map_or(String::new(), told);
            return self.wrong(plan, format!("{what}: expected {}, got {}{differs}", wanted.shown(), state.shown()));
        }
        Ok(())
    }

    fn note_search(&mut self, query: &Query, expected: &Answer, number: u64) {
        self.tally.add("answers of planner_search", &number.to_string());
        let ending = match expected {
            Answer::Refused(_) => return,
            Answer::Route { .. } => "route",
            Answer::None { .. } => "none",
            Answer::Spent { .. } => "spent",
        };
        self.tally.add("ending", ending);
        let class = format!("{} {} {ending}", query.pick, query.order);
        self.tally.add("pick, order and ending", &class);
        if query.trip.lock != FREE {
            self.tally.add("pick, order and ending under a lock", &class);
        }
    }

    /// A failure; where one case is repeated, the plan's records are printed too.
    fn wrong(&self, plan: &[u8], message: String) -> Verdict {
        if self.verbose {
            println!("The plan of the call that went wrong:");
            print_records(plan);
        }
        Err(message)
    }
}

/// A reply, and the out buffer after the call.
#[derive(PartialEq)]
struct State {
    reply: PlannerReply,
    out: Vec<u8>,
}

impl State {
    /// This reply, and these bytes at the start of out, which else is as it was.
    fn with(reply: PlannerReply, written: &[u8], got: &Replied) -> State {
        let mut out = got.out_before.clone();
        out[..written.len()].copy_from_slice(written);
        State { reply, out }
    }

    fn shown(&self) -> String {
        let PlannerReply { number, opened, length, tests } = self.reply;
        let written = if number == 0 && length as usize <= self.out.len() {
            shown(&self.out[..length as usize])
        } else {
            String::from("nothing written")
        };
        format!("{number} opened {opened} length {length} tests {tests} ({written})")
    }
}

impl Answer {
    /// What everything has to be after the call, from what the buffer was before.
    fn after(&self, got: &Replied) -> State {
        let (number, opened, sheet) = match self {
            Answer::Refused(number) => (*number, 0, &[][..]),
            Answer::None { opened } => (100, *opened, &[][..]),
            Answer::Spent { opened } => (101, *opened, &[][..]),
            Answer::Route { opened, sheet } => (0, *opened, &sheet[..]),
        };
        State::with(PlannerReply { number, opened, length: sheet.len() as u64, tests: 0 }, sheet, got)
    }
}

/// The ends and the lock, in words.
fn told(trip: &Trip) -> String {
    format!("from {} to {}, mask {}, values {}", trip.s, trip.t, trip.lock.mask, trip.lock.values)
}

fn fields(record: &Record) -> String {
    record.map(|field| field.to_string()).join(" ")
}

/// The first records of a sheet or of a plan, and how many there are more.
fn shown(bytes: &[u8]) -> String {
    let records = records_of(bytes);
    let mut words: Vec<String> = records.iter().take(12).map(fields).collect();
    if records.len() > 12 {
        words.push(format!("and {} records more", records.len() - 12));
    }
    words.join("; ")
}

pub fn print_records(bytes: &[u8]) {
    for (index, record) in records_of(bytes).iter().enumerate() {
        println!("  {index}: {}", fields(record));
    }
    println!("  {} bytes", bytes.len());
}

/// The records that differ from those before.
pub fn print_changes(before: &[u8], after: &[u8]) {
    let old = records_of(before);
    for (index, record) in records_of(after).iter().enumerate().take(4096) {
        if old.get(index) != Some(record) {
            println!("  {index}: {}", fields(record));
        }
    }
    println!("  {} bytes", after.len());
}
