//! The library's functions, each called with buffers that stand between guard
//! bytes. What is lent is compared with what it was before the call.

use crate::lock::Lock;
use crate::refusals::{Query, Trip};
use crate::rng::Rng;
use crate::stack;

/// The query as the library takes it.
#[repr(C)]
#[derive(Clone, Copy)]
struct PlannerQuery {
    s: u64,
    t: u64,
    pick: u64,
    order: u64,
    budget: u64,
    mask: u64,
    values: u64,
    minute: u64,
}

/// The reply as the library gives it.
#[repr(C)]
#[derive(Clone, Copy, Debug, PartialEq)]
pub struct PlannerReply {
    pub number: u64,
    pub opened: u64,
    pub length: u64,
    pub tests: u64,
}

extern "C" {
    fn planner_check_plan(plan: *const u8, plan_len: usize) -> u64;
    fn planner_search(
        plan: *const u8,
        plan_len: usize,
        query: PlannerQuery,
        out: *mut u8,
        out_len: usize,
    ) -> PlannerReply;
    fn planner_check_sheet(
        plan: *const u8,
        plan_len: usize,
        query: PlannerQuery,
        sheet: *const u8,
        sheet_len: usize,
    ) -> u64;
    fn planner_archive(plan: *const u8, plan_len: usize, out: *mut u8, out_len: usize) -> PlannerReply;
}

const GUARD: usize = 64;

/// Bytes between random guard bytes, at any alignment.
struct Lent {
    memory: Vec<u8>,
    before: Vec<u8>,
    start: usize,
    len: usize,
    null: bool,
}

impl Lent {
    fn new(content: &[u8], rng: &mut Rng) -> Lent {
        let start = GUARD + rng.below(16);
        let mut memory = rng.bytes(start);
        memory.extend_from_slice(content);
        memory.extend(rng.bytes(GUARD));
        let null = content.is_empty() && rng.chance(1, 2);
        Lent { before: memory.clone(), memory, start, len: content.len(), null }
    }

    /// Where the content starts; without any it may also be null.
    fn pointer(&mut self) -> *mut u8 {
        if self.null {
            return std::ptr::null_mut();
        }
        self.memory[self.start..].as_mut_ptr()
    }

    fn content(&self) -> &[u8] {
        &self.memory[self.start..self.start + self.len]
    }

    fn content_before(&self) -> &[u8] {
        &self.before[self.start..self.start + self.len]
    }

    fn guards_changed(&self) -> bool {
        let end = self.start + self.len;
        self.memory[..self.start] != self.before[..self.start] || self.memory[end..] != self.before[end..]
    }

    /// Says what changed in memory that is only read.
    fn read_only(&self, what: &str) -> Option<String> {
        if self.guards_changed() {
            return Some(format!("guard bytes of the {what} changed"));
        }
        (self.memory != self.before).then(|| format!("the {what} changed"))
    }
}

/// What a function that writes answered, with its out buffer before and after.
pub struct Replied {
    pub reply: PlannerReply,
    pub out_before: Vec<u8>,
    pub out: Vec<u8>,
    /// What changed that no answer may change.
    pub strayed: Option<String>,
}

impl Replied {
    fn of(reply: PlannerReply, plan: &Lent, out: &Lent) -> Replied {
        let strayed = plan.read_only("plan");
        let strayed = strayed.or(out.guards_changed().then(|| "guard bytes of out changed".to_string()));
        Replied { reply, out_before: out.content_before().to_vec(), out: out.content().to_vec(), strayed }
    }
}

/// The number, and what changed though nothing may.
pub fn check_plan(plan: &[u8], rng: &mut Rng) -> (u64, Option<String>) {
    let mut plan = Lent::new(plan, rng);
    let (pointer, len) = (plan.pointer(), plan.len);
    // SAFETY: the pointer has that many bytes behind it.
    let number = stack::CHECK_PLAN.call(|| unsafe { planner_check_plan(pointer, len) });
    (number, plan.read_only("plan"))
}

/// The query of a trip. What the trip does not say has any value.
fn asked(trip: &Trip, rng: &mut Rng) -> PlannerQuery {
    let &Trip { s, t, lock: Lock { mask, values } } = trip;
    let [pick, order, budget, minute] = std::array::from_fn(|_| rng.next());
    PlannerQuery { s, t, pick, order, budget, mask, values, minute }
}

pub fn search(plan: &[u8], query: &Query, rng: &mut Rng) -> Replied {
    let mut plan = Lent::new(plan, rng);
    let mut out = Lent::new(&rng.bytes(query.out_len), rng);
    let &Query { pick, order, budget, .. } = query;
    let asked = PlannerQuery { pick, order, budget, ..asked(&query.trip, rng) };
    let (plan_pointer, plan_len, out_pointer, out_len) = (plan.pointer(), plan.len, out.pointer(), out.len);
    // SAFETY: each buffer has as many bytes as is said, and none overlaps another.
    let reply = stack::SEARCH.call(|| unsafe { planner_search(plan_pointer, plan_len, asked, out_pointer, out_len) });
    Replied::of(reply, &plan, &out)
}

/// The archive form of a plan, into an out buffer of this length.
pub fn archive(plan: &[u8], out_len: usize, rng: &mut Rng) -> Replied {
    let mut plan = Lent::new(plan, rng);
    let mut out = Lent::new(&rng.bytes(out_len), rng);
    let (plan_pointer, plan_len, out_pointer, out_len) = (plan.pointer(), plan.len, out.pointer(), out.len);
    // SAFETY: each buffer has as many bytes as is said, and none overlaps another.
    let reply = stack::ARCHIVE.call(|| unsafe { planner_archive(plan_pointer, plan_len, out_pointer, out_len) });
    Replied::of(reply, &plan, &out)
}

/// The number, and what changed though nothing may. Pick, order, budget and minute are not
/// looked at here.
pub fn check_sheet(plan: &[u8], trip: &Trip, sheet: &[u8], rng: &mut Rng) -> (u64, Option<String>) {
    // Plan and sheet may overlap: the same bytes are lent once or twice.
    let once = plan == sheet && rng.chance(1, 2);
    let mut plan = Lent::new(plan, rng);
    let mut sheet = Lent::new(sheet, rng);
    let asked = asked(trip, rng);
    let (plan_pointer, plan_len) = (plan.pointer(), plan.len);
    let (sheet_pointer, sheet_len) = (if once { plan_pointer } else { sheet.pointer() }, sheet.len);
    // SAFETY: each pointer has that many bytes behind it.
    let number = stack::CHECK_SHEET
        .call(|| unsafe { planner_check_sheet(plan_pointer, plan_len, asked, sheet_pointer, sheet_len) });
    (number, plan.read_only("plan").or(sheet.read_only("sheet")))
}
