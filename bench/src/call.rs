//! Calls into libplanner.a.

use crate::query::{Answer, Query};

#[repr(C)]
struct PlannerQuery {
    s: u64,
    t: u64,
    pick: u64,
    order: u64,
    budget: u64,
    mask: u64,
    values: u64,
    minute: u64,
}

#[repr(C)]
struct PlannerReply {
    number: u64,
    opened: u64,
    length: u64,
    tests: u64,
}

extern "C" {
    fn planner_check_plan(plan: *const u8, plan_len: usize) -> u64;
    fn planner_search(
        plan: *const u8,
        plan_len: usize,
        query: PlannerQuery,
        out: *mut u8,
        out_len: usize,
    ) -> PlannerReply;
    fn planner_archive(
        plan: *const u8,
        plan_len: usize,
        out: *mut u8,
        out_len: usize,
    ) -> PlannerReply;
}

pub fn check_plan(plan: &[u8]) -> u64 {
    // SAFETY: the slice is valid for its length and is only read.
    unsafe { planner_check_plan(plan.as_ptr(), plan.len()) }
}

pub fn search(plan: &[u8], query: &Query, out: &mut [u8]) -> Answer {
    let &Query { s, t, pick, order, budget, mask, values } = query;
    let asked = PlannerQuery { s, t, pick, order, budget, mask, values, minute: 0 };
    // SAFETY: both slices are valid for their lengths, and they do not overlap.
    let reply =
        unsafe { planner_search(plan.as_ptr(), plan.len(), asked, out.as_mut_ptr(), out.len()) };
    answer(reply)
}

pub fn archive(plan: &[u8], out: &mut [u8]) -> Answer {
    // SAFETY: as above.
    let reply = unsafe { planner_archive(plan.as_ptr(), plan.len(), out.as_mut_ptr(), out.len()) };
    answer(reply)
}

fn answer(reply: PlannerReply) -> Answer {
    assert_eq!(reply.tests, 0, "no tests are counted yet");
    Answer { number: reply.number, opened: reply.opened, length: reply.length }
}
