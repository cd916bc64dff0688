//! The baseline: the same search in plain, safe Rust, from plan bytes to sheet, and the
//! same archive form.
//!
//! words      a belt in one word
//! depot      the plan decoded into words by junction, and rules
//! relax      the relaxed route of a subproblem
//! rules      the rule test and the lowest setting
//! search     the stack of subproblems
//! sheet      the route sheet
//! archive    the archive form of a plan

mod archive;
mod depot;
mod relax;
mod rules;
mod search;
mod sheet;
#[cfg(test)]
mod tests;
mod words;

use crate::check;
use crate::query::{Answer, Query, NONE, ROUTE, SPENT};
use crate::records::{Record, SHEET_MAX};
pub use archive::archive;
use depot::Depot;
use search::{Ending, Search};

/// The whole call: checks the plan and the query, searches, writes the sheet.
pub fn search(plan: &[u8], query: &Query, out: &mut [u8]) -> Answer {
    match answer(plan, query, out) {
        Ok(answer) => answer,
        Err(number) => Answer { number, opened: 0, length: 0 },
    }
}

fn answer(plan: &[u8], query: &Query, out: &mut [u8]) -> Result<Answer, u64> {
    let records = check::check(plan)?;
    check_query(query, &records[0], out.len())?;
    let depot = Depot::new(&records, query.pick);
    let mut search = Search::new(&depot, query);
    let ending = search.run();
    let opened = search.opened();
    Ok(match ending {
        Ending::Route(best) => {
            let length = sheet::write(&best, out) as u64;
            Answer { number: ROUTE, opened, length }
        }
        Ending::None => Answer { number: NONE, opened, length: 0 },
        Ending::Spent => Answer { number: SPENT, opened, length: 0 },
    })
}

/// Lines 8, 15, 9 and 10 of the refusal table, in this order.
fn check_query(query: &Query, head: &Record, room: usize) -> Result<(), u64> {
    let [_, junctions, modes, ..] = *head;
    let known = 1..=u64::from(junctions);
    if !known.contains(&query.s) || !known.contains(&query.t) {
        return Err(8);
    }
    if query.mask >> modes != 0 || query.values & !query.mask != 0 {
        return Err(15);
    }
    if query.pick > 2 || query.order > 1 || query.budget == 0 {
        return Err(9);
    }
    if room < SHEET_MAX {
        return Err(10);
    }
    Ok(())
}
