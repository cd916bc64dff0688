//! The plans of the folder `examples`, from the first junction to the last. What the
//! planner answers there is compared elsewhere: here a sheet that it writes has to
//! be accepted, the archive form has to answer alike, and the stack of each call counts.

use crate::archive::Form;
use crate::call;
use crate::compare::{Answer, Judge, Verdict};
use crate::lock::FREE;
use crate::refusals::{self, Query, Trip, SHEET_MAX};
use crate::rng::Rng;
use std::path::Path;

const BUDGET: u64 = 10_000;

pub fn run(judge: &mut Judge) -> Verdict {
    let folder = Path::new(env!("CARGO_MANIFEST_DIR")).join("../examples");
    for entry in std::fs::read_dir(folder).expect("the folder of examples") {
        let path = entry.expect("a file").path();
        if path.extension().is_some_and(|ending| ending == "plan") {
            run_plan(&std::fs::read(&path).expect("a plan"), judge)?;
        }
    }
    Ok(())
}

fn run_plan(bytes: &[u8], judge: &mut Judge) -> Verdict {
    let plan = match refusals::read(bytes) {
        Ok(plan) => plan,
        Err(line) => {
            judge.archive(bytes, bytes.len(), Err(line))?;
            return judge.plan(bytes, line);
        }
    };
    judge.plan(bytes, 0)?;
    let form = Form::of(&plan);
    judge.archive(bytes, bytes.len(), Ok(&form.bytes))?;
    let trip = Trip { s: 1, t: plan.junctions as u64, lock: FREE };
    for (pick, order) in [(0, 0), (0, 1), (1, 0), (1, 1), (2, 0), (2, 1)] {
        let query = Query { trip, pick, order, budget: BUDGET, out_len: SHEET_MAX };
        let got = call::search(bytes, &query, &mut Rng::new(0));
        let opened = got.reply.opened;
        let answer = match got.reply.number {
            0 => Answer::Route { opened, sheet: got.out[..got.reply.length as usize].to_vec() },
            100 => Answer::None { opened },
            101 => Answer::Spent { opened },
            other => Answer::Refused(other),
        };
        if let Answer::Route { sheet, .. } = &answer {
            judge.check(bytes, &trip, sheet, 0)?;
        }
        // Of a plan that is its own archive form it would be the same question twice.
        if form.bytes != bytes {
            judge.search(&form.bytes, &query, &form.answer(&answer))?;
        }
    }
    Ok(())
}
