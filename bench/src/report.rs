//! Compares both sides on each row, times them, and prints the tables.

use crate::measure::{in_turn, Times};
use crate::query::{Answer, Query, NONE, ROUTE, SPENT, WRITTEN};
use crate::records::{PLAN_MAX, SHEET_MAX};
use crate::rows::{PlanRow, Row};
use crate::{baseline, call, check};
use std::hint::black_box;
use std::time::Duration;

/// Above this ratio a row is marked.
const SLOW: f64 = 1.25;

/// A writer of an archive form is to take at most so many times what the planner's own
/// check of the same plan takes.
const CHECKS: f64 = 2.0;

const SEARCH_HEAD: &str = "\
Searches, from plan bytes to sheet: opened subproblems per second.
The out buffer is used again and not cleared between calls.
ratio: processor time of the planner / of Rust, the best of several turns each.

row                    junc belts rules named modes pick order ending  opened   planner/s      Rust/s  ratio";

const CHECK_HEAD: &str = "
Plan check: bytes per second.

row                     bytes answer   planner/s      Rust/s  ratio";

const ARCHIVE_HEAD: &str = "
Archive form, from plan bytes to those of the form, the check of the plan among it: bytes per second.
checks: processor time of the planner / of its own check of the same plan.

row                     bytes checks   planner/s      Rust/s  ratio";

const REFUSED: &str = "
The ending is the number of a refusal. Nothing is opened: the speeds are calls per second.";

/// The rows of the benchmark, none of which may be refused.
pub fn searches(rows: &[Row], time: Duration) -> Result<(), String> {
    if rows.is_empty() {
        return Ok(());
    }
    println!("{SEARCH_HEAD}");
    let mut ratios = Vec::new();
    for row in rows {
        let answer = same_answer(row)?;
        if answer.refused() {
            return Err(format!("row {}: refused with {}", row.name, answer.number));
        }
        ratios.push(search(row, &answer, time));
    }
    summary(&ratios);
    Ok(())
}

/// The row of a plan file. If it is refused on both sides, that is measured.
pub fn file(row: &Row, time: Duration) -> Result<(), String> {
    let answer = same_answer(row)?;
    println!("{SEARCH_HEAD}");
    let ratio = search(row, &answer, time);
    if answer.refused() {
        println!("{REFUSED}");
    }
    summary(&[ratio]);
    Ok(())
}

fn search(row: &Row, answer: &Answer, time: Duration) -> f64 {
    let mut out = [0; SHEET_MAX];
    let mut rust_out = [0; SHEET_MAX];
    let times = in_turn(
        time,
        &mut || {
            let (plan, query) = black_box((&row.plan, &row.query));
            black_box(call::search(plan, query, &mut out));
        },
        &mut || {
            let (plan, query) = black_box((&row.plan, &row.query));
            black_box(baseline::search(plan, query, &mut rust_out));
        },
    );
    print_size(row);
    let Query { pick, order, .. } = row.query;
    print!(" {pick:>4} {order:>5} {:>6} {:>7}", ending(answer.number), answer.opened);
    let units = if answer.refused() { 1 } else { answer.opened };
    print_speed(&times, units as f64);
    times.ratio()
}

/// Starts a row: its name and the size of its plan, unknown if it is refused.
fn print_size(row: &Row) {
    let sizes = match &row.size {
        Some(size) => [size.junctions, size.belts, size.rules, size.named, size.modes]
            .map(|size| size.to_string()),
        None => ["-"; 5].map(String::from),
    };
    let [junctions, belts, rules, named, modes] = sizes;
    let name = &row.name;
    print!("{name:<22} {junctions:>4} {belts:>5} {rules:>5} {named:>5} {modes:>5}");
}

/// Both sides must agree on the number, the count and every byte of the buffer.
fn same_answer(row: &Row) -> Result<Answer, String> {
    let mut out = [0xA5; SHEET_MAX];
    let mut rust_out = out;
    let answer = call::search(&row.plan, &row.query, &mut out);
    let rust = baseline::search(&row.plan, &row.query, &mut rust_out);
    if answer != rust {
        let name = &row.name;
        return Err(format!("row {name}: the planner answers {answer:?}, and Rust {rust:?}"));
    }
    if out != rust_out {
        return Err(format!("row {}: the answers agree, and the sheets differ", row.name));
    }
    Ok(answer)
}

fn ending(number: u64) -> String {
    match number {
        ROUTE => "route".into(),
        NONE => "none".into(),
        SPENT => "spent".into(),
        refused => refused.to_string(),
    }
}

pub fn plan_checks(rows: &[PlanRow], time: Duration) -> Result<(), String> {
    if rows.is_empty() {
        return Ok(());
    }
    println!("{CHECK_HEAD}");
    let mut ratios = Vec::new();
    for row in rows {
        ratios.push(plan_check(row, time)?);
    }
    summary(&ratios);
    Ok(())
}

fn plan_check(row: &PlanRow, time: Duration) -> Result<f64, String> {
    let number = call::check_plan(&row.plan);
    let rust = check::number(&row.plan);
    if number != rust {
        return Err(format!("row {}: the planner answers {number}, and Rust {rust}", row.name));
    }
    let times = in_turn(
        time,
        &mut || {
            black_box(call::check_plan(black_box(&row.plan)));
        },
        &mut || {
            black_box(check::number(black_box(&row.plan)));
        },
    );
    print!("{:<22} {:>6} {:>6}", row.name, row.plan.len(), number);
    print_speed(&times, row.plan.len() as f64);
    Ok(times.ratio())
}

pub fn archives(rows: &[PlanRow], time: Duration) -> Result<(), String> {
    if rows.is_empty() {
        return Ok(());
    }
    println!("{ARCHIVE_HEAD}");
    let (mut ratios, mut checks) = (Vec::new(), 0.0);
    for row in rows {
        let (ratio, check) = archive(row, time)?;
        ratios.push(ratio);
        checks = f64::max(checks, check);
    }
    summary(&ratios);
    println!("checks: at most {checks:.2}, and the aim is {CHECKS:.2}");
    Ok(())
}

/// The ratio to Rust, and that to the planner's own check.
fn archive(row: &PlanRow, time: Duration) -> Result<(f64, f64), String> {
    same_form(row)?;
    let mut out = [0; PLAN_MAX];
    let mut rust_out = [0; PLAN_MAX];
    let times = in_turn(
        time,
        &mut || {
            black_box(call::archive(black_box(&row.plan), &mut out));
        },
        &mut || {
            black_box(baseline::archive(black_box(&row.plan), &mut rust_out));
        },
    );
    let beside_check = in_turn(
        time,
        &mut || {
            black_box(call::archive(black_box(&row.plan), &mut out));
        },
        &mut || {
            black_box(call::check_plan(black_box(&row.plan)));
        },
    );
    let checks = beside_check.ratio();
    print!("{:<22} {:>6} {:>6.2}", row.name, row.plan.len(), checks);
    print_speed(&times, row.plan.len() as f64);
    Ok((times.ratio(), checks))
}

/// Both sides must write the same bytes, and leave those behind them as they were.
fn same_form(row: &PlanRow) -> Result<(), String> {
    let name = row.name;
    let mut out = vec![0xA5; row.plan.len() + 100];
    let mut rust_out = out.clone();
    let answer = call::archive(&row.plan, &mut out);
    let rust = baseline::archive(&row.plan, &mut rust_out);
    if answer != rust {
        return Err(format!("row {name}: the planner answers {answer:?}, and Rust {rust:?}"));
    }
    if answer.number != WRITTEN {
        return Err(format!("row {name}: refused with {}", answer.number));
    }
    if out != rust_out {
        return Err(format!("row {name}: the answers agree, and the archive forms differ"));
    }
    Ok(())
}

/// Ends a row: units per second of both sides and the ratio, marked if slow.
fn print_speed(times: &Times, units: f64) {
    let mark = if times.ratio() > SLOW { "  slow" } else { "" };
    println!(
        " {:>11.0} {:>11.0} {:>6.2}{}",
        units / times.planner,
        units / times.other,
        times.ratio(),
        mark
    );
}

fn summary(ratios: &[f64]) {
    let mean = (ratios.iter().map(|ratio| ratio.ln()).sum::<f64>() / ratios.len() as f64).exp();
    let worst = ratios.iter().copied().fold(0.0, f64::max);
    let slow = ratios.iter().filter(|&&ratio| ratio > SLOW).count();
    println!(
        "\nratio: geometric mean {mean:.2}, worst {worst:.2}; above {SLOW}: {slow} of {} rows",
        ratios.len()
    );
}
