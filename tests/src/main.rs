//! Random tests of the planner's static library. Plans from seeds are compared
//! with a plain enumerator that shares nothing with the planner.
//!
//!   random_plans             all cases of a run
//!   random_plans --seed N    the one case of that seed, told in full
//!
//! PLANNER_TEST_PLANS says how many plans, PLANNER_TEST_SEED another base seed.

mod anchors;
mod archive;
mod archive_anchors;
mod archives;
mod call;
mod case;
mod change;
mod checks;
mod compare;
mod damage;
mod enumerate;
mod examples;
mod generate;
mod halves;
mod layout;
mod lock;
mod locked;
mod plan;
mod refusals;
mod rng;
mod searches;
mod sheet;
mod stack;
mod tally;
mod watch;
mod written;

use case::Damages;
use compare::{Judge, Verdict};
use std::panic::{catch_unwind, AssertUnwindSafe};
use std::process::ExitCode;

/// As many plans as a run has if nothing else is said; with so many, every class is reached.
const PLANS: u64 = 20_000;
const BASE_SEED: u64 = 1;

fn main() -> ExitCode {
    let arguments: Vec<String> = std::env::args().skip(1).collect();
    let words: Vec<&str> = arguments.iter().map(|word| word.as_str()).collect();
    let passed = match words[..] {
        [] => watch::run_watched(),
        ["--worker"] => run_all(),
        ["--seed", seed] => match seed.parse() {
            Ok(seed) => run_one(seed),
            Err(_) => usage(),
        },
        _ => usage(),
    };
    if passed {
        ExitCode::SUCCESS
    } else {
        ExitCode::FAILURE
    }
}

fn usage() -> bool {
    eprintln!("usage: random_plans [--seed N]");
    false
}

/// A number from the environment, or the default; nonsense stops the run.
fn setting(name: &str, default: u64) -> u64 {
    match std::env::var(name) {
        Ok(text) => text.parse().unwrap_or_else(|_| panic!("{name} is no number: {text}")),
        Err(_) => default,
    }
}

/// How a case that went wrong is repeated.
pub fn how_to_repeat(seed: u64) -> String {
    format!("seed {seed}\nrepeat with: tests/run --seed {seed}  (that is: random_plans --seed {seed})")
}

/// Runs one case; a panic of the tests themselves is a failure like any other.
fn guarded(seed: u64, damages: &Damages, judge: &mut Judge) -> Verdict {
    let run = || case::run(seed, damages, judge);
    catch_unwind(AssertUnwindSafe(run)).unwrap_or_else(|_| Err("the tests panicked".to_string()))
}

fn run_one(seed: u64) -> bool {
    let mut judge = Judge::new(true);
    println!("Case with seed {seed}");
    match guarded(seed, &Damages::all(), &mut judge) {
        Ok(()) => {
            println!("passed");
            true
        }
        Err(message) => {
            println!("FAILED: {message}");
            false
        }
    }
}

fn run_all() -> bool {
    let plans = setting("PLANNER_TEST_PLANS", PLANS);
    let base = setting("PLANNER_TEST_SEED", BASE_SEED);
    let damages = Damages::all();
    let mut judge = Judge::new(false);
    let fixed = anchors::run(&mut judge).and_then(|()| archive_anchors::run(&mut judge));
    if let Err(message) = fixed.and_then(|()| examples::run(&mut judge)) {
        println!("FAILED: {message}");
        return false;
    }
    for number in 0..plans {
        let seed = rng::case_seed(base, number);
        watch::starting(seed);
        if let Err(message) = guarded(seed, &damages, &mut judge) {
            println!("FAILED: plan {number} of base seed {base}: {message}\n{}", how_to_repeat(seed));
            return false;
        }
    }
    judge.tally.print();
    match stack::report() {
        Ok(told) => println!("{told}"),
        Err(told) => {
            println!("FAILED: {told}");
            return false;
        }
    }
    let missing = judge.tally.missing(&damages.classes());
    if plans >= PLANS && !missing.is_empty() {
        println!("FAILED: never reached:\n  {}", missing.join("\n  "));
        return false;
    }
    println!("random plans: {plans} plans of base seed {base} agree");
    true
}
