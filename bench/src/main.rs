//! The planner's benchmark: opened subproblems per second, and plan bytes per second
//! that are checked or written in their archive form, libplanner.a against a plain Rust
//! baseline in the same run. What can be asked for is in `args`.

mod args;
mod baseline;
mod call;
mod check;
mod measure;
mod plans;
mod query;
mod records;
mod report;
mod rng;
mod rows;

use args::Task;
use std::process::ExitCode;
use std::time::Duration;

enum Failure {
    /// Of the one who asks: status 2, with the usage.
    Usage(String),
    /// Of a file or of the comparison: status 1.
    Run(String),
}

fn main() -> ExitCode {
    match run() {
        Ok(()) => ExitCode::SUCCESS,
        Err(Failure::Usage(what)) => {
            eprintln!("bench: {what}\n\n{}", args::USAGE);
            ExitCode::from(2)
        }
        Err(Failure::Run(what)) => {
            eprintln!("bench: {what}");
            ExitCode::from(1)
        }
    }
}

fn run() -> Result<(), Failure> {
    let words: Vec<_> = std::env::args_os().skip(1).collect();
    let task = args::task(&words).map_err(Failure::Usage)?;
    if task == Task::Help {
        println!("{}", args::USAGE);
        return Ok(());
    }
    let seconds = std::env::var_os("BENCH_SECONDS").map(|text| text.to_string_lossy().into_owned());
    let time = args::time(seconds.as_deref()).map_err(Failure::Usage)?;
    match task {
        Task::Help => Ok(()),
        Task::Rows(wanted) => run_rows(&wanted, time),
        Task::File(path, query) => {
            let row = rows::of_file(&path, query).map_err(Failure::Run)?;
            report::file(&row, time).map_err(Failure::Run)
        }
    }
}

fn run_rows(wanted: &str, time: Duration) -> Result<(), Failure> {
    let mut searches = rows::searches();
    searches.retain(|row| row.name.contains(wanted));
    let mut plans = rows::plans();
    plans.retain(|row| row.name.contains(wanted));
    let mut archives = rows::archives();
    archives.retain(|row| row.name.contains(wanted));
    if searches.is_empty() && plans.is_empty() && archives.is_empty() {
        return Err(Failure::Usage(format!("no row's name contains {wanted:?}")));
    }
    report::searches(&searches, time).map_err(Failure::Run)?;
    report::plan_checks(&plans, time).map_err(Failure::Run)?;
    report::archives(&archives, time).map_err(Failure::Run)
}
