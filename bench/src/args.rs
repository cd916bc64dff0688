//! What is asked for on the command line and in BENCH_SECONDS.

use crate::query::Query;
use std::ffi::OsString;
use std::path::PathBuf;
use std::time::Duration;

pub const USAGE: &str = "\
usage: bench/run [ROW]
       bench/run --file PLAN S T PICK ORDER BUDGET
       bench/run --help

ROW      only the rows whose name contains ROW; without it all rows
--file   one query of the plan in the file PLAN: from junction S to junction T,
         with PICK 0, 1 or 2, ORDER 0 or 1, and a BUDGET of opened subproblems
--help   this text

PLANNER_LIB names the folder with libplanner.a (default ../target/staticlib, from
the folder bench), BENCH_SECONDS the time per row and side (default 0.3).";

#[derive(Debug, PartialEq)]
pub enum Task {
    Help,
    /// The rows whose name contains this.
    Rows(String),
    File(PathBuf, Query),
}

/// The task that the words of the command line ask for, or what is wrong with them.
pub fn task(words: &[OsString]) -> Result<Task, String> {
    let texts: Vec<String> = words.iter().map(|word| word.to_string_lossy().into()).collect();
    match &texts[..] {
        [] => Ok(Task::Rows(String::new())),
        [first, ..] if first == "--help" => Ok(Task::Help),
        [first] if first == "--file" => Err("--file wants a PLAN".into()),
        [first, _, numbers @ ..] if first == "--file" => {
            Ok(Task::File(PathBuf::from(&words[1]), query(numbers)?))
        }
        [first, ..] if first.starts_with('-') => Err(format!("there is no option {first:?}")),
        [row] => Ok(Task::Rows(row.clone())),
        [_, second, ..] => Err(format!("only one ROW can be given, and {second:?} is another")),
    }
}

fn query(words: &[String]) -> Result<Query, String> {
    let [s, t, pick, order, budget] = words else {
        let given = words.len();
        return Err(format!("--file wants five numbers behind the PLAN, and {given} are given"));
    };
    Ok(Query {
        s: number("S", s)?,
        t: number("T", t)?,
        pick: number("PICK", pick)?,
        order: number("ORDER", order)?,
        budget: number("BUDGET", budget)?,
        mask: 0,
        values: 0,
    })
}

fn number(name: &str, word: &str) -> Result<u64, String> {
    let wrong = |_| format!("{name} is {word:?}, and no number from 0 to {}", u64::MAX);
    word.parse().map_err(wrong)
}

/// The time per row and side, by the value of BENCH_SECONDS.
pub fn time(seconds: Option<&str>) -> Result<Duration, String> {
    let Some(text) = seconds else {
        return Ok(Duration::from_millis(300));
    };
    let time = text.parse().ok().and_then(|number| Duration::try_from_secs_f64(number).ok());
    time.ok_or_else(|| format!("BENCH_SECONDS is {text:?}, and no number of seconds"))
}

#[cfg(test)]
mod tests {
    use super::*;

    fn asked(line: &str) -> Result<Task, String> {
        let words: Vec<OsString> = line.split_whitespace().map(OsString::from).collect();
        task(&words)
    }

    /// The line is refused, and what is said contains this.
    fn expect_wrong(line: &str, said: &str) {
        let error = asked(line).expect_err(line);
        assert!(error.contains(said), "{line}: {error}");
    }

    #[test]
    fn rows() {
        assert_eq!(asked(""), Ok(Task::Rows("".into())));
        assert_eq!(asked("48"), Ok(Task::Rows("48".into())));
        expect_wrong("40 covers", "\"covers\"");
    }

    #[test]
    fn help() {
        assert_eq!(asked("--help"), Ok(Task::Help));
        assert_eq!(asked("--help me"), Ok(Task::Help));
        expect_wrong("--halp", "\"--halp\"");
        expect_wrong("-x 48", "\"-x\"");
    }

    #[test]
    fn file() {
        let query = Query { s: 1, t: 3, pick: 2, order: 0, budget: u64::MAX, mask: 0, values: 0 };
        let task = Task::File("some/P.plan".into(), query);
        assert_eq!(asked("--file some/P.plan 1 3 2 0 18446744073709551615"), Ok(task));
        // What the search refuses is not refused here.
        let query = Query { s: 0, t: 999, pick: 3, order: 2, budget: 0, mask: 0, values: 0 };
        assert_eq!(asked("--file - 0 999 3 2 0"), Ok(Task::File("-".into(), query)));
    }

    #[test]
    fn wrong_file_arguments() {
        expect_wrong("--file", "PLAN");
        expect_wrong("--file P.plan", "0 are given");
        expect_wrong("--file P.plan 1 3 0 0", "4 are given");
        expect_wrong("--file P.plan 1 3 0 0 9 9", "6 are given");
        expect_wrong("--file P.plan x 3 0 0 9", "S is \"x\"");
        expect_wrong("--file P.plan 1 -3 0 0 9", "T is \"-3\"");
        expect_wrong("--file P.plan 1 3 0.5 0 9", "PICK is \"0.5\"");
        expect_wrong("--file P.plan 1 3 0 one 9", "ORDER is \"one\"");
        expect_wrong("--file P.plan 1 3 0 0 18446744073709551616", "BUDGET is");
    }

    #[test]
    fn seconds() {
        assert_eq!(time(None), Ok(Duration::from_millis(300)));
        assert_eq!(time(Some("0.5")), Ok(Duration::from_millis(500)));
        for wrong in ["", "long", "-1", "NaN", "inf"] {
            let error = time(Some(wrong)).expect_err(wrong);
            assert!(error.contains(&format!("{wrong:?}")), "{error}");
        }
    }
}
