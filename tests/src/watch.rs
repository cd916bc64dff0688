//! Runs the cases in a process of their own, so that a case in which the library
//! crashes or never comes back names its seed too.

use crate::how_to_repeat;
use std::io::{BufRead, BufReader, Write};
use std::process::{Command, Stdio};
use std::sync::mpsc::{channel, RecvTimeoutError};
use std::thread;
use std::time::Duration;

/// Before a line with the seed of the case that starts.
const MARK: &str = "@";
/// Far longer than any case takes.
const PATIENCE: Duration = Duration::from_secs(120);

/// Tells the watching process which case starts.
pub fn starting(seed: u64) {
    println!("{MARK}{seed}");
    std::io::stdout().flush().expect("the watching process reads");
}

/// Runs all cases in a worker, and passes on what it prints.
pub fn run_watched() -> bool {
    let program = std::env::current_exe().expect("the program has a path");
    let mut worker = Command::new(program).arg("--worker").stdout(Stdio::piped()).spawn().expect("the worker starts");
    let lines = BufReader::new(worker.stdout.take().expect("piped")).lines();
    let (sender, receiver) = channel();
    thread::spawn(move || {
        for line in lines.map_while(Result::ok) {
            if sender.send(line).is_err() {
                return;
            }
        }
    });
    let mut current = None;
    loop {
        match receiver.recv_timeout(PATIENCE) {
            Ok(line) => match line.strip_prefix(MARK) {
                Some(seed) => current = seed.parse().ok(),
                None => println!("{line}"),
            },
            Err(RecvTimeoutError::Disconnected) => break,
            Err(RecvTimeoutError::Timeout) => {
                println!("FAILED: no answer for {} seconds", PATIENCE.as_secs());
                tell(current);
                worker.kill().expect("the worker can be stopped");
                break;
            }
        }
    }
    let status = worker.wait().expect("the worker ends");
    if status.code().is_none() {
        println!("FAILED: the case did not come back: {status}");
        tell(current);
    }
    status.success()
}

fn tell(seed: Option<u64>) {
    match seed {
        Some(seed) => println!("{}", how_to_repeat(seed)),
        None => println!("before the first random case"),
    }
}
