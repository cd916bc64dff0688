//! Timing of two sides in turn. Times are processor time of this thread, and the
//! best one of each side counts: other load on the machine shifts no ratio.

use std::time::Duration;

/// Seconds per call, the best of all batches.
pub struct Times {
    pub planner: f64,
    /// Of the baseline, or of another call of the planner.
    pub other: f64,
}

impl Times {
    /// Above 1 the planner takes longer than the other side.
    pub fn ratio(&self) -> f64 {
        self.planner / self.other
    }
}

/// A batch is long enough for the clock.
const BATCH: Duration = Duration::from_millis(4);
const MIN_ROUNDS: usize = 2;

struct Side<'a> {
    work: &'a mut dyn FnMut(),
    calls: u32,
    best: f64,
    spent: Duration,
}

impl<'a> Side<'a> {
    /// The first call says how many calls make a batch. It counts as well, so
    /// that slow rows need fewer rounds.
    fn new(work: &'a mut dyn FnMut()) -> Side<'a> {
        let start = processor_time();
        work();
        let once = (processor_time() - start).max(Duration::from_nanos(50));
        let calls = (BATCH.as_nanos() / once.as_nanos()).max(1) as u32;
        Side { work, calls, best: once.as_secs_f64(), spent: once }
    }

    fn batch(&mut self) {
        let start = processor_time();
        for _ in 0..self.calls {
            (self.work)();
        }
        let elapsed = processor_time() - start;
        self.spent += elapsed;
        self.best = self.best.min(elapsed.as_secs_f64() / f64::from(self.calls));
    }
}

/// Runs both sides in turn, first one ahead and then the other, until each has
/// had its time and some rounds.
pub fn in_turn(time: Duration, planner: &mut dyn FnMut(), other: &mut dyn FnMut()) -> Times {
    let mut planner = Side::new(planner);
    let mut other = Side::new(other);
    let mut round = 0;
    while round < MIN_ROUNDS || planner.spent < time || other.spent < time {
        if round % 2 == 0 {
            planner.batch();
            other.batch();
        } else {
            other.batch();
            planner.batch();
        }
        round += 1;
    }
    Times { planner: planner.best, other: other.best }
}

#[repr(C)]
struct Timespec {
    seconds: i64,
    nanoseconds: i64,
}

extern "C" {
    fn clock_gettime(clock: i32, time: *mut Timespec) -> i32;
}

/// CLOCK_THREAD_CPUTIME_ID of Linux.
const THREAD_CLOCK: i32 = 3;

/// The time that this thread has run on a processor.
fn processor_time() -> Duration {
    let mut time = Timespec { seconds: 0, nanoseconds: 0 };
    // SAFETY: the pointer is valid for the call, which writes one timespec.
    let failed = unsafe { clock_gettime(THREAD_CLOCK, &mut time) };
    assert_eq!(failed, 0, "there is no processor clock for threads");
    Duration::new(time.seconds as u64, time.nanoseconds as u32)
}
