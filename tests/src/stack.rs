//! How much stack the library's functions use. Before a call the stack below the
//! caller is painted; the lowest place that has lost its paint says how deep the
//! call went.

use std::sync::atomic::{AtomicUsize, Ordering::Relaxed};

const PAINT: u64 = 0xa5c3_96e1_5a3c_691e;
/// How far below the caller is painted, in bytes.
const PAINTED: usize = 80 * 1024;
/// What lies nearer is left alone: the loop that paints may use it.
const NEAR: usize = 1024;
const WORD: usize = 8;
/// So many words are looked at in one go.
const STRETCH: usize = 64;

/// A function, and how many bytes of stack its deepest call used.
pub struct Deepest {
    name: &'static str,
    bytes: AtomicUsize,
}

pub static CHECK_PLAN: Deepest = Deepest::of("planner_check_plan");
pub static SEARCH: Deepest = Deepest::of("planner_search");
pub static CHECK_SHEET: Deepest = Deepest::of("planner_check_sheet");
pub static ARCHIVE: Deepest = Deepest::of("planner_archive");

impl Deepest {
    const fn of(name: &'static str) -> Deepest {
        Deepest { name, bytes: AtomicUsize::new(0) }
    }

    /// Calls the function, and notes how deep it went.
    pub fn call<T>(&self, function: impl FnOnce() -> T) -> T {
        let (answer, bytes) = measured(function);
        self.bytes.fetch_max(bytes, Relaxed);
        answer
    }
}

#[inline(never)]
fn measured<T>(function: impl FnOnce() -> T) -> (T, usize) {
    let here = PAINT;
    let lowest = std::ptr::addr_of!(here) as usize - PAINTED;
    // SAFETY: this is the thread's own stack, below everything that is in use.
    unsafe { paint(lowest) };
    let answer = function();
    // SAFETY: as above.
    (answer, PAINTED - WORD * unsafe { kept(lowest) })
}

/// The words to be painted, from the lowest on.
unsafe fn words<'a>(lowest: usize) -> &'a mut [u64] {
    std::slice::from_raw_parts_mut(lowest as *mut u64, (PAINTED - NEAR) / WORD)
}

#[inline(never)]
unsafe fn paint(lowest: usize) {
    words(lowest).fill(PAINT);
}

/// How many of the words, from the lowest on, still have their paint.
#[inline(never)]
unsafe fn kept(lowest: usize) -> usize {
    let words = words(lowest);
    let is_whole = |stretch: &&[u64]| stretch.iter().fold(0, |all, word| all | (word ^ PAINT)) == 0;
    let whole = STRETCH * words.chunks_exact(STRETCH).take_while(is_whole).count();
    // Word by word only in the first stretch that is not whole.
    whole + words[whole..].iter().take_while(|word| **word == PAINT).count()
}

/// The stack that the header says is enough for a call.
fn stated() -> usize {
    let header = include_str!("../../include/planner.h");
    let number = header.lines().find_map(|line| line.strip_prefix("#define PLANNER_STACK "));
    number.and_then(|number| number.parse().ok()).expect("the header says how much stack is enough")
}

/// What was measured, or that the header says too little.
pub fn report() -> Result<String, String> {
    let functions = [&CHECK_PLAN, &SEARCH, &CHECK_SHEET, &ARCHIVE];
    let words = functions.map(|function| format!("{} {}", function.name, function.bytes.load(Relaxed)));
    let told = format!("deepest stack, in bytes: {}", words.join(", "));
    if functions.iter().any(|function| function.bytes.load(Relaxed) > stated()) {
        return Err(format!("{told}; the header says that {} are enough", stated()));
    }
    Ok(told)
}
