//! What a search is asked, and what it and the writer of an archive form answer, for
//! both sides.

#[derive(Clone, Copy, Debug, PartialEq)]
pub struct Query {
    pub s: u64,
    pub t: u64,
    pub pick: u64,
    pub order: u64,
    pub budget: u64,
    /// The locked modes, and those of them that are on: bit m-1 for mode m.
    pub mask: u64,
    pub values: u64,
}

/// The returned number (0 a route, or written; 1 to 10, 15 and 16 refused; 100 none,
/// 101 spent), the opened count and the length of what is written.
#[derive(Clone, Copy, Debug, PartialEq)]
pub struct Answer {
    pub number: u64,
    pub opened: u64,
    pub length: u64,
}

impl Answer {
    pub fn refused(&self) -> bool {
        ![ROUTE, NONE, SPENT].contains(&self.number)
    }
}

pub const ROUTE: u64 = 0;
/// An archive form is written.
pub const WRITTEN: u64 = 0;
pub const NONE: u64 = 100;
pub const SPENT: u64 = 101;
