//! A belt as one word: cost * 2^19 + index * 2^8 + (head - 1).
//!
//! Of two ways on from a junction, each the cost of the rest and a word added up,
//! the lesser is the cheaper one, or that with the lower belt if both cost the same.
//! Junctions are counted from 0 here, so that they fit into a byte. A route costs
//! less than 2^40, so a way fits into 59 bits.

/// The bits of a word below its cost: the link, index * 2^8 + (head - 1).
const LINK_BITS: u32 = 19;

pub fn word(index: usize, head: u16, cost: u32) -> u64 {
    u64::from(cost) << LINK_BITS | (index as u64) << 8 | u64::from(head - 1)
}

pub fn head(word: u64) -> usize {
    usize::from(word as u8)
}

pub fn cost(word: u64) -> u64 {
    word >> LINK_BITS
}

/// A way that costs so much, with no belt yet.
pub fn of_cost(cost: u64) -> u64 {
    cost << LINK_BITS
}

/// A way in its two parts: the cost, left where it stands, and the link.
pub fn part(word: u64) -> (u64, u32) {
    let link = word & ((1 << LINK_BITS) - 1);
    (word - link, link as u32)
}

/// The belt of a link and the junction that it leads to.
pub fn follow(link: u32) -> (u16, usize) {
    ((link >> 8) as u16, usize::from(link as u8))
}

/// Belts by rising head, of equal heads the first way on ahead.
pub fn by_head(word: u64) -> u64 {
    word.rotate_right(8)
}
