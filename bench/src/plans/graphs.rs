//! Belt networks. Each maker gives exactly `belts` belts, grouped by the junction
//! they leave in rising order, about as many at each.

use super::Belt;
use crate::rng::Rng;

/// Every junction leads to the next one and to some of the `reach` behind it.
pub fn local(rng: &mut Rng, junctions: usize, belts: usize, reach: usize) -> Vec<Belt> {
    network(rng, junctions, belts, |rng, from, nth| match nth {
        0 => from + 1,
        _ => rng.between(from + 1, junctions.min(from + reach)),
    })
}

/// The same belts, each a million times as dear: their costs have two halves, and
/// those of long routes more than 32 bits.
pub fn dear(mut belts: Vec<Belt>) -> Vec<Belt> {
    for belt in &mut belts {
        belt.cost = belt.cost.checked_mul(1_000_003).expect("a cost of 32 bits");
    }
    belts
}

/// Every `step`th junction from 1 on stands on a side line that meets the others
/// only at the last junction: from 1 few junctions can be reached.
pub fn side_line(rng: &mut Rng, junctions: usize, belts: usize, step: usize) -> Vec<Belt> {
    let on_side = move |junction: usize| junction % step == 1;
    network(rng, junctions, belts, |rng, from, _| {
        let to =
            if on_side(from) { from + step * rng.between(1, 3) } else { from + rng.between(1, 8) };
        // Off the side line a belt that would end on it goes one farther.
        let to = to + usize::from(!on_side(from) && on_side(to));
        to.min(junctions)
    })
}

/// Spreads the belts evenly; `head` says where a junction's nth belt leads.
fn network(
    rng: &mut Rng,
    junctions: usize,
    belts: usize,
    head: impl Fn(&mut Rng, usize, usize) -> usize,
) -> Vec<Belt> {
    let share = |junction: usize| junction * belts / (junctions - 1);
    let mut made = Vec::with_capacity(belts);
    for from in 1..junctions {
        for nth in 0..share(from) - share(from - 1) {
            let to = head(rng, from, nth);
            // The cost grows with the length, so that no belt is hopeless.
            let cost = (to - from) * rng.between(60, 140);
            made.push(Belt { from, to, cost: cost as u32 });
        }
    }
    made
}
