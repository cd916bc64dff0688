//! The route sheet.

use super::search::Best;
use crate::records::{encode, SHEET, SIZE, STEP};

/// Writes the sheet to the start of `out` and says how long it is.
pub fn write(best: &Best, out: &mut [u8]) -> usize {
    let Best { cost, belts, setting } = best;
    let first = u16::from(!belts.is_empty());
    let [high, middle, low] = [cost >> 32, cost >> 16, *cost].map(|part| part as u16);
    encode([SHEET, first, high, middle, low, *setting], &mut out[..SIZE]);
    let steps = out[SIZE..].chunks_exact_mut(SIZE);
    for (place, (bytes, &belt)) in steps.zip(belts).enumerate() {
        let next = if place + 1 == belts.len() { 0 } else { place as u16 + 2 };
        encode([STEP, next, belt, 0, 0, 0], bytes);
    }
    SIZE * (belts.len() + 1)
}
