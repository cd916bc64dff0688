//! The relaxed route: a pass from t back to s over the junctions, which stand in
//! topological order, then a walk along the links that it left.

use super::depot::{Depot, Row};
use super::words::{cost, follow, head, of_cost, part};

/// Dearer than any route: 255 belts of 2^32 - 1 stay below, and a word has room for
/// this and a belt more.
const UNREACHED: u64 = 1 << 40;

/// The bound that every route stays within.
pub const UNBOUNDED: u64 = UNREACHED - 1;

#[derive(Clone, Copy)]
pub struct Subproblem {
    /// Places of named belts.
    pub required: u64,
    pub forbidden: u64,
    /// Ranks of those that are neither.
    pub unfixed: u64,
}

/// Junctions are counted from 0.
pub struct Relaxation<'a> {
    depot: &'a Depot,
    rows: Vec<Row<'a>>,
    s: usize,
    t: usize,
    /// The places of the named belts that leave a junction from s to before t.
    inside: u64,
    ways: Ways,
}

/// By junction: what its first way on to t costs, as in a word, and that way's
/// first belt. Under a required belt they are left as they were.
struct Ways {
    rest: [u64; 256],
    links: [u32; 256],
}

impl<'a> Relaxation<'a> {
    pub fn new(depot: &'a Depot, s: usize, t: usize) -> Relaxation<'a> {
        let inside = depot.places_below(t) & !depot.places_below(s);
        let ways = Ways { rest: [0; 256], links: [0; 256] };
        Relaxation { depot, rows: depot.rows(), s, t, inside, ways }
    }

    /// The relaxed route's cost, if there is a relaxed route within the bound.
    pub fn cost(&mut self, sub: &Subproblem, bound: u64) -> Option<u64> {
        if self.s > self.t || sub.required & !self.inside != 0 {
            return None;
        }
        self.ways.rest[self.t] = 0;
        let mut cut = self.t;
        let mut due = sub.required;
        while due != 0 {
            let place = due.ilog2();
            due ^= 1 << place;
            cut = self.require(place as usize, cut, sub.forbidden, bound)?;
        }
        self.ways.pass(&self.rows, self.s, cut, sub.forbidden);
        let cost = cost(self.ways.rest[self.s]);
        (cost <= bound).then_some(cost)
    }

    /// Goes on from the last cut to the tail of a required belt, the next cut. None
    /// if the belt leads past the last one, or the way over it is not within the bound.
    fn require(&mut self, place: usize, cut: usize, forbidden: u64, bound: u64) -> Option<usize> {
        let (word, tail) = self.depot.named_belt(place);
        let head = head(word);
        if head > cut {
            return None;
        }
        self.ways.pass(&self.rows, head, cut, forbidden);
        let way = self.ways.rest[head] + word;
        if cost(way) > bound {
            return None;
        }
        self.ways.keep(tail, way);
        Some(tail)
    }

    /// The belts of the relaxed route whose cost was asked last.
    pub fn belts(&self) -> impl Iterator<Item = u16> + '_ {
        let mut junction = self.s;
        std::iter::from_fn(move || {
            if junction == self.t {
                return None;
            }
            let (belt, next) = follow(self.ways.links[junction]);
            junction = next;
            Some(belt)
        })
    }

    /// The ranks of the named belts among them.
    pub fn named(&self) -> u64 {
        self.belts().fold(0, |mask, belt| mask | self.depot.rank_bit(belt))
    }
}

impl Ways {
    /// Finds the first ways on from the junctions below a cut, down to `low`.
    fn pass(&mut self, rows: &[Row], low: usize, cut: usize, forbidden: u64) {
        for (row, junction) in rows[low..cut].iter().zip(low..cut).rev() {
            self.keep(junction, self.first_way(row, cut, forbidden));
        }
    }

    /// The first way on from a junction, as a word. A belt past the cut drops out.
    fn first_way(&self, row: &Row, cut: usize, forbidden: u64) -> u64 {
        let mut least = of_cost(UNREACHED);
        for (place, &word) in (row.place..).zip(row.named) {
            if forbidden >> place & 1 == 0 && head(word) <= cut {
                least = least.min(self.rest[head(word)] + word);
            }
        }
        for &word in row.nameless {
            if head(word) > cut {
                break;
            }
            least = least.min(self.rest[head(word)] + word);
        }
        least
    }

    fn keep(&mut self, junction: usize, way: u64) {
        (self.rest[junction], self.links[junction]) = part(way);
    }
}
