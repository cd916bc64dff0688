//! Locks: the modes that the depot sets, and what they are set to. A lock is two
//! numbers, in which bit m-1 stands for mode m.

use crate::rng::Rng;

#[derive(Clone, Copy, Debug, PartialEq)]
pub struct Lock {
    /// The locked modes.
    pub mask: u64,
    /// Those of them that are on.
    pub values: u64,
}

/// No mode is locked.
pub const FREE: Lock = Lock { mask: 0, values: 0 };

/// The bit of a mode is set, in a setting, a mask or values.
pub fn is_on(number: u64, mode: usize) -> bool {
    has(number, mode - 1)
}

/// The bit at a place is set; places count from 0.
fn has(number: u64, place: usize) -> bool {
    number >> place & 1 == 1
}

impl Lock {
    /// Each locked mode is in the setting as the lock has it.
    pub fn agrees(&self, modes: usize, setting: u64) -> bool {
        (1..=modes).all(|mode| !is_on(self.mask, mode) || is_on(setting, mode) == is_on(self.values, mode))
    }

    /// Mask with a bit at or above M, or a value with a bit outside the mask.
    pub fn is_wrong(&self, modes: usize) -> bool {
        self.wrong_mask(modes) || self.wrong_values()
    }

    fn wrong_mask(&self, modes: usize) -> bool {
        (modes..64).any(|place| has(self.mask, place))
    }

    fn wrong_values(&self) -> bool {
        (0..64).any(|place| has(self.values, place) && !has(self.mask, place))
    }

    /// The setting with each locked mode put as the lock has it.
    pub fn put_into(&self, modes: usize, mut setting: u64) -> u64 {
        for mode in 1..=modes {
            if is_on(self.mask, mode) && is_on(setting, mode) != is_on(self.values, mode) {
                setting ^= 1 << (mode - 1);
            }
        }
        setting
    }

    /// The same lock with one more mode left free, locked off, and locked on.
    fn with(&self, mode: usize) -> [Lock; 3] {
        let bit = 1 << (mode - 1);
        let off = Lock { mask: self.mask | bit, ..*self };
        [*self, off, Lock { values: self.values | bit, ..off }]
    }

    /// Both numbers cut to so many bits.
    fn cut(&self, bits: u32) -> Lock {
        let below = (1 << bits) - 1;
        Lock { mask: self.mask & below, values: self.values & below }
    }
}

/// Every mask of some modes with every value of it.
pub fn every(modes: usize) -> Vec<Lock> {
    let mut locks = vec![FREE];
    for mode in 1..=modes {
        locks = locks.iter().flat_map(|lock| lock.with(mode)).collect();
    }
    locks
}

/// A lock that may be asked for; two times in five it locks nothing.
pub fn right(modes: usize, rng: &mut Rng) -> Lock {
    let mut lock = FREE;
    if rng.chance(2, 5) {
        return lock;
    }
    let share = rng.range(1, 4);
    for mode in 1..=modes {
        if rng.chance(share, 4) {
            lock = lock.with(mode)[rng.range(1, 2)];
        }
    }
    lock
}

/// A lock that is refused: a right one with a bit too many, or numbers that are wrong as a whole.
pub fn wrong(modes: usize, rng: &mut Rng) -> Lock {
    let lock = right(modes, rng);
    match rng.below(12) {
        0 => with_mask(1 << modes, rng),
        1 => with_mask(lock.mask | 1 << modes, rng),
        2 => with_mask(lock.mask | 1 << rng.range(modes + 1, 62), rng),
        3 => with_mask(lock.mask | 1 << 63, rng),
        4 => with_mask(rng.range(1 << modes, 1024.max(1 << modes)) as u64, rng),
        5 => with_mask(lock.mask + over_16_bits(rng), rng),
        6 => with_mask(lock.mask + over_32_bits(rng), rng),
        7 => Lock { values: lock.values | 1 << outside(lock.mask, modes.max(1), rng), ..lock },
        8 => Lock { values: lock.values | 1 << outside(lock.mask, 64, rng), ..lock },
        9 => Lock { values: lock.values + over_16_bits(rng), ..lock },
        10 => Lock { values: lock.values + over_32_bits(rng), ..lock },
        _ => Lock { mask: lock.mask | 1 << modes, values: lock.values | 1 << outside(lock.mask, modes.max(1), rng) },
    }
}

/// A mask with some of its bits as values.
fn with_mask(mask: u64, rng: &mut Rng) -> Lock {
    let values = [0, mask, mask & rng.next()][rng.below(3)];
    Lock { mask, values }
}

/// 65,536, or a number above it, that is 0 if it is cut to 16 bits.
fn over_16_bits(rng: &mut Rng) -> u64 {
    [1 << 16, 1 << 31, rng.range(1, 65_535) as u64 * 65_536][rng.below(3)]
}

/// 2^32, or a number above it, that is 0 if it is cut to 32 bits.
fn over_32_bits(rng: &mut Rng) -> u64 {
    let any = rng.range(1, u32::MAX as usize) as u64;
    [1 << 32, 1 << 63, any << 32][rng.below(3)]
}

/// A place below `end` that is not in the mask; the highest of all if there is none.
fn outside(mask: u64, end: usize, rng: &mut Rng) -> usize {
    let places: Vec<usize> = (0..end).filter(|place| !has(mask, *place)).collect();
    rng.pick(&places).unwrap_or(63)
}

/// A sort of wrong lock, told by M and the lock.
type Sort = fn(usize, &Lock) -> bool;

const SORTS: [(&str, Sort); 14] = [
    ("mask 2^M", |modes, lock| lock.mask == 1 << modes),
    ("mask 2^M and modes", |modes, lock| lock.mask > 1 << modes && lock.mask < 2 << modes),
    ("mask with a bit above M", |modes, lock| (modes + 1..63).any(|place| has(lock.mask, place))),
    ("mask with bit 63", |_, lock| has(lock.mask, 63)),
    ("mask 1024 with ten modes", |modes, lock| modes == 10 && lock.mask == 1024),
    ("mask that ten modes would have", |modes, lock| lock.wrong_mask(modes) && lock.mask < 1024),
    ("mask right if cut to 16 bits", |modes, lock| lock.wrong_mask(modes) && !lock.cut(16).is_wrong(modes)),
    ("mask right if cut to 32 bits", |modes, lock| lock.wrong_mask(modes) && !lock.cut(32).is_wrong(modes)),
    ("value of a mode that is not locked", |modes, lock| {
        !lock.wrong_mask(modes) && (1..=modes).any(|mode| is_on(lock.values, mode) && !is_on(lock.mask, mode))
    }),
    ("value with mask 0", |_, lock| lock.mask == 0),
    ("value at or above M alone", |modes, lock| {
        !lock.wrong_mask(modes) && !(0..modes).any(|place| has(lock.values, place) && !has(lock.mask, place))
    }),
    ("values right if cut to 16 bits", |modes, lock| !lock.wrong_mask(modes) && !lock.cut(16).is_wrong(modes)),
    ("values right if cut to 32 bits", |modes, lock| !lock.wrong_mask(modes) && !lock.cut(32).is_wrong(modes)),
    ("mask and values wrong", |modes, lock| lock.wrong_mask(modes) && lock.wrong_values()),
];

/// The sorts that a wrong lock is of.
pub fn sorts(modes: usize, lock: &Lock) -> Vec<&'static str> {
    SORTS.iter().filter(|(_, sort)| sort(modes, lock)).map(|(name, _)| *name).collect()
}
