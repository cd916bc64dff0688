//! Damage to the bytes of a plan. Each damage aims at one line of the refusal
//! table by one cause; whether it hits is for the predicate to say. Where it can
//! be done, the damage breaks nothing else: a chain index that is wrong in one
//! way alone shows whether that way is looked at.

use crate::plan::{field, set_field, MAX_RECORDS, RECORD};
use crate::rng::Rng;

type Apply = Box<dyn Fn(&mut Vec<u8>, &mut Rng) -> Option<()>>;

pub struct Damage {
    pub name: String,
    /// The line aimed at; 0 if it may be any, or none.
    pub line: u64,
    apply: Apply,
}

impl Damage {
    /// Aims at no line.
    pub fn is_blind(&self) -> bool {
        self.line == 0
    }

    /// Damages the bytes, or leaves them if they have no place for it.
    pub fn apply(&self, bytes: &mut Vec<u8>, rng: &mut Rng) -> bool {
        // Damage on damage: whatever came before, two records are left to work on.
        bytes.len() >= 2 * RECORD && (self.apply)(bytes, rng).is_some()
    }
}

pub fn all() -> Vec<Damage> {
    let mut damages = Vec::new();
    add_lengths(&mut damages);
    add_uneven(&mut damages);
    add_counts(&mut damages);
    add_heads(&mut damages);
    add_kinds(&mut damages);
    add_zero_fields(&mut damages);
    add_ranged_fields(&mut damages);
    for holder in HOLDERS {
        add_indices(&mut damages, holder);
    }
    add_chains(&mut damages);
    add_belts(&mut damages);
    add_named_belts(&mut damages);
    add_named_modes(&mut damages);
    add_blind(&mut damages);
    damages
}

fn add(
    damages: &mut Vec<Damage>,
    line: u64,
    name: &str,
    apply: impl Fn(&mut Vec<u8>, &mut Rng) -> Option<()> + 'static,
) {
    damages.push(Damage { name: name.to_string(), line, apply: Box::new(apply) });
}

/// Sets a field; a damage that ends with it is done.
fn put(bytes: &mut [u8], index: usize, number: usize, value: u16) -> Option<()> {
    set_field(bytes, index, number, value);
    Some(())
}

/// Sets a field to one of some values that it does not have yet.
fn set_other(bytes: &mut [u8], index: usize, number: usize, values: &[u16], rng: &mut Rng) -> Option<()> {
    let old = field(bytes, index, number);
    let others: Vec<u16> = values.iter().copied().filter(|value| *value != old).collect();
    set_field(bytes, index, number, rng.pick(&others)?);
    Some(())
}

/// Some value that is not zero, in one byte or in both.
fn not_zero(rng: &mut Rng) -> u16 {
    let byte = rng.range(1, 255) as u16;
    [byte, 256 * byte, 257 * byte, 1][rng.below(4)]
}

fn count(bytes: &[u8]) -> usize {
    bytes.len() / RECORD
}

/// The records of a kind, record 0 left aside.
fn of_kind(bytes: &[u8], kind: u16) -> Vec<usize> {
    (1..count(bytes)).filter(|index| field(bytes, *index, 0) == kind).collect()
}

/// Line 1: too short and too long.
fn add_lengths(damages: &mut Vec<Damage>) {
    add(damages, 1, "no bytes", |bytes, _| {
        bytes.clear();
        Some(())
    });
    add(damages, 1, "under 24 bytes", |bytes, rng| {
        bytes.truncate(rng.range(1, 23));
        Some(())
    });
    add(damages, 1, "record 0 alone", |bytes, _| {
        bytes.truncate(RECORD);
        put(bytes, 0, 4, 1)
    });
    add(damages, 1, "over 24576 bytes", |bytes, rng| {
        let more = [1, 11, 12, 24][rng.below(4)];
        bytes.resize(MAX_RECORDS * RECORD + more, 0);
        put(bytes, 0, 4, (MAX_RECORDS + more / RECORD) as u16)
    });
    add(damages, 1, "65536 bytes more", |bytes, _| {
        bytes.resize(bytes.len() + 65_536, 0);
        Some(())
    });
}

/// Line 1: bytes more or less than there are records.
fn add_uneven(damages: &mut Vec<Damage>) {
    add(damages, 1, "part of a record more", |bytes, rng| {
        let more = rng.range(1, 11);
        bytes.extend(rng.bytes(more));
        Some(())
    });
    add(damages, 1, "part of a record less", |bytes, rng| {
        bytes.truncate(bytes.len() - rng.range(1, 11));
        Some(())
    });
    add(damages, 1, "a record more", |bytes, rng| {
        bytes.extend(rng.bytes(RECORD));
        Some(())
    });
    add(damages, 1, "a record less", |bytes, _| {
        bytes.truncate(bytes.len() - RECORD);
        Some(())
    });
}

/// Line 1: f4 of record 0.
fn add_counts(damages: &mut Vec<Damage>) {
    add(damages, 1, "f4 of record 0 wrong", |bytes, rng| {
        let right = count(bytes) as u16;
        let values = [right - 1, right + 1, 0, 1, 2048, 65_535, right.swap_bytes()];
        let values: Vec<u16> = values.into_iter().filter(|value| *value != right).collect();
        set_other(bytes, 0, 4, &values, rng)
    });
    // 12 times it is the length if it is cut to 16 bits.
    add(damages, 1, "f4 of record 0 plus 16384", |bytes, rng| {
        let right = count(bytes) as u16;
        set_other(bytes, 0, 4, &[right + 16_384, right + 32_768, right + 49_152], rng)
    });
}

/// Line 2.
fn add_heads(damages: &mut Vec<Damage>) {
    add(damages, 2, "f0 of record 0", |bytes, rng| set_other(bytes, 0, 0, &[0, 1, 6, 8, 0x0700, 0x0107, 0x8007], rng));
    add(damages, 2, "J = 0", |bytes, _| put(bytes, 0, 1, 0));
    add(damages, 2, "J over 256", |bytes, rng| {
        let low = field(bytes, 0, 1) % 256;
        set_other(bytes, 0, 1, &[257, 258, 512 + low, 32_768, 65_535], rng)
    });
    add(damages, 2, "M over 10", |bytes, rng| set_other(bytes, 0, 2, &[11, 12, 16, 256, 0x0101, 65_535], rng));
    add(damages, 2, "f5 of record 0", |bytes, rng| put(bytes, 0, 5, not_zero(rng)));
    add(damages, 2, "N = J", |bytes, _| {
        let records = count(bytes);
        (records <= 256).then(|| set_field(bytes, 0, 1, records as u16))
    });
    add(damages, 2, "N below J", |bytes, rng| {
        let junctions = usize::from(field(bytes, 0, 1));
        if junctions < 2 || junctions >= count(bytes) {
            return None;
        }
        let records = rng.range(2, junctions);
        bytes.truncate(records * RECORD);
        put(bytes, 0, 4, records as u16)
    });
}

/// Line 3: kinds.
fn add_kinds(damages: &mut Vec<Damage>) {
    add(damages, 3, "kind of a junction", |bytes, rng| {
        let junctions = usize::from(field(bytes, 0, 1)).clamp(1, count(bytes) - 1);
        let junction = rng.range(1, junctions);
        set_other(bytes, junction, 0, &[0, 2, 3, 4, 5, 7, 0x0100, 0x0101], rng)
    });
    add(damages, 3, "kind 1 above J", |bytes, rng| {
        let index = above(bytes, rng)?;
        set_other(bytes, index, 0, &[1], rng)
    });
    add(damages, 3, "unknown kind above J", |bytes, rng| {
        let index = above(bytes, rng)?;
        let kind = field(bytes, index, 0);
        set_other(bytes, index, 0, &[0, 5, 6, 7, 8, kind.swap_bytes(), kind ^ 256, 65_535], rng)
    });
    add(damages, 3, "J one more", |bytes, _| {
        let junctions = field(bytes, 0, 1);
        let room = usize::from(junctions) + 1 < count(bytes) && junctions < 256;
        room.then(|| set_field(bytes, 0, 1, junctions + 1))
    });
    add(damages, 3, "J one less", |bytes, _| {
        let junctions = field(bytes, 0, 1);
        (junctions > 1).then(|| set_field(bytes, 0, 1, junctions - 1))
    });
}

/// Some record above J.
fn above(bytes: &[u8], rng: &mut Rng) -> Option<usize> {
    let first = usize::from(field(bytes, 0, 1)) + 1;
    (first < count(bytes)).then(|| rng.range(first, count(bytes) - 1))
}

/// Line 3: zero fields of each kind.
fn add_zero_fields(damages: &mut Vec<Damage>) {
    let zero_fields: [(&str, u16, &[usize]); 4] =
        [("junction", 1, &[2, 3, 4, 5]), ("belt", 2, &[5]), ("rule", 3, &[3, 4, 5]), ("literal", 4, &[5])];
    for (kind_name, kind, numbers) in zero_fields {
        for number in numbers.iter().copied() {
            add(damages, 3, &format!("f{number} of a {kind_name} not zero"), move |bytes, rng| {
                let index = rng.pick(&of_kind(bytes, kind))?;
                put(bytes, index, number, not_zero(rng))
            });
        }
    }
    // f4 of a belt may be anything, and says nothing of f5: it is zero here, or just what f5 is.
    add(damages, 3, "f5 of a belt not zero, f4 zero", |bytes, rng| {
        let index = rng.pick(&of_kind(bytes, 2))?;
        set_field(bytes, index, 4, 0);
        put(bytes, index, 5, not_zero(rng))
    });
    add(damages, 3, "f5 of a belt not zero, f4 the same", |bytes, rng| {
        let index = rng.pick(&of_kind(bytes, 2))?;
        let value = not_zero(rng);
        set_field(bytes, index, 4, value);
        put(bytes, index, 5, value)
    });
}

/// Line 3: ranged fields of each kind.
fn add_ranged_fields(damages: &mut Vec<Damage>) {
    add(damages, 3, "f2 of a belt zero", |bytes, rng| {
        let index = rng.pick(&of_kind(bytes, 2))?;
        put(bytes, index, 2, 0)
    });
    add(damages, 3, "f2 of a belt over J", |bytes, rng| {
        let index = rng.pick(&of_kind(bytes, 2))?;
        let junctions = field(bytes, 0, 1);
        let over = [junctions.wrapping_add(1), field(bytes, index, 2) ^ 256, 65_535];
        set_other(bytes, index, 2, &over, rng)
    });
    for number in [2, 3] {
        add(damages, 3, &format!("f{number} of a literal over 1"), move |bytes, rng| {
            let index = rng.pick(&of_kind(bytes, 4))?;
            set_other(bytes, index, number, &[2, 3, 256, 257, 65_535], rng)
        });
    }
}

/// A field that holds a chain index: name, kind of its holder, field, kind of the target.
type Holder = (&'static str, u16, usize, u16);

const HOLDERS: [Holder; 6] = [
    ("first rule", 7, 3, 3),
    ("first belt", 1, 1, 2),
    ("next belt", 2, 1, 2),
    ("next rule", 3, 1, 3),
    ("first literal", 3, 2, 4),
    ("next literal", 4, 1, 4),
];

/// Every place of a chain index in the bytes, as its holder and its field.
fn places(bytes: &[u8], (_, kind, number, _): Holder) -> Vec<(usize, usize)> {
    if kind == 7 {
        return vec![(0, number)];
    }
    of_kind(bytes, kind).into_iter().map(|index| (index, number)).collect()
}

/// Some holder whose index is zero, so that a new value takes nothing away; else any.
fn free_place(bytes: &[u8], holder: Holder, rng: &mut Rng) -> Option<(usize, usize)> {
    let places = places(bytes, holder);
    let free: Vec<(usize, usize)> =
        places.iter().copied().filter(|(index, number)| field(bytes, *index, *number) == 0).collect();
    rng.pick(&free).or_else(|| rng.pick(&places))
}

/// The place that holds this chain index.
fn place_holding(bytes: &[u8], target: usize) -> Option<(usize, usize)> {
    let all = HOLDERS.into_iter().flat_map(|holder| places(bytes, holder));
    all.into_iter().find(|(index, number)| usize::from(field(bytes, *index, *number)) == target)
}

/// Line 4: one chain index wrong.
fn add_indices(damages: &mut Vec<Damage>, holder: Holder) {
    let (name, kind, number, target) = holder;
    add(damages, 4, &format!("{name} is N"), move |bytes, rng| {
        let (index, number) = free_place(bytes, holder, rng)?;
        let records = count(bytes) as u16;
        put(bytes, index, number, records)
    });
    add(damages, 4, &format!("{name} over N"), move |bytes, rng| {
        let (index, number) = free_place(bytes, holder, rng)?;
        let records = count(bytes) as u16;
        set_other(bytes, index, number, &[records.saturating_add(1), 2048, 32_768, 65_535], rng)
    });
    add(damages, 4, &format!("{name} of another kind"), move |bytes, rng| {
        let (index, number) = free_place(bytes, holder, rng)?;
        let others: Vec<usize> = (index + 1..count(bytes)).filter(|other| field(bytes, *other, 0) != target).collect();
        put(bytes, index, number, rng.pick(&others)? as u16)
    });
    add(damages, 4, &format!("{name} of another kind, held once"), move |bytes, rng| take_over(bytes, holder, rng));
    add_reached(damages, holder);
    if kind == target {
        add_turned(damages, holder);
    } else if kind != 7 {
        add(damages, 4, &format!("{name} not above its holder"), move |bytes, rng| {
            let index = rng.pick(&of_kind(bytes, kind))?;
            let low = rng.range(1, index) as u16;
            set_other(bytes, index, number, &[low, index as u16], rng)
        });
    }
}

/// Line 4: a record reached twice, or no more.
fn add_reached(damages: &mut Vec<Damage>, holder: Holder) {
    let (name, kind, _, target) = holder;
    add(damages, 4, &format!("{name} reached twice"), move |bytes, rng| {
        // The rules are one chain, and above its last one there is none: there any place does.
        let one_chain = kind == 3 && target == 3;
        let place = if one_chain { rng.pick(&places(bytes, holder)) } else { free_place(bytes, holder, rng) };
        let (index, number) = place?;
        let above = of_kind(bytes, target).into_iter().filter(|other| *other > index);
        let above: Vec<u16> = above.map(|other| other as u16).collect();
        set_other(bytes, index, number, &above, rng)
    });
    add(damages, 4, &format!("{name} cut off"), move |bytes, rng| {
        let places = places(bytes, holder).into_iter();
        let held: Vec<(usize, usize)> = places.filter(|(index, number)| field(bytes, *index, *number) != 0).collect();
        let (index, number) = rng.pick(&held)?;
        put(bytes, index, number, 0)
    });
}

/// Lets the last record of a chain be held by a place for another kind, and by nothing else.
fn take_over(bytes: &mut [u8], holder: Holder, rng: &mut Rng) -> Option<()> {
    let (index, number) = free_place(bytes, holder, rng)?;
    let is_last = |record: &usize| matches!(field(bytes, *record, 0), 2..=4) && field(bytes, *record, 1) == 0;
    let fits = |record: &usize| is_last(record) && field(bytes, *record, 0) != holder.3;
    let last: Vec<usize> = (index + 1..count(bytes)).filter(fits).collect();
    let taken = rng.pick(&last)?;
    let (old_index, old_number) = place_holding(bytes, taken)?;
    if field(bytes, index, number) != 0 || old_index == index {
        return None;
    }
    set_field(bytes, old_index, old_number, 0);
    put(bytes, index, number, taken as u16)
}

/// Line 4: chains inside a kind where each record still is held exactly once.
fn add_turned(damages: &mut Vec<Damage>, holder: Holder) {
    let (name, kind, _, _) = holder;
    add(damages, 4, &format!("{name} is its holder"), move |bytes, rng| {
        let loose = rng.pick(&of_kind(bytes, kind))?;
        let (index, number) = place_holding(bytes, loose)?;
        let next = field(bytes, loose, 1);
        set_field(bytes, index, number, next);
        put(bytes, loose, 1, loose as u16)
    });
    add(damages, 4, &format!("{name} below its holder"), move |bytes, rng| {
        let records = of_kind(bytes, kind).into_iter();
        let followed: Vec<usize> = records.filter(|index| field(bytes, *index, 1) != 0).collect();
        let first = rng.pick(&followed)?;
        let second = usize::from(field(bytes, first, 1));
        let (index, number) = place_holding(bytes, first)?;
        if second >= count(bytes) || second == first || index == second {
            return None;
        }
        let third = field(bytes, second, 1);
        set_field(bytes, index, number, second as u16);
        set_field(bytes, first, 1, third);
        put(bytes, second, 1, first as u16)
    });
}

/// Line 4: two chains exchanged, and a record that nothing reaches.
fn add_chains(damages: &mut Vec<Damage>) {
    add(damages, 4, "chains of different kinds exchanged", |bytes, rng| exchange(bytes, false, rng));
    add(damages, 0, "chains of one kind exchanged", |bytes, rng| exchange(bytes, true, rng));
    add(damages, 0, "chain moved", |bytes, rng| {
        let holder = HOLDERS[rng.below(HOLDERS.len())];
        let (index, number) = free_place(bytes, holder, rng)?;
        let fits = of_kind(bytes, holder.3).into_iter().filter(|record| *record > index);
        let taken = rng.pick(&fits.collect::<Vec<usize>>())?;
        let (old_index, old_number) = place_holding(bytes, taken)?;
        let rest = field(bytes, index, number);
        set_field(bytes, old_index, old_number, rest);
        put(bytes, index, number, taken as u16)
    });
    add(damages, 4, "first literal below its holder, held once", |bytes, rng| {
        let rules = of_kind(bytes, 3);
        let (one, other) = (rng.pick(&rules)?, rng.pick(&rules)?);
        let (theirs, others) = (field(bytes, one, 2), field(bytes, other, 2));
        let low = theirs != 0 && usize::from(theirs) < other && usize::from(others) > one;
        low.then_some(())?;
        set_field(bytes, one, 2, others);
        put(bytes, other, 2, theirs)
    });
    add(damages, 4, "record never reached", |bytes, rng| {
        let records = count(bytes);
        let orphan: [u16; 6] = [[2, 0, 1, 9, 0, 0], [3, 0, 0, 0, 0, 0], [4, 0, 1, 1, 1, 0]][rng.below(3)];
        if records == MAX_RECORDS {
            return None;
        }
        bytes.truncate(records * RECORD);
        bytes.extend(crate::plan::bytes_of(&[orphan]));
        put(bytes, 0, 4, records as u16 + 1)
    });
}

/// Exchanges two chain indices that are larger than both of their holders.
fn exchange(bytes: &mut [u8], same_kind: bool, rng: &mut Rng) -> Option<()> {
    let one = HOLDERS[rng.below(HOLDERS.len())];
    let like: Vec<Holder> = HOLDERS.into_iter().filter(|holder| (holder.3 == one.3) == same_kind).collect();
    let other = rng.pick(&like)?;
    let (index, number) = rng.pick(&places(bytes, one))?;
    let value = usize::from(field(bytes, index, number));
    let fits = |place: &(usize, usize)| {
        let theirs = usize::from(field(bytes, place.0, place.1));
        theirs > index && value > place.0 && theirs != value
    };
    let fitting: Vec<(usize, usize)> = places(bytes, other).into_iter().filter(fits).collect();
    let (index_other, number_other) = rng.pick(&fitting)?;
    let theirs = field(bytes, index_other, number_other);
    set_field(bytes, index, number, theirs);
    put(bytes, index_other, number_other, value as u16)
}

/// Line 5.
fn add_belts(damages: &mut Vec<Damage>) {
    add(damages, 5, "belt to its own junction", |bytes, rng| {
        let belt = rng.pick(&of_kind(bytes, 2))?;
        let from = leaves(bytes, belt)?;
        put(bytes, belt, 2, from as u16)
    });
    add(damages, 5, "belt to a lower junction", |bytes, rng| {
        let belt = rng.pick(&of_kind(bytes, 2))?;
        let from = leaves(bytes, belt)?;
        (from > 1).then(|| set_field(bytes, belt, 2, rng.range(1, from - 1) as u16))
    });
}

/// The junction that a belt leaves, found backward along its chain.
fn leaves(bytes: &[u8], belt: usize) -> Option<usize> {
    let mut at = belt;
    for _ in 0..count(bytes) {
        (at, _) = place_holding(bytes, at)?;
        if field(bytes, at, 0) == 1 {
            return Some(at);
        }
    }
    None
}

/// Line 6: belts.
fn add_named_belts(damages: &mut Vec<Damage>) {
    let wrong: [(&str, u16); 4] = [("a junction", 1), ("a rule", 3), ("a literal", 4), ("record 0", 7)];
    for (name, kind) in wrong {
        add(damages, 6, &format!("literal names {name} as a belt"), move |bytes, rng| {
            let literal = literal_about(bytes, 0, rng)?;
            let targets = if kind == 7 { vec![0] } else { of_kind(bytes, kind) };
            put(bytes, literal, 4, rng.pick(&targets)? as u16)
        });
    }
    add(damages, 6, "literal names itself as a belt", |bytes, rng| {
        let literal = literal_about(bytes, 0, rng)?;
        put(bytes, literal, 4, literal as u16)
    });
    add(damages, 6, "literal names record N or a later one as a belt", |bytes, rng| {
        let literal = literal_about(bytes, 0, rng)?;
        let records = count(bytes) as u16;
        set_other(bytes, literal, 4, &[records, records.saturating_add(1), 2048, 32_768, 65_535], rng)
    });
    add(damages, 6, "mode taken for a belt", |bytes, rng| {
        let literal = literal_about(bytes, 1, rng)?;
        put(bytes, literal, 3, 0)
    });
}

/// Line 6: modes.
fn add_named_modes(damages: &mut Vec<Damage>) {
    add(damages, 6, "literal names mode 0", |bytes, rng| {
        let literal = literal_about(bytes, 1, rng)?;
        put(bytes, literal, 4, 0)
    });
    add(damages, 6, "literal names a mode over M", |bytes, rng| {
        let literal = literal_about(bytes, 1, rng)?;
        let modes = field(bytes, 0, 2);
        let over = [modes.wrapping_add(1), 11, 17, modes ^ 256, 65_535];
        set_other(bytes, literal, 4, &over, rng)
    });
    add(damages, 6, "M too low for a literal", |bytes, rng| {
        let literal = literal_about(bytes, 1, rng)?;
        let mode = field(bytes, literal, 4);
        (mode >= 1).then(|| set_field(bytes, 0, 2, mode - 1))
    });
    add(damages, 6, "belt taken for a mode", |bytes, rng| {
        let literal = literal_about(bytes, 0, rng)?;
        put(bytes, literal, 3, 1)
    });
}

/// Some literal whose f3 is 0 (belt) or 1 (mode).
fn literal_about(bytes: &[u8], about: u16, rng: &mut Rng) -> Option<usize> {
    let literals = of_kind(bytes, 4).into_iter();
    let fitting: Vec<usize> = literals.filter(|literal| field(bytes, *literal, 3) == about).collect();
    rng.pick(&fitting)
}

/// Changes that aim at nothing and often leave a valid plan.
fn add_blind(damages: &mut Vec<Damage>) {
    add(damages, 0, "any bit", |bytes, rng| {
        let at = rng.below(bytes.len());
        bytes[at] ^= 1 << rng.below(8);
        Some(())
    });
    add(damages, 0, "any byte", |bytes, rng| {
        let at = rng.below(bytes.len());
        bytes[at] = rng.next() as u8;
        Some(())
    });
    add(damages, 0, "any field", |bytes, rng| {
        let records = count(bytes);
        let value = [rng.below(4), rng.below(records), records - 1, usize::from(field(bytes, 0, 1))][rng.below(4)];
        put(bytes, rng.below(records), rng.below(6), value as u16)
    });
    add(damages, 0, "high half of a cost", |bytes, rng| {
        let index = rng.pick(&of_kind(bytes, 2))?;
        put(bytes, index, 4, not_zero(rng))
    });
    add(damages, 0, "two records exchanged", |bytes, rng| {
        let (a, b) = (rng.below(count(bytes)), rng.below(count(bytes)));
        for at in 0..RECORD {
            bytes.swap(RECORD * a + at, RECORD * b + at);
        }
        Some(())
    });
}
