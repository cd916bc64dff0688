//! The abstract plan (junctions, modes, belts, rules) and records as bytes.

pub const RECORD: usize = 12;
pub const MAX_JUNCTIONS: usize = 256;
pub const MAX_RECORDS: usize = 2048;
pub const MAX_MODES: usize = 10;
pub const MAX_NAMED: usize = 48;

/// The six fields of a record.
pub type Record = [u16; 6];

/// A belt; its name is the index of its record.
#[derive(Clone, Debug, PartialEq)]
pub struct Belt {
    pub name: usize,
    pub from: usize,
    pub to: usize,
    pub cost: u64,
}

/// What a literal speaks of.
#[derive(Clone, Copy, Debug, PartialEq)]
pub enum About {
    Belt(usize),
    Mode(usize),
}

#[derive(Clone, Copy, Debug, PartialEq)]
pub struct Literal {
    pub wanted: bool,
    pub about: About,
}

/// A plan without its layout: belts in rising name, rules in chain order.
#[derive(Clone, Debug, PartialEq)]
pub struct Plan {
    pub junctions: usize,
    pub modes: usize,
    pub belts: Vec<Belt>,
    pub rules: Vec<Vec<Literal>>,
}

impl Plan {
    pub fn belt(&self, name: usize) -> Option<&Belt> {
        self.belts.iter().find(|belt| belt.name == name)
    }

    /// The belts that some rule names, each once, in rising order.
    pub fn named(&self) -> Vec<usize> {
        let mut names = Vec::new();
        for literal in self.rules.iter().flatten() {
            if let About::Belt(name) = literal.about {
                names.push(name);
            }
        }
        names.sort();
        names.dedup();
        names
    }
}

/// Records as bytes, each field high byte first.
pub fn bytes_of(records: &[Record]) -> Vec<u8> {
    let fields = records.iter().flatten();
    fields.flat_map(|field| [(field / 256) as u8, (field % 256) as u8]).collect()
}

/// The whole records at the start of some bytes.
pub fn records_of(bytes: &[u8]) -> Vec<Record> {
    let whole = bytes.len() / RECORD;
    (0..whole).map(|index| std::array::from_fn(|number| field(bytes, index, number))).collect()
}

/// Field `number` of record `index`.
pub fn field(bytes: &[u8], index: usize, number: usize) -> u16 {
    let at = RECORD * index + 2 * number;
    u16::from(bytes[at]) * 256 + u16::from(bytes[at + 1])
}

pub fn set_field(bytes: &mut [u8], index: usize, number: usize, value: u16) {
    let at = RECORD * index + 2 * number;
    bytes[at] = (value / 256) as u8;
    bytes[at + 1] = (value % 256) as u8;
}
