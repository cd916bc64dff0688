//! The record form shared by plans and sheets: 12 bytes, six 16-bit fields,
//! high byte first.

pub const SIZE: usize = 12;
pub const PLAN_MAX: usize = 24_576;
pub const SHEET_MAX: usize = 3_072;

pub const PLAN: u16 = 7;
pub const JUNCTION: u16 = 1;
pub const BELT: u16 = 2;
pub const RULE: u16 = 3;
pub const LITERAL: u16 = 4;
pub const STEP: u16 = 5;
pub const SHEET: u16 = 8;

pub type Record = [u16; 6];

pub fn decode(bytes: &[u8]) -> Vec<Record> {
    bytes.chunks_exact(SIZE).map(decode_one).collect()
}

fn decode_one(bytes: &[u8]) -> Record {
    let mut record = [0; 6];
    for (field, pair) in record.iter_mut().zip(bytes.chunks_exact(2)) {
        *field = u16::from_be_bytes([pair[0], pair[1]]);
    }
    record
}

pub fn encode(record: Record, bytes: &mut [u8]) {
    for (pair, field) in bytes.chunks_exact_mut(2).zip(record) {
        pair.copy_from_slice(&field.to_be_bytes());
    }
}
