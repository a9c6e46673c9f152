//! The instruction record of 24 bytes, and the line that the lister prints for it.

use crate::codes;
use std::fmt;

pub const SIZE: usize = 24;
pub const MARK: u8 = 0xA9;

/// The last number that a fresh label may have.
pub const LAST_FRESH: u64 = (1 << 31) - 1;

/// The labels that stand for names.
pub const ASM_MAIN: u32 = 1 << 31;
pub const CLEANUP: u32 = ASM_MAIN + 1;
pub const PRINT_I64: u32 = ASM_MAIN + 2;
pub const PRINTLN_I64: u32 = ASM_MAIN + 3;
pub const FIRST_CALLERS: u32 = ASM_MAIN + 16;

#[derive(Debug, Clone, Copy, PartialEq, Eq, Default)]
pub struct Record {
    pub code: u8,
    pub a: u8,
    pub b: u8,
    pub label: u32,
    pub offset: i64,
    pub value: i64,
}

impl Record {
    pub fn to_bytes(self) -> [u8; SIZE] {
        let mut bytes = [0; SIZE];
        bytes[..4].copy_from_slice(&[MARK, self.code, self.a, self.b]);
        bytes[4..8].copy_from_slice(&self.label.to_le_bytes());
        bytes[8..16].copy_from_slice(&self.offset.to_le_bytes());
        bytes[16..].copy_from_slice(&self.value.to_le_bytes());
        bytes
    }

    /// The record in 24 bytes with the right mark and a code; the other fields are taken as they
    /// are.
    pub fn from_bytes(bytes: &[u8; SIZE]) -> Option<Record> {
        let known = bytes[0] == MARK && codes::form(bytes[1]).is_some();
        known.then(|| Record {
            code: bytes[1],
            a: bytes[2],
            b: bytes[3],
            label: u32::from_le_bytes(bytes[4..8].try_into().unwrap()),
            offset: i64::from_le_bytes(bytes[8..16].try_into().unwrap()),
            value: i64::from_le_bytes(bytes[16..].try_into().unwrap()),
        })
    }
}

/// The line of the listing, without its place.
impl fmt::Display for Record {
    fn fmt(&self, f: &mut fmt::Formatter) -> fmt::Result {
        let name = codes::form(self.code).map_or("?", |form| form.name);
        let Record {
            a,
            b,
            label,
            offset,
            value,
            ..
        } = self;
        write!(f, "{name} {a} {b} {label} {offset} {value}")
    }
}

/// The whole listing: a header, then a line for each record with its place.
pub fn listing(records: &[Record]) -> String {
    let mut text = format!("{} records\n", records.len());
    for (index, record) in records.iter().enumerate() {
        text += &format!("{} {record}\n", index + 1);
    }
    text
}
