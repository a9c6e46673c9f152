//! Well-formed bindings, instructions and orders with random fields, many of them at a limit.

use crate::codes::FORMS;
use crate::random::Random;
use crate::record::{self, Record};

/// Signed numbers at the ends of the widths that instructions and texts have.
pub const IMMEDIATES: [i64; 20] = [
    0,
    1,
    -1,
    9,
    10,
    -10,
    127,
    128,
    -128,
    -129,
    i32::MAX as i64,
    i32::MAX as i64 + 1,
    i32::MIN as i64,
    i32::MIN as i64 - 1,
    u32::MAX as i64,
    u32::MAX as i64 + 1,
    i64::MAX - 1,
    i64::MAX,
    i64::MIN,
    i64::MIN + 1,
];

pub fn binding(random: &mut Random) -> [u8; 8] {
    let mut bytes = [0xA7, 0x01, random.below(2) as u8, 0, 0, 0, 0, 0];
    bytes[4..].copy_from_slice(&(random.word() as u32).to_le_bytes());
    bytes
}

/// An instruction record of the given code.
pub fn instruction(code: u8, random: &mut Random) -> Record {
    let form = &FORMS[usize::from(code) - 1];
    let mut record = Record {
        code,
        ..Record::default()
    };
    if form.uses('a') {
        record.a = random.below(16) as u8;
    }
    if form.uses('b') {
        record.b = random.below(16) as u8;
    }
    if form.uses('l') {
        record.label = label(random);
    }
    if form.uses('o') {
        record.offset = immediate(random);
    }
    if form.uses('v') {
        record.value = immediate(random);
    }
    record
}

/// A label that a record may hold: often one beside those that it may not.
fn label(random: &mut Random) -> u32 {
    let named = record::ASM_MAIN + random.below(4) as u32;
    let callers = record::FIRST_CALLERS + random.below(1 << 30) as u32;
    let fresh = 1 + random.below(record::LAST_FRESH as usize) as u32;
    let end = random.pick(&[1, record::ASM_MAIN - 1, record::FIRST_CALLERS, u32::MAX]);
    random.pick(&[named, callers, fresh, end])
}

/// A signed number, often one at the end of a width.
pub fn immediate(random: &mut Random) -> i64 {
    match random.below(4) {
        0 | 1 => random.pick(&IMMEDIATES),
        2 => random.word() as i64 >> random.below(64),
        _ => random.word() as i64,
    }
}

/// An order of the given code; one that is no code gets the fields of the last.
pub fn order(code: u8, random: &mut Random) -> [u8; 24] {
    let (largest_flag, fields) = match code {
        1 => (0, "v"),
        2 => (4, "ab"),
        3 => (0, "an"),
        4 => (0, ""),
        5 => (0, "nv"),
        6 => (0, "n"),
        _ => (1, "a"),
    };
    let mut bytes = [0; 24];
    bytes[..3].copy_from_slice(&[0xA8, code, random.below(largest_flag + 1) as u8]);
    for (field, start) in [('a', 4), ('b', 8), ('n', 12)] {
        if fields.contains(field) {
            let word = random.word() as u32 >> random.below(32);
            bytes[start..start + 4].copy_from_slice(&word.to_le_bytes());
        }
    }
    if fields.contains('v') {
        bytes[16..].copy_from_slice(&immediate(random).to_le_bytes());
    }
    bytes
}
