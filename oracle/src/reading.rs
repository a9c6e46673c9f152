//! A reading of the scope's rules for well-formed records and orders and for the lister, and of
//! the scope's for contexts, made from the documents and not from the port, to be held against it.

use crate::codes::{self, Form};
use crate::record::{self, Record};

/// The scope's number, and the place or the bytes needed where it returns one.
#[derive(Debug, Clone, Copy, PartialEq, Eq)]
pub struct Refusal {
    pub number: u64,
    pub value: Option<u64>,
}

const MOST_BINDINGS: usize = 4_096;
pub const MOST_RECORDS: usize = 65_536;
const MOST_LISTED: usize = 2_730;

/// "15 for the length (place 0), checked first; then, at the earliest bad binding, 16 for its mark
/// and 17 for its kind or zero byte, in that sequence."
pub fn check_context(bytes: &[u8]) -> Result<(), Refusal> {
    check_bindings(0, bytes)
}

/// Bindings after so many others, "whose places count on".
pub fn check_bindings(before: usize, bytes: &[u8]) -> Result<(), Refusal> {
    let refused = |number, place| {
        Err(Refusal {
            number,
            value: Some(place as u64),
        })
    };
    let (bindings, part) = bytes.as_chunks::<8>();
    if !part.is_empty() || bindings.len() > MOST_BINDINGS {
        return refused(15, 0);
    }
    for (place, [mark, second, kind, zero, ..]) in (before + 1..).zip(bindings) {
        if (*mark, *second) != (0xA7, 0x01) {
            return refused(16, place);
        }
        if *kind > 1 || *zero != 0 {
            return refused(17, place);
        }
    }
    Ok(())
}

/// "malformed instruction, field not zero, too many": 2 with "the first bad or surplus record's"
/// place.
pub fn check_records(bytes: &[u8]) -> Result<(), Refusal> {
    let bad = bytes
        .chunks(record::SIZE)
        .enumerate()
        .position(|(index, chunk)| index >= MOST_RECORDS || well_formed_record(chunk).is_none());
    bad.map_or(Ok(()), |index| Err(bad_record(index + 1)))
}

/// An order is one record: the same number and place, a second record being surplus.
pub fn check_order(bytes: &[u8]) -> Result<(), Refusal> {
    let (orders, part) = bytes.as_chunks::<24>();
    if !orders.first().is_some_and(well_formed_order) {
        return Err(bad_record(1));
    }
    if orders.len() > 1 || !part.is_empty() {
        return Err(bad_record(2));
    }
    Ok(())
}

/// "header, then place, code, a, b, label, offset, value; more than 2,730 records are 2 with
/// 2,731". An earlier bad record comes first. An output too short is 10 with the bytes needed.
pub fn list(bytes: &[u8], room: usize) -> Result<String, Refusal> {
    let records = well_formed_records(bytes, MOST_LISTED)?;
    let mut text = format!("{} records\n", records.len());
    for (index, record) in records.iter().enumerate() {
        text += &line(index + 1, record);
    }
    if text.len() > room {
        return Err(Refusal {
            number: 10,
            value: Some(text.len() as u64),
        });
    }
    Ok(text)
}

fn line(place: usize, record: &Record) -> String {
    let name = codes::FORMS[usize::from(record.code) - 1].name;
    let numbers = [
        i128::from(record.a),
        i128::from(record.b),
        i128::from(record.label),
        i128::from(record.offset),
        i128::from(record.value),
    ];
    let numbers = numbers.map(|number| number.to_string());
    format!("{place} {name} {}\n", numbers.join(" "))
}

fn bad_record(place: usize) -> Refusal {
    Refusal {
        number: 2,
        value: Some(place as u64),
    }
}

/// All records, if there are at most so many and each is well formed.
fn well_formed_records(bytes: &[u8], most: usize) -> Result<Vec<Record>, Refusal> {
    let mut records = Vec::new();
    for (index, chunk) in bytes.chunks(record::SIZE).enumerate() {
        let record = if index < most {
            well_formed_record(chunk)
        } else {
            None
        };
        records.push(record.ok_or(bad_record(index + 1))?);
    }
    Ok(records)
}

/// "0xA9, code, register a, register b, 32-bit label, 64-bit signed offset, 64-bit signed value";
/// a part record is none.
fn well_formed_record(chunk: &[u8]) -> Option<Record> {
    let record = Record::from_bytes(chunk.try_into().ok()?)?;
    let form = codes::form(record.code)?;
    let registers = register_allowed(form, 'a', record.a) && register_allowed(form, 'b', record.b);
    let label = label_allowed(form, record.label);
    let offset = form.uses('o') || record.offset == 0;
    let value = form.uses('v') || record.value == 0;
    (registers && label && offset && value).then_some(record)
}

/// "A register above 15" is malformed; "an unused field is zero".
fn register_allowed(form: &Form, field: char, register: u8) -> bool {
    register <= if form.uses(field) { 15 } else { 0 }
}

/// "A label of 0 or 2^31 plus 4..15 where one is used" is malformed; "an unused field is zero".
fn label_allowed(form: &Form, label: u32) -> bool {
    let reserved = (1 << 31) + 4..=(1 << 31) + 15u32;
    if form.uses('l') {
        label != 0 && !reserved.contains(&label)
    } else {
        label == 0
    }
}

/// "0xA8, code, flag, zero byte, 32-bit a, 32-bit b, 32-bit n, 64-bit value; unused fields zero".
pub fn well_formed_order(order: &[u8; 24]) -> bool {
    let word = |at: usize| u32::from_le_bytes(order[at..at + 4].try_into().unwrap());
    let (a, b, n) = (word(4), word(8), word(12));
    let value = u64::from_le_bytes(order[16..].try_into().unwrap());
    let [mark, code, flag, zero] = order[..4] else {
        unreachable!("an order has four bytes and more")
    };
    let fields = match code {
        // put value
        1 => flag == 0 && (a, b, n) == (0, 0, 0),
        // compute: flag 0..4, on a and b
        2 => flag <= 4 && (n, value) == (0, 0),
        // copy a, n times
        3 => flag == 0 && (b, value) == (0, 0),
        // drop
        4 => flag == 0 && (a, b, n, value) == (0, 0, 0, 0),
        // store the last n, with value as the tag
        5 => flag == 0 && (a, b) == (0, 0),
        // load n
        6 => flag == 0 && (a, b, value) == (0, 0, 0),
        // print a; flag 1 adds a newline
        7 => flag <= 1 && (b, n, value) == (0, 0, 0),
        _ => false,
    };
    mark == 0xA8 && zero == 0 && fields
}

#[cfg(test)]
mod tests {
    use super::*;

    fn refused(number: u64, value: u64) -> Refusal {
        Refusal {
            number,
            value: Some(value),
        }
    }

    /// The scope's example: share register 4, count 1, counter 0.
    #[test]
    fn the_listers_example() {
        let record = |code, a, label, value| Record {
            code,
            a,
            label,
            value,
            ..Record::default()
        };
        let records = [
            record(28, 4, 0, 0),
            record(30, 0, 1, 0),
            record(5, 4, 0, 1),
            record(40, 0, 1, 0),
        ];
        let bytes: Vec<u8> = records
            .iter()
            .flat_map(|record| record.to_bytes())
            .collect();
        let text =
            "4 records\n1 CMPI 4 0 0 0 0\n2 JEL 0 0 1 0 0\n3 ADDIM 4 0 0 0 1\n4 LAB 0 0 1 0 0\n";
        assert_eq!(list(&bytes, text.len()), Ok(text.to_string()));
        assert_eq!(
            list(&bytes, text.len() - 1),
            Err(refused(10, text.len() as u64))
        );
        assert_eq!(list(&bytes[..95], 0), Err(refused(2, 4)));
    }

    #[test]
    fn counts_at_their_limits() {
        let ret = Record {
            code: 39,
            ..Record::default()
        };
        let records = |count: usize| ret.to_bytes().repeat(count);
        assert_eq!(check_records(&records(65_536)), Ok(()));
        assert_eq!(check_records(&records(65_537)), Err(refused(2, 65_537)));
        assert!(list(&records(2_730), 1 << 18).is_ok());
        assert_eq!(list(&records(2_731), 1 << 18), Err(refused(2, 2_731)));
        let binding = [0xA7, 1, 0, 0, 1, 2, 3, 4];
        assert_eq!(check_context(&binding.repeat(4_096)), Ok(()));
        assert_eq!(check_context(&binding.repeat(4_097)), Err(refused(15, 0)));
        assert_eq!(check_context(&binding[..7]), Err(refused(15, 0)));
    }

    #[test]
    fn an_order_is_one_record() {
        let mut order = [0; 25];
        order[..2].copy_from_slice(&[0xA8, 4]);
        assert_eq!(check_order(&order[..24]), Ok(()));
        assert_eq!(check_order(&order[..23]), Err(refused(2, 1)));
        assert_eq!(check_order(&order), Err(refused(2, 2)));
        order[23] = 1;
        assert_eq!(check_order(&order), Err(refused(2, 1)));
    }
}
