//! Bytes checked, and records listed as text.

use crate::ffi;
use crate::refusal::{Cause, Refusal};

/// What bytes should be.
#[derive(Debug, Clone, Copy, PartialEq, Eq)]
pub enum Form {
    /// Bindings, at most 4,096.
    Context = 1,
    /// Instruction records, at most 65,536.
    Records = 2,
    /// One order.
    Order = 3,
}

/// Whether bytes are well formed; a refusal has the place of the first bad binding, or of the first
/// bad or surplus record.
pub fn check(form: Form, bytes: &[u8]) -> Result<(), Refusal> {
    match ffi::check(form as u64, bytes) {
        ffi::Told { number: 0, .. } => Ok(()),
        ffi::Told { number, value } => Err(Refusal::told(number, value)),
    }
}

/// The listing of at most 2,730 instruction records.
pub fn list(records: &[u8]) -> Result<String, Refusal> {
    let needed = match ffi::list(records, &mut []) {
        ffi::Told { number: 10, value } => value,
        ffi::Told { number, value } => return Err(Refusal::told(number, value)),
    };
    let mut text = vec![0; needed as usize];
    match ffi::list(records, &mut text).number {
        0 => Ok(String::from_utf8_lossy(&text).into_owned()),
        _ => Err(Refusal::new(Cause::Room, needed, 0)),
    }
}

#[cfg(test)]
mod tests {
    use super::{check, list, Form};
    use crate::emit::{memory, Memory, Operand};
    use crate::{Edition, Frame};

    #[test]
    fn bad_bytes_are_refused_with_their_place() {
        assert_eq!(check(Form::Context, &[]), Ok(()));
        let context = [[0xA7, 1, 0, 0, 0, 0, 0, 0]; 3].concat();
        let bad = |at: usize, byte| {
            let mut bytes = context.clone();
            bytes[at] = byte;
            let refusal = check(Form::Context, &bytes).unwrap_err();
            (refusal.number, refusal.place)
        };
        assert_eq!(check(Form::Context, &context), Ok(()));
        assert_eq!(bad(8, 0), (16, 2));
        assert_eq!(bad(17, 0), (16, 3));
        assert_eq!(bad(2, 2), (17, 1));
        assert_eq!(bad(19, 1), (17, 3));
        let refusal = check(Form::Context, &[0xA7]).unwrap_err();
        assert_eq!((refusal.number, refusal.place), (15, 0));
        let refusal = check(Form::Records, &[0; 24]).unwrap_err();
        assert_eq!((refusal.number, refusal.place), (2, 1));
        let refusal = check(Form::Order, &[0xA8; 3]).unwrap_err();
        assert_eq!((refusal.number, refusal.place), (2, 1));
    }

    #[test]
    fn a_share_is_listed_as_document_01_has_it() {
        let mut counter = 0;
        let share = Memory::ShareBlockN(Operand::Register(4), 1);
        let records = memory(Edition::First, Frame::Of256, share, &mut counter).unwrap();
        let lines =
            "4 records\n1 CMPI 4 0 0 0 0\n2 JEL 0 0 1 0 0\n3 ADDIM 4 0 0 0 1\n4 LAB 0 0 1 0 0\n";
        assert_eq!(list(&records).unwrap(), lines);
        assert_eq!(counter, 1);
        assert_eq!(list(&records[1..]).unwrap_err().place, 1);
        assert_eq!(list(&records.repeat(683)).unwrap_err().place, 2731);
    }

    /// The library's own name of a code, from the listing of one record; a code that uses a label
    /// wants one.
    fn name(code: u8) -> String {
        let record = |label| {
            let mut record = [0; 24];
            record[..5].copy_from_slice(&[0xA9, code, 0, 0, label]);
            list(&record)
        };
        let text = record(0).or_else(|_| record(1)).unwrap();
        text.split_whitespace().nth(3).unwrap().to_string()
    }

    #[test]
    fn the_headers_codes_are_the_librarys() {
        let header = include_str!("../../../include/axcut.h");
        let codes = header
            .lines()
            .filter_map(|line| line.trim().strip_prefix("AXCUT_CODE_"));
        let codes: Vec<(&str, u8)> = codes
            .filter_map(|line| line.trim_end_matches(',').split_once(" = "))
            .map(|(name, number)| (name, number.parse().unwrap()))
            .collect();
        assert_eq!(codes.len(), 44);
        for (expected, number) in codes {
            assert_eq!(name(number), expected);
        }
    }

    #[test]
    fn the_longest_listing_is_what_the_header_says() {
        let mut record = [0; 24];
        record[..3].copy_from_slice(&[0xA9, 24, 15]);
        record[8..16].copy_from_slice(&i64::MIN.to_le_bytes());
        record[16..].copy_from_slice(&i64::MIN.to_le_bytes());
        assert_eq!(list(&record.repeat(2730)).unwrap().len(), 162_706);
    }
}
