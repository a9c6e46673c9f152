//! Turns the published `Code` into instruction records and back. A code's number is its place in
//! the enum, and the registers stand in the enum's order.

use super::published::code::Code::{self, *};
use super::published::config::{Immediate, Register};
use crate::record::{self, Record};
use crate::rust_side::label_text;
use printer::tokens::{PRINT_I64, PRINTLN_I64};

/// The record of an instruction; a comment has none.
pub fn record_of(code: &Code) -> Option<Record> {
    Some(match code {
        ADD(a, b) => registers(1, a, b),
        ADDRM(a, b, i) => registers_offset(2, a, b, i),
        ADDMR(a, i, b) => registers_offset(3, a, b, i),
        ADDI(a, i) => register_value(4, a, i),
        ADDIM(a, i1, i2) => register_offset_value(5, a, i1, i2),
        SUB(a, b) => registers(6, a, b),
        SUBRM(a, b, i) => registers_offset(7, a, b, i),
        SUBMR(a, i, b) => registers_offset(8, a, b, i),
        SUBI(a, i) => register_value(9, a, i),
        IMUL(a, b) => registers(10, a, b),
        IMULRM(a, b, i) => registers_offset(11, a, b, i),
        IMULMR(a, i, b) => registers_offset(12, a, b, i),
        IDIV(a) => register(13, a),
        IDIVM(a, i) => Record {
            offset: i.val,
            ..register(14, a)
        },
        CQO => bare(15),
        JMP(a) => register(16, a),
        JMPL(l) => labelled(17, l),
        JMPLN(l) => labelled(18, l),
        LEAL(a, l) => Record {
            a: byte(a),
            ..labelled(19, l)
        },
        MOV(a, b) => registers(20, a, b),
        MOVS(a, b, i) => registers_offset(21, a, b, i),
        MOVL(a, b, i) => registers_offset(22, a, b, i),
        MOVI(a, i) => register_value(23, a, i),
        MOVIM(a, i1, i2) => register_offset_value(24, a, i1, i2),
        CMP(a, b) => registers(25, a, b),
        CMPRM(a, b, i) => registers_offset(26, a, b, i),
        CMPMR(a, i, b) => registers_offset(27, a, b, i),
        CMPI(a, i) => register_value(28, a, i),
        CMPIM(a, i1, i2) => register_offset_value(29, a, i1, i2),
        JEL(l) => labelled(30, l),
        JNEL(l) => labelled(31, l),
        JLL(l) => labelled(32, l),
        JLEL(l) => labelled(33, l),
        JGL(l) => labelled(34, l),
        JGEL(l) => labelled(35, l),
        PUSH(a) => register(36, a),
        POP(a) => register(37, a),
        CALL(l) => labelled(38, l),
        RET => bare(39),
        LAB(l) => labelled(40, l),
        NOEXECSTACK => bare(41),
        TEXT => bare(42),
        GLOBAL(l) => labelled(43, l),
        EXTERN(l) => labelled(44, l),
        COMMENT(_) => return None,
    })
}

/// The instruction of a record, if one has exactly this record.
pub fn code_of(record: &Record) -> Option<Code> {
    let a = || Register(record.a.into());
    let b = || Register(record.b.into());
    let label = || label_text(record.label.into());
    let offset = || Immediate::from(record.offset);
    let value = || Immediate::from(record.value);
    let code = match record.code {
        1 => ADD(a(), b()),
        2 => ADDRM(a(), b(), offset()),
        3 => ADDMR(a(), offset(), b()),
        4 => ADDI(a(), value()),
        5 => ADDIM(a(), offset(), value()),
        6 => SUB(a(), b()),
        7 => SUBRM(a(), b(), offset()),
        8 => SUBMR(a(), offset(), b()),
        9 => SUBI(a(), value()),
        10 => IMUL(a(), b()),
        11 => IMULRM(a(), b(), offset()),
        12 => IMULMR(a(), offset(), b()),
        13 => IDIV(a()),
        14 => IDIVM(a(), offset()),
        15 => CQO,
        16 => JMP(a()),
        17 => JMPL(label()),
        18 => JMPLN(label()),
        19 => LEAL(a(), label()),
        20 => MOV(a(), b()),
        21 => MOVS(a(), b(), offset()),
        22 => MOVL(a(), b(), offset()),
        23 => MOVI(a(), value()),
        24 => MOVIM(a(), offset(), value()),
        25 => CMP(a(), b()),
        26 => CMPRM(a(), b(), offset()),
        27 => CMPMR(a(), offset(), b()),
        28 => CMPI(a(), value()),
        29 => CMPIM(a(), offset(), value()),
        30 => JEL(label()),
        31 => JNEL(label()),
        32 => JLL(label()),
        33 => JLEL(label()),
        34 => JGL(label()),
        35 => JGEL(label()),
        36 => PUSH(a()),
        37 => POP(a()),
        38 => CALL(label()),
        39 => RET,
        40 => LAB(label()),
        41 => NOEXECSTACK,
        42 => TEXT,
        43 => GLOBAL(label()),
        44 => EXTERN(label()),
        _ => return None,
    };
    (record_of(&code) == Some(*record)).then_some(code)
}

/// The label of an instruction that has one.
pub fn label_mut(code: &mut Code) -> Option<&mut String> {
    match code {
        JMPL(l) | JMPLN(l) | LEAL(_, l) | CALL(l) | LAB(l) | GLOBAL(l) | EXTERN(l) => Some(l),
        JEL(l) | JNEL(l) | JLL(l) | JLEL(l) | JGL(l) | JGEL(l) => Some(l),
        _ => None,
    }
}

fn bare(code: u8) -> Record {
    Record {
        code,
        ..Record::default()
    }
}

fn register(code: u8, a: &Register) -> Record {
    Record {
        a: byte(a),
        ..bare(code)
    }
}

fn registers(code: u8, a: &Register, b: &Register) -> Record {
    Record {
        b: byte(b),
        ..register(code, a)
    }
}

fn registers_offset(code: u8, a: &Register, b: &Register, offset: &Immediate) -> Record {
    Record {
        offset: offset.val,
        ..registers(code, a, b)
    }
}

fn register_value(code: u8, a: &Register, value: &Immediate) -> Record {
    Record {
        value: value.val,
        ..register(code, a)
    }
}

fn register_offset_value(code: u8, a: &Register, offset: &Immediate, value: &Immediate) -> Record {
    Record {
        offset: offset.val,
        ..register_value(code, a, value)
    }
}

fn labelled(code: u8, label: &str) -> Record {
    let label = match label {
        "asm_main" => record::ASM_MAIN,
        "cleanup" => record::CLEANUP,
        PRINT_I64 => record::PRINT_I64,
        PRINTLN_I64 => record::PRINTLN_I64,
        number => number.parse().expect("a label is a name or a number"),
    };
    Record {
        label,
        ..bare(code)
    }
}

/// The drivers let no register in that a record cannot hold.
fn byte(register: &Register) -> u8 {
    register.0.try_into().expect("a register fits a byte")
}

#[cfg(test)]
mod tests {
    use super::{code_of, record_of};
    use crate::codes::FORMS;
    use crate::record::Record;

    /// A record with a field other than zero wherever the code uses it.
    fn sample(code: u8) -> Record {
        let form = &FORMS[usize::from(code) - 1];
        Record {
            code,
            a: if form.uses('a') { 3 } else { 0 },
            b: if form.uses('b') { 14 } else { 0 },
            label: if form.uses('l') { 77 } else { 0 },
            offset: if form.uses('o') { -8 } else { 0 },
            value: if form.uses('v') { i64::MIN } else { 0 },
        }
    }

    #[test]
    fn every_code_is_its_record_and_back() {
        for code in 1..=44 {
            let record = sample(code);
            let instruction = code_of(&record).unwrap();
            assert_eq!(record_of(&instruction), Some(record));
            let name = format!("{instruction:?}");
            assert!(name.starts_with(FORMS[usize::from(code) - 1].name));
        }
    }

    #[test]
    fn a_record_with_an_unused_field_is_no_instruction() {
        let cqo = Record {
            code: 15,
            value: 1,
            ..Record::default()
        };
        assert!(code_of(&cqo).is_none());
    }
}
