//! Writes what the program `test_replay` reads: each operation and each query of a list of requests by
//! itself, with the Rust's answer (docs/FORMATS.md, 'Replayed requests').

use crate::answer::Answer;
use crate::context::{Kind, Kinds};
use crate::record::{self, Record};
use crate::request::{Arithmetic, Condition, Emission, Number, Operand, Operation, Query, Request};
use crate::shape::{Frame, Shape};
use crate::{parse, rust_side};
use std::io::{Result, Write};

/// The longest context and the most bytes of a body that the port is asked about.
const LONGEST: u64 = 4096;
const LONGEST_BODY: usize = 65536;
/// The highest count that the scope lets be shared.
const MOST_SHARED: u64 = (1 << 31) - 1;

/// What stands for labels that lead above the last.
const LABELS: u8 = 9;

/// The prime of the checksum.
const PRIME: u64 = (1 << 56) - 5;

/// A request for the port.
#[derive(Default)]
struct Asked {
    operation: u8,
    kind: u8,
    edition: u8,
    label: u32,
    x: u32,
    y: u32,
    z: u64,
    counter: u32,
    frame: u32,
    first: Vec<u8>,
    second: Vec<u8>,
}

impl Asked {
    fn of(shape: Shape, operation: u8) -> Asked {
        Asked {
            operation,
            edition: shape.edition.number() as u8,
            frame: shape.frame.number() as u32,
            ..Asked::default()
        }
    }
}

/// The Rust's answer.
#[derive(Default)]
struct Answered {
    number: u8,
    value: u32,
    after: u32,
    sum: u64,
}

/// Writes a file for the requests, and answers how many it holds and how many the port cannot be
/// asked, or the Rust.
pub fn write(
    lines: impl Iterator<Item = Result<String>>,
    output: &mut impl Write,
) -> Result<(u64, u64)> {
    let (mut written, mut left) = (0, 0);
    for line in lines {
        for pair in pairs(&line?) {
            match pair {
                Some((asked, answered)) => {
                    output.write_all(&bytes_of(&asked, &answered))?;
                    written += 1;
                }
                None => left += 1,
            }
        }
    }
    Ok((written, left))
}

/// The operations or the query of a line, each with its answer.
fn pairs(line: &str) -> Vec<Option<(Asked, Answered)>> {
    let line = parse::line(line).ok();
    let line = line.and_then(|line| Some((line.chosen.shape()?, line.request)));
    let Some((shape, request)) = line else {
        return vec![None];
    };
    match request {
        Request::Query(query) => {
            let asked = query_of(shape, &query);
            let answer = rust_side::answer(shape.chosen(), &Request::Query(query));
            vec![asked.zip(answered(&answer, false))]
        }
        Request::Emission(_) => operations_of(shape, request),
        Request::Check(..) | Request::List(_) | Request::Run(_) | Request::Order(_) => {
            vec![None]
        }
    }
}

/// The operations of a request one by one, each from the counter that the last one left; the
/// records so far are the body of a routine. They end with the first that the Rust does not answer.
fn operations_of(shape: Shape, request: Request) -> Vec<Option<(Asked, Answered)>> {
    let whole = rust_side::answer(shape.chosen(), &request);
    let Request::Emission(emission) = request else {
        unreachable!("the caller has an emission");
    };
    let mut pairs = Vec::new();
    let (mut records, mut counter) = (Vec::new(), emission.counter);
    for operation in emission.operations {
        let (takes_counter, is_raw) = (
            operation.takes_counter(),
            matches!(operation, Operation::Raw(..)),
        );
        let is_routine = matches!(operation, Operation::Routine(_));
        let asked = operation_of(shape, &operation, counter, &records);
        let mut alone: Vec<Operation> = Vec::new();
        if is_routine {
            alone.extend(
                records
                    .iter()
                    .map(|r: &Record| Operation::Raw(1, r.to_bytes())),
            );
        }
        alone.push(operation);
        let alone = Emission {
            counter,
            room: None,
            operations: alone,
        };
        let answer = rust_side::answer(shape.chosen(), &Request::Emission(alone));
        if !is_raw {
            pairs.push(asked.zip(answered(&answer, takes_counter)));
        }
        let Answer::Records(more, after) = answer else {
            return pairs;
        };
        if is_routine {
            records = more;
        } else {
            records.extend(more);
        }
        counter = after;
    }
    assert!(
        whole == Answer::Records(records, counter),
        "parts make the whole"
    );
    pairs
}

/// An operation as the port is asked, if it can be.
fn operation_of(
    shape: Shape,
    operation: &Operation,
    counter: u64,
    records: &[Record],
) -> Option<Asked> {
    let asked = |operation| Asked::of(shape, operation);
    let word = |operand| word(shape.frame, operand);
    let counter = u32::try_from(counter).ok()?;
    Some(match operation {
        Operation::Label(l) => Asked {
            label: label(*l)?,
            ..asked(1)
        },
        Operation::Jump(t) => Asked {
            x: word(t)?,
            ..asked(2)
        },
        Operation::JumpLabel(l) => Asked {
            label: label(*l)?,
            ..asked(3)
        },
        Operation::JumpLabelFixed(l) => Asked {
            label: label(*l)?,
            ..asked(4)
        },
        Operation::JumpLabelIf(condition, fst, snd, l) => Asked {
            kind: condition_number(*condition),
            label: label(*l)?,
            x: word(fst)?,
            y: word(snd)?,
            ..asked(5)
        },
        Operation::JumpLabelIfZero(condition, t, l) => Asked {
            kind: condition_number(*condition),
            label: label(*l)?,
            x: word(t)?,
            ..asked(6)
        },
        Operation::LoadImmediate(t, i) => Asked {
            x: word(t)?,
            z: *i as u64,
            ..asked(7)
        },
        Operation::LoadLabel(t, l) => Asked {
            label: label(*l)?,
            x: word(t)?,
            ..asked(8)
        },
        Operation::AddAndJump(t, i) => Asked {
            x: word(t)?,
            z: *i as u64,
            ..asked(9)
        },
        Operation::Arithmetic(arithmetic, t, fst, snd) => Asked {
            kind: match arithmetic {
                Arithmetic::Add => 0,
                Arithmetic::Sub => 1,
                Arithmetic::Mul => 2,
                Arithmetic::Div => 3,
                Arithmetic::Rem => 4,
            },
            x: word(t)?,
            y: word(fst)?,
            z: word(snd)?.into(),
            ..asked(10)
        },
        Operation::Mov(t, source) => Asked {
            x: word(t)?,
            y: word(source)?,
            ..asked(11)
        },
        Operation::Compare(fst, snd) => Asked {
            x: word(fst)?,
            y: word(snd)?,
            ..asked(12)
        },
        Operation::CompareImmediate(t, i) => Asked {
            x: word(t)?,
            z: *i as u64,
            ..asked(13)
        },
        Operation::PrintI64(newline, source, kinds) => Asked {
            kind: (*newline).into(),
            x: word(source)?,
            first: context(&[kinds])?,
            ..asked(14)
        },
        Operation::EraseBlock(t) => Asked {
            x: word(t)?,
            counter,
            ..asked(15)
        },
        Operation::ShareBlockN(t, n) if *n <= MOST_SHARED => Asked {
            x: word(t)?,
            z: *n,
            counter,
            ..asked(16)
        },
        Operation::ShareBlockN(..) => return None,
        Operation::Store {
            to_store,
            remaining,
        } => Asked {
            z: to_store.expand(LONGEST)?.len() as u64,
            counter,
            first: context(&[remaining, to_store])?,
            ..asked(17)
        },
        Operation::StoreLast { context: kinds, n } => Asked {
            z: *n,
            counter,
            first: context(&[kinds])?,
            ..asked(17)
        },
        Operation::Load { to_load, existing } => Asked {
            counter,
            first: context(&[to_load])?,
            second: context(&[existing])?,
            ..asked(18)
        },
        Operation::Routine(arguments) if records.len() * record::SIZE <= LONGEST_BODY => Asked {
            z: *arguments,
            first: records.iter().flat_map(|r| r.to_bytes()).collect(),
            ..asked(19)
        },
        Operation::Routine(_) | Operation::Raw(..) => return None,
    })
}

fn query_of(shape: Shape, query: &Query) -> Option<Asked> {
    let Shape { edition, frame } = shape;
    let asked = |operation| Asked::of(shape, operation);
    Some(match query {
        Query::Position(position) => Asked {
            x: u32::try_from(*position).ok()?,
            ..asked(20)
        },
        Query::FreshTemporary(which, length) if *length <= LONGEST => Asked {
            kind: half(*which),
            first: bindings((0..*length as u32).map(|id| (Kind::Ext, id))),
            ..asked(21)
        },
        Query::VariableTemporary(which, id, ids) => Asked {
            kind: half(*which),
            label: u32::try_from(*id).ok()?,
            first: {
                let ids = ids.expand(LONGEST)?;
                let ids: std::result::Result<Vec<u32>, _> =
                    ids.into_iter().map(u32::try_from).collect();
                bindings(ids.ok()?.into_iter().map(|id| (Kind::Ext, id)))
            },
            ..asked(22)
        },
        Query::StackOffset(spill) if *spill < frame.number() => Asked {
            x: *spill as u32,
            ..asked(23)
        },
        Query::FieldOffset(which, field) if *field < edition.fields() as u64 => Asked {
            kind: half(*which),
            x: *field as u32,
            ..asked(24)
        },
        Query::FreshTemporary(..) | Query::StackOffset(_) | Query::FieldOffset(..) => return None,
    })
}

fn answered(answer: &Answer, takes_counter: bool) -> Option<Answered> {
    let number = |number| Answered {
        number,
        ..Answered::default()
    };
    let value = |value: u64| {
        Some(Answered {
            value: u32::try_from(value).ok()?,
            ..Answered::default()
        })
    };
    match answer {
        Answer::Records(records, after) => Some(Answered {
            number: 0,
            value: records.len() as u32,
            after: if takes_counter {
                u32::try_from(*after).ok()?
            } else {
                0
            },
            sum: checksum(records),
        }),
        Answer::Register(register) => value(*register),
        Answer::Spill(spill, _) => value(16 + spill),
        Answer::Value(number) => value(u64::try_from(*number).ok()?),
        Answer::Panic(cause) => Some(number(*cause as u8)),
        Answer::Exceeded(_) => Some(number(LABELS)),
        _ => None,
    }
}

fn condition_number(condition: Condition) -> u8 {
    match condition {
        Condition::Equal => 0,
        Condition::NotEqual => 1,
        Condition::Less => 2,
        Condition::LessOrEqual => 3,
        Condition::Greater => 4,
        Condition::GreaterOrEqual => 5,
    }
}

fn half(which: Number) -> u8 {
    match which {
        Number::Fst => 0,
        Number::Snd => 1,
    }
}

/// The label, if the port takes it: a record may hold it.
fn label(number: u64) -> Option<u32> {
    let label = u32::try_from(number).ok()?;
    let unnamed = record::PRINTLN_I64 + 1..record::FIRST_CALLERS;
    (label != 0 && !unnamed.contains(&label)).then_some(label)
}

/// The word of an operand: register r is r, spill p is 16 + p.
fn word(frame: Frame, operand: &Operand) -> Option<u32> {
    match *operand {
        Operand::Register(n) => (4..16).contains(&n).then_some(n as u32),
        Operand::Spill(n) => (1..frame.number()).contains(&n).then_some(16 + n as u32),
        Operand::Position(n) if n < 12 => Some(n as u32 + 4),
        Operand::Position(n) => (n < frame.positions() as u64).then_some(n as u32 + 5),
    }
}

/// The binding records of contexts one after the other, with ids that are places.
fn context(parts: &[&Kinds]) -> Option<Vec<u8>> {
    let mut kinds = Vec::new();
    for part in parts {
        kinds.extend(part.expand(LONGEST)?);
    }
    Some(bindings(kinds.into_iter().zip(0u32..)))
}

fn bindings(items: impl Iterator<Item = (Kind, u32)>) -> Vec<u8> {
    let mut bytes = Vec::new();
    for (kind, id) in items {
        bytes.extend([0xA7, 0x01, u8::from(kind == Kind::Ext), 0]);
        bytes.extend(id.to_le_bytes());
    }
    bytes
}

/// The records' bytes as one number, the first byte highest, modulo the prime.
fn checksum(records: &[Record]) -> u64 {
    let bytes = records.iter().flat_map(|record| record.to_bytes());
    bytes.fold(0, |sum, byte| (256 * sum + u64::from(byte)) % PRIME)
}

fn bytes_of(asked: &Asked, answered: &Answered) -> Vec<u8> {
    let mut bytes = vec![asked.operation, asked.kind, answered.number, asked.edition];
    bytes.extend(asked.label.to_le_bytes());
    bytes.extend(asked.x.to_le_bytes());
    bytes.extend(asked.y.to_le_bytes());
    bytes.extend(asked.z.to_le_bytes());
    bytes.extend(asked.counter.to_le_bytes());
    bytes.extend((asked.first.len() as u32).to_le_bytes());
    bytes.extend((asked.second.len() as u32).to_le_bytes());
    bytes.extend(answered.value.to_le_bytes());
    bytes.extend(answered.after.to_le_bytes());
    bytes.extend(answered.sum.to_le_bytes());
    bytes.extend(asked.frame.to_le_bytes());
    bytes.extend(&asked.first);
    bytes.extend(&asked.second);
    bytes
}
