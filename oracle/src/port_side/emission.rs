//! Answers emission requests by the port: each operation writes into an output of its own, and what
//! it wrote is appended to the list.

use super::context_of;
use super::queries::REGISTERS;
use crate::answer::Answer;
use crate::lent::Lent;
use crate::port::{self, Memory, Query, Returned};
use crate::record::{Record, SIZE};
use crate::request::{Arithmetic, Condition, Emission, Form, Operand, Operation};
use crate::shape::{Chosen, Edition, Frame};

/// More room than an operation needs: the largest, a store of 133 variables, writes 4,275 records,
/// one of 261 8,435, in the second edition fewer.
fn ample(chosen: Chosen) -> usize {
    match chosen.nearest().frame {
        Frame::Larger => 9_000 * SIZE,
        Frame::Base => 4_500 * SIZE,
    }
}

const AMPLE_FOR_FEW: usize = 40 * SIZE;

/// One record more than a list may have: longer lists are refused as this one is.
const TOO_MANY: u64 = 65_537;

/// Words that are no operand, and a label that no record may hold.
const NO_OPERAND: u64 = u64::MAX;
const NO_LABEL: u32 = 0;

pub fn answer(chosen: Chosen, request: &Emission) -> Answer {
    let mut list = List {
        chosen,
        bytes: Vec::new(),
        counter: request.counter,
        room: request.room,
    };
    for operation in &request.operations {
        if let Err(refusal) = list.perform(operation) {
            return refusal;
        }
    }
    list.answer()
}

struct List {
    chosen: Chosen,
    bytes: Vec<u8>,
    counter: u64,
    /// How many bytes the list may have, if that is limited.
    room: Option<u64>,
}

type Performed = Result<(), Answer>;

impl List {
    /// The whole list, which given records may make malformed or too long.
    fn answer(self) -> Answer {
        let needed = self.bytes.len() as u64;
        if let Returned { number: 2, value } = port::check(Form::Records, &self.bytes) {
            return Answer::Refused(2, Some(value));
        }
        if self.room.is_some_and(|room| room < needed) {
            return Answer::Refused(10, Some(needed));
        }
        let (records, _) = self.bytes.as_chunks::<SIZE>();
        let records = records.iter().filter_map(Record::from_bytes);
        Answer::Records(records.collect(), self.counter)
    }

    /// Appends an operation's records, or refuses.
    fn perform(&mut self, operation: &Operation) -> Performed {
        let chosen = self.chosen;
        match operation {
            Operation::Label(l) => self.code(1, [], *l, 0),
            Operation::Jump(t) => self.code(2, [t], 0, 0),
            Operation::JumpLabel(l) => self.code(3, [], *l, 0),
            Operation::JumpLabelFixed(l) => self.code(4, [], *l, 0),
            Operation::JumpLabelIf(condition, fst, snd, l) => {
                self.code(5 + place_of(*condition), [fst, snd], *l, 0)
            }
            Operation::JumpLabelIfZero(condition, t, l) => {
                self.code(11 + place_of(*condition), [t], *l, 0)
            }
            Operation::LoadImmediate(t, i) => self.code(17, [t], 0, *i),
            Operation::LoadLabel(t, l) => self.code(18, [t], *l, 0),
            Operation::AddAndJump(t, i) => self.code(19, [t], 0, *i),
            Operation::Arithmetic(arithmetic, t, fst, snd) => {
                let place = match arithmetic {
                    Arithmetic::Add => 0,
                    Arithmetic::Sub => 1,
                    Arithmetic::Mul => 2,
                    Arithmetic::Div => 3,
                    Arithmetic::Rem => 4,
                };
                self.code(20 + place, [t, fst, snd], 0, 0)
            }
            Operation::Mov(t, source) => self.code(25, [t, source], 0, 0),
            Operation::Compare(fst, snd) => self.code(26, [fst, snd], 0, 0),
            Operation::CompareImmediate(t, i) => self.code(27, [t], 0, *i),
            Operation::PrintI64(newline, source, kinds) => {
                let context = context_of(&[kinds]);
                self.on_operands([source], AMPLE_FOR_FEW, |[source], _, out| {
                    port::print(chosen.frame, *newline, source, &context, out)
                })
            }
            Operation::EraseBlock(t) => {
                self.on_operands([t], AMPLE_FOR_FEW, |[t], counter, out| {
                    port::memory(chosen, &Memory::EraseBlock(t), counter, out)
                })
            }
            Operation::ShareBlockN(t, n) => {
                self.on_operands([t], AMPLE_FOR_FEW, |[t], counter, out| {
                    port::memory(chosen, &Memory::ShareBlockN(t, *n), counter, out)
                })
            }
            Operation::Store {
                to_store,
                remaining,
            } => self.store(&context_of(&[remaining, to_store]), to_store.length()),
            Operation::StoreLast { context, n } => self.store(&context_of(&[context]), *n),
            Operation::Load { to_load, existing } => {
                let (loaded, existing) = (context_of(&[to_load]), context_of(&[existing]));
                self.append(ample(chosen), |counter, out| {
                    port::memory(chosen, &Memory::Load(&loaded, &existing), counter, out)
                })
            }
            Operation::Raw(count, bytes) => self.raw(*count, bytes),
            Operation::Routine(arguments) => self.routine(*arguments),
        }
    }

    /// An operation of code.rs, by its number.
    fn code<const N: usize>(
        &mut self,
        number: u64,
        operands: [&Operand; N],
        label: u64,
        immediate: i64,
    ) -> Performed {
        let frame = self.chosen.frame;
        let label = u32::try_from(label).unwrap_or(NO_LABEL);
        self.on_operands(operands, AMPLE_FOR_FEW, |words, _, out| {
            let mut operands = [0; 3];
            operands[..N].copy_from_slice(&words);
            let operation = port::Operation {
                number,
                operands,
                label,
                immediate,
            };
            port::operation(frame, &operation, out)
        })
    }

    fn store(&mut self, context: &[u8], n: u64) -> Performed {
        let chosen = self.chosen;
        self.append(ample(chosen), |counter, out| {
            port::memory(chosen, &Memory::Store(context, n), counter, out)
        })
    }

    /// Asks for operands by position first. One past the last is refused with 8, unless the
    /// operation itself is refused with 23, for its context or with a lower number.
    fn on_operands<const N: usize>(
        &mut self,
        operands: [&Operand; N],
        ample: usize,
        call: impl Fn([u64; N], &mut u64, &mut [u8]) -> Returned,
    ) -> Performed {
        let words = operands.map(|operand| word(self.chosen, operand));
        let located = words.map(|word| word.unwrap_or(REGISTERS - 1));
        if words.iter().all(Result::is_ok) {
            return self.append(ample, |counter, out| call(located, counter, out));
        }
        let mut counter = self.counter;
        let Returned { number, value } = call(located, &mut counter, &mut []);
        let past = words.into_iter().find_map(Result::err).unwrap_or(number);
        Err(match number {
            0 => Answer::Refused(past, None),
            15..=17 => Answer::Refused(number, Some(value)),
            23 => Answer::Refused(23, None),
            _ => Answer::Refused(past.min(number), None),
        })
    }

    /// Lends an output to an operation and appends what it wrote.
    fn append(
        &mut self,
        ample: usize,
        call: impl FnOnce(&mut u64, &mut [u8]) -> Returned,
    ) -> Performed {
        let before = self.bytes.len();
        let room = self.room.map(|room| room.saturating_sub(before as u64));
        let written = self.write(room, ample, before as u64, call)?;
        self.bytes.extend(written);
        Ok(())
    }

    /// Lends an output; what the operation wrote. `before` bytes are needed besides its own.
    fn write(
        &mut self,
        room: Option<u64>,
        ample: usize,
        before: u64,
        call: impl FnOnce(&mut u64, &mut [u8]) -> Returned,
    ) -> Result<Vec<u8>, Answer> {
        let room = room.map_or(ample, |room| ample.min(room.min(ample as u64) as usize));
        let mut lent = Lent::new(room);
        let counter = self.counter;
        let Returned { number, value } = call(&mut self.counter, lent.output());
        let length = if number == 0 { SIZE as u64 * value } else { 0 };
        let kept = number == 0 || self.counter == counter;
        let written = lent
            .written(length)
            .filter(|_| kept)
            .ok_or(Answer::Damaged)?;
        match number {
            0 => Ok(written.to_vec()),
            10 => Err(Answer::Refused(10, Some(before + value))),
            2 | 15..=17 => Err(Answer::Refused(number, Some(value))),
            _ => Err(Answer::Refused(number, None)),
        }
    }

    /// Given records are checked with the list or the routine that they end up in.
    fn raw(&mut self, count: u64, bytes: &[u8; SIZE]) -> Performed {
        self.bytes
            .extend(bytes.repeat(count.min(TOO_MANY) as usize));
        Ok(())
    }

    /// The routine takes the place of the list, which is its body.
    fn routine(&mut self, arguments: u64) -> Performed {
        let body = std::mem::take(&mut self.bytes);
        let ample = body.len() + AMPLE_FOR_FEW;
        let arguments = usize::try_from(arguments).unwrap_or(usize::MAX);
        let chosen = self.chosen;
        self.bytes = self.write(self.room, ample, 0, |_, out| {
            port::routine(chosen, &body, arguments, out)
        })?;
        Ok(())
    }
}

/// An operand's word, or the number by which the port refuses its position, which is the same in
/// every edition.
fn word(chosen: Chosen, operand: &Operand) -> Result<u64, u64> {
    let chosen = Chosen {
        edition: Edition::First.number(),
        ..chosen
    };
    match operand {
        Operand::Register(n) if *n >= REGISTERS => Ok(NO_OPERAND),
        Operand::Register(n) => Ok(*n),
        Operand::Spill(n) => Ok(REGISTERS.saturating_add(*n)),
        Operand::Position(n) => match port::query(chosen, &Query::Position(*n)) {
            Returned { number: 0, value } => Ok(value),
            Returned { number, .. } => Err(number),
        },
    }
}

fn place_of(condition: Condition) -> u64 {
    match condition {
        Condition::Equal => 0,
        Condition::NotEqual => 1,
        Condition::Less => 2,
        Condition::LessOrEqual => 3,
        Condition::Greater => 4,
        Condition::GreaterOrEqual => 5,
    }
}
