//! Operations made ready for one of the four crates of the published Rust, `super::published`: with
//! their operands, contexts and labels made, what is left to do is the Rust's alone.

use super::conversion::code_of;
use super::published::Backend;
use super::published::code::{Code, compare_immediate};
use super::published::config::{Immediate, Register, Spill, Temporary};
use super::published::into_routine::into_x86_64_routine;
use crate::context::Kind;
use crate::record::Record;
use crate::request::{Arithmetic, Condition, Number, Operand, Operation};
use crate::rust_side::{MOST, MOST_LOADED, Result, binding, context, label, malformed, number};
use axcut::syntax::TypingContext;
use axcut2backend::code::Instructions;
use axcut2backend::coder::AssemblyProg;
use axcut2backend::memory::Memory;
use axcut2backend::utils::Utils;
use std::mem::take;
use std::rc::Rc;

/// What the Rust takes as its own is cloned with the operation; what it only reads is not.
#[derive(Clone)]
pub enum Prepared {
    Label(String),
    Jump(Temporary),
    JumpLabel(String),
    JumpLabelFixed(String),
    JumpLabelIf(Condition, Temporary, Temporary, String),
    JumpLabelIfZero(Condition, Temporary, String),
    LoadImmediate(Temporary, Immediate),
    LoadLabel(Temporary, String),
    AddAndJump(Temporary, Immediate),
    Arithmetic(Arithmetic, Temporary, Temporary, Temporary),
    Mov(Temporary, Temporary),
    PrintI64(bool, Temporary, Rc<TypingContext>),
    Compare(Temporary, Temporary),
    CompareImmediate(Temporary, Immediate),
    EraseBlock(Temporary),
    ShareBlockN(Temporary, usize),
    Store {
        to_store: TypingContext,
        remaining: Rc<TypingContext>,
    },
    Load {
        to_load: TypingContext,
        existing: Rc<TypingContext>,
    },
    Raw(usize, Code),
    Routine(usize),
}

impl Prepared {
    pub fn of(operation: &Operation) -> Result<Prepared> {
        Ok(match operation {
            Operation::Label(l) => Prepared::Label(label(*l)?),
            Operation::Jump(t) => Prepared::Jump(temporary(t)?),
            Operation::JumpLabel(l) => Prepared::JumpLabel(label(*l)?),
            Operation::JumpLabelFixed(l) => Prepared::JumpLabelFixed(label(*l)?),
            Operation::JumpLabelIf(condition, fst, snd, l) => {
                Prepared::JumpLabelIf(*condition, temporary(fst)?, temporary(snd)?, label(*l)?)
            }
            Operation::JumpLabelIfZero(condition, t, l) => {
                Prepared::JumpLabelIfZero(*condition, temporary(t)?, label(*l)?)
            }
            Operation::LoadImmediate(t, i) => Prepared::LoadImmediate(temporary(t)?, (*i).into()),
            Operation::LoadLabel(t, l) => Prepared::LoadLabel(temporary(t)?, label(*l)?),
            Operation::AddAndJump(t, i) => Prepared::AddAndJump(temporary(t)?, (*i).into()),
            Operation::Arithmetic(arithmetic, t, fst, snd) => {
                let (t, fst, snd) = (temporary(t)?, temporary(fst)?, temporary(snd)?);
                Prepared::Arithmetic(*arithmetic, t, fst, snd)
            }
            Operation::Mov(t, source) => Prepared::Mov(temporary(t)?, temporary(source)?),
            Operation::PrintI64(newline, source, kinds) => {
                let context = context(kinds, MOST)?;
                Prepared::PrintI64(*newline, temporary(source)?, context.into())
            }
            Operation::Compare(fst, snd) => Prepared::Compare(temporary(fst)?, temporary(snd)?),
            Operation::CompareImmediate(t, i) => {
                Prepared::CompareImmediate(temporary(t)?, (*i).into())
            }
            Operation::EraseBlock(t) => Prepared::EraseBlock(temporary(t)?),
            Operation::ShareBlockN(t, n) => Prepared::ShareBlockN(temporary(t)?, *n as usize),
            Operation::Store {
                to_store,
                remaining,
            } => Prepared::Store {
                to_store: context(to_store, MOST)?,
                remaining: context(remaining, MOST)?.into(),
            },
            Operation::StoreLast { context: kinds, n } => {
                let mut remaining = context(kinds, MOST)?;
                let Some(kept) = (remaining.bindings.len() as u64).checked_sub(*n) else {
                    return malformed("the Rust has no store of more than the context holds");
                };
                let to_store = remaining.bindings.split_off(kept as usize).into();
                Prepared::Store {
                    to_store,
                    remaining: remaining.into(),
                }
            }
            Operation::Load { to_load, existing } => Prepared::Load {
                to_load: context(to_load, MOST_LOADED)?,
                existing: context(existing, MOST)?.into(),
            },
            Operation::Raw(count, bytes) => {
                let code = Record::from_bytes(bytes).and_then(|record| code_of(&record));
                let Some(code) = code else {
                    return malformed("the Rust has no instruction of this record");
                };
                if *count > MOST {
                    return malformed("more records than this driver holds");
                }
                Prepared::Raw(*count as usize, code)
            }
            Operation::Routine(arguments) => Prepared::Routine(*arguments as usize),
        })
    }

    /// Appends what the Rust writes, its comments too. What it takes as its own is empty after it.
    pub fn append(&mut self, list: &mut Vec<Code>) {
        match self {
            Prepared::Label(l) => list.push(Backend::label(take(l))),
            Prepared::Jump(t) => Backend::jump(*t, list),
            Prepared::JumpLabel(l) => Backend::jump_label(take(l), list),
            Prepared::JumpLabelFixed(l) => Backend::jump_label_fixed(take(l), list),
            Prepared::JumpLabelIf(condition, fst, snd, l) => {
                let jump = match condition {
                    Condition::Equal => Backend::jump_label_if_equal,
                    Condition::NotEqual => Backend::jump_label_if_not_equal,
                    Condition::Less => Backend::jump_label_if_less,
                    Condition::LessOrEqual => Backend::jump_label_if_less_or_equal,
                    Condition::Greater => Backend::jump_label_if_greater,
                    Condition::GreaterOrEqual => Backend::jump_label_if_greater_or_equal,
                };
                jump(*fst, *snd, take(l), list);
            }
            Prepared::JumpLabelIfZero(condition, t, l) => {
                let jump = match condition {
                    Condition::Equal => Backend::jump_label_if_zero,
                    Condition::NotEqual => Backend::jump_label_if_not_zero,
                    Condition::Less => Backend::jump_label_if_less_zero,
                    Condition::LessOrEqual => Backend::jump_label_if_less_or_equal_zero,
                    Condition::Greater => Backend::jump_label_if_greater_zero,
                    Condition::GreaterOrEqual => Backend::jump_label_if_greater_or_equal_zero,
                };
                jump(*t, take(l), list);
            }
            Prepared::LoadImmediate(t, i) => Backend::load_immediate(*t, *i, list),
            Prepared::LoadLabel(t, l) => Backend::load_label(*t, take(l), list),
            Prepared::AddAndJump(t, i) => Backend::add_and_jump(*t, *i, list),
            Prepared::Arithmetic(arithmetic, t, fst, snd) => {
                let compute = match arithmetic {
                    Arithmetic::Add => Backend::add,
                    Arithmetic::Sub => Backend::sub,
                    Arithmetic::Mul => Backend::mul,
                    Arithmetic::Div => Backend::div,
                    Arithmetic::Rem => Backend::rem,
                };
                compute(*t, *fst, *snd, list);
            }
            Prepared::Mov(t, source) => Backend::mov(*t, *source, list),
            Prepared::PrintI64(newline, source, context) => {
                Backend::print_i64(*newline, *source, &context.bindings, list);
            }
            Prepared::Compare(fst, snd) => {
                // `compare` is private: it is what a conditional jump does before it jumps
                Backend::jump_label_if_equal(*fst, *snd, String::new(), list);
                list.pop();
            }
            Prepared::CompareImmediate(t, i) => compare_immediate(*t, *i, list),
            Prepared::EraseBlock(t) => Backend::erase_block(*t, list),
            Prepared::ShareBlockN(t, n) => Backend::share_block_n(*t, *n, list),
            Prepared::Store {
                to_store,
                remaining,
            } => Backend::store(taken(to_store), remaining, list),
            Prepared::Load { to_load, existing } => {
                Backend::load(taken(to_load), existing, list);
            }
            Prepared::Raw(count, code) => {
                list.extend(std::iter::repeat_n(code.clone(), *count));
            }
            Prepared::Routine(arguments) => {
                let routine = into_x86_64_routine(AssemblyProg {
                    instructions: take(list),
                    number_of_arguments: *arguments,
                });
                *list = routine.instructions;
            }
        }
    }
}

fn taken(context: &mut TypingContext) -> TypingContext {
    take(&mut context.bindings).into()
}

/// Operations in sequence on one list, to be timed.
#[derive(Clone)]
pub struct Sequence {
    /// What the list holds before them: the body, if they make a routine of it.
    body: Vec<Code>,
    operations: Vec<Prepared>,
}

impl Sequence {
    pub fn of(body: &[Operation], operations: &[Operation]) -> Result<Sequence> {
        let mut list = Vec::new();
        for operation in body {
            Prepared::of(operation)?.append(&mut list);
        }
        Ok(Sequence {
            body: list,
            operations: operations.iter().map(Prepared::of).collect::<Result<_>>()?,
        })
    }

    /// The list after them. They are left to be freed.
    pub fn emit(&mut self) -> Vec<Code> {
        let mut list = take(&mut self.body);
        for operation in &mut self.operations {
            operation.append(&mut list);
        }
        list
    }
}

pub fn temporary(operand: &Operand) -> Result<Temporary> {
    match operand {
        Operand::Register(n) if *n > u8::MAX.into() => malformed("no record holds this register"),
        Operand::Register(n) => Ok(Temporary::Register(Register(*n as usize))),
        Operand::Spill(n) => Ok(Temporary::Spill(Spill(*n as usize))),
        // the Rust's own function of a position is private: it is what follows half as many
        // variables
        Operand::Position(n) if n % 2 == 0 => Ok(fresh_temporary(Number::Fst, n / 2)),
        Operand::Position(n) => Ok(fresh_temporary(Number::Snd, n / 2)),
    }
}

/// The temporary after a context of the given length. Longer contexts than this driver builds are
/// asked for as the longest: the Rust panics at both.
pub fn fresh_temporary(which: Number, length: u64) -> Temporary {
    let bindings = vec![binding(Kind::Ext, 0); length.min(MOST) as usize];
    Backend::fresh_temporary(number(which), &bindings.into())
}
