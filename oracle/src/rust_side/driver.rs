//! Answers requests by one of the four crates of the published Rust, `super::published`.

pub use super::prepared::Sequence;

use super::conversion::{label_mut, record_of};
use super::prepared::{Prepared, fresh_temporary, temporary};
use super::published::Backend;
use super::published::code::Code;
use super::published::config::{Spill, Temporary, field_offset, stack_offset};
use crate::answer::Answer;
use crate::record;
use crate::request::{Emission, Operand, Operation, Query, Request};
use crate::rust_side::{Failure, Result, caught, label_text, malformed, number, variables};
use axcut2backend::fresh_labels::fresh_label;
use axcut2backend::utils::Utils;

pub fn answer(request: &Request) -> Result<Answer> {
    match request {
        Request::Emission(emission) => emit(emission),
        Request::Query(query) => caught(|| ask(query)),
        Request::Check(..) | Request::List(_) | Request::Run(_) | Request::Order(_) => {
            malformed("only the port answers this")
        }
    }
}

/// Performs the operations in sequence on one list. The first that fails gives the answer.
fn emit(emission: &Emission) -> Result<Answer> {
    let mut instructions = Vec::new();
    let mut drawn = 0;
    for operation in &emission.operations {
        let unchanged = match operation {
            Operation::Routine(_) => 0,
            _ => instructions.len(),
        };
        let before = fresh_label();
        caught(|| {
            Prepared::of(operation)?.append(&mut instructions);
            Ok(())
        })?;
        let counter = emission.counter.saturating_add(drawn);
        number_labels(&mut instructions[unchanged..], before, counter);
        drawn += (fresh_label() - before - 1) as u64;
        let after = emission.counter.saturating_add(drawn);
        if operation.takes_counter() && after > record::LAST_FRESH {
            return Err(Failure::Exceeded(drawn));
        }
    }
    let records = instructions.iter().filter_map(record_of).collect();
    Ok(Answer::Records(records, emission.counter + drawn))
}

/// Puts numbers for fresh labels. The Rust's counter is a static that only ever grows, so the
/// labels drawn since it stood at `before` are renumbered as if it had stood at `counter`.
fn number_labels(instructions: &mut [Code], before: usize, counter: u64) {
    for label in instructions.iter_mut().filter_map(label_mut) {
        if let Some(fresh) = label.strip_prefix("lab") {
            let fresh: usize = fresh.parse().expect("the Rust numbers fresh labels");
            *label = label_text(counter.saturating_add((fresh - before) as u64));
        }
    }
}

fn ask(query: &Query) -> Result<Answer> {
    Ok(match query {
        Query::VariableTemporary(which, id, ids) => located(Backend::variable_temporary(
            number(*which),
            &variables(ids)?,
            *id as usize,
        )),
        Query::FreshTemporary(which, length) => located(fresh_temporary(*which, *length)),
        Query::Position(position) => located(temporary(&Operand::Position(*position))?),
        Query::StackOffset(spill) => Answer::Value(stack_offset(Spill(*spill as usize)).val),
        Query::FieldOffset(which, field) => {
            Answer::Value(field_offset(number(*which), *field as usize).val)
        }
    })
}

fn located(temporary: Temporary) -> Answer {
    match temporary {
        Temporary::Register(register) => Answer::Register(register.0 as u64),
        Temporary::Spill(spill) => Answer::Spill(spill.0 as u64, stack_offset(spill).val),
    }
}
