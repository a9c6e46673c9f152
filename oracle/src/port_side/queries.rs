//! Answers queries by the port.

use super::{TOO_LONG, context};
use crate::answer::Answer;
use crate::context::{Ids, Kind};
use crate::orders::BINDING;
use crate::port::{self, Returned};
use crate::request::{Form, Query};
use crate::shape::Chosen;

/// Registers have the words 0..15, spill p has 16 + p.
pub const REGISTERS: u64 = 16;

pub fn answer(chosen: Chosen, query: &Query) -> Answer {
    let ask = |query| port::query(chosen, &query);
    match query {
        Query::Position(position) => located(chosen, ask(port::Query::Position(*position))),
        Query::FreshTemporary(which, length) => {
            let length = (*length).min(TOO_LONG as u64);
            let context = context((0..length as u32).map(|id| (Kind::Ext, id)));
            located(chosen, ask(port::Query::FreshTemporary(*which, &context)))
        }
        Query::VariableTemporary(which, id, ids) => {
            let found = match (variables(ids), u32::try_from(*id)) {
                (Some(context), Ok(id)) => {
                    ask(port::Query::VariableTemporary(*which, id, &context))
                }
                (context, _) => missing(chosen, context),
            };
            located(chosen, found)
        }
        Query::StackOffset(spill) => {
            let word = REGISTERS.saturating_add(*spill);
            value(ask(port::Query::StackOffset(word)))
        }
        Query::FieldOffset(which, field) => value(ask(port::Query::FieldOffset(*which, *field))),
    }
}

/// A context of the given ids, unless a binding cannot hold one. Kinds do not matter to its use.
fn variables(ids: &Ids) -> Option<Vec<u8>> {
    let ids = ids.first(TOO_LONG).map(u32::try_from);
    let ids = ids.collect::<Result<Vec<_>, _>>().ok()?;
    Some(context(ids.into_iter().map(|id| (Kind::Ext, id))))
}

/// What the port answers where no binding can hold an id: the edition comes before, then the
/// context, which is not of whole bindings if it would have to hold one, and the frame.
fn missing(chosen: Chosen, context: Option<Vec<u8>>) -> Returned {
    let shape = port::query(chosen, &port::Query::Position(0)).number;
    let context = context.unwrap_or(vec![0; BINDING + 1]);
    let context = port::check(Form::Context, &context);
    let (number, value) = match (shape, context.number) {
        (23, _) => (23, 0),
        (0, 0) => (4, 0),
        (_, 0) => (shape, 0),
        (_, number) => (number, context.value),
    };
    Returned { number, value }
}

fn located(chosen: Chosen, returned: Returned) -> Answer {
    match returned.number {
        0 if returned.value < REGISTERS => Answer::Register(returned.value),
        0 => match port::query(chosen, &port::Query::StackOffset(returned.value)) {
            Returned { number: 0, value } => {
                Answer::Spill(returned.value - REGISTERS, value as i64)
            }
            refusal => Answer::Refused(refusal.number, None),
        },
        number @ 15..=17 => Answer::Refused(number, Some(returned.value)),
        number => Answer::Refused(number, None),
    }
}

fn value(returned: Returned) -> Answer {
    match returned.number {
        0 => Answer::Value(returned.value as i64),
        number => Answer::Refused(number, None),
    }
}
