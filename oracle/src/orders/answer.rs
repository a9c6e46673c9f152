//! What an order is answered with. The causes are read from the scope; which records an order
//! writes, how many labels they draw and whether a position is past the last are the published
//! Rust's: an order is put together from its operations.

use super::{BINDING, Order, SIZE, binding, kinds};
use crate::answer::Answer;
use crate::context::{Kind, Kinds};
use crate::reading::{Refusal, check_bindings, check_context};
use crate::record::{self, LAST_FRESH, Record};
use crate::request::{Emission, Operand, Operation, Request};
use crate::rust_side;
use crate::shape::{Chosen, Frame, Shape};

/// What goes in with an order.
#[derive(Debug, Clone)]
pub struct Asked {
    pub order: Vec<u8>,
    pub bindings: Vec<u8>,
    pub counter: u64,
}

/// What an accepted order gives, if both outputs have room for it.
#[derive(Debug, Clone, PartialEq, Eq)]
pub struct Given {
    pub order: Order,
    pub records: Vec<u8>,
    pub counter: u64,
    pub context: Vec<u8>,
}

impl Given {
    /// How many records there are, which is the step limit of their run too.
    pub fn count(&self) -> u64 {
        (self.records.len() / record::SIZE) as u64
    }
}

fn refused<T>(number: u64, value: Option<u64>) -> Result<T, Refusal> {
    Err(Refusal { number, value })
}

/// All causes but 10: "23 for an edition other than 1 or 2, checked first of all"; what is bad in the
/// context, "wholly before its bindings, whose places count on"; then in rising order. "The frame may be 256 or 512 spills (another number is 3)."
pub fn given(chosen: Chosen, context: &[u8], asked: &Asked) -> Result<Given, Refusal> {
    let Some(edition) = chosen.edition() else {
        return refused(23, None);
    };
    check_context(context)?;
    check_bindings(context.len() / BINDING, &asked.bindings)?;
    let order = well_formed(asked)?;
    let Some(frame) = chosen.frame() else {
        return refused(3, None);
    };
    let shape = Shape::new(edition, frame);
    let (before, brought) = (kinds(context), kinds(&asked.bindings));
    if !places_there(order, before.len()) {
        return refused(4, None);
    }
    if !kinds_right(order, &before) {
        return refused(5, None);
    }
    if matches!(order, Order::Copy { n, .. } if n > LAST_FRESH as usize) {
        return refused(7, None);
    }
    let (records, counter) = written(shape, order, &before, &brought, asked.counter)?;
    Ok(Given {
        order,
        records: records.into_iter().flat_map(Record::to_bytes).collect(),
        counter,
        context: context_after(order, context, &before, &asked.bindings),
    })
}

/// Cause 10: "of two, the first named".
pub fn fits(given: &Given, records_room: usize, context_room: usize) -> Result<(), Refusal> {
    if given.records.len() > records_room {
        return refused(10, Some(given.records.len() as u64));
    }
    if given.context.len() > context_room {
        return refused(10, Some(given.context.len() as u64));
    }
    Ok(())
}

/// Cause 2: record 1, then "any other number of bindings than a load's n (elsewhere none) is 2,
/// place 1", then a record too many.
fn well_formed(asked: &Asked) -> Result<Order, Refusal> {
    let order = asked.order.first_chunk::<SIZE>().and_then(Order::read);
    let Some(order) = order else {
        return refused(2, Some(1));
    };
    let wanted = match order {
        Order::Load(n) => n,
        _ => 0,
    };
    if asked.bindings.len() / BINDING != wanted {
        return refused(2, Some(1));
    }
    if asked.order.len() > SIZE {
        return refused(2, Some(2));
    }
    Ok(order)
}

/// Cause 4: "place not in context; a store's n above its length"; "drop or load with no variable".
fn places_there(order: Order, length: usize) -> bool {
    match order {
        Order::Put(_) => true,
        Order::Compute(_, a, b) => a < length && b < length,
        Order::Copy { a, .. } | Order::Print { a, .. } => a < length,
        Order::Drop | Order::Load(_) => length > 0,
        Order::Store { n, .. } => n <= length,
    }
}

/// Cause 5: compute and print are on Ext, load is of "the last variable, linked".
fn kinds_right(order: Order, before: &[Kind]) -> bool {
    match order {
        Order::Compute(_, a, b) => before[a] == Kind::Ext && before[b] == Kind::Ext,
        Order::Print { a, .. } => before[a] == Kind::Ext,
        Order::Load(_) => before.last() == Some(&Kind::Linked),
        _ => true,
    }
}

/// Causes 8 and 9, or the records and the counter after them.
fn written(
    shape: Shape,
    order: Order,
    before: &[Kind],
    brought: &[Kind],
    counter: u64,
) -> Result<(Vec<Record>, u64), Refusal> {
    let operations = operations(shape.frame, order, before, brought);
    let emit = |counter| {
        let emission = Emission {
            counter,
            room: None,
            operations: operations.clone(),
        };
        rust_side::answer(shape.chosen(), &Request::Emission(emission))
    };
    // a counter above the limit is refused whatever is drawn, but a position comes first
    let answer = if counter <= LAST_FRESH {
        emit(counter)
    } else {
        Answer::Exceeded(0)
    };
    match answer {
        Answer::Records(records, counter) => Ok((records, counter)),
        Answer::Panic(number) => refused(number, None),
        Answer::Exceeded(_) => match emit(0) {
            Answer::Panic(number) => refused(number, None),
            _ => refused(9, None),
        },
        answer => panic!("the Rust answered {answer}"),
    }
}

fn fst(variable: usize) -> Operand {
    Operand::Position(2 * variable as u64)
}

fn snd(variable: usize) -> Operand {
    Operand::Position(2 * variable as u64 + 1)
}

/// The order as the Rust's operations.
pub fn operations(frame: Frame, order: Order, before: &[Kind], brought: &[Kind]) -> Vec<Operation> {
    let length = before.len();
    match order {
        Order::Put(value) => vec![Operation::LoadImmediate(snd(length), value as i64)],
        Order::Compute(operation, a, b) => {
            vec![Operation::Arithmetic(
                operation,
                snd(length),
                snd(a),
                snd(b),
            )]
        }
        // no context has room for more copies than positions
        Order::Copy { a, n } => copy(before[a], a, length, n.min(frame.positions())),
        Order::Drop => match before[length - 1] {
            Kind::Ext => Vec::new(),
            Kind::Linked => vec![Operation::EraseBlock(fst(length - 1))],
        },
        Order::Store { n, tag } => {
            let (remaining, to_store) = before.split_at(length - n);
            vec![
                Operation::Store {
                    to_store: Kinds::each(to_store),
                    remaining: Kinds::each(remaining),
                },
                Operation::LoadImmediate(snd(length - n), tag as i64),
            ]
        }
        Order::Load(_) => vec![Operation::Load {
            to_load: Kinds::each(brought),
            existing: Kinds::each(&before[..length - 1]),
        }],
        Order::Print { newline, a } => {
            vec![Operation::PrintI64(newline, snd(a), Kinds::each(before))]
        }
    }
}

/// "`share_block_n` if linked, then `mov` to each new variable, Fst before Snd."
fn copy(kind: Kind, a: usize, length: usize, n: usize) -> Vec<Operation> {
    let mut operations = Vec::new();
    if kind == Kind::Linked {
        operations.push(Operation::ShareBlockN(fst(a), n as u64));
    }
    for variable in length..length + n {
        if kind == Kind::Linked {
            operations.push(Operation::Mov(fst(variable), fst(a)));
        }
        operations.push(Operation::Mov(snd(variable), snd(a)));
    }
    operations
}

/// "A made variable's id is its place"; a load's are the bindings as they were sent.
fn context_after(order: Order, context: &[u8], before: &[Kind], brought: &[u8]) -> Vec<u8> {
    let length = before.len();
    let (kept, kind, made) = match order {
        Order::Put(_) | Order::Compute(..) => (length, Kind::Ext, 1),
        Order::Copy { a, n } => (length, before[a], n),
        Order::Drop | Order::Load(_) => (length - 1, Kind::Ext, 0),
        Order::Store { n, .. } => (length - n, Kind::Linked, 1),
        Order::Print { .. } => (length, Kind::Ext, 0),
    };
    let mut after = context[..kept * BINDING].to_vec();
    for place in kept..kept + made {
        after.extend(binding(kind, place as u32));
    }
    after.extend(brought);
    after
}

#[cfg(test)]
mod tests {
    use super::*;
    use crate::shape::SHAPES;

    /// A store of all variables that a frame has, all linked, writes the most records.
    #[test]
    fn the_largest_store_fills_the_room() {
        for shape in SHAPES {
            let most = shape.frame.most_variables();
            let bindings = (0..most as u32).map(|place| binding(Kind::Linked, place));
            let context = bindings.collect::<Vec<_>>().concat();
            let asked = Asked {
                order: Order::Store { n: most, tag: 0 }.to_bytes().to_vec(),
                bindings: Vec::new(),
                counter: 0,
            };
            let given = given(shape.chosen(), &context, &asked).unwrap();
            assert_eq!(given.records.len(), shape.room_for_records());
            assert_eq!(context.len(), shape.frame.room_for_context());
        }
    }
}
