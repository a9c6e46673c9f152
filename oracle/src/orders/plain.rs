//! The scope's plain machine: "a list of values, empty at first; a value is a 64-bit integer,
//! or a tag with a list of values".

use super::Order;
use crate::context::Kind;
use crate::request::Arithmetic;
use std::rc::Rc;

#[derive(Debug, Clone)]
pub enum Value {
    Integer(u64),
    Tagged(u64, Rc<Vec<Value>>),
}

impl Value {
    /// "The kinds stored are Ext for integers, else linked."
    pub fn kind(&self) -> Kind {
        match self {
            Value::Integer(_) => Kind::Ext,
            Value::Tagged(..) => Kind::Linked,
        }
    }

    pub fn integer(&self) -> Option<u64> {
        match self {
            Value::Integer(integer) => Some(*integer),
            Value::Tagged(..) => None,
        }
    }
}

/// "Wrapped at 2^64; div and rem are signed and truncate toward zero, with a division fault on a
/// zero b or −2^63 and −1." None is the fault.
pub fn result(operation: Arithmetic, a: u64, b: u64) -> Option<u64> {
    match operation {
        Arithmetic::Add => Some(a.wrapping_add(b)),
        Arithmetic::Sub => Some(a.wrapping_sub(b)),
        Arithmetic::Mul => Some(a.wrapping_mul(b)),
        Arithmetic::Div => (a as i64).checked_div(b as i64).map(|word| word as u64),
        Arithmetic::Rem => (a as i64).checked_rem(b as i64).map(|word| word as u64),
    }
}

/// What the user owes an accepted order: a load brings the kinds stored, a compute does not
/// fault.
pub fn owed(values: &[Value], order: Order, bindings: &[Kind]) -> bool {
    match order {
        Order::Compute(operation, a, b) => {
            let integers = values[a].integer().zip(values[b].integer());
            integers.is_some_and(|(a, b)| result(operation, a, b).is_some())
        }
        Order::Load(_) => match values.last() {
            Some(Value::Tagged(_, list)) => {
                list.iter().map(Value::kind).eq(bindings.iter().copied())
            }
            _ => false,
        },
        _ => true,
    }
}

/// An accepted order of which what is owed holds.
pub fn perform(values: &mut Vec<Value>, order: Order) {
    match order {
        Order::Put(value) => values.push(Value::Integer(value)),
        Order::Compute(operation, a, b) => {
            let integers = values[a].integer().zip(values[b].integer());
            let (a, b) = integers.expect("compute is on integers");
            let result = result(operation, a, b).expect("no division fault");
            values.push(Value::Integer(result));
        }
        Order::Copy { a, n } => {
            let copy = values[a].clone();
            values.extend(std::iter::repeat_n(copy, n));
        }
        Order::Drop => {
            values.pop().expect("drop is of a variable");
        }
        Order::Store { n, tag } => {
            let list = values.split_off(values.len() - n);
            values.push(Value::Tagged(tag, Rc::new(list)));
        }
        Order::Load(_) => match values.pop() {
            Some(Value::Tagged(_, list)) => values.extend(list.iter().cloned()),
            _ => panic!("load is of a linked variable"),
        },
        Order::Print { .. } => (),
    }
}
