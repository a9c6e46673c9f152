//! Calls of the port as its users make them: into outputs of the sizes that the header recommends.

use crate::orders::BINDING;
use crate::orders::answer::Asked;
use crate::port::{self, Memory, Operation, Ordered, Returned};
use crate::shape::{ROOM_FOR_ROUTINE, Shape};

pub enum Call {
    Operation(Operation),
    EraseBlock(u64),
    /// Once more.
    ShareBlockN(u64),
    /// The whole of a context.
    Store(Vec<u8>),
    /// After no other variables.
    Load(Vec<u8>),
    /// With a newline.
    Print(u64, Vec<u8>),
    /// Of five arguments.
    Routine(Vec<u8>),
    Order(Vec<u8>, Asked),
}

/// What a call writes: records and, if it is an order, the context after it.
pub struct Outputs {
    pub records: Vec<u8>,
    pub context: Vec<u8>,
}

impl Call {
    pub fn outputs(&self, shape: Shape) -> Outputs {
        let records = match self {
            Call::Routine(_) => ROOM_FOR_ROUTINE,
            _ => shape.room_for_records(),
        };
        let context = match self {
            Call::Order(..) => shape.frame.room_for_context(),
            _ => 0,
        };
        Outputs {
            records: vec![0; records],
            context: vec![0; context],
        }
    }

    /// Calls the port so many times, with no label drawn before; what it returned last.
    pub fn perform(&self, shape: Shape, outputs: &mut Outputs, calls: usize) -> Ordered {
        let chosen = shape.chosen();
        let Outputs { records, context } = outputs;
        let operation = match self {
            Call::Operation(operation) => {
                let call = || port::operation(chosen.frame, operation, records);
                return without_context(repeat(calls, call));
            }
            Call::Print(source, kept) => {
                let call = || port::print(chosen.frame, true, *source, kept, records);
                return without_context(repeat(calls, call));
            }
            Call::Routine(body) => {
                let call = || port::routine(chosen, body, 5, records);
                return without_context(repeat(calls, call));
            }
            Call::Order(before, asked) => {
                let Asked {
                    order, bindings, ..
                } = asked;
                let call =
                    || port::order(chosen, before, order, bindings, &mut 0, records, context);
                return repeat(calls, call);
            }
            Call::EraseBlock(operand) => Memory::EraseBlock(*operand),
            Call::ShareBlockN(operand) => Memory::ShareBlockN(*operand, 1),
            Call::Store(stored) => Memory::Store(stored, (stored.len() / BINDING) as u64),
            Call::Load(loaded) => Memory::Load(loaded, &[]),
        };
        let call = || port::memory(chosen, &operation, &mut 0, records);
        without_context(repeat(calls, call))
    }
}

/// Which function is called is chosen before, so that little is timed besides the calls.
fn repeat<Answer>(calls: usize, mut call: impl FnMut() -> Answer) -> Answer {
    for _ in 1..calls {
        call();
    }
    call()
}

fn without_context(returned: Returned) -> Ordered {
    let Returned { number, value } = returned;
    Ordered {
        number,
        value,
        bindings: 0,
    }
}
