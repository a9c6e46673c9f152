//! A channel on the port: the context answered last, and the state and heap that the last run
//! left. An order goes in, and its records run.

use crate::interpreter::{self, State};
use crate::lent::Lent;
use crate::orders::BINDING;
use crate::orders::answer::Asked;
use crate::port::{self, Damaged, Ran};
use crate::record;
use crate::shape::{Chosen, Shape};

/// More bytes than any order's records or context need.
const AMPLE: usize = 1 << 18;

/// What the port answered to an order.
#[derive(Debug, Clone, PartialEq, Eq)]
pub enum Answered {
    /// The number, and a place or the bytes needed.
    Refused(u64, u64),
    Accepted {
        records: Vec<u8>,
        counter: u64,
        context: Vec<u8>,
    },
}

/// The lengths of the two outputs in bytes.
#[derive(Debug, Clone, Copy)]
pub struct Rooms {
    pub records: usize,
    pub context: usize,
}

impl Rooms {
    /// Lengths as a request has them; what no order needs is not lent.
    pub fn of(records: u64, context: u64) -> Rooms {
        let lent = |room: u64| room.min(AMPLE as u64) as usize;
        Rooms {
            records: lent(records),
            context: lent(context),
        }
    }
}

/// Puts an order to the port. Bytes past what is written must stay, on a refusal all and the
/// counter too.
pub fn ask(
    chosen: Chosen,
    context: &[u8],
    asked: &Asked,
    rooms: Rooms,
) -> Result<Answered, Damaged> {
    let mut records_out = Lent::new(rooms.records);
    let mut context_out = Lent::new(rooms.context);
    let mut counter = asked.counter;
    let answer = port::order(
        chosen,
        context,
        &asked.order,
        &asked.bindings,
        &mut counter,
        records_out.output(),
        context_out.output(),
    );
    let accepted = answer.number == 0;
    let bytes = |count: u64, size: usize| {
        if accepted {
            count.saturating_mul(size as u64)
        } else {
            0
        }
    };
    let records = records_out.written(bytes(answer.value, record::SIZE));
    let context = context_out.written(bytes(answer.bindings, BINDING));
    let (records, context) = records.zip(context).ok_or(Damaged)?;
    if accepted {
        return Ok(Answered::Accepted {
            records: records.to_vec(),
            counter,
            context: context.to_vec(),
        });
    }
    if counter != asked.counter || answer.bindings != 0 {
        return Err(Damaged);
    }
    Ok(Answered::Refused(answer.number, answer.value))
}

/// Who runs the records.
#[derive(Debug, Clone, Copy, PartialEq, Eq)]
pub enum Side {
    Port,
    /// The reading of the scope's machine.
    Reading,
}

#[derive(Clone)]
pub struct Channel {
    pub side: Side,
    pub shape: Shape,
    pub context: Vec<u8>,
    pub state: Box<State>,
    pub heap: Vec<u64>,
}

impl Channel {
    /// The fresh routine's state beside a zeroed heap, and the empty context.
    pub fn fresh(side: Side, shape: Shape, words: usize) -> Channel {
        Channel {
            side,
            shape,
            context: Vec::new(),
            state: Box::new(match side {
                Side::Port => port::fresh(shape),
                Side::Reading => interpreter::fresh(shape),
            }),
            heap: vec![0; words],
        }
    }

    /// Runs records on the state and the heap.
    pub fn run(&mut self, records: &[u8], words: &[u64; 9], limit: u64) -> Ran {
        let chosen = self.shape.chosen();
        let Channel { state, heap, .. } = self;
        match self.side {
            Side::Port => port::run(chosen, records, state, heap, words, limit),
            Side::Reading => interpreter::run(chosen, records, state, heap, words, limit).numbers(),
        }
    }
}
