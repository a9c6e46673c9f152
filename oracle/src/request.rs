//! What can be asked of the Rust and of the port.

use crate::channel::Rooms;
use crate::context::{Ids, Kinds};
use crate::orders::answer::Asked;
use crate::record;
use crate::shape::Chosen;

/// A request, and what its prefixes choose.
#[derive(Debug)]
pub struct Line {
    pub chosen: Chosen,
    pub request: Request,
}

#[derive(Debug)]
pub enum Request {
    Emission(Emission),
    Query(Query),
    /// Whether the bytes are well formed.
    Check(Form, Vec<u8>),
    /// What the lister writes for the bytes.
    List(Vec<u8>),
    /// A run of the machine from the entry state.
    Run(Run),
    /// An order, alone or on a channel.
    Order(Ordering),
}

impl Request {
    /// Whether the port is asked in an edition.
    pub fn takes_edition(&self) -> bool {
        match self {
            Request::Emission(emission) => emission.operations.iter().any(Operation::takes_edition),
            Request::Check(..) | Request::List(_) => false,
            Request::Query(_) | Request::Run(_) | Request::Order(_) => true,
        }
    }
}

#[derive(Debug)]
pub enum Ordering {
    /// An order alone, with its context.
    Alone {
        context: Vec<u8>,
        asked: Asked,
        rooms: Rooms,
    },
    /// A new channel with so many blocks.
    Fresh(u64),
    /// An order on the channel, and the words that print calls leave.
    Play {
        asked: Asked,
        rooms: Rooms,
        words: [u64; 9],
    },
    /// What the channel has.
    Show,
}

/// Operations that append to one list of records.
#[derive(Debug, Clone)]
pub struct Emission {
    pub counter: u64,
    /// The length of the port's output in bytes, if not ample.
    pub room: Option<u64>,
    pub operations: Vec<Operation>,
}

/// A run on a zeroed heap of so many blocks.
#[derive(Debug)]
pub struct Run {
    pub limit: u64,
    pub blocks: u64,
    /// What print calls leave.
    pub words: [u64; 9],
    pub records: Vec<u8>,
}

#[derive(Debug)]
pub enum Query {
    VariableTemporary(Number, u64, Ids),
    FreshTemporary(Number, u64),
    Position(u64),
    StackOffset(u64),
    FieldOffset(Number, u64),
}

#[derive(Debug, Clone, Copy, PartialEq, Eq)]
pub enum Form {
    Context,
    Records,
    Order,
}

/// A variable's first or second temporary.
#[derive(Debug, Clone, Copy)]
pub enum Number {
    Fst,
    Snd,
}

/// A temporary as a request names it.
#[derive(Debug, Clone, Copy)]
pub enum Operand {
    Register(u64),
    Spill(u64),
    Position(u64),
}

#[derive(Debug, Clone, Copy)]
pub enum Condition {
    Equal,
    NotEqual,
    Less,
    LessOrEqual,
    Greater,
    GreaterOrEqual,
}

#[derive(Debug, Clone, Copy, PartialEq, Eq)]
pub enum Arithmetic {
    Add,
    Sub,
    Mul,
    Div,
    Rem,
}

/// An operation; a label is its number in the record.
#[derive(Debug, Clone)]
pub enum Operation {
    Label(u64),
    Jump(Operand),
    JumpLabel(u64),
    JumpLabelFixed(u64),
    JumpLabelIf(Condition, Operand, Operand, u64),
    JumpLabelIfZero(Condition, Operand, u64),
    LoadImmediate(Operand, i64),
    LoadLabel(Operand, u64),
    AddAndJump(Operand, i64),
    Arithmetic(Arithmetic, Operand, Operand, Operand),
    Mov(Operand, Operand),
    PrintI64(bool, Operand, Kinds),
    Compare(Operand, Operand),
    CompareImmediate(Operand, i64),
    EraseBlock(Operand),
    ShareBlockN(Operand, u64),
    Store { to_store: Kinds, remaining: Kinds },
    StoreLast { context: Kinds, n: u64 },
    Load { to_load: Kinds, existing: Kinds },
    Raw(u64, [u8; record::SIZE]),
    Routine(u64),
}

impl Operation {
    /// Whether the port is asked for the operation in an edition.
    pub fn takes_edition(&self) -> bool {
        matches!(
            self,
            Operation::EraseBlock(_)
                | Operation::ShareBlockN(..)
                | Operation::Store { .. }
                | Operation::StoreLast { .. }
                | Operation::Load { .. }
                | Operation::Routine(_)
        )
    }

    /// Whether the operation takes the label counter, even if it draws no label. One that does
    /// not leaves a counter above the limit alone.
    pub fn takes_counter(&self) -> bool {
        matches!(
            self,
            Operation::EraseBlock(_)
                | Operation::ShareBlockN(..)
                | Operation::Store { .. }
                | Operation::StoreLast { .. }
                | Operation::Load { .. }
        )
    }
}
