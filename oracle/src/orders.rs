//! A reading of the scope's orders, made from the document and not from the port: an order's
//! record, the plain machine's values, the answer that an order gets, and a check of the state
//! and the heap that a list of orders leaves.

pub mod answer;
pub mod plain;
pub mod sound;

use crate::context::Kind;
use crate::reading;
use crate::request::Arithmetic;
use crate::shape::Edition;

/// Variables go by place in the context, from 0.
#[derive(Debug, Clone, Copy, PartialEq, Eq)]
pub enum Order {
    Put(u64),
    Compute(Arithmetic, usize, usize),
    Copy { a: usize, n: usize },
    Drop,
    Store { n: usize, tag: u64 },
    Load(usize),
    Print { newline: bool, a: usize },
}

pub const MARK: u8 = 0xA8;
pub const SIZE: usize = 24;
pub const BINDING: usize = 8;

/// In the sequence of a compute's flag.
pub const OPERATIONS: [Arithmetic; 5] = [
    Arithmetic::Add,
    Arithmetic::Sub,
    Arithmetic::Mul,
    Arithmetic::Div,
    Arithmetic::Rem,
];

impl Order {
    /// "0xA8, code, flag, zero byte, 32-bit a, 32-bit b, 32-bit n, 64-bit value."
    pub fn read(bytes: &[u8; SIZE]) -> Option<Order> {
        if !reading::well_formed_order(bytes) {
            return None;
        }
        let word = |at: usize| u32::from_le_bytes(bytes[at..at + 4].try_into().unwrap()) as usize;
        let (a, b, n) = (word(4), word(8), word(12));
        let value = u64::from_le_bytes(bytes[16..].try_into().unwrap());
        let flag = bytes[2];
        Some(match bytes[1] {
            1 => Order::Put(value),
            2 => Order::Compute(OPERATIONS[usize::from(flag)], a, b),
            3 => Order::Copy { a, n },
            4 => Order::Drop,
            5 => Order::Store { n, tag: value },
            6 => Order::Load(n),
            7 => {
                let newline = flag == 1;
                Order::Print { newline, a }
            }
            code => unreachable!("no order has code {code}"),
        })
    }

    pub fn to_bytes(self) -> [u8; SIZE] {
        let (code, flag, a, b, n, value) = match self {
            Order::Put(value) => (1, 0, 0, 0, 0, value),
            Order::Compute(operation, a, b) => {
                let flag = OPERATIONS.iter().position(|known| *known == operation);
                (2, flag.unwrap() as u8, a, b, 0, 0)
            }
            Order::Copy { a, n } => (3, 0, a, 0, n, 0),
            Order::Drop => (4, 0, 0, 0, 0, 0),
            Order::Store { n, tag } => (5, 0, 0, 0, n, tag),
            Order::Load(n) => (6, 0, 0, 0, n, 0),
            Order::Print { newline, a } => (7, newline.into(), a, 0, 0, 0),
        };
        let mut bytes = [0; SIZE];
        bytes[..4].copy_from_slice(&[MARK, code, flag, 0]);
        bytes[4..8].copy_from_slice(&(a as u32).to_le_bytes());
        bytes[8..12].copy_from_slice(&(b as u32).to_le_bytes());
        bytes[12..16].copy_from_slice(&(n as u32).to_le_bytes());
        bytes[16..].copy_from_slice(&value.to_le_bytes());
        bytes
    }

    pub fn name(self) -> &'static str {
        match self {
            Order::Put(_) => "put",
            Order::Compute(operation, ..) => match operation {
                Arithmetic::Add => "compute add",
                Arithmetic::Sub => "compute sub",
                Arithmetic::Mul => "compute mul",
                Arithmetic::Div => "compute div",
                Arithmetic::Rem => "compute rem",
            },
            Order::Copy { .. } => "copy",
            Order::Drop => "drop",
            Order::Store { .. } => "store",
            Order::Load(_) => "load",
            Order::Print { .. } => "print",
        }
    }

    /// "A store of n acquires the fewest blocks that hold n fields as above, none for 0."
    pub fn acquires(self, edition: Edition) -> usize {
        match self {
            Order::Store { n, .. } => edition.blocks_of(n),
            _ => 0,
        }
    }
}

/// "0xA7 0x01, kind byte (0 linked; 1 Ext), zero byte, 32-bit id."
pub fn binding(kind: Kind, id: u32) -> [u8; BINDING] {
    let kind = match kind {
        Kind::Linked => 0,
        Kind::Ext => 1,
    };
    let mut bytes = [0xA7, 0x01, kind, 0, 0, 0, 0, 0];
    bytes[4..].copy_from_slice(&id.to_le_bytes());
    bytes
}

/// The kinds of a well-formed context.
pub fn kinds(context: &[u8]) -> Vec<Kind> {
    let (bindings, _) = context.as_chunks::<BINDING>();
    let kind = |binding: &[u8; BINDING]| match binding[2] {
        0 => Kind::Linked,
        _ => Kind::Ext,
    };
    bindings.iter().map(kind).collect()
}

#[cfg(test)]
mod tests {
    use super::*;

    #[test]
    fn orders_read_back() {
        let orders = [
            Order::Put(u64::MAX),
            Order::Compute(Arithmetic::Rem, 3, 4),
            Order::Copy { a: 7, n: 9 },
            Order::Drop,
            Order::Store { n: 5, tag: 1 << 63 },
            Order::Load(133),
            Order::Print {
                newline: true,
                a: 2,
            },
        ];
        for order in orders {
            assert_eq!(Order::read(&order.to_bytes()), Some(order));
        }
    }

    #[test]
    fn blocks_acquired() {
        let blocks = |edition| move |n| Order::Store { n, tag: 0 }.acquires(edition);
        let some: Vec<_> = (0..9).map(blocks(Edition::First)).collect();
        assert_eq!(some, [0, 1, 1, 1, 2, 2, 3, 3, 4]);
        assert_eq!(blocks(Edition::First)(133), 66);
        let some = [0, 1, 7, 8, 13, 14, 19, 20, 133, 261].map(blocks(Edition::Second));
        assert_eq!(some, [0, 1, 1, 2, 2, 3, 3, 4, 22, 44]);
    }
}
