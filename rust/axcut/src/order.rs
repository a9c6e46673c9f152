//! Bindings and orders as records.

/// Bytes of a binding record.
pub const BINDING_SIZE: usize = 8;

/// Bytes of an order record.
pub const ORDER_SIZE: usize = 24;

/// The code of a print order.
const PRINT: u8 = 7;

/// What a variable holds.
#[derive(Debug, Clone, Copy, PartialEq, Eq)]
pub enum Kind {
    /// A pointer to an object, and its tag.
    Linked,
    /// An integer.
    Ext,
}

/// A variable of a context.
#[derive(Debug, Clone, Copy, PartialEq, Eq)]
pub struct Binding {
    /// What it holds.
    pub kind: Kind,
    /// Its name; orders make it the variable's place.
    pub id: u32,
}

impl Binding {
    /// Its record.
    pub fn bytes(self) -> [u8; BINDING_SIZE] {
        let kind = match self.kind {
            Kind::Linked => 0,
            Kind::Ext => 1,
        };
        let mut bytes = [0xA7, 0x01, kind, 0, 0, 0, 0, 0];
        bytes[4..].copy_from_slice(&self.id.to_le_bytes());
        bytes
    }

    /// The binding of a record that the library has checked.
    pub(crate) fn of_checked(bytes: &[u8]) -> Binding {
        let kind = if bytes[2] == 0 {
            Kind::Linked
        } else {
            Kind::Ext
        };
        Binding {
            kind,
            id: u32::from_le_bytes([bytes[4], bytes[5], bytes[6], bytes[7]]),
        }
    }
}

/// The bytes of a context.
pub(crate) fn context_bytes(context: &[Binding]) -> Vec<u8> {
    context.iter().flat_map(|binding| binding.bytes()).collect()
}

/// What an order computes.
#[derive(Debug, Clone, Copy, PartialEq, Eq)]
#[allow(missing_docs)]
pub enum Arithmetic {
    Add,
    Sub,
    Mul,
    Div,
    Rem,
}

/// An order. Variables go by their place in the context, from 0.
#[derive(Debug, Clone, PartialEq, Eq)]
pub enum Order {
    /// A new integer variable.
    Put(i64),
    /// A new integer variable: the result on two others.
    Compute(Arithmetic, u32, u32),
    /// So many new variables like one.
    Copy(u32, u32),
    /// The last variable goes.
    Drop,
    /// The last so many variables become an object with a tag.
    Store(u32, u64),
    /// The last variable, an object, becomes its fields, of these kinds.
    Load(Vec<Kind>),
    /// Prints an integer variable, with a newline or without.
    Print(u32, bool),
}

impl Order {
    /// Its record.
    pub fn bytes(&self) -> [u8; ORDER_SIZE] {
        match self {
            Order::Put(value) => record(1, 0, [0; 3], *value as u64),
            Order::Compute(operation, a, b) => record(2, *operation as u8, [*a, *b, 0], 0),
            Order::Copy(a, n) => record(3, 0, [*a, 0, *n], 0),
            Order::Drop => record(4, 0, [0; 3], 0),
            Order::Store(n, tag) => record(5, 0, [0, 0, *n], *tag),
            Order::Load(kinds) => record(6, 0, [0, 0, kinds.len() as u32], 0),
            Order::Print(a, newline) => record(PRINT, u8::from(*newline), [*a, 0, 0], 0),
        }
    }

    /// The print order of a record that the library has checked, if it is one.
    pub(crate) fn print_of_checked(bytes: &[u8]) -> Option<Order> {
        let a = u32::from_le_bytes([bytes[4], bytes[5], bytes[6], bytes[7]]);
        (bytes[1] == PRINT).then_some(Order::Print(a, bytes[2] == 1))
    }

    /// The bindings that follow it: a load's, named by their places in a context of so many
    /// variables.
    pub fn bindings(&self, variables: usize) -> Vec<u8> {
        let Order::Load(kinds) = self else {
            return Vec::new();
        };
        let first = variables.saturating_sub(1);
        let binding = |(index, kind): (usize, &Kind)| Binding {
            kind: *kind,
            id: (first + index) as u32,
        };
        kinds
            .iter()
            .enumerate()
            .flat_map(|each| binding(each).bytes())
            .collect()
    }
}

fn record(code: u8, flag: u8, fields: [u32; 3], value: u64) -> [u8; ORDER_SIZE] {
    let mut bytes = [0; ORDER_SIZE];
    bytes[..3].copy_from_slice(&[0xA8, code, flag]);
    for (index, field) in fields.iter().enumerate() {
        bytes[4 + 4 * index..][..4].copy_from_slice(&field.to_le_bytes());
    }
    bytes[16..].copy_from_slice(&value.to_le_bytes());
    bytes
}

#[cfg(test)]
mod tests {
    use super::{Arithmetic, Binding, Kind, Order};
    use crate::{check, Form};

    #[test]
    fn orders_are_well_formed_records() {
        let orders = [
            Order::Put(-1),
            Order::Compute(Arithmetic::Rem, 3, 4),
            Order::Copy(1, 2),
            Order::Drop,
            Order::Store(2, 7),
            Order::Load(vec![Kind::Ext, Kind::Linked]),
            Order::Print(5, true),
        ];
        for order in &orders {
            assert_eq!(check(Form::Order, &order.bytes()), Ok(()), "{order:?}");
        }
        assert_eq!(check(Form::Context, &orders[5].bindings(4)), Ok(()));
        assert_eq!(orders[5].bindings(4)[4], 3);
    }

    #[test]
    fn bytes_are_document_01s() {
        let compute = Order::Compute(Arithmetic::Sub, 1, 2).bytes();
        assert_eq!(compute[..12], [0xA8, 2, 1, 0, 1, 0, 0, 0, 2, 0, 0, 0]);
        let store = Order::Store(3, 0x0102).bytes();
        assert_eq!(store[12..], [3, 0, 0, 0, 2, 1, 0, 0, 0, 0, 0, 0]);
        let binding = Binding {
            kind: Kind::Ext,
            id: 258,
        };
        assert_eq!(binding.bytes(), [0xA7, 1, 1, 0, 2, 1, 0, 0]);
        assert_eq!(Binding::of_checked(&binding.bytes()), binding);
        let print = Order::Print(259, true);
        assert_eq!(Order::print_of_checked(&print.bytes()), Some(print));
        assert_eq!(Order::print_of_checked(&compute), None);
    }
}
