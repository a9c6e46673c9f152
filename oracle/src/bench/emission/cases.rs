//! What is timed, row by row.

use super::call::{Call, Outputs};
use crate::answer::Answer;
use crate::bench::emitted;
use crate::context::read_kinds;
use crate::orders::answer::{Asked, given, operations};
use crate::orders::{self, Order};
use crate::parse;
use crate::port::{self, Query};
use crate::port_side;
use crate::request::{Arithmetic, Emission, Operation, Request};
use crate::rust_side;
use crate::shape::{Edition, Frame, Shape};

/// A row: a call of the port, and what the Rust performs for it.
pub struct Case {
    pub name: String,
    pub shape: Shape,
    pub call: Call,
    /// An order's call on a context of ten variables more.
    pub longer: Option<Call>,
    /// What the Rust's list holds before, if the operations make a routine of it.
    pub body: Vec<Operation>,
    pub operations: Vec<Operation>,
}

impl Case {
    /// A case of the last operation of a request.
    fn of(name: String, request: &str, call: Call) -> Case {
        let line = parse::line(request).expect("a request");
        let Request::Emission(emission) = line.request else {
            unreachable!("no emission: {request}");
        };
        let mut body = emission.operations;
        let operations = body.split_off(body.len() - 1);
        Case {
            name,
            shape: line.chosen.nearest(),
            call,
            longer: None,
            body,
            operations,
        }
    }

    /// What one of the case's calls must write: an order what the reading of the scope says, all
    /// else what the Rust does.
    pub fn expected(&self, call: &Call) -> Outputs {
        let chosen = self.shape.chosen();
        if let Call::Order(context, asked) = call {
            let given = given(chosen, context, asked).expect("an order that is accepted");
            return Outputs {
                records: given.records,
                context: given.context,
            };
        }
        let emission = Emission {
            counter: 0,
            room: None,
            operations: [&self.body[..], &self.operations].concat(),
        };
        match rust_side::answer(chosen, &Request::Emission(emission)) {
            Answer::Records(records, _) => Outputs {
                records: records.iter().flat_map(|r| r.to_bytes()).collect(),
                context: Vec::new(),
            },
            answer => unreachable!("the Rust emits records, not {answer}"),
        }
    }
}

/// All rows. The larger frame's come last: what the Rust allocates for them changes how memory is
/// had after.
pub fn all() -> Vec<Case> {
    let base = Shape::BASE;
    let second = Shape::new(Edition::Second, base.frame);
    let larger = Shape::new(base.edition, Frame::Larger);
    let mut cases = code();
    cases.extend([1, 4, 133].map(erase_block));
    cases.extend([1, 4, 133].map(share_block_n));
    cases.extend([1, 4, 40, 133].map(|length| store(base, length)));
    cases.extend([1, 4, 40, 133].map(|length| load(base, length)));
    cases.extend([1, 4, 6, 133].map(print_i64));
    cases.push(routine());
    cases.extend(orders());
    cases.extend([40, 133].map(|length| store(second, length)));
    cases.extend([40, 133].map(|length| load(second, length)));
    cases.extend([store(larger, 261), load(larger, 261)]);
    cases
}

/// An operation of code.rs: its name, its number, how many operands it takes, and what a request has
/// after them.
type Coded = (&'static str, u64, usize, &'static str);

/// One jump stands for the six that compare, one for the six that compare with zero.
const OPERATIONS: [Coded; 17] = [
    ("label", 1, 0, " 7"),
    ("jump", 2, 1, ""),
    ("jump_label", 3, 0, " 7"),
    ("jump_label_fixed", 4, 0, " 7"),
    ("jump_label_if_equal", 5, 2, " 7"),
    ("jump_label_if_zero", 11, 1, " 7"),
    ("load_immediate", 17, 1, " 7"),
    ("load_label", 18, 1, " 7"),
    ("add_and_jump", 19, 1, " 7"),
    ("add", 20, 3, ""),
    ("sub", 21, 3, ""),
    ("mul", 22, 3, ""),
    ("div", 23, 3, ""),
    ("rem", 24, 3, ""),
    ("mov", 25, 2, ""),
    ("compare", 26, 2, ""),
    ("compare_immediate", 27, 1, " 7"),
];

/// Each operation at 1, 4 and 133 variables, one without operands once.
fn code() -> Vec<Case> {
    let mut cases = Vec::new();
    for operation in OPERATIONS {
        match operation {
            (name, _, 0, _) => cases.push(coded(name.to_string(), operation, 1)),
            (name, ..) => {
                cases.extend([1, 4, 133].map(|length| coded(at(name, length), operation, length)));
            }
        }
    }
    cases
}

/// An operation on the Snd of the last of so many variables, of the middle one and of the first, as
/// many of them as it takes. Its label and its immediate are 7.
fn coded(title: String, operation: Coded, length: u64) -> Case {
    let (name, number, operands, after) = operation;
    let positions = [length - 1, (length - 1) / 2, 0].map(|variable| 2 * variable + 1);
    let call = Call::Operation(port::Operation {
        number,
        operands: positions.map(operand),
        label: 7,
        immediate: 7,
    });
    let taken = positions[..operands].iter();
    let taken: String = taken.map(|position| format!(" p{position}")).collect();
    Case::of(title, &format!("{name}{taken}{after}"), call)
}

/// Of the Fst of the last of so many variables.
fn erase_block(length: u64) -> Case {
    let position = 2 * (length - 1);
    let request = format!("erase_block p{position}");
    let call = Call::EraseBlock(operand(position));
    Case::of(at("erase_block", length), &request, call)
}

fn share_block_n(length: u64) -> Case {
    let position = 2 * (length - 1);
    let request = format!("share_block_n p{position} 1");
    let call = Call::ShareBlockN(operand(position));
    Case::of(at("share_block_n", length), &request, call)
}

fn store(shape: Shape, length: usize) -> Case {
    let kinds = kinds(length);
    let request = format!("{}store {kinds} -", shape.chosen());
    let call = Call::Store(context(&kinds));
    Case::of(of("store", length, shape), &request, call)
}

fn load(shape: Shape, length: usize) -> Case {
    let kinds = kinds(length);
    let request = format!("{}load {kinds} -", shape.chosen());
    let call = Call::Load(context(&kinds));
    Case::of(of("load", length, shape), &request, call)
}

/// Of the Snd of the first of so many variables, which is an integer.
fn print_i64(length: usize) -> Case {
    let kinds = kinds(length);
    let request = format!("print_i64 1 p1 {kinds}");
    let call = Call::Print(operand(1), context(&kinds));
    Case::of(of("print_i64", length, Shape::BASE), &request, call)
}

fn routine() -> Case {
    let body = "mov s1 s2; ".repeat(5_000);
    let call = Call::Routine(emitted(body.trim_end_matches("; ")));
    let request = format!("{body}routine 5");
    Case::of("routine of 10,000".to_string(), &request, call)
}

/// The kinds of ten variables, of which the last is an integer or linked.
const TEN: &str = "eeleeleele";
const LAST_LINKED: &str = "eeleeleell";

/// Orders, and the kinds of the contexts that they are on.
const ORDERS: [(&str, Order, &str); 14] = [
    ("put", Order::Put(7), TEN),
    ("compute add", Order::Compute(Arithmetic::Add, 0, 1), TEN),
    ("compute mul", Order::Compute(Arithmetic::Mul, 0, 1), TEN),
    ("compute div", Order::Compute(Arithmetic::Div, 0, 1), TEN),
    ("copy of 1 integer", Order::Copy { a: 0, n: 1 }, TEN),
    ("copy of 1 linked", Order::Copy { a: 2, n: 1 }, TEN),
    ("copy of 20 linked", Order::Copy { a: 2, n: 20 }, TEN),
    ("drop of an integer", Order::Drop, TEN),
    ("drop of a linked", Order::Drop, LAST_LINKED),
    ("store of 1", Order::Store { n: 1, tag: 7 }, TEN),
    ("store of 4", Order::Store { n: 4, tag: 7 }, TEN),
    ("load of 1", Order::Load(1), LAST_LINKED),
    ("load of 4", Order::Load(4), LAST_LINKED),
    (
        "print",
        Order::Print {
            newline: true,
            a: 0,
        },
        TEN,
    ),
];

/// The orders on a context of ten variables, and a store and a load of as many as there are.
fn orders() -> Vec<Case> {
    let on_ten = |(name, order, kinds): (&str, Order, &str)| Case {
        longer: Some(call(order, &kinds.repeat(2))),
        ..order_case(name, order, kinds)
    };
    let mut cases: Vec<Case> = ORDERS.into_iter().map(on_ten).collect();
    let store = Order::Store { n: 133, tag: 7 };
    cases.push(order_case("store of 133", store, &kinds(133)));
    cases.push(order_case("load of 133", Order::Load(133), "l"));
    cases
}

fn order_case(name: &str, order: Order, kinds: &str) -> Case {
    let shape = Shape::BASE;
    let before = orders::kinds(&context(kinds));
    let brought = orders::kinds(&brought(order));
    Case {
        name: format!("order: {name}"),
        shape,
        call: call(order, kinds),
        longer: None,
        body: Vec::new(),
        operations: operations(shape.frame, order, &before, &brought),
    }
}

/// An order on a context of the given kinds.
fn call(order: Order, kinds: &str) -> Call {
    let asked = Asked {
        order: order.to_bytes().to_vec(),
        bindings: brought(order),
        counter: 0,
    };
    Call::Order(context(kinds), asked)
}

/// The bindings that go in with an order.
fn brought(order: Order) -> Vec<u8> {
    match order {
        Order::Load(n) => context(&kinds(n)),
        _ => Vec::new(),
    }
}

fn at(operation: &str, length: u64) -> String {
    format!("{operation} at {length}")
}

fn of(operation: &str, length: usize, shape: Shape) -> String {
    let edition = match shape.edition {
        Edition::First => "",
        Edition::Second => " in the second edition",
    };
    let frame = match shape.frame {
        Frame::Base => "",
        Frame::Larger => " with 512 spills",
    };
    format!("{operation} of {length}{edition}{frame}")
}

/// The word of a position's temporary with 256 spills.
fn operand(position: u64) -> u64 {
    let found = port::query(Shape::BASE.chosen(), &Query::Position(position));
    assert_eq!(found.number, 0, "there is a position {position}");
    found.value
}

/// The kinds of so many variables, as a request writes them. Every third is linked.
fn kinds(length: usize) -> String {
    "eel".chars().cycle().take(length).collect()
}

fn context(kinds: &str) -> Vec<u8> {
    port_side::context_of(&[&read_kinds(kinds).expect("kinds")])
}
