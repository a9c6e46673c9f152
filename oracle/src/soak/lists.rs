//! Random lists of orders: what a user may send, and what is refused.

use crate::channel::Rooms;
use crate::context::Kind;
use crate::orders::answer::{Asked, Given};
use crate::orders::plain::{Value, result};
use crate::orders::{BINDING, OPERATIONS, Order, binding};
use crate::random::Random;
use crate::record::LAST_FRESH;
use crate::request::Arithmetic;
use crate::shape::{Edition, Shape};

/// An order with all that goes in beside it but the outputs.
#[derive(Debug, Clone)]
pub struct Item {
    pub asked: Asked,
    pub words: [u64; 9],
    room: Room,
}

#[derive(Debug, Clone, Copy)]
enum Room {
    Enough,
    RecordsShort,
    ContextShort,
    BothShort,
}

/// How a list goes: how long, on how many blocks, with about how many variables, and how often
/// each of the seven orders comes.
#[derive(Debug, Clone)]
pub struct Plan {
    pub orders: usize,
    pub blocks: usize,
    shape: Shape,
    variables: usize,
    weights: [usize; 7],
    /// Once there are as many variables as that, they are dropped until none is left.
    waves: bool,
    falling: bool,
}

impl Plan {
    pub fn random(random: &mut Random, shape: Shape, most_blocks: usize) -> Plan {
        let longest = random.pick(&[10, 30, 100, 400, 1_500, 5_000]);
        let orders = 1 + random.below(longest);
        let waves = random.once_in(3);
        let blocks = match random.below(4) {
            0 => most_blocks,
            1 => 2 + random.below(most_blocks - 1),
            _ => few_blocks(random, orders, waves).min(most_blocks),
        };
        let most = shape.frame.most_variables();
        Plan {
            orders,
            blocks,
            shape,
            variables: random.pick(&[2, 4, 6, 9, 14, 30, most / 2, most - 13, most]),
            weights: std::array::from_fn(|_| random.pick(&[2, 3, 4, 8])),
            waves,
            falling: false,
        }
    }

    /// A part of a list, with about so many variables.
    pub fn of(shape: Shape, variables: usize) -> Plan {
        Plan {
            orders: 0,
            blocks: 0,
            shape,
            variables,
            weights: [3; 7],
            waves: false,
            falling: false,
        }
    }

    /// The weights of the seven orders on so many variables, the last of which can be loaded or
    /// not, and with the heap full or not.
    fn weights(&mut self, length: usize, loadable: bool, full: bool) -> [usize; 7] {
        let crowded = length > self.variables;
        self.falling = self.waves && length > 0 && (self.falling || length >= self.variables);
        let mut weights = self.weights;
        if crowded || self.falling || full {
            for making in &mut weights[..3] {
                *making = 1;
            }
            weights[3] *= if self.falling || full { 10 } else { 2 };
        }
        if self.waves {
            let rare = if self.falling { 4 } else { 3 };
            weights[rare] = 1;
        }
        weights[5] = match loadable && !self.falling {
            true => 3 * weights[5],
            false => 0,
        };
        if length == 0 {
            weights = [20, 1, 1, 1, 10, 0, 1];
        }
        weights
    }
}

/// So few blocks that so many orders are likely to reach all but two of them.
fn few_blocks(random: &mut Random, orders: usize, waves: bool) -> usize {
    let orders_to_a_block = if waves { 150 } else { 40 };
    3 + random.below(1 + orders.min(2_000) / orders_to_a_block)
}

/// Words that look like integers, addresses and tags.
fn word(random: &mut Random, edition: Edition) -> u64 {
    match random.below(6) {
        0 => random.below(4) as u64,
        1 => (random.below(5) as u64).wrapping_neg(),
        2 => random.pick(&[i64::MIN as u64, i64::MAX as u64, 1 << 32, 1 << 31]),
        3 => 65_536 + edition.block_bytes() * random.below(20) as u64,
        _ => random.word(),
    }
}

/// An item for a channel whose variables have these values, with so many blocks left to a store.
pub fn item(random: &mut Random, plan: &mut Plan, values: &[Value], left: usize) -> Item {
    let order = order(random, plan, values, left);
    let Shape { edition, frame } = plan.shape;
    let mut item = Item {
        asked: Asked {
            order: order.to_bytes().to_vec(),
            bindings: bindings(random, order, values),
            counter: counter(random),
        },
        words: std::array::from_fn(|_| word(random, edition)),
        room: Room::Enough,
    };
    if random.once_in(9) {
        damage(random, &mut item, values, frame.most_variables());
    }
    item
}

/// An order alone, on a context of any length and kinds: the limits of positions are met, and what
/// no list of orders reaches.
pub fn alone(random: &mut Random, shape: Shape) -> (Vec<u8>, Item) {
    let most = shape.frame.most_variables();
    let length = match random.below(4) {
        0 => random.below(8),
        1 => random.below(most + 7),
        2 if random.once_in(20) => 4_090 + random.below(8),
        _ => most - 4 + random.below(8),
    };
    let linked = random.below(4);
    let count = random.pick(&[0, 1, 2, 3, 5, most - 3, most - 2, most - 1, most, most + 1]);
    let mut kinds = |count: usize| {
        let kind = |random: &mut Random| match random.below(3) < linked {
            true => Kind::Linked,
            false => Kind::Ext,
        };
        let bindings = (0..count).map(|_| binding(kind(random), random.word() as u32));
        bindings.flatten().collect::<Vec<u8>>()
    };
    let context = kinds(length);
    let brought = kinds(count);
    let mut place = || match random.below(3) {
        0 => length.saturating_sub(1),
        1 => random.below(length.max(1)),
        _ => random.below(most + 3),
    };
    let (a, b, n) = (place(), place(), place());
    let order = match random.below(7) {
        0 => Order::Put(word(random, shape.edition)),
        1 => Order::Compute(random.pick(&OPERATIONS), a, b),
        2 => {
            let n = random.pick(&[0, 1, 2, n, most.saturating_sub(length)]);
            Order::Copy { a, n }
        }
        3 => Order::Drop,
        4 => Order::Store {
            n,
            tag: word(random, shape.edition),
        },
        5 => Order::Load(brought.len() / BINDING),
        _ => {
            let newline = random.once_in(2);
            Order::Print { newline, a }
        }
    };
    let bindings = match order {
        Order::Load(_) => brought,
        _ => Vec::new(),
    };
    let item = Item {
        asked: Asked {
            order: order.to_bytes().to_vec(),
            bindings,
            counter: 0,
        },
        words: [0; 9],
        room: random.pick(&[
            Room::Enough,
            Room::Enough,
            Room::RecordsShort,
            Room::ContextShort,
            Room::BothShort,
        ]),
    };
    (context, item)
}

/// "In a list of orders the counters, bindings and output lengths are any."
fn counter(random: &mut Random) -> u64 {
    match random.below(3) {
        0 => 0,
        1 => random.below(1_000) as u64,
        _ => random.below(LAST_FRESH as usize - 2_000) as u64,
    }
}

fn order(random: &mut Random, plan: &mut Plan, values: &[Value], left: usize) -> Order {
    let loadable = matches!(values.last(), Some(Value::Tagged(..)));
    let weights = plan.weights(values.len(), loadable, left == 0);
    let edition = plan.shape.edition;
    match weighted(random, &weights) {
        0 => Order::Put(word(random, edition)),
        1 => compute(random, values),
        2 => copy(random, plan, values),
        3 => Order::Drop,
        4 => store(random, plan, values.len(), left),
        5 => Order::Load(match values.last() {
            Some(Value::Tagged(_, list)) => list.len(),
            _ => 0,
        }),
        _ => Order::Print {
            newline: random.once_in(2),
            a: place(random, values, Kind::Ext),
        },
    }
}

fn weighted(random: &mut Random, weights: &[usize]) -> usize {
    let mut left = random.below(weights.iter().sum());
    for (index, weight) in weights.iter().enumerate() {
        if left < *weight {
            return index;
        }
        left -= weight;
    }
    unreachable!("the weights are used up")
}

/// A place of a kind, the last ones more often; any place if there is none of it.
fn place(random: &mut Random, values: &[Value], kind: Kind) -> usize {
    let places: Vec<usize> = (0..values.len())
        .filter(|place| values[*place].kind() == kind)
        .collect();
    match places.len() {
        0 => random.below(values.len() + 1),
        count if random.once_in(2) => places[count - 1 - random.below(count.min(3))],
        count => places[random.below(count)],
    }
}

fn compute(random: &mut Random, values: &[Value]) -> Order {
    let (a, b) = (
        place(random, values, Kind::Ext),
        place(random, values, Kind::Ext),
    );
    let integer = |place: usize| values.get(place).and_then(Value::integer);
    let mut operation = random.pick(&OPERATIONS);
    if let (Some(x), Some(y)) = (integer(a), integer(b))
        && result(operation, x, y).is_none()
        && !random.once_in(8)
    {
        operation = random.pick(&OPERATIONS[..3]);
    }
    Order::Compute(operation, a, b)
}

fn copy(random: &mut Random, plan: &Plan, values: &[Value]) -> Order {
    let kind = random.pick(&[Kind::Linked, Kind::Linked, Kind::Ext]);
    let a = place(random, values, kind);
    let n = match random.below(12) {
        0 => 0,
        1 => random.below(plan.variables + 1),
        2 if random.once_in(4) => {
            (plan.shape.frame.most_variables() + 1).saturating_sub(values.len() + random.below(2))
        }
        _ => 1 + random.below(1 + plan.variables / 20),
    };
    Order::Copy { a, n }
}

fn store(random: &mut Random, plan: &Plan, length: usize, left: usize) -> Order {
    let edition = plan.shape.edition;
    let tag = word(random, edition);
    let n = match random.below(20) {
        _ if plan.waves && !random.once_in(4) => random.below(length.min(1) + 1),
        0 | 1 => 0,
        2 | 3 => random.below(length + 1),
        4 => length,
        // often more than a block holds
        _ => random.below(length.min(edition.fields() + 2) + 1),
    };
    let order = Order::Store { n, tag };
    if order.acquires(edition) > left && !random.once_in(10) {
        // as many as the blocks left hold
        let each = edition.fields() - 1;
        let n = if left == 0 { 0 } else { each * left + 1 };
        return Order::Store { n, tag };
    }
    order
}

/// The bindings of a load: the kinds stored, any ids.
fn bindings(random: &mut Random, order: Order, values: &[Value]) -> Vec<u8> {
    match (order, values.last()) {
        (Order::Load(_), Some(Value::Tagged(_, list))) => {
            let id = random.word() as u32;
            let equal = random.once_in(2);
            let ids = (0..).map(|i| if equal { id } else { id.wrapping_add(i) });
            let bindings = list.iter().zip(ids);
            bindings
                .flat_map(|(value, id)| binding(value.kind(), id))
                .collect()
        }
        _ => Vec::new(),
    }
}

/// Makes an item one that is likely refused.
fn damage(random: &mut Random, item: &mut Item, values: &[Value], most_variables: usize) {
    let Asked {
        order,
        bindings,
        counter,
    } = &mut item.asked;
    let any = [0xA7, 1, random.below(2) as u8, 0, 1, 2, 3, 4];
    match random.below(18) {
        0 => order[random.below(24)] ^= 1 << random.below(8),
        1 => order.truncate(random.below(24)),
        2 => {
            let surplus = 1 + random.below(30);
            order.extend(random.bytes(surplus));
        }
        3 => bindings.extend(any),
        4 => {
            bindings.extend(any);
            let at = random.below(bindings.len());
            bindings[at] ^= 1 << random.below(8);
        }
        5 => bindings.extend(&any[..1 + random.below(7)]),
        6 => set(order, 4, values.len() + random.below(2)),
        7 => set(order, 4 + 4 * random.below(3), random.word() as usize),
        8 => set(order, 8, values.len()),
        9 => {
            *order = Order::Store {
                n: values.len() + 1 + random.below(2),
                tag: 0,
            }
            .to_bytes()
            .to_vec()
        }
        10 => {
            let n = (1 << 31) - random.below(3);
            let a = random.below(values.len() + 1);
            *order = Order::Copy { a, n }.to_bytes().to_vec();
        }
        11 => *counter = LAST_FRESH - random.below(30) as u64,
        12 => *counter = random.pick(&[LAST_FRESH + 1, 1 << 32, u64::MAX, u64::MAX - 20]),
        13 => item.room = random.pick(&[Room::RecordsShort, Room::ContextShort, Room::BothShort]),
        14 => {
            let linked = place(random, values, Kind::Linked);
            let print = Order::Print {
                newline: false,
                a: linked,
            };
            let compute = Order::Compute(Arithmetic::Add, linked, random.below(values.len() + 1));
            *order = random.pick(&[print, compute]).to_bytes().to_vec();
        }
        15 => {
            // a load, whether or not there is something to load
            let n = random.pick(&[0, 1, 2, 3, most_variables + 1]);
            *order = Order::Load(n).to_bytes().to_vec();
            *bindings = any.repeat(n);
        }
        16 if random.once_in(10) => *bindings = any.repeat(4_095 + random.below(3)),
        16 => *order = random.bytes(24),
        _ => {
            // kinds that were not stored
            if let Some(kind) = bindings.get_mut(2) {
                *kind ^= 1;
            }
        }
    }
}

fn set(order: &mut [u8], at: usize, field: usize) {
    order[at..at + 4].copy_from_slice(&(field as u32).to_le_bytes());
}

impl Item {
    /// The lengths of the outputs, by what is needed if nothing else refuses the order.
    pub fn rooms(&self, random: &mut Random, needed: Option<&Given>) -> Rooms {
        let Some(given) = needed else {
            return Rooms {
                records: random.below(100),
                context: random.below(100),
            };
        };
        let (short_records, short_context) = match self.room {
            Room::Enough => (false, false),
            Room::RecordsShort => (true, false),
            Room::ContextShort => (false, true),
            Room::BothShort => (true, true),
        };
        let mut room = |needed: usize, short: bool| match short {
            true if random.once_in(2) => needed.saturating_sub(1),
            true => random.below(needed.max(1)),
            false => needed + random.below(2) * random.below(60),
        };
        Rooms {
            records: room(given.records.len(), short_records),
            context: room(given.context.len(), short_context),
        }
    }
}
