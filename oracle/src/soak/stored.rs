//! The lists of orders that the program `test_soak` of the port's gate plays, one for each shape: bytes
//! for its standard input, and the lines that it must print.

use super::lists::{self, Plan};
use super::{Side, Soak};
use crate::orders::answer::{self, Asked, Given};
use crate::orders::{BINDING, SIZE};
use crate::random::Random;
use crate::reading::Refusal;
use crate::record::{self, LAST_FRESH};
use crate::shape::{Chosen, Edition, SHAPES, Shape};

/// The most bytes of a list, and the program's heap and output for records.
const MOST_BYTES: usize = 65_536;
const BLOCKS: usize = 1_500;
const RECORDS_ROOM: usize = 8_436 * record::SIZE;

/// A list is made on a heap of so many blocks: its peak is two less, and blocks are used again and
/// again. A store of all variables that the frame has room for takes most of them.
fn few_blocks(shape: Shape) -> usize {
    shape.edition.blocks_of(shape.frame.most_variables()) + 6
}

/// About how many variables there are in each turn of a list.
fn variables(shape: Shape, turn: usize) -> usize {
    let most = shape.frame.most_variables();
    let some: &[usize] = match shape.edition {
        Edition::First => &[4, 20, 7, most, most, 10, 60, 2, 14, most],
        Edition::Second => &[20, most, most, 9, most],
    };
    some[turn % some.len()]
}

/// How many orders a turn has, and a list at most. The second edition's lists are short, for the
/// gate's time.
fn lengths(edition: Edition) -> (usize, usize) {
    match edition {
        Edition::First => (200, usize::MAX),
        Edition::Second => (130, 650),
    }
}

/// "In a list of orders the counters, bindings and output lengths are any": the program takes
/// these for the order at an index, and these print words.
fn counter(index: usize) -> u64 {
    match index % 64 {
        63 => LAST_FRESH,
        _ => index as u64,
    }
}

fn records_room(index: usize) -> usize {
    match index % 64 {
        31 => record::SIZE - 1,
        _ => RECORDS_ROOM,
    }
}

fn print_words(edition: Edition, index: usize) -> [u64; 9] {
    [65_536 + edition.block_bytes() * (index as u64 % 1_000); 9]
}

/// How many bytes of bindings the program takes to follow an order.
fn bindings_after(order: &[u8]) -> usize {
    match order[1] {
        6 => BINDING * usize::from(u16::from_le_bytes([order[12], order[13]])),
        _ => 0,
    }
}

#[derive(Default)]
pub struct Stored {
    pub input: Vec<u8>,
    pub output: String,
    /// How often blocks are used again.
    pub reuse: String,
}

/// The bytes of all lists, and the program's lines.
pub fn lists(seed: u64) -> Stored {
    let mut stored = Stored::default();
    for shape in SHAPES {
        stored.add(shape, seed);
    }
    stored
}

impl Stored {
    /// The list of a shape, after its edition, its frame and the number of its bytes.
    fn add(&mut self, shape: Shape, seed: u64) {
        let Chosen { edition, frame } = shape.chosen();
        let orders = orders(shape, seed);
        let large = outcome(shape, &orders, BLOCKS);
        let bytes = |asked: &Asked| [&asked.order[..], &asked.bindings].concat();
        let list: Vec<u8> = orders.iter().flat_map(bytes).collect();
        for number in [edition, frame, list.len() as u64] {
            self.input.extend(number.to_le_bytes());
        }
        self.input.extend(list);
        let head = format!("edition {edition}, frame {frame}");
        self.output += &format!("{head}\n{}", lines(shape, &orders, &large));
        self.reuse += &format!(
            "{head}: {} orders: {} blocks acquired, the peak {}\n",
            large.orders, large.acquired, large.peak
        );
    }
}

/// Orders until a list is full.
fn orders(shape: Shape, seed: u64) -> Vec<Asked> {
    let (turn, most) = lengths(shape.edition);
    let mut random = Random::new(seed);
    let mut soak = Soak::fresh(Side::Reading, shape, few_blocks(shape));
    let mut plan = Plan::of(shape, 0);
    let mut orders = Vec::new();
    let mut bytes = 0;
    while orders.len() < most {
        let index = orders.len();
        if index % turn == 0 {
            plan = Plan::of(shape, variables(shape, index / turn));
        }
        let Some(asked) = order(&mut random, &mut plan, &soak, index) else {
            continue;
        };
        bytes += SIZE + asked.bindings.len();
        if bytes > MOST_BYTES {
            break;
        }
        if let Ok(given) = given(&soak, &asked, index) {
            let played = soak.play(&given, &print_words(shape.edition, index));
            played.expect("the list is sound");
        }
        orders.push(asked);
    }
    orders
}

/// An order that the program can read, and of which demand 3's premises hold.
fn order(random: &mut Random, plan: &mut Plan, soak: &Soak, index: usize) -> Option<Asked> {
    let mut asked = lists::item(random, plan, &soak.values, soak.left()).asked;
    if asked.order.len() != SIZE {
        return None;
    }
    if random.once_in(10) {
        let byte = random.below(SIZE);
        asked.order[byte] ^= 1 << random.below(8);
    }
    asked.counter = counter(index);
    let (owed, _) = soak.owed(asked.clone());
    let taken = asked.bindings.len() == bindings_after(&asked.order);
    (taken && owed.counter == asked.counter).then_some(asked)
}

fn given(soak: &Soak, asked: &Asked, index: usize) -> Result<Given, Refusal> {
    let given = soak.given(asked)?;
    let context_room = soak.channel.shape.frame.room_for_context();
    answer::fits(&given, records_room(index), context_room)?;
    Ok(given)
}

/// What came of the orders, up to the first run that does not end.
#[derive(Default)]
struct Outcome {
    orders: u64,
    accepted: u64,
    unsound: u64,
    faults: u64,
    acquired: usize,
    peak: usize,
}

/// The orders played on a heap of so many blocks.
fn outcome(shape: Shape, orders: &[Asked], blocks: usize) -> Outcome {
    let mut soak = Soak::fresh(Side::Reading, shape, blocks);
    let mut outcome = Outcome::default();
    for (index, asked) in orders.iter().enumerate() {
        outcome.orders += 1;
        let Ok(given) = given(&soak, asked, index) else {
            continue;
        };
        outcome.accepted += 1;
        if soak.run(&given, &print_words(shape.edition, index)).number != 0 {
            outcome.faults += 1;
            break;
        }
        outcome.unsound += u64::from(soak.check().is_err());
    }
    outcome.acquired = soak.acquired;
    outcome.peak = soak.history.peak();
    outcome
}

fn line(outcome: &Outcome, blocks: usize) -> String {
    let Outcome {
        orders,
        accepted,
        unsound,
        faults,
        ..
    } = outcome;
    let refused = orders - accepted;
    format!(
        "on {blocks} blocks: orders {orders}, accepted {accepted}, refused {refused}, unsound {unsound}, faults {faults}\n"
    )
}

/// The large heap gives the peak; then come heaps of two blocks more, of one more and of none.
fn lines(shape: Shape, orders: &[Asked], large: &Outcome) -> String {
    let peak = large.peak;
    let mut lines = line(large, BLOCKS);
    lines += &format!("peak {peak}\n");
    for blocks in [peak + 2, peak + 1, peak] {
        lines += &line(&outcome(shape, orders, blocks), blocks);
    }
    lines
}
