//! A channel: orders go in, their records run on a state and heap of its own.

use crate::edition::Edition;
use crate::ffi;
use crate::frame::Frame;
use crate::machine::{State, MOST_BLOCKS};
use crate::order::{Binding, Kind, Order, BINDING_SIZE};
use crate::refusal::{Cause, Refusal};
use crate::RECORD_SIZE;
use std::ops::RangeInclusive;

/// Blocks beyond those reachable at once: the next free one, and the frontier.
const SPARE_BLOCKS: u64 = 2;

/// An integer that a print order printed.
#[derive(Debug, Clone, Copy, PartialEq, Eq)]
pub struct Print {
    /// The integer.
    pub integer: i64,
    /// Whether a newline follows.
    pub newline: bool,
}

/// What an accepted order did.
#[derive(Debug, Clone, PartialEq, Eq)]
pub struct Accepted {
    /// Its instruction records.
    pub records: Vec<u8>,
    /// The labels drawn; empty where it drew none.
    pub labels: RangeInclusive<u64>,
    /// What it printed: one integer for a print order, else none.
    pub prints: Vec<Print>,
    /// The steps of the run.
    pub steps: u64,
}

/// What a variable holds.
#[derive(Debug, Clone, Copy, PartialEq, Eq)]
pub enum Variable {
    /// An object's tag.
    Object(u64),
    /// An integer.
    Integer(i64),
}

/// How many of the heap's blocks are where, and how many were wanted at once.
#[derive(Debug, Clone, Copy, PartialEq, Eq)]
pub struct Blocks {
    /// On HEAP's free list.
    pub linear: u64,
    /// Lazily freed, on FREE's list.
    pub lazy: u64,
    /// Held by variables, fields or lazily freed blocks.
    pub held: u64,
    /// Never used.
    pub untouched: u64,
    /// The most that were reachable from the variables after any one order so far.
    pub peak: u64,
}

impl Blocks {
    /// A heap of so many blocks is enough for the same orders.
    pub fn to_fit(&self) -> u64 {
        self.peak + SPARE_BLOCKS
    }
}

/// The context answered last, and the state and heap that the last run left.
#[derive(Debug, Clone)]
pub struct Channel {
    context: Vec<u8>,
    counter: u64,
    state: State,
    heap: Vec<u64>,
    /// Lent to each order for its records and the context after it.
    rooms: (Vec<u8>, Vec<u8>),
    failed: Option<Refusal>,
}

impl Channel {
    /// A fresh channel in the first edition and the frame of 256 spills, beside a heap of 2 to
    /// 1,048,576 blocks; 2 more than are reachable at once are enough ([`Channel::blocks`] tells
    /// after a trial on a large heap), so 2 more than its stores acquire are too.
    pub fn new(blocks: usize) -> Result<Channel, Refusal> {
        Channel::in_frame(Frame::default(), blocks)
    }

    /// The same in either frame: the larger one has room for 261 variables.
    pub fn in_frame(frame: Frame, blocks: usize) -> Result<Channel, Refusal> {
        Channel::in_edition(Edition::default(), frame, blocks)
    }

    /// The same in either edition and frame: a block of the second edition has 7 fields.
    pub fn in_edition(edition: Edition, frame: Frame, blocks: usize) -> Result<Channel, Refusal> {
        if !(2..=MOST_BLOCKS).contains(&blocks) {
            return Err(Refusal::new(Cause::Malformed, 0, 0));
        }
        Ok(Channel {
            context: Vec::new(),
            counter: 0,
            state: State::fresh(edition, frame),
            heap: vec![0; blocks * edition.block_words()],
            rooms: (
                vec![0; frame.records_room(edition)],
                vec![0; frame.context_room()],
            ),
            failed: None,
        })
    }

    /// Emits an order's records and runs them. A refusal with 2 to 10 or 15 to 17 changes nothing. A
    /// fault (11: a division by zero or of the least integer by -1, a heap too small) ends the
    /// channel: every later order is refused with it. A load must name the kinds that its object was stored with:
    /// other kinds are not noticed here, and what the variables hold is then no longer theirs.
    pub fn order(&mut self, order: &Order) -> Result<Accepted, Refusal> {
        self.order_bytes(&order.bytes(), &order.bindings(self.bindings()))
    }

    /// The same for an order's record and the bindings that follow it, as any bytes.
    pub fn order_bytes(&mut self, order: &[u8], bindings: &[u8]) -> Result<Accepted, Refusal> {
        if let Some(refusal) = self.failed {
            return Err(refusal);
        }
        let (records, context, counter) = self.emit(order, bindings)?;
        let prints = self.prints(order);
        let limit = (records.len() / RECORD_SIZE) as u64;
        let ran = self.state.run(&records, &mut self.heap, &[0; 9], limit);
        self.failed = ran.err();
        let steps = ran?;
        let labels = self.counter + 1..=counter;
        self.context = context;
        self.counter = counter;
        Ok(Accepted {
            records,
            labels,
            prints,
            steps,
        })
    }

    /// The order's records, the context after it and the counter after it.
    fn emit(&mut self, order: &[u8], bindings: &[u8]) -> Result<(Vec<u8>, Vec<u8>, u64), Refusal> {
        let (records, context) = &mut self.rooms;
        let mut counter = self.counter;
        let asked = ffi::Order {
            context: &self.context,
            order,
            bindings,
        };
        let State { edition, frame, .. } = self.state;
        let told = ffi::order(edition, frame, &asked, &mut counter, records, context);
        if told.number != 0 {
            return Err(Refusal::told(told.number, told.value));
        }
        let records = &records[..told.value as usize * RECORD_SIZE];
        let context = &context[..told.bindings as usize * BINDING_SIZE];
        Ok((records.to_vec(), context.to_vec(), counter))
    }

    /// What an accepted order prints: the run does not tell what its print call got, so the
    /// variable is read before it.
    fn prints(&self, order: &[u8]) -> Vec<Print> {
        let Some(Order::Print(a, newline)) = Order::print_of_checked(order) else {
            return Vec::new();
        };
        let integer = self.state.word(a, true);
        integer
            .map(|word| Print {
                integer: word as i64,
                newline,
            })
            .into_iter()
            .collect()
    }

    fn bindings(&self) -> usize {
        self.context.len() / BINDING_SIZE
    }

    /// The variables, from left to right.
    pub fn context(&self) -> Vec<Binding> {
        self.context
            .chunks(BINDING_SIZE)
            .map(Binding::of_checked)
            .collect()
    }

    /// What each variable holds.
    pub fn variables(&self) -> Vec<Variable> {
        let held = |(binding, place): (Binding, u32)| {
            let word = self.state.word(place, true).unwrap_or(0);
            match binding.kind {
                Kind::Linked => Variable::Object(word),
                Kind::Ext => Variable::Integer(word as i64),
            }
        };
        self.context().into_iter().zip(0..).map(held).collect()
    }

    /// The last label drawn.
    pub fn counter(&self) -> u64 {
        self.counter
    }

    /// Starts the labels afresh, as each order's records may be used apart from the others.
    pub fn reset_counter(&mut self) {
        self.counter = 0;
    }

    /// The edition that the channel was made with.
    pub fn edition(&self) -> Edition {
        self.state.edition
    }

    /// The frame that the channel was made with.
    pub fn frame(&self) -> Frame {
        self.state.frame
    }

    /// The machine's registers and stack.
    pub fn state(&self) -> &State {
        &self.state
    }

    /// The heap's words, [`Edition::block_words`] to a block.
    pub fn heap(&self) -> &[u64] {
        &self.heap
    }

    /// The heap's blocks counted. After a fault the words are those in the middle of an order, and
    /// nothing is said of them.
    pub fn blocks(&self) -> Option<Blocks> {
        if self.failed.is_some() {
            return None;
        }
        let [linear, lazy, held, untouched, peak] =
            ffi::blocks(self.edition(), &self.state.registers, &self.heap);
        Some(Blocks {
            linear,
            lazy,
            held,
            untouched,
            peak,
        })
    }
}

#[cfg(test)]
mod tests {
    use super::{Channel, Print, Variable};
    use crate::{list, Arithmetic, Edition, Frame, Kind, Order, RECORD_SIZE};

    const EDITIONS: [Edition; 2] = [Edition::First, Edition::Second];
    const FRAMES: [Frame; 2] = [Frame::Of256, Frame::Of512];

    fn played(blocks: usize, orders: &[Order]) -> Channel {
        played_in(Edition::default(), Frame::default(), blocks, orders)
    }

    fn played_in(edition: Edition, frame: Frame, blocks: usize, orders: &[Order]) -> Channel {
        let mut channel = Channel::in_edition(edition, frame, blocks).unwrap();
        for order in orders {
            channel.order(order).unwrap();
        }
        channel
    }

    #[test]
    fn an_object_keeps_its_fields() {
        let mut channel = played(
            3,
            &[
                Order::Put(230),
                Order::Put(-6),
                Order::Store(2, 7),
                Order::Copy(0, 2),
                Order::Drop,
            ],
        );
        assert_eq!(
            channel.variables(),
            [Variable::Object(7), Variable::Object(7)]
        );
        channel
            .order(&Order::Load(vec![Kind::Ext, Kind::Ext]))
            .unwrap();
        let fields = [
            Variable::Object(7),
            Variable::Integer(230),
            Variable::Integer(-6),
        ];
        assert_eq!(channel.variables(), fields);
    }

    #[test]
    fn labels_and_records_are_document_01s() {
        let mut channel = Channel::new(3).unwrap();
        let put = channel.order(&Order::Put(5)).unwrap();
        assert_eq!(list(&put.records).unwrap(), "1 records\n1 MOVI 5 0 0 0 5\n");
        assert!(put.labels.is_empty());
        let store = channel.order(&Order::Store(1, 9)).unwrap();
        assert_eq!(store.records.len() / RECORD_SIZE, 59);
        assert_eq!((store.labels, channel.counter()), (1..=13, 13));
        channel.reset_counter();
        let load = channel.order(&Order::Load(vec![Kind::Ext])).unwrap();
        assert_eq!((load.records.len() / RECORD_SIZE, load.labels), (10, 1..=2));
    }

    #[test]
    fn labels_and_records_of_the_second_edition() {
        let orders = [Order::Put(5)];
        let mut channel = played_in(Edition::Second, Frame::Of256, 3, &orders);
        let store = channel.order(&Order::Store(1, 9)).unwrap();
        let records = store.records.len() / RECORD_SIZE;
        assert_eq!((records, store.labels), (111, 1..=25));
        let load = channel.order(&Order::Load(vec![Kind::Ext])).unwrap();
        let records = load.records.len() / RECORD_SIZE;
        assert_eq!((records, load.labels), (10, 26..=27));
    }

    #[test]
    fn a_print_gives_the_integer_from_register_and_spill() {
        for (frame, most) in FRAMES.into_iter().zip([133, 261]) {
            let puts: Vec<Order> = (0..i64::from(most)).map(|i| Order::Put(i - 50)).collect();
            let mut channel = played_in(Edition::First, frame, 2, &puts);
            for place in [0, 5, 6, 132, most - 1] {
                let accepted = channel.order(&Order::Print(place, place == 6)).unwrap();
                let print = Print {
                    integer: i64::from(place) - 50,
                    newline: place == 6,
                };
                assert_eq!(accepted.prints, [print]);
            }
            assert_eq!(channel.order(&Order::Put(0)).unwrap_err().number, 8);
            assert_eq!(channel.variables().len(), most as usize);
            assert_eq!(
                (channel.frame(), frame.most_variables()),
                (frame, most as usize)
            );
        }
    }

    /// So many integers become one object, which takes so many blocks, and come back.
    fn stored_and_loaded(edition: Edition, frame: Frame, n: u32, blocks: usize) {
        let mut orders: Vec<Order> = (0..i64::from(n)).map(Order::Put).collect();
        orders.push(Order::Store(n, 9));
        let mut channel = played_in(edition, frame, blocks + 2, &orders);
        assert_eq!(channel.variables(), [Variable::Object(9)]);
        assert_eq!(channel.heap().len(), (blocks + 2) * edition.block_words());
        let counted = channel.blocks().unwrap();
        assert_eq!(
            (counted.held, counted.peak),
            (blocks as u64, blocks as u64),
            "{edition:?} {n}"
        );
        let kinds = vec![Kind::Ext; n as usize];
        channel.order(&Order::Load(kinds)).unwrap();
        let integers = (0..i64::from(n)).map(Variable::Integer);
        assert!(channel.variables().into_iter().eq(integers));
    }

    /// As many variables as the frame has room for.
    #[test]
    fn a_full_frame_is_stored_and_loaded() {
        let blocks = [[66, 130], [22, 44]];
        for (edition, blocks) in EDITIONS.into_iter().zip(blocks) {
            for (frame, blocks) in FRAMES.into_iter().zip(blocks) {
                stored_and_loaded(edition, frame, frame.most_variables() as u32, blocks);
            }
        }
    }

    /// The last block of an object holds as many variables as a block has fields, the others one
    /// fewer.
    #[test]
    fn an_object_takes_the_editions_blocks() {
        let sizes = [1, 3, 4, 7, 8, 13, 14, 40];
        let blocks = [[1, 1, 2, 3, 4, 6, 7, 20], [1, 1, 1, 1, 2, 2, 3, 7]];
        for (edition, blocks) in EDITIONS.into_iter().zip(blocks) {
            for (n, blocks) in sizes.into_iter().zip(blocks) {
                stored_and_loaded(edition, Frame::Of256, n, blocks);
            }
            assert_eq!(
                Channel::in_edition(edition, Frame::Of256, 2)
                    .unwrap()
                    .edition(),
                edition
            );
        }
    }

    #[test]
    fn a_refusal_changes_nothing() {
        let mut channel = played(3, &[Order::Put(1), Order::Store(1, 2)]);
        let before = (
            channel.variables(),
            channel.counter(),
            channel.state().clone(),
            channel.heap().to_vec(),
        );
        let refused = [
            (Order::Load(vec![Kind::Ext; 4_097]), 15),
            (Order::Print(1, false), 4),
            (Order::Compute(Arithmetic::Add, 0, 0), 5),
            (Order::Copy(0, 1 << 31), 7),
            (Order::Copy(0, 133), 8),
        ];
        for (order, number) in refused {
            assert_eq!(
                channel.order(&order).unwrap_err().number,
                number,
                "{order:?}"
            );
        }
        let after = (
            channel.variables(),
            channel.counter(),
            channel.state().clone(),
            channel.heap().to_vec(),
        );
        assert_eq!(before, after);
    }

    #[test]
    fn any_bytes_may_go_in_as_an_order() {
        let mut channel = played(2, &[Order::Put(3)]);
        let print = Order::Print(0, true).bytes();
        assert_eq!(channel.order_bytes(&print, &[]).unwrap().prints.len(), 1);
        assert_eq!(channel.order_bytes(&print[..23], &[]).unwrap_err().place, 1);
        assert_eq!(channel.order_bytes(&[], &[]).unwrap_err().number, 2);
        assert_eq!(channel.order_bytes(&print, &[0xA7]).unwrap_err().number, 15);
        assert_eq!(
            channel
                .order_bytes(&print, &context(false, 1))
                .unwrap_err()
                .number,
            2
        );
    }

    /// Four objects in turn, one reachable at a time: three blocks are enough, as the trial on a
    /// large heap tells.
    #[test]
    fn the_peak_is_what_to_fit() {
        let day = [
            Order::Put(1),
            Order::Put(2),
            Order::Store(2, 9),
            Order::Load(vec![Kind::Ext, Kind::Ext]),
            Order::Drop,
            Order::Drop,
        ];
        let season: Vec<Order> = day.iter().cycle().take(4 * day.len()).cloned().collect();
        let trial = played(1_000, &season).blocks().unwrap();
        assert_eq!((trial.peak, trial.to_fit(), trial.untouched), (1, 3, 998));
        let fitted = played(trial.to_fit() as usize, &season).blocks().unwrap();
        assert_eq!((fitted.peak, fitted.untouched), (1, 1));
        let none = Channel::new(2).unwrap().blocks().unwrap();
        assert_eq!((none.linear, none.held, none.peak), (1, 0, 0));
    }

    /// One block fewer leaves no frontier, and the next store faults.
    #[test]
    fn one_block_fewer_is_too_few() {
        let mut channel = played(2, &[Order::Put(1), Order::Store(1, 9)]);
        let blocks = channel.blocks().unwrap();
        assert_eq!((blocks.peak, blocks.untouched), (1, 0));
        let fault = channel.order(&Order::Store(1, 9)).unwrap_err();
        assert_eq!(fault.number, 11);
        assert_eq!(channel.blocks(), None);
    }

    #[test]
    fn a_fault_ends_the_channel() {
        let mut channel = played(2, &[Order::Put(1), Order::Put(0)]);
        let fault = channel
            .order(&Order::Compute(Arithmetic::Div, 0, 1))
            .unwrap_err();
        assert_eq!(fault.number, 11);
        assert_eq!(channel.order(&Order::Drop), Err(fault));
        for blocks in [0, 1, 1_048_577] {
            assert_eq!(Channel::new(blocks).unwrap_err().number, 2);
        }
    }

    /// Every order on every context of one kind up to the frame's most variables fits the rooms that
    /// channels lend, and one needs all of it.
    #[test]
    fn the_largest_order_fits_and_fills() {
        for edition in EDITIONS {
            for frame in FRAMES {
                assert_eq!(most_written(edition, frame), frame.records_room(edition));
            }
        }
    }

    /// The bytes of the longest records.
    fn most_written(edition: Edition, frame: Frame) -> usize {
        let most_variables = frame.most_variables() as u32;
        let mut most = 0;
        for linked in [false, true] {
            for last in 1..=most_variables {
                let mut channel = Channel::in_edition(edition, frame, 2).unwrap();
                channel.context = context(linked, last);
                for order in orders(last, linked, most_variables) {
                    let bindings = order.bindings(channel.bindings());
                    match channel.emit(&order.bytes(), &bindings) {
                        Ok((records, after, _)) => {
                            most = most.max(records.len());
                            assert!(after.len() <= frame.context_room());
                        }
                        Err(refusal) => assert_ne!(refusal.number, 10),
                    }
                }
            }
        }
        most
    }

    fn context(linked: bool, variables: u32) -> Vec<u8> {
        let kind = if linked { Kind::Linked } else { Kind::Ext };
        (0..variables)
            .flat_map(|id| crate::Binding { kind, id }.bytes())
            .collect()
    }

    fn orders(variables: u32, linked: bool, most: u32) -> Vec<Order> {
        let mut orders = vec![
            Order::Put(1),
            Order::Drop,
            Order::Print(variables - 1, true),
        ];
        orders.extend((1..=variables).map(|n| Order::Store(n, 1)));
        orders.push(Order::Copy(variables - 1, most - variables));
        let kinds = if linked { Kind::Linked } else { Kind::Ext };
        orders.extend((0..=most + 1 - variables).map(|n| Order::Load(vec![kinds; n as usize])));
        let divide = |a: u32| Order::Compute(Arithmetic::Div, a, variables - 1);
        orders.extend((0..variables.min(8)).map(divide));
        orders
    }
}
