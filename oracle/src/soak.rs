//! Plays random lists of orders on the port, and checks after each what the scope says: the
//! answer, the records, the context, the run, the state and the heap.

mod lists;
mod stored;

use crate::channel::{self, Answered, Channel, Rooms, Side};
use crate::codes::Code;
use crate::hex;
use crate::interpreter::MOST_BLOCKS;
use crate::orders::answer::{self, Asked, Given};
use crate::orders::plain::{self, Value};
use crate::orders::sound::{BlockCounts, History, sound};
use crate::orders::{Order, kinds};
use crate::port::{self, Ran};
use crate::random::Random;
use crate::reading::Refusal;
use crate::record::{LAST_FRESH, PRINT_I64, PRINTLN_I64, Record, SIZE};
use crate::shape::{Chosen, FRAMES, OTHER_EDITIONS, OTHER_FRAMES, SHAPES, Shape};
use lists::{Item, Plan};
use std::collections::BTreeMap;

pub use stored::lists as stored_lists;

/// How many orders are put alone beside each list.
const ALONE: usize = 20;

#[derive(Debug, Clone, Copy)]
pub struct Options {
    /// The port, or only the Rust's records on the reading of the machine.
    pub side: Side,
    /// How many orders are played at least, in whole lists.
    pub orders: u64,
    /// The first list's seed; each next list has the next.
    pub seed: u64,
    /// The most blocks that a list's heap has.
    pub blocks: u64,
}

#[derive(Default)]
struct Tally {
    lists: u64,
    orders: u64,
    alone: u64,
    alone_accepted: u64,
    accepted: BTreeMap<&'static str, u64>,
    refused: BTreeMap<u64, u64>,
    records: u64,
    steps: u64,
    longest: u64,
    most: Most,
    reuse: Reuse,
    /// Of lists whose heap has exactly two blocks more than their peak.
    reuse_at_edge: Reuse,
}

#[derive(Default)]
struct Most {
    /// In each frame.
    variables: [usize; FRAMES.len()],
    frontier: usize,
    reachable: usize,
    held: usize,
    shared: usize,
    lazy: usize,
    linear: usize,
}

/// How many blocks lists acquired, beside the largest of their peaks.
#[derive(Default)]
struct Reuse {
    lists: u64,
    acquired: usize,
    largest_peak: usize,
}

/// The shape of a list: the four in turn.
fn shape_of(seed: u64) -> Shape {
    SHAPES[(seed % SHAPES.len() as u64) as usize]
}

/// True if no order failed. The first that does ends it.
pub fn run(options: Options) -> bool {
    let most_blocks = options.blocks.clamp(3, MOST_BLOCKS as u64) as usize;
    let mut tally = Tally::default();
    while tally.orders < options.orders {
        let seed = options.seed.wrapping_add(tally.lists);
        if let Err((place, failure)) = tally.list(options.side, seed, most_blocks) {
            println!("list of seed {seed}, order {place}: {failure}");
            println!("again: oracle/soak --orders 1 --seed {seed} --blocks {most_blocks}");
            tally.report(options.seed, 1);
            return false;
        }
    }
    tally.report(options.seed, 0);
    true
}

/// A channel on the port beside the plain machine.
struct Soak {
    channel: Channel,
    values: Vec<Value>,
    history: History,
    /// How many blocks the variables reach.
    reachable: usize,
    /// How many blocks the stores have acquired.
    acquired: usize,
}

impl Tally {
    /// Plays one list. The error is an order's place, from 1, and what was wrong after it.
    fn list(&mut self, side: Side, seed: u64, most_blocks: usize) -> Result<(), (usize, String)> {
        self.lists += 1;
        let shape = shape_of(seed);
        let mut random = Random::new(seed);
        let mut plan = Plan::random(&mut random, shape, most_blocks);
        let mut soak = Soak::fresh(side, shape, plan.blocks);
        soak.check().map_err(|failure| (0, failure))?;
        self.longest = self.longest.max(plan.orders as u64);
        for place in 1..=plan.orders {
            let item = lists::item(&mut random, &mut plan, &soak.values, soak.left());
            self.orders += 1;
            self.item(&mut random, &mut soak, item)
                .map_err(|failure| (place, failure))?;
        }
        self.reuse.take(&soak);
        if soak.blocks() == soak.history.peak() + 2 {
            self.reuse_at_edge.take(&soak);
        }
        match side {
            Side::Port => {
                let alone = self.alone(&mut random, shape);
                alone.map_err(|failure| (0, failure))
            }
            Side::Reading => Ok(()),
        }
    }

    /// Puts orders alone to the port, each with a counter about the last that is allowed, and at
    /// times in an edition or a frame that there is not, with bytes that are refused too.
    fn alone(&mut self, random: &mut Random, shape: Shape) -> Result<(), String> {
        for _ in 0..ALONE {
            let (mut context, mut item) = lists::alone(random, shape);
            let chosen = at_times_another(random, shape);
            if chosen.shape().is_none() {
                let Asked {
                    order, bindings, ..
                } = &mut item.asked;
                for bytes in [&mut context, order, bindings] {
                    if random.once_in(2) {
                        bytes.push(0);
                    }
                }
            }
            if let Ok(given) = answer::given(chosen, &context, &item.asked) {
                let last = LAST_FRESH - given.counter;
                item.asked.counter = random.pick(&[0, last, last, last + 1]);
            }
            let needed = answer::given(chosen, &context, &item.asked);
            let rooms = item.rooms(random, needed.as_ref().ok());
            let expected = needed.and_then(|given| {
                answer::fits(&given, rooms.records, rooms.context)?;
                Ok(given)
            });
            let expected = match expected {
                Err(refusal) => refused(refusal),
                Ok(given) => accepted(&given),
            };
            self.alone += 1;
            self.alone_accepted += u64::from(matches!(expected, Answered::Accepted { .. }));
            compare(chosen, &context, &item.asked, rooms, &expected)
                .map_err(|failure| about(&item.asked, rooms, &format!("{chosen:?}: {failure}")))?;
        }
        Ok(())
    }

    fn item(&mut self, random: &mut Random, soak: &mut Soak, item: Item) -> Result<(), String> {
        let (asked, needed) = soak.owed(item.asked.clone());
        let rooms = item.rooms(random, needed.as_ref().ok());
        let expected = needed.and_then(|given| {
            answer::fits(&given, rooms.records, rooms.context)?;
            Ok(given)
        });
        let about = |failure: String| about(&asked, rooms, &failure);
        match expected {
            Err(refusal) => {
                *self.refused.entry(refusal.number).or_default() += 1;
                soak.refused(&asked, rooms, refusal).map_err(about)
            }
            Ok(given) => {
                *self.accepted.entry(given.order.name()).or_default() += 1;
                let played = soak.accepted(&asked, rooms, &given, &item.words);
                let (ran, counts) = played.map_err(about)?;
                self.records += given.count();
                self.steps += ran.steps;
                self.most
                    .take(&counts, soak.channel.shape, soak.values.len());
                Ok(())
            }
        }
    }

    fn report(&self, seed: u64, failed: u64) {
        println!("accepted:");
        for (name, count) in &self.accepted {
            println!("{count:>9} {name}");
        }
        println!("refused, by number:");
        for (number, count) in &self.refused {
            println!("{count:>9} {number}");
        }
        self.most.report();
        self.reuse.report("all lists");
        self.reuse_at_edge
            .report("lists on exactly two blocks more than their peak");
        println!("{} records run in {} steps", self.records, self.steps);
        println!(
            "{} orders alone, {} of them accepted",
            self.alone, self.alone_accepted
        );
        println!(
            "seed {seed}: {} lists, the longest of {}; {} orders: {} accepted, {} refused, {failed} failed",
            self.lists,
            self.longest,
            self.orders,
            self.accepted.values().sum::<u64>(),
            self.refused.values().sum::<u64>(),
        );
    }
}

impl Most {
    fn take(&mut self, counts: &BlockCounts, shape: Shape, variables: usize) {
        let most = &mut self.variables[shape.frame as usize];
        *most = (*most).max(variables);
        self.frontier = self.frontier.max(counts.frontier);
        self.reachable = self.reachable.max(counts.reachable);
        self.held = self.held.max(counts.held);
        self.shared = self.shared.max(counts.shared);
        self.lazy = self.lazy.max(counts.lazy);
        self.linear = self.linear.max(counts.linear);
    }

    fn report(&self) {
        let Most {
            variables,
            frontier,
            reachable,
            held,
            shared,
            lazy,
            linear,
        } = self;
        let [base, larger] = variables;
        println!(
            "most at once: {base} and {larger} variables; {reachable} blocks reachable, {held} held, {shared} of them shared, {lazy} on the lazy list, {linear} on the linear list, frontier {frontier}"
        );
    }
}

impl Reuse {
    /// Takes in a list that is played to its end.
    fn take(&mut self, soak: &Soak) {
        self.lists += 1;
        self.acquired += soak.acquired;
        self.largest_peak = self.largest_peak.max(soak.history.peak());
    }

    fn report(&self, which: &str) {
        println!(
            "{which}: {}, {} blocks acquired, the largest peak {}",
            self.lists, self.acquired, self.largest_peak
        );
    }
}

impl Soak {
    /// The fresh routine on a zeroed heap of so many blocks.
    fn fresh(side: Side, shape: Shape, blocks: usize) -> Soak {
        let words = blocks * shape.edition.block_words();
        Soak {
            channel: Channel::fresh(side, shape, words),
            values: Vec::new(),
            history: History::new(blocks),
            reachable: 0,
            acquired: 0,
        }
    }

    fn blocks(&self) -> usize {
        self.channel.heap.len() / self.channel.shape.edition.block_words()
    }

    /// How many blocks the next store may acquire, so that the heap has two blocks more than are
    /// then reachable.
    fn left(&self) -> usize {
        self.blocks() - 2 - self.reachable
    }

    /// The answer but for the outputs' lengths. An order of which demand 3's premises do not hold
    /// is sent with a counter above the limit, so that it is refused.
    fn owed(&self, mut asked: Asked) -> (Asked, Result<Given, Refusal>) {
        let given = self.given(&asked);
        let owed = match &given {
            Err(_) => true,
            Ok(given) => {
                self.acquires(given.order) <= self.left()
                    && plain::owed(&self.values, given.order, &kinds(&asked.bindings))
            }
        };
        if owed {
            return (asked, given);
        }
        asked.counter += LAST_FRESH + 1;
        let refused = self.given(&asked);
        (asked, refused)
    }

    fn given(&self, asked: &Asked) -> Result<Given, Refusal> {
        let Channel { shape, context, .. } = &self.channel;
        answer::given(shape.chosen(), context, asked)
    }

    fn acquires(&self, order: Order) -> usize {
        order.acquires(self.channel.shape.edition)
    }

    /// "A refused one leaves all three."
    fn refused(&mut self, asked: &Asked, rooms: Rooms, refusal: Refusal) -> Result<(), String> {
        self.ask(asked, rooms, &refused(refusal))
    }

    fn accepted(
        &mut self,
        asked: &Asked,
        rooms: Rooms,
        given: &Given,
        words: &[u64; 9],
    ) -> Result<(Ran, BlockCounts), String> {
        self.ask(asked, rooms, &accepted(given))?;
        self.play(given, words)
    }

    /// Runs an accepted order's records, and checks what it left.
    fn play(&mut self, given: &Given, words: &[u64; 9]) -> Result<(Ran, BlockCounts), String> {
        if let Order::Print { newline, a } = given.order {
            self.check_call(&given.records, newline, a, words)?;
        }
        let ran = self.run(given, words);
        if ran.number != 0 || ran.steps > given.count() {
            return Err(format!("the run: {ran}"));
        }
        Ok((ran, self.check()?))
    }

    /// Runs an accepted order's records. If the run ends, context and values are those after it.
    fn run(&mut self, given: &Given, words: &[u64; 9]) -> Ran {
        let ran = self.channel.run(&given.records, words, given.count());
        if ran.number == 0 {
            self.channel.context = given.context.clone();
            plain::perform(&mut self.values, given.order);
            self.acquired += self.acquires(given.order);
        }
        ran
    }

    fn ask(&self, asked: &Asked, rooms: Rooms, expected: &Answered) -> Result<(), String> {
        if self.channel.side == Side::Reading {
            return Ok(());
        }
        let Channel { shape, context, .. } = &self.channel;
        compare(shape.chosen(), context, asked, rooms, expected)
    }

    /// "A print makes one call": its records have no jump and one CALL, of the name that the flag
    /// gives, and a run up to it leaves the integer in register 7.
    fn check_call(
        &self,
        records: &[u8],
        newline: bool,
        a: usize,
        words: &[u64; 9],
    ) -> Result<(), String> {
        let (records_read, _) = records.as_chunks::<SIZE>();
        let read: Vec<Record> = records_read.iter().filter_map(Record::from_bytes).collect();
        let is = |record: &Record, code: Code| record.code == code.number();
        let jumps = [Code::JMPL, Code::JMPLN, Code::JMP, Code::RET, Code::LAB];
        let conditional = [
            Code::JEL,
            Code::JNEL,
            Code::JLL,
            Code::JLEL,
            Code::JGL,
            Code::JGEL,
        ];
        let straight = read.iter().all(|record| {
            let mut codes = jumps.iter().chain(&conditional);
            !codes.any(|code| is(record, *code))
        });
        let calls = read.iter().filter(|record| is(record, Code::CALL)).count();
        let at = read.iter().position(|record| is(record, Code::CALL));
        let (true, 1, Some(at)) = (straight, calls, at) else {
            return Err(format!("a print with {calls} calls"));
        };
        let name = if newline { PRINTLN_I64 } else { PRINT_I64 };
        if read[at].label != name {
            return Err(format!("a print calls {}", read[at].label));
        }
        let mut channel = self.channel.clone();
        let limit = at as u64;
        let ran = channel.run(records, words, limit);
        let found = channel.state.registers[7];
        let integer = self.values[a].integer();
        if (ran.number, ran.steps) != (12, limit) || Some(found) != integer {
            return Err(format!(
                "at the call, {ran}: register 7 is {found}, not {integer:?}"
            ));
        }
        Ok(())
    }

    fn check(&mut self) -> Result<BlockCounts, String> {
        let Channel {
            shape,
            context,
            state,
            heap,
            ..
        } = &self.channel;
        let history = &mut self.history;
        let counts = sound(*shape, state, heap, context, &self.values, history)?;
        self.reachable = counts.reachable;
        if self.channel.side == Side::Port {
            self.check_counted(&counts)?;
        }
        Ok(counts)
    }

    /// The port counts the blocks alike, and in an edition that there is not refuses to.
    fn check_counted(&self, counts: &BlockCounts) -> Result<(), String> {
        let BlockCounts {
            frontier,
            linear,
            lazy,
            held,
            ..
        } = *counts;
        let untouched = self.blocks() - frontier;
        let expected = [linear, lazy, held, untouched, self.history.peak()];
        let expected = expected.map(|count| count as u64);
        let Channel {
            shape, state, heap, ..
        } = &self.channel;
        let mut found = [u64::MAX; 5];
        let number = port::blocks(shape.edition.number(), &state.registers, heap, &mut found);
        if (number, found) != (0, expected) {
            return Err(format!("blocks {expected:?}, the port: {number} {found:?}"));
        }
        for edition in OTHER_EDITIONS {
            let number = port::blocks(edition, &state.registers, heap, &mut found);
            if (number, found) != (23, expected) {
                return Err(format!("edition {edition}: {number} {found:?}"));
            }
        }
        Ok(())
    }
}

/// The numbers of a shape, at times with another edition or another frame.
fn at_times_another(random: &mut Random, shape: Shape) -> Chosen {
    let mut chosen = shape.chosen();
    if random.once_in(15) {
        chosen.edition = random.pick(&OTHER_EDITIONS);
    }
    if random.once_in(15) {
        chosen.frame = random.pick(&OTHER_FRAMES);
    }
    chosen
}

/// Whether the port answers as the scope says.
fn compare(
    chosen: Chosen,
    context: &[u8],
    asked: &Asked,
    rooms: Rooms,
    expected: &Answered,
) -> Result<(), String> {
    let found = channel::ask(chosen, context, asked, rooms);
    let found = found.map_err(|_| "bytes that must stay have changed".to_string())?;
    if found == *expected {
        return Ok(());
    }
    let (expected, found) = (brief(expected), brief(&found));
    Err(format!("the scope: {expected}; port: {found}"))
}

fn refused(refusal: Refusal) -> Answered {
    Answered::Refused(refusal.number, refusal.value.unwrap_or(0))
}

fn accepted(given: &Given) -> Answered {
    Answered::Accepted {
        records: given.records.clone(),
        counter: given.counter,
        context: given.context.clone(),
    }
}

/// A failure with the order that it is about.
fn about(asked: &Asked, rooms: Rooms, failure: &str) -> String {
    let (order, bindings) = (hex::write(&asked.order), hex::write(&asked.bindings));
    format!(
        "{failure}\n    {order} {bindings} {} {rooms:?}",
        asked.counter
    )
}

fn brief(answered: &Answered) -> String {
    match answered {
        Answered::Refused(number, value) => format!("refused {number} {value}"),
        Answered::Accepted {
            records,
            counter,
            context,
        } => {
            let count = records.len() / SIZE;
            let context = hex::write(context);
            format!("accepted {count} records counter {counter} context {context}")
        }
    }
}
