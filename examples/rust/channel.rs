//! A piezometer's channel: its limit is kept as an object, loaded for each reading and compared by
//! subtraction. Each order's records are emitted and run. Then the list of orders in the first file
//! named, in both frames, and that in the second, in both editions. With `examples/long.orders` and
//! `examples/forty.orders` the text is `examples/expected.txt`, as `examples/c/channel.c` prints it
//! too.

use axcut::{
    Accepted, Arithmetic, Channel, Edition, Frame, Kind, Order, Refusal, Variable, BINDING_SIZE,
    ORDER_SIZE, RECORD_SIZE,
};
use std::error::Error;

/// Two more than are reachable at once: one, and 132 in the list that reaches most.
const BLOCKS: usize = 3;
const LIST_BLOCKS: usize = 134;

/// Codes of order records.
const STORE: u8 = 5;
const LOAD: u8 = 6;

/// The orders, and what each is for.
fn orders() -> Vec<(Order, &'static str)> {
    let sub = |a, b| Order::Compute(Arithmetic::Sub, a, b);
    let limits = || Order::Load(vec![Kind::Ext, Kind::Ext]);
    vec![
        (Order::Put(230), "limit in kPa"),
        (Order::Put(6), "limit of the rise in a day"),
        (Order::Store(2, 7), "both limits of piezometer 7"),
        (Order::Put(218), "reading on Monday"),
        (Order::Put(225), "reading on Tuesday"),
        (Order::Copy(0, 1), "limits for Tuesday"),
        (limits(), "limit, rise"),
        (sub(3, 2), "left to the limit"),
        (Order::Print(5, true), ""),
        (sub(2, 1), "rise since Monday"),
        (sub(4, 6), "left to the rise"),
        (Order::Print(7, true), "negative: rose too fast"),
        (sub(0, 2), "limits are no integer"),
        (Order::Print(8, true), "no such variable"),
        (Order::Drop, ""),
        (Order::Drop, ""),
        (Order::Drop, ""),
        (Order::Drop, ""),
        (Order::Drop, "Tuesday's work"),
        (Order::Put(231), "reading on Wednesday"),
        (Order::Copy(0, 1), "limits for Wednesday"),
        (limits(), "limit, rise"),
        (sub(4, 3), "left to the limit"),
        (Order::Print(6, true), "negative: above the limit"),
        (sub(3, 2), "rise since Tuesday"),
        (sub(5, 7), "left to the rise"),
        (Order::Print(8, true), ""),
    ]
}

fn name(order: &Order) -> String {
    match order {
        Order::Put(value) => format!("put {value}"),
        Order::Compute(operation, a, b) => format!("{operation:?} {a} {b}").to_lowercase(),
        Order::Copy(a, n) => format!("copy {a}, {n}"),
        Order::Drop => "drop".to_string(),
        Order::Store(n, tag) => format!("store {n}, tag {tag}"),
        Order::Load(kinds) => format!("load {}", kinds.len()),
        Order::Print(a, _) => format!("print {a}"),
    }
}

/// A fault ends the program: it cannot happen to these orders.
fn play(channel: &mut Channel, order: &Order, why: &str) -> Result<(), Refusal> {
    let name = name(order);
    let accepted = match channel.order(order) {
        Ok(accepted) => accepted,
        Err(refusal) if refusal.number == 11 => return Err(refusal),
        Err(refusal) => {
            println!("{name:14} {refusal}");
            return Ok(());
        }
    };
    let records = accepted.records.len() / RECORD_SIZE;
    let labels = accepted.labels.count();
    let space = if why.is_empty() { "" } else { "  " };
    println!("{name:14} {records:2} records, {labels:2} labels{space}{why}");
    for print in accepted.prints {
        println!("{}", print.integer);
    }
    Ok(())
}

/// The bytes of the first order of a list, and of the bindings that follow it if it is a load.
fn first(list: &[u8]) -> Option<(&[u8], &[u8])> {
    let order = list.get(..ORDER_SIZE)?;
    let count = match order[1] {
        LOAD => u32::from_le_bytes(order[12..16].try_into().ok()?),
        _ => 0,
    };
    let bindings = list[ORDER_SIZE..].get(..count as usize * BINDING_SIZE)?;
    Some((order, bindings))
}

/// What the orders of one code came to.
#[derive(Default)]
struct Work {
    records: u64,
    steps: u64,
}

/// What a list came to.
#[derive(Default)]
struct Figures {
    peak: u64,
    bytes_to_fit: u64,
    store: Work,
    load: Work,
}

impl Figures {
    /// Takes in an accepted order.
    fn add(&mut self, code: u8, done: &Accepted) {
        let work = match code {
            STORE => &mut self.store,
            LOAD => &mut self.load,
            _ => return,
        };
        work.records += (done.records.len() / RECORD_SIZE) as u64;
        work.steps += done.steps;
    }
}

/// Plays a list of order records up to its end or the first refusal.
fn play_list(edition: Edition, frame: Frame, mut list: &[u8]) -> Result<Figures, Refusal> {
    let (number, spills) = (edition.number(), frame.spills());
    println!("a list in edition {number}, in a frame of {spills} spills");
    let mut channel = Channel::in_edition(edition, frame, LIST_BLOCKS)?;
    let mut figures = Figures::default();
    let (mut accepted, mut most) = (0, 0);
    while let Some((order, bindings)) = first(list) {
        match channel.order_bytes(order, bindings) {
            Ok(done) => {
                figures.add(order[1], &done);
                for print in done.prints {
                    println!("{}", print.integer);
                }
            }
            Err(refusal) => {
                println!("order {} {refusal}", accepted + 1);
                break;
            }
        }
        accepted += 1;
        most = most.max(channel.context().len());
        list = &list[order.len() + bindings.len()..];
    }
    println!("{accepted} orders accepted, {most} variables at most");
    show_heap(&channel);
    if let Some(counted) = channel.blocks() {
        figures.peak = counted.peak;
        figures.bytes_to_fit = counted.to_fit() * edition.block_bytes() as u64;
    }
    Ok(figures)
}

fn show_heap(channel: &Channel) {
    if let Some(counted) = channel.blocks() {
        let blocks = channel.heap().len() / channel.edition().block_words();
        let (peak, fit) = (counted.peak, counted.to_fit());
        println!("heap: {blocks} blocks, {peak} reachable at once, {fit} to fit");
    }
}

/// What the same list came to in each edition.
fn show_editions(first: &Figures, second: &Figures) {
    let row = |what, of: fn(&Figures) -> u64| {
        println!("{what:16}{:11}{:11}", of(first), of(second));
    };
    println!("{:16}{:>11}{:>11}", "", "edition 1", "edition 2");
    row("blocks at once", |figures| figures.peak);
    row("bytes to fit", |figures| figures.bytes_to_fit);
    row("store, records", |figures| figures.store.records);
    row("store, steps", |figures| figures.store.steps);
    row("load, records", |figures| figures.load.records);
    row("load, steps", |figures| figures.load.steps);
}

fn main() -> Result<(), Box<dyn Error>> {
    let names: Vec<String> = std::env::args().skip(1).collect();
    let [long, forty] = names.as_slice() else {
        return Err("which two lists of orders?".into());
    };
    let mut channel = Channel::new(BLOCKS)?;
    for (order, why) in orders() {
        play(&mut channel, &order, why)?;
    }
    for (place, variable) in channel.variables().into_iter().enumerate() {
        match variable {
            Variable::Object(tag) => println!("variable {place}: object, tag {tag}"),
            Variable::Integer(integer) => println!("variable {place}: {integer}"),
        }
    }
    show_heap(&channel);
    let list = std::fs::read(long)?;
    for frame in [Frame::Of256, Frame::Of512] {
        play_list(Edition::First, frame, &list)?;
    }
    let list = std::fs::read(forty)?;
    let first = play_list(Edition::First, Frame::Of256, &list)?;
    let second = play_list(Edition::Second, Frame::Of256, &list)?;
    show_editions(&first, &second);
    Ok(())
}
