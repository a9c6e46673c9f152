//! What the Rust and the port answer, and how it is written.

use crate::hex;
use crate::interpreter::State;
use crate::port::Ran;
use crate::record::{self, Record};
use std::fmt;

#[derive(Debug, Clone, PartialEq, Eq)]
pub enum Answer {
    Records(Vec<Record>, u64),
    Register(u64),
    /// A spill with its offset from the stack pointer.
    Spill(u64, i64),
    Value(i64),
    /// The bytes are well formed.
    Accepted,
    /// What the lister writes.
    Listing(String),
    /// How a run came out, and what it left.
    Ran(Ran, Box<State>, Vec<u64>),
    /// An order's records, the counter and the context after it.
    Ordered(Vec<Record>, u64, Vec<u8>),
    /// There is a new channel.
    Fresh,
    /// How many records an order has, the counter after them, how their run came out, and the
    /// context after it.
    Played(usize, u64, Ran, Vec<u8>),
    /// A channel's context, state and heap.
    Shown(Vec<u8>, Box<State>, Vec<u64>),
    /// The Rust panicked, at what the scope gives this number.
    Panic(u64),
    /// The labels that the Rust drew lead above the last fresh label.
    Exceeded(u64),
    /// The driver could not read or ask the request.
    Malformed(String),
    /// The port changed bytes that it must keep.
    Damaged,
    /// The port's refusal: its number, and the place or the bytes needed where it returns one.
    Refused(u64, Option<u64>),
}

impl fmt::Display for Answer {
    fn fmt(&self, f: &mut fmt::Formatter) -> fmt::Result {
        match self {
            Answer::Records(records, counter) => {
                write!(f, "{}counter {counter}", record::listing(records))
            }
            Answer::Register(n) => write!(f, "register {n}"),
            Answer::Spill(n, offset) => write!(f, "spill {n} {offset}"),
            Answer::Value(value) => write!(f, "value {value}"),
            Answer::Accepted => write!(f, "ok"),
            Answer::Listing(text) => write!(f, "{}", text.strip_suffix('\n').unwrap_or(text)),
            Answer::Ran(ran, state, heap) => {
                writeln!(f, "{ran}")?;
                write!(f, "{}", state_lines(state, heap))
            }
            Answer::Ordered(records, counter, context) => {
                writeln!(f, "{}counter {counter}", record::listing(records))?;
                write!(f, "context {}", hex::write(context))
            }
            Answer::Fresh => write!(f, "fresh"),
            Answer::Played(records, counter, ran, context) => {
                writeln!(f, "accepted {records} records counter {counter}\n{ran}")?;
                write!(f, "context {}", hex::write(context))
            }
            Answer::Shown(context, state, heap) => {
                writeln!(f, "context {}", hex::write(context))?;
                write!(f, "{}", state_lines(state, heap))
            }
            Answer::Panic(_) => write!(f, "panic"),
            Answer::Exceeded(labels) => write!(f, "exceeded {labels}"),
            Answer::Malformed(reason) => write!(f, "malformed {reason}"),
            Answer::Damaged => write!(f, "damaged"),
            Answer::Refused(number, None) => write!(f, "refused {number}"),
            Answer::Refused(number, Some(value)) => write!(f, "refused {number} {value}"),
        }
    }
}

impl fmt::Display for Ran {
    fn fmt(&self, f: &mut fmt::Formatter) -> fmt::Result {
        let Ran {
            number,
            steps,
            place,
        } = self;
        match number {
            0 => write!(f, "ended {steps}"),
            2 => write!(f, "refused 2 {place}"),
            3 | 23 => write!(f, "refused {number}"),
            12 => write!(f, "refused 12 {steps}"),
            _ => write!(f, "refused {number} {steps} {place}"),
        }
    }
}

fn state_lines(state: &State, heap: &[u64]) -> String {
    let registers: String = state
        .registers
        .iter()
        .map(|word| format!(" {word}"))
        .collect();
    let (stack, heap) = (nonzero(&state.stack), nonzero(heap));
    format!("registers{registers}\nstack{stack}\nheap{heap}")
}

/// The words that are not zero, each after its index.
fn nonzero(words: &[u64]) -> String {
    let words = words.iter().enumerate().filter(|(_, word)| **word != 0);
    words
        .map(|(index, word)| format!(" {index}:{word}"))
        .collect()
}
