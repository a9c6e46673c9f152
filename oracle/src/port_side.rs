//! Answers requests by the port.

mod emission;
mod orders;
mod queries;

use crate::answer::Answer;
use crate::channel::Channel;
use crate::context::{Kind, Runs};
use crate::interpreter::MOST_BLOCKS;
use crate::orders::binding;
use crate::port::{self, Damaged, Ran, Returned};
use crate::request::{Form, Line, Request, Run};
use crate::shape::{Chosen, Edition};

/// Answers a request; `fresh` makes the channel that `play` and `show` go on with.
pub fn answer(line: &Line, channel: &mut Option<Channel>) -> Answer {
    let chosen = line.chosen;
    match &line.request {
        Request::Check(form, bytes) => check(*form, bytes),
        Request::List(bytes) => list(bytes),
        Request::Run(request) => run(chosen, request),
        Request::Emission(request) => emission::answer(chosen, request),
        Request::Query(query) => queries::answer(chosen, query),
        Request::Order(request) => orders::answer(chosen, request, channel),
    }
}

fn check(form: Form, bytes: &[u8]) -> Answer {
    match port::check(form, bytes) {
        Returned { number: 0, .. } => Answer::Accepted,
        Returned { number, value } => Answer::Refused(number, Some(value)),
    }
}

/// What the lister writes: the listing, or a refusal's number and place.
fn list(bytes: &[u8]) -> Answer {
    match port::list(bytes, port::ample_text(bytes)) {
        Err(Damaged) => Answer::Damaged,
        Ok((Returned { number: 0, .. }, text)) => {
            Answer::Listing(String::from_utf8_lossy(&text).into_owned())
        }
        Ok((Returned { number, value }, _)) => Answer::Listing(format!("{number} {value}\n")),
    }
}

/// A run from the entry state, in a shape that there is not from that of the nearest, whose blocks
/// the heap has. A heap too large to be lent is refused as the port refuses one block more than it
/// takes.
fn run(chosen: Chosen, request: &Run) -> Answer {
    let shape = chosen.nearest();
    let mut state = Box::new(port::entry(shape));
    let mut heap = vec![0; lent_words(shape.edition, request.blocks)];
    let Run {
        limit,
        words,
        records,
        ..
    } = request;
    let ran: Ran = port::run(chosen, records, &mut state, &mut heap, words, *limit);
    Answer::Ran(ran, state, heap)
}

/// The words of a heap of so many blocks, or of one block more than a heap may have.
fn lent_words(edition: Edition, blocks: u64) -> usize {
    blocks.min(MOST_BLOCKS as u64 + 1) as usize * edition.block_words()
}

/// One binding more than a context may have: longer contexts are refused as this one is.
const TOO_LONG: usize = 4_097;

/// A context's bytes, from each variable's kind and id.
fn context(variables: impl Iterator<Item = (Kind, u32)>) -> Vec<u8> {
    variables.flat_map(|(kind, id)| binding(kind, id)).collect()
}

/// A context of the given kinds in a row, with ids that are places.
pub fn context_of(kinds: &[&Runs<Kind>]) -> Vec<u8> {
    let kinds = kinds.iter().flat_map(|kinds| kinds.first(TOO_LONG));
    context(kinds.take(TOO_LONG).zip(0..))
}
