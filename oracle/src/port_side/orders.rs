//! Orders by the port: alone, or on a channel.

use super::lent_words;
use crate::answer::Answer;
use crate::channel::{Answered, Channel, Rooms, Side, ask};
use crate::interpreter;
use crate::orders::answer::Asked;
use crate::port::{self, Damaged};
use crate::record::{Record, SIZE};
use crate::request::Ordering;
use crate::shape::Chosen;

pub fn answer(chosen: Chosen, request: &Ordering, channel: &mut Option<Channel>) -> Answer {
    if let Ordering::Alone {
        context,
        asked,
        rooms,
    } = request
    {
        return alone(chosen, context, asked, *rooms);
    }
    if let Ordering::Fresh(blocks) = request {
        let Some(shape) = chosen.shape() else {
            return refused_start(chosen);
        };
        let words = lent_words(shape.edition, *blocks);
        *channel = Some(Channel::fresh(Side::Port, shape, words));
        return Answer::Fresh;
    }
    let Some(channel) = channel else {
        return Answer::Malformed("there is no channel: ask fresh first".to_string());
    };
    match request {
        Ordering::Play {
            asked,
            rooms,
            words,
        } => play(channel, asked, *rooms, words),
        _ => {
            let Channel {
                context,
                state,
                heap,
                ..
            } = channel.clone();
            Answer::Shown(context, state, heap)
        }
    }
}

/// What the port answers to a start in a shape that there is not; the channel before stays.
fn refused_start(chosen: Chosen) -> Answer {
    let before = interpreter::fresh(chosen.nearest());
    let mut state = before.clone();
    match port::start(chosen, true, &mut state) {
        _ if state != before => Answer::Damaged,
        number => Answer::Refused(number, None),
    }
}

fn alone(chosen: Chosen, context: &[u8], asked: &Asked, rooms: Rooms) -> Answer {
    match ask(chosen, context, asked, rooms) {
        Err(Damaged) => Answer::Damaged,
        Ok(Answered::Refused(number, value)) => refused(number, value),
        Ok(Answered::Accepted {
            records,
            counter,
            context,
        }) => {
            let (records, _) = records.as_chunks::<SIZE>();
            let records = records.iter().filter_map(Record::from_bytes).collect();
            Answer::Ordered(records, counter, context)
        }
    }
}

fn play(channel: &mut Channel, asked: &Asked, rooms: Rooms, words: &[u64; 9]) -> Answer {
    match ask(channel.shape.chosen(), &channel.context, asked, rooms) {
        Err(Damaged) => Answer::Damaged,
        Ok(Answered::Refused(number, value)) => refused(number, value),
        Ok(Answered::Accepted {
            records,
            counter,
            context,
        }) => {
            let count = records.len() / SIZE;
            channel.context = context.clone();
            let ran = channel.run(&records, words, count as u64);
            Answer::Played(count, counter, ran, context)
        }
    }
}

/// A place goes with 2 and with 15 to 17, the bytes needed with 10.
fn refused(number: u64, value: u64) -> Answer {
    Answer::Refused(number, matches!(number, 2 | 10 | 15..=17).then_some(value))
}
