//! Writes lists of requests: everything at a limit, then as many random ones as are asked for.

mod emission;
mod requests;

use crate::inputs;
use crate::random::Random;
use crate::shape::{SHAPES, Shape};

/// The contexts of a sample: short ones, with more variables than registers hold, and one in so
/// many up to the longest.
const SHORT: usize = 10;
const LONG_IN: usize = 50;

/// A list of the kind named, if it is one; `larger` and `second` have no random ones.
pub fn list(kind: &str, count: u64, seed: u64) -> Option<Vec<String>> {
    let random = &mut Random::new(seed);
    let mut list = Vec::new();
    match kind {
        "emission" => {
            emission::limits(random, &mut list);
            list.extend((0..count).map(|_| {
                let shape = random.pick(&SHAPES);
                requests::random(shape, emission::longest(shape.frame), random)
            }));
        }
        "sample" => {
            list.extend(emission::WORKED.map(str::to_string));
            list.extend((0..count).map(|_| {
                let shape = Shape::BASE;
                let long = random.once_in(LONG_IN);
                let longest = if long {
                    emission::longest(shape.frame)
                } else {
                    SHORT
                };
                requests::random(shape, longest, random)
            }));
        }
        "larger" => list.extend(emission::larger()),
        "second" => list.extend(emission::second()),
        "checks" => {
            let limits = inputs::limits(random);
            list.extend(limits.iter().map(inputs::Input::request));
            list.extend((0..count).map(|_| inputs::random(random).request()));
        }
        _ => return None,
    }
    Some(list)
}
