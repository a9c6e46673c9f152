//! Holds every function of the port that reads a context against the reading of the scope's rules
//! for a bad one: alone, and with bindings or variables to load after it.

use crate::hex;
use crate::lent::Lent;
use crate::orders::{BINDING, Order};
use crate::port::{self, Memory, Query, Returned};
use crate::random::Random;
use crate::reading::{Refusal, check_bindings, check_context};
use crate::record;
use crate::request::{Form, Number};
use crate::shape::{Chosen, EDITIONS, FRAMES, OTHER_EDITIONS, OTHER_FRAMES};
use crate::well_formed::binding;

/// Contexts of up to so many bindings are asked about with each of them bad in turn.
const LONGEST: usize = 100;

/// Lengths in bytes at the limits: none, about one binding, about 4,096 and one more.
const LENGTHS: [usize; 12] = [
    0, 1, 7, 8, 9, 32_760, 32_761, 32_767, 32_768, 32_769, 32_776, 40_000,
];

/// Room for what the contexts that are good ask: refusals are told before it.
const ROOM: usize = 40 * record::SIZE;

/// How many differences are shown.
const SHOWN: u64 = 5;

/// A context, and the bindings after it.
#[derive(Debug, Clone, Default)]
struct Pair {
    context: Vec<u8>,
    after: Vec<u8>,
}

/// The functions that read one; the last two read the bindings after it too.
#[derive(Debug, Clone, Copy)]
enum Reader {
    Check,
    FreshTemporary,
    VariableTemporary,
    Print,
    Store,
    Load,
    Order,
}

const READERS: [Reader; 7] = [
    Reader::Check,
    Reader::FreshTemporary,
    Reader::VariableTemporary,
    Reader::Print,
    Reader::Store,
    Reader::Load,
    Reader::Order,
];

#[derive(Default)]
struct Tally {
    pairs: u64,
    answers: u64,
    bad: u64,
    different: u64,
    damaged: u64,
}

/// Asks both about every pair. True if they agree.
pub fn run(seed: u64) -> bool {
    let mut random = Random::new(seed);
    let mut tally = Tally::default();
    for pair in pairs(&mut random) {
        tally.compare(&pair, &mut random);
    }
    let Tally {
        pairs,
        answers,
        bad,
        different,
        damaged,
    } = tally;
    println!(
        "seed {seed}: {pairs} contexts with bindings after them, {answers} answers ({bad} with 15 to 17): \
         {different} differ, {damaged} damaged"
    );
    different == 0 && damaged == 0
}

impl Tally {
    fn compare(&mut self, pair: &Pair, random: &mut Random) {
        self.pairs += 1;
        for reader in READERS {
            let chosen = shape(random);
            let expected = expected(reader, chosen, pair);
            self.answers += 1;
            self.bad += u64::from(matches!(
                expected,
                Some(Refusal {
                    number: 15..=17,
                    ..
                })
            ));
            match ask(reader, chosen, pair, random) {
                None => {
                    self.damaged += 1;
                    show(self.damaged, reader, chosen, pair, "damaged");
                }
                Some(found) if !agrees(expected, found) => {
                    self.different += 1;
                    let answers = format!("documents: {expected:?}, port: {found:?}");
                    show(self.different, reader, chosen, pair, &answers);
                }
                Some(_) => (),
            }
        }
    }
}

/// Shows the first few of their sort.
fn show(number: u64, reader: Reader, chosen: Chosen, pair: &Pair, answers: &str) {
    if number <= SHOWN {
        let first = |bytes: &[u8]| hex::write(&bytes[..bytes.len().min(100)]);
        let (context, after) = (first(&pair.context), first(&pair.after));
        println!("{reader:?}, {chosen:?}: {context} then {after}\n    {answers}");
    }
}

/// An edition and a frame, at times ones that there are not.
fn shape(random: &mut Random) -> Chosen {
    let mut chosen = Chosen {
        edition: random.pick(&EDITIONS).number(),
        frame: random.pick(&FRAMES).number(),
    };
    if random.once_in(8) {
        chosen.edition = random.pick(&OTHER_EDITIONS);
    }
    if random.once_in(8) {
        chosen.frame = random.pick(&OTHER_FRAMES);
    }
    chosen
}

/// The refusal by the documents: 23 first, then what is bad in the context, then in the bindings
/// after it, then 3 for the frame. None where neither is bad and what else is asked decides.
fn expected(reader: Reader, chosen: Chosen, pair: &Pair) -> Option<Refusal> {
    let refused = |number| {
        Some(Refusal {
            number,
            value: Some(0),
        })
    };
    let (takes_edition, takes_frame, takes_after) = match reader {
        Reader::Check => (false, false, false),
        Reader::Print => (false, true, false),
        Reader::FreshTemporary | Reader::VariableTemporary | Reader::Store => (true, true, false),
        Reader::Load | Reader::Order => (true, true, true),
    };
    if takes_edition && chosen.edition().is_none() {
        return refused(23);
    }
    let mut checked = check_context(&pair.context);
    if takes_after {
        let before = pair.context.len() / BINDING;
        checked = checked.and_then(|()| check_bindings(before, &pair.after));
    }
    match checked {
        Err(refusal) => Some(refusal),
        Ok(()) if takes_frame && chosen.frame().is_none() => refused(3),
        Ok(()) => None,
    }
}

fn agrees(expected: Option<Refusal>, found: Returned) -> bool {
    match expected {
        Some(Refusal { number, value }) => (number, value) == (found.number, Some(found.value)),
        None => !matches!(found.number, 1 | 15..=17 | 23),
    }
}

/// What the port answers; none if it changed the output or the counter on a refusal.
fn ask(reader: Reader, chosen: Chosen, pair: &Pair, random: &mut Random) -> Option<Returned> {
    let Pair { context, after } = pair;
    let half = random.pick(&[Number::Fst, Number::Snd]);
    let n = random.below(3) as u64;
    match reader {
        Reader::Check => Some(port::check(Form::Context, context)),
        Reader::FreshTemporary => Some(port::query(chosen, &Query::FreshTemporary(half, context))),
        Reader::VariableTemporary => Some(port::query(
            chosen,
            &Query::VariableTemporary(half, random.word() as u32, context),
        )),
        Reader::Print => on_output(|_, out| port::print(chosen.frame, n == 0, 4, context, out)),
        Reader::Store => {
            on_output(|counter, out| port::memory(chosen, &Memory::Store(context, n), counter, out))
        }
        Reader::Load => on_output(|counter, out| {
            port::memory(chosen, &Memory::Load(after, context), counter, out)
        }),
        Reader::Order => order(chosen, pair),
    }
}

/// Lends an output and a counter.
fn on_output(call: impl FnOnce(&mut u64, &mut [u8]) -> Returned) -> Option<Returned> {
    let mut lent = Lent::new(ROOM);
    let mut counter = 7;
    let returned = call(&mut counter, lent.output());
    let accepted = returned.number == 0;
    let length = if accepted { returned.value } else { 0 };
    lent.written(record::SIZE as u64 * length)?;
    (accepted || counter == 7).then_some(returned)
}

/// A load of as many variables as there are bindings.
fn order(chosen: Chosen, pair: &Pair) -> Option<Returned> {
    let order = Order::Load(pair.after.len() / BINDING).to_bytes();
    let (mut records_out, mut context_out) = (Lent::new(ROOM), Lent::new(ROOM));
    let mut counter = 7;
    let answer = port::order(
        chosen,
        &pair.context,
        &order,
        &pair.after,
        &mut counter,
        records_out.output(),
        context_out.output(),
    );
    let accepted = answer.number == 0;
    let length = |count| if accepted { count } else { 0 };
    records_out.written(record::SIZE as u64 * length(answer.value))?;
    context_out.written(BINDING as u64 * length(answer.bindings))?;
    (accepted || counter == 7).then_some(Returned {
        number: answer.number,
        value: answer.value,
    })
}

/// Good bindings in a row.
fn row(count: usize, random: &mut Random) -> Vec<u8> {
    (0..count).flat_map(|_| binding(random)).collect()
}

/// A binding, from 0, made bad in one of its first four bytes: the two of its mark, its kind and its
/// zero byte.
fn spoil(bytes: &mut [u8], index: usize, byte: usize, random: &mut Random) {
    let bad: &[u8] = match byte {
        0 => &[0, 0xA6, 0xA8, 0xA9, 0xFF],
        1 => &[0, 2, 0x81, 0xFF],
        2 => &[2, 3, 0x80, 0xFF],
        _ => &[1, 2, 0x80, 0xFF],
    };
    bytes[BINDING * index + byte] = random.pick(bad);
}

fn pairs(random: &mut Random) -> Vec<Pair> {
    let mut pairs = vec![Pair::default()];
    each_place(random, &mut pairs);
    lengths(random, &mut pairs);
    several_bad(random, &mut pairs);
    pairs
}

/// Every place of every length, each of the four bytes: in the context, and in the bindings after a
/// good one.
fn each_place(random: &mut Random, pairs: &mut Vec<Pair>) {
    for length in 1..=LONGEST {
        for index in 0..length {
            for byte in 0..4 {
                let mut bad = row(length, random);
                spoil(&mut bad, index, byte, random);
                let count = random.below(LONGEST);
                let good = row(count, random);
                pairs.push(Pair {
                    context: bad.clone(),
                    after: good.clone(),
                });
                pairs.push(Pair {
                    context: good,
                    after: bad,
                });
            }
        }
    }
}

/// Lengths at the limits, of good bindings and with one of them bad, in either place.
fn lengths(random: &mut Random, pairs: &mut Vec<Pair>) {
    for length in LENGTHS {
        let whole = length / BINDING;
        let mut spoilt = vec![None];
        if whole > 0 {
            let middle = random.below(whole);
            spoilt.extend([0, middle, whole - 1].map(Some));
        }
        for index in spoilt {
            let mut bytes = row(whole + 1, random);
            if let Some(index) = index {
                let byte = random.below(4);
                spoil(&mut bytes, index, byte, random);
            }
            bytes.truncate(length);
            for count in [0, 3, 4_096] {
                let other = row(count, random);
                pairs.push(Pair {
                    context: bytes.clone(),
                    after: other.clone(),
                });
                pairs.push(Pair {
                    context: other,
                    after: bytes.clone(),
                });
            }
        }
    }
}

/// Bytes of a few bindings with none to three made bad, at times cut or lengthened.
fn few(random: &mut Random) -> Vec<u8> {
    let count = random.below(7);
    let mut bytes = row(count, random);
    for _ in 0..random.below(4).min(count) {
        let (index, byte) = (random.below(count), random.below(4));
        spoil(&mut bytes, index, byte, random);
    }
    match random.below(8) {
        0 => {
            let length = random.below(bytes.len() + 1);
            bytes.truncate(length);
        }
        1 => bytes.push(random.word() as u8),
        _ => (),
    }
    bytes
}

/// Several bad bindings in one context, and context and bindings bad at once.
fn several_bad(random: &mut Random, pairs: &mut Vec<Pair>) {
    for _ in 0..20_000 {
        let (context, after) = (few(random), few(random));
        pairs.push(Pair { context, after });
    }
}

#[cfg(test)]
mod tests {
    use super::*;

    #[test]
    fn the_context_comes_wholly_first_and_places_count_on() {
        let chosen = Chosen {
            edition: 1,
            frame: 256,
        };
        let good = [0xA7, 1, 0, 0, 0, 0, 0, 0];
        let asked = |context: &[u8], after: &[u8]| {
            let pair = Pair {
                context: context.to_vec(),
                after: after.to_vec(),
            };
            let refusal = expected(Reader::Order, chosen, &pair)?;
            Some((refusal.number, refusal.value?))
        };
        let mut kind = good.repeat(3);
        kind[10] = 2;
        let mut mark = good.repeat(3);
        mark[17] = 0;
        assert_eq!(asked(&good, &good), None);
        assert_eq!(asked(&good, &kind), Some((17, 3)));
        assert_eq!(asked(&good, &mark), Some((16, 4)));
        assert_eq!(asked(&kind, &mark), Some((17, 2)));
        assert_eq!(asked(&kind, &mark[..7]), Some((17, 2)));
        assert_eq!(asked(&good, &mark[..23]), Some((15, 0)));
        assert_eq!(asked(&kind[..23], &mark), Some((15, 0)));
        let mut both = kind;
        both[9] = 0;
        assert_eq!(asked(&both, &mark), Some((16, 2)));
    }
}
