//! Whether a state, a heap and a context are what the scope says of them after a list of
//! orders, beside the plain machine's values. It looks at the words alone.

use super::plain::Value;
use super::{BINDING, kinds};
use crate::interpreter::{HEAP_START, STACK, State, stack_in_body, stack_start};
use crate::reading::check_context;
use crate::shape::{Edition, Frame, Shape};
use std::rc::Rc;

const HEAP: usize = 2;
const FREE: usize = 3;

/// "Count or next pointer at 0."
const HEADER: usize = 0;

/// "Field i at 16+16i (Fst) and 24+16i (Snd)", in words.
fn fst_of(field: usize) -> usize {
    2 + 2 * field
}

fn snd_of(field: usize) -> usize {
    3 + 2 * field
}

/// A heap's words, in blocks of an edition.
#[derive(Clone, Copy)]
struct Heap<'a> {
    edition: Edition,
    words: &'a [u64],
}

impl Heap<'_> {
    /// How many blocks there are.
    fn blocks(self) -> usize {
        self.words.len() / self.edition.block_words()
    }

    fn word(self, block: usize, word: usize) -> u64 {
        self.words[block * self.edition.block_words() + word]
    }

    /// The block at an address.
    fn block_at(self, address: u64) -> Checked<usize> {
        let bytes = self.edition.block_bytes();
        let offset = address.checked_sub(HEAP_START);
        let offset = offset.filter(|offset| offset.is_multiple_of(bytes));
        let block = offset.map(|offset| offset / bytes);
        let block = block.filter(|block| *block < self.blocks() as u64);
        match block {
            Some(block) => Ok(block as usize),
            None => Err(format!("{address} is no block's address")),
        }
    }

    /// The nonzero Fsts of a block's fields, a link among them.
    fn pointers(self, block: usize) -> impl Iterator<Item = u64> {
        let fsts = (0..self.edition.fields()).map(move |field| self.word(block, fst_of(field)));
        fsts.filter(|fst| *fst != 0)
    }
}

#[derive(Debug, Clone, Copy, PartialEq, Eq)]
enum Place {
    Nowhere,
    Linear,
    Lazy,
    Held,
}

/// What the states before tell: which blocks were ever held or on HEAP's list, and the peak.
#[derive(Clone)]
pub struct History {
    ever: Vec<bool>,
    /// The most blocks that were reachable from the variables after any one order so far.
    peak: usize,
}

impl History {
    pub fn new(blocks: usize) -> History {
        History {
            ever: vec![false; blocks],
            peak: 0,
        }
    }

    pub fn peak(&self) -> usize {
        self.peak
    }
}

/// How many blocks there are of each sort.
#[derive(Debug, Clone, Copy, PartialEq, Eq)]
pub struct BlockCounts {
    pub frontier: usize,
    pub linear: usize,
    pub lazy: usize,
    pub held: usize,
    /// Held blocks that more than one pointer names.
    pub shared: usize,
    /// Blocks that pointers followed from the variables alone name.
    pub reachable: usize,
}

type Checked<T> = Result<T, String>;

/// Whether all that demand 3 says of a state holds. The history is that of the states before,
/// and takes this one in.
pub fn sound(
    shape: Shape,
    state: &State,
    heap: &[u64],
    context: &[u8],
    values: &[Value],
    history: &mut History,
) -> Checked<BlockCounts> {
    let Shape { edition, frame } = shape;
    let heap = Heap {
        edition,
        words: heap,
    };
    check_kinds(context, values)?;
    let words = variables(frame, state, values.len())?;
    let roots = roots(&words, values);
    let reachable = reachable(heap, roots.clone())?;
    let mut blocks = Blocks::new(heap);
    blocks.linear(state.registers[HEAP])?;
    let frontier = blocks.lazy(state.registers[FREE])?;
    blocks.held(roots)?;
    let counts = blocks.counts(frontier, reachable)?;
    blocks.check_references()?;
    history.take(&blocks.places, frontier, reachable)?;
    check_values(heap, &words, values)?;
    Ok(counts)
}

/// "The context then reached has these values' kinds, in sequence."
fn check_kinds(context: &[u8], values: &[Value]) -> Checked<()> {
    if check_context(context).is_err() {
        return Err("the context is malformed".to_string());
    }
    let length = context.len() / BINDING;
    if length != values.len() {
        return Err(format!("{length} variables, {} values", values.len()));
    }
    let kinds = kinds(context);
    let different = kinds
        .iter()
        .zip(values)
        .position(|(kind, value)| *kind != value.kind());
    match different {
        None => Ok(()),
        Some(variable) => Err(format!("variable {variable} has the wrong kind")),
    }
}

/// Fst and Snd of each variable: "positions 0..11 are registers 4..15, 12..266 are spills 1..255";
/// "spill p is at 2048 − 8(p+1) from STACK", and with 512 spills "at 4096 − 8(p+1), positions run
/// to 522".
fn variables(frame: Frame, state: &State, count: usize) -> Checked<Vec<[u64; 2]>> {
    let stack = stack_in_body(frame);
    if state.registers[STACK] != stack {
        return Err(format!("STACK is {}", state.registers[STACK]));
    }
    let word = |position: usize| {
        if position < 12 {
            return state.registers[4 + position];
        }
        let spill = position as u64 - 11;
        let address = stack + 8 * frame.number() - 8 * (spill + 1);
        let index = (address - stack_start(frame.stack_words())) / 8;
        state.stack[index as usize]
    };
    if count > frame.most_variables() {
        return Err(format!("{count} variables"));
    }
    Ok((0..count).map(|i| [word(2 * i), word(2 * i + 1)]).collect())
}

/// The pointers in variables: the nonzero Fsts of the linked ones.
fn roots(words: &[[u64; 2]], values: &[Value]) -> Vec<u64> {
    let linked = words
        .iter()
        .zip(values)
        .filter(|(_, value)| matches!(value, Value::Tagged(..)));
    let fsts = linked.map(|([fst, _], _)| *fst);
    fsts.filter(|fst| *fst != 0).collect()
}

/// How many blocks the pointers in variables reach. Blocks that only the lazy list holds are not
/// among them.
fn reachable(heap: Heap, roots: Vec<u64>) -> Checked<usize> {
    let mut met = vec![false; heap.blocks()];
    let mut pointers = roots;
    while let Some(pointer) = pointers.pop() {
        let block = heap.block_at(pointer)?;
        if !met[block] {
            met[block] = true;
            pointers.extend(heap.pointers(block));
        }
    }
    Ok(met.iter().filter(|met| **met).count())
}

struct Blocks<'a> {
    heap: Heap<'a>,
    places: Vec<Place>,
    /// How many pointers name each block.
    pointers: Vec<u64>,
    lazy: Vec<usize>,
}

impl<'a> Blocks<'a> {
    fn new(heap: Heap<'a>) -> Blocks<'a> {
        let count = heap.blocks();
        Blocks {
            heap,
            places: vec![Place::Nowhere; count],
            pointers: vec![0; count],
            lazy: Vec::new(),
        }
    }

    fn put(&mut self, block: usize, place: Place) -> Checked<()> {
        match self.places[block] {
            Place::Nowhere => {
                self.places[block] = place;
                Ok(())
            }
            other => Err(format!("block {block} is {place:?} and {other:?}")),
        }
    }

    /// "HEAP heads the linear free list", which ends with 0.
    fn linear(&mut self, head: u64) -> Checked<()> {
        let mut next = head;
        while next != 0 {
            let block = self.heap.block_at(next)?;
            self.put(block, Place::Linear)?;
            next = self.heap.word(block, HEADER);
        }
        Ok(())
    }

    /// "FREE the lazy one, which ends at the frontier": the first block that starts with 0.
    fn lazy(&mut self, head: u64) -> Checked<usize> {
        let mut next = head;
        loop {
            let block = self.heap.block_at(next)?;
            next = self.heap.word(block, HEADER);
            if next == 0 {
                return Ok(block);
            }
            self.put(block, Place::Lazy)?;
            self.lazy.push(block);
        }
    }

    /// "Held are just the blocks that pointers name, followed from the variables and the lazy
    /// list"; "a pointer is a nonzero Fst of a linked variable, or of a field or link in a held
    /// or lazily freed block".
    fn held(&mut self, roots: Vec<u64>) -> Checked<()> {
        let mut pointers = roots;
        for block in &self.lazy {
            pointers.extend(self.heap.pointers(*block));
        }
        while let Some(pointer) = pointers.pop() {
            let block = self.heap.block_at(pointer)?;
            self.pointers[block] += 1;
            if self.places[block] != Place::Held {
                self.put(block, Place::Held)?;
                pointers.extend(self.heap.pointers(block));
            }
        }
        Ok(())
    }

    /// "Each block below the frontier" is in exactly one of the three, and none from it up; those
    /// have never been written.
    fn counts(&self, frontier: usize, reachable: usize) -> Checked<BlockCounts> {
        let (below, above) = self.places.split_at(frontier);
        if let Some(block) = below.iter().position(|place| *place == Place::Nowhere) {
            return Err(format!("block {block} of {frontier} is lost"));
        }
        if let Some(block) = above.iter().position(|place| *place != Place::Nowhere) {
            let (block, place) = (frontier + block, above[block]);
            return Err(format!(
                "block {block} is {place:?}, the frontier is {frontier}"
            ));
        }
        let Heap { edition, words } = self.heap;
        let rest = &words[frontier * edition.block_words()..];
        if rest.iter().any(|word| *word != 0) {
            return Err(format!("a word above the frontier {frontier} is not zero"));
        }
        let count = |wanted| below.iter().filter(|place| **place == wanted).count();
        Ok(BlockCounts {
            frontier,
            linear: count(Place::Linear),
            lazy: count(Place::Lazy),
            held: count(Place::Held),
            shared: self
                .pointers
                .iter()
                .filter(|pointers| **pointers > 1)
                .count(),
            reachable,
        })
    }

    /// "A held block's count is its pointers less one."
    fn check_references(&self) -> Checked<()> {
        for (block, place) in self.places.iter().enumerate() {
            let (pointers, count) = (self.pointers[block], self.heap.word(block, HEADER));
            if *place == Place::Held && count != pointers - 1 {
                return Err(format!(
                    "block {block} counts {count}, pointers are {pointers}"
                ));
            }
        }
        Ok(())
    }
}

impl History {
    fn take(&mut self, places: &[Place], frontier: usize, reachable: usize) -> Checked<()> {
        self.take_places(places, frontier)?;
        self.take_reachable(reachable, frontier)
    }

    /// "The frontier: the first block never held or on HEAP's list."
    fn take_places(&mut self, places: &[Place], frontier: usize) -> Checked<()> {
        for (ever, place) in self.ever.iter_mut().zip(places) {
            *ever |= matches!(place, Place::Held | Place::Linear);
        }
        let never = self.ever.iter().position(|ever| !ever);
        if never != Some(frontier) {
            return Err(format!(
                "FREE ends at block {frontier}, first never held or on HEAP's list is {never:?}"
            ));
        }
        Ok(())
    }

    /// The blocks below the frontier are exactly one more than the peak.
    fn take_reachable(&mut self, reachable: usize, frontier: usize) -> Checked<()> {
        self.peak = self.peak.max(reachable);
        if frontier != 1 + self.peak {
            return Err(format!(
                "the frontier is {frontier}, the peak {}",
                self.peak
            ));
        }
        Ok(())
    }
}

/// "Ext holds its integer in Snd; linked its tag in Snd and its list by Fst: 0 if empty, else the
/// object, each value held likewise where `Memory::store` puts it."
fn check_values(heap: Heap, words: &[[u64; 2]], values: &[Value]) -> Checked<()> {
    // a list that several values share is looked at once for each block that it starts at
    let mut seen: Vec<*const Vec<Value>> = vec![std::ptr::null(); heap.blocks()];
    let mut objects = Vec::new();
    for (variable, (words, value)) in words.iter().zip(values).enumerate() {
        let [fst, snd] = *words;
        let object = holds(fst, snd, value).map_err(|why| format!("variable {variable}: {why}"))?;
        objects.extend(object);
    }
    while let Some((address, list)) = objects.pop() {
        let block = heap.block_at(address)?;
        if seen[block] == Rc::as_ptr(list) {
            continue;
        }
        seen[block] = Rc::as_ptr(list);
        check_object(heap, block, list, &mut objects)?;
    }
    Ok(())
}

/// An object's address, and the list that it must hold.
type Object<'a> = (u64, &'a Rc<Vec<Value>>);

/// Whether two words hold a value; if its list is not empty, where the object must be. The Fst
/// of an integer is left to who holds it.
fn holds(fst: u64, snd: u64, value: &Value) -> Checked<Option<Object<'_>>> {
    match value {
        Value::Integer(integer) if snd != *integer => {
            Err(format!("Snd is {snd}, the integer {integer}"))
        }
        Value::Integer(_) => Ok(None),
        Value::Tagged(tag, _) if snd != *tag => Err(format!("Snd is {snd}, the tag {tag}")),
        Value::Tagged(_, list) if list.is_empty() => match fst {
            0 => Ok(None),
            _ => Err(format!("Fst is {fst}, the list is empty")),
        },
        Value::Tagged(..) if fst == 0 => Err("Fst is 0, the list is not empty".to_string()),
        Value::Tagged(_, list) => Ok(Some((fst, list))),
    }
}

/// How many values each block of an object holds: "the last block of an object holds 3 fields;
/// each other holds 2", and in the second edition "7 variables and the others 6". Blocks fill from
/// the last value on.
fn sizes(edition: Edition, count: usize) -> Vec<usize> {
    let mut sizes = Vec::new();
    let mut left = count;
    let mut most = edition.fields();
    while left > 0 {
        sizes.push(left.min(most));
        left -= left.min(most);
        most = edition.fields() - 1;
    }
    sizes.reverse();
    sizes
}

fn check_object<'a>(
    heap: Heap,
    head: usize,
    list: &'a [Value],
    objects: &mut Vec<Object<'a>>,
) -> Checked<()> {
    let sizes = sizes(heap.edition, list.len());
    // in all blocks but the last this field is the link
    let last_field = heap.edition.fields() - 1;
    let mut block = head;
    let mut rest = list;
    for (index, size) in sizes.iter().enumerate() {
        let last = index + 1 == sizes.len();
        let end = last_field + usize::from(last);
        let (values, after) = rest.split_at(*size);
        rest = after;
        for field in 0..end - size {
            if heap.word(block, fst_of(field)) != 0 {
                return Err(format!("block {block}: unused field {field} has an Fst"));
            }
        }
        for (field, value) in (end - size..end).zip(values) {
            let [fst, snd] = [fst_of(field), snd_of(field)].map(|word| heap.word(block, word));
            if fst != 0 && matches!(value, Value::Integer(_)) {
                return Err(format!(
                    "block {block}: the integer in field {field} has an Fst"
                ));
            }
            let object = holds(fst, snd, value);
            objects.extend(object.map_err(|why| format!("block {block}, field {field}: {why}"))?);
        }
        if !last {
            block = heap.block_at(heap.word(block, fst_of(last_field)))?;
        }
    }
    Ok(())
}

#[cfg(test)]
mod tests {
    use super::*;
    use crate::channel::{Channel, Side};
    use crate::context::Kind;
    use crate::orders::answer::{Asked, given};
    use crate::orders::{Order, binding, plain};
    use crate::port::Ran;
    use crate::shape::{EDITIONS, SHAPES};

    /// A channel after some orders, by the Rust's records and the reading of the machine.
    struct Played {
        channel: Channel,
        values: Vec<Value>,
        history: History,
    }

    impl Played {
        /// On a zeroed heap of so many blocks.
        fn fresh(shape: Shape, blocks: usize) -> Played {
            let words = blocks * shape.edition.block_words();
            let mut played = Played {
                channel: Channel::fresh(Side::Reading, shape, words),
                values: Vec::new(),
                history: History::new(blocks),
            };
            played.check().expect("the fresh state is sound");
            played
        }

        /// Runs an order, which must be accepted; a load brings these kinds. The values stay if
        /// its run does not end.
        fn order(&mut self, order: Order, kinds: &[Kind]) -> Ran {
            let asked = Asked {
                order: order.to_bytes().to_vec(),
                bindings: kinds.iter().flat_map(|kind| binding(*kind, 7)).collect(),
                counter: 0,
            };
            let chosen = self.channel.shape.chosen();
            let given = given(chosen, &self.channel.context, &asked);
            let given = given.expect("the order is accepted");
            let ran = self.channel.run(&given.records, &[9; 9], given.count());
            if ran.number == 0 {
                self.channel.context = given.context;
                plain::perform(&mut self.values, order);
            }
            ran
        }

        fn check(&mut self) -> Checked<BlockCounts> {
            let Channel {
                shape,
                state,
                heap,
                context,
                ..
            } = &self.channel;
            let history = &mut self.history;
            sound(*shape, state, heap, context, &self.values, history)
        }

        fn heap(&self) -> Heap<'_> {
            Heap {
                edition: self.channel.shape.edition,
                words: &self.channel.heap,
            }
        }

        /// Whether a change is reported.
        fn reports(&self, change: impl Fn(&mut Played)) -> bool {
            let mut changed = Played {
                channel: self.channel.clone(),
                values: self.values.clone(),
                history: self.history.clone(),
            };
            change(&mut changed);
            changed.check().is_err()
        }
    }

    fn in_edition(edition: Edition) -> Shape {
        Shape {
            edition,
            ..Shape::BASE
        }
    }

    /// Each state must be sound.
    fn play(edition: Edition, orders: &[(Order, &[Kind])]) -> Played {
        let mut played = Played::fresh(in_edition(edition), 40);
        for (order, kinds) in orders {
            let ran = played.order(*order, kinds);
            assert_eq!(ran.number, 0, "{order:?}: {ran}");
            played.check().expect("each state is sound");
        }
        played
    }

    /// Two values more than a block has fields, in two blocks, shared; one object lazily freed, that
    /// holds another; one block on the linear list beside HEAP's own.
    fn example(edition: Edition) -> Played {
        use Kind::{Ext, Linked};
        use Order::{Copy, Drop, Load, Put, Store};
        let none: &[Kind] = &[];
        let n = edition.fields() + 2;
        let integers = n - 3;
        let kinds = [&[Linked], &vec![Ext; integers][..], &[Linked, Ext]].concat();
        let mut orders = vec![(Put(5), none), (Store { n: 1, tag: 1 }, none)];
        orders.extend((0..integers).map(|place| (Put(6 + place as u64), none)));
        orders.extend([
            (Store { n: 0, tag: 2 }, none),
            (Put(8), none),
            (Store { n, tag: 3 }, none),
            (Copy { a: 0, n: 3 }, none),
            (Put(9), none),
            (Store { n: 1, tag: 4 }, none),
            (Store { n: 1, tag: 5 }, none),
            (Put(10), none),
            (Store { n: 1, tag: 6 }, none),
            (Load(1), &[Ext]),
            (Drop, none),
            (Drop, none),
            (Load(n), &kinds),
        ]);
        play(edition, &orders)
    }

    #[test]
    fn an_example_is_sound() {
        for edition in EDITIONS {
            let mut played = example(edition);
            let expected = BlockCounts {
                frontier: 7,
                linear: 2,
                lazy: 1,
                held: 4,
                shared: 2,
                reachable: 3,
            };
            assert_eq!(played.check(), Ok(expected));
            assert_eq!(played.history.peak(), 6);
        }
    }

    #[test]
    fn another_peak_is_reported() {
        let played = example(Edition::First);
        for peak in [0, 3, 5, 7] {
            assert!(
                played.reports(|played| played.history.peak = peak),
                "{peak}"
            );
        }
    }

    /// A put and then so many stores of one variable, each of which reaches one block more, on a
    /// heap of so many blocks: how many blocks are reachable after each store, or what is wrong.
    fn stores(edition: Edition, count: usize, blocks: usize) -> Vec<Checked<usize>> {
        let mut played = Played::fresh(in_edition(edition), blocks);
        assert_eq!(played.order(Order::Put(0), &[]).number, 0);
        played.check().expect("a put changes no block");
        let mut store = || {
            let ran = played.order(Order::Store { n: 1, tag: 0 }, &[]);
            match ran.number {
                0 => Ok(played.check()?.reachable),
                number => Err(format!("refused {number}")),
            }
        };
        (0..count).map(|_| store()).collect()
    }

    fn no_block(edition: Edition, block: u64) -> Checked<usize> {
        let address = HEAP_START + block * edition.block_bytes();
        Err(format!("{address} is no block's address"))
    }

    #[test]
    fn one_block_fewer_leaves_no_frontier() {
        // a peak of 1: on two blocks the run ends, and FREE is past the heap's end
        for edition in EDITIONS {
            assert_eq!(stores(edition, 1, 3), [Ok(1)]);
            assert_eq!(stores(edition, 1, 2), [no_block(edition, 2)]);
        }
    }

    /// Why a store counts what is reachable before it and what it acquires: of three blocks it
    /// finds two, its run faults, and the new variable leads nowhere yet.
    #[test]
    fn a_store_that_faults_reaches_less_than_it_counts() {
        for (edition, n) in EDITIONS.into_iter().zip([7, 19]) {
            let mut played = Played::fresh(in_edition(edition), 2);
            for value in 0..n {
                assert_eq!(played.order(Order::Put(value as u64), &[]).number, 0);
            }
            let ran = played.order(Order::Store { n, tag: 0 }, &[]);
            let fst = played.channel.state.registers[4];
            assert_eq!((ran.number, fst), (11, 0));
        }
    }

    #[test]
    fn two_blocks_fewer_fault() {
        // a peak of 2: on two blocks the second store finds no block
        let fault = || Err("refused 11".to_string());
        for edition in EDITIONS {
            assert_eq!(stores(edition, 2, 4), [Ok(1), Ok(2)]);
            assert_eq!(stores(edition, 2, 3), [Ok(1), no_block(edition, 3)]);
            assert_eq!(stores(edition, 2, 2), [no_block(edition, 2), fault()]);
        }
    }

    /// As many variables as the frame has room for, stored as one object and loaded again, with
    /// every state sound and every position in use.
    #[test]
    fn a_full_frame_is_sound() {
        for shape in SHAPES {
            let most = shape.frame.most_variables();
            let peak = shape.edition.blocks_of(most);
            let mut played = Played::fresh(shape, peak + 2);
            let mut play = |order, kinds: &[Kind]| {
                let ran = played.order(order, kinds);
                assert_eq!(ran.number, 0, "{order:?}: {ran}");
                played.check().expect("each state is sound")
            };
            for value in 0..most {
                play(Order::Put(value as u64), &[]);
            }
            let stored = play(Order::Store { n: most, tag: 3 }, &[]);
            assert_eq!(stored.reachable, peak);
            play(Order::Load(most), &vec![Kind::Ext; most]);
            let last = played.channel.state.stack[57];
            assert_eq!(last, 0, "the last position is no variable's");
            assert_eq!(played.channel.state.stack[58], most as u64 - 1);
        }
    }

    #[test]
    fn every_word_of_the_heap_matters() {
        for edition in EDITIONS {
            every_word_of_the_example_matters(edition);
        }
    }

    fn every_word_of_the_example_matters(edition: Edition) {
        let played = example(edition);
        let (heap, registers) = (played.heap(), &played.channel.state.registers);
        let block = |address: u64| heap.block_at(address).unwrap();
        let [object, lazy, linear] = [registers[4], registers[FREE], registers[HEAP]].map(block);
        let last = edition.fields() - 1;
        let inner = block(heap.word(lazy, fst_of(last)));
        let link = block(heap.word(object, fst_of(last)));
        // counts, next pointers, fields, unused fields
        let mut words = vec![
            (object, HEADER),
            (object, snd_of(last - 2)),
            (object, snd_of(last - 1)),
            (link, HEADER),
            (lazy, HEADER),
            (inner, HEADER),
            (linear, HEADER),
            (39, edition.block_words() - 1),
        ];
        for field in 0..=last {
            words.extend([object, link, lazy, inner].map(|block| (block, fst_of(field))));
            words.push((link, snd_of(field)));
        }
        let changed = |block: usize, word: usize, change: u64| {
            let word = block * edition.block_words() + word;
            played.reports(|played| played.channel.heap[word] += change)
        };
        for (block, word) in words {
            for change in [1, 8, edition.block_bytes()] {
                assert!(changed(block, word, change), "block {block}, word {word}");
            }
        }
        // the words that hold nothing: offset 8, and the Snd of a link and of unused fields
        for (block, word) in [
            (object, 1),
            (object, snd_of(last)),
            (lazy, snd_of(0)),
            (linear, 3),
        ] {
            assert!(!changed(block, word, 1), "block {block}, word {word}");
        }
    }

    #[test]
    fn every_register_and_value_matters() {
        for edition in EDITIONS {
            let played = example(edition);
            let changed = |register: usize| {
                let change = edition.block_bytes();
                played.reports(|played| played.channel.state.registers[register] += change)
            };
            for register in [STACK, HEAP, FREE, 4, 5] {
                assert!(changed(register), "register {register}");
            }
            assert!(!changed(1));
            let words = 7 * edition.block_words();
            assert!(played.reports(|played| played.channel.heap.truncate(words)));
        }
        let played = example(Edition::First);
        assert!(played.reports(|played| played.values[0] = Value::Integer(3)));
        assert!(played.reports(|played| played.values.truncate(3)));
        assert!(played.reports(|played| played.channel.context[2] ^= 1));
        assert!(played.reports(|played| played.history.ever[7] = true));
    }

    #[test]
    fn a_lost_share_is_reported() {
        // the count of a shared block, as if a copy had left out its share
        for edition in EDITIONS {
            let played = example(edition);
            let object = played.channel.state.registers[4];
            let object = played.heap().block_at(object).unwrap();
            assert!(played.heap().word(object, HEADER) > 0);
            let header = object * edition.block_words() + HEADER;
            assert!(played.reports(|played| played.channel.heap[header] -= 1));
        }
    }

    #[test]
    fn blocks_fill_from_the_last_value() {
        let first = |count| sizes(Edition::First, count);
        assert_eq!(first(0), []);
        assert_eq!(first(3), [3]);
        assert_eq!(first(4), [1, 3]);
        assert_eq!(first(8), [1, 2, 2, 3]);
        let second = |count| sizes(Edition::Second, count);
        assert_eq!(second(7), [7]);
        assert_eq!(second(8), [1, 7]);
        assert_eq!(second(13), [6, 7]);
        assert_eq!(second(20), [1, 6, 6, 7]);
    }
}
