//! The port's library: its functions as they are exported for C, and safe functions over them.

use crate::interpreter::State;
use crate::lent::Lent;
use crate::record::SIZE;
use crate::request::{Form, Number};
use crate::shape::{Chosen, Shape};

/// Whether the port was linked. If not, none of the functions below may be called.
pub const LINKED: bool = cfg!(port);

/// Declares functions of the archive, or in a build without it functions that fail.
macro_rules! exported {
    ($(fn $name:ident($($parameter:ident: $type:ty),*) -> $result:ty;)*) => {
        #[cfg(port)]
        unsafe extern "C" {
            $(fn $name($($parameter: $type),*) -> $result;)*
        }
        $(
            #[cfg(not(port))]
            unsafe fn $name($(_: $type),*) -> $result {
                unreachable!("built without the port")
            }
        )*
    };
}

exported! {
    fn axcut_check(kind: u64, bytes: *const u8, len: usize, place: *mut u64) -> u64;
    fn axcut_list(
        records: *const u8,
        len: usize,
        text: *mut u8,
        text_len: usize,
        value: *mut u64
    ) -> u64;
    fn axcut_operation(
        frame: u64,
        operation: u64,
        first: u64,
        second: u64,
        third: u64,
        label: u32,
        immediate: u64,
        out: *mut u8,
        out_len: usize,
        value: *mut u64
    ) -> u64;
    fn axcut_memory(
        edition: u64,
        frame: u64,
        operation: u64,
        operand: u64,
        n: u64,
        context: *const u8,
        context_len: usize,
        loaded: *const u8,
        loaded_len: usize,
        counter: *mut u64,
        out: *mut u8,
        out_len: usize,
        value: *mut u64
    ) -> u64;
    fn axcut_print(
        frame: u64,
        newline: bool,
        source: u64,
        context: *const u8,
        context_len: usize,
        out: *mut u8,
        out_len: usize,
        value: *mut u64
    ) -> u64;
    fn axcut_routine(
        edition: u64,
        frame: u64,
        body: *const u8,
        body_len: usize,
        arguments: usize,
        out: *mut u8,
        out_len: usize,
        value: *mut u64
    ) -> u64;
    fn axcut_query(
        edition: u64,
        frame: u64,
        query: u64,
        second: bool,
        at: u64,
        id: u32,
        context: *const u8,
        context_len: usize,
        value: *mut u64
    ) -> u64;
    fn axcut_order(
        edition: u64,
        frame: u64,
        context: *const u8,
        context_len: usize,
        order: *const u8,
        order_len: usize,
        bindings: *const u8,
        bindings_len: usize,
        counter: *mut u64,
        records_out: *mut u8,
        records_out_len: usize,
        context_out: *mut u8,
        context_out_len: usize,
        value: *mut u64,
        count: *mut u64
    ) -> u64;
    fn axcut_start(
        edition: u64,
        frame: u64,
        fresh: bool,
        registers: *mut [u64; 16],
        stack: *mut u64,
        stack_len: usize
    ) -> u64;
    fn axcut_run(
        edition: u64,
        frame: u64,
        records: *const u8,
        len: usize,
        registers: *mut [u64; 16],
        stack: *mut u64,
        stack_len: usize,
        heap: *mut u64,
        heap_len: usize,
        words: *const [u64; 9],
        limit: u64,
        steps: *mut u64,
        place: *mut u64
    ) -> u64;
    fn axcut_blocks(
        edition: u64,
        registers: *const [u64; 16],
        heap: *const u64,
        heap_len: usize,
        counts: *mut [u64; 5]
    ) -> u64;
}

/// What the port returned: 0 or the scope's number, and the word beside it.
#[derive(Debug, Clone, Copy, PartialEq, Eq)]
pub struct Returned {
    pub number: u64,
    pub value: u64,
}

/// The port changed bytes that it must keep.
#[derive(Debug, PartialEq, Eq)]
pub struct Damaged;

/// The value is the place of the first bad binding, or of the first bad or surplus record.
pub fn check(form: Form, bytes: &[u8]) -> Returned {
    let kind = match form {
        Form::Context => 1,
        Form::Records => 2,
        Form::Order => 3,
    };
    check_kind(kind, bytes)
}

/// The same by the kind's number, which may be any.
pub fn check_kind(kind: u64, bytes: &[u8]) -> Returned {
    let mut value = u64::MAX;
    let number = unsafe { axcut_check(kind, bytes.as_ptr(), bytes.len(), &mut value) };
    Returned { number, value }
}

/// More room than the listing of these records needs: a line has at most 71 bytes.
pub fn ample_text(records: &[u8]) -> usize {
    100 + records.len() / SIZE * 80
}

/// The text of a listing into an output of the given length. On a refusal there is no text, and
/// the value is a record's place or the bytes needed.
pub fn list(records: &[u8], room: usize) -> Result<(Returned, Vec<u8>), Damaged> {
    let mut text = Lent::new(room);
    let mut value = 0;
    let output = text.output();
    let number = unsafe {
        axcut_list(
            records.as_ptr(),
            records.len(),
            output.as_mut_ptr(),
            output.len(),
            &mut value,
        )
    };
    let length = if number == 0 { value } else { 0 };
    let written = text.written(length).ok_or(Damaged)?;
    Ok((Returned { number, value }, written.to_vec()))
}

/// An operation of code.rs but print_i64: its number and what it takes. What it lacks is not read.
#[derive(Debug, Clone, Copy, Default)]
pub struct Operation {
    pub number: u64,
    pub operands: [u64; 3],
    pub label: u32,
    pub immediate: i64,
}

/// An operation of memory.rs.
#[derive(Debug, Clone, Copy)]
pub enum Memory<'a> {
    EraseBlock(u64),
    ShareBlockN(u64, u64),
    /// The last n variables of a context.
    Store(&'a [u8], u64),
    /// A context's variables, after another context.
    Load(&'a [u8], &'a [u8]),
}

/// The records of an operation into an output, in the frame of so many spills. The value is their
/// number, a place or the bytes needed.
pub fn operation(frame: u64, operation: &Operation, out: &mut [u8]) -> Returned {
    let mut value = u64::MAX;
    let [first, second, third] = operation.operands;
    let number = unsafe {
        axcut_operation(
            frame,
            operation.number,
            first,
            second,
            third,
            operation.label,
            operation.immediate as u64,
            out.as_mut_ptr(),
            out.len(),
            &mut value,
        )
    };
    Returned { number, value }
}

/// The same for an operation that draws labels: the counter goes in and comes back.
pub fn memory(chosen: Chosen, operation: &Memory, counter: &mut u64, out: &mut [u8]) -> Returned {
    let (number, operand, n, context, loaded): (u64, u64, u64, &[u8], &[u8]) = match *operation {
        Memory::EraseBlock(operand) => (1, operand, 0, &[], &[]),
        Memory::ShareBlockN(operand, n) => (2, operand, n, &[], &[]),
        Memory::Store(context, n) => (3, 0, n, context, &[]),
        Memory::Load(loaded, existing) => (4, 0, 0, existing, loaded),
    };
    let mut value = u64::MAX;
    let number = unsafe {
        axcut_memory(
            chosen.edition,
            chosen.frame,
            number,
            operand,
            n,
            context.as_ptr(),
            context.len(),
            loaded.as_ptr(),
            loaded.len(),
            counter,
            out.as_mut_ptr(),
            out.len(),
            &mut value,
        )
    };
    Returned { number, value }
}

pub fn print(frame: u64, newline: bool, source: u64, context: &[u8], out: &mut [u8]) -> Returned {
    let mut value = u64::MAX;
    let number = unsafe {
        axcut_print(
            frame,
            newline,
            source,
            context.as_ptr(),
            context.len(),
            out.as_mut_ptr(),
            out.len(),
            &mut value,
        )
    };
    Returned { number, value }
}

pub fn routine(chosen: Chosen, body: &[u8], arguments: usize, out: &mut [u8]) -> Returned {
    let mut value = u64::MAX;
    let number = unsafe {
        axcut_routine(
            chosen.edition,
            chosen.frame,
            body.as_ptr(),
            body.len(),
            arguments,
            out.as_mut_ptr(),
            out.len(),
            &mut value,
        )
    };
    Returned { number, value }
}

/// A query; what it lacks is not read.
#[derive(Debug, Clone, Copy)]
pub enum Query<'a> {
    Position(u64),
    FreshTemporary(Number, &'a [u8]),
    VariableTemporary(Number, u32, &'a [u8]),
    /// Of the spill's word.
    StackOffset(u64),
    FieldOffset(Number, u64),
}

/// The value is an operand's word, an offset or a bad binding's place.
pub fn query(chosen: Chosen, query: &Query) -> Returned {
    let (number, half, at, id, context): (u64, Number, u64, u32, &[u8]) = match *query {
        Query::Position(position) => (1, Number::Fst, position, 0, &[]),
        Query::FreshTemporary(half, context) => (2, half, 0, 0, context),
        Query::VariableTemporary(half, id, context) => (3, half, 0, id, context),
        Query::StackOffset(word) => (4, Number::Fst, word, 0, &[]),
        Query::FieldOffset(half, field) => (5, half, field, 0, &[]),
    };
    let second = matches!(half, Number::Snd);
    let mut value = u64::MAX;
    let number = unsafe {
        axcut_query(
            chosen.edition,
            chosen.frame,
            number,
            second,
            at,
            id,
            context.as_ptr(),
            context.len(),
            &mut value,
        )
    };
    Returned { number, value }
}

/// What an order returned: 0 or the scope's number, the records' number, a place or the bytes
/// needed, and how many bindings the context after it has.
#[derive(Debug, Clone, Copy, PartialEq, Eq)]
pub struct Ordered {
    pub number: u64,
    pub value: u64,
    pub bindings: u64,
}

/// An order's bytes on a context: its records into one output, the context after it into another.
pub fn order(
    chosen: Chosen,
    context: &[u8],
    order: &[u8],
    bindings: &[u8],
    counter: &mut u64,
    records_out: &mut [u8],
    context_out: &mut [u8],
) -> Ordered {
    let (mut value, mut count) = (u64::MAX, u64::MAX);
    let number = unsafe {
        axcut_order(
            chosen.edition,
            chosen.frame,
            context.as_ptr(),
            context.len(),
            order.as_ptr(),
            order.len(),
            bindings.as_ptr(),
            bindings.len(),
            counter,
            records_out.as_mut_ptr(),
            records_out.len(),
            context_out.as_mut_ptr(),
            context_out.len(),
            &mut value,
            &mut count,
        )
    };
    Ordered {
        number,
        value,
        bindings: count,
    }
}

/// What a run returned: 0 or the scope's number, the steps and the record's place.
#[derive(Debug, Clone, Copy, PartialEq, Eq)]
pub struct Ran {
    pub number: u64,
    pub steps: u64,
    pub place: u64,
}

/// The state with which a routine is entered.
pub fn entry(shape: Shape) -> State {
    started(shape, false)
}

/// The state from which a list of orders starts.
pub fn fresh(shape: Shape) -> State {
    started(shape, true)
}

fn started(shape: Shape, fresh: bool) -> State {
    let mut state = State {
        registers: [1; 16],
        stack: vec![1; shape.frame.stack_words()],
    };
    let number = start(shape.chosen(), fresh, &mut state);
    assert_eq!(number, 0, "{shape:?} is a shape");
    state
}

/// Sets a state; 0, or the number of a refusal and it is as it was.
pub fn start(chosen: Chosen, fresh: bool, state: &mut State) -> u64 {
    let State { registers, stack } = state;
    let Chosen { edition, frame } = chosen;
    let (words, length) = (stack.as_mut_ptr(), stack.len());
    unsafe { axcut_start(edition, frame, fresh, registers, words, length) }
}

/// Runs records on a state, beside a heap given as words.
pub fn run(
    chosen: Chosen,
    records: &[u8],
    state: &mut State,
    heap: &mut [u64],
    words: &[u64; 9],
    limit: u64,
) -> Ran {
    let (mut steps, mut place) = (u64::MAX, u64::MAX);
    let number = unsafe {
        axcut_run(
            chosen.edition,
            chosen.frame,
            records.as_ptr(),
            records.len(),
            &mut state.registers,
            state.stack.as_mut_ptr(),
            state.stack.len(),
            heap.as_mut_ptr(),
            heap.len(),
            words,
            limit,
            &mut steps,
            &mut place,
        )
    };
    Ran {
        number,
        steps,
        place,
    }
}

/// Counts the blocks of a heap given as words, between two orders: on the linear list, on the lazy
/// one, held, untouched, and the peak. 0, or the number of a refusal and the counts are as they were.
pub fn blocks(edition: u64, registers: &[u64; 16], heap: &[u64], counts: &mut [u64; 5]) -> u64 {
    unsafe { axcut_blocks(edition, registers, heap.as_ptr(), heap.len(), counts) }
}
