//! The exported functions, and safe ones over them: slices give pointer and length, and every
//! output word is set by the call.

use crate::edition::Edition;
use crate::frame::Frame;
use crate::machine::{State, REGISTERS};

/// The archive's functions, as `include/axcut.h` has them. Arrays go as pointers to their first
/// word.
mod exported {
    extern "C" {
        pub fn axcut_check(kind: u64, bytes: *const u8, length: usize, place: *mut u64) -> u64;
        pub fn axcut_list(
            records: *const u8,
            length: usize,
            text: *mut u8,
            room: usize,
            value: *mut u64,
        ) -> u64;
        pub fn axcut_start(
            edition: u64,
            frame: u64,
            fresh: bool,
            registers: *mut u64,
            stack: *mut u64,
            stack_words: usize,
        ) -> u64;
        pub fn axcut_run(
            edition: u64,
            frame: u64,
            records: *const u8,
            length: usize,
            registers: *mut u64,
            stack: *mut u64,
            stack_words: usize,
            heap: *mut u64,
            heap_words: usize,
            words: *const u64,
            limit: u64,
            steps: *mut u64,
            place: *mut u64,
        ) -> u64;
        pub fn axcut_blocks(
            edition: u64,
            registers: *const u64,
            heap: *const u64,
            heap_words: usize,
            counts: *mut u64,
        ) -> u64;
        pub fn axcut_operation(
            frame: u64,
            operation: u64,
            first: u64,
            second: u64,
            third: u64,
            label: u32,
            immediate: u64,
            out: *mut u8,
            room: usize,
            value: *mut u64,
        ) -> u64;
        pub fn axcut_memory(
            edition: u64,
            frame: u64,
            operation: u64,
            operand: u64,
            n: u64,
            context: *const u8,
            length: usize,
            loaded: *const u8,
            loaded_length: usize,
            counter: *mut u64,
            out: *mut u8,
            room: usize,
            value: *mut u64,
        ) -> u64;
        pub fn axcut_print(
            frame: u64,
            newline: bool,
            source: u64,
            context: *const u8,
            length: usize,
            out: *mut u8,
            room: usize,
            value: *mut u64,
        ) -> u64;
        pub fn axcut_routine(
            edition: u64,
            frame: u64,
            body: *const u8,
            length: usize,
            arguments: usize,
            out: *mut u8,
            room: usize,
            value: *mut u64,
        ) -> u64;
        pub fn axcut_query(
            edition: u64,
            frame: u64,
            query: u64,
            second: bool,
            at: u64,
            id: u32,
            context: *const u8,
            length: usize,
            value: *mut u64,
        ) -> u64;
        pub fn axcut_order(
            edition: u64,
            frame: u64,
            context: *const u8,
            length: usize,
            order: *const u8,
            order_length: usize,
            bindings: *const u8,
            bindings_length: usize,
            counter: *mut u64,
            records_out: *mut u8,
            records_room: usize,
            context_out: *mut u8,
            context_room: usize,
            value: *mut u64,
            count: *mut u64,
        ) -> u64;
    }
}

/// What a function answered: 0 or the cause's number, and the word beside it.
#[derive(Debug, Clone, Copy, PartialEq, Eq)]
pub struct Told {
    pub number: u64,
    pub value: u64,
}

pub fn check(kind: u64, bytes: &[u8]) -> Told {
    let mut value = 0;
    let number = unsafe { exported::axcut_check(kind, bytes.as_ptr(), bytes.len(), &mut value) };
    Told { number, value }
}

pub fn list(records: &[u8], text: &mut [u8]) -> Told {
    let mut value = 0;
    let number = unsafe {
        exported::axcut_list(
            records.as_ptr(),
            records.len(),
            text.as_mut_ptr(),
            text.len(),
            &mut value,
        )
    };
    Told { number, value }
}

/// Sets registers and stack, by the state's edition and frame: 0, or 3 where the stack has not the
/// frame's words.
pub fn start(state: &mut State, fresh: bool) -> u64 {
    unsafe {
        exported::axcut_start(
            state.edition.number(),
            state.frame.number(),
            fresh,
            state.registers.as_mut_ptr(),
            state.stack.as_mut_ptr(),
            state.stack.len(),
        )
    }
}

/// What a run answered.
#[derive(Debug, Clone, Copy, PartialEq, Eq)]
pub struct Ran {
    pub number: u64,
    pub steps: u64,
    pub place: u64,
}

pub fn run(
    state: &mut State,
    records: &[u8],
    heap: &mut [u64],
    words: &[u64; 9],
    limit: u64,
) -> Ran {
    let (mut steps, mut place) = (0, 0);
    let number = unsafe {
        exported::axcut_run(
            state.edition.number(),
            state.frame.number(),
            records.as_ptr(),
            records.len(),
            state.registers.as_mut_ptr(),
            state.stack.as_mut_ptr(),
            state.stack.len(),
            heap.as_mut_ptr(),
            heap.len(),
            words.as_ptr(),
            limit,
            &mut steps,
            &mut place,
        )
    };
    Ran {
        number,
        steps,
        place,
    }
}

/// How many counts axcut_blocks gives.
pub const COUNTS: usize = 5;

/// The blocks on HEAP's list, lazily freed, held and never used, and the most reachable at once.
pub fn blocks(edition: Edition, registers: &[u64; REGISTERS], heap: &[u64]) -> [u64; COUNTS] {
    let mut counts = [0; COUNTS];
    let number = unsafe {
        exported::axcut_blocks(
            edition.number(),
            registers.as_ptr(),
            heap.as_ptr(),
            heap.len(),
            counts.as_mut_ptr(),
        )
    };
    debug_assert_eq!(number, 0, "the library has the edition");
    counts
}

/// What axcut_operation takes beside its output.
#[derive(Debug, Clone, Copy, Default)]
pub struct Operation {
    pub number: u64,
    pub operands: [u64; 3],
    pub label: u32,
    pub immediate: u64,
}

pub fn operation(frame: Frame, operation: &Operation, out: &mut [u8]) -> Told {
    let [first, second, third] = operation.operands;
    let mut value = 0;
    let number = unsafe {
        exported::axcut_operation(
            frame.number(),
            operation.number,
            first,
            second,
            third,
            operation.label,
            operation.immediate,
            out.as_mut_ptr(),
            out.len(),
            &mut value,
        )
    };
    Told { number, value }
}

/// What axcut_memory takes beside its counter and output.
#[derive(Debug, Clone, Copy, Default)]
pub struct Memory<'a> {
    pub number: u64,
    pub operand: u64,
    pub n: u64,
    pub context: &'a [u8],
    pub loaded: &'a [u8],
}

pub fn memory(
    edition: Edition,
    frame: Frame,
    memory: &Memory,
    counter: &mut u64,
    out: &mut [u8],
) -> Told {
    let mut value = 0;
    let number = unsafe {
        exported::axcut_memory(
            edition.number(),
            frame.number(),
            memory.number,
            memory.operand,
            memory.n,
            memory.context.as_ptr(),
            memory.context.len(),
            memory.loaded.as_ptr(),
            memory.loaded.len(),
            counter,
            out.as_mut_ptr(),
            out.len(),
            &mut value,
        )
    };
    Told { number, value }
}

pub fn print(frame: Frame, newline: bool, source: u64, context: &[u8], out: &mut [u8]) -> Told {
    let mut value = 0;
    let number = unsafe {
        exported::axcut_print(
            frame.number(),
            newline,
            source,
            context.as_ptr(),
            context.len(),
            out.as_mut_ptr(),
            out.len(),
            &mut value,
        )
    };
    Told { number, value }
}

pub fn routine(
    edition: Edition,
    frame: Frame,
    body: &[u8],
    arguments: usize,
    out: &mut [u8],
) -> Told {
    let mut value = 0;
    let number = unsafe {
        exported::axcut_routine(
            edition.number(),
            frame.number(),
            body.as_ptr(),
            body.len(),
            arguments,
            out.as_mut_ptr(),
            out.len(),
            &mut value,
        )
    };
    Told { number, value }
}

/// A query about variables, which stand alike in both editions.
pub fn query(frame: Frame, query: u64, second: bool, at: u64, id: u32, context: &[u8]) -> Told {
    let mut value = 0;
    let number = unsafe {
        exported::axcut_query(
            Edition::First.number(),
            frame.number(),
            query,
            second,
            at,
            id,
            context.as_ptr(),
            context.len(),
            &mut value,
        )
    };
    Told { number, value }
}

/// What axcut_order takes beside its counter and outputs.
#[derive(Debug, Clone, Copy, Default)]
pub struct Order<'a> {
    pub context: &'a [u8],
    pub order: &'a [u8],
    pub bindings: &'a [u8],
}

/// What axcut_order answered.
#[derive(Debug, Clone, Copy, PartialEq, Eq)]
pub struct Ordered {
    pub number: u64,
    pub value: u64,
    pub bindings: u64,
}

pub fn order(
    edition: Edition,
    frame: Frame,
    order: &Order,
    counter: &mut u64,
    records_out: &mut [u8],
    context_out: &mut [u8],
) -> Ordered {
    let (mut value, mut count) = (0, 0);
    let number = unsafe {
        exported::axcut_order(
            edition.number(),
            frame.number(),
            order.context.as_ptr(),
            order.context.len(),
            order.order.as_ptr(),
            order.order.len(),
            order.bindings.as_ptr(),
            order.bindings.len(),
            counter,
            records_out.as_mut_ptr(),
            records_out.len(),
            context_out.as_mut_ptr(),
            context_out.len(),
            &mut value,
            &mut count,
        )
    };
    Ordered {
        number,
        value,
        bindings: count,
    }
}
