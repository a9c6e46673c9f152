//! Answers requests by the published Rust: with 3 fields and 256 spills by the files as they are, in
//! the other shapes by the same files with FIELDS_PER_BLOCK or SPILL_NUM changed. One driver is
//! compiled for each of the four crates.

use crate::answer::Answer;
use crate::context::{Ids, Kind, Kinds};
use crate::request::{Number, Request};
use crate::shape::Chosen;
use axcut::syntax::{Chirality, ContextBinding, Identifier, TypingContext};
use axcut2backend::config::TemporaryNumber;
use std::any::Any;
use std::panic::{AssertUnwindSafe, catch_unwind};
use std::sync::atomic::{AtomicBool, Ordering};
use std::sync::{Mutex, PoisonError};

#[path = "rust_side"]
pub mod shape_3_256 {
    use axcut2x86_64 as published;
    mod conversion;
    pub mod driver;
    mod prepared;
}

#[path = "rust_side"]
#[allow(clippy::duplicate_mod)]
pub mod shape_3_512 {
    use axcut2x86_64_3_512 as published;
    mod conversion;
    pub mod driver;
    mod prepared;
}

#[path = "rust_side"]
#[allow(clippy::duplicate_mod)]
pub mod shape_7_256 {
    use axcut2x86_64_7_256 as published;
    mod conversion;
    pub mod driver;
    mod prepared;
}

#[path = "rust_side"]
#[allow(clippy::duplicate_mod)]
pub mod shape_7_512 {
    use axcut2x86_64_7_512 as published;
    mod conversion;
    pub mod driver;
    mod prepared;
}

/// What an expression over the driver of a shape gives.
macro_rules! by_driver {
    ($shape:expr, $driver:ident => $expression:expr) => {{
        use crate::rust_side::{shape_3_256, shape_3_512, shape_7_256, shape_7_512};
        use crate::shape::{Edition, Frame, Shape};
        let Shape { edition, frame } = $shape;
        match (edition, frame) {
            (Edition::First, Frame::Base) => {
                use shape_3_256::driver as $driver;
                $expression
            }
            (Edition::First, Frame::Larger) => {
                use shape_3_512::driver as $driver;
                $expression
            }
            (Edition::Second, Frame::Base) => {
                use shape_7_256::driver as $driver;
                $expression
            }
            (Edition::Second, Frame::Larger) => {
                use shape_7_512::driver as $driver;
                $expression
            }
        }
    }};
}

pub(crate) use by_driver;

/// The longest context and the most records that this driver builds. The Rust has no such limits,
/// but memory has.
const MOST: u64 = 1 << 20;

/// The most variables that this driver loads: `load_fields` keeps two copies of the context for
/// each block.
const MOST_LOADED: u64 = 1 << 13;

/// Why a request has no answer.
pub enum Failure {
    Malformed(String),
    Panic(u64),
    Exceeded(u64),
}

type Result<T> = std::result::Result<T, Failure>;

/// Whether a piece of the Rust runs, whose panics are answers.
static RUNNING: AtomicBool = AtomicBool::new(false);

/// Held while a request is answered: the Rust's label counter is one for all threads.
static ANSWERING: Mutex<()> = Mutex::new(());

/// Keeps the messages of the Rust's panics off the standard error; the driver's own are shown.
pub fn silence_panics() {
    let show = std::panic::take_hook();
    std::panic::set_hook(Box::new(move |panic| {
        if !RUNNING.load(Ordering::Relaxed) {
            show(panic);
        }
    }));
}

pub fn answer(chosen: Chosen, request: &Request) -> Answer {
    let _answering = ANSWERING.lock().unwrap_or_else(PoisonError::into_inner);
    let answer = match chosen.shape() {
        Some(shape) => by_driver!(shape, driver => driver::answer(request)),
        None => malformed("the Rust has editions 1 and 2 and frames of 256 and 512 spills alone"),
    };
    answer.unwrap_or_else(|failure| match failure {
        Failure::Malformed(reason) => Answer::Malformed(reason),
        Failure::Panic(number) => Answer::Panic(number),
        Failure::Exceeded(labels) => Answer::Exceeded(labels),
    })
}

fn malformed<T>(reason: impl Into<String>) -> Result<T> {
    Err(Failure::Malformed(reason.into()))
}

/// How the messages of the Rust's panics begin, and the scope's number for what each is about.
const PANICS: [(&str, u64); 4] = [
    ("Variable ", 4),
    ("too many arguments for main", 6),
    ("function calls can use 6 argument registers at most", 6),
    ("Out of temporaries", 8),
];

/// The number for a panic of the Rust. Any other panic is the driver's own.
fn number_of(panic: &(dyn Any + Send)) -> u64 {
    let message = match panic.downcast_ref::<String>() {
        Some(message) => message,
        None => panic.downcast_ref::<&str>().copied().unwrap_or_default(),
    };
    let known = PANICS.iter().find(|(begin, _)| message.starts_with(begin));
    known.expect(message).1
}

/// Runs a piece of the Rust, with a panic as a failure.
fn caught<T>(run: impl FnOnce() -> Result<T>) -> Result<T> {
    RUNNING.store(true, Ordering::Relaxed);
    let result = catch_unwind(AssertUnwindSafe(run));
    RUNNING.store(false, Ordering::Relaxed);
    result.unwrap_or_else(|panic| Err(Failure::Panic(number_of(&*panic))))
}

fn number(which: Number) -> TemporaryNumber {
    match which {
        Number::Fst => TemporaryNumber::Fst,
        Number::Snd => TemporaryNumber::Snd,
    }
}

/// How the drivers write a label into a `Code`: its number, which no fresh label's text is.
fn label_text(number: u64) -> String {
    number.to_string()
}

fn label(number: u64) -> Result<String> {
    match u32::try_from(number) {
        Ok(_) => Ok(label_text(number)),
        Err(_) => malformed("no record holds this label"),
    }
}

/// A context of the given kinds, with ids that are places.
fn context(kinds: &Kinds, most: u64) -> Result<TypingContext> {
    let Some(kinds) = kinds.expand(most) else {
        return malformed("a longer context than this driver builds");
    };
    let numbered = kinds.iter().enumerate();
    let bindings: Vec<_> = numbered.map(|(id, kind)| binding(*kind, id)).collect();
    Ok(bindings.into())
}

/// A context of the given ids; kinds do not matter to its use.
fn variables(ids: &Ids) -> Result<TypingContext> {
    let Some(ids) = ids.expand(MOST) else {
        return malformed("a longer context than this driver builds");
    };
    let bindings: Vec<_> = ids
        .iter()
        .map(|id| binding(Kind::Ext, *id as usize))
        .collect();
    Ok(bindings.into())
}

fn binding(kind: Kind, id: usize) -> ContextBinding {
    ContextBinding {
        var: Identifier { id },
        chi: match kind {
            Kind::Linked => Chirality::Prd,
            Kind::Ext => Chirality::Ext,
        },
    }
}
