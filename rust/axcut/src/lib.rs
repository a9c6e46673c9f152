//! Safe functions over the proved AxCut x86-64 back end (`libport.a`).
//!
//! [`Channel`] puts orders to the library and runs their records; [`emit`] writes the records of
//! operations and routines; [`check`] and [`list`] look at bytes. A channel or a routine has an
//! [`Edition`], with blocks of 3 or 7 fields, and a [`Frame`] of 256 or 512 spills.
//! `include/axcut.h` says what each exported function does, `docs/LIBRARY.md` what a gateway lends
//! and owes.

#![deny(unsafe_code)]
#![warn(missing_docs)]

mod channel;
mod checking;
mod edition;
pub mod emit;
#[allow(unsafe_code)]
mod ffi;
mod frame;
mod machine;
mod order;
mod refusal;

pub use channel::{Accepted, Blocks, Channel, Print, Variable};
pub use checking::{check, list, Form};
pub use edition::Edition;
pub use frame::Frame;
pub use machine::{State, MOST_BLOCKS};
pub use order::{Arithmetic, Binding, Kind, Order, BINDING_SIZE, ORDER_SIZE};
pub use refusal::{Cause, Refusal};

/// Bytes of an instruction record.
pub const RECORD_SIZE: usize = 24;
