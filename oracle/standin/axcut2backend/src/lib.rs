//! Stands in for the root of the crate `axcut2backend`, which was not supplied: three of its
//! modules are the published files, the others are stand-ins.

pub mod code;
pub mod coder;
pub mod utils;

#[rustfmt::skip]
#[path = "../../../target/published/lang/axcut2backend/src/config.rs"]
pub mod config;
#[rustfmt::skip]
#[path = "../../../target/published/lang/axcut2backend/src/fresh_labels.rs"]
pub mod fresh_labels;
#[rustfmt::skip]
#[path = "../../../target/published/lang/axcut2backend/src/memory.rs"]
pub mod memory;
