//! Stands in for the root of the crate `axcut2x86_64`. The published `lib.rs` also names the
//! module `parallel_moves`, which was not supplied; all modules here are the published files, but
//! for a line of `config.rs` where a block has 7 fields and one where the frame has 512 spills.

#[rustfmt::skip]
#[path = "../../../target/published/lang/axcut2x86_64/src/code.rs"]
pub mod code;
#[rustfmt::skip]
#[cfg_attr(not(any(feature = "fields_7", feature = "spills_512")), path = "../../../target/published/lang/axcut2x86_64/src/config.rs")]
#[cfg_attr(all(not(feature = "fields_7"), feature = "spills_512"), path = "../../../target/published_3_512/lang/axcut2x86_64/src/config.rs")]
#[cfg_attr(all(feature = "fields_7", not(feature = "spills_512")), path = "../../../target/published_7_256/lang/axcut2x86_64/src/config.rs")]
#[cfg_attr(all(feature = "fields_7", feature = "spills_512"), path = "../../../target/published_7_512/lang/axcut2x86_64/src/config.rs")]
pub mod config;
#[rustfmt::skip]
#[path = "../../../target/published/lang/axcut2x86_64/src/into_routine.rs"]
pub mod into_routine;
#[rustfmt::skip]
#[path = "../../../target/published/lang/axcut2x86_64/src/memory.rs"]
pub mod memory;
#[rustfmt::skip]
#[path = "../../../target/published/lang/axcut2x86_64/src/utils.rs"]
pub mod utils;

/// The back end: the type on which the published files implement their traits.
pub struct Backend;
