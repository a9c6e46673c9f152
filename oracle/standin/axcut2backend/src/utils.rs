//! Stands in for `axcut2backend::utils`, which was not supplied: the trait that the published
//! `utils.rs` implements.

use crate::config::TemporaryNumber;
use axcut::syntax::{ID, TypingContext};

/// Where variables live.
pub trait Utils<Temporary> {
    fn variable_temporary(
        number: TemporaryNumber,
        context: &TypingContext,
        variable_id: ID,
    ) -> Temporary;
    fn fresh_temporary(number: TemporaryNumber, context: &TypingContext) -> Temporary;
}
