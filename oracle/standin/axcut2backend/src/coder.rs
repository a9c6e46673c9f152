//! Stands in for `axcut2backend::coder`. The published file also translates whole programs and
//! needs modules that were not supplied; only the type that `into_routine.rs` takes and returns is
//! here, with the fields of the published one.

/// An assembly program together with the number of command-line arguments it takes.
pub struct AssemblyProg<Code> {
    pub instructions: Vec<Code>,
    pub number_of_arguments: usize,
}
