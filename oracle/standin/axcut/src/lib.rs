//! Stands in for the crate `axcut`, which was not supplied: the intermediate language whose
//! programs the back end translates. Only its syntax of contexts is used here.

pub mod syntax;
