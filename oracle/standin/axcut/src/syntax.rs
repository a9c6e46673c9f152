//! Stands in for `axcut::syntax`: variables and typing contexts, with the fields and conversions
//! that the published files use. Types and names of variables are left out, as no code is
//! generated from them.

/// The number by which variables are told apart.
pub type ID = usize;

/// A variable, by its number alone.
#[derive(Debug, Clone)]
pub struct Identifier {
    pub id: ID,
}

/// Whether a variable is a producer, a consumer, or of an external type like integers.
#[derive(Debug, Clone, Copy, PartialEq, Eq)]
pub enum Chirality {
    Prd,
    Cns,
    Ext,
}

/// A variable in a context.
#[derive(Debug, Clone)]
pub struct ContextBinding {
    pub var: Identifier,
    pub chi: Chirality,
}

/// The variables that are live, from left to right.
#[derive(Debug, Clone)]
pub struct TypingContext {
    pub bindings: Vec<ContextBinding>,
}

impl From<Vec<ContextBinding>> for TypingContext {
    fn from(bindings: Vec<ContextBinding>) -> Self {
        TypingContext { bindings }
    }
}
