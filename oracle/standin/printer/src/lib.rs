//! Stands in for the crate `printer`, which was not supplied. Printing is inert: the text of
//! instructions is outside the port's scope, so every document is empty. The names of the two
//! runtime functions are what counts.

use std::marker::PhantomData;

/// Settings of the printer: none.
pub struct PrintCfg;

/// The allocator of documents.
pub struct Alloc<'a>(PhantomData<&'a ()>);

/// A document under construction, always empty.
pub struct Builder<'a>(PhantomData<&'a ()>);

impl Builder<'_> {
    pub fn append<T>(self, _part: T) -> Self {
        self
    }
}

/// What can be printed.
pub trait Print {
    fn print<'a>(&'a self, cfg: &PrintCfg, alloc: &'a Alloc<'a>) -> Builder<'a>;
}

/// Documents of plain text and white space.
pub trait DocAllocator<'a> {
    fn text(&'a self, text: &str) -> Builder<'a>;
    fn space(&'a self) -> Builder<'a>;
    fn hardline(&'a self) -> Builder<'a>;
}

impl<'a> DocAllocator<'a> for Alloc<'a> {
    fn text(&'a self, _text: &str) -> Builder<'a> {
        Builder(PhantomData)
    }

    fn space(&'a self) -> Builder<'a> {
        Builder(PhantomData)
    }

    fn hardline(&'a self) -> Builder<'a> {
        Builder(PhantomData)
    }
}

/// Documents with colours.
pub mod theme {
    use super::{Alloc, Builder};
    use std::marker::PhantomData;

    pub trait ThemeExt<'a> {
        fn keyword(&'a self, text: &str) -> Builder<'a>;
        fn ctor(&'a self, text: &str) -> Builder<'a>;
        fn typ(&'a self, text: &str) -> Builder<'a>;
        fn comment(&'a self, text: &str) -> Builder<'a>;
    }

    impl<'a> ThemeExt<'a> for Alloc<'a> {
        fn keyword(&'a self, _text: &str) -> Builder<'a> {
            Builder(PhantomData)
        }

        fn ctor(&'a self, _text: &str) -> Builder<'a> {
            Builder(PhantomData)
        }

        fn typ(&'a self, _text: &str) -> Builder<'a> {
            Builder(PhantomData)
        }

        fn comment(&'a self, _text: &str) -> Builder<'a> {
            Builder(PhantomData)
        }
    }
}

/// Fixed pieces of text.
pub mod tokens {
    pub const COLON: &str = ":";
    pub const COMMA: &str = ",";
    pub const PLUS: &str = "+";
    pub const PRINT_I64: &str = "print_i64";
    pub const PRINTLN_I64: &str = "println_i64";
}
