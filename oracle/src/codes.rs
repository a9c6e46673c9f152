//! The 44 instruction codes: the variants of the published `enum Code`, in its order and without
//! COMMENT. A code's number is its place, from 1.

/// A variant's name, and what it uses of its record: registers `a` and `b`, `l` label, `o` offset,
/// `v` value.
pub struct Form {
    pub name: &'static str,
    /// A bit for each of `FIELDS`.
    uses: u8,
}

const FIELDS: &[u8; 5] = b"ablov";

impl Form {
    #[inline]
    pub fn uses(&self, field: char) -> bool {
        let place = FIELDS.iter().position(|known| char::from(*known) == field);
        place.is_some_and(|place| self.uses >> place & 1 == 1)
    }
}

/// The form of a code, if the number is one.
#[inline]
pub fn form(code: u8) -> Option<&'static Form> {
    FORMS.get(usize::from(code).checked_sub(1)?)
}

const fn row(name: &'static str, fields: &'static str) -> Form {
    let mut uses = 0;
    let mut at = 0;
    while at < fields.len() {
        let mut place = 0;
        while FIELDS[place] != fields.as_bytes()[at] {
            place += 1;
        }
        uses |= 1 << place;
        at += 1;
    }
    Form { name, uses }
}

/// Makes the table of forms and an enum of the same names from one list.
macro_rules! codes {
    ($($name:ident $uses:literal,)*) => {
        #[derive(Debug, Clone, Copy, PartialEq, Eq)]
        #[allow(clippy::upper_case_acronyms)]
        pub enum Code {
            $($name,)*
        }

        pub const FORMS: [Form; 44] = [$(row(stringify!($name), $uses),)*];

        pub const CODES: [Code; 44] = [$(Code::$name,)*];
    };
}

codes! {
    ADD "ab",
    ADDRM "abo",
    ADDMR "abo",
    ADDI "av",
    ADDIM "aov",
    SUB "ab",
    SUBRM "abo",
    SUBMR "abo",
    SUBI "av",
    IMUL "ab",
    IMULRM "abo",
    IMULMR "abo",
    IDIV "a",
    IDIVM "ao",
    CQO "",
    JMP "a",
    JMPL "l",
    JMPLN "l",
    LEAL "al",
    MOV "ab",
    MOVS "abo",
    MOVL "abo",
    MOVI "av",
    MOVIM "aov",
    CMP "ab",
    CMPRM "abo",
    CMPMR "abo",
    CMPI "av",
    CMPIM "aov",
    JEL "l",
    JNEL "l",
    JLL "l",
    JLEL "l",
    JGL "l",
    JGEL "l",
    PUSH "a",
    POP "a",
    CALL "l",
    RET "",
    LAB "l",
    NOEXECSTACK "",
    TEXT "",
    GLOBAL "l",
    EXTERN "l",
}

impl Code {
    /// The number in the record.
    pub const fn number(self) -> u8 {
        self as u8 + 1
    }
}

#[cfg(test)]
mod tests {
    use super::{FIELDS, FORMS};

    const PUBLISHED: &str = include_str!("../target/published/lang/axcut2x86_64/src/code.rs");

    /// The variants of the published enum, as (name, types of the fields).
    fn published_variants() -> Vec<(&'static str, &'static str)> {
        let (_, body) = PUBLISHED.split_once("pub enum Code {").unwrap();
        let (body, _) = body.split_once("\n}").unwrap();
        body.lines()
            .map(|line| line.trim().trim_end_matches(','))
            .filter(|line| !line.is_empty() && !line.starts_with("///"))
            .map(|line| line.split_once('(').unwrap_or((line, "")))
            .map(|(name, fields)| (name, fields.trim_end_matches(')')))
            .collect()
    }

    /// How the scope puts a variant's fields into a record: a lone immediate beside one register
    /// is the value, but for IDIVM, which reads memory; any other first immediate is an offset.
    fn uses(name: &str, fields: &str) -> String {
        let types: Vec<&str> = fields.split(", ").collect();
        let count = |wanted: &str| types.iter().filter(|found| **found == wanted).count();
        let immediates = match (count("Immediate"), count("Register")) {
            (1, 1) if name != "IDIVM" => "v",
            (1, _) => "o",
            (2, _) => "ov",
            _ => "",
        };
        let label = if count("String") == 1 { "l" } else { "" };
        format!("{}{label}{immediates}", &"ab"[..count("Register")])
    }

    #[test]
    fn forms_are_the_published_variants() {
        let variants = published_variants();
        assert_eq!(variants.len(), 45);
        assert_eq!(variants[44].0, "COMMENT");
        for (form, (name, fields)) in FORMS.iter().zip(&variants) {
            assert_eq!(form.name, *name);
            let used = FIELDS.iter().map(|field| char::from(*field));
            let used: String = used.filter(|field| form.uses(*field)).collect();
            assert_eq!(used, uses(name, fields), "{name}");
        }
    }
}
