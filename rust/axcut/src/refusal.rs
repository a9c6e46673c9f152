//! Why an input is refused.

use std::fmt;

/// The causes, by the scope's numbers.
#[derive(Debug, Clone, Copy, PartialEq, Eq)]
#[repr(u64)]
pub enum Cause {
    /// Malformed instruction or order, too many, or a heap of the wrong size.
    Malformed = 2,
    /// An operand or label that may not be given, or a stack that has not the frame's words.
    Operand = 3,
    /// Id or place not in the context, or more to store than there are variables.
    Missing = 4,
    /// A variable of the wrong kind for the order.
    Kind = 5,
    /// More than 5 arguments.
    Arguments = 6,
    /// Share count or a copy's number above 2^31 - 1.
    Count = 7,
    /// Position above the frame's last needed: 266, or 522.
    Position = 8,
    /// Counter plus labels needed above 2^31 - 1.
    Labels = 9,
    /// Output too short.
    Room = 10,
    /// Machine fault within the limit.
    Fault = 11,
    /// Step limit reached before the end.
    Limit = 12,
    /// A context, or bindings, not of whole records, or of more than 4,096.
    ContextLength = 15,
    /// The first bad binding's mark.
    BindingMark = 16,
    /// The first bad binding's kind or zero byte.
    BindingKind = 17,
    /// An edition other than 1 or 2; checked before every other cause.
    Edition = 23,
}

const CAUSES: [(Cause, &str); 15] = [
    (
        Cause::Malformed,
        "malformed record, or a heap of the wrong size",
    ),
    (
        Cause::Operand,
        "operand, label or stack that may not be given",
    ),
    (Cause::Missing, "no such variable in the context"),
    (Cause::Kind, "variable of the wrong kind"),
    (Cause::Arguments, "more than 5 arguments"),
    (Cause::Count, "count above 2^31 - 1"),
    (Cause::Position, "position above the frame's last needed"),
    (Cause::Labels, "labels above 2^31 - 1 needed"),
    (Cause::Room, "output too short"),
    (Cause::Fault, "machine fault"),
    (Cause::Limit, "step limit reached"),
    (
        Cause::ContextLength,
        "bindings that are not whole, or more than 4096",
    ),
    (Cause::BindingMark, "its mark is not A7 01"),
    (
        Cause::BindingKind,
        "its kind is neither 0 nor 1, or its zero byte is not 0",
    ),
    (Cause::Edition, "no such edition"),
];

/// A refusal: nothing was written, and no label was drawn.
#[derive(Debug, Clone, Copy, PartialEq, Eq)]
pub struct Refusal {
    /// 2 to 12, 15 to 17, or 23.
    pub number: u64,
    /// The bytes needed (10), the steps done (11) or the limit (12); else 0.
    pub value: u64,
    /// The record's place, from 1 (2, 11), or 0 for a heap of the wrong size; the first bad binding's, from 1
    /// (16, 17), where those of bindings, or of variables to load, count on from the context's; else 0.
    pub place: u64,
}

impl Refusal {
    pub(crate) fn new(cause: Cause, value: u64, place: u64) -> Refusal {
        Refusal {
            number: cause as u64,
            value,
            place,
        }
    }

    /// A refusal by number with the one word beside it: a place for 2 and 15 to 17, else a value.
    pub(crate) fn told(number: u64, word: u64) -> Refusal {
        match number {
            2 | 15..=17 => Refusal {
                number,
                value: 0,
                place: word,
            },
            _ => Refusal {
                number,
                value: word,
                place: 0,
            },
        }
    }

    /// The number as a cause.
    pub fn cause(&self) -> Option<Cause> {
        self.row().map(|(cause, _)| *cause)
    }

    /// The cause in words.
    pub fn words(&self) -> &'static str {
        self.row().map_or("unknown cause", |(_, words)| words)
    }

    fn row(&self) -> Option<&'static (Cause, &'static str)> {
        CAUSES
            .iter()
            .find(|(cause, _)| *cause as u64 == self.number)
    }
}

impl fmt::Display for Refusal {
    fn fmt(&self, f: &mut fmt::Formatter) -> fmt::Result {
        write!(f, "refused with {}: ", self.number)?;
        if let Some(Cause::BindingMark | Cause::BindingKind) = self.cause() {
            write!(f, "binding {}: ", self.place)?;
        }
        f.write_str(self.words())
    }
}

impl std::error::Error for Refusal {}

#[cfg(test)]
mod tests {
    use super::{Cause, Refusal};

    #[test]
    fn a_number_has_its_cause_and_words() {
        let refusal = Refusal::told(10, 48);
        assert_eq!(refusal.cause(), Some(Cause::Room));
        assert_eq!((refusal.value, refusal.place), (48, 0));
        assert_eq!(refusal.to_string(), "refused with 10: output too short");
        assert_eq!(Refusal::told(2, 3).place, 3);
        let refusal = Refusal::told(23, 0);
        assert_eq!(refusal.cause(), Some(Cause::Edition));
        assert_eq!(refusal.to_string(), "refused with 23: no such edition");
        assert_eq!(Refusal::told(1, 0).cause(), None);
        assert_eq!(Refusal::told(13, 0).cause(), None);
    }

    #[test]
    fn a_bad_binding_is_named_by_its_place() {
        let refusal = Refusal::told(15, 0);
        assert_eq!(refusal.cause(), Some(Cause::ContextLength));
        assert_eq!(
            refusal.to_string(),
            "refused with 15: bindings that are not whole, or more than 4096"
        );
        let refusal = Refusal::told(16, 7);
        assert_eq!(refusal.cause(), Some(Cause::BindingMark));
        assert_eq!((refusal.value, refusal.place), (0, 7));
        assert_eq!(
            refusal.to_string(),
            "refused with 16: binding 7: its mark is not A7 01"
        );
        assert_eq!(
            Refusal::told(17, 100).to_string(),
            "refused with 17: binding 100: its kind is neither 0 nor 1, or its zero byte is not 0"
        );
    }
}
