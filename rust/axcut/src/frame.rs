//! How many spills a routine or a channel has.

use crate::edition::Edition;
use crate::order::BINDING_SIZE;

/// The frame of a routine or a channel, throughout. The default has 256 spills.
#[derive(Debug, Clone, Copy, PartialEq, Eq, Default)]
pub enum Frame {
    /// 256 spills: room for 133 variables.
    #[default]
    Of256,
    /// 512 spills: room for 261 variables.
    Of512,
}

impl Frame {
    /// 256 or 512.
    pub const fn spills(self) -> usize {
        match self {
            Frame::Of256 => 256,
            Frame::Of512 => 512,
        }
    }

    /// Words of the machine's stack: 320 or 576.
    pub const fn stack_words(self) -> usize {
        self.spills() + 64
    }

    /// The most variables that orders can reach from the empty context: 133 or 261.
    pub const fn most_variables(self) -> usize {
        (self.spills() + 11) / 2
    }

    /// The number by which the library knows it.
    pub(crate) const fn number(self) -> u64 {
        self.spills() as u64
    }

    /// Bytes that are enough for the records of every order on a context that orders reach: proved,
    /// `orders_fit` and `rooms_by_shape`.
    pub(crate) const fn records_room(self, edition: Edition) -> usize {
        match (edition, self) {
            (Edition::First, Frame::Of256) => 102_624,
            (Edition::First, Frame::Of512) => 202_464,
            (Edition::Second, Frame::Of256) => 67_872,
            (Edition::Second, Frame::Of512) => 135_648,
        }
    }

    /// Bytes that are enough for the context after it: `orders_fit` too.
    pub(crate) const fn context_room(self) -> usize {
        BINDING_SIZE * self.most_variables()
    }
}

#[cfg(test)]
mod tests {
    use super::{Edition, Frame};

    #[test]
    fn sizes_are_the_headers() {
        let sizes = |frame: Frame| {
            [
                frame.stack_words(),
                frame.most_variables(),
                frame.records_room(Edition::First),
                frame.records_room(Edition::Second),
                frame.context_room(),
            ]
        };
        assert_eq!(Frame::default(), Frame::Of256);
        assert_eq!(sizes(Frame::Of256), [320, 133, 102_624, 67_872, 1_064]);
        assert_eq!(sizes(Frame::Of512), [576, 261, 202_464, 135_648, 2_088]);
    }
}
