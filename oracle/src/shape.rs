//! The shape of a routine: its edition, which gives a block its fields, and its frame, which gives it
//! its spills; and what follows from them.

use crate::orders::BINDING;
use crate::reading::MOST_RECORDS;
use crate::record::SIZE;

/// The bytes that are enough for every routine.
pub const ROOM_FOR_ROUTINE: usize = MOST_RECORDS * SIZE;

#[derive(Debug, Clone, Copy, PartialEq, Eq)]
pub enum Edition {
    First,
    Second,
}

pub const EDITIONS: [Edition; 2] = [Edition::First, Edition::Second];

/// Numbers that no edition has.
pub const OTHER_EDITIONS: [u64; 6] = [0, 3, 7, 256, 1 << 32 | 1, u64::MAX];

impl Edition {
    /// The edition of a number, if there is one.
    pub fn of(number: u64) -> Option<Edition> {
        EDITIONS
            .into_iter()
            .find(|edition| edition.number() == number)
    }

    /// The number that chooses it.
    pub const fn number(self) -> u64 {
        match self {
            Edition::First => 1,
            Edition::Second => 2,
        }
    }

    /// The fields of a block, the last of which is the link in all blocks of an object but the last.
    pub const fn fields(self) -> usize {
        match self {
            Edition::First => 3,
            Edition::Second => 7,
        }
    }

    /// The words of a block: 8 or 16. Two come before its fields.
    pub const fn block_words(self) -> usize {
        2 + 2 * self.fields()
    }

    pub const fn block_bytes(self) -> u64 {
        8 * self.block_words() as u64
    }

    /// How many blocks an object of so many variables has: its last holds as many as there are
    /// fields, each other one fewer.
    pub const fn blocks_of(self, variables: usize) -> usize {
        match variables {
            0 => 0,
            _ => {
                1 + variables
                    .saturating_sub(self.fields())
                    .div_ceil(self.fields() - 1)
            }
        }
    }
}

#[derive(Debug, Clone, Copy, PartialEq, Eq)]
pub enum Frame {
    Base,
    Larger,
}

pub const FRAMES: [Frame; 2] = [Frame::Base, Frame::Larger];

/// Numbers that no frame has.
pub const OTHER_FRAMES: [u64; 9] = [0, 1, 255, 257, 511, 513, 1_024, 1 << 32 | 256, u64::MAX];

impl Frame {
    /// The frame of so many spills, if there is one.
    pub fn of(number: u64) -> Option<Frame> {
        FRAMES.into_iter().find(|frame| frame.number() == number)
    }

    /// The number that chooses it.
    pub const fn number(self) -> u64 {
        self.spills() as u64
    }

    pub const fn spills(self) -> usize {
        match self {
            Frame::Base => 256,
            Frame::Larger => 512,
        }
    }

    /// Twelve registers, and every spill but the first: 267 or 523.
    pub const fn positions(self) -> usize {
        12 + self.spills() - 1
    }

    /// As many variables as have both their positions: 133 or 261.
    pub const fn most_variables(self) -> usize {
        self.positions() / 2
    }

    /// The bytes that are enough for the context after every order of a channel: 1,064 or 2,088.
    pub const fn room_for_context(self) -> usize {
        self.most_variables() * BINDING
    }

    /// The words of the machine's stack: 320 or 576.
    pub const fn stack_words(self) -> usize {
        self.spills() + 64
    }
}

#[derive(Debug, Clone, Copy, PartialEq, Eq)]
pub struct Shape {
    pub edition: Edition,
    pub frame: Frame,
}

pub const SHAPES: [Shape; 4] = [
    Shape::new(Edition::First, Frame::Base),
    Shape::new(Edition::First, Frame::Larger),
    Shape::new(Edition::Second, Frame::Base),
    Shape::new(Edition::Second, Frame::Larger),
];

impl Shape {
    /// What a request has that chooses none.
    pub const BASE: Shape = SHAPES[0];

    pub const fn new(edition: Edition, frame: Frame) -> Shape {
        Shape { edition, frame }
    }

    /// The bytes that are enough for the records of every operation and of every order of a
    /// channel, as `include/axcut.h` has them.
    pub const fn room_for_records(self) -> usize {
        match (self.edition, self.frame) {
            (Edition::First, Frame::Base) => 102_624,
            (Edition::First, Frame::Larger) => 202_464,
            (Edition::Second, Frame::Base) => 67_872,
            (Edition::Second, Frame::Larger) => 135_648,
        }
    }

    pub const fn chosen(self) -> Chosen {
        Chosen {
            edition: self.edition.number(),
            frame: self.frame.number(),
        }
    }
}

/// The numbers by which a shape is chosen; any numbers.
#[derive(Debug, Clone, Copy, PartialEq, Eq)]
pub struct Chosen {
    pub edition: u64,
    pub frame: u64,
}

impl Chosen {
    pub fn edition(self) -> Option<Edition> {
        Edition::of(self.edition)
    }

    pub fn frame(self) -> Option<Frame> {
        Frame::of(self.frame)
    }

    /// The shape, if there is such an edition and such a frame.
    pub fn shape(self) -> Option<Shape> {
        Some(Shape::new(self.edition()?, self.frame()?))
    }

    /// The shape, with the first edition or the frame of 256 spills where there is none of the
    /// number.
    pub fn nearest(self) -> Shape {
        let Shape { edition, frame } = Shape::BASE;
        Shape::new(
            self.edition().unwrap_or(edition),
            self.frame().unwrap_or(frame),
        )
    }
}

/// How a request's prefixes write it; what they need not say is left out.
impl std::fmt::Display for Chosen {
    fn fmt(&self, f: &mut std::fmt::Formatter) -> std::fmt::Result {
        let base = Shape::BASE.chosen();
        if self.edition != base.edition {
            write!(f, "edition {} ", self.edition)?;
        }
        if self.frame != base.frame {
            write!(f, "frame {} ", self.frame)?;
        }
        Ok(())
    }
}
