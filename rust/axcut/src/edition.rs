//! How many fields a block has.

/// The edition of a routine or a channel, throughout. The default is the first.
#[derive(Debug, Clone, Copy, PartialEq, Eq, Default)]
pub enum Edition {
    /// Blocks of 3 fields: 64 bytes.
    #[default]
    First,
    /// Blocks of 7 fields: 128 bytes.
    Second,
}

impl Edition {
    /// 1 or 2, by which the library knows it.
    pub const fn number(self) -> u64 {
        match self {
            Edition::First => 1,
            Edition::Second => 2,
        }
    }

    /// Fields of a block: 3 or 7.
    pub const fn fields(self) -> usize {
        match self {
            Edition::First => 3,
            Edition::Second => 7,
        }
    }

    /// Words of a block: 8 or 16.
    pub const fn block_words(self) -> usize {
        2 + 2 * self.fields()
    }

    /// Bytes of a block: 64 or 128.
    pub const fn block_bytes(self) -> usize {
        8 * self.block_words()
    }

    /// Blocks before the last one of an object of so many variables: the last holds as many as it
    /// has fields, each other one fewer.
    const fn other_blocks(self, variables: usize) -> usize {
        variables
            .saturating_sub(self.fields())
            .div_ceil(self.fields() - 1)
    }

    /// The most records of a store of so many variables, as the header's `axcut_room_for_store`.
    pub const fn store_records(self, variables: usize) -> usize {
        let fields = self.fields();
        16 * fields + 19 + (16 * fields + 17) * self.other_blocks(variables)
    }

    /// The most records of a load of so many variables, as the header's `axcut_room_for_load`.
    pub const fn load_records(self, variables: usize) -> usize {
        let fields = self.fields();
        12 * fields + 15 + (12 * fields - 4) * self.other_blocks(variables)
    }
}

#[cfg(test)]
mod tests {
    use super::Edition;

    #[test]
    fn blocks_are_the_headers() {
        let sizes = |edition: Edition| {
            [
                edition.fields(),
                edition.block_words(),
                edition.block_bytes(),
            ]
        };
        assert_eq!(Edition::default(), Edition::First);
        let numbers = [Edition::First, Edition::Second].map(Edition::number);
        assert_eq!(numbers, [1, 2]);
        assert_eq!(sizes(Edition::First), [3, 8, 64]);
        assert_eq!(sizes(Edition::Second), [7, 16, 128]);
    }
}
