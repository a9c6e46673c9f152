//! Contexts as requests write them: kinds (`e3l`) and ids (`7,5*3`), kept as runs, since a count
//! may be far more than memory holds.

#[derive(Debug, Clone, Copy, PartialEq, Eq)]
pub enum Kind {
    Linked,
    Ext,
}

/// Items with the number of times that each stands in a row.
#[derive(Debug, Clone)]
pub struct Runs<T>(Vec<(T, u64)>);

pub type Kinds = Runs<Kind>;
pub type Ids = Runs<u64>;

impl<T: Copy> Runs<T> {
    pub fn each(items: &[T]) -> Runs<T> {
        Runs(items.iter().map(|item| (*item, 1)).collect())
    }

    /// How many items there are, or the most that 64 bits hold.
    pub fn length(&self) -> u64 {
        let counts = self.0.iter().map(|(_, count)| *count);
        counts.fold(0, u64::saturating_add)
    }

    /// The items one by one, or none if there are more than `most`.
    pub fn expand(&self, most: u64) -> Option<Vec<T>> {
        (self.length() <= most).then(|| self.first(most as usize).collect())
    }

    /// The items one by one, at most so many.
    pub fn first(&self, most: usize) -> impl Iterator<Item = T> {
        let runs = self.0.iter();
        runs.flat_map(|&(item, count)| std::iter::repeat_n(item, count as usize))
            .take(most)
    }
}

pub fn read_kinds(text: &str) -> Result<Kinds, String> {
    if text == "-" {
        return Ok(Runs(Vec::new()));
    }
    let mut runs = Vec::new();
    let mut rest = text;
    while let Some(letter) = rest.chars().next() {
        let kind = match letter {
            'e' => Kind::Ext,
            'l' => Kind::Linked,
            _ => return Err("a kind is e or l".to_string()),
        };
        rest = &rest[1..];
        let digits = rest.bytes().take_while(u8::is_ascii_digit).count();
        let count = match digits {
            0 => 1,
            _ => crate::parse::number(&rest[..digits])?,
        };
        runs.push((kind, count));
        rest = &rest[digits..];
    }
    Ok(Runs(runs))
}

pub fn read_ids(text: &str) -> Result<Ids, String> {
    if text == "-" {
        return Ok(Runs(Vec::new()));
    }
    let run = |item: &str| {
        let (id, count) = item.split_once('*').unwrap_or((item, "1"));
        Ok((crate::parse::number(id)?, crate::parse::number(count)?))
    };
    Ok(Runs(
        text.split(',').map(run).collect::<Result<_, String>>()?,
    ))
}
