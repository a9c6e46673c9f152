//! Memory lent to the port as an output. It is filled with a pattern and has margins, so that
//! after the call one can see which bytes were written.

const MARGIN: usize = 64;

pub struct Lent {
    bytes: Vec<u8>,
}

impl Lent {
    pub fn new(room: usize) -> Lent {
        let bytes = (0..room + 2 * MARGIN).map(pattern).collect();
        Lent { bytes }
    }

    /// The output itself, without the margins.
    pub fn output(&mut self) -> &mut [u8] {
        let end = self.bytes.len() - MARGIN;
        &mut self.bytes[MARGIN..end]
    }

    /// The first bytes of the output, if all other bytes are as they were lent.
    pub fn written(&self, length: u64) -> Option<&[u8]> {
        let room = self.bytes.len() - 2 * MARGIN;
        let length = usize::try_from(length)
            .ok()
            .filter(|length| *length <= room)?;
        let written = MARGIN..MARGIN + length;
        let kept =
            |(index, byte): (usize, &u8)| written.contains(&index) || *byte == pattern(index);
        let undamaged = self.bytes.iter().enumerate().all(kept);
        undamaged.then(|| &self.bytes[written.clone()])
    }
}

/// Bytes without a short period, so that a constant or a shifted copy does not pass for them.
fn pattern(index: usize) -> u8 {
    ((index as u64).wrapping_mul(0x9E37_79B9_7F4A_7C15) >> 56) as u8
}

#[cfg(test)]
mod tests {
    use super::Lent;

    #[test]
    fn a_byte_past_the_written_ones_shows() {
        let mut lent = Lent::new(10);
        lent.output()[..3].copy_from_slice(b"abc");
        assert_eq!(lent.written(3), Some(&b"abc"[..]));
        assert_eq!(lent.written(2), None);
        assert_eq!(lent.written(11), None);
    }
}
