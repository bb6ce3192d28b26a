//! 256 marks in four words: mark i is bit i % 64 of word i / 64.

#[derive(Clone, Copy, Default, PartialEq, Eq)]
pub struct Words(pub [u64; 4]);

impl Words {
    /// Every mark below n, which is at most 256.
    pub fn below(n: usize) -> Self {
        Self(std::array::from_fn(|word| {
            match n.saturating_sub(64 * word) {
                0 => 0,
                count @ 1..64 => (1 << count) - 1,
                _ => u64::MAX,
            }
        }))
    }

    pub fn has(self, mark: u8) -> bool {
        self.0[usize::from(mark) / 64] >> (mark % 64) & 1 == 1
    }

    pub fn with(mut self, mark: u8) -> Self {
        self.0[usize::from(mark) / 64] |= 1 << (mark % 64);
        self
    }

    pub fn and(self, other: Self) -> Self {
        Self(std::array::from_fn(|word| self.0[word] & other.0[word]))
    }

    pub fn minus(self, other: Self) -> Self {
        Self(std::array::from_fn(|word| self.0[word] & !other.0[word]))
    }

    pub fn is_none(self) -> bool {
        self.0 == [0; 4]
    }

    /// Marks 0 to `last` are all set.
    pub fn full_to(self, last: u8) -> bool {
        Self::below(usize::from(last) + 1).minus(self).is_none()
    }

    /// No mark past `last` is set.
    pub fn none_past(self, last: u8) -> bool {
        self.minus(Self::below(usize::from(last) + 1)).is_none()
    }

    /// How many marks are set.
    pub fn ones(self) -> u16 {
        let ones: u32 = self.0.iter().map(|word| word.count_ones()).sum();
        ones as u16
    }

    pub fn lowest(self) -> Option<u8> {
        let word = self.0.iter().position(|&word| word != 0)?;
        Some((64 * word + self.0[word].trailing_zeros() as usize) as u8)
    }

    pub fn highest(self) -> Option<u8> {
        let word = self.0.iter().rposition(|&word| word != 0)?;
        Some((64 * word + 63 - self.0[word].leading_zeros() as usize) as u8)
    }
}
