//! Sets of bays as 64-bit words: one word for a yard of up to 64 bays, four for the largest. A bay of an open yard is a `u8` and needs no bound test.

#[derive(Clone, Copy, Debug, PartialEq, Eq)]
pub struct Bays<const W: usize>([u64; W]);

impl<const W: usize> Bays<W> {
    pub const NONE: Self = Bays([0; W]);

    /// The bays below `count`.
    pub fn below(count: usize) -> Self {
        Bays(std::array::from_fn(|word| match count.saturating_sub(64 * word) {
            0 => 0,
            bits @ 1..64 => (1 << bits) - 1,
            _ => u64::MAX,
        }))
    }

    /// Worked out word by word, never stored in part: a word stored and four loaded would have to wait for each other.
    #[inline(always)]
    pub fn only(bay: u8) -> Self {
        let bit = 1 << (bay & 63);
        Bays(std::array::from_fn(|word| if W == 1 || (bay >> 6) as usize == word { bit } else { 0 }))
    }

    /// The number of words is a power of two, so no bay is outside of them.
    #[inline(always)]
    fn word(bay: u8) -> usize {
        (bay >> 6) as usize & (W - 1)
    }

    #[inline(always)]
    pub fn has(&self, bay: u8) -> bool {
        self.0[Self::word(bay)] >> (bay & 63) & 1 == 1
    }

    #[inline(always)]
    pub fn insert(&mut self, bay: u8) {
        *self = self.with(bay);
    }

    /// The same in place, by the one word: for tables, whose rows are read much later.
    #[inline(always)]
    pub fn note(&mut self, bay: u8) {
        self.0[Self::word(bay)] |= 1 << (bay & 63);
    }

    #[inline(always)]
    pub fn remove(&mut self, bay: u8) {
        *self = self.without(Self::only(bay));
    }

    #[inline(always)]
    pub fn with(self, bay: u8) -> Self {
        self.or(Self::only(bay))
    }

    #[inline(always)]
    pub fn and(self, other: Self) -> Self {
        Bays(std::array::from_fn(|word| self.0[word] & other.0[word]))
    }

    #[inline(always)]
    pub fn or(self, other: Self) -> Self {
        Bays(std::array::from_fn(|word| self.0[word] | other.0[word]))
    }

    #[inline(always)]
    pub fn without(self, other: Self) -> Self {
        Bays(std::array::from_fn(|word| self.0[word] & !other.0[word]))
    }

    #[inline(always)]
    pub fn is_none(&self) -> bool {
        self.0.iter().fold(0, |all, word| all | word) == 0
    }

    #[inline(always)]
    pub fn lowest(&self) -> Option<u8> {
        (0..W).find(|&word| self.0[word] != 0).map(|word| (word as u32 * 64 + self.0[word].trailing_zeros()) as u8)
    }

    /// Each bay in rising order.
    #[inline(always)]
    pub fn each(&self, mut visit: impl FnMut(u8)) {
        for word in 0..W {
            let mut rest = self.0[word];
            while rest != 0 {
                visit((word as u32 * 64 + rest.trailing_zeros()) as u8);
                rest &= rest - 1;
            }
        }
    }

    /// One number for the set, to look it up by.
    #[inline(always)]
    pub fn mixed(&self) -> u64 {
        self.0.iter().fold(0, |all: u64, &word| (all ^ word).wrapping_mul(0x9E37_79B9_7F4A_7C15).rotate_left(29))
    }
}

impl<const W: usize> IntoIterator for Bays<W> {
    type Item = u8;
    type IntoIter = Rising<W>;
    #[inline(always)]
    fn into_iter(self) -> Rising<W> {
        Rising(self)
    }
}

/// The bays of a set in rising order.
pub struct Rising<const W: usize>(Bays<W>);

impl<const W: usize> Iterator for Rising<W> {
    type Item = u8;
    #[inline(always)]
    fn next(&mut self) -> Option<u8> {
        let bay = self.0.lowest()?;
        self.0.remove(bay);
        Some(bay)
    }
}
