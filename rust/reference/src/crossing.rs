//! A crossing (carrier, from, to) and the one number that stands for it in a lent plan.

#[derive(Clone, Copy, Debug, PartialEq, Eq)]
pub struct Crossing {
    pub carrier: u32,
    pub from: u16,
    pub to: u16,
}

impl Crossing {
    #[inline(always)]
    pub fn read(number: u64) -> Crossing {
        Crossing { carrier: (number >> 32) as u32, from: (number >> 16) as u16, to: number as u16 }
    }

    #[inline(always)]
    pub fn number(self) -> u64 {
        (self.carrier as u64) << 32 | (self.from as u64) << 16 | self.to as u64
    }

    /// Two crossings depend on each other if they have the same carrier or share any bay.
    #[inline(always)]
    pub fn depends_on(self, other: Crossing) -> bool {
        self.carrier == other.carrier || self.from == other.from || self.from == other.to || self.to == other.from || self.to == other.to
    }
}
