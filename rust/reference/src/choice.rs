//! "Take the one with fewest rails, and only then the lowest number."

use crate::bays::Bays;

/// The bays by their number of rails, fewest first.
pub struct Choice<const W: usize> {
    kinds: Vec<Bays<W>>,
}

impl<const W: usize> Choice<W> {
    pub fn new() -> Self {
        Choice { kinds: Vec::new() }
    }

    /// From the number of rails at each bay.
    pub fn set(&mut self, rails_at: &[u16]) {
        let mut by_rails = [Bays::NONE; 256];
        let mut most = 0;
        for (bay, &rails) in rails_at.iter().enumerate() {
            by_rails[rails as usize & 255].note(bay as u8);
            most = most.max(rails as usize & 255);
        }
        self.kinds.clear();
        self.kinds.extend(by_rails[..=most].iter().filter(|kind| !kind.is_none()));
    }

    #[inline(always)]
    pub fn among(&self, bays: Bays<W>) -> Option<u8> {
        let lowest = bays.lowest()?;
        if bays == Bays::only(lowest) {
            return Some(lowest);
        }
        self.kinds.iter().find_map(|&kind| bays.and(kind).lowest())
    }
}
