//! Distances that are worked out when first asked for, and kept while an order is planned.

use crate::bays::Bays;
use crate::yard::Yard;

/// Rails from every bay to a bay, carriers disregarded: a row for each bay that was asked for. The rows are room, used again for the next order.
pub struct Distances {
    row_of: [u16; 256],
    rows: Vec<Row>,
    used: usize,
}

#[derive(Clone)]
struct Row {
    rails: [u8; 256],
    /// The next bay of the shortest path to the row's bay, once it was asked for; until then the bay itself.
    next: [u8; 256],
}

const NOT_YET: u16 = u16::MAX;

impl Distances {
    pub fn new() -> Self {
        Distances { row_of: [NOT_YET; 256], rows: Vec::new(), used: 0 }
    }

    /// Nothing is known of the next yard.
    pub fn forget(&mut self) {
        if self.used > 0 {
            self.row_of = [NOT_YET; 256];
            self.used = 0;
        }
    }

    #[inline(always)]
    fn row<const W: usize>(&mut self, yard: &Yard<W>, bay: u8) -> &mut Row {
        if self.row_of[bay as usize] == NOT_YET {
            self.measure(yard, bay);
        }
        &mut self.rows[self.row_of[bay as usize] as usize]
    }

    /// The rails from each bay to this one.
    #[inline(always)]
    pub fn rails<const W: usize>(&mut self, yard: &Yard<W>, bay: u8) -> &[u8; 256] {
        &self.row(yard, bay).rails
    }

    /// Ring by ring from the bay.
    #[inline(never)]
    fn measure<const W: usize>(&mut self, yard: &Yard<W>, bay: u8) {
        const ITSELF: [u8; 256] = {
            let mut itself = [0; 256];
            let mut bay = 0;
            while bay < 256 {
                itself[bay] = bay as u8;
                bay += 1;
            }
            itself
        };
        if self.used == self.rows.len() {
            self.rows.push(Row { rails: [0; 256], next: ITSELF });
        }
        let row = &mut self.rows[self.used];
        row.next[..64 * W].copy_from_slice(&ITSELF[..64 * W]);
        self.row_of[bay as usize] = self.used as u16;
        self.used += 1;
        let mut ring = Bays::only(bay);
        let mut seen = ring;
        let mut rails = 0u8;
        while !ring.is_none() {
            let mut beside = Bays::NONE;
            ring.each(|bay| {
                row.rails[bay as usize] = rails;
                beside = beside.or(yard.joined[bay as usize]);
            });
            ring = beside.without(seen);
            seen = seen.or(ring);
            rails = rails.wrapping_add(1);
        }
    }

    /// The next bay of the shortest path: the lowest that is a rail nearer.
    #[inline(always)]
    pub fn next<const W: usize>(&mut self, yard: &Yard<W>, bay: u8, to: u8) -> u8 {
        let Row { rails, next } = self.row(yard, to);
        let known = &mut next[bay as usize];
        if *known == bay {
            let nearer = rails[bay as usize].wrapping_sub(1);
            *known = yard.joined[bay as usize].into_iter().find(|&next| rails[next as usize] == nearer).unwrap_or(to);
        }
        *known
    }
}
