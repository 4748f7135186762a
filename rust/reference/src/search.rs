//! Shortest paths and nearest bays, ring by ring.

use crate::bays::Bays;
use crate::choice::Choice;
use crate::yard::Yard;

/// How the planner seeks. The plans are the same.
#[derive(Clone, Copy, Debug, PartialEq, Eq)]
pub enum Seeking {
    /// As fast as can be: swaps and distances are kept, bays met one by one where rings have few.
    Kept,
    /// Every way out is sought a whole ring at a time, in words, and nothing is kept.
    ByRings,
    /// Every way out is sought bay by bay from a queue, with a flag for each bay that was met, and nothing is kept.
    BayByBay,
}

/// Searches ring by ring, and room for them.
pub struct Search<const W: usize> {
    /// Few rails more than bays, so that rings have few bays: bays are then met one by one, else a ring at a time.
    pub narrow: bool,
    pub bay_by_bay: bool,
    /// The bays beside each, rising: those of a bay stand from the first place for it to the first for the next. For searches bay by bay alone.
    beside: Vec<u8>,
    first: [u16; 257],
    /// The bay before each on the path that was found last.
    pub before: [u8; 256],
    met: [u8; 256],
    rings: [Bays<W>; 256],
}

impl<const W: usize> Search<W> {
    pub fn new() -> Self {
        Search {
            narrow: false,
            bay_by_bay: false,
            beside: Vec::new(),
            first: [0; 257],
            before: [0; 256],
            met: [0; 256],
            rings: [Bays::NONE; 256],
        }
    }

    /// Bay by bay from now on.
    pub fn seek_bay_by_bay(&mut self, yard: &Yard<W>) {
        self.bay_by_bay = true;
        self.beside.clear();
        for bay in 0..yard.bays {
            self.first[bay] = self.beside.len() as u16;
            self.beside.extend(yard.joined[bay]);
        }
        self.first[yard.bays] = self.beside.len() as u16;
    }

    /// The choice among the nearest `wanted` bays that are reached from x through bays not held; `before` has the shortest path to it.
    #[inline]
    pub fn nearest(&mut self, yard: &Yard<W>, choice: &Choice<W>, x: u8, held: Bays<W>, wanted: Bays<W>) -> Option<u8> {
        if self.bay_by_bay {
            self.nearest_bay_by_bay(x, held, wanted)
        } else if self.narrow {
            self.nearest_one_by_one(yard, choice, x, held, wanted)
        } else {
            self.nearest_by_rings(yard, choice, x, held, wanted)
        }
    }

    /// Bays are met in the order of the lowest paths to them, so the bay that each is first met from is the one before it.
    fn nearest_one_by_one(&mut self, yard: &Yard<W>, choice: &Choice<W>, x: u8, held: Bays<W>, wanted: Bays<W>) -> Option<u8> {
        let mut unmet = Bays::below(256).without(held.with(x));
        self.met[0] = x;
        let (mut done, mut count) = (0, 1);
        while done < count {
            let mut ring = Bays::NONE;
            for i in done..count {
                let bay = self.met[i];
                let new = yard.joined[bay as usize].and(unmet);
                unmet = unmet.without(new);
                ring = ring.or(new);
                new.each(|next| {
                    self.before[next as usize] = bay;
                    self.met[count & 255] = next;
                    count += 1;
                });
                done += 1;
            }
            if let Some(bay) = choice.among(wanted.and(ring)) {
                return Some(bay);
            }
        }
        None
    }

    /// A queue of bays; each that is met is asked by itself whether it was met before, is held, is wanted.
    #[inline(never)]
    fn nearest_bay_by_bay(&mut self, x: u8, held: Bays<W>, wanted: Bays<W>) -> Option<u8> {
        let mut was_met = [false; 256];
        was_met[x as usize] = true;
        self.met[0] = x;
        let (mut done, mut count) = (0, 1);
        while done < count {
            let mut found: Option<(u16, u8)> = None;
            for i in done..count {
                let bay = self.met[i];
                for place in self.first[bay as usize]..self.first[bay as usize + 1] {
                    let next = self.beside[place as usize];
                    if was_met[next as usize] || held.has(next) {
                        continue;
                    }
                    was_met[next as usize] = true;
                    self.before[next as usize] = bay;
                    self.met[count & 255] = next;
                    count += 1;
                    if wanted.has(next) {
                        let rails = self.first[next as usize + 1] - self.first[next as usize];
                        found = Some(found.map_or((rails, next), |found| found.min((rails, next))));
                    }
                }
                done += 1;
            }
            if let Some((_, bay)) = found {
                return Some(bay);
            }
        }
        None
    }

    /// Back from the bay that was found only bays next to those kept stay in each ring; from x on, the lowest of them.
    fn nearest_by_rings(&mut self, yard: &Yard<W>, choice: &Choice<W>, x: u8, held: Bays<W>, wanted: Bays<W>) -> Option<u8> {
        let mut barred = held.with(x);
        let mut ring = Bays::only(x);
        let mut m = 0;
        let found = loop {
            ring = yard.beside(ring).without(barred);
            if ring.is_none() {
                return None;
            }
            m += 1;
            self.rings[m & 255] = ring;
            barred = barred.or(ring);
            if let Some(found) = choice.among(ring.and(wanted)) {
                break found;
            }
        };
        let mut kept = Bays::only(found);
        self.rings[m & 255] = kept;
        for i in (1..m & 255).rev() {
            kept = yard.beside(kept).and(self.rings[i]);
            self.rings[i] = kept;
        }
        let mut bay = x;
        for i in 1..=m & 255 {
            let next = yard.joined[bay as usize].and(self.rings[i]).lowest()?;
            self.before[next as usize] = bay;
            bay = next;
        }
        Some(found)
    }

    /// **Shortest path** past the bays avoided: fewest rails, and the lowest next bay each time. Answers its rails, if there is one.
    pub fn path(&mut self, yard: &Yard<W>, from: u8, to: u8, avoid: Bays<W>, path: &mut [u8; 256]) -> Option<usize> {
        let mut ring = Bays::only(to);
        let mut seen = avoid.with(to);
        let mut m = 0;
        self.rings[0] = ring;
        while !ring.has(from) {
            ring = yard.beside(ring).without(seen);
            if ring.is_none() {
                return None;
            }
            seen = seen.or(ring);
            m += 1;
            self.rings[m & 255] = ring;
        }
        let mut bay = from;
        path[0] = from;
        for i in 1..=m & 255 {
            bay = yard.joined[bay as usize].and(self.rings[m - i]).lowest().unwrap_or(to);
            path[i] = bay;
        }
        Some(m)
    }
}
