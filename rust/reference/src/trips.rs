//! There-and-back trips dropped in one go. `shorten.rs` has the request's sentences one by one; this comes to the same in time that grows with the plan
//! alone, and is what the library is raced against.
//!
//! The entries into each bay are a list, and so are the crossings of each carrier. A carrier makes a trip where two entries into a bay that follow each other
//! are both its own. Dropping an entry makes two others follow each other, so new trips show at once, each under the name at which it leaves.

use crate::crossing::Crossing;

/// No entry, no crossing.
const NONE: u32 = u32::MAX;

/// Crossings by name, then a place for each carrier: its standing at the start, as an entry into that bay.
struct Trips {
    crossings: usize,
    carrier: Vec<u8>,
    of_carrier: Vec<Links>,
    of_bay: Vec<Links>,
    leaving: Names,
}

#[derive(Clone, Copy)]
struct Links {
    before: u32,
    after: u32,
}

/// What is left of a legal plan of carriers that stand at these bays.
pub fn without_trips(start: &[u16], plan: &[u64]) -> Vec<u64> {
    let mut trips = Trips::new(start, plan);
    while let Some(name) = trips.leaving.lowest() {
        trips.drop(name);
    }
    (0..plan.len()).filter(|&name| trips.is_left(name)).map(|name| plan[name]).collect()
}

impl Trips {
    fn new(start: &[u16], plan: &[u64]) -> Trips {
        let all = plan.len() + start.len();
        let unlinked = vec![Links { before: NONE, after: NONE }; all];
        let mut trips = Trips {
            crossings: plan.len(),
            carrier: Vec::with_capacity(all),
            of_carrier: unlinked.clone(),
            of_bay: unlinked,
            leaving: Names::none(plan.len()),
        };
        let (mut last_of_carrier, mut last_of_bay) = ([NONE; 256], [NONE; 256]);
        for (carrier, &bay) in start.iter().enumerate() {
            let place = (plan.len() + carrier) as u32;
            last_of_carrier[carrier & 255] = place;
            last_of_bay[bay as usize & 255] = place;
        }
        trips.carrier.extend(plan.iter().map(|&number| Crossing::read(number).carrier as u8));
        trips.carrier.extend((0..start.len()).map(|carrier| carrier as u8));
        for (name, &number) in plan.iter().enumerate() {
            let Crossing { carrier, to, .. } = Crossing::read(number);
            let last = std::mem::replace(&mut last_of_carrier[carrier as usize & 255], name as u32);
            link(&mut trips.of_carrier, last, name as u32);
            let last = std::mem::replace(&mut last_of_bay[to as usize & 255], name as u32);
            link(&mut trips.of_bay, last, name as u32);
        }
        (0..all as u32).for_each(|entry| trips.note(entry));
        trips
    }

    /// Whether whoever entered here comes back before anybody else: its leaving is noted.
    fn note(&mut self, entry: u32) {
        let back = self.of_bay[entry as usize].after;
        if back != NONE && self.carrier[back as usize] == self.carrier[entry as usize] {
            self.leaving.insert(self.of_carrier[entry as usize].after);
        }
    }

    /// The trip that leaves at this name is dropped, up to its last return.
    fn drop(&mut self, name: u32) {
        let carrier = self.carrier[name as usize];
        let here = self.of_carrier[name as usize].before;
        let mut last = here;
        loop {
            let back = self.of_bay[last as usize].after;
            if back == NONE || self.carrier[back as usize] != carrier {
                break;
            }
            last = back;
        }
        let after = self.of_carrier[last as usize].after;
        let mut dropped = name;
        loop {
            let next = self.of_carrier[dropped as usize].after;
            self.drop_entry(dropped);
            if dropped == last {
                break;
            }
            dropped = next;
        }
        link(&mut self.of_carrier, here, after);
    }

    /// An entry is gone; the two around it follow each other.
    fn drop_entry(&mut self, entry: u32) {
        self.leaving.remove(entry);
        let Links { before, after } = self.of_bay[entry as usize];
        link(&mut self.of_bay, before, after);
        self.of_carrier[entry as usize] = Links { before: NONE, after: NONE };
        if before != NONE && self.carrier[before as usize] != self.carrier[entry as usize] {
            self.note(before);
        }
    }

    /// Every crossing has one before it in its carrier's list, or the carrier's start.
    fn is_left(&self, name: usize) -> bool {
        name < self.crossings && self.of_carrier[name].before != NONE
    }
}

#[inline(always)]
fn link(list: &mut [Links], before: u32, after: u32) {
    if before != NONE {
        list[before as usize].after = after;
    }
    if after != NONE {
        list[after as usize].before = before;
    }
}

/// A set of names whose lowest is found in three steps: bits, words that are not 0, and words of these.
struct Names([Vec<u64>; 3]);

impl Names {
    fn none(names: usize) -> Names {
        let words = names / 64 + 1;
        Names([vec![0; words], vec![0; words / 64 + 1], vec![0; words / 4_096 + 1]])
    }

    fn insert(&mut self, name: u32) {
        let mut bit = name as usize;
        for words in &mut self.0 {
            words[bit / 64] |= 1 << (bit % 64);
            bit /= 64;
        }
    }

    fn remove(&mut self, name: u32) {
        let mut bit = name as usize;
        for words in &mut self.0 {
            words[bit / 64] &= !(1 << (bit % 64));
            if words[bit / 64] != 0 {
                return;
            }
            bit /= 64;
        }
    }

    fn lowest(&self) -> Option<u32> {
        let mut bit = self.0[2].iter().position(|&word| word != 0)?;
        for words in self.0.iter().rev() {
            bit = bit * 64 + words[bit].trailing_zeros() as usize;
        }
        Some(bit as u32)
    }
}

#[cfg(test)]
mod tests {
    use super::*;
    use crate::shorten;
    use yards::{connected, grid, wander, Dice, Order};

    /// The same is left as by the request's sentences, of plans that wander, of the planner's, and of plans that go all the way back.
    #[test]
    fn leaves_what_the_plain_way_leaves() {
        let mut shorter = 0;
        for seed in 0..3_000 {
            let mut dice = Dice::new(0x0A00_0000 + seed);
            let bays = dice.from_to(4, 36);
            let rails = if dice.percent(50) { grid(bays / 2, 2) } else { connected(bays, bays - 1 + dice.below(bays), bays, &mut dice) };
            let bays = rails.iter().max().map_or(2, |&bay| bay as usize + 1);
            let carriers = dice.from_to(1, bays - 2);
            let order = Order::on(bays, rails).with_carriers(carriers, &mut dice);
            let crossings = dice.from_to(0, 300);
            let plan = if dice.percent(30) { planned(&order) } else { wandered(&order, crossings, &mut dice) };
            let left = without_trips(&order.start, &plan);
            shorter += usize::from(left.len() < plan.len());
            assert_eq!(left, shorten::without_trips(&plan), "seed {seed}");
        }
        assert!(shorter > 1_000);
    }

    fn planned(order: &Order) -> Vec<u64> {
        let mut out = vec![0; 1_500];
        let (number, length) = crate::plan(order.bays, &order.rails, &order.start, &order.goal, &mut out);
        out.truncate(if number == 0 { length as usize } else { 0 });
        out
    }

    fn wandered(order: &Order, crossings: usize, dice: &mut Dice) -> Vec<u64> {
        let (_, mut plan) = wander(order.clone(), crossings, dice);
        if dice.percent(40) {
            let back: Vec<u64> =
                plan.iter().rev().map(|&number| number & !0xFFFF_FFFF | (number & 0xFFFF) << 16 | number >> 16 & 0xFFFF).collect();
            plan.extend(back);
        }
        plan
    }
}
