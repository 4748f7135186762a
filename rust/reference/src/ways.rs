//! **Vacate**, and how the way out is found: an empty bay beside, the kept distances where few bays are empty, else a search.

use crate::bays::Bays;
use crate::choice::Choice;
use crate::crossing::Crossing;
use crate::distances::Distances;
use crate::search::{Search, Seeking};
use crate::yard::Yard;

/// Who stands at an empty bay. A yard of 256 bays has at most 254 carriers, so it is no carrier's number.
pub const NOBODY: u8 = 255;

/// A placement: who stands at each bay, and the empty bays.
#[derive(Clone)]
pub struct Placed<const W: usize> {
    pub at: [u8; 256],
    pub empty: Bays<W>,
}

impl<const W: usize> Placed<W> {
    pub fn new() -> Self {
        Placed { at: [NOBODY; 256], empty: Bays::NONE }
    }

    /// As the other; only the places that a yard of so many words has.
    #[inline(always)]
    pub fn copy(&mut self, other: &Self) {
        self.at[..64 * W].copy_from_slice(&other.at[..64 * W]);
        self.empty = other.empty;
    }
}

/// Crossings one after another, and how many vacates among them filled a junction.
pub struct Made {
    pub crossings: Vec<u64>,
    pub parked: u64,
}

/// The yard and what is known of it while an order is planned.
pub struct Ways<const W: usize> {
    pub yard: Yard<W>,
    pub junctions: Bays<W>,
    /// Every bay has exactly two rails.
    pub carousel: bool,
    /// So few bays are empty that the nearest is looked up in the table of distances before it is searched for.
    pub crowded: bool,
    /// An empty bay beside is taken without a search.
    pub looks_beside: bool,
    pub search: Search<W>,
    pub choice: Choice<W>,
    distances: Distances,
}

impl<const W: usize> Ways<W> {
    pub fn new() -> Self {
        let (search, choice, distances) = (Search::new(), Choice::new(), Distances::new());
        Ways { yard: Yard::NONE, junctions: Bays::NONE, carousel: false, crowded: false, looks_beside: true, search, choice, distances }
    }

    /// For the yard that was opened, with so many carriers.
    pub fn set(&mut self, seeking: Seeking, rails: &[u16], carriers: usize) {
        let bays = self.yard.bays;
        let mut rails_at = [0u16; 256];
        rails.iter().for_each(|&bay| rails_at[bay as usize & 255] += 1);
        let rails_at = &rails_at[..bays];
        self.junctions = Bays::NONE;
        for bay in (0..bays).filter(|&bay| rails_at[bay] >= 3) {
            self.junctions.note(bay as u8);
        }
        self.carousel = rails_at.iter().all(|&rails| rails == 2);
        self.crowded = seeking == Seeking::Kept && bays - carriers <= FEW;
        self.looks_beside = seeking == Seeking::Kept;
        self.search.narrow = seeking == Seeking::Kept && rails.len() * 2 < bays * 5;
        self.search.bay_by_bay = false;
        if seeking == Seeking::BayByBay {
            self.search.seek_bay_by_bay(&self.yard);
        }
        self.choice.set(rails_at);
        self.distances.forget();
    }

    /// **Vacate**: true where x is empty afterwards; a failure moves nobody.
    #[inline]
    pub fn vacate(&mut self, placed: &mut Placed<W>, made: &mut Made, x: u8, held: Bays<W>) -> bool {
        if placed.empty.has(x) {
            return true;
        }
        if held.has(x) {
            return false;
        }
        let holes = placed.empty.without(held);
        let beside = if self.looks_beside { self.choice.among(self.yard.joined[x as usize].and(holes)) } else { None };
        let hole = match beside {
            Some(hole) => {
                cross(placed, made, x, hole);
                hole
            }
            None => match self.find_way_out(x, held, holes) {
                Some(hole) => {
                    self.shift(placed, made, x, hole);
                    hole
                }
                None => return false,
            },
        };
        made.parked += u64::from(self.junctions.has(hole));
        true
    }

    /// The last carrier before the empty bay moves first, then the one behind it, until x is empty.
    fn shift(&self, placed: &mut Placed<W>, made: &mut Made, x: u8, hole: u8) {
        let mut to = hole;
        while to != x {
            let from = self.search.before[to as usize];
            let carrier = placed.at[from as usize];
            placed.at[to as usize] = carrier;
            made.crossings.push(crossing(carrier, from, to));
            to = from;
        }
        placed.at[x as usize] = NOBODY;
        placed.empty.insert(x);
        placed.empty.remove(hole);
    }

    /// The nearest empty bay that is reached from x through bays not held, itself not held; among the nearest the choice. The way to it
    /// stands in `search.before`.
    fn find_way_out(&mut self, x: u8, held: Bays<W>, holes: Bays<W>) -> Option<u8> {
        if self.crowded {
            let known = self.look_up_way_out(x, held, holes);
            if known.is_some() {
                return known;
            }
        }
        self.search.nearest(&self.yard, &self.choice, x, held, holes)
    }

    /// The plain shortest path to the choice among the plainly nearest empty bays. Where it meets no held bay no other way out is shorter
    /// or chosen before it, since held bays only take paths away.
    fn look_up_way_out(&mut self, x: u8, held: Bays<W>, holes: Bays<W>) -> Option<u8> {
        let rails = self.distances.rails(&self.yard, x);
        let (mut least, mut nearest) = (u8::MAX, Bays::NONE);
        holes.each(|hole| {
            let far = rails[hole as usize];
            if far < least {
                (least, nearest) = (far, Bays::NONE);
            }
            if far == least {
                nearest.insert(hole);
            }
        });
        let hole = self.choice.among(nearest)?;
        let mut bay = x;
        while bay != hole {
            let next = self.distances.next(&self.yard, bay, hole);
            if held.has(next) {
                return None;
            }
            self.search.before[next as usize] = bay;
            bay = next;
        }
        Some(hole)
    }
}

/// With so few empty bays they are looked up.
const FEW: usize = 6;

/// Whoever stands at `from` crosses.
#[inline(always)]
pub fn cross<const W: usize>(placed: &mut Placed<W>, made: &mut Made, from: u8, to: u8) {
    let carrier = placed.at[from as usize];
    placed.at[from as usize] = NOBODY;
    placed.at[to as usize] = carrier;
    placed.empty.insert(from);
    placed.empty.remove(to);
    made.crossings.push(crossing(carrier, from, to));
}

#[inline(always)]
pub fn crossing(carrier: u8, from: u8, to: u8) -> u64 {
    Crossing { carrier: carrier as u32, from: from as u16, to: to as u16 }.number()
}

#[cfg(test)]
mod tests {
    //! The vectors' vacates and paths, by each way of searching: numbers as the proved programs read them, each list behind its count.

    use super::*;

    struct Numbers(std::vec::IntoIter<u64>);

    impl Numbers {
        fn of(name: &str) -> Numbers {
            let path = std::path::Path::new(env!("CARGO_MANIFEST_DIR")).join("../../crates/search_cases/data").join(name);
            let text = std::fs::read_to_string(path).expect("the vectors");
            let numbers: Vec<u64> = text.split_whitespace().map(|number| number.parse().expect("a number")).collect();
            Numbers(numbers.into_iter())
        }

        fn next(&mut self) -> u64 {
            self.0.next().expect("a number")
        }

        fn list(&mut self) -> Vec<u16> {
            (0..self.next()).map(|_| self.next() as u16).collect()
        }
    }

    fn set<const W: usize>(list: &[u16]) -> Bays<W> {
        list.iter().fold(Bays::NONE, |set, &bay| set.with(bay as u8))
    }

    /// The ways through a yard with so many carriers at these bays.
    fn ways<const W: usize>(bays: u64, rails: &[u16], placement: &[u16]) -> (Ways<W>, Placed<W>) {
        let mut ways = Ways::new();
        ways.yard.open(bays, rails, placement, placement, 0).expect("a sound yard");
        ways.set(Seeking::Kept, rails, placement.len());
        let mut placed = Placed::new();
        placed.empty = Bays::below(bays as usize).without(set(placement));
        placement.iter().enumerate().for_each(|(carrier, &bay)| placed.at[bay as usize] = carrier as u8);
        (ways, placed)
    }

    fn vacates<const W: usize>() {
        let mut numbers = Numbers::of("vacate");
        for case in 0..numbers.next() {
            let (bays, x) = (numbers.next(), numbers.next() as u8);
            let (rails, placement, held) = (numbers.list(), numbers.list(), numbers.list());
            let told = numbers.next();
            let crossings: Vec<u64> = (0..numbers.next()).map(|_| numbers.next()).collect();
            for (narrow, crowded, bay_by_bay) in
                [(false, false, false), (true, false, false), (false, true, false), (true, true, false), (false, false, true)]
            {
                if bays > 64 * W as u64 {
                    continue;
                }
                let (mut ways, mut placed) = ways::<W>(bays, &rails, &placement);
                (ways.search.narrow, ways.crowded) = (narrow, crowded);
                if bay_by_bay {
                    ways.search.seek_bay_by_bay(&ways.yard);
                }
                let was_empty = placed.empty.has(x);
                let mut made = Made { crossings: Vec::new(), parked: 0 };
                let answer = match (ways.vacate(&mut placed, &mut made, x, set(&held)), was_empty) {
                    (_, true) => 0,
                    (true, false) => 1,
                    (false, false) => 2,
                };
                assert_eq!((answer, &made.crossings), (told, &crossings), "case {case}");
            }
        }
    }

    #[test]
    fn vacates_of_the_vectors() {
        vacates::<1>();
        vacates::<2>();
        vacates::<4>();
    }

    fn paths<const W: usize>() {
        let mut numbers = Numbers::of("path");
        for case in 0..numbers.next() {
            let (bays, from, to) = (numbers.next(), numbers.next() as u8, numbers.next() as u8);
            let (rails, avoid, expected) = (numbers.list(), numbers.list(), numbers.list());
            if bays > 64 * W as u64 {
                continue;
            }
            for narrow in [false, true] {
                let (mut ways, _) = ways::<W>(bays, &rails, &[]);
                ways.search.narrow = narrow;
                let Ways { search, yard, choice, .. } = &mut ways;
                let found = if from == to { Some(to) } else { search.nearest(yard, choice, from, set(&avoid), Bays::only(to)) };
                let mut path: Vec<u16> = found.map(|bay| bay as u16).into_iter().collect();
                while path.last().is_some_and(|&bay| bay != from as u16) {
                    path.push(search.before[path[path.len() - 1] as usize] as u16);
                }
                path.reverse();
                assert_eq!(path, expected, "case {case}");
            }
        }
    }

    #[test]
    fn paths_of_the_vectors() {
        paths::<1>();
        paths::<2>();
        paths::<4>();
    }
}
