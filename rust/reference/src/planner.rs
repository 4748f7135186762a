//! How the order is found: carriers by rising number, steps, the way home.
//!
//! A planner for each number of words that sets of bays may have is made once and used again, so that planning an order allocates nothing. Crossings go
//! to a list of our own, since a refusal must leave the lent one as it was.

use crate::bays::Bays;
use crate::docket::Refusal;
use crate::search::Seeking;
use crate::swaps::Swaps;
use crate::ways::{cross, Made, Placed, Ways, NOBODY};
use crate::yard::MOST_CROSSINGS;
use std::cell::RefCell;

/// What is told of a plan that is accepted: how many crossings it has, and how many vacates in it, undoing left aside, filled a bay of
/// three rails or more.
pub struct Planned {
    pub length: u64,
    pub parked: u64,
}

thread_local! {
    static ONE_WORD: RefCell<Box<Planner<1>>> = RefCell::new(Planner::new());
    static TWO_WORDS: RefCell<Box<Planner<2>>> = RefCell::new(Planner::new());
    static FOUR_WORDS: RefCell<Box<Planner<4>>> = RefCell::new(Planner::new());
}

/// Tests 1 to 8; writes the plan where it is accepted.
pub fn plan(seeking: Seeking, bays: u64, rails: &[u16], start: &[u16], goal: &[u16], out: &mut [u64]) -> Result<Planned, Refusal> {
    match bays {
        ..=64 => ONE_WORD.with_borrow_mut(|planner| planner.plan(seeking, bays, rails, start, goal, out)),
        65..=128 => TWO_WORDS.with_borrow_mut(|planner| planner.plan(seeking, bays, rails, start, goal, out)),
        _ => FOUR_WORDS.with_borrow_mut(|planner| planner.plan(seeking, bays, rails, start, goal, out)),
    }
}

struct Planner<const W: usize> {
    ways: Ways<W>,
    swaps: Swaps<W>,
    goal: [u8; 256],
    whose_goal: [u8; 256],
    placed: Placed<W>,
    /// Carriers below this number are finished.
    finished: u8,
    /// The present bays of the finished carriers.
    finished_bays: Bays<W>,
    made: Made,
    room: usize,
    /// Crossings counted and not stored, once the room is exceeded.
    counted: u64,
}

impl<const W: usize> Planner<W> {
    fn new() -> Box<Self> {
        Box::new(Planner {
            ways: Ways::new(),
            swaps: Swaps::new(),
            goal: [0; 256],
            whose_goal: [NOBODY; 256],
            placed: Placed::new(),
            finished: 0,
            finished_bays: Bays::NONE,
            made: Made { crossings: Vec::new(), parked: 0 },
            room: 0,
            counted: 0,
        })
    }

    fn plan(
        &mut self,
        seeking: Seeking,
        bays: u64,
        rails: &[u16],
        start: &[u16],
        goal: &[u16],
        out: &mut [u64],
    ) -> Result<Planned, Refusal> {
        self.ways.yard.clear();
        self.ways.yard.open(bays, rails, start, goal, 0)?;
        self.ways.set(seeking, rails, start.len());
        self.swaps.keeps = seeking == Seeking::Kept;
        self.set(start, goal, out.len().min(MOST_CROSSINGS));
        for carrier in 0..start.len() {
            self.serve(carrier as u8)?;
        }
        let needed = self.needed();
        if needed > self.room as u64 {
            return Err(Refusal::Room(needed));
        }
        out[..self.made.crossings.len()].copy_from_slice(&self.made.crossings);
        Ok(Planned { length: needed, parked: self.made.parked })
    }

    /// All as at the start of an order.
    fn set(&mut self, start: &[u16], goal: &[u16], room: usize) {
        self.placed.at[..64 * W].fill(NOBODY);
        self.whose_goal[..64 * W].fill(NOBODY);
        self.placed.empty = Bays::below(self.ways.yard.bays);
        for (carrier, (&from, &to)) in start.iter().zip(goal).enumerate() {
            self.placed.at[from as usize & 255] = carrier as u8;
            self.whose_goal[to as usize & 255] = carrier as u8;
            self.goal[carrier & 255] = to as u8;
            self.placed.empty.remove(from as u8);
        }
        (self.finished, self.finished_bays) = (0, Bays::NONE);
        self.made.crossings.clear();
        (self.made.parked, self.room, self.counted) = (0, room, 0);
        self.swaps.forget();
    }

    fn needed(&self) -> u64 {
        self.counted + self.made.crossings.len() as u64
    }

    /// Once the room is exceeded nothing needs to be stored any more.
    #[inline(always)]
    fn count_only_when_over(&mut self) {
        if self.needed() > self.room as u64 {
            self.counted = self.needed();
            self.made.crossings.clear();
        }
    }

    /// **Carriers**, and the **way home** of those that r displaced.
    fn serve(&mut self, r: u8) -> Result<(), Refusal> {
        let goal = self.goal[r as usize];
        let bay = self.placed.at[..64 * W].iter().position(|&carrier| carrier == r).unwrap_or(0) as u8;
        let mut path = [0; 256];
        let avoid = if self.ways.carousel { self.finished_bays } else { Bays::NONE };
        let Ways { search, yard, .. } = &mut self.ways;
        let Some(m) = search.path(yard, bay, goal, avoid, &mut path) else { return Err(Refusal::Stopped(r as u64)) };
        for i in 1..=m {
            self.step(r, path[i - 1], path[i])?;
        }
        self.finished += 1;
        self.finished_bays.insert(goal);
        for i in (1..m).rev() {
            let owner = self.whose_goal[path[i] as usize];
            if owner < self.finished && self.placed.at[path[i] as usize] != owner {
                self.step(owner, path[i - 1], path[i])?;
            }
        }
        Ok(())
    }

    /// Vacate the next bay, holding the carrier's own and those of finished carriers, and cross; else swap; else 7.
    #[inline]
    fn step(&mut self, carrier: u8, from: u8, to: u8) -> Result<(), Refusal> {
        if self.ways.vacate(&mut self.placed, &mut self.made, to, self.finished_bays.with(from)) {
            cross(&mut self.placed, &mut self.made, from, to);
        } else if !self.swap(from, to) {
            return Err(Refusal::Stopped(carrier as u64));
        }
        self.note_finished(from);
        self.note_finished(to);
        self.count_only_when_over();
        Ok(())
    }

    #[inline(always)]
    fn note_finished(&mut self, bay: u8) {
        if self.placed.at[bay as usize] < self.finished {
            self.finished_bays.insert(bay);
        } else {
            self.finished_bays.remove(bay);
        }
    }

    /// The carriers at u and w trade places, and all others are where they were.
    fn swap(&mut self, u: u8, w: u8) -> bool {
        let Some(found) = self.swaps.find(&mut self.ways, u, w, self.placed.empty) else { return false };
        if self.counted > 0 {
            self.counted += found.crossings.len() as u64;
        } else {
            let at = &self.placed.at;
            let by_origins = &self.swaps.found[found.crossings];
            self.made.crossings.extend(by_origins.iter().map(|&made| (at[(made >> 32) as usize & 255] as u64) << 32 | made & 0xFFFF_FFFF));
        }
        self.made.parked += found.parked;
        self.placed.at.swap(u as usize, w as usize);
        true
    }
}
