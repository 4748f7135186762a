//! **Swap** of r at u and its neighbour s at w: each junction, nearest to u first, ties lowest, until a trial succeeds.
//!
//! Which crossings a swap takes depends on the occupied bays alone, not on who stands there. So a trial moves origins, the bays where the swap found
//! the carriers, and a swap that was found is kept and done again where the same rail is asked for with the same bays empty.

use crate::bays::Bays;
use crate::ways::{cross, crossing, Made, Placed, Ways};
use std::ops::Range;

/// A swap that was found: its crossings by origins, and how many of its vacates filled a junction.
#[derive(Clone, Debug)]
pub struct Found {
    pub crossings: Range<usize>,
    pub parked: u64,
}

/// A kept swap, of the order that was the `order`th.
#[derive(Clone)]
struct Kept<const W: usize> {
    order: u64,
    rail: (u8, u8),
    empty: Bays<W>,
    found: Found,
}

/// How far a pair was brought: to the bay for which this is kept.
#[derive(Clone)]
struct Brought<const W: usize> {
    placed: Placed<W>,
    /// Where the follower stands.
    back: u8,
    w_leads: bool,
    /// The bay from which it was brought on, and the crossings since.
    from: u8,
    crossings: Range<usize>,
    parked: u64,
}

pub struct Swaps<const W: usize> {
    /// Swaps that were found are kept.
    pub keeps: bool,
    order: u64,
    kept: Vec<Kept<W>>,
    /// The crossings of kept swaps.
    pub found: Vec<u64>,
    /// For the swap that is sought: the crossings of its trials, how far the pair was brought, where it could not be.
    made: Made,
    placed: Placed<W>,
    brought: Vec<Brought<W>>,
    was_brought: Bays<W>,
    stuck: Bays<W>,
    /// The bay before each on the shortest path from u, and the bays in the order in which they were met.
    before: [u8; 256],
    met: [u8; 256],
}

/// So many swaps are kept, each at a place that its rail and the empty bays give.
const KEPT: usize = 2_048;

/// With more crossings than this all kept swaps are forgotten.
const MOST_FOUND: usize = 1 << 19;

impl<const W: usize> Swaps<W> {
    pub fn new() -> Self {
        let (placed, found) = (Placed::new(), Found { crossings: 0..0, parked: 0 });
        let kept = Kept { order: 0, rail: (0, 0), empty: Bays::NONE, found };
        let brought = Brought { placed: placed.clone(), back: 0, w_leads: false, from: 0, crossings: 0..0, parked: 0 };
        Swaps {
            keeps: true,
            order: 0,
            kept: vec![kept; KEPT],
            found: Vec::new(),
            made: Made { crossings: Vec::new(), parked: 0 },
            placed,
            brought: vec![brought; 64 * W],
            was_brought: Bays::NONE,
            stuck: Bays::NONE,
            before: [0; 256],
            met: [0; 256],
        }
    }

    /// Nothing is kept for the next order.
    pub fn forget(&mut self) {
        self.order += 1;
        self.found.clear();
    }

    /// The swap over this rail, if there is one.
    pub fn find(&mut self, ways: &mut Ways<W>, u: u8, w: u8, empty: Bays<W>) -> Option<Found> {
        let mixed = (empty.mixed() ^ (u as u64) << 8 ^ w as u64).wrapping_mul(0xD6E8_FEB8_6659_FD93);
        let place = (mixed >> 40) as usize % KEPT;
        let kept = &self.kept[place];
        if self.keeps && kept.order == self.order && kept.rail == (u, w) && kept.empty == empty {
            return Some(kept.found.clone());
        }
        if self.found.len() > MOST_FOUND {
            self.forget();
        }
        let found = self.seek(ways, u, w, empty)?;
        self.kept[place] = Kept { order: self.order, rail: (u, w), empty, found: found.clone() };
        Some(found)
    }

    /// Junction after junction.
    fn seek(&mut self, ways: &mut Ways<W>, u: u8, w: u8, empty: Bays<W>) -> Option<Found> {
        self.made.crossings.clear();
        self.was_brought = Bays::NONE;
        self.stuck = Bays::NONE;
        self.met[0] = u;
        let (mut done, mut count) = (0, 1);
        let mut ring = Bays::only(u);
        let mut unmet = Bays::below(256).without(ring);
        while !ring.is_none() {
            for v in ring.and(ways.junctions) {
                if let Some(found) = self.trial(ways, u, w, v, empty) {
                    return Some(found);
                }
            }
            ring = Bays::NONE;
            for i in done..count {
                let bay = self.met[i];
                let new = ways.yard.joined[bay as usize].and(unmet);
                unmet = unmet.without(new);
                ring = ring.or(new);
                new.each(|next| {
                    self.before[next as usize] = bay;
                    self.met[count & 255] = next;
                    count += 1;
                });
                done += 1;
            }
        }
        None
    }

    /// Bring, clear and exchange at v, then undo.
    fn trial(&mut self, ways: &mut Ways<W>, u: u8, w: u8, v: u8, empty: Bays<W>) -> Option<Found> {
        let (w_leads, b) = self.bring(ways, u, w, v, empty)?;
        let (leader, follower) = if w_leads { (w, u) } else { (u, w) };
        let cleared = self.made.crossings.len();
        let Some((x, y)) = self.clear(ways, v, b) else {
            self.made.crossings.truncate(cleared);
            return None;
        };
        let first = self.found.len();
        self.gather(v);
        self.found.extend_from_slice(&self.made.crossings[cleared..]);
        let undone = self.found.len();
        self.found.extend([
            crossing(leader, v, x),
            crossing(follower, b, v),
            crossing(follower, v, y),
            crossing(leader, x, v),
            crossing(leader, v, b),
            crossing(follower, y, v),
        ]);
        self.undo(first, undone, leader, follower);
        Some(Found { crossings: first..self.found.len(), parked: self.made.parked })
    }

    /// Step 1: whether the carrier at w leads, and the bay of the follower. The leader is then at v. The shortest paths from u to all junctions are
    /// one tree, so the pair goes on from the last bay on its path to which it was brought before.
    fn bring(&mut self, ways: &mut Ways<W>, u: u8, w: u8, v: u8, empty: Bays<W>) -> Option<(bool, u8)> {
        let mut path = [0; 256];
        let mut rails = 0;
        let mut bay = v;
        while bay != u && bay != w && !self.was_brought.has(bay) {
            if self.stuck.has(bay) {
                return None;
            }
            path[rails & 255] = bay;
            rails += 1;
            bay = self.before[bay as usize];
        }
        let from = bay;
        let (w_leads, mut back) = if self.was_brought.has(from) {
            let brought = &self.brought[from as usize];
            self.placed.copy(&brought.placed);
            self.made.parked = brought.parked;
            (brought.w_leads, brought.back)
        } else {
            self.placed.at[..64 * W].copy_from_slice(&ORIGINS[..64 * W]);
            self.placed.empty = empty;
            self.made.parked = 0;
            (from == w, if from == w { u } else { w })
        };
        if rails == 0 {
            return Some((w_leads, back));
        }
        let made = self.made.crossings.len();
        let mut front = from;
        for &next in path[..rails & 255].iter().rev() {
            if !ways.vacate(&mut self.placed, &mut self.made, next, Bays::only(front).with(back)) {
                self.made.crossings.truncate(made);
                self.stuck.insert(next);
                return None;
            }
            cross(&mut self.placed, &mut self.made, front, next);
            cross(&mut self.placed, &mut self.made, back, front);
            (front, back) = (next, front);
        }
        let brought = &mut self.brought[v as usize];
        brought.placed.copy(&self.placed);
        (brought.back, brought.w_leads, brought.from, brought.parked) = (back, w_leads, from, self.made.parked);
        brought.crossings = made..self.made.crossings.len();
        self.was_brought.insert(v);
        Some((w_leads, back))
    }

    /// The crossings that brought the pair to v.
    fn gather(&mut self, v: u8) {
        let mut stages = [0; 256];
        let mut count = 0;
        let mut bay = v;
        while self.was_brought.has(bay) {
            stages[count & 255] = bay;
            count += 1;
            bay = self.brought[bay as usize].from;
        }
        for &bay in stages[..count & 255].iter().rev() {
            self.found.extend_from_slice(&self.made.crossings[self.brought[bay as usize].crossings.clone()]);
        }
    }

    /// Step 2. Two empty neighbours of v other than b, the lower first.
    fn clear(&mut self, ways: &mut Ways<W>, v: u8, b: u8) -> Option<(u8, u8)> {
        let mut others = ways.yard.joined[v as usize];
        others.remove(b);
        let mut kept = Bays::NONE;
        let mut count = 0;
        for bay in others.and(self.placed.empty).into_iter().take(2) {
            kept.insert(bay);
            count += 1;
        }
        let mut held = kept.with(v).with(b);
        for bay in others.without(kept) {
            if count == 2 {
                break;
            }
            if ways.vacate(&mut self.placed, &mut self.made, bay, held) {
                kept.insert(bay);
                held.insert(bay);
                count += 1;
            }
        }
        let mut pair = kept.into_iter();
        let e = pair.next()?;
        match pair.next() {
            Some(y) => Some((e, y)),
            None => self.go_on(ways, v, b, e).map(|x| (x.min(e), x.max(e))),
        }
    }

    /// Clearing ended with the one kept bay e: the first other neighbour x that one of two ways empties beside e. Each attempt starts
    /// where clearing ended; a failed one leaves no crossings.
    fn go_on(&mut self, ways: &mut Ways<W>, v: u8, b: u8, e: u8) -> Option<u8> {
        let others = ways.yard.joined[v as usize].without(Bays::only(b).with(e));
        let (present, made, parked) = (self.placed.clone(), self.made.crossings.len(), self.made.parked);
        for around in [false, true] {
            for x in others {
                let done = if around { self.vacate_around(ways, v, b, e, x) } else { self.vacate_aside(ways, v, b, e, x) };
                if done {
                    return Some(x);
                }
                self.placed.copy(&present);
                self.made.crossings.truncate(made);
                self.made.parked = parked;
            }
        }
        None
    }

    /// First way: x, then e again, which x may have filled.
    fn vacate_aside(&mut self, ways: &mut Ways<W>, v: u8, b: u8, e: u8, x: u8) -> bool {
        let held = Bays::only(v).with(b);
        ways.vacate(&mut self.placed, &mut self.made, x, held) && ways.vacate(&mut self.placed, &mut self.made, e, held.with(x))
    }

    /// Second way: leader and follower step forward, to e and v; x is vacated, then b again; and they step back.
    fn vacate_around(&mut self, ways: &mut Ways<W>, v: u8, b: u8, e: u8, x: u8) -> bool {
        cross(&mut self.placed, &mut self.made, v, e);
        cross(&mut self.placed, &mut self.made, b, v);
        let held = Bays::only(v).with(e);
        let done = ways.vacate(&mut self.placed, &mut self.made, x, held) && ways.vacate(&mut self.placed, &mut self.made, b, held.with(x));
        if done {
            cross(&mut self.placed, &mut self.made, v, b);
            cross(&mut self.placed, &mut self.made, e, v);
        }
        done
    }

    /// Step 4: the crossings of steps 1 and 2 backwards, each reversed, with leader and follower trading places in it.
    fn undo(&mut self, first: usize, undone: usize, leader: u8, follower: u8) {
        self.found.reserve(undone - first);
        for i in (first..undone).rev() {
            let made = self.found[i];
            let origin = match (made >> 32) as u8 {
                origin if origin == leader => follower,
                origin if origin == follower => leader,
                origin => origin,
            };
            self.found.push(crossing(origin, made as u8, (made >> 16) as u8));
        }
    }
}

/// At each bay its own number.
const ORIGINS: [u8; 256] = {
    let mut origins = [0; 256];
    let mut bay = 0;
    while bay < 256 {
        origins[bay] = bay as u8;
        bay += 1;
    }
    origins
};
