//! The yard: its limits, the refusals 1 to 6 by number, and which bays a rail joins.

use crate::bays::Bays;
use crate::docket::Refusal;

pub const FEWEST_BAYS: u64 = 2;
pub const MOST_BAYS: u64 = 256;
pub const MOST_RAILS: usize = 1024;
pub const MOST_CROSSINGS: usize = 65_536;

/// A yard whose sets of bays have `W` words.
pub struct Yard<const W: usize> {
    pub(crate) bays: usize,
    /// For each bay, those that a rail joins with it.
    pub(crate) joined: [Bays<W>; 256],
}

/// Does the same with sets of as many words as the yard needs.
macro_rules! by_words {
    ($bays:expr, $work:ident($($argument:expr),*)) => {
        match $bays {
            ..=64 => $work::<1>($($argument),*),
            65..=128 => $work::<2>($($argument),*),
            _ => $work::<4>($($argument),*),
        }
    };
}
pub(crate) use by_words;

impl<const W: usize> Yard<W> {
    /// No bays, no rails.
    pub const NONE: Self = Yard { bays: 0, joined: [Bays::NONE; 256] };

    /// Tests 1 to 6, and lays the rails into a table that has none. `crossings` is the length of the lent plan, 0 where none is lent.
    pub(crate) fn open(&mut self, bays: u64, rails: &[u16], start: &[u16], goal: &[u16], crossings: usize) -> Result<(), Refusal> {
        let size = (FEWEST_BAYS..=MOST_BAYS).contains(&bays)
            && rails.len() % 2 == 0
            && rails.len() / 2 <= MOST_RAILS
            && start.len() == goal.len()
            && crossings <= MOST_CROSSINGS;
        if !size {
            return Err(Refusal::Size);
        }
        self.bays = bays as usize;
        self.lay(rails)?;
        if let Some(bay) = Bays::below(self.bays).without(self.reached_from(0)).lowest() {
            return Err(Refusal::Apart(bay as u64));
        }
        if start.len() + 2 > self.bays {
            return Err(Refusal::Crowd);
        }
        match (self.first_misplaced(start), self.first_misplaced(goal)) {
            (Some(carrier), _) => Err(Refusal::Start(carrier)),
            (None, Some(carrier)) => Err(Refusal::Goal(carrier)),
            (None, None) => Ok(()),
        }
    }

    /// The rails are gone, and another yard can be opened.
    pub(crate) fn clear(&mut self) {
        self.joined[..self.bays].fill(Bays::NONE);
    }

    /// Test 2: the rails one after another.
    fn lay(&mut self, rails: &[u16]) -> Result<(), Refusal> {
        for (name, rail) in rails.chunks_exact(2).enumerate() {
            let (a, b) = (rail[0], rail[1]);
            if a as usize >= self.bays || b as usize >= self.bays || a == b || self.joined[a as usize & 255].has(b as u8) {
                return Err(Refusal::Rail(name as u64));
            }
            self.joined[a as usize & 255].note(b as u8);
            self.joined[b as usize & 255].note(a as u8);
        }
        Ok(())
    }

    /// The bays that a rail joins with one of `set`.
    #[inline(always)]
    pub(crate) fn beside(&self, set: Bays<W>) -> Bays<W> {
        let mut found = Bays::NONE;
        set.each(|bay| found = found.or(self.joined[bay as usize]));
        found
    }

    fn reached_from(&self, bay: u8) -> Bays<W> {
        let mut reached = Bays::only(bay);
        let mut edge = reached;
        while !edge.is_none() {
            edge = self.beside(edge).without(reached);
            reached = reached.or(edge);
        }
        reached
    }

    /// The first carrier whose bay is n or more, or already used.
    fn first_misplaced(&self, placement: &[u16]) -> Option<u64> {
        let mut used = Bays::<W>::NONE;
        let misplaced = placement.iter().position(|&bay| {
            let bad = bay as usize >= self.bays || used.has(bay as u8);
            if !bad {
                used.note(bay as u8);
            }
            bad
        });
        misplaced.map(|carrier| carrier as u64)
    }
}
