//! A crossing and its number in a plan: carrier times 2^32, plus from times 2^16, plus to.

use crate::{Bay, Carrier};
use core::fmt;

/// A carrier's move from one bay to another. Every number of a plan reads as one, and the other way round.
///
/// ```
/// use sejjekoru::{Bay, Carrier, Crossing};
///
/// let crossing = Crossing { carrier: Carrier(1), from: Bay(0), to: Bay(3) };
/// assert_eq!(u64::from(crossing), 1 << 32 | 3);
/// assert_eq!(Crossing::from(1 << 32 | 3), crossing);
/// assert_eq!(crossing.to_string(), "(move c1 b0 b3)");
/// ```
#[derive(Clone, Copy, Debug, PartialEq, Eq, Hash)]
pub struct Crossing {
    /// Who crosses.
    pub carrier: Carrier,
    /// The bay that it leaves.
    pub from: Bay,
    /// The bay that it enters.
    pub to: Bay,
}

impl From<u64> for Crossing {
    fn from(number: u64) -> Self {
        Crossing { carrier: Carrier((number >> 32) as u32), from: Bay((number >> 16) as u16), to: Bay(number as u16) }
    }
}

impl From<Crossing> for u64 {
    fn from(x: Crossing) -> Self {
        u64::from(x.carrier.0) << 32 | u64::from(x.from.0) << 16 | u64::from(x.to.0)
    }
}

/// As it stands in a printed plan: `(move c1 b0 b3)`.
impl fmt::Display for Crossing {
    fn fmt(&self, f: &mut fmt::Formatter<'_>) -> fmt::Result {
        write!(f, "(move {} {} {})", self.carrier, self.from, self.to)
    }
}
