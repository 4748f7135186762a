//! What is kept beside a plan as its reports come in, laid out as `include/sejjekoru.h` says.

use crate::{Bay, Carrier};

/// Where the carriers stand, how many crossings are done, and the highest slot in which anything is done, or 0.
#[repr(C)]
#[derive(Clone, Copy, Debug, PartialEq, Eq)]
pub struct Record {
    /// The bay of each carrier; 0 beyond the carriers.
    pub at: [Bay; 256],
    /// How many crossings are done.
    pub done: u32,
    /// The highest slot in which anything is done, or 0.
    pub highest: u32,
}

/// Room for a record, for `open` to fill.
impl Default for Record {
    fn default() -> Self {
        Record { at: [Bay(0); 256], done: 0, highest: 0 }
    }
}

/// A carrier's account: the crossings billed and the last name accepted, [`UNTOUCHED`] before the first.
#[repr(C)]
#[derive(Clone, Copy, Debug, Default, PartialEq, Eq)]
pub struct Line {
    /// Line c is carrier c's.
    pub carrier: Carrier,
    /// Its crossings that are done.
    pub billed: u32,
    /// The last of their names, or [`UNTOUCHED`].
    pub last: u32,
}

/// The last name in a line to which nothing is billed; no crossing has it.
pub const UNTOUCHED: u32 = 65_536;
